#!/usr/bin/env python3
"""Lists the lines of crates/*/src where a plainer form might serve, by point, 1 to 8.

usage: python3 PATH/TO/tools/places.py [POINT], at the top of a checkout

A line that is printed is a candidate: docs/DESIGN-PASS.md says which of them are places. Some patterns are the names of what stood
at the commit in its first line, so that fewer lines do not say by themselves that less is left.
"""
import collections
import glob
import itertools
import re
import sys

POINTS = {
    1: ("options, results, numbers for kinds", [
        r"^\s*(pub(\(crate\))? )?enum ",
        r"-> \((bool|Outcome), Option|, Option<.*\)$|^\) -> \(bool",
        r"Err\(\w+\) => (return )?(Err\(|Outcome::Refused|\(Outcome)",
        r"\bNone => (return )?None\b",
        r"Result<[^>]*, u(8|16|32)>",
        r"fn number\(|fn \w+_number\(|kind: u8|fn read\(|fn voxel_state|\[u8; 512\]",
        r"-> Turn",
    ]),
    3: ("loops and counts by hand", [
        r"\bfor \(?\w+(, \w+)?\)? in .*(\.\.|enumerate\(\))",
        r"\bwhile ",
        r"\bloop \{",
        r"\w+ \+= 1\b",
        r"saturating_add\(1\)",
    ]),
    4: ("equality, order, copies, conversions and printing by hand", [
        r"fn (min|max|clamp|eq|cmp|partial_cmp|clone|min_position|nearest_place|check_hit)\b",
        r"fn (number|side_number|side_feature|done_or|keyword_of|spells|key_of|or_edge|is_sight|next_key)\b",
        r"fn \w+_text\(",
        r"\b(\w+): \w+\.\1,$",
        r"([\w.]+) (<|<=|>|>=) -?\w[\w.]* (\|\||&&) \1 (<|<=|>|>=) -?\w[\w.]*",
        r"\b(id|exponent) as u32",
    ]),
    6: ("buffers, arrays and searches by hand", [
        r"\[[\w<>]+; ?\w+\]",
        r"\[\w+; \d+\]|\[0; ",
        r"binary_search|position\(",
    ]),
    7: ("switches and tables of functions", [
        r"\bdyn \b",
        r"\bfn\(|: fn\b|\bFn(Mut|Once)?\(",
        r"\bmatch \*?(self|axis|keyword|side|statement)\b",
    ]),
}


def sources():
    for path in sorted(glob.glob("crates/*/src/**/*.rt", recursive=True)):
        with open(path) as file:
            yield path, file.read()


def by_pattern(patterns):
    for path, text in sources():
        for n, line in enumerate(text.split("\n"), 1):
            code = line.split("//")[0]
            if code.strip().startswith(("ghost ", "ensures", "requires")):
                continue
            if any(re.search(p, code) for p in patterns):
                print(f"{path}:{n}: {line.strip()}")


def functions(text):
    """Each function's name and parameters."""
    for m in re.finditer(r"fn (\w+)[^(]*\(([^)]*)\)", text):
        yield m.group(1), m.group(2)


def shape(body):
    """The body with every name, number, sign and comparison made the same."""
    body = re.sub(r"//.*", "", body)
    body = re.sub(r"\b-?\d[\w.]*\b", "N", body)
    body = re.sub(r"b'[^']*'", "N", body)
    body = re.sub(r"<=|>=|<|>", "<", body)
    body = re.sub(r"\b[a-z_]\w*\b", "v", body)
    body = re.sub(r"\b[A-Z]\w*\b", "T", body)
    return re.sub(r"[-!\s]+", "", body)


def twins():
    """Functions and types whose text is the same but for names, numbers and signs of comparison."""
    groups = collections.defaultdict(list)
    for path, text in sources():
        for m in re.finditer(r"^( *)(pub(\(crate\))? )?(fn|struct) (\w+)", text, re.M):
            indent = m.group(1)
            end = text.find(f"\n{indent}}}", m.start())
            if end < 0:
                continue
            whole = text[m.start():end]
            if m.group(4) == "fn" and ";" in whole.split("{")[0]:
                continue
            start = whole.find("{\n") if m.group(4) == "struct" else whole.find(f"\n{indent}{{")
            body = whole[start:]
            if start > 0 and len(shape(body)) > 12:
                groups[m.group(4) + shape(body)].append(f"{path}:{m.group(5)}")
    for group in groups.values():
        if len(group) > 1:
            print("  ".join(group))


def together():
    """Clauses in three or more contracts, and parameters together in three or more signatures."""
    clauses = collections.Counter()
    groups = collections.defaultdict(set)
    for path, text in sources():
        if path.endswith("tests.rt"):
            continue
        for m in re.finditer(r"(?:requires|ensures)(?: \w+)? \{ (.*) \}$", text, re.M):
            clauses[m.group(1)] += 1
        for name, params in functions(text):
            ps = [re.sub(r"\s+", " ", p.strip()) for p in params.split(",") if ":" in p]
            ps = [p for p in ps if not p.startswith(("rt:", "f:"))]
            for k in range(2, 6):
                for c in itertools.combinations(ps, k):
                    groups[c].add(f"{path}:{name}")
    for clause, n in clauses.most_common():
        if n >= 3:
            print(f"{n} times: {clause}")
    shown = []
    for c, where in sorted(groups.items(), key=lambda x: (-len(x[0]), -len(x[1]))):
        if len(where) >= 3 and not any(set(c) <= set(d) and where <= v for d, v in shown):
            shown.append((c, where))
            print(f"{len(where)} together: {', '.join(c)}")


def proofs():
    """How much stands in proofs/, and how many answer files only let the check search."""
    files = [f for f in glob.glob("crates/*/proofs/**/*.antt", recursive=True) if "/out/" not in f]
    answers = [f for f in files if f.endswith("Answers.antt")]
    lines = 0
    searches = 0
    for path in files:
        with open(path) as file:
            text = file.read()
        lines += text.count("\n")
        if path in answers:
            code = [x for x in text.split("\n") if x and not x.startswith(("use ", "pub ", "unfolding ", "--"))]
            searches += all(re.fullmatch(r"[\w\-'+]+ (g )?c = search rules", x) for x in code)
    print(f"{len(files)} files")
    print(f"{lines} lines")
    print(f"{len(answers)} answer files")
    print(f"{searches} answer files with nothing but `search rules`")


def main():
    wanted = [int(sys.argv[1])] if len(sys.argv) > 1 else range(1, 9)
    for point in wanted:
        if point in POINTS:
            print(f"== {point}: {POINTS[point][0]}")
            by_pattern(POINTS[point][1])
        elif point == 2:
            print("== 2: twins")
            twins()
        elif point == 5:
            print("== 5: facts and parameters that go together")
            together()
        elif point == 8:
            print("== 8: proofs")
            proofs()
        else:
            sys.exit(f"no point {point}")


main()
