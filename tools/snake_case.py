#!/usr/bin/env python3
"""Respells the repository's own definitions, lemmas and record fields in specs/ and proofs/ to snake case.

usage: python3 tools/snake_case.py [--list]     once, at the top of the repository; --list only prints what would change

A fact or a type keeps its capitals, and a dash stays beside one, and beside a definition of several words. A name that Rattle makes (a goal, an invariant) or
that std declares keeps its spelling, and so do the functions, strings, inputs and outputs of the programs.
"""
import os
import re
import sys

# Names that would fall together with another one, spelled by hand.
BY_HAND = {
    "box-hit": "hits_box",
    "hit-at": "hit_at_index",
    "cell-centre": "cell_centre_on_grid",
    "step-on": "exact_step_on",
    "whole-root": "whole_root_lem",
}

TOKEN = re.compile(r"[^\s(){}\[\].,;«»\"λ]+")
CAMEL = re.compile(r"[a-z0-9][A-Z]")


def files():
    for folder, dirs, names in os.walk("crates"):
        dirs[:] = sorted(d for d in dirs if d not in ("out", ".git"))
        for name in sorted(names):
            if name.endswith((".rt", ".antt")):
                yield os.path.join(folder, name)


def declared(path, text):
    """The names that a .antt file declares: at the left margin, and fields and constructors below a record or a data type."""
    for line in text.split("\n"):
        if line.startswith("--"):
            continue
        m = re.match(r"((?:(?:abbrev|unfoldable|pub|data|record|ruleset|mutual) )*)([^\s:(){}]+)\s*(.*)$", line)
        if m and line[0] not in " \t" and m.group(2) not in ("use", "mod", "open", "unfolding", "infixl", "infixr", "infix", "module"):
            rest = m.group(3)
            if rest.startswith(": goal."):
                continue
            if m.group(1) or rest.startswith(":"):
                yield m.group(2)
        m = re.match(r"\s+(?:(?:abbrev|unfoldable|pub) )*([^\s:(){}]+) :(?:\s|$)", line)
        if m:
            yield m.group(1)


def is_name(part):
    return part[:1].isupper() or CAMEL.search(part) is not None


def snake(name):
    if name in BY_HAND:
        return BY_HAND[name]
    parts = name.split("-")
    out = ""
    for k, part in enumerate(parts):
        if k:
            out += "-" if is_name(parts[k - 1]) or is_name(part) else "_"
        if part[:1].isupper():
            out += part
        else:
            out += re.sub(r"(?<=[a-zA-Z0-9])([A-Z])", lambda m: "_" + m.group(1).lower(), part)
    return out


def main():
    texts = {p: open(p, encoding="utf-8").read() for p in files()}
    own, made, std = set(), set(), set()
    for p, t in texts.items():
        if p.endswith(".antt"):
            own.update(declared(p, t))
            made.update(re.findall(r"^(?:abbrev )?pub (\S+) : goal\.", t, re.M))
        for m in re.finditer(r"use (Rattle\.std\S*|Prim\S*|lib\.\S*|mathlib\S*|core\S*)\.\{([^}]*)\}", t):
            std.update(x.strip() for x in m.group(2).split(","))
    change = {}
    for name in own - made - std:
        if name.startswith(("invariant-", "decreases-", "ghost-")):
            continue
        new = snake(name)
        if new != name:
            change[name] = new
    clash = []
    result = {}
    for p, t in texts.items():
        result[p], pairs = respell(p, t, change)
        back = {}
        for old, new in pairs:
            back.setdefault(new, set()).add(old)
        for new, olds in back.items():
            if len(olds) > 1:
                clash.append((p, new, sorted(olds)))
    if "--list" in sys.argv:
        for name in sorted(change):
            print(name, change[name])
        for p, new, olds in clash:
            print("clash", p, new, *olds)
        return
    for p, t in result.items():
        if t != texts[p]:
            open(p, "w", encoding="utf-8").write(t)


def respell(path, text, change):
    pairs = set()

    def one(m):
        word = m.group(0)
        new = change.get(word, word)
        pairs.add((word, new))
        return new

    comment = "--" if path.endswith(".antt") else "//"
    out = []
    depth, ghost = 0, path.endswith(".antt")
    for line in text.split("\n"):
        body, mark, note = line, "", ""
        at = re.search(r"(^|\s)" + comment, line)
        if at and '"' not in line[: at.start()]:
            body, mark, note = line[: at.start()], line[at.start():at.end()], line[at.end():]
        if path.endswith(".antt"):
            body = TOKEN.sub(one, body)
        elif depth or re.match(r"\s*(requires|ensures|ghost|pub ghost)\b", body):
            # a clause or a ghost item, up to its last brace or semicolon
            depth = max(0, depth + body.count("{") - body.count("}"))
            body = TOKEN.sub(one, body)
        # a comment names a definition only in camel case
        note = TOKEN.sub(lambda m: change[m.group(0)] if m.group(0) in change and CAMEL.search(m.group(0)) else m.group(0), note)
        out.append(body + mark + note)
    return "\n".join(out), pairs


if __name__ == "__main__":
    main()
