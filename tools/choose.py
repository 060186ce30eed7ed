#!/usr/bin/env python3
"""choose.py: renames the sealed if_then_else_ of ground, which today's library has a word of that spelling beside, to choose_then_else_, once.

usage: python3 tools/choose.py       at the top of the repository, after respell.py
In specs/ and proofs/ `if b then x else y` becomes `choose b then x else y`, and so in the must-fail edits' lines for these. Rust's own `if` in src/ stays.
"""
import glob
import re

OP = "if◌then◌else◌"
WORD = re.compile(r"(?<![^\s(){}\[\],;.`\"|:])if(?=[\s.])(?!\.)")


def turn(line):
    code, mark, rest = line, "", ""
    if line.lstrip().startswith("--"):
        return line
    return WORD.sub("choose", code).replace(OP, "choose◌then◌else◌") + mark + rest


n = 0
for p in sorted(glob.glob("crates/*/specs/**/*.antt", recursive=True) + glob.glob("crates/*/proofs/**/*.antt", recursive=True)):
    s = open(p, encoding="utf-8").read()
    r = "\n".join(turn(x) for x in s.split("\n"))
    if r != s:
        n += 1
        open(p, "w", encoding="utf-8").write(r)
for p in sorted(glob.glob("crates/*/must-fail/*.edit")):
    out, antt = [], False
    s = open(p, encoding="utf-8").read()
    for x in s.split("\n"):
        if x.startswith("file: "):
            antt = x.endswith(".antt")
        if antt and x.startswith(("old:", "new:")):
            x = x[:4] + turn(x[4:]) if not x[4:].lstrip().startswith("--") else x
        out.append(x)
    r = "\n".join(out)
    if r != s:
        n += 1
        open(p, "w", encoding="utf-8").write(r)
for p in sorted(glob.glob("crates/*/src/**/*.rt", recursive=True)):
    s = open(p, encoding="utf-8").read()
    out = []
    for x in s.split("\n"):
        if re.match(r"\s*(requires|ensures)\b", x) or OP in x:
            x = WORD.sub("choose", x).replace(OP, "choose◌then◌else◌")
        out.append(x)
    r = "\n".join(out)
    if r != s:
        n += 1
        open(p, "w", encoding="utf-8").write(r)
print(n, "files")
