#!/usr/bin/env python3
"""moved.py CRATE..: prints, whole, the statements of the laws that stood in specs/ at LANDED and stand in proofs/ today, file by file."""
import glob
import os
import re
import sys

DECL = re.compile(r"^(\s*)((?:unfoldable |abbrev |pub )*)([^\s:(){}]+)((?: ?\{[^}]*\}| ?\([^)]*\))*) :(?: |$)")
HEAD = re.compile(r"^(\s*)((?:pub |unfoldable |abbrev )*)(record|data) ([^\s:(){}]+)")


def shown(path):
    """The sections and, in them, the definitions whole and of each law the statement; helpers under a where are no laws."""
    lines = open(path, encoding="utf-8").read().split("\n")
    out, stack, i = [], [], 0
    while i < len(lines):
        l = lines[i]
        indent = len(l) - len(l.lstrip())
        if not l.strip() or l.lstrip().startswith(("--", "use ", "pub use ")):
            i += 1
            continue
        while stack and stack[-1] >= indent:
            stack.pop()
        if l.lstrip().startswith("module "):
            if not indent:
                out.append("")
            out.append(l)
            while not lines[i].rstrip().endswith("where"):
                i += 1
                out.append(lines[i])
            stack.append(indent)
            i += 1
            continue
        head, law = HEAD.match(l), DECL.match(l)
        if not (head or law) or indent != 2 * len(stack):
            i += 1
            continue
        name = head[4] if head else law[3]
        whole = head or "abbrev" in law[2] or "unfoldable" in law[2]
        ended = False
        while i < len(lines):
            x = lines[i]
            deep = len(x) - len(x.lstrip())
            if x is not l and x.strip() and (deep < indent or deep == indent and not re.match(rf"\s*({re.escape(name)}\s|unfolding )", x) and not re.match(r"\s*[)\]}]", x)):
                break
            if not whole and x is not l and x.strip() and deep == indent:
                ended = True
            if x.strip() and not x.lstrip().startswith("--") and not ended:
                out.append(x)
            i += 1
    return "\n".join(out).strip("\n")


for crate in sys.argv[1:]:
    print(f"### {crate}\n")
    for p in sorted(glob.glob(f"crates/{crate}/proofs/*.antt")):
        if os.path.basename(p) != "Lib.antt":
            print(f"`{p}`\n\n```text\n{shown(p)}\n```\n")
