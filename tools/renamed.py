#!/usr/bin/env python3
"""renamed.py: prints the last part of docs/PORT.md, the names that specs/ declares at LANDED beside today's, file by file, where they differ."""
import json, os, re, subprocess

LANDED = "f34c601"
DECL = re.compile(r"^\s*(?:(?:unfoldable |abbrev |pub |axiom )*)([^\s:(){}]+)(?:(?: ?\{[^}]*\}| ?\([^)]*\))*) :(?: |$)")
HEAD = re.compile(r"^\s*(?:pub |unfoldable |abbrev )*(?:record|data) ([^\s:(){}]+)")
INFIX = re.compile(r"^\s*(?:let|use|--)")


CHOSEN = json.load(open("tools/respelled.json"))


def declared(text):
    out = []
    for line in text.split("\n"):
        if INFIX.match(line):
            continue
        m = HEAD.match(line) or DECL.match(line)
        if m:
            out.append(m[1])
    return out


def plain(name):
    return re.sub(r"[«»]", "", name.replace("′", "'").replace("_", "◌")) if not re.search(r"[a-z]", name.replace("_", "")) else re.sub(r"[«»]", "", name.replace("′", "'"))


def main():
    print("## Names that were respelled, crate by crate\n")
    print("Made by `tools/renamed.py`: of each file of `specs/`, the declared names (fields among them) whose spelling differs; all others are as they were.")
    files = subprocess.run(["git", "ls-tree", "-r", "--name-only", LANDED, "crates"], capture_output=True, text=True).stdout.split("\n")
    crate = None
    for f in sorted(x for x in files if re.match(r"crates/\w+/specs/.*\.antt$", x)):
        old = declared(subprocess.run(["git", "show", f"{LANDED}:{f}"], capture_output=True, text=True).stdout)
        new = []
        for g in (f, f.replace("/specs/", "/proofs/")):
            if os.path.exists(g):
                new += declared(open(g, encoding="utf-8").read())
        name = f.split("/")[1]
        key = lambda s: re.sub(r"[^a-z0-9]", "", s.lower())
        left = list(new)
        rows = []
        for o in old:
            to = CHOSEN.get(o)
            if to in left:
                left.remove(to)
                rows.append((o, to))
                continue
            hit = next((n for n in left if n == o), None) or next((n for n in left if key(n) == key(o)), None)
            if hit is None:
                rows.append((o, "see docs/PORT.md"))
                continue
            left.remove(hit)
            if hit != o and plain(o) != hit:
                rows.append((o, hit))
        if rows:
            if name != crate:
                print(f"\n## {name}\n")
                crate = name
            print(f"- `{os.path.basename(f)}`: " + ", ".join(f"`{o}` → {'`' + n + '`' if not n.startswith('see') else n}" for o, n in rows))


main()
