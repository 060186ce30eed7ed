#!/usr/bin/env python3
"""refusals.py FILE..: prints each must-fail edit whose text is not LANDED's, with what changed and the goal or law that refuses it, from what rt ci said."""
import re, subprocess, sys

LANDED = "f34c601"
said = {}
for f in sys.argv[1:]:
    for l in open(f, encoding="utf-8", errors="replace"):
        m = re.match(r"rt: must-fail (\w+)/(\w+)\.edit: (.*)", l)
        if m:
            said[m[1], m[2]] = m[3]


def shown(p):
    return subprocess.run(["git", "show", f"{LANDED}:{p}"], capture_output=True, text=True).stdout


def pairs(text):
    out, file = [], ""
    for l in text.split("\n"):
        if l.startswith("file: "):
            file = l[6:]
        elif l.startswith("old:"):
            old = l[4:].strip()
        elif l.startswith("new:"):
            out.append((file, old, l[4:].strip()))
    return out


key = lambda s: re.sub(r"[^a-z0-9]", "", re.sub(r"\b(now|entry|exit|if|choose|getD|get_or|specs)\b", "", s).lower())
print("| Edit | Changed | Refused at |\n|---|---|---|")
n = 0
for p in sorted(x for x in subprocess.run(["git", "ls-tree", "-r", "--name-only", LANDED, "crates"], capture_output=True, text=True).stdout.split() if x.endswith(".edit")):
    c, l = p.split("/")[1], p.split("/")[3][:-5]
    old, new = shown(p), open(p, encoding="utf-8").read()
    if old.strip() == new.strip():
        continue
    a, b = pairs(old), pairs(new)
    what = []
    lost = [x for x in a if x[0].endswith("Proof.antt")]
    if lost:
        k = [x for x in b if x[0].endswith("Answers.antt")]
        what.append(f"{len(lost)} pairs for a Proof.antt " + (f"are {len(k)} for Answers.antt" if k else "left out"))
    aa = [x for x in a if not x[0].endswith("Proof.antt")]
    bb = [x for x in b if not x[0].endswith("Answers.antt")]
    if len(bb) < len(aa):
        what.append(f"{len(aa) - len(bb)} pairs left out that made laws or imports follow")
    if len(bb) > len(aa):
        what.append(f"{len(bb) - len(aa)} pairs more, told above")
    more = [x for x in b if x[0].endswith("Answers.antt")]
    if more and not lost:
        what.append(f"{len(more)} pairs more for Answers.antt")
    if {x[0] for x in bb if x[0].startswith("proofs/")} - {x[0] for x in aa}:
        what.append("its law stands in proofs/")
    sp = [x for x, y in zip(aa, bb) if len(aa) == len(bb) and (key(x[1]), key(x[2])) != (key(y[1]), key(y[2]))]
    if sp:
        what.append("words, told above" if len(aa) == len(bb) else "")
    if not what:
        what.append("spelling")
    m = said.get((c, l), "")
    q = re.search(r"(\./|note: )?((?:specs|proofs|src)/\S+?):\d+:\d+:.*?`([^`]+)`", m)
    at = f"`{q[3]}` of {q[2]}" if q else (m[:80] or "?")
    g = re.search(r"\(`([^`]+)`\)", m)
    if m and "it is not proved that" in m and g:
        at = f"`{g[1]}` of {q[2] if q else ''}"
    n += 1
    print(f"| `{c}/{l}` | {'; '.join(x for x in what if x)} | {at} |")
print(f"\n{n} edits.")
