#!/usr/bin/env python3
"""edits.py: brings the must-fail edits of LANDED over to the text as it stands today.

usage: python3 tools/edits.py            at the top of the repository: writes each crates/*/must-fail/*.edit anew
       python3 tools/edits.py --check    writes nothing: each old text stands exactly once in its file, and each pair is LANDED's, respelled
       python3 tools/edits.py --map      prints the names of LANDED that are spelled otherwise today

An edit of LANDED is turned by its spelling alone: names by the map of the two texts' declared names, operators with a hole (_+_), projections
written tight, marks of field names. Where the text does not stand exactly once, the whole line that holds it in LANDED is taken. An edit of which
a pair does not come over that way is printed, and its file left as it stands, for the hand; --check prints as 'by hand:' each edit that is not
LANDED's respelled. A pair of LANDED for a proof file is left out: those files are gone, and such a pair only kept the proof following; pairs
for today's proof files are written by hand, and --check looks only whether their old text stands.
"""
import difflib
import glob
import json
import os
import re
import subprocess
import sys

LANDED = "f34c601"
DECL = re.compile(r"^(\s*)((?:unfoldable |abbrev |pub |axiom )*)([^\s:(){}]+)((?: ?\{[^}]*\}| ?\([^)]*\))*) :(?: |$)")
HEAD = re.compile(r"^\s*(?:pub |unfoldable |abbrev )*(record|data) ([^\s:(){}]+)")
TOKEN = re.compile(r"[^\s(){}\[\],;.`\"|:]+")
# what port.py spells otherwise and no declaration tells
PLAIN = {"getD": "get_or", "vec-len": "length"}
# between two of these stands an application
BREAKS = set("→ = ≡ ≤ < × ⊎ ↔ ∷ ++ + - * / % ∙ and or if then else in λ ; , : ∧ ∨ ⊥ let where".split())


def shown(path):
    r = subprocess.run(["git", "show", f"{LANDED}:{path}"], capture_output=True, text=True)
    return r.stdout if r.returncode == 0 else None


def landed_files():
    return subprocess.run(["git", "ls-tree", "-r", "--name-only", LANDED, "crates"], capture_output=True, text=True).stdout.split("\n")


def declared(text):
    names = []
    for line in text.split("\n"):
        if line.lstrip().startswith(("--", "use ", "pub use ", "let ")):
            continue
        m = HEAD.match(line)
        if m:
            names.append(m[2])
            continue
        m = DECL.match(line)
        if m:
            names.append(m[3])
    return names


def names():
    """LANDED's declared names beside today's, file by file in order, for those that differ; and files whose lists do not run along."""
    out, odd, chosen = {}, [], {}
    if os.path.exists("tools/respelled.json"):
        with open("tools/respelled.json") as f:
            chosen = json.load(f)
    files = [p for p in landed_files() if "/specs/" in p and p.endswith(".antt")]
    for p in files:
        old = declared(shown(p))
        if not os.path.exists(p):
            odd.append(p)
            continue
        with open(p, encoding="utf-8") as f:
            new = declared(f.read())
        if len(old) == len(new):
            pairs = list(zip(old, new))
        else:
            a, b = [flat(x) for x in old], [flat(x) for x in new]
            pairs = []
            for tag, i, j, k, l in difflib.SequenceMatcher(None, a, b, autojunk=False).get_opcodes():
                if tag == "equal" or j - i == l - k:
                    pairs += zip(old[i:j], new[k:l])
                else:
                    odd.append(f"{p}: {' '.join(old[i:j])} | {' '.join(new[k:l])}")
        for x, y in pairs:
            if x == y:
                continue
            if flat(x) != flat(y):
                odd.append(f"{p}: {x} | {y}")
            elif out.setdefault(x, y) != y:
                odd.append(f"{p}: {x} is {y} here, and {out[x]}")
    for x in chosen:
        # a name may have been respelled more than once
        y, seen = chosen[x], {x}
        while y in chosen and y not in seen:
            seen.add(y)
            y = chosen[y]
        if out.setdefault(x, y) != y:
            odd.append(f"tools/respelled.json: {x} is {y} here, and {out[x]}")
    return out, odd


def flat(name):
    return re.sub(r"[-_◌'′«»]", "", name).lower()


def words(text):
    """Brackets, words and the spaces between them."""
    return re.findall(r"\s+|[(){}\[\],;]|[^\s(){}\[\],;]+", text)


def projected(text):
    """It is x.g or (..).g alone."""
    depth = 0
    for i, c in enumerate(text):
        depth += (c == "(") - (c == ")")
        if depth == 0 and (c == ")" or text[0] != "("):
            if c == ")":
                return bool(re.fullmatch(r"(?:\.[\w'«»]+)+", text[i + 1:]))
            return bool(re.fullmatch(r"[\w'«»]+(?:\.[\w'«»]+)+", text))
    return False


def tight(text):
    """Projections written tight: `f a .g` is (f a).g, `(x .g)` is x.g."""
    pos = 0
    tokens = words(text)

    def run(close):
        nonlocal pos
        out = []  # pieces, among them spaces
        begin = 0  # where the application begins in out
        while pos < len(tokens):
            t = tokens[pos]
            if t == close:
                break
            pos += 1
            if t in "([{":
                inside = run({"(": ")", "[": "]", "{": "}"}[t])
                end = tokens[pos] if pos < len(tokens) else ""
                pos += 1
                if t == "(" and projected(inside):
                    out.append(inside)
                else:
                    out.append(t + inside + end)
                if t == "{":
                    begin = len(out)
            elif t.isspace():
                out.append(t)
            elif re.fullmatch(r"\.[\w'«»]+", t) and [x for x in out[begin:] if not x.isspace()]:
                atoms = [x for x in out[begin:] if not x.isspace()]
                lead = []
                rest = out[begin:]
                while rest and rest[0].isspace():
                    lead.append(rest.pop(0))
                while rest and rest[-1].isspace():
                    rest.pop()
                out[begin:] = lead + [("".join(rest) if len(atoms) == 1 else "(" + "".join(rest) + ")") + t]
            else:
                out.append(t)
                if t in BREAKS or t.endswith(".") or t in ",;":
                    begin = len(out)
        return "".join(out)

    return run(None)


class Spelling:
    def clause(self, text, result):
        """A clause that speaks of no & or &mut."""
        if result:
            text = re.sub(rf"(?<![\w.'-]){result}(?![\w'-])", "result", text)
        return self.text(text, True)

    def __init__(self):
        self.map, self.odd = names()
        self.map.update(PLAIN)

    def name(self, t):
        return self.map.get(t, t)

    def text(self, text, antt):
        if not antt:
            return re.sub(r"(ensures|requires) \{ (?:λ (\w+)\. )?⌜ (.*?) ⌝ \}", lambda m: f"{m[1]} {{ {self.clause(m[3], m[2])} }}", text)
        text = TOKEN.sub(lambda m: self.name(m[0]), text)
        text = re.sub(r"«(\w+)»", r"\1", text)
        text = re.sub(r"(?<![\w'])_(\S+?)_(?![\w'])", r"◌\1◌", text)
        text = text.replace("′", "'")
        text = re.sub(r"(?<!use )\b(?:Prim\.Native\.Nat|mathlib\.Core\.(?:Bool|Path|List))\.(?!\{)", "Rattle.std.specs.Prelude.", text)
        text = re.sub(r"Rattle·(\w+)(?:·specs)?\.specs\.", r"Rattle.\1.specs.", text)
        return tight(text)


def read(text):
    """An edit as (file, old, new) triples, and its other lines."""
    file, old, out, head = None, None, [], []
    for line in text.split("\n"):
        if line.startswith("file: "):
            file = line[6:].strip()
        elif line.startswith("old: "):
            old = line[5:]
        elif line.startswith("new:"):
            out.append((file, old, line[5:]))
        elif line:
            head.append(line)
    return head, out


def written(head, pairs):
    out, file = list(head), None
    for f, old, new in pairs:
        if f != file:
            out.append("file: " + f)
            file = f
        out += ["old: " + old, ("new: " + new).rstrip(" ") if not new else "new: " + new]
    return "\n".join(out) + "\n"


def turned(spelling, crate, pairs):
    """The pairs of LANDED in today's spelling, and what did not come over."""
    then, now, out, bad = {}, {}, [], []
    for file, old, new in pairs:
        path = f"crates/{crate}/{file}"
        if path not in then:
            then[path] = shown(path)
            now[path] = None
            if os.path.exists(path):
                with open(path, encoding="utf-8") as f:
                    now[path] = f.read()
        if then[path] is None or then[path].count(old) != 1:
            bad.append(f"{path}: LANDED has not exactly once: {old}")
            out.append((file, old, new))
            continue
        at = then[path].index(old)
        begin = then[path].rfind("\n", 0, at) + 1
        end = then[path].find("\n", at)
        line = then[path][begin:end]
        after = then[path][begin:at] + new + then[path][at + len(old):end]
        then[path] = then[path][:begin] + after + then[path][end:]
        antt = file.endswith(".antt")
        tries = [(spelling.text(old, antt), spelling.text(new, antt)), (spelling.text(line, antt), spelling.text(after, antt))]
        for o, n in tries:
            if now[path] is not None and now[path].count(o) == 1 and o != n:
                now[path] = now[path].replace(o, n)
                out.append((file, o, n))
                break
        else:
            many = 0 if now[path] is None else now[path].count(tries[0][0])
            bad.append(f"{path}: {'no such file' if now[path] is None else f'stands {many} times'}: {tries[0][0]}")
            out.append((file, *tries[0]))
    return out, bad


def main():
    spelling = Spelling()
    if "--map" in sys.argv:
        print(json.dumps({"names": spelling.map, "look": spelling.odd}, indent=1, ensure_ascii=False, sort_keys=True))
        return 0
    check = "--check" in sys.argv
    wrong = same = 0
    edits = [p for p in landed_files() if p.endswith(".edit")]
    for p in edits:
        crate = p.split("/")[1]
        head, pairs = read(shown(p))
        pairs = [x for x in pairs if not x[0].startswith("proofs/")]
        out, bad = turned(spelling, crate, pairs)
        if not os.path.exists(p):
            print(f"gone: {p}")
            wrong += 1
            continue
        with open(p, encoding="utf-8") as f:
            today = f.read()
        if check:
            mine, here = read(today)[1], {}
            for file, old, new in mine:
                path = f"crates/{crate}/{file}"
                if path not in here:
                    here[path] = open(path, encoding="utf-8").read() if os.path.exists(path) else ""
                if here[path].count(old) != 1 or old == new:
                    print(f"bad: {p}: stands {here[path].count(old)} times in {file}: {old}")
                    wrong += 1
                here[path] = here[path].replace(old, new, 1)
            if read(today)[0] != head:
                print(f"by hand: {p}: other words above")
            if [x for x in mine if not x[0].startswith("proofs/")] == out and not bad:
                same += 1
            else:
                print(f"by hand: {p}")
            continue
        for b in bad:
            print(f"left: {p}: {b}")
        wrong += bool(bad)
        same += not bad
        kept = [x for x in read(today)[1] if x[0].startswith("proofs/") and os.path.exists(f"crates/{crate}/{x[0]}") and not x[0].endswith("/Proof.antt")]
        text = written(head, out + kept)
        if text != today and not bad:
            with open(p, "w", encoding="utf-8") as f:
                f.write(text)
    extra = sorted(set(glob.glob("crates/*/must-fail/*.edit")) - set(edits))
    for p in extra:
        print(f"new: {p}")
    print(f"edits: {len(edits)} of LANDED, {same} as LANDED's but for spelling, {wrong} {'bad texts' if check else 'left'}")
    return 1 if wrong else 0


if __name__ == "__main__":
    raise SystemExit(main())
