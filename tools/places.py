#!/usr/bin/env python3
"""Counts and lists, point by point, the places in crates/*/src that docs/DESIGN-PASS.md is about, at a commit or as the files stand.

    tools/places.py [COMMIT] [--list]

Each point is a rule over the text, so it lists more than what is meant: the page says of each place what became of it.
"""
import collections
import re
import subprocess
import sys

ARGS = [a for a in sys.argv[1:] if not a.startswith("--")]
LIST = "--list" in sys.argv


def sources(commit):
    """Yields each file of src/ and proofs/ with its text."""
    if commit:
        names = subprocess.run(["git", "ls-tree", "-r", "--name-only", commit, "crates"], capture_output=True, text=True, check=True).stdout.split()
    else:
        names = subprocess.run(["git", "ls-files", "crates"], capture_output=True, text=True, check=True).stdout.split()
    for name in names:
        if re.search(r"/src/.*\.rt$|/proofs/.*\.antt$", name):
            if commit:
                yield name, subprocess.run(["git", "show", f"{commit}:{name}"], capture_output=True, text=True, check=True).stdout
            else:
                yield name, open(name, encoding="utf-8").read()


def short(name):
    return re.sub(r"crates/(\w+)/src/", r"\1/", name)


def line_of(text, at):
    return text.count("\n", 0, at) + 1


FILES = list(sources(ARGS[0] if ARGS else None))
SRC = [(n, t) for n, t in FILES if "/src/" in n]
FOUND = collections.OrderedDict()


def found(point, what, name, text, at, note):
    FOUND.setdefault((point, what), []).append(f"{short(name)}:{line_of(text, at)} {note}")


def each(point, what, pattern, flags=re.M):
    FOUND.setdefault((point, what), [])
    for name, text in SRC:
        for m in re.finditer(pattern, text, flags):
            found(point, what, name, text, m.start(), " ".join(m[0].split())[:100])


def functions(text):
    """Yields each function: its name, its parameters, its contract and its body."""
    for m in re.finditer(r"^( *)(?:pub(?:\(crate\))? )?(?:extern \"C\" )?fn (\w+)[^\n]*", text, re.M):
        ends = re.search(rf"^{m[1]}\}}", text[m.end():], re.M)
        whole = text[m.start(): m.end() + (ends.end() if ends else 0)]
        opens = re.search(rf"^{m[1]}\{{$|\{{$", whole, re.M)
        if opens:
            yield m.start(), m[2], whole[: opens.start()], whole[opens.end():]


# 1. Own enums of the shape of Option or Result, a flag with a value beside it, numbers for kinds or refusals.
FOUND[(1, "own enums that hold a value or none, or a value or a refusal")] = []
for name, text in SRC:
    for m in re.finditer(r"^(?:pub )?enum (\w+) \{\n(.*?)^\}", text, re.M | re.S):
        variants = re.findall(r"^    (\w+)( ?[({])?", m[2], re.M)
        if (len(variants) == 2 and any(v[1] for v in variants)) or {"Nothing", "Nowhere"} & {v[0] for v in variants}:
            found(1, "own enums that hold a value or none, or a value or a refusal", name, text, m.start(), f"{m[1]}: {', '.join(v[0] for v in variants)}")
each(1, "a flag with a value beside it", r"^    (?:pub )?(?:any|whole|running|over|loading|all): bool")
each(1, "the number of a refusal, 0 for none, beside values", r"^    pub number: u8")
FOUND[(1, "0 that stands for none")] = []
for name, text in SRC:
    for at, fn, head, body in functions(text):
        if re.search(r"-> (?:usize|u8)\b", head) and re.search(r"^ *return 0;|\b0 \};$", body, re.M):
            found(1, "0 that stands for none", name, text, at, fn)
each(1, "numbers for kinds or refusals, as constants", r"^(?:pub )?const [A-Z_0-9]+: (?:u8|usize|i32) = ")

# 2. Twins.
FOUND[(2, "functions whose texts differ in a number or a name of theirs")] = []
alike = collections.defaultdict(list)
for name, text in SRC:
    for at, fn, head, body in functions(text):
        norm = re.sub(r"\b(?:0x)?[0-9A-Fa-f]+\b", "#", re.sub(rf"\b{fn}\b", "@", body))
        norm = re.sub(r"(?<![\w.])[a-z_0-9]+(?=\()", "f", re.sub(r"\b[A-Z][A-Z_0-9]+\b", "K", norm))
        norm = "".join(norm.split())
        if len(norm) > 12:
            alike[norm].append((name, text, at, fn))
for group in alike.values():
    if len(group) > 1:
        for name, text, at, fn in group:
            found(2, "functions whose texts differ in a number or a name of theirs", name, text, at, fn)
FOUND[(2, "structs of one shape")] = []
shapes = collections.defaultdict(list)
for name, text in SRC:
    for m in re.finditer(r"^pub struct (\w+) \{\n(.*?)^\}", text, re.M | re.S):
        shapes[tuple(re.findall(r"^    pub (\w+):", m[2], re.M))].append((name, text, m.start(), m[1]))
for group in shapes.values():
    if len(group) > 1:
        for name, text, at, what in group:
            found(2, "structs of one shape", name, text, at, what)

# 3. Loops that count an index by hand.
each(3, "`while`", r"^ *while .*\{$")

# 4. Equality, order, copying, conversion and printing written by hand.
each(4, "equality, order and the smaller of two", r"^ *(?:pub(?:\(crate\))? )?fn (?:same|smaller|both|is_nowhere|room)\b.*")
each(4, "conversions", r"^ *(?:pub(?:\(crate\))? )?fn (?:wide|digit|one_if|access_of|sense_of|command_of)\b.*")
each(4, "tests nested where `&&` stands for them", r"^( *)return [^;]+;\n *\}\n *(?:return )?false;?$")
each(4, "records written field by field over another", r"^ *\w+: (?:self|u|m|f|p|r)\.\w+,$")

# 5. A fact in the contracts of three functions or more, and parameters that always travel together.
facts, travel = collections.defaultdict(list), collections.defaultdict(list)
for name, text in SRC:
    for at, fn, head, body in functions(text):
        for clause in re.findall(r"requires(?: \w+)? \{ (.*?) \}\n", head):
            for fact in re.split(r" × ", clause):
                fact = fact.strip("() ")
                facts[(name.split("/")[1], fact)].append((name, text, at, fn))
        params = re.findall(r"(\w+): (&?(?:mut )?[\w\[\]; ]+)", head.split("ensures")[0].split("requires")[0])
        for i in range(len(params) - 2):
            travel[(name.split("/")[1], tuple(params[i: i + 3]))].append((name, text, at, fn))
FOUND[(5, "facts that three contracts of a crate or more require")] = []
for (crate, fact), group in sorted(facts.items()):
    if len(group) > 2:
        name, text, at, fn = group[0]
        found(5, "facts that three contracts of a crate or more require", name, text, at, f"{fact}: {len(group)} functions")
FOUND[(5, "three parameters side by side in three functions of a crate or more")] = []
for (crate, three), group in sorted(travel.items(), key=str):
    if len(group) > 2:
        name, text, at, fn = group[0]
        found(5, "three parameters side by side in three functions of a crate or more", name, text, at, f"{', '.join(p[0] for p in three)}: {len(group)} functions")

# 6. Buffers with a length beside them, parallel arrays, sorted lists searched by hand, arenas of indices.
FOUND[(6, "an array and a length in one struct")] = []
for name, text in SRC:
    for m in re.finditer(r"^pub struct (\w+) \{\n(.*?)^\}", text, re.M | re.S):
        if re.search(r": \[\w+; \w+\]", m[2]) and re.search(r"^    pub (?:len|count): usize", m[2], re.M):
            found(6, "an array and a length in one struct", name, text, m.start(), m[1])
each(6, "lengths kept beside lent buffers", r"^    pub (?:table|list|memory|slots): usize")

# 7. A switch on which step to run, tables of functions.
each(7, "a number that picks what runs", r"^ *(?:return )?match (?:kind|n|class|code) \{|^ *if (?:n|kind|control|ask\.format) == \w+")

# 8. Proofs.
proofs = [(n, t) for n, t in FILES if "/proofs/" in n and re.search(r"/(?:Answers|Invariants|Proof)\.antt$", n)]
for name, text in proofs:
    FOUND.setdefault((8, "proof files of functions"), []).append(name)
FOUND[(8, "answers that only search")] = [n for n, t in proofs if re.search(r"^\w[\w-]* \w+ = search rules$", t, re.M)]

point = None
for (p, what), places in FOUND.items():
    if p != point:
        point = p
        print(f"point {p}")
    print(f"  {len(places):4} {what}")
    if LIST and p < 8:
        for it in places:
            print(f"         {it}")
print(f"lines of src: {sum(t.count(chr(10)) for _, t in SRC)}; of functions' proofs: {sum(t.count(chr(10)) for _, t in proofs)}")
