#!/usr/bin/env python3
"""respell.py: brings the repository's own definitions and lemmas to today's spelling, once, after port.py.

usage: python3 tools/respell.py [--map FILE]      at the top of the repository

Words are in snake case: tocBytes becomes toc_bytes. In a lemma's name a dash stays where it joins the names of two definitions, as in
laid-length, and a plain word is joined by an underscore, as in laid_fits. It goes through specs/, proofs/, the clauses of src/ and the
must-fail edits. Functions of src/ keep their names. A new name that something else already has is not taken, and is printed as 'kept:'.
"""
import glob
import json
import os
import re
import sys

TOKEN = re.compile(r"[^\s(){}\[\],;.`\"|:]+")
CAMEL = re.compile(r"[a-z0-9][A-Z]")
DECL = re.compile(r"^(\s*)((?:unfoldable |abbrev |pub |axiom )*)([^\s:(){}]+)((?: ?\{[^}]*\}| ?\([^)]*\))*) :(?: |$)")
HEAD = re.compile(r"^\s*(?:pub |unfoldable )*(record|data) ([^\s:(){}]+)")
# a word of its own, where the plain one is the name of a field or of a lemma
CHOSEN = {"leadOut": "session_lead_out", "audioBlocks": "audio_blocks_in", "dataBlocks": "data_blocks_in", "leadFlags": "flags_of_lead", "ofData": "data_of", "ofNone": "of_no_track", "targetEvents": "events_of_target", "wholeLength": "length_of_whole"}
# words of std that lemmas are about
STD = set("length append take drop set get_or add mul sub div mod min max map sum concat reverse replicate eq lt le suc zero nat_le nat_lt nat_eq".split())


def snake(name):
    out = re.sub(r"([a-z0-9])([A-Z])", lambda m: m[1] + "_" + m[2].lower(), name)
    return out


def antt():
    return sorted(p for p in glob.glob("crates/*/specs/**/*.antt", recursive=True)) , sorted(glob.glob("crates/*/proofs/**/*.antt", recursive=True))


def main():
    specs, proofs = antt()
    used, foreign, declared, definitions, lemmas = set(), set(), set(), set(), set()
    for p in specs + proofs:
        own_statement = p.endswith(("Proof.antt", "Answers.antt", "Invariants.antt"))
        for line in open(p, encoding="utf-8"):
            body = line.split(" -- ")[0]
            if line.lstrip().startswith("--"):
                continue
            used.update(TOKEN.findall(body))
            m = re.match(r"\s*(?:pub )?use ([^\s{]+)(?:\{(.*)\})?", line)
            if m:
                own = re.match(r"Rattle\.(\w+)\.", m[1])
                if not (own and os.path.isdir(f"crates/{own[1]}")):
                    foreign.update(TOKEN.findall(m[2] or m[1]))
                continue
            m = HEAD.match(line)
            if m:
                declared.add(m[2])
                definitions.add(m[2])
                continue
            m = DECL.match(line)
            if m and not line.lstrip().startswith(("use ", "let ")):
                name = m[3]
                declared.add(name)
                if "unfoldable" in m[2] or "abbrev" in m[2]:
                    definitions.add(name)
                elif not own_statement and not m[1] and "-" in name:
                    lemmas.add(name)
    for p in glob.glob("crates/*/src/**/*.rt", recursive=True):
        for line in open(p, encoding="utf-8"):
            m = re.match(r"ghost use ([^\s{]+)\{(.*)\}", line)
            if m and not os.path.isdir("crates/" + m[1].split(".")[1]):
                foreign.update(TOKEN.findall(m[2]))
    names = {snake(d) for d in definitions} | definitions | STD
    new = {}
    for t in sorted(used - foreign):
        if t[0].isalpha() and t[0].islower() and (CAMEL.search(t) or t in lemmas):
            parts = [snake(x) if x[:1].islower() else x for x in t.split("-")]
            to = parts[0]
            for x in parts[1:]:
                dash = t not in lemmas or x in names or (x[:1].isdigit() and "-" in t and False)
                to += ("-" if dash else "_") + x
            if to != t:
                new[t] = to
    new.update({t: to for t, to in CHOSEN.items() if t in used})
    # names that would fall together, also with a variable of the same spelling in a file that has the name
    bound = set()
    for p in specs + proofs + sorted(glob.glob("crates/*/src/**/*.rt", recursive=True)):
        with open(p, encoding="utf-8") as f:
            text = "\n".join(re.sub(r"\w+(?:\.[\w+-]+)+|--.*|//.*", lambda m: m[0].split(".")[0] if p.endswith(".antt") and not m[0].startswith("-") else "", line) for line in f.read().split("\n"))
        here = set(TOKEN.findall(text))
        if p.endswith(".rt"):
            here = {x for fn in re.findall(r"\bfn \w+\s*\(([^)]*)\)", text) for x in re.findall(r"(\w+)\s*:", fn)}
        names_here = set(TOKEN.findall(text))
        for t, to in new.items():
            if to in here and t in names_here and to not in declared:
                bound.add(to)
                print(f"look: {p}: {to} is there beside {t}")
    taken = {}
    kept = []
    for t, to in sorted(new.items()):
        if to in declared or to in foreign or to in taken or to in bound:
            kept.append((t, to))
        else:
            taken[to] = t
    for t, to in kept:
        del new[t]
        # the camel part alone, where that is free
        half = "-".join(snake(x) if x[:1].islower() else x for x in t.split("-"))
        if half != t and half not in used and half not in taken and half not in foreign:
            new[t] = half
            taken[half] = t
        print(f"kept: {t}, since {to} is taken" + (f"; now {new[t]}" if t in new else ""))

    def turn(text):
        return TOKEN.sub(lambda m: new.get(m[0], m[0]), text)

    files = specs + proofs + sorted(glob.glob("crates/*/src/**/*.rt", recursive=True)) + sorted(glob.glob("crates/*/must-fail/*.edit"))
    changed = 0
    for p in files:
        with open(p, encoding="utf-8") as f:
            old = f.read()
        text = turn(old)
        if text != old:
            changed += 1
            with open(p, "w", encoding="utf-8") as f:
                f.write(text)
    print(f"respell: {len(new)} names, {changed} files")
    if "--map" in sys.argv:
        with open(sys.argv[sys.argv.index("--map") + 1], "w") as f:
            json.dump(new, f, indent=1, ensure_ascii=False, sort_keys=True)


main()
