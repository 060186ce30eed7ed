#!/usr/bin/env python3
"""names.py: the names that the documents cite, from LANDED's spelling to today's.

usage: python3 tools/names.py            at the top of the repository: rewrites the documents
       python3 tools/names.py --look     writes nothing, and prints each change as OLD -> NEW

Only what stands between backticks changes, word by word, by the map of tools/edits.py: the names that LANDED's specs declare beside those that
today's declare in their place. A projection is written tight, as in the specs.
"""
import glob
import re
import sys

import edits

PAGES = ["README.md", "second/README.md", "second/READINGS.md", *sorted(glob.glob("docs/*.md")), *sorted(glob.glob("docs/landings/*.md"))]
WORD = re.compile(r"[^\s(){}\[\],;.`\"|:/#*+]+")


def main():
    names, _ = edits.names()
    seen = {}

    def turn(m):
        inside = m[1]
        if re.fullmatch(r"(crates|docs|second|bench|examples|tools)/\S+", inside) or re.fullmatch(r"(\w+::)+\w+(\(.*\))?", inside):
            return m[0]
        new = WORD.sub(lambda w: names.get(w[0], w[0]), inside)
        if re.search(r"[^ ] \.[a-z«]", new):
            new = edits.tight(re.sub(r"«(\w+)»", r"\1", new))
        if new != inside:
            seen.setdefault((inside, new), 0)
            seen[inside, new] += 1
        return "`" + new + "`"

    for p in PAGES:
        if p.startswith("docs/PORT"):
            continue
        with open(p, encoding="utf-8") as f:
            text = f.read()
        new = "\n".join(re.sub(r"`([^`]*)`", turn, line) for line in text.split("\n"))
        if new != text and "--look" not in sys.argv:
            with open(p, "w", encoding="utf-8") as f:
                f.write(new)
    if "--look" in sys.argv:
        for (a, b), n in sorted(seen.items()):
            print(f"{n} {a} -> {b}")
    print(f"names: {len(seen)} kinds of words, {sum(seen.values())} places")


main()
