#!/usr/bin/env python3
"""respell.py [DIR]: spells the repository's own definitions and lemmas in snake case, in sources, specs, proofs, edits and pages.

Run once at the top of the repository, after the toolchain's own script. A name is one that a file of specs/ or proofs/ declares and
that has a dash; the goals that the toolchain names (declared with a type `goal.NAME`) keep theirs. Prints each name that changed,
and ends with status 1, changing nothing, where two names would fall together or a new name is declared already."""
import os, re, sys

OTHER = {"getD-from": "get_or_from"}
WORD = re.compile(r"[^\s(){}\[\].,;:@\"«»`]+")
DECLARED = re.compile(r"^\s*(?:abbrev |unfoldable )*(?:pub )?(?:abbrev |unfoldable |data |record |ruleset )*(?:pub )?([^\s:(){}]+)\s*(?:\{[^{}]*\}\s*)*:\s+(.*)$")

def texts(root):
    for folder, folders, files in os.walk(root):
        folders[:] = sorted(x for x in folders if x not in (".git", "out", "target"))
        for f in sorted(files):
            path = os.path.join(folder, f)
            if f.endswith((".rt", ".antt", ".edit")) or f == "README.md" or f.endswith(".md") and os.path.basename(folder) == "docs":
                yield path, open(path, encoding="utf-8").read()

def declared(found):
    for path, text in found:
        if not path.endswith(".antt"):
            continue
        for line in text.split("\n"):
            m = DECLARED.match(line)
            if m and not m.group(2).startswith("goal."):
                yield m.group(1)

def main():
    root = sys.argv[1] if len(sys.argv) > 1 else "."
    found = list(texts(root))
    names = set(declared(found))
    turned = {n: OTHER.get(n, n.replace("-", "_")) for n in names if "-" in n}
    clashes = [(n, t) for n, t in turned.items() if t in names or sum(1 for u in turned.values() if u == t) > 1]
    if clashes:
        sys.exit("these fall together: " + ", ".join(f"{n} {t}" for n, t in sorted(clashes)))
    for path, text in found:
        new = WORD.sub(lambda m: turned.get(m.group(0), m.group(0)), text)
        if new != text:
            open(path, "w", encoding="utf-8").write(new)
    for n in sorted(turned):
        print(n, turned[n])

main()
