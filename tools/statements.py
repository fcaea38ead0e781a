#!/usr/bin/env python3
"""Lays the statements of specs/ and proofs/ beside those of another tree of the same spelling: what is gone, new, or reads otherwise.
usage: statements.py OLD [NEW]     folders with crates/; NEW is this one where it is left out
The proofs of a crate's functions, in folders of their own, are left out: what they state is Rattle's. The kit's contracts.py lays src/ and specs/ side by side."""
import glob, os, re, sys

sys.dont_write_bytecode = True
from lemmas import declared

# a field, or what stands in a section
INNER = re.compile(r"^ +(?:(?:abbrev|unfoldable) )?(?:pub )?([^\s(){}.;,@\"]+) :(?= |$)")


def load(root):
    found = {}
    for f in sorted(glob.glob(f"{root}/crates/*/specs/*.antt") + glob.glob(f"{root}/crates/*/proofs/*.antt")):
        place = os.path.relpath(f, root)
        for name, statement, _ in declared(open(f, encoding="utf-8").read(), INNER):
            said = re.sub(r"--[^\n]*", "", statement)
            found.setdefault((place, name), []).append(re.sub(r"\s+", " ", said).strip())
    return found


def main():
    if len(sys.argv) not in (2, 3): sys.exit(__doc__)
    old, new = load(sys.argv[1]), load(sys.argv[2] if len(sys.argv) == 3 else ".")
    if not old or not new: sys.exit("statements: no crates there")
    for k in old:
        if k not in new: print("gone:", *k)
    for k in new:
        if k not in old: print("new:", *k)
    differ = [k for k in old if k in new and old[k] != new[k]]
    for k in differ: print("differs:", *k, "\n    -", " | ".join(old[k]), "\n    +", " | ".join(new[k]))
    print(f"statements: {len(old)} names then, {len(new)} now; {sum(k in new and old[k] == new[k] for k in old)} the same, {len(differ)} differ")


if __name__ == "__main__":
    main()
