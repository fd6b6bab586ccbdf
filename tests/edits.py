#!/usr/bin/env python3
"""Every edit, of the gate and of edits/, still fits: each `old:` stands once in its file, and `new:` is another text."""
import glob
import sys

faults = []


def told(what, holds):
    if not holds:
        faults.append(what)


def check(path, crate):
    source = old = None
    with open(path, encoding="utf-8") as file:
        for line in file.read().splitlines():
            word, _, rest = line.partition(": ")
            if word == "file":
                source = f"crates/{crate}/{rest}"
            elif word == "old":
                old = rest
                with open(source, encoding="utf-8") as code:
                    told(f"{path}: not once in {source}: {old}", code.read().count(old) == 1)
            elif word == "new":
                told(f"{path}: nothing is changed", old is not None and rest != old)
    told(f"{path}: no edit", old is not None)


def main():
    edits = glob.glob("crates/*/must-fail/*.edit") + glob.glob("edits/*/*.edit")
    for path in sorted(edits):
        check(path, path.split("/")[1])
    told("no edits", len(edits) > 100)
    for fault in faults:
        print(f"edits.py: {fault}")
    print(f"edits.py: {len(edits)} edits")
    return 1 if faults else 0


if __name__ == "__main__":
    sys.exit(main())
