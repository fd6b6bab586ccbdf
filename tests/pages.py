#!/usr/bin/env python3
"""What README and the pages of docs/ say of other files: the bytes of a sample, the definitions of readings, names and paths."""
import glob
import re
import sys

PAGES = ["README.md", "samples/README.md"] + sorted(glob.glob("docs/*.md"))
faults = []


def text_of(path):
    with open(path, encoding="utf-8") as file:
        return file.read()


def told(what, holds):
    if not holds:
        faults.append(what)


def dumped(page, mark):
    """The bytes of the dump that begins with the mark; each line stands at its offset."""
    dump = []
    lines = page[re.search(rf"^ +0  {mark} ", page, re.MULTILINE).start():].split("\n\n")[0]
    for line in lines.splitlines():
        offset, shown = re.match(r" +(\d+)  ((?:[0-9A-F]{2} )+) ", line).groups()
        told(f"FORMATS.md: offset {offset} and not {len(dump)}", int(offset) == len(dump))
        dump += [int(byte, 16) for byte in shown.split()]
    return dump


def dumps_are_the_samples():
    page = text_of("docs/FORMATS.md")
    with open("samples/roster-a.stream", "rb") as file:
        sample = list(file.read())
    told("FORMATS.md: the roster entry is not the sample's", dumped(page, "4A 47") == sample[:28])
    told("FORMATS.md: the report is not the sample's", dumped(page, "52 50") == sample[56:122])


def defined():
    specs = "\n".join(text_of(path) for path in glob.glob("crates/*/specs/*.antt"))
    return set(re.findall(r"\bpub ([^\s:{]+) :", specs))


def readings_resolve():
    rows = re.findall(r"^\| (\d+) \|.*\| ([^|]*) \|$", text_of("docs/READINGS.md"), re.MULTILINE)
    numbers = [int(number) for number, _ in rows]
    told("READINGS.md: not numbered on from 1", len(rows) >= 93 and numbers == list(range(1, len(rows) + 1)))
    known = defined()
    for number, where in rows:
        names = re.findall(r"`(\w+)`", where)
        told(f"READINGS.md: {number} names no definition", names)
        for name in names:
            told(f"READINGS.md: {number}: no definition {name}", name in known)
    decided = {(number, place) for number, where in rows for place in re.findall(r"; D(\d+)", where)}
    cited = {(number, place) for place, number in re.findall(r"^(\d+)\. \((\d+)\)", text_of("docs/DECISIONS.md"), re.MULTILINE)}
    told(f"READINGS.md and DECISIONS.md differ: {sorted(decided ^ cited)}", decided == cited)


def claims_are_there():
    code = "\n".join(text_of(path) for path in glob.glob("crates/*/src/*.rt"))
    table = text_of("README.md").split("| claim | function |")[1].split("\n\n")[0]
    for name in re.findall(r"\| `(\w+)` \|$", table, re.MULTILINE):
        told(f"README.md: no function {name}", re.search(rf"^pub (extern \"C\" )?fn {name}\b", code, re.MULTILINE))


def cited_by(path):
    """The definitions that a file brings in: crate and file, or the line itself where it is no file of specs/."""
    for line in re.findall(r"^(?:ghost )?use (Rattle\.(?!std\.)[^{;\n]*)", text_of(path), re.MULTILINE):
        found = re.fullmatch(r"Rattle\.(\w+)\.specs\.(declared|Boundaries\.[A-Z]\w+|\w+)(?:\.| as ).*", line)
        yield (found[1], found[2].replace(".", "/")) if found else (line, "")


def beliefs_are_named():
    """What the crates of the claims rest on, at any remove, lies in the folders that README names."""
    readme = text_of("README.md")
    claims = readme.split("| claim | function |")[1].split("\n\n")[0]
    named = set(re.findall(r"`crates/(\w+)/specs`", readme.split("## What a reader must believe")[1]))
    todo = [pair for crate in {"rules"} | set(re.findall(r"crates/(\w+)/src", claims))
            for pair in cited_by(f"crates/{crate}/src/lib.rt")]
    seen = set()
    while todo:
        crate, name = todo.pop()
        told(f"README.md: the claims rest on {crate} {name} too", crate in named)
        if (crate, name) not in seen and crate in named and name != "declared":
            todo += cited_by(f"crates/{crate}/specs/{name}.antt")
        seen.add((crate, name))
    told("README.md: the claims do not rest on all that it names", {crate for crate, _ in seen} == named)


def paths_are_there():
    for page in PAGES:
        for path in re.findall(r"`((?:crates|docs|examples|include|reference|samples|tests)/[^` ]*)`", text_of(page)):
            told(f"{page}: no {path}", glob.glob(path))


dumps_are_the_samples()
readings_resolve()
claims_are_there()
beliefs_are_named()
paths_are_there()
for fault in faults:
    print(fault)
sys.exit(1 if faults else 0)
