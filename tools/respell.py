#!/usr/bin/env python3
"""Brings the repository's own names to the spelling of today's Rattle: run once, after port.py, at the top of the repository.

Definitions and lemmas in snake case, a dash only between two names of a lemma, fields without a dash, the crate `log` under a name that
no library of the kit has, `#![tactic(auto)]` at the head of each crate. Text in quotes stays as it is. docs/PORT.md lists what moved.
"""
import glob
import os
import re
import subprocess

TOKEN = re.compile(r"(?<![A-Za-z0-9_])(?:[A-Za-z_][A-Za-z0-9_'-]*[A-Za-z0-9_']|[A-Za-z_])")
QUOTED = re.compile(r'(b?"(?:[^"\\]|\\.)*")')
# a definition whose plain snake case is the name of a field or of another lemma; and the unit of power
OWN = {
    "kW": "kW",
    "endMark": "with_end_mark",
    "lastStamp": "with_last_stamp",
    "partCount": "part_count_of",
    "textLength": "text_length_of",
    "firstBy": "first_day_by",
    "sameRead": "is_same_read",
    "twoDigits": "two_digits",
    "oneMore": "one_more",
}
# the lemmas that stand beside such a definition
BESIDE = {
    "crates/calendar/proofs/Reading.antt": {"two_digits": "two_digits-read"},
    "crates/log/proofs/Counts.antt": {"one_more": "one_more-below"},
}
CRATE = ("log", "log_lines")


def snake(word):
    if not re.match("[a-z]", word):
        return word
    word = re.sub(r"([a-z0-9])([A-Z])", r"\1_\2", word)
    return re.sub(r"([A-Z])([A-Z][a-z])", r"\1_\2", word).lower()


def respelt(token, dashed):
    if token in OWN:
        return OWN[token]
    name = "-".join(snake(word) for word in token.split("-"))
    return name.replace("-", "_") if name in dashed else name


def sources(top):
    for folder, dirs, names in os.walk(top):
        dirs[:] = sorted(d for d in dirs if d != "out")
        for name in sorted(names):
            if name.endswith((".rt", ".antt")):
                yield os.path.join(folder, name)


def fields_with_dash(paths):
    found = set()
    for path in paths:
        if "/specs/" in path:
            with open(path) as f:
                for name in re.findall(r"(?m)^\s*(?:unfoldable )?pub ([a-z][A-Za-z0-9_']*-[A-Za-z0-9_'-]+) :", f.read()):
                    found.add("-".join(snake(word) for word in name.split("-")))
    return found


def turned(path, text, dashed):
    beside = BESIDE.get(path, {})

    def word(m):
        token = m.group(0)
        return beside.get(token) or respelt(token, dashed)

    text = "".join(piece if i % 2 else TOKEN.sub(word, piece) for i, piece in enumerate(QUOTED.split(text)))
    old, new = CRATE
    text = text.replace(f"Rattle.{old}.", f"Rattle.{new}.")
    if path.strip().endswith(".rt"):
        text = re.sub(rf"\b{old}::", f"{new}::", text)
        text = re.sub(rf"\buse {old}\b", f"use {new}", text)
        if re.search(r"/src/(lib|main)\.rt$", path) and "#![tactic(auto)]" not in text:
            lines = text.split("\n")
            at = 0
            while at < len(lines) and lines[at].startswith("//"):
                at += 1
            lines.insert(at, "#![tactic(auto)]")
            text = "\n".join(lines)
    return text


def main():
    paths = list(sources("crates"))
    dashed = fields_with_dash(paths)
    for path in paths:
        with open(path) as f:
            text = f.read()
        new = turned(path, text, dashed)
        if new != text:
            with open(path, "w") as f:
                f.write(new)
    for path in glob.glob("crates/*/must-fail/*.edit") + glob.glob("edits/*/*.edit"):
        with open(path) as f:
            lines = f.read().split("\n")
        crate, source = path.split("/")[1], ""
        for i, line in enumerate(lines):
            if line.startswith("file: "):
                source = f"crates/{crate}/{line[6:]}"
            elif line.startswith(("old: ", "new: ")):
                lines[i] = line[:5] + turned(source + " ", line[5:], dashed)
        with open(path, "w") as f:
            f.write("\n".join(lines))
    old, new = CRATE
    subprocess.run(["git", "mv", f"crates/{old}", f"crates/{new}"], check=True)
    subprocess.run(["git", "mv", f"edits/{old}", f"edits/{new}"], check=True)
    with open("crates.txt") as f:
        text = f.read()
    with open("crates.txt", "w") as f:
        f.write(re.sub(rf"(?<![\w-]){old}(?![\w-])", new, text))
    for crate in sorted(os.listdir("crates")):
        subprocess.run(["rt", "fmt"], cwd=os.path.join("crates", crate), stdout=subprocess.DEVNULL)


main()
