#!/usr/bin/env python3
"""Every `pub extern "C" fn` of the crates is declared in include/desk.h, with the same types in the same order."""
import glob
import re
import sys

NUMBERS = {"u8": "uint8_t", "u16": "uint16_t", "u32": "uint32_t", "u64": "uint64_t", "usize": "size_t"}


def c_types(parameter):
    """A slice is a pointer and a length."""
    kind = re.sub(r"'\w+ ?", "", parameter.split(":", 1)[1]).strip()
    mutable = kind.startswith("&mut ")
    const = "" if mutable else "const "
    if not kind.startswith("&"):
        return [NUMBERS[kind]]
    behind = kind[len("&mut "):] if mutable else kind[1:]
    found = re.fullmatch(r"\[(\w+)\]", behind)
    if found:
        return [const + NUMBERS[found[1]] + " *", "size_t"]
    return [const + NUMBERS[re.sub(r"\[(\w+);.*\]", r"\1", behind)] + " *"]


def exported():
    pattern = r'pub extern "C" fn (\w+)\s*(?:<[^>]*>)?\(([^)]*)\) -> (\w+)'
    for path in sorted(glob.glob("crates/*/src/**/*.rt", recursive=True)):
        with open(path, encoding="utf-8") as file:
            for name, parameters, result in re.findall(pattern, file.read()):
                parts = [p for p in parameters.split(",") if p.strip()]
                yield name, [NUMBERS[result]] + [t for p in parts for t in c_types(p)]


def declared():
    with open("include/desk.h", encoding="utf-8") as file:
        text = re.sub(r"/\*.*?\*/", "", file.read(), flags=re.DOTALL)
    for result, name, parameters in re.findall(r"^(\w+) (desk_\w+)\(([^)]*)\);", text, flags=re.MULTILINE):
        types = [re.sub(r"\w+$", "", " ".join(p.split())).strip() for p in parameters.split(",")]
        yield name, [result] + types


def main():
    header = dict(declared())
    found = dict(exported())
    wrong = [name for name, types in found.items() if header.get(name) != types]
    for name in wrong:
        print(f"{name}: include/desk.h has {header.get(name)}, the crates have {found[name]}")
    if not found:
        print("no exported function found")
    return 1 if wrong or not found else 0


if __name__ == "__main__":
    sys.exit(main())
