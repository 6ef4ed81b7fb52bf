#!/usr/bin/env python3
"""Writes the files of circuits/ that the tests of the gate use into a crate, as texts.

    tools/library_texts.py            writes crates/library_tests/src/texts.rt and src/texts/
    tools/library_texts.py --check    ends with 1 where they aren't what would be written

A test has no files, so the texts stand there a second time, without comments and empty lines.
"""
import os
import re
import sys

TOP = os.path.dirname(os.path.dirname(os.path.abspath(__file__)))
CRATE = f"{TOP}/crates/library_tests/src"
# Each file behind those that it includes.
FILES = (
    "comparators bits range select sha256_constants sha256 poseidon_constants poseidon merkle sort"
).split()


def text_of(name):
    """The file's text without comments and empty lines."""
    with open(f"{TOP}/circuits/{name}.circom") as file:
        text = file.read()
    text = re.sub(r"/\*.*?\*/", "", text, flags=re.S)
    lines = (re.sub(r"\s*//.*", "", line).rstrip() for line in text.split("\n"))
    return "".join(f"{line}\n" for line in lines if line)


def quoted(text):
    return text.replace("\\", "\\\\").replace('"', '\\"')


def written():
    """The files to write, with their texts."""
    mods = "".join(f"mod {name};\n" for name in sorted(FILES))
    rows = "".join(f'    ("lib/{name}.circom", {name}::TEXT),\n' for name in FILES)
    files = {
        "texts.rt": "//! The texts of files of `circuits/`, without their comments. "
        "`tools/library_texts.py` writes\n//! this file and those of the folder.\n\n"
        f"{mods}\n/// Their names in a store, and their texts.\n"
        f"pub static FILES: [(&str, &str); {len(FILES)}] = [\n{rows}];\n"
    }
    for name in FILES:
        text = quoted(text_of(name))
        files[f"texts/{name}.rt"] = f'/// `circuits/{name}.circom`.\npub const TEXT: &str = "{text}";\n'
    return files


def read(name):
    with open(f"{CRATE}/{name}") as file:
        return file.read()


def main():
    if sys.argv[1:] not in ([], ["--check"]):
        sys.exit(__doc__)
    if sys.argv[1:]:
        there = {"texts.rt"} | {f"texts/{name}" for name in os.listdir(f"{CRATE}/texts")}
        if there != set(written()) or any(read(name) != it for name, it in written().items()):
            sys.exit("library_tests hasn't the texts that tools/library_texts.py writes")
        return
    os.makedirs(f"{CRATE}/texts", exist_ok=True)
    for name, text in written().items():
        with open(f"{CRATE}/{name}", "w") as file:
            file.write(text)


main()
