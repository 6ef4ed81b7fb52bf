#!/usr/bin/env python3
"""Counts what a change of the program cost, or where a word of the code stands.

    tools/cost.py COMMIT ..          of each commit: files, lines, crates; and how many functions,
                                     definitions, lemmas and edits there are more behind it
    tools/cost.py --word PATTERN     the lines of src, specs and proofs in which the pattern stands,
                                     a row a crate; imports and comments aren't counted

A definition is what is declared at the left margin of a file of specs/, a lemma what is declared so
in proofs/, a function each `fn` in src/. Of a merge only what differs from its first parent counts.
"""
import os
import re
import subprocess
import sys

TOP = os.path.dirname(os.path.dirname(os.path.abspath(__file__)))
FUNCTION = re.compile(r"^ *(?:pub )?(?:const )?fn \w+", re.M)
DECLARED = re.compile(r"^(?:(?:pub|abbrev|record|data|rec|opaque|unfoldable) )*"
                      r"[A-Za-z_◌][\w'◌+<>=-]*(?: [({][^\n]*)? :(?: |$)", re.M)
IMPORT = re.compile(r"\s*(?:pub use|use|ghost use|unfolding|//|--)")


def git(*words):
    return subprocess.run(["git", "-C", TOP, *words], capture_output=True, text=True,
                          check=False).stdout


def kind_of(path):
    """What a file's declarations are, and how they are found."""
    if path.endswith(".rt"):
        return "functions", FUNCTION
    if path.endswith(".antt"):
        return ("definitions" if "/specs/" in path else "lemmas"), DECLARED
    return None, None


def cost(commit):
    first = f"{commit}^"
    rows = [it.split("\t") for it in
            git("diff", "--numstat", "--no-renames", first, commit).splitlines()]
    counts = {"functions": 0, "definitions": 0, "lemmas": 0, "edits": 0}
    crates = {it[2].split("/")[1] for it in rows if it[2].startswith("crates/")}
    new = [it for it in sorted(crates)
           if not git("ls-tree", first, f"crates/{it}/src/lib.rt", f"crates/{it}/src/main.rt")]
    for _, _, path in rows:
        kind, pattern = kind_of(path)
        if kind:
            counts[kind] += (len(pattern.findall(git("show", f"{commit}:{path}")))
                             - len(pattern.findall(git("show", f"{first}:{path}"))))
        elif path.endswith(".edit"):
            counts["edits"] += (bool(git("ls-tree", commit, path))
                                - bool(git("ls-tree", first, path)))
    more, less = (sum(int(it[at]) for it in rows if it[at] != "-") for at in (0, 1))
    print(git("show", "-s", "--format=%h %s", commit).strip())
    print(f"    {len(rows)} files, {more} lines more and {less} less, {len(crates)} crates"
          + (f" ({', '.join(new)} new)" if new else ""))
    print("    " + ", ".join(f"{it} {counts[it]:+}" for it in counts))


def words(pattern):
    pattern, found = re.compile(pattern), {}
    for line in git("ls-files", "crates").splitlines():
        parts = line.split("/")
        if len(parts) > 3 and parts[2] in ("src", "specs", "proofs"):
            with open(os.path.join(TOP, line), encoding="utf-8") as file:
                lines = sum(1 for it in file if pattern.search(it) and not IMPORT.match(it))
            if lines:
                found.setdefault(parts[1], []).append((parts[2], lines))
    total = {"src": 0, "specs": 0, "proofs": 0}
    with open(os.path.join(TOP, "crates.txt"), encoding="utf-8") as file:
        order = re.findall(r"^(\w+)", file.read(), re.M)
    for name in filter(found.get, order):
        row = {it: sum(lines for kind, lines in found[name] if kind == it) for it in total}
        total = {it: total[it] + row[it] for it in total}
        print(f"{name:22}" + "  ".join(f"{it} {row[it]:4}" for it in row))
    print(f"{len(found)} crates, {sum(map(len, found.values()))} files: "
          + ", ".join(f"{it} {total[it]}" for it in total))


def main(given):
    if given[:1] == ["--word"] and len(given) == 2:
        words(given[1])
    elif given and not given[0].startswith("-"):
        for commit in given:
            if not git("rev-parse", "--verify", "--quiet", commit + "^{commit}"):
                print(f"cost.py: there is no commit {commit}", file=sys.stderr)
                return 1
            cost(commit)
    else:
        print(__doc__, end="", file=sys.stderr)
        return 64
    return 0


if __name__ == "__main__":
    sys.exit(main(sys.argv[1:]))
