#!/usr/bin/env python3
"""Writes docs/explained.md: what the program says of twelve slips, by running it on them. Run it
from the top of the repository: `python3 docs/explained.py [PROGRAM]`."""
import os
import subprocess
import sys
import tempfile

HEAD = """# What is said of a slip

The program's answer is one line on standard output and a status, both exact and fixed
([statement.md](statement.md)). Beside it, on standard error, it says which rule was broken, shows
the line where, and names what mostly mends it. That is written where standard error is a terminal,
and where the environment variable `CIRCOM_GOLD_EXPLAIN` is 1; where it is 0, never. No clause says
what these texts are: `crates/explain_tests` tests them, and `docs/explained.py` made this page.

A name that is near is offered where at most two letters differ. What is said of syntax is a guess:
it is the first token that can't stand beside the one before it, or the bracket that isn't closed.
The source is read once more to be shown, where it is a file of its own.

Where standard error is a terminal, a command that takes more than a second also says there, in one
row that is cleared before the answer, what it is at and for how long:

    circom_gold: compiling, 4 s
"""

MUL = """template Mul() {
  signal input a;
  signal input b;
  signal output c;
  c <== a*b;
}
component main = Mul();
"""

CHECKED = """template Mul() {
  signal input a;
  signal input b;
  signal output c;
  assert(a != 0);
  c <== a*b;
  c === 33;
}
component main = Mul();
"""

# What is slipped on, the files, and the words.
SLIPS = [
    ("A forgotten semicolon",
     {"semicolon.circom": MUL.replace("output c;", "output c")},
     "compile semicolon.circom m.r1cs"),
    ("A wrong name",
     {"name.circom": MUL.replace("signal input a;", "signal input bits;")
      .replace("a*b", "bit*b")},
     "compile name.circom m.r1cs"),
    ("Wrong arity",
     {"arity.circom": "template Power(n) {\n  signal input a;\n  signal output c;\n"
      "  c <== a*n;\n}\ncomponent main = Power();\n"},
     "compile arity.circom m.r1cs"),
    ("An include in another folder",
     {"include.circom": "include \"bits.circom\";\ncomponent main = Bits();\n",
      "circuits/bits.circom": "template Bits() { signal input a; }\n"},
     "compile include.circom m.r1cs"),
    ("A wrong shape",
     {"shape.circom": "template T() {\n  signal input a[3];\n  signal output o[2];\n"
      "  o <== a;\n}\ncomponent main = T();\n"},
     "compile shape.circom m.r1cs"),
    ("A missing input", {"mul.circom": MUL, "i.json": "{\"a\": 3}\n"},
     "witness mul.circom i.json m.wtns"),
    ("An unknown key", {"mul.circom": MUL, "i.json": "{\"a\": 3, \"b\": 11, \"B\": 2}\n"},
     "witness mul.circom i.json m.wtns"),
    ("A failed assert", {"mul.circom": CHECKED, "i.json": "{\"a\": 0, \"b\": 11}\n"},
     "witness mul.circom i.json m.wtns"),
    ("A failing constraint", {"mul.circom": CHECKED, "i.json": "{\"a\": 3, \"b\": 12}\n"},
     "witness mul.circom i.json m.wtns"),
    ("A wrong option", {"mul.circom": MUL}, "compile mul.circom m.r1cs --o1"),
    ("A folder that isn't there", {"mul.circom": MUL}, "compile mul.circom nowhere/m.r1cs"),
    ("A file that is lost", {"mul.circom": MUL}, "compile mul.circom ./mul.circom"),
]


def run(program, files, words):
    """The status, the standard output and the standard error."""
    with tempfile.TemporaryDirectory() as folder:
        for name, text in files.items():
            path = os.path.join(folder, name)
            os.makedirs(os.path.dirname(path), exist_ok=True)
            with open(path, "w") as file:
                file.write(text)
        ran = subprocess.run([program, *words.split()], cwd=folder, capture_output=True,
                             text=True, env={**os.environ, "CIRCOM_GOLD_EXPLAIN": "1"})
        return ran.returncode, ran.stdout, ran.stderr


def indented(text):
    return "".join(f"    {line}\n" if line else "\n" for line in text.rstrip("\n").split("\n"))


def main():
    program = os.path.abspath(sys.argv[1] if len(sys.argv) > 1
                              else "crates/circom_cli/out/circom_cli")
    parts = [HEAD]
    for title, files, words in SLIPS:
        status, out, err = run(program, files, words)
        parts.append(f"\n## {title}\n\n")
        for name, text in files.items():
            if name != "mul.circom" or text != MUL:
                parts.append(f"`{name}`:\n\n```\n{text}```\n\n")
        parts.append(f"`circom_gold {words}` prints, with status {status},\n\n{indented(out)}\n")
        parts.append(f"and says\n\n{indented(err)}")
    parts.append(f"\nIn these, where it isn't shown, `mul.circom` is\n\n```\n{MUL}```\n")
    with open("docs/explained.md", "w") as file:
        file.write("".join(parts))


if __name__ == "__main__":
    main()
