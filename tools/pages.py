#!/usr/bin/env python3
"""Says where README.md and the pages of docs/ don't say what the tree has; status 1 where any.

    tools/pages.py

- Each crate of crates.txt has its row in docs/ARCHITECTURE.md, under the heading and in the order
  of crates.txt; what the row says that it stands on is on its line there; README.md names it, and
  the pictures of docs/ are current.
- Each command word of circom_words is in README.md, docs/statement.md, the manual page and the
  words for the shells.
- The counts of edits in README.md and docs/DECISIONS.md are those of the files.
- Links lead to files and headings that are there. Files that are named with a folder exist.
- Each word in code marks that looks like a name of the code (`two_words`, `TwoWords`) stands
  somewhere in the tree.
- Lines have at most 100 bytes, but for tables, blocks of code and what a script writes.
"""
import glob
import os
import re
import subprocess
import sys

TOP = os.path.dirname(os.path.dirname(os.path.abspath(__file__)))
# Written by docs/explained.py, with lines as the program prints them.
WRITTEN = ["docs/explained.md"]
# Names in code marks that aren't of this repository's code: of other programs, or of mathematics.
FOREIGN = re.compile(r"^([A-Za-z]|[a-z]+)_[a-z0-9]$|^[a-z]+_$|^[a-z]+_row$|^O2round$")
SEEN = []


def say(page, line, what):
    SEEN.append(f"{page}:{line}: {what}")


def text_of(path):
    with open(os.path.join(TOP, path), encoding="utf-8") as file:
        return file.read()


def crates():
    """Each crate of crates.txt with its heading and what it uses, in order."""
    found, heading = {}, ""
    for line in text_of("crates.txt").splitlines():
        if line.startswith("# "):
            heading = line[2:]
        elif line:
            found[re.match(r"\w+", line)[0]] = (heading, line.split(":", 1)[1].split())
    return found


def look_at_crates(known):
    heading, rows = "", []
    page = "docs/ARCHITECTURE.md"
    for number, line in enumerate(text_of(page).splitlines(), 1):
        if line.startswith("### "):
            heading = line[4:]
        row = re.match(r"\| `(\w+)` \|([^|]*)\|", line)
        if not row:
            continue
        name, uses = row[1], re.findall(r"`(\w+)`", row[2])
        rows.append(name)
        if name not in known:
            say(page, number, f"there is no crate {name}")
        elif known[name][0] != heading:
            say(page, number, f"{name} stands in crates.txt under \"{known[name][0]}\"")
        for use in uses:
            if name in known and use not in known[name][1]:
                say(page, number, f"{name} doesn't stand on {use}")
    for name in known:
        if name not in rows:
            say(page, 1, f"{name} has no row")
        if f"`{name}`" not in text_of("README.md"):
            say("README.md", 1, f"{name} isn't named")
    if [it for it in known if it in rows] != [it for it in rows if it in known]:
        say(page, 1, "the rows aren't in the order of crates.txt")
    for name in sorted(os.listdir(os.path.join(TOP, "crates"))):
        if name not in known:
            say("crates.txt", 1, f"crates/{name} isn't listed")
    drawn = subprocess.run([sys.executable, os.path.join(TOP, "docs/pictures.py"), "--check"],
                           capture_output=True, text=True, check=False)
    if drawn.returncode:
        say("docs/pictures.py", 1, (drawn.stdout + drawn.stderr).strip())


def look_at_commands():
    words = re.findall(r'^ +"(\w+)" => Some\(CommandWord::',
                       text_of("crates/circom_words/src/names.rt"), re.M)
    wanted = [("README.md", "- `{}"), ("docs/statement.md", "- `{}`"),
              ("docs/circom_gold.1", ".B {}"), ("tools/circom_gold.bash", " {}"),
              ("tools/_circom_gold", "'{}:")]
    for word in words:
        for page, form in wanted:
            if form.format(word) not in text_of(page):
                say(page, 1, f"the command {word} isn't there")


def look_at_counts():
    edits = glob.glob(os.path.join(TOP, "crates/*/must-fail/*.edit"))
    having = {it.split(os.sep)[-3] for it in edits}
    turned = sum("file: specs/" in it for it in map(text_of, edits))
    told = re.search(r"there are (\d+) in (\d+) crates now", " ".join(text_of("README.md").split()))
    if told and (int(told[1]), int(told[2])) != (len(edits), len(having)):
        say("README.md", 1, f"there are {len(edits)} edits in {len(having)} crates, not {told[0]}")
    told = re.search(r"(\d+) of the (\d+) turn a definition",
                     " ".join(text_of("docs/DECISIONS.md").split()))
    if told and (int(told[1]), int(told[2])) != (turned, len(edits)):
        say("docs/DECISIONS.md", 1, f"{turned} of {len(edits)} edits do, not {told[0]}")


def names_of_the_tree():
    """The names in the sources, the scripts and the names of files."""
    found = set()
    listed = subprocess.run(["git", "-C", TOP, "ls-files", "-co", "--exclude-standard"],
                            capture_output=True, text=True, check=True).stdout.splitlines()
    for path in listed:
        found.update(re.findall(r"\w+", path))
        if not path.endswith((".md", ".svg", ".r1cs", ".wtns")) and os.path.isfile(
                os.path.join(TOP, path)):
            found.update(re.findall(r"[A-Za-z_]\w*", text_of(path)))
    return found


def headings(path):
    return [re.sub(r"[^\w\- ]", "", it.lower()).strip().replace(" ", "-")
            for it in re.findall(r"^#+ (.*)$", text_of(path), re.M)]


def look_at_links(page, number, line):
    for path, anchor in re.findall(r"\]\(([^)#]*)(?:#([^)]*))?\)", line):
        if path.startswith("http"):
            continue
        whole = os.path.normpath(os.path.join(os.path.dirname(page), path)) if path else page
        if not os.path.exists(os.path.join(TOP, whole)):
            say(page, number, f"there is no {whole}")
        elif anchor and anchor not in headings(whole):
            say(page, number, f"{whole} has no heading {anchor}")


def look_at_names(page, number, marked, names):
    if re.fullmatch(r"[\w.*-]+(/[\w.*-]+)+/?", marked):
        path = marked.replace("NAME", "*").replace("N.", "*.")
        places = ["", os.path.dirname(page), "crates", "crates/*"]
        if "." in marked.split("/")[-1] and not any(
                glob.glob(os.path.join(TOP, it, path)) for it in places):
            say(page, number, f"there is no file {marked}")
        return
    for name in re.findall(r"\b(?:[A-Za-z]\w*_\w+|[A-Z][a-z]+[A-Z]\w+)\b", marked):
        if name not in names and not FOREIGN.match(name):
            say(page, number, f"nothing is called {name}")


def look_at_page(page, names):
    code = False
    for number, line in enumerate(text_of(page).splitlines(), 1):
        if line.startswith("```"):
            code = not code
        if code or line.startswith("    "):
            continue
        if len(line.encode()) > 100 and not line.startswith("|") and page not in WRITTEN:
            say(page, number, f"{len(line.encode())} bytes")
        look_at_links(page, number, line)
        for marked in re.findall(r"`([^`]+)`", line):
            look_at_names(page, number, marked, names)


def main(words):
    if words:
        print(__doc__, end="", file=sys.stderr)
        return 64
    look_at_crates(crates())
    look_at_commands()
    look_at_counts()
    names = names_of_the_tree()
    pages = ["README.md", "circuits/README.md", "docs/*.md", "examples/*/README.md"]
    for page in [it for form in pages for it in sorted(glob.glob(os.path.join(TOP, form)))]:
        look_at_page(os.path.relpath(page, TOP), names)
    print("\n".join(SEEN) if SEEN else "the pages say what the tree has")
    return 1 if SEEN else 0


if __name__ == "__main__":
    sys.exit(main(sys.argv[1:]))
