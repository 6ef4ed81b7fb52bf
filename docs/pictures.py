#!/usr/bin/env python3
"""Draws the pictures of docs/ from crates.txt and the sources.

    python3 docs/pictures.py             writes docs/crates.svg, board.svg and proof.svg
    python3 docs/pictures.py --check     says which of them aren't current; status 1 where any

What is read: the crates, their order and what they stand on, from crates.txt; the functions that a
command goes through, from the sources of their crates; the events of the core and the calls of the
board, from flow_core and flow_board; how many columns are opened, from lig_proof. A crate, a
function, an event or a call that a picture names and the sources don't, or an event or a call that
is left out, ends the script with 2: then the picture has to be thought over. So does a text that
would lie over another one, or reach out of its box. The same sources give the same bytes.
"""
import os
import re
import sys

DOCS = os.path.dirname(os.path.abspath(__file__))
TOP = os.path.dirname(DOCS)
INK, PALE, GREY = "#222222", "#f7f7f4", "#8a8a84"
COLOURS = ["#dfe8f5", "#e3f1e1", "#fdf1d6", "#fbe3d9", "#e9e0f3", "#d9f0ee", "#f6dde8", "#eceae2",
           "#dcecd0", "#f0e6d2"]

# What goes through a command: what comes in, then each crate with the functions of it that are
# called, and what these give.
FLOWS = [
    ("compile", "source", [
        ("cir_sources", "reach", "trees"), ("cir_names", "load", "program"),
        ("cir_inst", "instantiate", "constraints"), ("cir_simplify", "simplify", "fewer of them"),
        ("cir_compile", "file_of", "numbered wires"), ("iden_files", "write_r1cs", ".r1cs")]),
    ("witness", "source, input", [
        ("cir_names", "load_all", "program"), ("cir_body", "circuit_code", "code of steps"),
        ("cir_compile", "file_from", "numbered wires"), ("wit_input", "read_input", "numbers"),
        ("wit_run", "run_many", "values"), ("iden_files", "write_wtns", ".wtns")]),
    ("prove", ".r1cs, .wtns", [
        ("iden_files", "read_r1cs, read_wtns", "constraints, values"),
        ("lig_layout", "vectors", "rows"), ("lig_prover", "evaluated", "codewords"),
        ("lig_merkle", "make", "root"), ("lig_prover", "sent", "six polynomials"),
        ("lig_proof", "write_proof2", "proof")]),
    ("audit", ".r1cs, public, proof", [
        ("iden_files", "read_r1cs", "constraints"), ("wit_input", "read_publics", "public values"),
        ("lig_proof", "read_any", "a proof's parts"),
        ("lig_proof", "challenges", "drawn numbers"), ("lig_merkle", "root_of_many", "root"),
        ("lig_auditor", "tested", "verdict")]),
]

# What the calls of the board do, by the event of the core that each makes.
CALLS = {"take": "Take", "read": "", "publish": "Publish", "release": "Release",
         "finish": "Finish", "refuse": "Refuse", "least": "", "split": "", "join": ""}


def stop(why):
    print(f"pictures.py: {why}", file=sys.stderr)
    sys.exit(2)


def text_of(path):
    with open(os.path.join(TOP, path), encoding="utf-8") as file:
        return file.read()


def length_of(words, size):
    """About how long a text is, rather too long than too short."""
    narrow = sum(it in "iljtfr.,:;'()| " for it in words)
    wide = sum(it in "mwMW" or it.isupper() for it in words)
    return size * (0.56 * len(words) - 0.22 * narrow + 0.2 * wide)


class Picture:
    """An SVG picture, piece by piece. Its texts may not lie over each other."""

    def __init__(self, width, height, title):
        self.width, self.height, self.title, self.parts = width, height, title, []
        self.texts = []

    def box(self, x, y, width, height, fill="#ffffff", line=INK, dash=""):
        more = f' stroke-dasharray="{dash}"' if dash else ""
        self.parts.append(f'<rect x="{x}" y="{y}" width="{width}" height="{height}" rx="3" '
                          f'fill="{fill}" stroke="{line}"{more}/>')

    def text(self, x, y, words, size=12, anchor="middle", weight="normal", fill=INK):
        self.keep(x, y, words, size, anchor)
        words = words.replace("&", "&amp;").replace("<", "&lt;")
        self.parts.append(f'<text x="{x}" y="{y}" font-size="{size}" text-anchor="{anchor}" '
                          f'font-weight="{weight}" fill="{fill}">{words}</text>')

    def keep(self, x, y, words, size, anchor):
        long = length_of(words, size)
        left = x - {"start": 0, "middle": long / 2, "end": long}[anchor]
        here = (left, left + long, y - 0.75 * size, y + 0.2 * size)
        if left < 0 or left + long > self.width or y > self.height:
            stop(f"{self.title}: {words!r} reaches out of the picture")
        for other, there in self.texts:
            if (here[0] < there[1] and there[0] < here[1] and here[2] < there[3]
                    and there[2] < here[3]):
                stop(f"{self.title}: {words!r} lies over {other!r}")
        self.texts.append((words, here))

    def line(self, *points, arrow=True, colour=INK, dash=""):
        path = " ".join(f"{x},{y}" for x, y in points)
        end = ' marker-end="url(#tip)"' if arrow else ""
        more = f' stroke-dasharray="{dash}"' if dash else ""
        self.parts.append(f'<polyline points="{path}" fill="none" stroke="{colour}"{end}{more}/>')

    def labelled(self, x, y, width, height, words, fill="#ffffff", size=12):
        self.box(x, y, width, height, fill)
        lines = words.split("\n")
        top = y + height / 2 + size * 0.35 - (len(lines) - 1) * size * 0.6
        for number, line in enumerate(lines):
            if length_of(line, size) > width:
                stop(f"{self.title}: {line!r} reaches out of its box")
            self.text(x + width / 2, round(top + number * size * 1.2, 1), line, size)

    def svg(self):
        tip = ('<marker id="tip" viewBox="0 0 8 8" refX="7" refY="4" markerWidth="7" '
               f'markerHeight="7" orient="auto"><path d="M0,0 L8,4 L0,8 z" fill="{INK}"/></marker>')
        head = (f'<svg xmlns="http://www.w3.org/2000/svg" width="{self.width}" '
                f'height="{self.height}" viewBox="0 0 {self.width} {self.height}" '
                'font-family="Helvetica, Arial, sans-serif">')
        ground = f'<rect width="{self.width}" height="{self.height}" fill="{PALE}"/>'
        title = f"<title>{self.title}</title>"
        return "\n".join([head, title, f"<defs>{tip}</defs>", ground, *self.parts, "</svg>", ""])


def crates():
    """The headings of crates.txt, each with its crates, and what each crate stands on."""
    groups, uses, fresh = [], {}, ""
    for line in text_of("crates.txt").splitlines():
        if line.startswith("# "):
            fresh = line[2:]
        elif line:
            name = re.match(r"\w+", line)[0]
            if fresh:
                groups.append((fresh, []))
                fresh = ""
            groups[-1][1].append(name)
            uses[name] = line.split(":", 1)[1].split()
    return groups, uses


def depths(uses):
    """How many crates the longest chain from each crate down has."""
    found = {}

    def depth(name):
        if name not in found:
            found[name] = 1 + max((depth(it) for it in uses[name] if it in uses), default=0)
        return found[name]

    return {it: depth(it) for it in uses}


def draw_crates():
    groups, uses = crates()
    depth, colour = depths(uses), {}
    across, wide, high = 8, 116, 34
    rows = sum(-(-len(names) // across) for _, names in groups)
    top = 40 + rows * (high + 6) + len(groups) * 28
    picture = Picture(1000, top + 60 + 74 * len(FLOWS), "The crates, and what goes through them")
    picture.text(20, 26, "The crates by what they are for, the lowest first; the number is how "
                 "many crates the longest chain down has", 13, "start", "bold")
    y = 40
    for number, (heading, names) in enumerate(groups):
        lines = -(-len(names) // across)
        tall = 22 + lines * (high + 6)
        fill = COLOURS[number % len(COLOURS)]
        picture.box(14, y, 972, tall, fill, fill)
        picture.text(22, y + 15, heading, 12, "start", "bold")
        for place, name in enumerate(names):
            x, at = 22 + place % across * (wide + 4), y + 20 + place // across * (high + 6)
            colour[name] = fill
            picture.box(x, at, wide, high)
            picture.text(x + wide / 2, at + 15, name, 10.5 if len(name) < 18 else 9)
            picture.text(x + wide / 2, at + 28, str(depth[name]), 9, fill=GREY)
        y += tall + 6
    draw_flows(picture, y + 20, colour)
    return picture.svg()


def functions_of(crate):
    """The names of a crate's public functions."""
    sources = os.path.join(TOP, "crates", crate, "src")
    names = set()
    for file in sorted(os.listdir(sources)):
        if file.endswith(".rt"):
            names.update(re.findall(r"pub fn (\w+)", text_of(f"crates/{crate}/src/{file}")))
    return names


def draw_flows(picture, y, colour):
    picture.text(20, y, "What goes through four of the commands: crates, functions that are "
                 "called, and what these give", 13, "start", "bold")
    y += 12
    for command, begins, steps in FLOWS:
        picture.text(20, y + 34, command, 13, "start", "bold")
        picture.text(146, y + 34, begins, 11)
        for number, (name, functions, gives) in enumerate(steps):
            if name not in colour:
                stop(f"{command} goes through {name}, which crates.txt doesn't list")
            lacks = set(functions.split(", ")) - functions_of(name)
            if lacks:
                stop(f"{command} goes through {lacks} of {name}, which it doesn't have")
            x = 226 + number * 127
            picture.line((x - 20, y + 30), (x - 2, y + 30))
            picture.box(x, y + 10, 106, 40, colour[name])
            picture.text(x + 53, y + 27, name, 11)
            picture.text(x + 53, y + 42, functions, 9)
            picture.text(x + 53, y + 65, gives, 11)
        y += 74


def draw_board():
    state = text_of("crates/flow_core/src/state.rt")
    events = re.search(r"pub enum Event \{(.*?)\n\}", state, re.S)
    events = re.findall(r"^    (\w+) \{", events[1], re.M)
    calls = re.findall(r"pub fn (\w+)\(&self", text_of("crates/flow_board/src/board.rt"))
    if sorted(calls) != sorted(CALLS) or sorted(events) != sorted(filter(None, CALLS.values())):
        stop(f"the board's calls are {calls}, the core's events {events}")
    picture = Picture(1000, 640, "The board between workers")
    picture.text(20, 26, "The board between workers: each call is one step on one word", 13,
                 "start", "bold")
    picture.labelled(330, 44, 340, 52, "the pool: ready strands, under a lock\n"
                     "no answer rests on it", "#eceae2")
    for number, x in enumerate((40, 280, 520, 760)):
        name = ("worker 1: the caller's thread", "worker 2", "..", "up to worker 64")[number]
        picture.labelled(x, 150, 200, 64, f"{name}\nits seat; strands it has kept\na room",
                         "#fdf1d6", 11)
        picture.line((x + 100, 150), (400 + number * 68, 98), dash="4 3")
        picture.line((x + 100, 214), (x + 100, 296))
    picture.text(690, 66, "dashed: a worker asks for strands to run,", 11, "start")
    picture.text(690, 82, "and gives away some that became ready", 11, "start")
    for x, calls_there in ((260, "take, read"), (500, "publish, release"), (740, "finish, refuse")):
        picture.text(x, 260, calls_there, 12)
    picture.box(40, 300, 920, 110, "#dfe8f5")
    picture.text(52, 318, "the board: words that change in single atomic steps", 12, "start",
                 "bold")
    words = [("least", "the least\nrefused strand")]
    words += [(f"cell {it}", "0, or its\nvalue and 1") for it in range(3)] + [("..", "")]
    words += [(f"strand {it}", "misses n,\nor TAKEN") for it in range(3)] + [("..", "")]
    for number, (name, holds) in enumerate(words):
        x = 54 + number * 100
        picture.text(x + 46, 338, name, 11)
        picture.labelled(x, 346, 92, 52, holds, "#ffffff", 11)
    picture.line((500, 410), (500, 436))
    picture.labelled(40, 440, 920, 52, "behind the workers the caller takes their seats back and "
                     "closes the board; where all strands are done, its words are the answer;\n"
                     "else it goes through the strands in order: it copies the cells of those that "
                     "are done, and runs every other one", "#fdf1d6")
    picture.text(20, 520, "What each call does", 13, "start", "bold")
    does = {"take": "a counter from 0 to TAKEN", "read": "a cell", "publish": "a value into a cell",
            "release": "a successor misses 1 less", "finish": "looks at the least word",
            "refuse": "the least word is lowered", "least": "looks at the least word",
            "split": "a seat in two", "join": "two seats in one"}
    for number, call in enumerate(calls):
        x, y = 20 + number % 3 * 326, 542 + number // 3 * 28
        event = f", event {CALLS[call]}" if CALLS[call] else ""
        picture.text(x, y, f"{call}: {does[call]}{event}", 12, "start")
    picture.text(20, 630, "Between any two steps there is a state of the core that the words show, "
                 "and that keeps its invariant.", 12, "start", fill=GREY)
    return picture.svg()


def draw_proof():
    challenge = text_of("crates/lig_proof/src/challenge.rt")
    opened = re.search(r"pub const OPENED: u32 = (\d+);", challenge)
    if not opened:
        stop("lig_proof has no number OPENED")
    picture = Picture(1000, 560, "A proof's rows and columns")
    picture.text(20, 26, "A proof's rows and columns", 13, "start", "bold")
    rows = [("w", "the wires", 56, "#e3f1e1"), ("x = A w", "left factors", 44, "#dfe8f5"),
            ("y = B w", "right factors", 44, "#dfe8f5"), ("z = C w", "products", 44, "#dfe8f5")]
    picture.text(150, 60, "M = mw + 3 mc rows of L values", 12)
    y, middle = 70, []
    for name, what, tall, fill in rows:
        picture.labelled(60, y, 180, tall, f"{name}\n{what}", fill)
        y += tall
    picture.line((252, 164), (330, 164))
    picture.text(290, 152, "polynomials,", 11)
    picture.text(290, 182, "with masks", 11)
    picture.text(650, 60, "a codeword a row: its polynomial at the 8L points of the code", 12)
    y, left, wide = 70, 340, 620
    for _, _, tall, fill in rows:
        picture.box(left, y, wide, tall, fill)
        y += tall
    picture.box(left, y, wide, 36, "#fdf1d6")
    picture.text(left - 10, y + 16, "six rows of masks for the", 12, "end")
    picture.text(left - 10, y + 31, "tests: u, m, n, twice each", 12, "end")
    bottom = y + 36
    for number, x in enumerate((372, 468, 516, 604, 700, 788, 852, 924)):
        picture.box(x, 66, 12, bottom - 62, "#ffffff", "#b03a2e")
        picture.line((x + 6, bottom + 4), (x + 6, bottom + 34), colour="#b03a2e")
    picture.text(20, bottom + 26, f"{opened[1]} columns are opened;", 12, "start", fill="#b03a2e")
    picture.text(20, bottom + 42, "the root and the polynomials say which", 12, "start",
                 fill="#b03a2e")
    picture.box(left, bottom + 36, wide, 26, "#f6dde8")
    picture.text(650, bottom + 53, "a leaf a column: its SHA-256", 12)
    picture.line((left, bottom + 62), (650, bottom + 112), (960, bottom + 62), arrow=False)
    picture.text(650, bottom + 88, "the tree of 8L leaves", 12)
    picture.labelled(600, bottom + 112, 100, 26, "the root", "#f6dde8")
    y = bottom + 168
    picture.text(20, y, "In the proof", 13, "start", "bold")
    parts = ["the root", "six polynomials:\nrows, system, products, twice",
             "the opened columns,\nM + 6 values each",
             "the nodes of the tree\nbeside their ways up"]
    for number, words in enumerate(parts):
        picture.labelled(20 + number * 242, y + 12, 226, 46, words, "#ffffff")
    picture.text(20, y + 84, "The auditor evaluates the six polynomials at the opened columns' "
                 "points, and compares them with the columns.", 12, "start", fill=GREY)
    return picture.svg()


DRAWN = {"crates.svg": draw_crates, "board.svg": draw_board, "proof.svg": draw_proof}


def main(words):
    if words not in ([], ["--check"]):
        print(__doc__, end="", file=sys.stderr)
        return 64
    old = 0
    for name, draw in DRAWN.items():
        path, drawn = os.path.join(DOCS, name), draw()
        if not words:
            with open(path, "w", encoding="utf-8", newline="\n") as file:
                file.write(drawn)
        elif not os.path.isfile(path) or text_of(path) != drawn:
            print(f"docs/{name} isn't current: python3 docs/pictures.py draws it")
            old = 1
    return old


if __name__ == "__main__":
    sys.exit(main(sys.argv[1:]))
