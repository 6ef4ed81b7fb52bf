#!/usr/bin/env python3
"""Prints what files of constraints, witnesses and symbols hold, as text or as JSON.

    tools/look.py r1cs info R1CS          counts
    tools/look.py r1cs print R1CS         the constraints, a line each
    tools/look.py r1cs json R1CS          all of it, in the shape of snarkjs
    tools/look.py wtns info WTNS          the count of values
    tools/look.py wtns print WTNS         the values, a line each
    tools/look.py wtns json WTNS          the values
    tools/look.py sym print SYM           the signals, a line each
    tools/look.py sym json SYM            the same

    --sym SYM     the names of the wires, for r1cs and wtns
    --wtns WTNS   the values of each constraint, for r1cs print
    --failing     only constraints that fail with these values
    --at K        only constraint, or wire, or line K

It reads .r1cs and .wtns files over p = 2^64 - 2^32 + 1 with numbers of 8 bytes, as the program
does, and refuses what the program refuses, by the same line with a reason behind it in brackets
(docs/file-formats.md). Nothing is printed of a file that is refused. Nothing here is proved. Its
status is 0, 1 for a file that is refused, 3 where the system fails, and 64 where the words have no
reading.
"""
import io
import json
import os
import re
import struct
import sys

PRIME = 2**64 - 2**32 + 1
MOST_WIRES, MOST_CONSTRAINTS, MOST_TERMS = 2**20, 2**20, 2**23
MOST_LINES = 2**24
TERM = struct.Struct("<IQ")
MAGIC = {"r1cs": (b"r1cs", 1), "wtns": (b"wtns", 2)}
READ = {"r1cs": (1, 2, 3), "wtns": (1, 2)}
CAUSES = (
    "Magic Version Truncated SectionMissing SectionTwice WrongPrime ValueTooLarge WireOutOfRange"
    " BadCount CustomGates Limit"
).split()


class Refused(Exception):
    """A file that is refused, by the line that the program prints."""


class Usage(Exception):
    """Words that have no reading."""


class Binary:
    """A file of sections, open for reading, and its sections."""

    def __init__(self, kind, name):
        self.kind, self.name = kind, name
        self.file = opened(name)
        self.size = self.file.seek(0, os.SEEK_END)
        self.places, self.skipped = {}, []
        self.find_sections()

    def refuse(self, cause, place, why=""):
        number = CAUSES.index(cause) + 1
        line = f"refused: {self.name}: F{number} {cause} at byte {place}"
        raise Refused(line + (f" ({why})" if why else ""))

    def at(self, place, size):
        self.file.seek(place)
        return self.file.read(size)

    def number(self, place, size):
        return int.from_bytes(self.at(place, size), "little")

    def find_sections(self):
        if self.size < 12:
            self.refuse("Truncated", self.size)
        magic, version = MAGIC[self.kind]
        if self.at(0, 4) != magic:
            self.refuse("Magic", 0, f"no .{self.kind} file")
        found = self.number(4, 4)
        if found != version:
            self.refuse("Version", 4, f"version {found}, and {version} is read")
        place = 12
        for _ in range(self.number(8, 4)):
            place = self.find_section(place)
        if place < self.size:
            self.refuse("BadCount", place, "bytes behind the last section")
        for kind in (1, 2):
            if kind not in self.places:
                self.refuse("SectionMissing", self.size, f"no section {kind}")

    def find_section(self, place):
        if self.size - place < 12:
            self.refuse("Truncated", self.size, "in the head of a section")
        kind, size = self.number(place, 4), self.number(place + 4, 8)
        start, end = place + 12, place + 12 + size
        if end > self.size:
            self.refuse("Truncated", self.size, f"section {kind} has {size} bytes by its head")
        if self.kind == "r1cs" and kind in (4, 5):
            self.refuse("CustomGates", place)
        if kind not in READ[self.kind]:
            self.skipped.append(kind)
        elif kind in self.places:
            self.refuse("SectionTwice", place, f"section {kind}")
        else:
            self.places[kind] = start, end
        return end

    def find_field(self, wanted):
        """Tests the width and the prime of section 1, which has to have so many bytes."""
        start, end = self.places[1]
        if end - start < 4:
            self.refuse("BadCount", start, "section 1 is too short")
        width = self.number(start, 4)
        if width != 8:
            self.refuse("WrongPrime", start, f"numbers of {width} bytes, and 8 are read")
        if end - start != wanted:
            self.refuse("BadCount", start, f"section 1 has {end - start} bytes, not {wanted}")
        prime = self.number(start + 4, 8)
        if prime != PRIME:
            self.refuse("WrongPrime", start + 4, f"the prime {prime}, not {PRIME}")
        return start

    def numbers(self, kind, size):
        """The numbers of a section, that many bytes each."""
        start, end = self.places[kind]
        self.file.seek(start)
        left = end - start
        while left > 0:
            part = self.file.read(min(left, size << 16))
            left -= len(part)
            yield from (it for it, in struct.iter_unpack("<Q", part))


class R1cs(Binary):
    """A file of constraints."""

    def __init__(self, name):
        super().__init__("r1cs", name)
        start = self.find_field(40)
        head = struct.unpack("<IIIIQI", self.at(start + 12, 28))
        self.wires, self.outputs, self.public, self.private, self.labels, self.count = head
        if self.wires > MOST_WIRES:
            self.refuse("Limit", start + 12, f"{self.wires} wires")
        if 1 + self.outputs + self.public + self.private > self.wires:
            self.refuse("BadCount", start + 12, "more inputs and outputs than wires")
        if self.count > MOST_CONSTRAINTS:
            self.refuse("Limit", start + 36, f"{self.count} constraints")
        self.look_through()
        self.test_labels()

    def look_through(self):
        """Counts the constraints by kind, and so reads all of them once."""
        self.linear = self.products = self.empty = self.longest = self.terms = 0
        self.longest_at = None
        for index, (a, b, c) in enumerate(self.constraints()):
            terms = len(a) + len(b) + len(c)
            self.terms += terms
            if self.longest_at is None or terms > self.longest:
                self.longest, self.longest_at = terms, index
            if has_wire(a) and has_wire(b):
                self.products += 1
            elif terms:
                self.linear += 1
            else:
                self.empty += 1

    def test_labels(self):
        if 3 in self.places:
            start, end = self.places[3]
            if end - start != 8 * self.wires:
                self.refuse("BadCount", start, f"labels of {end - start} bytes")

    def constraints(self):
        """Each constraint in turn, as three lists of wires with what they are multiplied by."""
        place, end = self.places[2]
        self.file.seek(place)
        left = MOST_TERMS
        for _ in range(self.count):
            three = []
            for _ in range(3):
                terms = self.combination(place, end, left)
                place += 4 + 12 * len(terms)
                left -= len(terms)
                three.append(summed(terms))
            yield three
        if place < end:
            self.refuse("BadCount", place, "bytes behind the last constraint")

    def combination(self, place, end, most):
        if place + 4 > end:
            self.refuse("BadCount", end, "section 2 ends inside a constraint")
        count = int.from_bytes(self.file.read(4), "little")
        if count > most:
            self.refuse("Limit", place, "too many terms")
        place += 4
        whole = min(count, (end - place) // 12)
        terms = list(TERM.iter_unpack(self.file.read(12 * whole)))
        for wire, value in terms:
            if wire >= self.wires or value >= PRIME:
                self.refuse_term(place, terms)
        if whole < count:
            self.refuse_cut_term(place + 12 * whole, end)
        return terms

    def refuse_term(self, place, terms):
        for at, (wire, value) in enumerate(terms):
            if wire >= self.wires:
                self.refuse("WireOutOfRange", place + 12 * at, f"wire {wire} of {self.wires}")
            if value >= PRIME:
                self.refuse("ValueTooLarge", place + 12 * at + 4, str(value))

    def refuse_cut_term(self, place, end):
        if place + 4 <= end:
            wire = self.number(place, 4)
            if wire >= self.wires:
                self.refuse("WireOutOfRange", place, f"wire {wire} of {self.wires}")
        self.refuse("BadCount", end, "section 2 ends inside a constraint")

    def map(self):
        """The label of each wire."""
        return self.numbers(3, 8) if 3 in self.places else iter(range(self.wires))


class Wtns(Binary):
    """A file of values."""

    def __init__(self, name):
        super().__init__("wtns", name)
        start = self.find_field(16)
        self.count = self.number(start + 12, 4)
        if self.count > MOST_WIRES:
            self.refuse("Limit", start + 12, f"{self.count} values")
        start, end = self.places[2]
        if end - start != 8 * self.count:
            self.refuse("BadCount", start, f"{self.count} values in {end - start} bytes")
        for wire, value in enumerate(self.values()):
            if value >= PRIME:
                self.refuse("ValueTooLarge", start + 8 * wire, str(value))

    def values(self):
        return self.numbers(2, 8)


def number_of(digits):
    """The number of these digits. Of one with too many, some number that is as much too great."""
    return int(digits.lstrip(b"0")[:30] or b"0")


class Sym:
    """A file of symbols, a line `LABEL,WIRE,INSTANCE,NAME` a signal."""

    LINE = re.compile(rb"([0-9]+),(-1|[0-9]+),([0-9]+),(.+)", re.DOTALL)

    def __init__(self, name):
        self.name, self.file = name, opened(name)
        for _ in self.lines():
            pass

    def refuse(self, cause, number):
        raise Refused(f"refused: {self.name}: {cause} at line {number}")

    def lines(self):
        """Each line in turn: its label, its wire or None, its instance and its name."""
        self.file.seek(0)
        for number, line in enumerate(self.file, 1):
            if number > MOST_LINES:
                self.refuse("S2 Limit", number)
            yield self.line(number, line.removesuffix(b"\n"))

    def line(self, number, line):
        found = self.LINE.fullmatch(line)
        if not found:
            self.refuse("S1 BadLine", number)
        label, wire, instance = (number_of(it) for it in found.groups()[:3])
        if label >= 2**64 or wire >= 2**32 or instance >= 2**64:
            self.refuse("S1 BadLine", number)
        try:
            name = found[4].decode()
        except UnicodeDecodeError:
            self.refuse("S1 BadLine", number)
        return label, None if wire < 0 else wire, instance, name

    def names(self):
        """The name of each wire, by the first line that has it."""
        names = {}
        for _, wire, _, name in self.lines():
            if wire is not None:
                names.setdefault(wire, name)
        return names


def opened(name):
    """The file of this name; where it has no places to go to, as a pipe, all of its bytes."""
    try:
        file = open(name, "rb")
    except FileNotFoundError:
        raise Refused(f"refused: {name}: no such file") from None
    return file if file.seekable() else io.BytesIO(file.read())


def summed(terms):
    """The terms by rising wires, each wire once, without those that cancel."""
    last = -1
    for wire, value in terms:
        if wire <= last or value == 0:
            break
        last = wire
    else:
        return terms
    sums = {}
    for wire, value in terms:
        sums[wire] = (sums.get(wire, 0) + value) % PRIME
    return [(it, sums[it]) for it in sorted(sums) if sums[it]]


def has_wire(terms):
    """Whether a wire but 0 is among these."""
    return any(wire for wire, _ in terms)


def value_of(terms, values):
    return sum(value * values[wire] for wire, value in terms) % PRIME


def signed(value):
    return value if value <= PRIME // 2 else value - PRIME


def name_of(wire, names):
    return names.get(wire) or f"w{wire}"


def formula(terms, names):
    """A sum as one writes it, with negative numbers, and the number that stands alone last."""
    text = ""
    for wire, value in [it for it in terms if it[0]] + [it for it in terms if not it[0]]:
        number = signed(value)
        sign = ("-" if number < 0 else "") if not text else " - " if number < 0 else " + "
        size = abs(number)
        text += sign + (str(size) if not wire else
                        name_of(wire, names) if size == 1 else
                        f"{size}*{name_of(wire, names)}")
    return text or "0"


def equation(three, names):
    """The constraint A * B - C = 0."""
    a, b, c = (formula(it, names) for it in three)
    return f"({a}) * ({b}) = {c}" if three[0] and three[1] else f"0 = {c}"


def with_values(three, names, values):
    """Two lines on the values of a constraint: those of its wires, and of both sides."""
    wires = sorted({wire for terms in three for wire, _ in terms if wire})
    left = value_of(three[0], values) * value_of(three[1], values) % PRIME
    right = value_of(three[2], values)
    yield "  with " + (", ".join(f"{name_of(it, names)} = {signed(values[it])}" for it in wires)
                       or "no wires")
    verdict = "holds" if left == right else "fails"
    yield f"  left {signed(left)}, right {signed(right)}: {verdict}"


def names_in(options):
    return Sym(options["--sym"]).names() if "--sym" in options else {}


def r1cs_info(name, options):
    file = R1cs(name)
    names = names_in(options)
    first = 1
    yield f"prime: {PRIME}"
    yield f"wires: {file.wires}"
    parts = ("outputs", file.outputs), ("public inputs", file.public), ("private inputs",
                                                                       file.private)
    for what, count in parts:
        wires = range(first, first + count)
        first += count
        named = " ".join(name_of(it, names) for it in wires) if names and count else ""
        yield f"{what}: {count}" + (f": {named}" if named else "")
    yield f"labels: {file.labels}"
    yield f"constraints: {file.count}"
    yield f"linear: {file.linear}"
    yield f"products: {file.products}"
    if file.empty:
        yield f"empty: {file.empty}"
    yield f"terms: {file.terms}"
    if file.count:
        yield f"longest: constraint {file.longest_at}, with {file.longest} terms"
    if file.skipped:
        yield "sections that aren't read: " + " ".join(map(str, file.skipped))


def r1cs_print(name, options):
    file, names = R1cs(name), names_in(options)
    values = None
    if "--wtns" in options:
        values = list(Wtns(options["--wtns"]).values())
        if len(values) != file.wires:
            raise Refused(f"refused: {len(values)} values for {file.wires} wires")
        if not values or values[0] != 1:
            yield "wire 0 isn't 1"
    only = place_in(options, file.count, "constraint")
    for index, three in enumerate(file.constraints()):
        if only is not None and index != only:
            continue
        if "--failing" in options:
            a, b, c = (value_of(it, values) for it in three)
            if a * b % PRIME == c:
                continue
        yield f"constraint {index}: {equation(three, names)}"
        if values:
            yield from with_values(three, names, values)


def r1cs_json(name, options):
    """In the shape of `snarkjs r1cs export json`; counts by kind and names are added."""
    file, names = R1cs(name), names_in(options)
    head = {"n8": 8, "prime": str(PRIME), "nVars": file.wires, "nOutputs": file.outputs,
            "nPubInputs": file.public, "nPrvInputs": file.private, "nLabels": file.labels,
            "nConstraints": file.count, "useCustomGates": False, "nLinear": file.linear,
            "nProducts": file.products, "nEmpty": file.empty}
    yield json.dumps(head, indent=1)[:-2] + ',\n "constraints": ['
    rows = (json.dumps([{str(wire): str(value) for wire, value in terms} for terms in three])
            for three in file.constraints())
    yield from listed(rows)
    yield ' ],\n "map": ['
    yield from listed(map(str, file.map()))
    if names:
        yield ' ],\n "names": ['
        yield from listed(json.dumps(names.get(it), ensure_ascii=False)
                          for it in range(file.wires))
    yield ' ],\n "customGates": [],\n "customGatesUses": []\n}'


def wtns_info(name, options):
    file = Wtns(name)
    yield f"prime: {PRIME}"
    yield f"values: {file.count}"
    if file.skipped:
        yield "sections that aren't read: " + " ".join(map(str, file.skipped))


def wtns_print(name, options):
    file, names = Wtns(name), names_in(options)
    only = place_in(options, file.count, "wire")
    for wire, value in enumerate(file.values()):
        if only is None or wire == only:
            yield f"{name_of(wire, names)} = {value}"


def wtns_json(name, options):
    """An array as of `snarkjs wtns export json`; with names an object, of all signals that have a
    wire."""
    file = Wtns(name)
    if "--sym" not in options:
        yield "["
        yield from listed(f'"{value}"' for value in file.values())
        yield "]"
        return
    values = list(file.values())
    sym = Sym(options["--sym"])
    yield "{"
    yield from listed(f'{json.dumps(name, ensure_ascii=False)}: "{values[wire]}"'
                      for _, wire, _, name in sym.lines()
                      if wire is not None and wire < file.count)
    yield "}"


def sym_print(name, options):
    lines = Sym(name).lines()
    for number, (label, wire, instance, name) in enumerate(lines, 1):
        if "--at" not in options or number == options["--at"]:
            where = "no wire" if wire is None else f"wire {wire}"
            yield f"signal {label}: {name}, {where}, instance {instance}"


def sym_json(name, options):
    yield "["
    yield from listed(json.dumps({"label": label, "wire": wire, "instance": instance,
                                  "name": name}, ensure_ascii=False)
                      for label, wire, instance, name in Sym(name).lines())
    yield "]"


def listed(texts):
    """The texts, a line each, with commas between them."""
    last = None
    for text in texts:
        if last is not None:
            yield f"  {last},"
        last = text
    if last is not None:
        yield f"  {last}"


def place_in(options, count, what):
    place = options.get("--at")
    if place is not None and place >= count:
        raise Refused(f"refused: no {what} {place} of {count}")
    return place


COMMANDS = {
    ("r1cs", "info"): (r1cs_info, ["--sym"]),
    ("r1cs", "print"): (r1cs_print, ["--sym", "--wtns", "--failing", "--at"]),
    ("r1cs", "json"): (r1cs_json, ["--sym"]),
    ("wtns", "info"): (wtns_info, []),
    ("wtns", "print"): (wtns_print, ["--sym", "--at"]),
    ("wtns", "json"): (wtns_json, ["--sym"]),
    ("sym", "print"): (sym_print, ["--at"]),
    ("sym", "json"): (sym_json, []),
}


def command_of(words):
    """The command, its file and its options; options may stand anywhere."""
    names, options, words = [], {}, list(words)
    while words:
        word = words.pop(0)
        if not word.startswith("--"):
            names.append(word)
            continue
        if word in options:
            raise Usage(f"{word} stands twice")
        if word not in ("--sym", "--wtns", "--failing", "--at"):
            raise Usage(f"there is no option {word}")
        if word != "--failing" and not words:
            raise Usage(f"{word} has nothing behind it")
        options[word] = True if word == "--failing" else words.pop(0)
    found = COMMANDS.get(tuple(names[:2]))
    if not found or len(names) != 3:
        raise Usage("there is no such command" if not found else "a command has one file")
    return found[0], names[2], allowed(options, found[1])


def allowed(options, taken):
    for it in options:
        if it not in taken:
            raise Usage(f"this command doesn't take {it}")
    if "--failing" in options and "--wtns" not in options:
        raise Usage("--failing wants --wtns")
    if "--at" in options:
        if not re.fullmatch("[0-9]{1,19}", options["--at"]):
            raise Usage("--at wants a number")
        options["--at"] = int(options["--at"])
    return options


def main(words):
    if words in (["-h"], ["--help"]):
        print(__doc__, end="")
        return 0
    try:
        call, name, options = command_of(words)
        out = io.TextIOWrapper(open(1, "wb", buffering=1 << 16, closefd=False),
                               encoding="utf-8", newline="\n")
        for line in call(name, options):
            out.write(line + "\n")
        out.flush()
    except Usage as why:
        print(f"look.py: {why}; tools/look.py --help says what there is", file=sys.stderr)
        return 64
    except Refused as why:
        print(why, file=sys.stderr)
        return 1
    except BrokenPipeError:
        # Who reads the output has enough of it, as `head` does.
        os.dup2(os.open(os.devnull, os.O_WRONLY), 1)
        return 0
    except OSError as why:
        print(f"look.py: {why.filename or 'output'}: {why.strerror}", file=sys.stderr)
        return 3
    return 0


if __name__ == "__main__":
    sys.exit(main(sys.argv[1:]))
