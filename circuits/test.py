"""Tests the templates of this folder with the program; see test.sh.

What a template has to give comes from Python's whole numbers and from hashlib. For each case, that
is a template with its parameters, at each of the levels --O0, --O1 and --O2 and with one and with
four workers:

- `witness` gives the outputs that are due, for each input, and `check` says that they satisfy the
  file of constraints that `compile` writes;
- `witness` refuses each input that the template refuses;
- each value of the witness but those of the inputs is changed, to five other numbers, one at a
  time: a constraint fails each time, by a reading of the .r1cs file in Python. Of some the changed
  .wtns file is written, and `check` has to name the same constraint.

At --O1 `determine` has to find that the inputs determine the outputs, and `confirm` to confirm what
it wrote, but for the templates of NOT_SHOWN, whose outputs its rules don't reach, unless they have
one place alone. Where the program has no such command that isn't tried.
"""

import os
import random
import struct
import subprocess
import sys
import tempfile
import time

from cases import BAD_PARAMETERS, FILES, NOT_SHOWN, P, SHOWN_WITH_ONE_PLACE

HERE = os.path.dirname(os.path.abspath(__file__))
PROGRAM = os.path.abspath(os.environ.get("PROGRAM", os.path.join(HERE, "..", "circom_gold")))
# So many changed witnesses of a case and level are given to `check`.
CHECKED = int(os.environ.get("CHECKED", "6"))
# Whether only --O1, one size, one number of workers and few inputs of each template are tried.
QUICK = "QUICK" in os.environ

# Whether the program has the commands determine and confirm: else these words have no reading.
HAS_DETERMINE = subprocess.run([PROGRAM, "determine", "/dev/null", "/dev/null"],
                               stdout=subprocess.DEVNULL, check=False).returncode != 64


class Wrong(Exception):
    """Something that isn't as it has to be."""


def flat(values):
    """The numbers in nested lists, in order."""
    if isinstance(values, (list, tuple)):
        return [number for value in values for number in flat(value)]
    return [values % P]


def as_json(value):
    """JSON with each number in quotes."""
    if isinstance(value, dict):
        return "{" + ",".join('"%s":%s' % (key, as_json(value[key])) for key in value) + "}"
    if isinstance(value, (list, tuple)):
        return "[" + ",".join(as_json(each) for each in value) + "]"
    return '"%d"' % value


def run(folder, *words):
    done = subprocess.run([PROGRAM, *words], cwd=folder, stdout=subprocess.PIPE,
                          stderr=subprocess.STDOUT, text=True, check=False)
    return done.returncode, done.stdout


def sections(data):
    """The bodies of a file's sections, by their types."""
    found, at = {}, 12
    while at < len(data):
        kind, size = struct.unpack_from("<IQ", data, at)
        found[kind] = data[at + 12:at + 12 + size]
        at += 12 + size
    return found


def values_of(path):
    with open(path, "rb") as file:
        body = sections(file.read())[2]
    return list(struct.unpack("<%dQ" % (len(body) // 8), body))


def write_values(path, values):
    body = struct.pack("<%dQ" % len(values), *values)
    with open(path, "wb") as file:
        file.write(b"wtns" + struct.pack("<II", 2, 2))
        file.write(struct.pack("<IQIQI", 1, 16, 8, P, len(values)))
        file.write(struct.pack("<IQ", 2, len(body)) + body)


class R1cs:
    """A file of constraints, as docs/file-formats.md has it."""

    def __init__(self, path):
        with open(path, "rb") as file:
            found = sections(file.read())
        _, _, self.wires, self.outputs, public, private, _, count = struct.unpack(
            "<IQIIIIQI", found[1])
        self.inputs = public + private
        body, at = found[2], 0
        self.constraints = []
        self.places = [[] for _ in range(self.wires)]  # the constraints that name a wire
        for place in range(count):
            parts = []
            for _ in range(3):
                (terms,) = struct.unpack_from("<I", body, at)
                part = list(struct.iter_unpack("<IQ", body[at + 4:at + 4 + 12 * terms]))
                at += 4 + 12 * terms
                parts.append(part)
            self.constraints.append(parts)
            for wire in {wire for part in parts for wire, _ in part}:
                self.places[wire].append(place)

    def sums(self, values):
        """The three sums of each constraint."""
        return [[sum(value * values[wire] for wire, value in part) for part in parts]
                for parts in self.constraints]

    def first_failing(self, sums, wire, change):
        """The least constraint that fails where the wire's value is changed by so much."""
        for place in self.places[wire]:
            a, b, c = (number + change * sum(value for other, value in part if other == wire)
                       for part, number in zip(self.constraints[place], sums[place]))
            if (a * b - c) % P:
                return place
        return None


def expect(given, due, what):
    if given != due:
        raise Wrong("%s: got %s and not %s" % (what, str(given)[:300], str(due)[:300]))


def try_changes(case, folder, file, what):
    """Changes each value that isn't an input's, one at a time."""
    values = values_of(os.path.join(folder, "w.wtns"))
    sums = file.sums(values)
    for a, b, c in sums:
        expect((a * b - c) % P, 0, what + ": a constraint, as Python reads the file")
    changed, free = [], set()
    for wire in range(1, file.wires):
        if file.outputs < wire <= file.outputs + file.inputs:
            continue
        old = values[wire]
        for new in {(old + 1) % P, (old - 1) % P, (1 - old) % P, (-old) % P, random.randrange(P)}:
            if new == old:
                continue
            place = file.first_failing(sums, wire, new - old)
            if place is None:
                free.add(wire)
            else:
                changed.append((wire, new, place))
    expect(len(free), case.free, what + ": the number of signals that may have other values")
    for wire, new, place in random.sample(changed, min(CHECKED, len(changed))):
        write_values(os.path.join(folder, "x.wtns"),
                     values[:wire] + [new] + values[wire + 1:])
        expect(run(folder, "check", "f.r1cs", "x.wtns"),
               (2, "unsatisfied: constraint %d\n" % place),
               what + ": check with wire %d changed to %d" % (wire, new))
    return len(changed)


def try_certificate(case, folder, what):
    """Whether `determine` shows the outputs, and `confirm` confirms it."""
    if not HAS_DETERMINE:
        return
    status, text = run(folder, "determine", "f.r1cs", "f.cert")
    is_alone = case.template in SHOWN_WITH_ONE_PLACE and case.parameters[0] == 1
    if case.template in NOT_SHOWN and not is_alone:
        expect((status, text[:19]), (2, "undetermined: wire "), what + ": determine")
    else:
        expect((status, text), (0, "determined\n"), what + ": determine")
        expect(run(folder, "confirm", "f.r1cs", "f.cert"), (0, "confirmed\n"), what + ": confirm")


def try_case(case, source, folder):
    """Tries a case, and gives the constraints at --O1 and how much was tried."""
    call = "%s(%s)" % (case.template, ", ".join(as_source(p) for p in case.parameters))
    with open(os.path.join(folder, "main.circom"), "w", encoding="utf-8") as file:
        file.write('include "%s.circom";\ncomponent main = %s;\n' % (source, call))
    constraints, changed = {}, 0
    for level in case.levels:
        what = "%s %s" % (call, level)
        status, text = run(folder, "compile", "main.circom", "f.r1cs", level, "-l", HERE)
        expect((status, text[:9]), (0, "compiled:"), what + ": " + text)
        file = R1cs(os.path.join(folder, "f.r1cs"))
        constraints[level] = len(file.constraints)
        if level == "--O1":
            try_certificate(case, folder, what)
        for number, (given, due) in enumerate(case.accepts):
            with open(os.path.join(folder, "i.json"), "w", encoding="utf-8") as out:
                out.write(as_json(given))
            answers = []
            for workers in case.workers:
                said = run(folder, "witness", "main.circom", "i.json", "w.wtns", level, "-l",
                           HERE, "--workers", workers)
                expect(said, (0, "witness: values %d\n" % file.wires),
                       "%s: witness of %s" % (what, given))
                answers.append(values_of(os.path.join(folder, "w.wtns")))
            expect(answers, answers[:1] * len(answers), what + ": workers")
            expect(answers[0][1:1 + file.outputs], flat(due), "%s of %s" % (what, given))
            expect(run(folder, "check", "f.r1cs", "w.wtns"), (0, "satisfied\n"), what + ": check")
            if number == 0 and case.changes:
                changed += try_changes(case, folder, file, what)
        for given in case.refuses:
            with open(os.path.join(folder, "i.json"), "w", encoding="utf-8") as out:
                out.write(as_json(given))
            for workers in case.workers:
                status, text = run(folder, "witness", "main.circom", "i.json", "n.wtns", level,
                                   "-l", HERE, "--workers", workers)
                expect((status, text[:13]), (1, "refused: W1 C"),
                       "%s: witness of %s" % (what, given))
    return call, constraints, changed


def try_parameters(template, rows, source):
    """Tries that `compile` refuses parameters."""
    for row in rows:
        call = "%s(%s)" % (template, ", ".join(as_source(p) for p in row))
        with tempfile.TemporaryDirectory() as folder:
            with open(os.path.join(folder, "main.circom"), "w", encoding="utf-8") as file:
                file.write('include "%s.circom";\ncomponent main = %s;\n' % (source, call))
            status, text = run(folder, "compile", "main.circom", "f.r1cs", "-l", HERE)
            expect((status, text[:24]), (1, "refused: E18 AssertFalse"), call + ": " + text)


def shortened(cases_of_template):
    """A case of each template, with few inputs, at one level."""
    case = cases_of_template[min(1, len(cases_of_template) - 1)]
    case.levels, case.workers = ("--O1",), ("4",)
    case.accepts, case.refuses = case.accepts[:2], case.refuses[:2]
    return [case]


def as_source(parameter):
    if isinstance(parameter, (list, tuple)):
        return "[" + ", ".join(as_source(each) for each in parameter) + "]"
    return str(parameter)


def main():
    random.seed(20240229)
    names = sys.argv[1:] or list(FILES)
    wrong = 0
    for source in names:
        for template, of_template in FILES[source]().items():
            began = time.time()
            if QUICK:
                of_template = shortened(of_template)
            sizes, accepted, refused, changed = [], 0, 0, 0
            bad = BAD_PARAMETERS.get(source, {}).get(template, ())
            try:
                try_parameters(template, bad, source)
                for case in of_template:
                    with tempfile.TemporaryDirectory() as folder:
                        call, counts, changes = try_case(case, source, folder)
                    sizes.append("%s %s" % (call[len(template):] if len(call) < 60 else "(..)",
                                            "/".join(str(counts[level]) for level in counts)))
                    accepted += len(case.accepts)
                    refused += len(case.refuses)
                    changed += changes
                print("ok    %s: constraints %s; %d inputs accepted, %d refused, %d changes, "
                      "%d bad parameters; %.1f s"
                      % (template, ", ".join(sizes), accepted, refused, changed, len(bad),
                         time.time() - began), flush=True)
            except Wrong as fault:
                wrong += 1
                print("WRONG %s: %s" % (template, fault), flush=True)
    if not HAS_DETERMINE:
        print("the program has no `determine`: no certificate was tried")
    print("%d templates wrong" % wrong)
    return 1 if wrong else 0


if __name__ == "__main__":
    sys.exit(main())
