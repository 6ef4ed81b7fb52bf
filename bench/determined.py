#!/usr/bin/env python3
"""Shows how the time of `determine` and `confirm` grows with the number of constraints.

Each kind of circuit is made at four sizes, each twice the one before. For each size stand the
processor seconds, the least of three runs, and the megabytes of the largest; behind them the power
of the growth: 1.0 where twice the work takes twice the time. The reading of the file is included.

usage: bench/determined.py [KIND ..] [SIZE]     (all of them, and 8192, where none is given;
                                                 PROGRAM=FILE times that program in place of this
                                                 repository's)
"""
import math
import os
import random
import struct
import subprocess
import sys
import tempfile

TOP = os.path.dirname(os.path.dirname(os.path.abspath(__file__)))
PROGRAM = os.path.abspath(os.environ.get("PROGRAM", os.path.join(TOP, "circom_gold")))
RUNS, SIZES = 3, 4
ORDER = 2**64 - 2**32 + 1
MINUS = ORDER - 1


def boolean(wire):
    return [(wire, 1)], [(0, MINUS), (wire, 1)], []


def product(wire):
    """The wire is that of the wire before it and the input 2."""
    return [(2, 1)], [(wire - 1, 1)], [(wire, 1)]


def shuffled(count):
    """Each wire is a product and a sum of six before it, in no order; the output is the last."""
    rows = []
    for i in range(count):
        before = [2 + random.randrange(10 + i) for _ in range(6)]
        wire = 1 if i == count - 1 else 12 + i
        forms = [sorted({w: 3 for w in before[k : k + 2]}.items()) for k in (0, 2, 4)]
        rows.append((forms[0], forms[1], sorted(forms[2] + [(wire, 1)])))
    random.shuffle(rows)
    return rows, 11 + count, 1, 10


def backwards(count):
    """Each wire is one more than the one before it, and stands before it in the file."""
    rows = [([], [], [(0, 1), (wire - 1, 1), (wire, MINUS)]) for wire in range(4, 3 + count)]
    rows.append(([], [], [(1, MINUS), (2 + count, 1)]))
    return rows[::-1], 3 + count, 1, 2


def long_sum(count):
    """The output is a sum of wires that are 0 or 1 and become known one by one."""
    wires = range(4, 4 + count)
    rows = [([], [], [(1, MINUS)] + [(wire, 1) for wire in wires])]
    rows += [boolean(wire) for wire in wires]
    rows += [product(wire) for wire in reversed(wires)]
    return rows, 4 + count, 1, 2


def near_bits(count):
    """Sums of 64 wires that are 0 or 1 and aren't bits of one number."""
    wires = range(4, 4 + count // 64 * 64)
    rows = []
    for first in wires[::64]:
        powers = [(first + k, 2**k) for k in range(63)]
        rows.append(([], [], [(2, 1)] + powers + [(first + 63, 3)]))
    rows += [boolean(wire) for wire in wires]
    rows += [product(wire) for wire in reversed(wires)]
    rows.append(([(2, 1)], [(wires[-1], 1)], [(1, 1)]))
    return rows, 4 + len(wires), 1, 2


def bits(count):
    """The outputs are the bits of numbers of 63 bits."""
    numbers = count // 64
    rows = []
    for number in range(numbers):
        wires = range(1 + 63 * number, 64 + 63 * number)
        rows += [boolean(wire) for wire in wires]
        sum_of_bits = [(wire, 2**k) for k, wire in enumerate(wires)]
        rows.append(([], [], sum_of_bits + [(1 + 63 * numbers + number, MINUS)]))
    return rows, 1 + 64 * numbers, 63 * numbers, numbers


KINDS = {f.__name__: f for f in (shuffled, backwards, long_sum, near_bits, bits)}


def form(terms):
    return struct.pack("<I", len(terms)) + b"".join(struct.pack("<IQ", *term) for term in terms)


def write(path, rows, wires, outputs, inputs):
    header = struct.pack("<IQIIIIQI", 8, ORDER, wires, outputs, 0, inputs, wires, len(rows))
    body = b"".join(form(part) for row in rows for part in row)
    labels = b"".join(struct.pack("<Q", wire) for wire in range(wires))
    with open(path, "wb") as file:
        file.write(b"r1cs" + struct.pack("<II", 1, 3))
        for kind, section in enumerate((header, body, labels), 1):
            file.write(struct.pack("<IQ", kind, len(section)) + section)


def run(*words):
    """The processor seconds and the megabytes of the least of the runs."""
    least = None
    for _ in range(RUNS):
        child = subprocess.Popen([PROGRAM, *words], stdout=subprocess.PIPE)
        child.stdout.read()
        _, status, used = os.wait4(child.pid, 0)
        child.returncode = os.waitstatus_to_exitcode(status)
        if child.returncode not in (0, 2):
            sys.exit(f"{words[0]}: status {child.returncode}")
        spent = (used.ru_utime + used.ru_stime, used.ru_maxrss / 1024)
        least = min(least or spent, spent)
    return least


def main(words):
    first = int(words.pop()) if words and words[-1].isdigit() else 8192
    with tempfile.TemporaryDirectory() as folder:
        r1cs, rules = os.path.join(folder, "made.r1cs"), os.path.join(folder, "made.cert")
        for name in words or KINDS:
            spent = {"determine": [], "confirm": []}
            for k in range(SIZES):
                random.seed(1)
                write(r1cs, *KINDS[name](first << k))
                for command in spent:
                    spent[command].append(run(command, r1cs, rules))
            for command, rows in spent.items():
                power = math.log2(rows[-1][0] / rows[0][0]) / (SIZES - 1)
                seconds = " ".join(f"{row[0]:9.3f}" for row in rows)
                print(f"{command:10} {name:10} {seconds} s {rows[-1][1]:7.0f} MB {power:5.2f}")


if __name__ == "__main__":
    main(sys.argv[1:])
