#!/usr/bin/env python3
"""Compares each item of a batch with what `witness` has for its line alone: 1,000 lines of random
inputs of each of three circuits, of which every tenth is refused, by each kind of refusal in turn.
Prints a line a circuit; its status is 1 where anything differs.

usage: bench/batch_lines.py      (PROGRAM=FILE tries that program in place of this repository's;
    LINES=1000 and SEED=1 set the numbers)
"""
import json
import os
import random
import struct
import subprocess
import sys
import tempfile

TOP = os.path.dirname(os.path.dirname(os.path.abspath(__file__)))
PROGRAM = os.environ.get("PROGRAM", f"{TOP}/circom_gold")
P = 2**64 - 2**32 + 1

PRODUCT = """template Mul() { signal input a; signal input b; signal output c;
  assert(a != 77); log("product", a*b); c <== a*b; }
component main = Mul();
"""
BITS = """template Bits(n) { signal input in; signal output out[n]; var sum = 0;
  for (var i = 0; i < n; i++) { out[i] <-- (in >> i) & 1; out[i]*(out[i] - 1) === 0;
    sum += out[i]*(1 << i); }
  sum === in; }
component main = Bits(32);
"""
DIVISION = """function inverse(a) { return 1/a; }
template Sum(n) { signal input in[n]; signal output out; signal x[n]; var sum = 0;
  for (var i = 0; i < n; i++) { x[i] <-- inverse(in[i]); x[i]*in[i] === 1; sum += x[i]; }
  out <== sum; }
component main = Sum(5);
"""


def number(draw):
    return str(draw.choice([draw.randrange(1, 2**16), draw.randrange(1, P), P - 1]))


# The inputs of each circuit that aren't refused, and those that its run stops at.
CIRCUITS = {
    "product": (PRODUCT, lambda d: {"a": number(d), "b": number(d)}, [{"a": 77, "b": 1}]),
    "bits": (BITS, lambda d: {"in": str(d.randrange(2**32))}, [{"in": 2**32}, {"in": str(P - 1)}]),
    "division": (DIVISION, lambda d: {"in": [number(d) for _ in range(5)]},
                 [{"in": [1, 2, 0, 3, 4]}]),
}


def refused(good, stops):
    """Lines that are refused, one of each kind."""
    key = next(iter(good))
    some = {name: value for name, value in good.items() if name != key}
    values = [json.dumps(it) for it in stops]
    values += ["", "[1]", "{", json.dumps(some), json.dumps({**good, "z": 1})]
    values += [json.dumps({**good, key: [[1, 2], [3]]}), json.dumps({**good, key: "12x"})]
    return [*values, json.dumps({**good, key: str(2**128)})]


def items_of(data):
    magic, version, count = struct.unpack_from("<4sII", data)
    assert (magic, version) == (b"wtnb", 1), "not a batch"
    at, items = 12, []
    for _ in range(count):
        kind, size = struct.unpack_from("<IQ", data, at)
        items.append((kind, data[at + 12:at + 12 + size]))
        at += 12 + size
    assert at == len(data), "bytes behind the last item"
    return items


def run(*words):
    ran = subprocess.run([PROGRAM, *words], stdout=subprocess.PIPE)
    return ran.returncode, ran.stdout


def alone(line):
    """What `witness` has for a file of this line."""
    with open("one.json", "wb") as file:
        file.write(line)
    status, said = run("witness", "t.circom", "one.json", "one.wtns")
    if status == 0:
        with open("one.wtns", "rb") as file:
            return 0, file.read()
    return 1, said.splitlines()[-1]


def is_same(name, draw, count):
    source, good, stops = CIRCUITS[name]
    with open("t.circom", "w") as file:
        file.write(source)
    bad = refused(good(draw), stops)
    lines = [bad[i // 10 % len(bad)] if i % 10 == 9 else json.dumps(good(draw))
             for i in range(count)]
    with open("inputs", "w") as file:
        file.write("".join(f"{line}\n" for line in lines))
    wanted = [alone(line.encode()) for line in lines]
    made = sum(kind == 0 for kind, _ in wanted)
    for workers in ("1", "4", "64"):
        status, said = run("batch", "t.circom", "inputs", "made", "--workers", workers)
        if (status, said) != (0, f"batch: inputs {count}, witnesses {made}\n".encode()):
            print(f"{name}: WRONG with {workers} workers: status {status}, {said[:200]}")
            return False
        with open("made", "rb") as file:
            items = items_of(file.read())
        for k, (found, want) in enumerate(zip(items, wanted)):
            if found != want:
                print(f"{name}: WRONG with {workers} workers: line {k + 1}: {lines[k]}")
                return False
    print(f"{name}: {count} lines, {count - made} refused: as `witness` has each")
    return True


def main():
    draw = random.Random(int(os.environ.get("SEED", "1")))
    count = int(os.environ.get("LINES", "1000"))
    with tempfile.TemporaryDirectory() as folder:
        os.chdir(folder)
        sys.exit(0 if all([is_same(name, draw, count) for name in CIRCUITS]) else 1)


main()
