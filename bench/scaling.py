#!/usr/bin/env python3
"""Shows how the time of `compile` and `witness` grows with a source.

Each kind of source is made at four sizes, each twice the one before. For each size stand the
processor seconds, the least of three runs, less those of a source with one signal; behind them the
power of the growth: 1.0 where twice the work takes twice the time.

usage: bench/scaling.py [COMMAND.KIND ..]      (all of them without words; PROGRAM=FILE times that
                                                program in place of this repository's)
"""
import json
import math
import os
import resource
import subprocess
import sys
import tempfile

TOP = os.path.dirname(os.path.dirname(os.path.abspath(__file__)))
PROGRAM = os.path.abspath(os.environ.get("PROGRAM", os.path.join(TOP, "circom_gold")))
LEAST_RUNS, MOST_SECONDS = 3, 60


def template(body, name="Main"):
    return f"template {name}() {{ {body} }}\n"


def program(body, others=""):
    return others + template(body) + "component main = Main();\n"


def many(text, count):
    """The text for each number below the count, in place of its @."""
    return "".join(text.replace("@", str(it)) for it in range(count))


def chain(n):
    body = f"""signal input a; signal output y; signal x[{n}]; x[0] <== a;
        for (var i = 1; i < {n}; i++) {{ x[i] <== x[i - 1] + 1; }} y <== x[{n - 1}];"""
    return program(body), {"a": 3}


def copies(n):
    body = f"""signal input a[{n}]; signal output y[{n}];
        for (var i = 0; i < {n}; i++) {{ y[i] <== a[i]; }}"""
    return program(body), {"a": list(range(n))}


def total(n):
    body = f"""signal input a[{n}]; signal output y; var s = 0;
        for (var i = 0; i < {n}; i++) {{ s += a[i]; }} y <== s;"""
    return program(body), {"a": list(range(n))}


def parts(n):
    part = template("signal input a; signal output b; b <== a * a + 1;", "Part")
    body = f"""signal input a; signal output y; component c[{n}];
        c[0] = Part(); c[0].a <== a;
        for (var i = 1; i < {n}; i++) {{ c[i] = Part(); c[i].a <== c[i - 1].b; }}
        y <== c[{n - 1}].b;"""
    return program(body, part), {"a": 3}


def product(n):
    body = f"""signal input a[{n}][{n}]; signal input b[{n}][{n}]; signal output c[{n}][{n}];
        signal p[{n}][{n}][{n}];
        for (var i = 0; i < {n}; i++) {{ for (var j = 0; j < {n}; j++) {{ var s = 0;
            for (var k = 0; k < {n}; k++) {{ p[i][j][k] <== a[i][k] * b[k][j]; s += p[i][j][k]; }}
            c[i][j] <== s;
        }} }}"""
    rows = [[i + j for j in range(n)] for i in range(n)]
    return program(body), {"a": rows, "b": rows}


def names(n):
    body = "signal input a; signal output y; " + many("signal s@; s@ <== a + @; ", n)
    body += "log(" + ", ".join(f"s{it}" for it in range(n)) + "); y <== a;"
    return program(body), {"a": 3}


def calls(n):
    function = "function f(x) { return x * 3 + 1; }\n"
    body = "signal input a; signal output y; y <-- " + many("f(a + @) + ", n) + "0; y * 0 === 0;"
    return program(body, function), {"a": 3}


def nested(n):
    function = "function f(x) { return x * x + 1; }\n"
    body = f"""signal input a; signal output y;
        y <-- {"f(" * n}a{")" * n}; y * 0 === 0;"""
    return program(body, function), {"a": 3}


def known(n):
    function = """function f(x) { var r = x; for (var i = 0; i < 20000; i++) { r = r * x + i; }
        return r; }\n"""
    body = f"""signal input a; signal output y;
        y <-- a * {"f(" * n}1{")" * n}; y * 0 === 0;"""
    return program(body, function), {"a": 3}


def arrays(n):
    function = f"function f(x) {{ return x[0] + x[{n - 1}]; }}\n"
    body = f"""signal input a[{n}]; signal output y; signal z[8];
        for (var i = 0; i < 8; i++) {{ z[i] <-- f(a) + i; z[i] * 0 === 0; }} y <== z[7];"""
    return program(body, function), {"a": list(range(n))}


def branches(n):
    body = "signal input a; signal output y; " + many("var v@ = a; ", n)
    body += "if (a > 1) { " + many("v@ = v@ + 1; ", n) + f"}} y <-- v{n - 1}; y * 0 === 0;"
    return program(body), {"a": 3}


def bits(n):
    part = template("""signal input in; signal output out[63]; var sum = 0; var e = 1;
        for (var i = 0; i < 63; i++) { out[i] <-- (in >> i) & 1; out[i] * (out[i] - 1) === 0;
            sum += out[i] * e; e = e + e; } sum === in;""", "Bits")
    body = f"""signal input a; signal output y; component b[{n}];
        for (var i = 0; i < {n}; i++) {{ b[i] = Bits(); b[i].in <== a + i; }} y <== b[0].out[0];"""
    return program(body, part), {"a": 123456789}


def single(n):
    return program("signal input a; signal output y; y <== a;"), {"a": 3}


# The kinds of sources, with their smallest size and the power of the size that counts the work.
KINDS = {
    chain: (4000, 1), copies: (4000, 1), total: (2000, 1), parts: (4000, 1), product: (8, 3),
    names: (1000, 1), calls: (1000, 1), nested: (31, 1), known: (4, 1), arrays: (1000, 1),
    branches: (500, 1), bits: (50, 1),
}


def seconds(command):
    """The processor seconds of the source in this folder; None where it fails or takes too long."""
    words = {"compile": ["compile", "source.circom", "made.r1cs"],
             "witness": ["witness", "source.circom", "input.json", "made.wtns", "--workers", "1"]}
    least = math.inf
    for _ in range(LEAST_RUNS):
        limit = lambda: resource.setrlimit(resource.RLIMIT_CPU, (MOST_SECONDS, MOST_SECONDS))
        made = subprocess.Popen([PROGRAM, *words[command]], stdout=subprocess.DEVNULL,
                                stderr=subprocess.DEVNULL, preexec_fn=limit)
        _, status, used = os.wait4(made.pid, 0)
        made.returncode = status
        if status != 0:
            return None
        least = min(least, used.ru_utime + used.ru_stime)
        if least > 3:
            break
    return least


def write(made):
    source, given = made
    with open("source.circom", "w") as file:
        file.write(source)
    with open("input.json", "w") as file:
        json.dump(given, file)


def sized(kind, command, start):
    """The seconds of a kind's four sizes, as far as they end in time."""
    least, _ = KINDS[kind]
    for size in (least, 2 * least, 4 * least, 8 * least):
        write(kind(size))
        spent = seconds(command)
        if spent is None:
            return
        yield size, max(spent - start, 0.0001)


def line(kind, command, start):
    timed = list(sized(kind, command, start))
    power = "-"
    if len(timed) > 1:
        doublings = (len(timed) - 1) * KINDS[kind][1]
        power = f"{math.log2(timed[-1][1] / timed[0][1]) / doublings:.2f}"
    figures = " ".join(f"{spent:.3f}" for _, spent in timed)
    last = timed[-1][0] if timed else 0
    return f"{command}.{kind.__name__:12} to {last:7}: {figures} s, power {power}"


def main():
    wanted = sys.argv[1:]
    with tempfile.TemporaryDirectory() as folder:
        os.chdir(folder)
        for command in ("compile", "witness"):
            write(single(1))
            start = seconds(command)
            if start is None:
                sys.exit(f"{PROGRAM} fails at a source with one signal")
            for kind in KINDS:
                if not wanted or f"{command}.{kind.__name__}" in wanted:
                    print(line(kind, command, start), flush=True)


main()
