#!/usr/bin/env python3
"""Runs `compile`, `witness` and `check` on random sources, and prints those on which they disagree.

No contract says that the program doesn't want memory while there is enough, so this looks for
sources on which it does. Of each source it wants that

- `compile` and `witness` end with 0 or 1;
- where `compile` refuses the source, `witness` says the same line;
- where the run doesn't stop, `check` says that its values satisfy the file.

usage: bench/random_sources.py [FIRST LAST]      (the seeds of the sources, 1 to 500 without them)
"""
import itertools
import json
import os
import random
import subprocess
import sys
import tempfile
from collections import Counter

PROGRAM = os.path.join(os.path.dirname(os.path.abspath(__file__)), "..", "circom_gold")
NUMBERS = [0, 1, 2, 3, 5, 8, 64, 255, 9223372034707292161, 18446744069414584320]
OPERATORS = "+ - * + - * / \\ % ** << >> & | ^ < <= > >= == != && ||".split()
ASSIGNMENTS = "+= -= *= /= \\= %= **= <<= >>= &= |= ^=".split()


def indexed(name, dims):
    """A name with these dimensions or indices, each in brackets."""
    return name + "".join(f"[{it}]" for it in dims)


class Scope:
    """What may be named where a statement stands; a signal by its text and the dimensions left."""

    def __init__(self, variables=(), signals=(), loops=(), depth=0, returns=None):
        self.variables, self.signals, self.loops = dict(variables), list(signals), list(loops)
        self.depth, self.returns = depth, returns

    def inner(self):
        return Scope(self.variables, self.signals, self.loops, self.depth + 1, self.returns)


class Source:
    """A source of functions and templates, of which the last is main's, and an input for it."""

    def __init__(self, seed):
        self.random = random.Random(seed)
        self.names = itertools.count()
        self.functions, self.templates, self.inputs = [], [], {}
        parts = [self.function() for _ in range(self.up_to(3))]
        parts += [self.template(False) for _ in range(self.up_to(3))]
        parts.append(self.template(True))
        self.text = "\n".join(parts)

    def up_to(self, most, least=0):
        return self.random.randint(least, most)

    def chance(self, share):
        return self.random.random() < share

    def one(self, *choices):
        return self.random.choice(choices)

    def name(self, kind):
        return f"{kind}{next(self.names)}"

    def number(self):
        return str(self.one(*NUMBERS, self.up_to(20)))

    def dims(self):
        return [self.up_to(3, 1) for _ in range(self.one(0, 0, 0, 1, 1, 2))]

    # Expressions

    def index(self, scope, dim, height):
        share = self.random.random()
        if share < 0.72 or not height:
            return str(self.up_to(dim - 1))
        if share < 0.82 and scope.loops:
            return f"{self.one(*scope.loops)} % {dim}"
        if share < 0.97:
            return f"({self.expression(scope, height - 1)}) % {dim}"
        return self.one(str(dim), "0 - 1", self.expression(scope, height - 1))

    def element(self, scope, name, dims, height=1):
        return indexed(name, [self.index(scope, dim, height) for dim in dims])

    def operand(self, scope, height=1):
        share = self.random.random()
        if share < 0.5 and scope.variables:
            return self.element(scope, *self.one(*scope.variables.items()), height)
        if share < 0.8 and scope.signals:
            return self.element(scope, *self.one(*scope.signals), height)
        return self.number()

    def array(self, scope, dims, height=1):
        """A literal of these dimensions, or a variable that has them; an expression without any."""
        if not dims:
            return self.expression(scope, height)
        same = [name for name, others in scope.variables.items() if others == dims]
        if same and self.chance(0.5):
            return self.one(*same)
        return "[" + ", ".join(self.array(scope, dims[1:], height) for _ in range(dims[0])) + "]"

    def expression(self, scope, height):
        share = self.random.random()
        if not height or share < 0.3:
            return self.operand(scope, height)
        a, b, c = (self.expression(scope, height - 1) for _ in range(3))
        if share < 0.65:
            return f"({a} {self.one(*OPERATORS)} {b})"
        if share < 0.72:
            return self.one("-", "!", "~") + f"({a})"
        numeric = [it for it in self.functions if it[2] == []]
        if share < 0.82 or not numeric:
            return f"({a} ? {b} : {c})"
        name, parameters, _ = self.one(*numeric)
        return f"{name}({', '.join(self.array(scope, dims, height - 1) for dims in parameters)})"

    def linear(self, scope):
        """A number or an element of a signal at a place that is known."""
        if not scope.signals or self.chance(0.2):
            return self.number()
        name, dims = self.one(*scope.signals)
        return indexed(name, [self.up_to(dim - 1) for dim in dims])

    def assigned(self, scope, arrow):
        """What a signal is assigned: anything by `<--`, and mostly a quadratic form by `<==`."""
        if arrow == "<--" or self.chance(0.1):
            return self.expression(scope, 2)
        a, b, c = (self.linear(scope) for _ in range(3))
        return self.one(a, f"{a} * {b} + {c}", f"{a} + {self.number()} * {c}")

    # Statements

    def statements(self, scope, height, most):
        scope = scope.inner()
        return " ".join(self.statement(scope, height) for _ in range(self.up_to(most, 1)))

    def statement(self, scope, height):
        share = self.random.random()
        if share < 0.22:
            return self.declaration(scope)
        if share < 0.5:
            return self.assignment(scope)
        if share < 0.65 and height:
            condition = self.expression(scope, 1)
            branch = f"if ({condition}) {{ {self.statements(scope, height - 1, 3)} }}"
            if self.chance(0.5):
                branch += f" else {{ {self.statements(scope, height - 1, 2)} }}"
            return branch
        if share < 0.78 and height:
            return self.loop(scope, height)
        if share < 0.8:
            return f"assert({self.one('1', '1', self.expression(scope, 1))});"
        if scope.returns is not None:
            value = self.array(scope, scope.returns)
            return f"if ({self.expression(scope, 1)}) {{ return {value}; }}"
        if scope.depth:
            return "{ }"
        if share < 0.85:
            return f"log(\"at\", {self.expression(scope, 1)});"
        return self.one(self.signal, self.constraint, self.component, self.anonymous)(scope)

    def declaration(self, scope):
        name, dims = self.name("v"), self.dims()
        text = f"var {indexed(name, dims)}"
        if self.chance(0.5):
            text += f" = {self.array(scope, dims)}"
        scope.variables[name] = dims
        return text + ";"

    def assignment(self, scope):
        free = [it for it in scope.variables.items() if it[0] not in scope.loops]
        if not free:
            return "{ }"
        name, dims = self.one(*free)
        if dims and self.chance(0.15):
            return f"{self.element(scope, name, dims[:-1])} = {self.array(scope, dims[-1:])};"
        place = self.element(scope, name, dims)
        if self.chance(0.1):
            return place + self.one("++;", "--;")
        return f"{place} {self.one('=', '=', '=', *ASSIGNMENTS)} {self.expression(scope, 2)};"

    def loop(self, scope, height):
        name, inner = self.name("i"), scope.inner()
        inner.variables[name] = []
        inner.loops.append(name)
        bound = self.one("2", "3", f"{self.operand(scope)} % 4")
        more = self.one("", "", f" || {name} < {self.operand(scope)} % 3")
        body = self.statements(inner, height - 1, 3)
        return f"for (var {name} = 0; {name} < {bound}{more}; {name}++) {{ {body} }}"

    def signal(self, scope):
        name, dims = self.name("s"), self.dims()
        text = f"signal {indexed(name, dims)};"
        for place in itertools.product(*map(range, dims)):
            arrow = self.one("<==", "<--")
            element = indexed(name, place)
            text += f" {element} {arrow} {self.assigned(scope, arrow)};"
        scope.signals.append((name, dims))
        return text

    def constraint(self, scope):
        return f"{self.assigned(scope, '<==')} === {self.assigned(scope, '<==')};"

    def call(self, template):
        return f"{template[0]}({', '.join(self.number() for _ in range(template[1]))})"

    def component(self, scope):
        """An array of components, of which some may not be made, and whose outputs are named."""
        if not self.templates:
            return "{ }"
        template = self.one(*self.templates)
        name, dims = self.name("c"), self.dims()
        places = [*itertools.product(*map(range, dims))]
        text = f"component {indexed(name, dims)};"
        for place in places[: self.one(1, len(places), len(places))]:
            element = indexed(name, place)
            text += f" {element} = {self.call(template)};"
            text += "".join(f" {element}.{it} <== {self.linear(scope)};" for it in template[2])
        for output in template[3]:
            first = indexed(name, [0 for _ in dims])
            scope.signals.append((f"{first}.{output}", []))
            if self.chance(0.4):
                scope.signals.append((f"{self.element(scope, name, dims)}.{output}", []))
        return text

    def anonymous(self, scope):
        if not self.templates:
            return "{ }"
        template = self.one(*self.templates)
        inputs = [self.linear(scope) for _ in template[2]]
        if self.chance(0.3):
            pairs = zip(template[2], inputs)
            inputs = [f"{it} {self.one('<==', '<--')} {value}" for it, value in pairs]
            self.random.shuffle(inputs)
        value = f"{self.call(template)}({', '.join(inputs)})"
        names = [self.name("s") for _ in template[3]]
        text = " ".join(f"signal {name};" for name in names)
        if len(names) == 1:
            text += f" {names[0]} <== {value} + {self.linear(scope)};"
        else:
            text += f" ({', '.join(names)}) <== {value};"
        scope.signals += [(name, []) for name in names]
        return text

    # Definitions

    def function(self):
        name = self.name("f")
        scope = Scope(returns=self.one([], [], [], [2]))
        parameters = [(self.name("p"), self.one([], [], [2], [3])) for _ in range(self.up_to(2))]
        scope.variables.update(parameters)
        body = self.statements(scope, 2, 3)
        text = f"function {name}({', '.join(it for it, _ in parameters)}) {{\n{body}\n"
        text += f"return {self.array(scope, scope.returns)};\n}}"
        self.functions.append((name, [dims for _, dims in parameters], scope.returns))
        return text

    def template(self, is_main):
        name = self.name("T")
        parameters = [] if is_main else [self.name("n") for _ in range(self.up_to(2))]
        scope = Scope({it: [] for it in parameters})
        lines, inputs = [], []
        for _ in range(self.up_to(3, 1)):
            inputs.append((self.name("x"), self.dims() if is_main else []))
            lines.append("signal input " + indexed(*inputs[-1]) + ";")
        outputs = [self.name("y") for _ in range(self.up_to(2, 1))]
        lines += [f"signal output {it};" for it in outputs]
        scope.signals += inputs
        lines += [self.statement(scope, 3) for _ in range(self.up_to(13, 2))]
        for output in outputs:
            arrow = self.one("<==", "<--")
            lines.append(f"{output} {arrow} {self.assigned(scope, arrow)};")
        text = f"template {name}({', '.join(parameters)}) {{\n" + "\n".join(lines) + "\n}"
        if not is_main:
            self.templates.append((name, len(parameters), [it for it, _ in inputs], outputs))
            return text
        self.inputs = {it: self.value(dims) for it, dims in inputs}
        return f"{text}\ncomponent main = {name}();\n"

    def value(self, dims):
        if dims:
            return [self.value(dims[1:]) for _ in range(dims[0])]
        return self.one(0, 1, 2, 3, self.up_to(9), NUMBERS[-1])


def run(*words):
    """The exit status of these words, and what they print."""
    ran = subprocess.run([PROGRAM, *words], stdout=subprocess.PIPE, stderr=subprocess.STDOUT)
    return ran.returncode, ran.stdout.decode("utf-8", "replace")


def fault(level, seen):
    """What is wrong with the source in this folder, or None."""
    compiled, why = run("compile", "t.circom", "m.r1cs", level)
    ran, said = run("witness", "t.circom", "i.json", "w.wtns", level, "--fuel", "100000")
    seen["refused" if compiled else "stopped" if ran else "run"] += 1
    if compiled not in (0, 1) or ran not in (0, 1):
        return f"status {compiled} of compile, {ran} of witness"
    if compiled:
        return None if (ran, said) == (1, why) else f"refused in two ways: {why} {said}"
    if ran:
        stops = said.splitlines()[-1].startswith("refused: W")
        return None if stops else f"refused by witness alone: {said}"
    checked = run("check", "m.r1cs", "w.wtns")
    return None if checked == (0, "satisfied\n") else f"not satisfied: {checked}"


def main():
    first, last = map(int, sys.argv[1:] or (1, 500))
    seen, faults = Counter(), 0
    with tempfile.TemporaryDirectory() as folder:
        os.chdir(folder)
        for seed in range(first, last + 1):
            source = Source(seed)
            with open("t.circom", "w") as file:
                file.write(source.text)
            with open("i.json", "w") as file:
                json.dump(source.inputs, file)
            wrong = fault(f"--O{seed % 3}", seen)
            if wrong:
                faults += 1
                print(f"seed {seed}: {wrong}\n{source.text}{json.dumps(source.inputs)}", flush=True)
    counts = ", ".join(f"{seen[it]} {it}" for it in ("run", "stopped", "refused"))
    print(f"{counts}; {faults} faults")
    sys.exit(faults > 0)


main()
