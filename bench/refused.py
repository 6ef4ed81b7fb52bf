"""Refuses requests of the program for memory and fails its calls of the system, each in turn.

usage: refused.py PROGRAM LIBRARY FOLDER [KIND ..]      (refused.sh makes the library and the folder)

Each command of `COMMANDS` is run once as it is, and must give the answer that stands there. Then,
for each kind of call, with the first call answered otherwise, with the second one, and so on:

  memory   refused, alone and with all later requests. The answer must be the same, or status 4,
           where the standard output is a front of the same text.
  open, read, write, close
           failed. The answer must be the same or status 3: with `fault: store`, or with a front of
           the same text and the same file. An interrupted read has failed too.
           Interrupted, where it isn't a read, and read or written one byte of, once and always: the
           answer must be the same.

With statuses 3 and 4 the file that the command writes must be as before or a front of the same
file; every other file must be as before. For each command and kind stand the number of calls, how
many runs gave the same answer, how many a fault or want of memory, and how many something else. The
words that repeat such a run stand behind. The status is 1 where there is one.
"""
import errno
import os
import struct
import subprocess
import sys
from dataclasses import dataclass

MOST_NUMBERS = int(os.environ.get("MOST", "1000000"))
ONLY = os.environ.get("ONLY", "").split()
MOST_SECONDS = 60
ALL_LATER = 1 << 62
KINDS = {
    "memory": ([errno.ENOMEM], []),
    "open": ([errno.EIO, errno.EMFILE], [errno.EINTR]),
    "read": ([errno.EIO, errno.EINTR], [0]),
    "write": ([errno.EIO, errno.ENOSPC], [errno.EINTR, 0]),
    "close": ([errno.EIO], [errno.EINTR]),
}

MUL = """template Mul() {
  signal input a;
  signal input b;
  signal output c;
  c <== a*b;
}
component main = Mul();
"""
TWO = """template A(k) { signal input x; assert(x != k); }
template T() {
  signal input a; signal output out; component p = A(1); component q = A(1);
  log("start", a); p.x <== a; q.x <== a; out <== a;
}
component main = T();
"""
P = 2**64 - 2**32 + 1
SEED = "0" * 64


def words(*numbers):
    return struct.pack(f"<{len(numbers)}Q", *numbers)


def section(kind, body):
    return struct.pack("<IQ", kind, len(body)) + body


def wtns(*values):
    head = struct.pack("<IQI", 8, P, len(values))
    return b"wtns" + struct.pack("<II", 2, 2) + section(1, head) + section(2, words(*values))


def combination(*terms):
    return struct.pack("<I", len(terms)) + b"".join(struct.pack("<IQ", *it) for it in terms)


def mul_file():
    """The constraint a * b - c = 0 over the wires 1, c, a, b."""
    head = struct.pack("<IQIIIIQI", 8, P, 4, 1, 0, 2, 4, 1)
    row = combination((2, P - 1)) + combination((3, 1)) + combination((1, P - 1))
    parts = section(1, head) + section(2, row) + section(3, words(0, 1, 2, 3))
    return b"r1cs" + struct.pack("<II", 1, 3) + parts


FILES = {
    "mul.circom": MUL.encode(),
    "two.circom": TWO.encode(),
    "i.json": b'{"a":3,"b":"11"}',
    "one.json": b'{"a":1}',
    "two.json": b'{"a":2}',
    "m.r1cs": mul_file(),
    "m.wtns": wtns(1, 33, 3, 11),
    "wrong.wtns": wtns(1, 34, 3, 11),
    "three.wtns": wtns(1, 33, 3),
    "zero.wtns": wtns(2, 33, 3, 11),
    "33.json": b'["33"]',
    "34.json": b'["34"]',
    "both.json": b'["33","3"]',
}

USAGE = "usage: circom_gold "
STARTS = "start 1\nrefused: W2 AssertFails at two.circom:1:33 in main.p\n"

# The words, the status, and what the text must begin with. OUT is the name of what is written.
COMMANDS = [
    ("", 64, USAGE),
    ("check m.r1cs m.wtns", 0, "satisfied\n"),
    ("check m.r1cs wrong.wtns", 2, "unsatisfied: constraint 0\n"),
    ("check m.r1cs three.wtns", 1, "refused: 3 values for 4 wires\n"),
    ("check m.r1cs zero.wtns", 2, "unsatisfied: wire 0\n"),
    ("check no.r1cs m.wtns", 1, "refused: no.r1cs: no such file\n"),
    ("compile mul.circom OUT --O0", 0, "compiled: wires 4, constraints 1\n"),
    ("compile mul.circom OUT", 0, "compiled: wires 4, constraints 1\n"),
    ("compile mul.circom OUT --O2", 0, "compiled: wires 4, constraints 1\n"),
    ("witness mul.circom i.json OUT --workers 1", 0, "witness: values 4\n"),
    ("witness mul.circom i.json OUT", 0, "witness: values 4\n"),
    ("compile two.circom OUT", 0, "compiled: wires 3, constraints 1\n"),
    ("witness two.circom one.json OUT", 1, STARTS),
    ("witness two.circom two.json OUT", 0, "start 2\nwitness: values 3\n"),
    (f"prove m.r1cs m.wtns OUT --seed {SEED} --proof 1", 0, "proved: bytes 56872\n"),
    (f"prove m.r1cs m.wtns OUT --seed {SEED}", 0, "proved: bytes "),
    (f"prove m.r1cs wrong.wtns OUT --seed {SEED}", 2, "unsatisfied: constraint 0\n"),
    ("public m.r1cs m.wtns OUT", 0, "public: values 1\n"),
    ("audit m.r1cs 33.json 1.proof", 0, "accepted\n"),
    ("audit m.r1cs 33.json 2.proof", 0, "accepted\n"),
    ("audit m.r1cs both.json 1.proof", 2, "rejected: 1 PublicCount\n"),
    ("audit m.r1cs 34.json 1.proof", 2, "rejected: "),
    ("audit m.r1cs 33.json cut.proof", 2, "rejected: 2 Malformed at byte 100\n"),
    ("audit m.r1cs 33.json long.proof", 2, "rejected: 2 Malformed at byte 56872\n"),
    ("generate 7 3", 0, "generated: links 3, wires 13, constraints 3, satisfied, out 59\n"),
]


@dataclass
class Answer:
    status: int
    text: bytes
    errors: bytes
    written: bytes | None


def contents(folder):
    return {it: open(os.path.join(folder, it), "rb").read() for it in os.listdir(folder)}


class Runner:
    def __init__(self, program, library, folder):
        self.program, self.library = program, library
        self.count = os.path.join(folder, "count")
        self.folder = os.path.join(folder, "files")
        os.mkdir(self.folder)
        for name, text in FILES.items():
            self.put(name, text)
        self.files = contents(self.folder)

    def put(self, name, text):
        with open(os.path.join(self.folder, name), "wb") as file:
            file.write(text)

    def settings(self, kind, how, first, last):
        return {
            "LD_PRELOAD": self.library,
            "REFUSED_KIND": kind,
            "REFUSED_HOW": str(how),
            "REFUSED_FIRST": str(first),
            "REFUSED_LAST": str(last),
            "REFUSED_COUNT": self.count,
        }

    def run(self, line, before=None, **how):
        """The answer, and the number of calls of that kind. Before, OUT holds those bytes."""
        out = os.path.join(self.folder, "OUT")
        if os.path.exists(out):
            os.remove(out)
        if before is not None:
            self.put("OUT", before)
        with open(self.count, "wb") as file:
            file.write(bytes(8))
        done = subprocess.run(
            [self.program, *line.split()],
            cwd=self.folder,
            env={**os.environ, **self.settings(**how)},
            capture_output=True,
            timeout=MOST_SECONDS,
        )
        files = contents(self.folder)
        answer = Answer(done.returncode, done.stdout, done.stderr, files.pop("OUT", None))
        if files != self.files:
            raise SystemExit(f"{line}: another file than OUT was changed")
        return answer, struct.unpack("<Q", open(self.count, "rb").read())[0]


def is_front(written, whole, before):
    if written == before:
        return True
    return whole is not None and written is not None and whole.startswith(written)


def judge(own, answer, kind, how, before):
    """Whether the answer is the same, a fault or want of memory, or wrong."""
    whole = before if own.written is None else own.written
    if (answer.status, answer.text, answer.written) == (own.status, own.text, whole):
        return "same"
    is_partly_written = is_front(answer.written, own.written, before)
    if kind == "memory" and answer.status == 4:
        is_said = b"want of memory\n".startswith(answer.errors) and own.text.startswith(answer.text)
        return "other" if is_said and is_partly_written else "wrong"
    if kind != "memory" and how in KINDS[kind][0] and answer.status == 3:
        of_store = b"fault: store\n".startswith(answer.text) and is_partly_written
        of_sink = own.text.startswith(answer.text) and answer.written == whole
        return "other" if of_store or of_sink else "wrong"
    return "wrong"


def ways(kind, calls):
    """How the calls are answered otherwise: an error or 0, the first one and the last one."""
    fails, is_nothing = KINDS[kind]
    turns = min(calls, MOST_NUMBERS)
    for number in (calls * turn // turns for turn in range(1, turns + 1)):
        for how in fails + is_nothing:
            yield how, number, number
        if kind == "memory":
            yield fails[0], number, ALL_LATER
    if 0 in is_nothing:
        yield 0, 1, ALL_LATER


def try_command(runner, line, own, kind):
    """Prints how the command's runs end, and answers whether all of them are right."""
    calls = runner.run(line, kind=kind, how=0, first=0, last=0)[1]
    counts = {"same": 0, "other": 0, "wrong": 0}
    wrong = []
    for turn, (how, first, last) in enumerate(ways(kind, calls)):
        before = b"before" if turn % 2 else None
        settings = {"kind": kind, "how": how, "first": first, "last": last}
        try:
            answer, _ = runner.run(line, before, **settings)
            verdict = judge(own, answer, kind, how, before)
        except subprocess.TimeoutExpired:
            answer, verdict = "no end", "wrong"
        counts[verdict] += 1
        if verdict == "wrong":
            names = " ".join(f"REFUSED_{name.upper()}={it}" for name, it in settings.items())
            wrong.append(f"    {names} {line}: {answer}")
    shown = line.replace(f" --seed {SEED}", " --seed 0..")
    print(f"{kind:7} {calls:6} {counts['same']:6} {counts['other']:6} {counts['wrong']:6}  {shown}")
    print("\n".join(wrong), end="\n" if wrong else "", flush=True)
    return not wrong


def own_answers(runner):
    """Each command's own answer. The proofs that later ones read are made on the way."""
    answers = []
    for line, status, begins in COMMANDS:
        answer, _ = runner.run(line, kind="close", how=0, first=0, last=0)
        text = answer.text.decode()
        is_right = text == begins if begins.endswith("\n") else text.startswith(begins)
        if answer.status != status or not is_right:
            raise SystemExit(f"{line}: {answer}")
        answers.append(answer)
        if line.startswith("prove") and status == 0:
            number = "1" if line.endswith("--proof 1") else "2"
            proofs = {f"{number}.proof": answer.written}
            if number == "1":
                proofs |= {"cut.proof": answer.written[:100], "long.proof": answer.written + b"\0"}
            for name, proof in proofs.items():
                runner.put(name, proof)
            runner.files |= proofs
    return answers


def main():
    program, library, folder, *kinds = sys.argv[1:]
    runner = Runner(os.path.abspath(program), os.path.abspath(library), folder)
    answers = own_answers(runner)
    print(f"{'kind':7} {'calls':>6} {'same':>6} {'other':>6} {'wrong':>6}  command")
    is_right = True
    for kind in kinds or KINDS:
        for (line, _, _), own in zip(COMMANDS, answers):
            if not ONLY or line.split()[:1] in [[it] for it in ONLY]:
                is_right &= try_command(runner, line, own, kind)
    return 0 if is_right else 1


sys.exit(main())
