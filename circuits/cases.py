"""What each template has to give, by Python's whole numbers and hashlib; see test.py."""

import hashlib
import random

import constants

P = 2**64 - 2**32 + 1
LEVELS = ("--O0", "--O1", "--O2")
WORKERS = ("1", "4")


class Case:
    """A template with its parameters, and what it has to do."""

    def __init__(self, template, parameters, accepts, refuses=(), levels=LEVELS, free=0,
                 changes=True, workers=WORKERS):
        self.template = template
        self.parameters = parameters
        self.accepts = accepts  # pairs of an input and the outputs, in the order of declaration
        self.refuses = refuses  # inputs
        self.levels = levels
        self.free = free  # so many signals may have other values, at the first input
        self.changes = changes
        self.workers = workers


def bits(number, count):
    return [number >> i & 1 for i in range(count)]


def some(below, count):
    return [random.randrange(below) for _ in range(count)]


def border(n):
    """Numbers of n bits: at the borders, and two others."""
    return sorted({0, 1, 2**(n - 1), 2**n - 1, *some(2**n, 2)})


def group(*cases):
    """The cases by their templates."""
    found = {}
    for case in cases:
        found.setdefault(case.template, []).append(case)
    return found


NUMBERS = (0, 1, 2, 2**32 - 2, 2**32 - 1, 2**32, 2**63, (P - 1) // 2, (P + 1) // 2, P - 2**32,
           P - 2, P - 1)


def of_bits():
    cases = []
    for n in (1, 8, 63):
        cases.append(Case("Num2Bits", [n], [({"in": v}, bits(v, n)) for v in border(n)],
                          [{"in": v} for v in {2**n, 2**n + 5, P - 1} if v < P]))
        cases.append(Case("Bits2Num", [n], [({"in": bits(v, n)}, [v]) for v in border(n)]))
    top = bits(P, 64)
    cases.append(Case("AssertBelowOrder", [], [({"in": bits(v, 64)}, []) for v in NUMBERS],
                      [{"in": bits(v, 64)} for v in (P, P + 1, P + 77, 2**64 - 1)]))
    cases.append(Case("Num2Bits64", [], [({"in": v}, bits(v, 64)) for v in NUMBERS]))
    cases.append(Case("Bits2Num64", [], [({"in": bits(v, 64)}, [v]) for v in NUMBERS],
                      [{"in": top}] + [{"in": bits(v, 64)} for v in (P + 1, 2**64 - 1)]))
    return group(*cases)


def pairs(n):
    values = border(n)
    return [(a, b) for a in values[:4] for b in values[-3:]] + [(values[-1], values[0])]


def of_comparators():
    cases = [
        Case("IsZero", [], [({"in": v}, [v == 0]) for v in (5, *NUMBERS)]),
        Case("IsEqual", [], [({"in": [a, b]}, [a == b])
                             for a, b in ((3, 4), (3, 3), (0, P - 1), (P - 1, P - 1), (0, 2**63))]),
        Case("ForceEqualIfEnabled", [],
             [({"enabled": e, "in": [a, b]}, []) for e, a, b in ((1, 7, 7), (0, 7, 8), (0, 1, 1))],
             [{"enabled": 1, "in": [7, 8]}, {"enabled": 2, "in": [7, 8]}]),
    ]
    for n in (1, 3):
        cases.append(Case("AreZero", [n], [({"in": v}, [not any(v)])
                                           for v in ([0] * n, [0] * (n - 1) + [2**47 - 1])]))
    kinds = {"LessThan": lambda a, b: a < b, "LessEqThan": lambda a, b: a <= b,
             "GreaterThan": lambda a, b: a > b, "GreaterEqThan": lambda a, b: a >= b}
    for name, holds in kinds.items():
        for n in (1, 8, 62):
            cases.append(Case(name, [n], [({"in": [a, b]}, [holds(a, b)]) for a, b in pairs(n)]))
    # What an unchecked input does: p - 1 counts as less than 0, and as 1 less than anything.
    cases.append(Case("LessThan", [32], [({"in": [P - 1, 0]}, [1]), ({"in": [0, P - 1]}, [0]),
                                         ({"in": [P - 2**32, 0]}, [1])],
                      [{"in": [P - 2**32 - 1, 0]}, {"in": [2**32, 0]}]))
    cases.append(Case("GreaterThan", [32], [({"in": [0, P - 1]}, [1])]))
    for n in (1, 8, 62):
        out = [{"in": [P - 1, 0]}, {"in": [0, P - 1]}, {"in": [2**n, 0]}, {"in": [0, 2**n]}]
        cases.append(Case("LessThanChecked", [n],
                          [({"in": [a, b]}, [a < b]) for a, b in pairs(n)], out))
    some_pairs = [(5, 6), (P - 1, 0), (0, P - 1), (2**32 - 1, 2**32), (2**32, 2**32 - 1),
                  (P - 1, P - 1), (P - 2, P - 1), (2**63, 2**63 - 1), tuple(some(P, 2))]
    cases.append(Case("LessThan64", [], [({"in": [a, b]}, [a < b]) for a, b in some_pairs]))
    cases.append(Case("IsNegative", [], [({"in": v}, [v > (P - 1) // 2]) for v in NUMBERS]))
    for n in (4, 62):
        cases.append(Case("MinMax", [n], [({"in": [a, b]}, [min(a, b), max(a, b)])
                                          for a, b in pairs(n)]))
    return group(*cases)


def of_range():
    cases = [Case("AssertBit", [], [({"in": v}, []) for v in (0, 1)],
                  [{"in": v} for v in (2, P - 1, (P + 1) // 2)])]
    for n in (1, 5):
        good = [1] * n
        cases.append(Case("AssertBits", [n], [({"in": [0] * n}, []), ({"in": good}, [])],
                          [{"in": good[:k] + [v] + good[k + 1:]}
                           for k in range(n) for v in (2, P - 1)]))
    for n in (1, 8, 63):
        cases.append(Case("AssertRange", [n], [({"in": v}, []) for v in border(n)],
                          [{"in": v} for v in (2**n, 2**n + 1, P - 1)]))
    cases.append(Case("AssertRanges", [2, 8], [({"in": [0, 255]}, []), ({"in": [7, 8]}, [])],
                      [{"in": v} for v in ([256, 0], [0, 256], [P - 1, 0], [0, P - 1])]))
    for low, high in ((0, 0), (18, 120), (-5, 5), (1000, 1000 + 2**62 - 1)):
        inside = {low, high, (low + high) // 2}
        outside = (low - 1, high + 1, low + P // 2, low + 2**62)
        cases.append(Case("AssertBetween", [low, high], [({"in": v % P}, []) for v in inside],
                          [{"in": v % P} for v in outside]))
    cases.append(Case("AssertNonZero", [], [({"in": v}, []) for v in NUMBERS if v], [{"in": 0}]))
    for n in (2, 4):
        values = some(P, n)
        good = [({"in": row}, []) for row in (values, list(range(n)))]
        cases.append(Case("AssertDistinct", [n], good,
                          [{"in": values[:-1] + [values[k]]} for k in range(n - 1)]))
    return group(*cases)


def of_gates():
    two = {"AND": lambda a, b: a & b, "OR": lambda a, b: a | b, "XOR": lambda a, b: a ^ b,
           "NAND": lambda a, b: 1 - (a & b), "NOR": lambda a, b: 1 - (a | b),
           "XNOR": lambda a, b: 1 - (a ^ b)}
    cases = [Case("NOT", [], [({"in": a}, [1 - a]) for a in (0, 1)])]
    for name, gate in two.items():
        cases.append(Case(name, [], [({"a": a, "b": b}, [gate(a, b)])
                                     for a in (0, 1) for b in (0, 1)]))
    many = {"MultiAND": all, "MultiOR": any, "MultiXOR": lambda values: sum(values) % 2}
    for name, gate in many.items():
        for n in (1, 2, 9):
            rows = [[0] * n, [1] * n, [1] * (n - 1) + [0], [0] * (n - 1) + [1], some(2, n)]
            cases.append(Case(name, [n], [({"in": row}, [gate(row)]) for row in rows]))
    return group(*cases)


def of_select():
    cases = [
        Case("Choose", [], [({"condition": c, "then": 7, "otherwise": P - 1}, [7 if c else P - 1])
                            for c in (0, 1)]),
        Case("Switcher", [], [({"sel": s, "L": 7, "R": P - 1}, [P - 1, 7] if s else [7, P - 1])
                              for s in (0, 1)]),
    ]
    for n in (1, 3):
        rows = [some(P, 2) for _ in range(2**n)]
        cases.append(Case("MultiMux", [n, 2], [({"c": rows, "s": bits(k, n)}, rows[k])
                                               for k in range(2**n)]))
        row = some(P, 2**n)
        cases.append(Case("Mux", [n], [({"c": row, "s": bits(k, n)}, [row[k]])
                                       for k in range(2**n)]))
    for n in (1, 5):
        out = (n, P - 1, 2**32)
        cases.append(Case("Decoder", [n], [({"in": k}, [k == i for i in range(n)])
                                           for k in range(n)], [{"in": k} for k in out]))
        row = some(P, n)
        cases.append(Case("Select", [n], [({"in": row, "index": k}, [row[k]]) for k in range(n)],
                          [{"in": row, "index": k} for k in out]))
        rows = [some(P, 2) for _ in range(n)]
        cases.append(Case("SelectRow", [n, 2], [({"in": rows, "index": k}, rows[k])
                                                for k in range(n)],
                          [{"in": rows, "index": k} for k in out]))
        cases.append(Case("Replace", [n],
                          [({"in": row, "index": k, "value": 9}, row[:k] + [9] + row[k + 1:])
                           for k in range(n)],
                          [{"in": row, "index": k, "value": 9} for k in out]))
    return group(*cases)


def number_of(values):
    """The number with these bits, the lowest first."""
    return sum(value << i for i, value in enumerate(values))


def of_words():
    cases = []
    for n in (1, 4, 7):
        values = sorted({0, 255, 256**n - 1, *some(256**n, 2)})
        cases.append(Case("Num2Bytes", [n],
                          [({"in": v}, list(v.to_bytes(n, "little"))) for v in values],
                          [{"in": v} for v in (256**n, P - 1)]))
        cases.append(Case("Bytes2Num", [n],
                          [({"in": list(v.to_bytes(n, "little"))}, [v]) for v in values]))
    for n in (1, 8, 62):
        out = [(2**n, 0), (0, 2**n), (P - 1, 0)]
        cases.append(Case("Bitwise", [n],
                          [({"a": a, "b": b}, [a & b, a | b, a ^ b]) for a, b in pairs(n)],
                          [{"a": a, "b": b} for a, b in out]))
    for n in (1, 8, 63):
        out = [{"in": v} for v in (2**n, P - 1)]
        top = 2**n
        cases.append(Case("BitwiseNot", [n], [({"in": v}, [top - 1 - v]) for v in border(n)], out))
        for k in sorted({0, n // 3, n - 1}):
            cases.append(Case("RotateLeft", [n, k],
                              [({"in": v}, [(v << k | v >> (n - k)) % top]) for v in border(n)],
                              out))
        for k in sorted({0, n // 3, n}):
            cases.append(Case("ShiftLeft", [n, k],
                              [({"in": v}, [(v << k) % top]) for v in border(n)], out))
            cases.append(Case("ShiftRight", [n, k],
                              [({"in": v}, [v >> k]) for v in border(n)], out))
    return group(*cases)


def of_arithmetic():
    cases = []
    for n, k in ((1, 1), (8, 3), (32, 5), (61, 4)):
        rows = [[0] * k, [2**n - 1] * k, some(2**n, k), some(2**n, k)]
        cases.append(Case("AddWords", [n, k],
                          [({"in": row}, [sum(row) % 2**n, sum(row) >> n]) for row in rows]))
    for m, n in ((1, 1), (8, 4), (31, 32), (62, 1)):
        rows = [(0, 1), (2**m - 1, 1), (2**n - 2, 2**n - 1),
                ((2**m - 1) * (2**n - 1) + 2**n - 2, 2**n - 1)]
        for _ in range(3):
            divisor = random.randrange(1, 2**n)
            rows.append((random.randrange(divisor * 2**m), divisor))
        out = [(5, 0), (0, 0), (2**m, 1), (0, 2**n), (P - 1, 1), (1, P - 1), (2**63, 1)]
        cases.append(Case("DivideWithRemainder", [m, n],
                          [({"dividend": a, "divisor": b}, [a // b, a % b]) for a, b in rows],
                          [{"dividend": a, "divisor": b} for a, b in out]))
    cases.append(Case("Inverse", [], [({"in": v}, [pow(v, -1, P)]) for v in NUMBERS if v],
                      [{"in": 0}]))
    cases.append(Case("Divide", [], [({"a": v, "b": w}, [v * pow(w, -1, P)])
                                     for v, w in zip(NUMBERS, NUMBERS[1:])],
                      [{"a": 0, "b": 0}, {"a": 1, "b": 0}]))
    for e in (0, 1, 7, 64, P - 2):
        cases.append(Case("Power", [e], [({"in": v}, [pow(v, e, P)]) for v in NUMBERS]))
    return group(*cases)


def word_bits(data):
    """The bits of the words in some bytes, the lowest bit of each first."""
    return [bits(int.from_bytes(data[i:i + 4], "big"), 32) for i in range(0, len(data), 4)]


def padded(data):
    """A message with the padding of FIPS 180-4, section 5.1.1."""
    zeros = b"\0" * (-(len(data) + 9) % 64)
    return data + b"\x80" + zeros + (8 * len(data)).to_bytes(8, "big")


def schedule(block):
    """The 64 words of a block's rounds, from its 16 words."""
    def turned(word, count):
        return (word >> count | word << (32 - count)) % 2**32
    words = list(block)
    for t in range(16, 64):
        x, y = words[t - 2], words[t - 15]
        words.append(((turned(x, 17) ^ turned(x, 19) ^ x >> 10) + words[t - 7]
                      + (turned(y, 7) ^ turned(y, 18) ^ y >> 3) + words[t - 16]) % 2**32)
    return words


def of_sha256():
    block = some(2**32, 16)
    cases = [Case("Sha256Schedule", [], [
        ({"block": [bits(word, 32) for word in block]}, [bits(w, 32) for w in schedule(block)])])]
    # One block on the state of its definition is the compression.
    data = bytes(some(256, 50))
    start = [bits(word, 32) for word in constants.sha256_start()]
    cases.append(Case("Sha256Compression", [], [
        ({"before": start, "block": word_bits(padded(data))},
         word_bits(hashlib.sha256(data).digest()))]))
    for n, length in ((1, 20), (2, 100)):
        data = bytes(some(256, length))
        message = padded(data)
        blocks = [word_bits(message[64 * i:64 * i + 64]) for i in range(n)]
        cases.append(Case("Sha256Blocks", [n], [({"in": blocks},
                                                 word_bits(hashlib.sha256(data).digest()))]))
    for n in (0, 3, 55, 56, 64):
        messages = [bytes(some(256, n)), b"\xff" * n] if n != 3 else [b"abc", b"\0\0\0"]
        good = list(messages[0])
        cases.append(Case("Sha256", [n], [({"in": list(data)}, list(hashlib.sha256(data).digest()))
                                          for data in messages],
                          [{"in": good[:-1] + [v]} for v in (256, P - 1)] if n == 3 else ()))
    return group(*cases)


FULL, PARTIAL, CONSTANTS, MATRIX = constants.poseidon()


def permuted(state):
    return constants.permutation(state, P, 7, FULL, PARTIAL, CONSTANTS, MATRIX)


def poseidon_hash(words):
    words = words + [1] + [0] * (-(len(words) + 1) % 8)
    state = [0] * 12
    for i in range(0, len(words), 8):
        state = permuted([(x + y) % P for x, y in zip(state, words[i:i + 8] + [0] * 4)])
    return state[:4]


def poseidon_node(left, right):
    return permuted(left + right + [1, 0, 0, 0])[:4]


def of_poseidon():
    states = ([0] * 12, list(range(12)), [P - 1] * 12, some(P, 12))
    cases = [Case("PoseidonPermutation", [], [({"in": s}, permuted(s)) for s in states])]
    for n in (0, 1, 7, 8, 20):
        rows = ([0] * n, some(P, n))
        cases.append(Case("PoseidonHash", [n], [({"in": row}, poseidon_hash(row)) for row in rows]))
    pairs_of_digests = [([0] * 4, [0] * 4), (some(P, 4), some(P, 4))]
    cases.append(Case("PoseidonNode", [], [({"left": a, "right": b}, poseidon_node(a, b))
                                           for a, b in pairs_of_digests]))
    return group(*cases)


def leaf_of(data):
    return list(hashlib.sha256(b"\0" + bytes(data)).digest())


def node_of(left, right):
    return list(hashlib.sha256(b"\1" + bytes(left + right)).digest())


def path_of(leaves, place, node):
    """The root above the leaves, and the digests beside the way from one of them up."""
    path = []
    while len(leaves) > 1:
        path.append(leaves[place ^ 1])
        leaves = [node(a, b) for a, b in zip(leaves[::2], leaves[1::2])]
        place //= 2
    return leaves[0], path


def wrong(values, by=1):
    """The values with the first one changed, for each list of them."""
    return [(values[0] + by) % P, *values[1:]]


def members(depth, leaves, digests, node, template, limit):
    """Inputs of a template that refuses what isn't in a tree, and what it refuses."""
    inputs = []
    for place in {0, 2**depth - 1, random.randrange(2**depth)}:
        root, path = path_of(digests, place, node)
        inputs.append({"leaf": leaves[place], "place": bits(place, depth), "path": path,
                       "root": root})
    one = inputs[0]
    out = [{**one, "root": wrong(one["root"])}, {**one, "leaf": wrong(one["leaf"])},
           {**one, "path": [wrong(one["path"][0]), *one["path"][1:]]},
           {**one, "place": [1 - one["place"][0], *one["place"][1:]]},
           {**one, "place": [2, *one["place"][1:]]}]
    if limit:
        out += [{**one, "leaf": [256, *one["leaf"][1:]]},
                {**one, "path": [[P - 1, *one["path"][0][1:]], *one["path"][1:]]}]
    return Case(template, [depth, len(leaves[0])], [(one, []) for one in inputs], out)


def of_merkle():
    data = [some(256, 5) for _ in range(2)]
    digests = [leaf_of(each) for each in data]
    cases = [Case("Sha256Leaf", [5], [({"in": data[0]}, digests[0])],
                  [{"in": wrong(data[0], 256)}]),
             Case("Sha256Node", [],
                  [({"left": digests[0], "right": digests[1]}, node_of(*digests))],
                  [{"left": wrong(digests[0], 256), "right": digests[1]}])]
    for k in (1, 3):
        a, b = some(P, k), some(P, k)
        cases.append(Case("SwitchRows", [k], [({"sel": 0, "a": a, "b": b}, [a, b]),
                                              ({"sel": 1, "a": a, "b": b}, [b, a])]))
    root, path = path_of(digests, 1, node_of)
    cases.append(Case("Sha256Root", [1], [({"leaf": digests[1], "place": [1], "path": path}, root)],
                      [{"leaf": digests[1], "place": [2], "path": path}]))
    cases.append(members(1, data, digests, node_of, "AssertSha256Member", True))
    for depth in (1, 3):
        leaves = [some(P, 3) for _ in range(2**depth)]
        digests = [poseidon_hash(leaf) for leaf in leaves]
        good = []
        for place in (0, 2**depth - 1):
            root, path = path_of(digests, place, poseidon_node)
            good.append(({"leaf": digests[place], "place": bits(place, depth), "path": path}, root))
        cases.append(Case("PoseidonRoot", [depth], good,
                          [{**good[0][0], "place": [v] + [0] * (depth - 1)} for v in (2, P - 1)]))
        cases.append(members(depth, leaves, digests, poseidon_node, "AssertPoseidonMember", False))
    return group(*cases)


def limbs(number, n, k):
    return [number >> n * i & 2**n - 1 for i in range(k)]


def big(n, k):
    """Numbers of k limbs: at the borders, and two others."""
    return [0, 1, 2**(n * k) - 1, *some(2**(n * k), 2)]


def of_bigint():
    cases = []
    for n, m, w in ((1, 2, 1), (8, 3, 20), (28, 4, 61)):
        for_all = [some(2**w, m), [2**w - 1] * m, [0] * m]
        totals = [sum(value << n * i for i, value in enumerate(row)) for row in for_all]
        cases.append(Case("Carry", [n, m, w],
                          [({"in": row}, [limbs(total, n, m), total >> n * m])
                           for row, total in zip(for_all, totals)],
                          [{"in": [2**(w + 1)] + [0] * (m - 1)}, {"in": [P - 1] + [0] * (m - 1)}]))
    for n, k in ((8, 1), (28, 3), (61, 2)):
        many = [(a, b) for a in big(n, k) for b in big(n, k)[1:3]] + [(5, 5), (5, 6)]
        many.insert(0, tuple(some(2**(n * k), 2)))
        ins = [({"a": limbs(a, n, k), "b": limbs(b, n, k)}, a, b) for a, b in many]
        cases.append(Case("BigAdd", [n, k], [(i, limbs(a + b, n, k + 1)) for i, a, b in ins]))
        cases.append(Case("BigSubtract", [n, k],
                          [(i, [limbs((a - b) % 2**(n * k), n, k), a < b]) for i, a, b in ins]))
        cases.append(Case("BigLessThan", [n, k], [(i, [a < b]) for i, a, b in ins]))
        cases.append(Case("BigIsEqual", [k], [(i, [a == b]) for i, a, b in ins]))
    for n, k, m in ((8, 1, 1), (28, 3, 2), (24, 2, 4)):
        cases.append(Case("BigMultiply", [n, k, m],
                          [({"a": limbs(a, n, k), "b": limbs(b, n, m)}, limbs(a * b, n, k + m))
                           for a, b in [*zip(big(n, k)[::-1], big(n, m)[::-1]), (7, 0)]]))
    for n, k, m in ((8, 1, 1), (28, 3, 2), (10, 2, 3)):
        many = [(a, b) for a in big(n, k)[::-1][:4] for b in big(n, m)[1:4]]
        cases.append(Case("BigDivide", [n, k, m],
                          [({"dividend": limbs(a, n, k), "divisor": limbs(b, n, m)},
                            [limbs(a // b, n, k), limbs(a % b, n, m)]) for a, b in many if b],
                          [{"dividend": limbs(5, n, k), "divisor": [0] * m}]))
    for n, k in ((8, 1), (28, 2)):
        many = [(a, b, c) for a, b, c in zip(big(n, k)[::-1], big(n, k)[1:], big(n, k)[::-1]) if c]
        cases.append(Case("BigMultiplyModulo", [n, k],
                          [({"a": limbs(a, n, k), "b": limbs(b, n, k), "modulus": limbs(c, n, k)},
                            limbs(a * b % c, n, k)) for a, b, c in many],
                          [{"a": [1] * k, "b": [1] * k, "modulus": [0] * k}]))
    return group(*cases)


def value_at(coefficients, x):
    return sum(c * pow(x, i, P) for i, c in enumerate(coefficients)) % P


def of_polynomial():
    cases = [Case("Powers", [n], [({"in": v}, [pow(v, i + 1, P) for i in range(n)])
                                  for v in NUMBERS]) for n in (1, 5)]
    for n in (1, 2, 6):
        coefficients = some(P, n)
        cases.append(Case("Evaluate", [n],
                          [({"coefficient": coefficients, "x": x}, [value_at(coefficients, x)])
                           for x in some(P, 2) + [0, 1, P - 1]]))
        cases.append(Case("EvaluateKnown", [n, coefficients],
                          [({"x": x}, [value_at(coefficients, x)])
                           for x in some(P, 2) + [0, 1, P - 1]]))
    for n, m in ((1, 1), (3, 2)):
        a, b = some(P, n), some(P, m)
        due = [sum(a[i] * b[k - i] for i in range(n) if 0 <= k - i < m) for k in range(n + m - 1)]
        cases.append(Case("MultiplyPolynomials", [n, m], [({"a": a, "b": b}, due)]))
    for n in (2, 5):
        coefficients = some(P, n)
        values = [value_at(coefficients, i) for i in range(n)]
        cases.append(Case("Interpolate", [n],
                          [({"value": values, "x": x}, [value_at(coefficients, x)])
                           for x in some(P, 2) + [0, 1, n - 1, n, P - 1]]))
    return group(*cases)


def of_matrix():
    cases = []
    for n in (1, 4):
        a, b = some(P, n), some(P, n)
        cases.append(Case("InnerProduct", [n],
                          [({"a": a, "b": b}, [sum(x * y for x, y in zip(a, b))])]))
    for n, m, k in ((1, 1, 1), (2, 3, 2)):
        a, b = [some(P, m) for _ in range(n)], [some(P, k) for _ in range(m)]
        cases.append(Case("MultiplyMatrices", [n, m, k],
                          [({"a": a, "b": b}, constants.product(a, b, P))]))
        column = some(P, m)
        cases.append(Case("ApplyKnown", [n, m, a],
                          [({"in": column}, constants.product(a, [[x] for x in column], P))]))
        cases.append(Case("Transpose", [n, m], [({"in": a}, [list(row) for row in zip(*a)])]))
    for matrix, inverse in (([[3]], [[pow(3, -1, P)]]), ([[2, 3], [3, 4]], [[-4, 3], [3, -2]])):
        n = len(matrix)
        right = some(P, n)
        inverse = [[x % P for x in row] for row in inverse]
        given = {"matrix": matrix, "inverse": inverse, "right": right}
        cases.append(Case("SolveLinear", [n],
                          [(given, constants.product(inverse, [[x] for x in right], P))],
                          [{**given, "inverse": [wrong(row) for row in inverse]},
                           {**given, "matrix": [[0] * n] * n}]))
    return group(*cases)


def of_sort():
    cases = []
    for k, n in ((1, 8), (2, 1), (5, 16), (8, 62)):
        rows = [some(2**n, k), sorted(some(2**n, k)), sorted(some(2**n, k))[::-1],
                [2**n - 1] * k, [0] * (k - 1) + [1], [1] + [0] * (k - 1)]
        out = [{"in": row[:-1] + [v]} for row in rows[:1] for v in (2**n, P - 1)]
        cases.append(Case("Sort", [k, n], [({"in": row}, sorted(row)) for row in rows], out))
        out = out + [{"in": row} for row in rows if row != sorted(row)]
        cases.append(Case("AssertSorted", [k, n], [({"in": sorted(row)}, []) for row in rows], out))
    for k in (1, 2, 5, 8):
        rows = [some(P, k), [7] * k, [i // 2 for i in range(k)]]
        good = [(row, random.sample(row, k)) for row in rows for _ in range(3)]
        cases.append(Case("AssertPermutation", [k], [({"a": a, "b": b}, []) for a, b in good],
                          [{"a": a, "b": wrong(b)} for a, b in good[::3]]
                          + [{"a": list(range(k)), "b": [0] * k}] * (k > 1)))
    return group(*cases)


def of_strings():
    cases = []
    for m in (1, 7, 8, 15):
        a = some(256, m)
        others = [a[:i] + [a[i] ^ 1] + a[i + 1:] for i in range(m)]
        cases.append(Case("EqualStrings", [m], [({"a": a, "b": b}, [a == b])
                                                for b in [a, *others, [0] * m]]))
    cases.append(Case("EqualStrings", [2], [({"a": [97 + 256, 97], "b": [97, 98]}, [1])]))
    texts = (b"abracadabra abr", b"aaaaaaaaaaaaaaa", b"bracabrabracaba")
    patterns = ((4, b"abra"), (1, b"a"), (9, b"abracadab"), (15, texts[0]))
    for n, m, pattern in [(15, *row) for row in patterns]:
        ins = [({"text": list(text), "pattern": list(pattern)},
                [text[i:i + m] == pattern for i in range(n - m + 1)]) for text in texts]
        cases.append(Case("Matches", [n, m], ins))
        cases.append(Case("CountMatches", [n, m], [(i, [sum(due)]) for i, due in ins]))
        cases.append(Case("Contains", [n, m], [(i, [any(due)]) for i, due in ins]))
        at = [({**i, "place": place}, [due[place]])
              for i, due in ins for place in sorted({0, (n - m) // 2, n - m})]
        cases.append(Case("MatchesAt", [n, m], at,
                          [{**ins[0][0], "place": v} for v in (n - m + 1, P - 1)]))
    return group(*cases)


# Parameters that are refused as the source is compiled.
BAD_PARAMETERS = {
    "bits": {"Num2Bits": ([0], [64], [254]), "Bits2Num": ([0], [64])},
    "comparators": {"LessThan": ([0], [63], [252]), "LessThanChecked": ([63],), "MinMax": ([63],),
                    "AreZero": ([0], [65537])},
    "range": {"AssertRange": ([64],), "AssertBetween": ([5, 4], [0, 2**62]),
              "AssertDistinct": ([1],)},
    "select": {"MultiMux": ([0, 1], [17, 1])},
    "sort": {"AssertSorted": ([2, 63],)},
    "words": {"Num2Bytes": ([8],), "Bytes2Num": ([8],), "Bitwise": ([63],),
              "RotateLeft": ([8, 8],)},
    "arithmetic": {"AddWords": ([62, 4],), "DivideWithRemainder": ([32, 32], [0, 8])},
    "bigint": {"Carry": ([8, 1, 7], [8, 1, 63]), "BigAdd": ([62, 1],), "BigSubtract": ([62, 1],),
               "BigMultiply": ([31, 1, 1],)},
    "polynomial": {"Interpolate": ([1],)},
    "strings": {"Matches": ([3, 4],)},
}

# The templates with outputs that `determine` doesn't show: those with a test for 0, a row with a
# single 1, an inverse, or a quotient, each of which is found by a product.
NOT_SHOWN = {
    "Num2Bits64", "IsZero", "IsEqual", "AreZero", "LessThan64", "IsNegative", "MultiAND", "MultiOR",
    "Decoder", "Select", "SelectRow", "Replace", "DivideWithRemainder", "Inverse", "Divide",
    "EqualStrings", "Matches", "CountMatches", "Contains", "MatchesAt", "BigIsEqual", "BigDivide",
    "BigMultiplyModulo"}

# Those of them that have nothing to choose where they have one place: there it does show them.
SHOWN_WITH_ONE_PLACE = {"Decoder", "Select", "SelectRow", "Replace"}

FILES = {"bits": of_bits, "comparators": of_comparators, "range": of_range, "gates": of_gates,
         "select": of_select, "words": of_words, "arithmetic": of_arithmetic, "sha256": of_sha256,
         "poseidon": of_poseidon, "merkle": of_merkle, "bigint": of_bigint,
         "polynomial": of_polynomial, "matrix": of_matrix, "sort": of_sort, "strings": of_strings}
