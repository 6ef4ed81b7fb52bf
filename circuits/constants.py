"""Computes the constants of SHA-256 and of Poseidon, and writes the two files that hold them.

    python3 circuits/constants.py            compares the files with what is computed; status 1
                                             where one differs
    python3 circuits/constants.py --write    writes them

SHA-256: FIPS 180-4, sections 4.2.2 and 5.3.3. The words are the first 32 bits of the fractional
parts of the cube roots of the first 64 primes, and of the square roots of the first 8.

Poseidon: L. Grassi, D. Khovratovich, C. Rechberger, A. Roy and M. Schofnegger, "Poseidon: A New
Hash Function for Zero-Knowledge Proof Systems", USENIX Security 2021 (ePrint 2019/458). Round
constants and the matrix come from the Grain LFSR in self-shrinking mode, as its appendix on the
generation of the parameters and the authors' reference script have it: the constants are numbers of
as many bits as the prime, drawn again where they aren't below it, and the matrix is the Cauchy
matrix 1/(x_i + y_j) of the next 2t numbers, reduced. The numbers of rounds come from the bounds of
the section on security, with the authors' margin.

The same code, with the prime of BN254, three words and x^5, gives the permutation whose output for
0, 1, 2 is known from the authors' test vectors; `test_vector` compares it. For the field here no
vector of the authors' is known to us: its constants can be computed again, and are compared with
nothing.
"""

import math
import os
import sys

HERE = os.path.dirname(os.path.abspath(__file__))
GOLDILOCKS = 2**64 - 2**32 + 1
BN254 = 21888242871839275222246405745257275088548364400416034343698204186575808495617
WIDTH = 12
EXPONENT = 7
SECURITY = 128


def primes(count):
    found = []
    number = 2
    while len(found) < count:
        if all(number % prime for prime in found):
            found.append(number)
        number += 1
    return found


def cube_root(number):
    """The greatest whole number whose cube is at most this."""
    low, high = 0, 1 << (number.bit_length() // 3 + 1)
    while high - low > 1:
        middle = (low + high) // 2
        low, high = (middle, high) if middle**3 <= number else (low, middle)
    return low


def sha256_constants():
    return [cube_root(prime << 96) % 2**32 for prime in primes(64)]


def sha256_start():
    return [math.isqrt(prime << 64) % 2**32 for prime in primes(8)]


class Grain:
    """The Grain LFSR in self-shrinking mode, started for a prime field and x^a."""

    def __init__(self, prime, width, full, partial):
        self.size = prime.bit_length()
        fields = ((1, 2), (0, 4), (self.size, 12), (width, 12), (full, 10), (partial, 10),
                  (2**30 - 1, 30))
        self.state = [number >> place & 1 for number, count in fields
                      for place in reversed(range(count))]
        for _ in range(160):
            self.shift()

    def shift(self):
        bit = 0
        for place in (62, 51, 38, 23, 13, 0):
            bit ^= self.state[place]
        self.state = self.state[1:] + [bit]
        return bit

    def bit(self):
        """The second bit of the first pair that begins with 1."""
        while not self.shift():
            self.shift()
        return self.shift()

    def number(self):
        """A number of as many bits as the prime, the highest first."""
        number = 0
        for _ in range(self.size):
            number = 2 * number + self.bit()
        return number


def parameters(prime, width, full, partial):
    """The constants of all rounds, and the matrix by rows."""
    grain = Grain(prime, width, full, partial)
    constants = []
    while len(constants) < width * (full + partial):
        number = grain.number()
        if number < prime:
            constants.append(number)
    while True:
        numbers = [grain.number() % prime for _ in range(2 * width)]
        rows, columns = numbers[:width], numbers[width:]
        if len(set(numbers)) == 2 * width and all((x + y) % prime for x in rows for y in columns):
            break
    matrix = [[pow(x + y, -1, prime) for y in columns] for x in rows]
    return constants, matrix


def permutation(state, prime, exponent, full, partial, constants, matrix):
    width = len(state)
    for number in range(full + partial):
        state = [(x + c) % prime for x, c in zip(state, constants[width * number:])]
        boxes = width if not full // 2 <= number < full // 2 + partial else 1
        state = [pow(x, exponent, prime) for x in state[:boxes]] + state[boxes:]
        state = [sum(m * x for m, x in zip(row, state)) % prime for row in matrix]
    return state


def is_secure(prime, width, exponent, full, partial):
    """The paper's bounds on the statistical, the interpolation and the Groebner attacks."""
    size = math.log2(prime)
    power = math.log2(exponent)
    bits = min(SECURITY, size)
    least = [
        6 if SECURITY <= (math.floor(size) - (exponent - 1) / 2) * (width + 1) else 10,
        1 + math.ceil(bits / power) + math.ceil(math.log(width, exponent)) - partial,
        bits / power - partial,
        width - 1 + min(SECURITY / (width + 1), size / 2) / power - partial,
        (width - 2 + SECURITY / (2 * power) - partial) / (width - 1),
    ]
    return full >= max(math.ceil(number) for number in least)


def rounds(prime, width, exponent):
    """The rounds with the fewest powers, and the margin: 2 full ones, and 7.5 % of the others."""
    found = min((width * (full + 2) + math.ceil(1.075 * partial), full + 2,
                 math.ceil(1.075 * partial))
                for full in range(2, 30, 2) for partial in range(1, 200)
                if is_secure(prime, width, exponent, full, partial))
    return found[1], found[2]


def rank(rows, prime):
    """The rank of a matrix."""
    rows, found = [row[:] for row in rows], 0
    for column in range(len(rows[0])):
        place = next((i for i in range(found, len(rows)) if rows[i][column]), None)
        if place is None:
            continue
        rows[found], rows[place] = rows[place], rows[found]
        inverse = pow(rows[found][column], -1, prime)
        for i in range(found + 1, len(rows)):
            factor = rows[i][column] * inverse % prime
            rows[i] = [(x - factor * y) % prime for x, y in zip(rows[i], rows[found])]
        found += 1
    return found


def product(a, b, prime):
    return [[sum(x * y for x, y in zip(row, column)) % prime for column in zip(*b)] for row in a]


def has_no_trails(matrix, prime):
    """No subspace but 0 and all goes through partial rounds for ever, with a period up to 2t.

    A subspace in which the box of a partial round is active holds the first unit vector e; that
    comes back after l rounds, so it holds e, M^l e, M^2l e .. . One in which no box ever is active
    lies where the first entries of x, Mx, M^2 x .. are all 0. Both are trivial where these vectors,
    and these rows, have full rank.
    """
    width = len(matrix)
    power = matrix
    for _ in range(2 * width):
        column = [[int(i == 0)] for i in range(width)]
        row = [[int(i == 0) for i in range(width)]]
        columns, rows = [], []
        for _ in range(width):
            columns.append([entry[0] for entry in column])
            rows.append(row[0])
            column, row = product(power, column, prime), product(row, power, prime)
        if rank(columns, prime) < width or rank(rows, prime) < width:
            return False
        power = product(power, matrix, prime)
    return True


def test_vector():
    """Whether the code gives the authors' permutation over BN254 of three words."""
    constants, matrix = parameters(BN254, 3, 8, 57)
    state = permutation([0, 1, 2], BN254, 5, 8, 57, constants, matrix)
    return state[0] == 0x115cc0f5e7d690413df64c6b9662e9cf2a3617f2743245519e19607a4417189a


def poseidon():
    """The numbers of full and partial rounds, the constants and the matrix over this field."""
    full, partial = rounds(GOLDILOCKS, WIDTH, EXPONENT)
    return (full, partial, *parameters(GOLDILOCKS, WIDTH, full, partial))


def rows_of(numbers, form, count, indent):
    lines = []
    for i in range(0, len(numbers), count):
        lines.append(indent + ", ".join(form % number for number in numbers[i:i + count]))
    return ",\n".join(lines)


def sha256_text():
    return """// The constants of SHA-256, as constants.py computes them.
pragma circom 2.1.0;

// The word that round t adds.
function sha256_constant(t) {
  var k[64] = [
%s
  ];
  return k[t];
}

// Word j of the state before the first block.
function sha256_start(j) {
  var h[8] = [
%s
  ];
  return h[j];
}
""" % tuple(rows_of(words, "0x%08x", 8, "    ") for words in (sha256_constants(), sha256_start()))


def poseidon_text():
    full, partial, constants, matrix = poseidon()
    return """// The numbers of Poseidon over this field, for %d words and x^%d, as constants.py has
// them.
pragma circom 2.1.0;

// The rounds in which each word is raised to its power, half of them before the others.
function poseidon_full_rounds() { return %d; }

// The rounds in which one word is.
function poseidon_partial_rounds() { return %d; }

// What the rounds add, %d words a round.
function poseidon_constants() {
  var constants[%d] = [
%s
  ];
  return constants;
}

// The matrix by which each round ends, by rows.
function poseidon_matrix() {
  var matrix[%d][%d] = [
%s
  ];
  return matrix;
}
""" % (WIDTH, EXPONENT, full, partial, WIDTH, len(constants),
       rows_of(constants, "0x%016x", 4, "    "), WIDTH, WIDTH,
       ",\n".join("    [\n" + rows_of(row, "0x%016x", 4, "      ") + "\n    ]" for row in matrix))


def main():
    texts = {"sha256_constants.circom": sha256_text(), "poseidon_constants.circom": poseidon_text()}
    wrong = 0
    for name, text in texts.items():
        path = os.path.join(HERE, name)
        if sys.argv[1:] == ["--write"]:
            with open(path, "w", encoding="utf-8") as file:
                file.write(text)
        with open(path, encoding="utf-8") as file:
            same = file.read() == text
        wrong += not same
        print("%s %s: as computed" % ("ok   " if same else "WRONG", name))
    _, _, _, matrix = poseidon()
    for right, what in ((test_vector(), "the authors' vector over BN254"),
                        (has_no_trails(matrix, GOLDILOCKS), "no subspace trails")):
        wrong += not right
        print("%s poseidon: %s" % ("ok   " if right else "WRONG", what))
    return 1 if wrong else 0


if __name__ == "__main__":
    sys.exit(main())
