#!/usr/bin/env python3
"""Writes circuits in the AIGER format: make_circuits.py FOLDER. The files are the same on each machine."""

import functools
import pathlib
import sys
from typing import NamedTuple

# (the tests import this file as one of a package)
sys.path.insert(0, str(pathlib.Path(__file__).resolve().parent))

from make_files import PRESENT, folder_to_fill, rijndael

FALSE, TRUE = 0, 1


def difference(number):
    """The bytes of a difference in the binary form: 7 bits a byte, the low ones first."""
    found = []
    while number >= 128:
        found.append(number % 128 + 128)
        number //= 128
    return bytes([*found, number])


class Gate(NamedTuple):
    left: int
    right: int


class Circuit:
    """A circuit that grows. Literal 2v is variable v, and 2v + 1 its complement; no gate is made twice."""

    def __init__(self, names):
        """A circuit with inputs of these names."""
        self.names = list(names)
        self.gates = []
        self.outputs = []
        self.known = {}

    def inputs(self, prefix=""):
        """The literals of the inputs whose names begin so, in order."""
        return [2 * (place + 1) for place, name in enumerate(self.names) if name.startswith(prefix)]

    def give(self, name, literal):
        self.outputs.append((name, literal))

    def give_all(self, prefix, literals):
        for place, literal in enumerate(literals):
            self.give(f"{prefix}{place}", literal)

    def conjunction(self, left, right):
        left, right = max(left, right), min(left, right)
        if right == FALSE or left == right ^ 1:
            return FALSE
        if right == TRUE or left == right:
            return left
        gate = Gate(left, right)
        if gate not in self.known:
            self.gates.append(gate)
            self.known[gate] = 2 * (len(self.names) + len(self.gates))
        return self.known[gate]

    def disjunction(self, left, right):
        return self.conjunction(left ^ 1, right ^ 1) ^ 1

    def choice(self, select, one, zero):
        return self.conjunction(self.conjunction(select, one) ^ 1, self.conjunction(select ^ 1, zero) ^ 1) ^ 1

    def sum(self, left, right):
        return self.choice(left, right ^ 1, right)

    def sum_of(self, literals):
        """The exclusive or of all, pair by pair."""
        literals = list(literals) or [FALSE]
        while len(literals) > 1:
            pairs = [literals[place : place + 2] for place in range(0, len(literals), 2)]
            literals = [self.sum(*pair) if len(pair) == 2 else pair[0] for pair in pairs]
        return literals[0]

    def majority(self, a, b, c):
        return self.disjunction(self.conjunction(a, b), self.conjunction(c, self.disjunction(a, b)))

    def total(self, left, right, carry=FALSE):
        """The sum of two numbers, the low bits first, and its carry."""
        found = []
        for a, b in zip(left, right):
            found.append(self.sum(self.sum(a, b), carry))
            carry = self.majority(a, b, carry)
        return found, carry

    def header(self, form):
        gates = len(self.gates)
        return f"{form} {len(self.names) + gates} {len(self.names)} 0 {len(self.outputs)} {gates}\n"

    def symbols(self):
        lines = [f"i{place} {name}\n" for place, name in enumerate(self.names)]
        return "".join(lines + [f"o{place} {name}\n" for place, (name, _) in enumerate(self.outputs)])

    def binary(self):
        """The file in the binary form, as bytes."""
        text = self.header("aig") + "".join(f"{literal}\n" for _, literal in self.outputs)
        found = [text.encode()]
        for place, gate in enumerate(self.gates):
            own = 2 * (len(self.names) + 1 + place)
            found += [difference(own - gate.left), difference(gate.left - gate.right)]
        return b"".join([*found, self.symbols().encode()])

    def ascii(self):
        """The file in the ASCII form, as text."""
        lines = [f"{literal}\n" for literal in self.inputs()]
        lines += [f"{literal}\n" for _, literal in self.outputs]
        for place, gate in enumerate(self.gates):
            lines.append(f"{2 * (len(self.names) + 1 + place)} {gate.left} {gate.right}\n")
        return self.header("aag") + "".join(lines) + self.symbols()

    def values(self, words, points):
        """The values of the outputs at so many points, by those of the inputs: numbers with a bit for each point."""
        full = (1 << points) - 1
        found = [0, *words]

        def value(literal):
            return found[literal // 2] ^ (full if literal % 2 else 0)

        for gate in self.gates:
            found.append(value(gate.left) & value(gate.right))
        return [value(literal) for _, literal in self.outputs]


def numbered(prefix, count):
    return [f"{prefix}{place}" for place in range(count)]


def parity(inputs):
    circuit = Circuit(numbered("x", inputs))
    circuit.give("p", circuit.sum_of(circuit.inputs()))
    return circuit


def ones(inputs):
    """How many inputs are 1."""
    circuit = Circuit(numbered("x", inputs))
    numbers = [[literal] for literal in circuit.inputs()]
    while len(numbers) > 1:
        first, second, *rest = sorted(numbers, key=len)
        width = max(len(first), len(second))
        first, second = (number + [FALSE] * (width - len(number)) for number in (first, second))
        found, carry = circuit.total(first, second)
        numbers = [*rest, [*found, carry]]
    width = inputs.bit_length()
    circuit.give_all("n", numbers[0][:width])
    return circuit


def side_by_side(width):
    """The names of two numbers whose bits stand side by side, the high ones first."""
    return [f"{name}{place}" for place in reversed(range(width)) for name in "ab"]


def adder(width):
    circuit = Circuit(side_by_side(width))
    a, b = (circuit.inputs(name)[::-1] for name in "ab")
    found, carry = circuit.total(a, b)
    circuit.give_all("s", [*found, carry])
    return circuit


def prefix_adder(width):
    """The same by Kogge and Stone: all carries from prefixes that double."""
    circuit = Circuit(side_by_side(width))
    a, b = (circuit.inputs(name)[::-1] for name in "ab")
    makes = [circuit.conjunction(x, y) for x, y in zip(a, b)]
    first = [circuit.sum(x, y) for x, y in zip(a, b)]
    passes, reach = first, 1
    while reach < width:
        steps = range(reach, width)
        makes, passes = (
            makes[:reach]
            + [circuit.disjunction(makes[k], circuit.conjunction(passes[k], makes[k - reach])) for k in steps],
            passes[:reach] + [circuit.conjunction(passes[k], passes[k - reach]) for k in steps],
        )
        reach *= 2
    carries = [FALSE, *makes]
    circuit.give_all("s", [circuit.sum(x, c) for x, c in zip(first, carries)] + [carries[width]])
    return circuit


def shifter(width):
    """A number rotated by another one, whose bits stand first."""
    selects = (width - 1).bit_length()
    circuit = Circuit(numbered("s", selects) + numbered("d", width))
    data = circuit.inputs("d")
    for place, select in enumerate(circuit.inputs("s")):
        data = [circuit.choice(select, data[(k - (1 << place)) % width], data[k]) for k in range(width)]
    circuit.give_all("q", data)
    return circuit


def checksum(inputs, polynomial, degree):
    """The remainder of the inputs by a polynomial over two elements, bit by bit."""
    circuit = Circuit(numbered("x", inputs))
    state = [FALSE] * degree
    for literal in circuit.inputs():
        feedback = circuit.sum(literal, state[-1])
        state = [FALSE, *state[:-1]]
        state = [circuit.sum(it, feedback) if polynomial >> place & 1 else it for place, it in enumerate(state)]
    circuit.give_all("r", state)
    return circuit


def multiplier(width):
    circuit = Circuit(side_by_side(width))
    a, b = (circuit.inputs(name)[::-1] for name in "ab")
    total = [FALSE] * (2 * width)
    for place, bit in enumerate(b):
        row = [circuit.conjunction(bit, it) for it in a]
        found, carry = circuit.total(total[place : place + width], row)
        total[place : place + width + 1] = [*found, carry]
    circuit.give_all("p", total)
    return circuit


def reduced_product(circuit, a, b, polynomial):
    """The bits of a product in a field: all products of bits, reduced by the polynomial."""
    degree = len(a)
    columns = [[] for _ in range(2 * degree - 1)]
    for i, x in enumerate(a):
        for j, y in enumerate(b):
            columns[i + j].append(circuit.conjunction(x, y))
    sums = [circuit.sum_of(column) for column in columns]
    powers = reduced_powers(degree, polynomial)
    rows = [[it for it, power in zip(sums, powers) if power >> place & 1] for place in range(degree)]
    return [circuit.sum_of(row) for row in rows]


def galois(degree, polynomial):
    """A product in the field of 2^degree elements, as Mastrovito has it."""
    circuit = Circuit(numbered("a", degree) + numbered("b", degree))
    circuit.give_all("c", reduced_product(circuit, circuit.inputs("a"), circuit.inputs("b"), polynomial))
    return circuit


def reduced_powers(degree, polynomial):
    """The powers of the root of a polynomial, of which the terms below its degree are given."""
    found, power = [], 1
    for _ in range(2 * degree - 1):
        found.append(power)
        power <<= 1
        if power >> degree:
            power = (power ^ polynomial) & ((1 << degree) - 1)
    return found


def field_product(x, y, degree, polynomial):
    """A product of numbers in the field of 2^degree elements, by a polynomial with all its terms."""
    found = 0
    for place in range(degree):
        found ^= x << place if y >> place & 1 else 0
    for place in reversed(range(degree, 2 * degree)):
        found ^= polynomial << (place - degree) if found >> place & 1 else 0
    return found


def in_tower(x, y):
    """A product in the field of 2^8 elements over the one of 2^4: x^4 + x + 1 below, and y^2 + y + x^3 above. The low
    four bits of a number are those of the first coefficient."""

    def below(x, y):
        return field_product(x, y, 4, 0x13)

    low, high = below(x & 15, y & 15), below(x >> 4, y >> 4)
    cross = below(x & 15 ^ x >> 4, y & 15 ^ y >> 4)
    return low ^ below(high, 8) | (cross ^ low) << 4


def powers_in_tower():
    """The powers of an element of that field which is a root of the polynomial of AES."""
    for root in range(2, 256):
        powers = [1]
        for _ in range(8):
            powers.append(in_tower(powers[-1], root))
        if powers[8] ^ powers[4] ^ powers[3] ^ powers[1] ^ powers[0] == 0:
            return powers[:8]
    raise AssertionError("the two fields are the same but for their bases")


def tower_multiplier():
    """A product in the field of AES by way of the tower: both numbers go over to its basis, and the product back."""
    circuit = Circuit(numbered("a", 8) + numbered("b", 8))
    powers = powers_in_tower()
    images = [functools.reduce(int.__xor__, [it for k, it in enumerate(powers) if x >> k & 1], 0) for x in range(256)]
    back = [images.index(1 << place) for place in range(8)]

    def over(literals, columns):
        return [circuit.sum_of([it for it, column in zip(literals, columns) if column >> k & 1]) for k in range(8)]

    def plus(x, y):
        return [circuit.sum(*pair) for pair in zip(x, y)]

    a, b = (over(circuit.inputs(name), powers) for name in "ab")
    low, high = reduced_product(circuit, a[:4], b[:4], 0x3), reduced_product(circuit, a[4:], b[4:], 0x3)
    cross = reduced_product(circuit, plus(a[:4], a[4:]), plus(b[:4], b[4:]), 0x3)
    scaled = reduced_product(circuit, high, [FALSE, FALSE, FALSE, TRUE], 0x3)
    circuit.give_all("c", over(plus(low, scaled) + plus(cross, low), back))
    return circuit


def keccak_chi(rows):
    """The step chi on rows of five bits: each bit, changed where the next one is 0 and the one behind it 1."""
    circuit = Circuit([f"r{row}_{place}" for row in range(rows) for place in range(5)])
    literals = circuit.inputs()
    for row in range(rows):
        bits = literals[5 * row : 5 * row + 5]
        for place in range(5):
            behind = circuit.conjunction(bits[(place + 1) % 5] ^ 1, bits[(place + 2) % 5])
            circuit.give(f"q{row}_{place}", circuit.sum(bits[place], behind))
    return circuit


def table(inputs, outputs, function):
    """A function of a number, as choices by its bits, the high one first."""
    circuit = Circuit(numbered("x", inputs))
    literals = circuit.inputs()

    def chosen(place, front, bit):
        if place == inputs:
            return function(front) >> bit & 1
        one, zero = chosen(place + 1, 2 * front + 1, bit), chosen(place + 1, 2 * front, bit)
        return circuit.choice(literals[place], one, zero)

    circuit.give_all("y", [chosen(0, 0, bit) for bit in range(outputs)])
    return circuit


def comparator(width):
    """Whether the first of two numbers is greater."""
    circuit = Circuit(side_by_side(width))
    a, b = (circuit.inputs(name)[::-1] for name in "ab")
    greater = FALSE
    for x, y in zip(a, b):
        greater = circuit.choice(circuit.sum(x, y), x, greater)
    circuit.give("g", greater)
    return circuit


CIRCUITS = {
    "parity_32": lambda: parity(32),
    "parity_62": lambda: parity(62),
    "ones_32": lambda: ones(32),
    "adder_16": lambda: adder(16),
    "prefix_adder_16": lambda: prefix_adder(16),
    "shifter_32": lambda: shifter(32),
    "crc8_62": lambda: checksum(62, 0x07, 8),
    "crc32_62": lambda: checksum(62, 0x04C11DB7, 32),
    "hamming_62": lambda: checksum(62, 0x03, 6),
    "multiplier_6": lambda: multiplier(6),
    "galois_8": lambda: galois(8, 0x1B),
    "tower_8": tower_multiplier,
    "galois_16": lambda: galois(16, 0x2B),
    "galois_31": lambda: galois(31, 0x9),
    "keccak_chi": lambda: keccak_chi(12),
    "aes_box": lambda: table(8, 8, rijndael),
    "present_box": lambda: table(4, 4, PRESENT.__getitem__),
    "comparator_16": lambda: comparator(16),
}


def main():
    folder = folder_to_fill()
    for name, make in CIRCUITS.items():
        (folder / f"{name}.aig").write_bytes(make().binary())


if __name__ == "__main__":
    main()
