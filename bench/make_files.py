#!/usr/bin/env python3
"""Writes the files that are measured: make_files.py FOLDER. The files are the same on each machine."""

import argparse
import itertools
import pathlib


class Draws:
    """Numbers by a linear congruence, so that no library's generator decides what is measured."""

    def __init__(self, seed):
        self.state = seed

    def below(self, bound):
        self.state = (self.state * 6364136223846793005 + 1442695040888963407) % 2**64
        return (self.state >> 33) % bound

    def one_of(self, values):
        return values[self.below(len(values))]

    def some_of(self, values, count):
        """So many of the values, each at most once."""
        rest = list(values)
        return [rest.pop(self.below(len(rest))) for _ in range(count)]


def description(inputs, outputs, kind, rows):
    """The text of a file."""
    lines = [f".i {inputs}", f".o {outputs}", f".type {kind}"]
    return "\n".join(lines + [f"{left} {right}" for left, right in rows] + [".e", ""])


def bits(number, width):
    return format(number, f"0{width}b")


def drawn_bits(draws, width):
    return "".join(draws.one_of("01") for _ in range(width))


def points(count, inputs, outputs, seed):
    """Random points with random values."""
    draws = Draws(seed)
    chosen = set()
    while len(chosen) < count:
        chosen.add(drawn_bits(draws, inputs))
    return description(inputs, outputs, "fr", [(point, drawn_bits(draws, outputs)) for point in sorted(chosen)])


def table(inputs, outputs, function):
    """A function of each number of so many bits."""
    rows = [(bits(x, inputs), bits(function(x), outputs)) for x in range(2**inputs)]
    return description(inputs, outputs, "fr", rows)


def multiplier(width):
    return table(2 * width, 2 * width, lambda x: (x >> width) * (x % 2**width))


def adder(width):
    return table(2 * width, width + 1, lambda x: (x >> width) + x % 2**width)


def majority(inputs):
    return table(inputs, 1, lambda x: int(2 * x.bit_count() > inputs))


def comparator(width):
    """Whether the first number is greater than the second, by the place of the first difference."""
    rows = []
    for place in range(width):
        for front in itertools.product("01", repeat=place):
            symbols = ["-"] * (2 * width)
            symbols[:place] = symbols[width : width + place] = front
            symbols[place], symbols[width + place] = "1", "0"
            rows.append(("".join(symbols), "1"))
    return description(2 * width, 1, "f", rows)


def disjunction(inputs):
    """Whether an input is 1: all monomials but 1 are terms, on a diagram of two nodes a variable."""
    rows = [("-" * place + "1" + "-" * (inputs - 1 - place), "1") for place in range(inputs)]
    return description(inputs, 1, "f", rows)


def cube(draws, inputs, fixed):
    """A cube that fixes so many inputs."""
    symbols = ["-"] * inputs
    for place in draws.some_of(range(inputs), fixed):
        symbols[place] = draws.one_of("01")
    return "".join(symbols)


def cubes(count, inputs, outputs, fixed, seed):
    """Random cubes, each in random outputs."""
    draws = Draws(seed)
    return description(inputs, outputs, "f", [(cube(draws, inputs, fixed), drawn_bits(draws, outputs)) for _ in range(count)])


def redundant(count, inputs, outputs, wide, fixed, seed):
    """Random cubes within a few wide ones, so that most of them say nothing new."""
    draws = Draws(seed)
    covers = [cube(draws, inputs, fixed) for _ in range(wide)]
    rows = [(cover, drawn_bits(draws, outputs)) for cover in covers]
    while len(rows) < count:
        cover, right = draws.one_of(rows[:wide])
        symbols = list(cover)
        free = [place for place, symbol in enumerate(symbols) if symbol == "-"]
        for place in draws.some_of(free, draws.below(len(free))):
            symbols[place] = draws.one_of("01")
        rows.append(("".join(symbols), right))
    return description(inputs, outputs, "f", rows)


def split_cubes(count, inputs, seed):
    """Cubes of three literals, with the value of the first input."""
    draws = Draws(seed)
    rows = []
    for _ in range(count):
        symbols = list(cube(draws, inputs, 3))
        symbols[0] = draws.one_of("01")
        rows.append(("".join(symbols), symbols[0]))
    return description(inputs, 1, "fr", rows)


def parity(inputs, count, fixed, seed):
    """The parity, with don't cares: the points of odd weight, and random cubes without a value."""
    draws = Draws(seed)
    rows = [(bits(x, inputs), "1") for x in range(2**inputs) if x.bit_count() % 2]
    rows += [(cube(draws, inputs, fixed), "-") for _ in range(count)]
    return description(inputs, 1, "fd", rows)


def parity_points(count, inputs, seed):
    """Random points with their parity; all others are free."""
    draws = Draws(seed)
    chosen = set()
    while len(chosen) < count:
        chosen.add(drawn_bits(draws, inputs))
    return description(inputs, 1, "fr", [(point, str(point.count("1") % 2)) for point in sorted(chosen)])


PRESENT = [12, 5, 6, 11, 9, 0, 10, 13, 3, 14, 15, 8, 4, 7, 1, 2]


def rijndael(x):
    """The S-box of the Advanced Encryption Standard."""

    def times(a, b):
        product = 0
        for _ in range(8):
            product ^= a if b & 1 else 0
            a = (a << 1) ^ (0x11B if a & 128 else 0)
            b >>= 1
        return product

    inverse = next((y for y in range(256) if times(x, y) == 1), 0)
    turned = 0
    for shift in range(5):
        turned ^= ((inverse << shift) | (inverse >> (8 - shift))) & 255
    return turned ^ 0x63


def graph(inputs, outputs, function):
    """The points of a function's graph: its values, then its arguments."""
    rows = [(bits(function(x), outputs) + bits(x, inputs), "1") for x in range(2**inputs)]
    return description(inputs + outputs, 1, "fr", rows)


FILES = {
    "points_16": ("anf", lambda: points(256, 16, 2, 1)),
    "points_16_many": ("anf", lambda: points(4096, 16, 1, 2)),
    "points_20": ("anf", lambda: points(8192, 20, 1, 3)),
    "points_24": ("anf", lambda: points(8192, 24, 1, 4)),
    "points_32_outputs": ("anf", lambda: points(1024, 18, 32, 5)),
    "multiplier_5": ("anf", lambda: multiplier(5)),
    "multiplier_6": ("anf", lambda: multiplier(6)),
    "adder_6": ("anf", lambda: adder(6)),
    "majority_13": ("anf", lambda: majority(13)),
    "comparator_9": ("anf", lambda: comparator(9)),
    "comparator_12": ("anf", lambda: comparator(12)),
    "disjunction_19": ("anf", lambda: disjunction(19)),
    "parity_13": ("anf", lambda: parity(13, 400, 7, 19)),
    "parity_points_20": ("anf", lambda: parity_points(2000, 20, 20)),
    "aes": ("anf", lambda: table(8, 8, rijndael)),
    "cubes_14": ("anf", lambda: cubes(200, 14, 4, 5, 6)),
    "cubes_14_two": ("anf", lambda: cubes(300, 14, 2, 6, 15)),
    "cubes_15": ("anf", lambda: cubes(150, 15, 4, 6, 16)),
    "cubes_15_one": ("anf", lambda: cubes(600, 15, 1, 7, 16)),
    "cubes_16": ("anf", lambda: cubes(300, 16, 4, 6, 7)),
    "cubes_16_one": ("anf", lambda: cubes(400, 16, 1, 6, 18)),
    "cubes_16_two": ("anf", lambda: cubes(200, 16, 2, 7, 17)),
    "cubes_16_eight": ("anf", lambda: cubes(120, 16, 8, 7, 17)),
    "cubes_16_many": ("anf", lambda: cubes(400, 16, 4, 7, 18)),
    "cubes_40": ("anf", lambda: cubes(100, 40, 16, 30, 8)),
    "redundant_20": ("anf", lambda: redundant(3000, 20, 8, 12, 5, 9)),
    "redundant_28": ("anf", lambda: redundant(8192, 28, 16, 8, 6, 10)),
    "split_62": ("anf", lambda: split_cubes(24, 62, 11)),
    "split_62_many": ("anf", lambda: split_cubes(60, 62, 21)),
    "present_graph": ("basis", lambda: graph(4, 4, lambda x: PRESENT[x])),
    "aes_graph": ("basis", lambda: graph(8, 8, rijndael)),
    "points_14_basis": ("basis", lambda: points(200, 14, 2, 12)),
    "points_24_basis": ("basis", lambda: points(400, 24, 1, 13)),
    "points_62_basis": ("basis", lambda: points(100, 62, 1, 14)),
}


def folder_to_fill():
    """The folder that the one argument names. It is made where it is missing."""
    parser = argparse.ArgumentParser()
    parser.add_argument("folder", type=pathlib.Path)
    folder = parser.parse_args().folder
    folder.mkdir(parents=True, exist_ok=True)
    return folder


def main():
    folder = folder_to_fill()
    for name, (_, make) in FILES.items():
        (folder / f"{name}.pla").write_text(make())


if __name__ == "__main__":
    main()
