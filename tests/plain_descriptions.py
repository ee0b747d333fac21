"""Descriptions that keep to the plain forms, read without the program, with the care points of their outputs.

It is written from the documents, for few inputs: each point is tried with each row.
"""

import itertools


ENDS = (".e", ".end")


def read(text):
    """The inputs, outputs, type and rows of a description."""
    inputs = outputs = 0
    kind, rows = "fd", []
    for line in text.splitlines():
        words = line.split("#")[0].split()
        if not words:
            continue
        if words[0] in ENDS:
            break
        if words[0] == ".i":
            inputs = int(words[1])
        elif words[0] == ".o":
            outputs = int(words[1])
        elif words[0] == ".type":
            kind = words[1]
        elif words[0][0] != ".":
            symbols = "".join(words)
            rows.append((symbols[:inputs], symbols[inputs:]))
    return inputs, outputs, kind, rows


def without_end(text):
    """The lines of a description before the one that ends it."""
    lines = []
    for line in text.splitlines():
        if line.strip() in ENDS:
            break
        lines.append(f"{line}\n")
    return "".join(lines)


def with_end(text):
    """A description, with a line that ends it."""
    return f"{without_end(text)}.e\n"


def inputs_of(text):
    """The number of inputs of a description."""
    return read(text)[0]


def names(text, command, letter, count):
    """The names that a command gives, or the letter with numbers."""
    for line in text.splitlines():
        words = line.split("#")[0].split()
        if words and words[0] == command:
            return words[1:]
    return [f"{letter}{i + 1}" for i in range(count)]


def meets(cube, point):
    """Whether a point, a word of 0 and 1, agrees with the symbols of a row."""
    return all(symbol not in "01" or symbol == bit for symbol, bit in zip(cube, point))


def care_points(inputs, kind, rows, output):
    """The points at which the type and the rows fix the output's value, each a word of 0 and 1."""
    found = []
    for bits in itertools.product("01", repeat=inputs):
        point = "".join(bits)
        symbols = {outs[output] for cube, outs in rows if meets(cube, point)}
        is_on, is_off, is_open = symbols & set("14"), "0" in symbols, symbols & set("2-")
        if "r" in kind and not (is_on or is_off) or "d" in kind and is_open:
            continue
        found.append(point)
    return found
