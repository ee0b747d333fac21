"""Looking at answers: points at which a description gives values, and the values of printed polynomials there.

A list of points is a list of columns: one whole number for each input, whose bit k is the input's value at point k. So
one operation on numbers is one at all points. No remedy uses this module: what it says of an answer follows from the
rows of the file and from the text that is printed.
"""

import random

MOST_POINTS = 4096


class Sample:
    """Care points of an output: how many, the columns of the inputs, and the points whose value is 1, as a column
    too."""

    def __init__(self, size, columns, ones):
        self.size, self.columns, self.ones = size, columns, ones


def sample(description, output):
    """Care points of an output of a description: all of them up to MOST_POINTS, else a random choice."""
    rows = [row for row in description.rows if description.set_of(row.outputs[output])]
    chooser = random.Random(output)
    if description.kind in ("f", "fd"):
        columns, size = _any_points(description.inputs, rows, chooser)
    else:
        columns, size = _points_of_rows(description.inputs, rows, chooser)
    met = {"on": 0, "off": 0, "free": 0}
    for row in rows:
        met[description.set_of(row.outputs[output])] |= points_of(row.inputs, columns, size)
    everywhere = (1 << size) - 1
    zeros = everywhere & ~met["on"] if description.kind in ("f", "fd") else met["off"]
    care = (met["on"] | zeros) & ~met["free"]
    return _kept(size, columns, met["on"] & care, care)


def points_of(symbols, columns, size):
    """The points of a list that a row's inputs take in, as a column."""
    met = (1 << size) - 1
    for symbol, column in zip(symbols, columns):
        if symbol == "1":
            met &= column
        elif symbol == "0":
            met &= ~column
        if not met:
            break
    return met


def value(text, named):
    """The values of a printed polynomial at all points, as a column, by the columns of its factors; `named` has the
    points at which 1 is 1 too."""
    total = 0
    if text == "0":
        return total
    factors, stack = [], [named["1"]]
    for term in text.split(" + "):
        names = term.split("*")
        same = 0
        for have, want in zip(factors, names):
            if have != want:
                break
            same += 1
        del stack[same + 1 :]
        for name in names[same:]:
            stack.append(stack[-1] & named[name])
        factors = names
        total ^= stack[-1]
    return total


def named_columns(found, names):
    """The columns of a sample by the names of the inputs, of their complements and of 1."""
    everywhere = (1 << found.size) - 1
    named = {"1": everywhere}
    for name, column in zip(names, found.columns):
        named[name], named["~" + name] = column, everywhere ^ column
    return named


def fault(description, output, polynomial, elements, names):
    """What is wrong with the text of an output's polynomial or of an element of its basis at care points, or None."""
    found = sample(description, output)
    named = named_columns(found, names)
    try:
        wrong = value(polynomial, named) ^ found.ones
        if wrong:
            return f"the polynomial has the wrong value at {point(found, wrong)}"
        for element in elements:
            wrong = value(element, named)
            if wrong:
                return f"an element of the basis is 1 at {point(found, wrong)}"
    except KeyError as error:
        return f"{error.args[0]!r} is no input"
    return None


def point(found, column):
    """The first point of a column, as the values of the inputs."""
    place = (column & -column).bit_length() - 1
    return "".join(str(values >> place & 1) for values in found.columns)


def _kept(size, columns, ones, care):
    """The points of a list that a column has, alone."""
    if care == (1 << size) - 1:
        return Sample(size, columns, ones)
    places = [place for place in range(size) if care >> place & 1]

    def pick(column):
        text = format(column, f"0{size}b")[::-1]
        return int("".join(text[place] for place in reversed(places)) or "0", 2)

    return Sample(len(places), [pick(column) for column in columns], pick(ones))


def _any_points(inputs, rows, chooser):
    """All points, or points in rows, points beside these, and points anywhere."""
    if 1 << inputs <= MOST_POINTS:
        return _all_points(inputs), 1 << inputs
    cubes = _shuffled(rows, MOST_POINTS // 2, chooser)
    cubes *= MOST_POINTS // 2 // max(len(cubes), 1)
    near = [_one_changed(symbols, chooser) for symbols in cubes[: MOST_POINTS // 4]]
    return _filled(inputs, cubes + near, MOST_POINTS, chooser), MOST_POINTS


def _points_of_rows(inputs, rows, chooser):
    """All points of the rows, or one or more in each of them, as far as these are not too many."""
    total = 0
    for row in rows:
        total += 1 << (row.inputs.count("-") + row.inputs.count("2"))
        if total > MOST_POINTS:
            cubes = _shuffled(rows, MOST_POINTS, chooser)
            cubes *= MOST_POINTS // len(cubes)
            return _filled(inputs, cubes, len(cubes), chooser), len(cubes)
    points = [symbols for row in rows for symbols in _expanded(row.inputs)]
    return _filled(inputs, points, len(points), chooser), len(points)


def _all_points(inputs):
    """The columns of all points, in their order."""
    columns = []
    for place in range(inputs):
        run = 1 << (inputs - 1 - place)
        block = ((1 << run) - 1) << run
        column = 0
        for start in range(0, 1 << inputs, 2 * run):
            column |= block << start
        columns.append(column)
    return columns


def _expanded(symbols):
    """The points of a row, each as its symbols."""
    found = [""]
    for symbol in symbols:
        found = [before + choice for before in found for choice in ("01" if symbol in "-2" else symbol)]
    return found


def _shuffled(rows, most, chooser):
    """The inputs of at most so many rows."""
    order = list(rows)
    chooser.shuffle(order)
    return [row.inputs for row in order[:most]]


def _one_changed(symbols, chooser):
    """A row's inputs with one of those that it fixes changed."""
    fixed = [place for place, symbol in enumerate(symbols) if symbol in "01"]
    if not fixed:
        return symbols
    place = chooser.choice(fixed)
    return symbols[:place] + ("1" if symbols[place] == "0" else "0") + symbols[place + 1 :]


def _filled(inputs, cubes, size, chooser):
    """The columns of one point in each cube, and of points anywhere behind these, so many in all."""
    if not size:
        return [0] * inputs
    everywhere = (1 << size) - 1
    if not cubes:
        return [chooser.getrandbits(size) for _ in range(inputs)]
    columns = []
    for symbols in zip(*reversed(cubes)):
        text = "".join(symbols)
        ones = int(text.translate(_ONES), 2)
        fixed = int(text.translate(_FIXED), 2)
        columns.append(ones | chooser.getrandbits(size) & (everywhere ^ fixed))
    return columns


_ONES = str.maketrans("01-2", "0100")
_FIXED = str.maketrans("01-2", "1100")
