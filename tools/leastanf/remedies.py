"""Remedies that keep the answer: the same functions described with fewer rows and fewer inputs.

A cube is a pair of whole numbers over the inputs of the file, the first input the greatest bit: which inputs it fixes,
and the ones among them. A problem is what a file says of some outputs, as cubes.
"""

from .descriptions import MOST_INPUTS, MOST_OUTPUTS, MOST_ROWS

# Of the symbols by which a problem is written for the program, the one of each set.
_WRITTEN = {"on": "1", "off": "0", "free": "-"}
_FIXES = str.maketrans("01-2", "1100")
_ONES = str.maketrans("01-2", "0100")

# With more pairs of rows than this it is not looked whether a row covers another.
_MOST_PAIRS = 4_000_000


class Problem:
    """What a file says of some outputs.

    outputs    their places in the file
    inputs     the places in the file of the inputs that are left, in the file's order
    width      how many inputs the file has
    kind       the type
    cubes      for each saying of rows, a text with a symbol of 1 0 - ~ for each output, the list of its cubes
    """

    def __init__(self, outputs, inputs, width, kind, cubes):
        self.outputs, self.inputs, self.width, self.kind, self.cubes = outputs, inputs, width, kind, cubes

    def with_cubes(self, cubes):
        return Problem(self.outputs, self.inputs, self.width, self.kind, cubes)

    def rows(self):
        """The number of rows."""
        return sum(map(len, self.cubes.values()))

    def fits(self):
        """Whether the program takes it."""
        return len(self.inputs) <= MOST_INPUTS and len(self.outputs) <= MOST_OUTPUTS and self.rows() <= MOST_ROWS

    def set_of(self, name):
        """The cubes of a set of the only output: on, off or free."""
        return self.cubes.get(_WRITTEN[name], [])

    def text(self, order=None):
        """The description as the program takes it, by an order of the inputs that are left. It has no names."""
        order = self.inputs if order is None else order
        bits = [1 << (self.width - 1 - place) for place in order]
        lines = [f".i {len(order)}", f".o {len(self.outputs)}", f".type {self.kind}"]
        for saying, cubes in self.cubes.items():
            lines += [f"{symbols(cube, bits)} {saying}" for cube in cubes]
        return "\n".join([*lines, ".e", ""]).encode()


def symbols(cube, bits):
    """The symbols of a cube at the inputs of these bits."""
    fixed, ones = cube
    return "".join("-" if not fixed & bit else "1" if ones & bit else "0" for bit in bits)


def cube_of(text):
    """The cube of a row's input symbols."""
    return int(text.translate(_FIXES), 2), int(text.translate(_ONES), 2)


def problem(description, outputs):
    """What a description says of some outputs, with the rows that say something of them."""
    written = {symbol: _WRITTEN[name] for symbol in "0124-~" if (name := description.set_of(symbol))}
    silent = "~" * len(outputs)
    whole = list(outputs) == list(range(description.outputs))
    table = str.maketrans({symbol: written.get(symbol, "~") for symbol in "0124-~"})
    cubes, sayings = {}, {}
    for row in description.rows:
        saying = sayings.get(row.outputs)
        if saying is None:
            part = row.outputs if whole else "".join(row.outputs[place] for place in outputs)
            saying = sayings[row.outputs] = part.translate(table)
        if saying != silent:
            cubes.setdefault(saying, []).append(cube_of(row.inputs))
    return Problem(list(outputs), list(range(description.inputs)), description.inputs, description.kind, cubes)


def with_fewer_rows(found):
    """Rows that say one thing and differ in one symbol made one, and rows that another covers left out."""
    return found.with_cubes({saying: merged(cubes, found.width) for saying, cubes in found.cubes.items()})


def merged(cubes, width):
    """Fewer cubes with the same points."""
    have, before = set(cubes), None
    while before != len(have):
        before = len(have)
        for place in range(width):
            have = _merged_at(have, 1 << place)
        have = _uncovered(have)
    return sorted(have, reverse=True)


def _merged_at(cubes, bit):
    """Cubes that differ at one input alone, made one."""
    found = set()
    for fixed, ones in cubes:
        if fixed & bit and (fixed, ones ^ bit) in cubes:
            found.add((fixed ^ bit, ones & ~bit))
        else:
            found.add((fixed, ones))
    return found


def _uncovered(cubes):
    """The cubes that no other covers."""
    by_fixed = {}
    for fixed, ones in cubes:
        by_fixed.setdefault(fixed, set()).add(ones)
    if len(by_fixed) * len(cubes) > _MOST_PAIRS:
        return cubes
    return {cube for cube in cubes if not _is_covered(cube, by_fixed)}


def _is_covered(cube, by_fixed):
    """Whether another of some cubes covers a cube; they are the sets of ones by the inputs that are fixed."""
    fixed, ones = cube
    return any(other & fixed == other != fixed and ones & other in have for other, have in by_fixed.items())


def without_unused_inputs(found):
    """The inputs that no row fixes left out."""
    used = 0
    for cubes in found.cubes.values():
        for fixed, _ in cubes:
            used |= fixed
    left = [place for place in found.inputs if used >> (found.width - 1 - place) & 1]
    return Problem(found.outputs, left or found.inputs[:1], found.width, found.kind, found.cubes)


def without_free_points(found):
    """The problem of one output by its ones alone, of type f, where its rows leave no point free, and else None. Where
    the type has rows for zeros, these must not meet those of the ones."""
    ones, zeros = found.set_of("on"), found.set_of("off")
    if found.set_of("free"):
        return None
    if found.kind in ("fr", "fdr"):
        size = 1 << found.width
        counted = count_points(ones, found.width)
        if counted is None or counted + (count_points(zeros, found.width) or 0) != size:
            return None
    return Problem(found.outputs, found.inputs, found.width, "f", {"1": ones} if ones else {})


def count_points(cubes, width):
    """How many points cubes have together, or None where finding it takes too many steps, or is nested too deep."""
    known, steps = {}, 0

    def count(left, open_inputs):
        """How many assignments to the last inputs, so many, are in one of these cubes."""
        nonlocal steps
        mask = (1 << open_inputs) - 1
        key = (open_inputs, frozenset((fixed & mask, ones & mask) for fixed, ones in left))
        if not key[1] or (0, 0) in key[1]:
            return 1 << open_inputs if key[1] else 0
        if key not in known:
            steps += len(left)
            if steps > _MOST_PAIRS:
                raise OverflowError
            bit = 1 << (open_inputs - 1)
            zero = [cube for cube in key[1] if not cube[1] & bit]
            one = [cube for cube in key[1] if cube[1] & bit or not cube[0] & bit]
            known[key] = count(zero, open_inputs - 1) + count(one, open_inputs - 1)
        return known[key]

    try:
        return count(cubes, width)
    except (OverflowError, RecursionError):
        return None


def without_first_inputs(found, order):
    """The first inputs of an order left out as far as the rows of one output agree without them, in the types that have
    rows for zeros: the least polynomial has none of these inputs, because its part with the first input interpolates
    points that a one and a zero share without that input, and there are none. Gives None where rows for free points say
    something."""
    ones, zeros = found.set_of("on"), found.set_of("off")
    if found.kind not in ("fr", "fdr") or found.set_of("free"):
        return None
    kept = order[count_agreeing(ones, zeros, order, found.width) :]
    mask = sum(1 << (found.width - 1 - place) for place in kept)
    cubes = {
        saying: sorted({(fixed & mask, values & mask) for fixed, values in cubes}, reverse=True)
        for saying, cubes in found.cubes.items()
    }
    left = [place for place in found.inputs if place in set(kept)]
    return Problem(found.outputs, left or found.inputs[-1:], found.width, "fr", cubes)


class Apart:
    """Which cubes of a list an input keeps apart from a cube."""

    def __init__(self, cubes, width):
        self.width = width
        self.all = (1 << len(cubes)) - 1
        self.zero, self.one = [], []
        for place in range(width):
            bit = 1 << (width - 1 - place)
            self.zero.append(_column("1" if fixed & bit and not ones & bit else "0" for fixed, ones in cubes))
            self.one.append(_column("1" if ones & bit else "0" for _, ones in cubes))

    def by(self, cube, place):
        """The cubes that a cube does not meet because of an input."""
        bit = 1 << (self.width - 1 - place)
        if not cube[0] & bit:
            return 0
        return self.zero[place] if cube[1] & bit else self.one[place]


def _column(digits):
    return int("".join(digits)[::-1] or "0", 2)


def count_agreeing(ones, zeros, order, width):
    """How many of the first inputs of an order can be left out so that no cube of the ones meets one of the zeros."""
    if not ones or not zeros:
        return len(order)
    apart = Apart(zeros, width)
    left_out = len(order)
    for cube in ones:
        met, place = apart.all, len(order)
        while met and place:
            place -= 1
            met &= ~apart.by(cube, order[place])
        left_out = min(left_out, 0 if met else place)
    return left_out


def first_clash(description, outputs):
    """The first output of these whose rows contradict each other, with its first on-row and the first off-row that
    meets it, or None."""
    for output in outputs:
        ones = [row for row in description.rows if description.set_of(row.outputs[output]) == "on"]
        zeros = [row for row in description.rows if description.set_of(row.outputs[output]) == "off"]
        if not ones or not zeros:
            continue
        apart = Apart([cube_of(row.inputs) for row in zeros], description.inputs)
        for row in ones:
            met, cube = apart.all, cube_of(row.inputs)
            for place in range(description.inputs):
                met &= ~apart.by(cube, place)
                if not met:
                    break
            if met:
                return output, row, zeros[(met & -met).bit_length() - 1]
    return None


def cofactor(found, place, one):
    """The problem of one output without free points where an input has a value."""
    bit = 1 << (found.width - 1 - place)
    cubes = [
        (fixed & ~bit, ones & ~bit) for fixed, ones in found.set_of("on") if not fixed & bit or bool(ones & bit) == one
    ]
    left = [other for other in found.inputs if other != place]
    return Problem(found.outputs, left, found.width, "f", {"1": merged(cubes, found.width)} if cubes else {})
