"""Orders of the inputs: which ones are tried where the asked one has no answer, or where the best of some is asked for.

An order is a list of the places of inputs, the greatest first.
"""

import itertools
import re

from .remedies import Apart

# A fit has at most so many monomials, and points.
_MOST_MONOMIALS = 2500
# Rows of ones times rows of zeros times inputs, up to which inputs are left out one by one.
_MOST_PAIRS = 40_000_000


def static_orders(places, cubes, names, width):
    """Some orders of inputs, each with its name and no two the same, from the rows and the names alone. `names` has the
    name of each place."""
    literals = {place: 0 for place in places}
    ones = dict(literals)
    for fixed, values in cubes:
        for place in places:
            bit = 1 << (width - 1 - place)
            literals[place] += bool(fixed & bit)
            ones[place] += bool(values & bit)
    busses, single = _busses(places, names)
    by_width = sorted(busses, key=len)
    narrow_first = single + [place for bus in by_width for place in bus]
    wide_first = [place for bus in reversed(by_width) for place in bus] + single
    found = [
        ("reversed", list(reversed(places))),
        ("most literals first", sorted(places, key=lambda place: -literals[place])),
        ("narrow names first", narrow_first),
        ("narrow names first, highest bit first", single + [place for bus in by_width for place in reversed(bus)]),
        ("single names first, bits side by side", single + _side_by_side(busses, False)),
        ("single names first, highest bits first", single + _side_by_side(busses, True)),
        ("bits side by side", _side_by_side(busses, False) + single),
        ("highest bits first", _side_by_side(busses, True) + single),
        ("fewest literals first", sorted(places, key=lambda place: literals[place])),
        ("narrow names last", wide_first),
        ("most informative first", sorted(places, key=lambda at: abs(literals[at] - 2 * ones[at]) - literals[at])),
        ("halves side by side", _riffled(places)),
    ]
    return _distinct([("as in the file", list(places))] + found)[1:]


def _distinct(named_orders):
    found, seen = [], set()
    for name, order in named_orders:
        if tuple(order) not in seen:
            seen.add(tuple(order))
            found.append((name, order))
    return found


def _busses(places, names):
    """The places whose names are alike but for a number, each list by the number; and the other places."""
    groups = {}
    for place in places:
        parts = re.fullmatch(r"(.*?)[\[(<_]?(\d+)[\])>]?", names[place])
        groups.setdefault(parts[1] if parts else names[place], []).append((int(parts[2]) if parts else 0, place))
    busses = [[place for _, place in sorted(group)] for group in groups.values() if len(group) > 1]
    return busses, [group[0][1] for group in groups.values() if len(group) == 1]


def _side_by_side(busses, highest_first):
    """The bits of one number of all busses, then those of the next."""
    lists = [list(reversed(bus)) for bus in busses] if highest_first else busses
    if highest_first:
        longest = max(map(len, lists), default=0)
        lists = [[None] * (longest - len(bus)) + bus for bus in lists]
    return [place for bits in itertools.zip_longest(*lists) for place in bits if place is not None]


def _riffled(places):
    half = (len(places) + 1) // 2
    pairs = itertools.zip_longest(places[:half], places[half:])
    return [place for pair in pairs for place in pair if place is not None]


def orders_for_free_points(problems, places, names, width):
    """Orders by which a polynomial may do with few inputs, from the rows of outputs with free points, and the static
    ones."""
    cubes = [cube for found in problems for cubes in found.cubes.values() for cube in cubes]
    static = static_orders(places, cubes, names, width)
    found = []
    for name, tried in [("file", places), *static[:5]]:
        kept = needed_inputs(problems, tried, width)
        if kept is not None:
            found.append((f"needed inputs last, left out by {name}", _last(tried, kept)))
    found.sort(key=lambda entry: entry[0])
    fit = fitted_inputs(problems, places, width)
    if fit:
        found.append(("inputs of a fit of low degree last", _last(places, fit)))
        found.append(("inputs of a fit of low degree last, reversed", _last(list(reversed(places)), fit)))
    return _distinct([("as in the file", list(places))] + found + static)


def _last(order, kept):
    kept = set(kept)
    return [place for place in order if place not in kept] + [place for place in order if place in kept]


def needed_inputs(problems, tried, width):
    """Inputs that suffice to tell ones from zeros, found by leaving out one after the other in an order; None where the
    rows are too many, or say nothing of zeros."""
    pairs = []
    for found in problems:
        ones, zeros = found.set_of("on"), found.set_of("off")
        if found.kind not in ("fr", "fdr"):
            return None
        if len(ones) * len(zeros) * len(tried) > _MOST_PAIRS:
            return None
        apart = Apart(zeros, width)
        pairs += [[apart.by(cube, place) for place in tried] + [apart.all] for cube in ones if zeros]
    later = []
    for pair in pairs:
        column, columns = 0, []
        for met in reversed(pair[:-1]):
            columns.append(column)
            column |= met
        later.append(columns[::-1])
    kept, met = [], [0] * len(pairs)
    for at, place in enumerate(tried):
        if any(met[k] | later[k][at] != pair[-1] for k, pair in enumerate(pairs)):
            kept.append(place)
            for k, pair in enumerate(pairs):
                met[k] |= pair[at]
    return kept


def fitted_inputs(problems, places, width):
    """The inputs of polynomials of degree 3 or less that take the values at points of the rows, where there are more
    points than monomials; else None."""
    used = set()
    for found in problems:
        fit = _fit(found, places, width)
        if fit is None:
            return None
        used |= fit
    return [place for place in places if place in used]


def _fit(found, places, width):
    if found.kind not in ("fr", "fdr") or found.set_of("free"):
        return None
    points = {ones: 1 for _, ones in found.set_of("on")}
    points.update({ones: 0 for _, ones in found.set_of("off")})
    for degree in (1, 2, 3):
        monomials = [
            (chosen, sum(1 << (width - 1 - place) for place in chosen))
            for size in range(degree + 1)
            for chosen in itertools.combinations(places, size)
        ]
        if len(monomials) > min(_MOST_MONOMIALS, len(points)):
            return None
        solution = _solve_linear(points, [mask for _, mask in monomials])
        if solution is not None:
            return {place for k in solution for place in monomials[k][0]}
    return None


def _solve_linear(points, masks):
    """Which of the monomials sum to the values at the points, or None."""
    pivots = {}
    for point, value in points.items():
        row = value
        for k, mask in enumerate(masks):
            if point & mask == mask:
                row |= 2 << k
        while row > 1:
            lead = row.bit_length()
            if lead not in pivots:
                pivots[lead] = row
                break
            row ^= pivots[lead]
        if row == 1:
            return None
    chosen = 0
    for lead in sorted(pivots):
        row = pivots[lead]
        if bin(row & chosen).count("1") % 2 != row & 1:
            chosen |= 1 << (lead - 1)
    return [k for k in range(len(masks)) if chosen >> (k + 1) & 1]
