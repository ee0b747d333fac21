"""Random files of ten kinds: points, tables, graphs, and cubes of several forms, in both modes."""

import make_files


def up_to(draws, least, most):
    return least + draws.below(most - least + 1)


def spread(draws, least, most):
    """A number of any size between these: as many have one bit as another."""
    bits = up_to(draws, least.bit_length(), most.bit_length())
    return min(most, max(least, (1 << bits - 1) + draws.below(1 << bits - 1)))


def valued_points(draws):
    inputs = up_to(draws, 8, 48)
    count = spread(draws, 8, min(2000, 2 ** (inputs - 1)))
    return make_files.points(count, inputs, up_to(draws, 1, 8), draws.below(2**30))


def shared_points(draws):
    """Points of which each output has a part, some of them without a value."""
    inputs, outputs = up_to(draws, 8, 48), up_to(draws, 2, 8)
    chosen = {make_files.drawn_bits(draws, inputs) for _ in range(spread(draws, 8, 400))}
    rows = [(point, "".join(draws.one_of("01-~") for _ in range(outputs))) for point in sorted(chosen)]
    return make_files.description(inputs, outputs, draws.one_of(["fr", "fdr"]), rows)


def equal_cubes(draws):
    """Cubes of one number of literals."""
    inputs = up_to(draws, 8, 26)
    fixed = up_to(draws, 2, min(inputs, 14))
    return make_files.cubes(spread(draws, 8, 800), inputs, up_to(draws, 1, 8), fixed, draws.below(2**30))


def other_cubes(draws):
    """Cubes of several numbers of literals, with don't cares."""
    inputs, outputs = up_to(draws, 8, 22), up_to(draws, 1, 8)
    least = up_to(draws, 2, 8)
    rows = []
    for _ in range(spread(draws, 8, 600)):
        left = make_files.cube(draws, inputs, up_to(draws, least, inputs))
        rows.append((left, "".join(draws.one_of("011-") for _ in range(outputs))))
    return make_files.description(inputs, outputs, "fd", rows)


def few_cubes(draws):
    """Cubes of 5 to 9 literals whose rows x inputs x outputs lie between 2^12 and 2^14."""
    inputs, outputs = up_to(draws, 14, 16), draws.one_of([1, 2, 4])
    rows = up_to(draws, 2**12, 2**14) // (inputs * outputs)
    return make_files.cubes(rows, inputs, outputs, up_to(draws, 5, 9), draws.below(2**30))


def local_cubes(draws):
    """Cubes that fix inputs side by side."""
    inputs, outputs = up_to(draws, 8, 26), up_to(draws, 1, 8)
    fixed = up_to(draws, 2, min(inputs - 1, 14))
    rows = []
    for _ in range(spread(draws, 8, 800)):
        place = draws.below(inputs - fixed + 1)
        left = "-" * place + make_files.drawn_bits(draws, fixed) + "-" * (inputs - fixed - place)
        rows.append((left, make_files.drawn_bits(draws, outputs)))
    return make_files.description(inputs, outputs, "f", rows)


def split_cubes(draws):
    """Cubes whose value is that of the first input, and for all outputs but the first the other one."""
    inputs, outputs = up_to(draws, 8, 26), up_to(draws, 1, 8)
    fixed = up_to(draws, 2, min(inputs, 14))
    rows = []
    for _ in range(spread(draws, 8, 400)):
        value = draws.one_of("01")
        left = value + make_files.cube(draws, inputs, fixed)[1:]
        rows.append((left, value + "10"[int(value)] * (outputs - 1)))
    return make_files.description(inputs, outputs, "fr", rows)


def redundant_cubes(draws):
    inputs = up_to(draws, 10, 28)
    wide, fixed = up_to(draws, 2, 12), up_to(draws, 2, 8)
    return make_files.redundant(spread(draws, 16, 3000), inputs, up_to(draws, 1, 8), wide, fixed, draws.below(2**30))


def function(draws, outputs):
    """A function of numbers whose values have so many bits: random, or one of arithmetic."""
    bound, factor = 2**outputs, up_to(draws, 3, 99)
    values = [draws.below(bound) for _ in range(2**12)]
    return draws.one_of(
        [
            values.__getitem__,
            lambda x: x * factor % bound,
            lambda x: x * x % bound,
            lambda x: x % factor % bound,
            lambda x: x.bit_count() % bound,
            lambda x: (x ^ x >> 1) % bound,
            lambda x: 1 << x % outputs,
        ]
    )


def table(draws):
    outputs = up_to(draws, 1, 16)
    return make_files.table(up_to(draws, 4, 12), outputs, function(draws, outputs))


def graph(draws):
    outputs = up_to(draws, 1, 12)
    return make_files.graph(up_to(draws, 4, 12), outputs, function(draws, outputs))


KINDS = [
    valued_points, shared_points, equal_cubes, other_cubes, few_cubes, local_cubes, split_cubes, redundant_cubes, table,
    graph,
]  # fmt: skip


def random_files(count, seed, path):
    """Writes so many files to this path, one after the other, and tells of each its kind and the mode to find."""
    draws = make_files.Draws(seed)
    for _ in range(count):
        kind, mode = draws.one_of(KINDS), draws.one_of(["anf", "basis"])
        path.write_text(kind(draws))
        yield kind.__name__, mode
