"""Descriptions that are made from a generator of random numbers, the same each time."""


def random_rows(draws, inputs, outputs, most):
    """Up to so many rows of random symbols."""
    return [
        ("".join(draws.choice("01-") for _ in range(inputs)), "".join(draws.choice("01-~") for _ in range(outputs)))
        for _ in range(draws.randint(0, most))
    ]


def random_points(draws, count, inputs):
    """So many points, no two the same, each a word of 0 and 1."""
    return [format(point, f"0{inputs}b") for point in draws.sample(range(2**inputs), count)]


def shared_out(draws, count, inputs, outputs):
    """Rows of so many random points, each with a value for one output, the next one in turn."""
    for row, point in enumerate(random_points(draws, count, inputs)):
        before = row % outputs
        yield point, "~" * before + draws.choice("01") + "~" * (outputs - 1 - before)


def valued(draws, count, inputs, outputs):
    """Rows of so many random points, each with a random value for each output."""
    points = random_points(draws, count, inputs)
    return [(point, "".join(draws.choice("01") for _ in range(outputs))) for point in points]


def random_cube(draws, inputs, fixed):
    """The inputs of a row that fixes so many of them."""
    symbols = ["-"] * inputs
    for place in draws.sample(range(inputs), fixed):
        symbols[place] = draws.choice("01")
    return "".join(symbols)
