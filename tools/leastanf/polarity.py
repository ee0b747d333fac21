"""Polarities: inputs that are complemented before the run, and written ~NAME in the answer."""

from . import descriptions

_COMPLEMENT = str.maketrans("01", "10")


def flipped(description, places):
    """The description of the same functions of the inputs of which those at these places are complemented."""
    flips = set(places)
    if not flips:
        return description
    part = descriptions.Description(description.path, description.inputs, description.outputs, description.kind)
    part.given_input_names, part.given_output_names = description.given_input_names, description.given_output_names
    part.kept_output_names = description.kept_output_names
    part.typed, part.forms = description.typed, description.forms
    for row in description.rows:
        symbols = "".join(
            symbol.translate(_COMPLEMENT) if place in flips else symbol for place, symbol in enumerate(row.inputs)
        )
        part.rows.append(descriptions.Row(row.line, symbols, row.outputs))
    return part


def marked(names, places):
    """The names of an answer over the inputs of which those at these places were complemented."""
    flips = set(places)
    return [f"~{name}" if place in flips else name for place, name in enumerate(names)]


def candidates(description):
    """The polarities that are tried: none, all, those inputs that rows of ones fix to 0 more often than to 1, and the
    others. A cube with many zeros has a monomial for each set of them, so the best has few."""
    balance = [0] * description.inputs
    for row in description.rows:
        if any(description.set_of(symbol) == "on" for symbol in row.outputs):
            for place, symbol in enumerate(row.inputs):
                balance[place] += (symbol == "0") - (symbol == "1")
    every = list(range(description.inputs))
    zeros = [place for place in every if balance[place] > 0]
    others = [place for place in every if balance[place] <= 0]
    found = []
    named = (("none", []), ("all", every), ("more zeros than ones", zeros), ("more ones than zeros", others))
    for name, places in named:
        if places not in [other for _, other in found]:
            found.append((name, places))
    return found
