"""The polynomials of an answer with names, as formats of functions write them."""


class FormatError(Exception):
    """Why an answer has no text in a format."""

    status = 3


def functions(answer):
    """The polynomials of an answer with their names: each output, and its elements as NAME_1, NAME_2 and so on; of an
    ideal without an output ideal_1, ideal_2 and so on."""
    named = []
    for output in answer:
        named.append((output.name, output.polynomial))
        named += [(f"{output.name}_{number}", element) for number, element in enumerate(output.basis, 1)]
    named += [(f"ideal_{number}", element) for number, element in enumerate(answer.ideal or (), 1)]
    if not named:
        raise FormatError("an ideal whose basis has no element has no function to write")
    return named
