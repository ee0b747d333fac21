"""Least Boolean polynomials, by the proved programs interp and nfq.

    import leastanf
    answer = leastanf.solve("f.pla")            # a path, the bytes of a file, or a Description
    for output in answer:                       # answers.Output, in the order of the file
        output.name, output.polynomial          # a name, a polynomials.Polynomial
        output.polynomial.monomials             # tuples of names, the greatest monomial first
        output.polynomial.degree, output.polynomial.terms
        output.polynomial({"a": 1, "b": 0})     # the value at a point
        output.basis                            # the elements, in mode basis
    answer.text("verilog")                      # by the table formats.FORMATS
    leastanf.solve(leastanf.table([3, 1, 2, 0]))    # a truth table; `tables` has more ways in

docs/PYTHON.md has more lines.
"""

import os

from . import answers, choosing, descriptions, solving, tables
from .descriptions import Description, DescriptionError
from .programs import ProgramMissing
from .solving import SomeMissing, Unsolved
from .tables import TableError, table

__all__ = [
    "Answered",
    "Description",
    "DescriptionError",
    "ProgramMissing",
    "SomeMissing",
    "TableError",
    "Unsolved",
    "describe",
    "solve",
    "table",
    "tables",
]


class Answered(answers.Answer):
    """An answer, with what was done besides a run on the file, in lines, and the choices of orders and polarities."""

    def __init__(self, answer, notes, choices):
        super().__init__(answer.inputs, answer.outputs)
        self.notes, self.choices = list(notes), list(choices)

    def __getitem__(self, name):
        """The output of a name."""
        for output in self:
            if output.name == name:
                return output
        raise KeyError(name)


def describe(source):
    """The Description of a source: a path, the bytes of a file, or a Description."""
    if isinstance(source, Description):
        return source
    if isinstance(source, (bytes, bytearray)):
        return descriptions.parse(bytes(source), "these bytes")
    return descriptions.read(os.fspath(source))


def solve(source, mode="anf", order=None, polarity=None, **limits):
    """The answer to a source, as an Answered.

    mode        anf or basis
    order       a list of the names of all inputs, the greatest first, or "auto" or "each", as `solve --order`
    polarity    a list of names of inputs that are complemented, or "all", "auto" or "each", as `solve --polarity`
    limits      nodes, terms, workers, seconds and processors, as the options of `solve`

    Raises a ValueError where the mode or a limit is out of its range, a DescriptionError where the source is refused,
    an Unsolved (a class for each status, in `solving`) where there is no answer, SomeMissing, whose `answer` has the
    others, where some outputs have none, and ProgramMissing.
    """
    if mode not in ("anf", "basis"):
        raise ValueError(f"the modes are anf and basis, and not {mode!r}")
    description = describe(source)
    settings = solving.Settings(mode, **limits)
    if order is not None and order not in ("auto", "each"):
        settings.order, order = solving.order_of(description, order), None
    if polarity == "all":
        polarity = list(range(description.inputs))
    elif polarity is not None and polarity not in ("auto", "each"):
        polarity = solving.inputs_of(description, polarity, "polarity")
    if order is None and polarity is None:
        solution, choices = solving.solve(description, settings), []
    else:
        solution, choices = choosing.solve(description, settings, order, polarity)
    return of_solution(solution, description, settings, choices)


def of_solution(solution, description, settings, choices=()):
    """The answer of a solution, or SomeMissing with it."""
    answer = Answered(solving.answer(solution, description, settings, choices), solution.notes, choices)
    if solution.missing:
        place, first = solution.missing[0]
        missing = SomeMissing(f"{len(solution.missing)} outputs have no answer, the first by: {first.message}")
        missing.outputs = [place for place, _ in solution.missing]
        missing.answer = answer
        raise missing
    return answer
