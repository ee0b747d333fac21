"""The table of formats in which answers are written."""

from . import circuits, others, rings
from .functions import FormatError

__all__ = ["FORMATS", "Format", "FormatError", "text"]


class Format:
    """A format: the function that gives the lines of an answer, and what they are."""

    def __init__(self, write, what):
        self.write, self.what = write, what


FORMATS = {
    "verilog": Format(circuits.verilog, "a module, with a wire for what is used twice"),
    "blif": Format(circuits.blif, "a network of nodes low ^ (x & high)"),
    "esop": Format(circuits.esop, "a PLA file of type esop, whose rows are summed modulo 2"),
    "singular": Format(rings.SINGULAR.write, "polynomials and ideals of Singular"),
    "macaulay2": Format(rings.MACAULAY2.write, "polynomials and ideals of Macaulay2"),
    "sage": Format(rings.SAGE.write, "polynomials and lists of them over a BooleanPolynomialRing of Sage"),
    "bosphorus": Format(rings.bosphorus, "equations in the form ANF"),
    "cnf": Format(others.cnf, "clauses and exclusive-or lines of cryptominisat"),
    "python": Format(others.python, "a function"),
    "json": Format(others.as_json, "lists of names"),
    "latex": Format(others.latex, "aligned equations"),
    "dot": Format(others.dot, "the diagram as a picture of Graphviz"),
}


def text(answer, name):
    """The text of an answer in a format."""
    return "".join(f"{line}\n" for line in FORMATS[name].write(answer))
