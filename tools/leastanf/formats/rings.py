"""Answers for systems of computer algebra and for solvers of polynomial equations.

In Singular, Macaulay2 and Sage output K's polynomial is fK and its basis is the ideal or list IK; an ideal without an
output is I1. The ring has the order of the answer.
"""

import re

from ..factors import input_of, is_complement
from ..polynomials import Monomials
from . import naming
from .steps import Language, Steps

# A polynomial of more terms is written in steps, since adding its terms one by one would take too long.
MOST_TERMS = 1000


class System:
    """How a system of computer algebra takes an answer.

    mark         begins a comment
    language     its expressions
    taken        the names that a script makes besides those of outputs
    step         the line that names a node
    polynomial   the line of an output's polynomial, by its number
    """

    mark, language, taken, step, polynomial = "", None, frozenset("R"), "{} = {}", "f{} = {}"

    def names(self, inputs, outputs):
        """The names of inputs, where the answer has so many outputs. They do not depend on the order of the inputs."""
        made = {f"{letter}{number}" for letter in "fI" for number in range(1, max(1, outputs) + 1)}
        given = sorted(inputs)
        found = dict(zip(given, naming.distinct(given, self.keeps, self.mend, self.taken | made)))
        return [found[name] for name in inputs]

    def keeps(self, name):
        """Whether it takes a name."""
        raise NotImplementedError

    def mend(self, name):
        """A name that it takes, of one that it does not take."""
        made = naming.word(name)
        return made if self.keeps(made) else f"{made}_"

    def ring(self, names):
        """The lines that make the ring."""
        raise NotImplementedError

    def ideal(self, number, texts):
        """The line of an ideal or a list by the texts of its elements."""
        raise NotImplementedError

    def write(self, answer):
        """The lines of an answer."""
        names = self.names(answer.inputs, len(answer.outputs or ()))
        yield from naming.comments(self.mark, answer.inputs, names)
        yield from self.ring(names)
        writer = Writer(self, answer, names)
        for number, output in enumerate(answer, 1):
            yield from naming.comments(self.mark, [output.name], [f"f{number}"])
            text = writer.polynomial(output.polynomial)
            yield from writer.take()
            yield self.polynomial.format(number, text)
            yield from writer.ideal(number, output.basis)
        if answer.ideal is not None:
            yield from writer.ideal(1, answer.ideal)


class Writer:
    """Writes polynomials for a system."""

    def __init__(self, system, answer, names):
        self.system = system
        self.texts = {}
        texts = dict(zip(answer.inputs, names))
        for factor in answer.factors():
            self.texts[factor] = f"({texts[input_of(factor)]}+1)" if is_complement(factor) else texts[factor]
        self.letter = naming.prefix("n", names)
        self.lines = []
        self.named = 0

    def polynomial(self, polynomial):
        """The expression of a polynomial. Lines that have to stand before it are added to those of the writer."""
        language = self.system.language
        zero, one = language.constants
        if polynomial.terms <= MOST_TERMS:
            text, times = self.texts.__getitem__, language.times
            return language.plus.join([times.join(map(text, m)) or one for m in polynomial.monomials]) or zero
        steps = Steps(language, self.texts, self.letter, self.named)
        steps.add(polynomial)
        nodes, roots = steps.write()
        self.named += len(nodes)
        self.lines += [self.system.step.format(name, text) for name, text in nodes]
        return roots[0]

    def ideal(self, number, elements):
        """The lines of an ideal or a list."""
        texts = [self.polynomial(element) for element in elements]
        yield from self.take()
        yield self.system.ideal(number, texts)

    def take(self):
        """The lines that were added since they were last taken."""
        lines, self.lines = self.lines, []
        return lines


class Singular(System):
    """Polynomials and ideals; the ideal F has the polynomials of the field."""

    mark, language, taken = "//", Language(" + ", "*"), frozenset("rF")
    step, polynomial = "poly {} = {};", "poly f{} = {};"

    def keeps(self, name):
        return naming.is_word(name) and name[0] != "_" and name not in naming.SINGULAR

    def ring(self, names):
        yield f"ring r = 2, ({', '.join(names)}), lp;"
        yield "short = 0;"
        yield f"ideal F = {', '.join(f'{name}^2+{name}' for name in names)};"

    def ideal(self, number, texts):
        return f"ideal I{number} = {', '.join(texts) or '0'};"


class Macaulay2(System):
    """Polynomials and ideals, which have the polynomials of the field too."""

    mark, language = "--", Language(" + ", "*", ("0_R", "1_R"))
    step, polynomial = "{} = {};", "f{} = {};"

    def keeps(self, name):
        return bool(re.fullmatch("[A-Za-z]|[A-Za-z]+[0-9][A-Za-z0-9]*", name)) and name not in naming.MACAULAY2

    def mend(self, name):
        """The name with ' for each character that is not taken, and behind a word that the system may have itself."""
        made = re.sub("[^A-Za-z0-9]", "'", name)
        made = made if made[:1].isalpha() else f"v{made}"
        return made if "'" in made else f"{made}'"

    def ring(self, names):
        yield f"R = ZZ/2[{', '.join(names)}, MonomialOrder => Lex];"

    def ideal(self, number, texts):
        return f"I{number} = ideal({', '.join(texts) or '0_R'}) + ideal apply(gens R, v -> v^2 + v);"


class Sage(System):
    """Polynomials and lists of them."""

    mark, language = "#", Language(" + ", "*", ("R(0)", "R(1)"))

    def keeps(self, name):
        return naming.is_python(name) and name[0] != "_"

    def ring(self, names):
        yield f"R = BooleanPolynomialRing(names={names!r}, order='lex')"
        yield f"{', '.join(names)}, = R.gens()"

    def ideal(self, number, texts):
        return f"I{number} = [{', '.join(texts)}]"


# The systems, whose names of inputs are read again.
SINGULAR, MACAULAY2, SAGE = SYSTEMS = (Singular(), Macaulay2(), Sage())


def bosphorus(answer):
    """Equations in the form ANF: each line is a polynomial that is 0. Inputs are x1, x2 and so on, outputs come behind
    them, and then the complements of inputs."""
    factors = list(answer.inputs) + [output.name for output in answer]
    variables = {factor: f"x{number}" for number, factor in enumerate(factors[: len(answer.inputs)], 1)}
    complements = [factor for factor in answer.factors() if is_complement(factor)]
    for number, factor in enumerate(complements, len(factors) + 1):
        variables[factor] = f"x{number}"
    for number, factor in enumerate([*factors, *complements], 1):
        yield f"c x{number} is {factor}"
    for factor in complements:
        yield f"{variables[factor]} + {variables[input_of(factor)]} + 1"
    used = answer.factors()
    write = Monomials([variables[factor] for factor in used])
    for number, output in enumerate(answer, len(answer.inputs) + 1):
        text = write.text(output.polynomial.masks(used))
        yield f"x{number}" if text == "0" else f"x{number} + {text}"
    for element in [*(element for output in answer for element in output.basis), *(answer.ideal or ())]:
        yield write.text(element.masks(used))
