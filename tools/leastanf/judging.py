"""Judging answers, whoever made them.

What a polynomial is asked. It takes every given value exactly where it is 0 at each point whose value is 0, and the
polynomial plus 1 is 0 at each point whose value is 1: that is, where its normal form by the ideal of the first points
is 0, and so is that of the other one by the ideal of the second. Of all polynomials with its values at the care points
one alone is its own normal form by their ideal, and that is the least. So a polynomial is right exactly where both
hold: it takes every given value, and it is its own normal form. Neither is enough: the least polynomial of another
function is its own normal form too, and a polynomial that takes every given value may have monomials that are no normal
form has.

Where nfq has no answer, because its table is too small or there are too many terms, the least polynomial is found by
interp, whose table may be larger, and compared. It is the one right answer.

A basis of up to 14 inputs is judged by mode check of interp. Of more inputs, or where there is no polynomial beside it,
the reduced basis is found by interp and compared, as a set: it is the one right answer too.
"""

from . import ideals, polarity, programs, solving
from .polynomials import Monomials
from .descriptions import MOST_BYTES

MOST_CHECKED = 14
MOST_TERMS = 1_000_000
FAULTS = {
    "Value": "the polynomial does not take a given value",
    "NotZero": "the element is 1 at a care point",
    "Leads": "the element is 0, or its greatest monomial divides that of another element or is divided by it",
    "Order": "the elements do not ascend",
    "Count": "the basis has an element too many or too few: there are not as many monomials that no greatest monomial "
    "divides as there are care points",
    "Reducible": "a monomial is divided by the greatest monomial of an element",
}


class Verdict:
    """What is known of a claim: whether it is right, or None where that is not known; why, in words; and the place of
    the element that is wrong, if it is one."""

    def __init__(self, holds, why="", element=None):
        self.holds, self.why, self.element = holds, why, element


class Judge:
    """Judges claims on the outputs of a description, in an order of the inputs, and over the complements of those at
    the places `flips`. Polynomials are sets of whole numbers, as in `queries`."""

    def __init__(self, description, order=None, flips=()):
        self.description = polarity.flipped(description, flips)
        self.order = list(order or range(description.inputs))
        self.flips = sum(1 << (description.inputs - 1 - place) for place in set(flips))
        names = polarity.marked(description.shown_input_names, flips)
        self.monomials = Monomials([names[place] for place in self.order])

    def agrees(self, output, polynomial):
        """Whether a polynomial takes every given value of an output, by nfq, or an Unsolved."""
        for value in (0, 1):
            ideal = ideals.points_of_value(self.description, output, self.order, value)
            point = ideals.point_where_one(ideal, polynomial ^ {0} if value else polynomial)
            if point is not None:
                told = f"{point ^ self.flips:0{self.description.inputs}b}"
                return Verdict(False, f"it is {1 - value} at {told}, where {value} is given")
        return Verdict(True)

    def polynomial(self, output, polynomial):
        """Whether a polynomial is the least one that takes every given value of an output."""
        try:
            return self.by_normal_form(output, polynomial)
        except solving.Unsolved:
            return self.by_solving(output, polynomial)

    def by_normal_form(self, output, polynomial):
        """The verdict on a polynomial by nfq, or an Unsolved."""
        verdict = self.agrees(output, polynomial)
        if not verdict.holds:
            return verdict
        least = ideals.care_points(self.description, output, self.order).normal_forms([polynomial])[0]
        return self.by_least(polynomial, least)

    def by_solving(self, output, polynomial):
        """The verdict on a polynomial by the least one, as interp finds it."""
        try:
            least, _ = self.solved(output, "anf")
        except solving.TooManyTerms as error:
            if len(polynomial) <= MOST_TERMS:
                return Verdict(False, f"the least polynomial has more than {MOST_TERMS} terms")
            return Verdict(None, error.message)
        except solving.Unsolved as error:
            return Verdict(None, error.message)
        return self.by_least(polynomial, least)

    def by_least(self, polynomial, least):
        """The verdict on a polynomial by the least one."""
        if polynomial == least:
            return Verdict(True)
        difference = self.first_difference(polynomial, least)
        return Verdict(False, f"it has {len(polynomial)} terms, the least one has {len(least)}, and {difference}")

    def first_difference(self, claimed, right):
        """The greatest monomial that one of two polynomials has alone."""
        mask = max(claimed ^ right)
        told = "*".join(self.monomials.of(mask)) or "1"
        return f"{told} is in {'this' if mask in claimed else 'the least'} one alone"

    def basis(self, output, polynomial, elements):
        """Whether elements, in any order, are the reduced basis of the care points, and the polynomial, if it is not
        None, is the least one."""
        if self.description.inputs <= MOST_CHECKED and polynomial is not None:
            verdict = self.by_check(output, polynomial, elements)
            if verdict.holds is not None:
                return verdict
        return self.by_basis(output, polynomial, elements)

    def by_check(self, output, polynomial, elements):
        """The verdict by mode check of interp. Elements are written by ascending greatest monomial."""
        places = sorted(range(len(elements)), key=lambda place: max(elements[place], default=-1))
        found = ideals.problem_of(self.description, output)
        numbered = Monomials([f"x{place}" for place in range(1, len(self.order) + 1)])
        lines = [f"f1 = {numbered.polynomial(polynomial)}"]
        lines += [f"0 = {numbered.polynomial(elements[place])}" for place in places]
        data = found.text(self.order) + "".join(f"{line}\n" for line in lines).encode()
        if len(data) > MOST_BYTES or not found.fits():
            return Verdict(None, "the description and the answer are too long for the program")
        run = programs.run("interp", ["check"], data)
        said = run.output.decode("ascii", "replace").split()
        if run.status == 0 and said == ["yes"]:
            return Verdict(True)
        if run.status == 1 and said[:1] == ["no"]:
            line = int(said[1])
            return Verdict(False, FAULTS[said[2]], places[line - 2] if line > 1 else None)
        return Verdict(None, run.message)

    def by_basis(self, output, polynomial, elements):
        """The verdict by the least polynomial and the reduced basis, as interp finds them."""
        try:
            least, basis = self.solved(output, "basis")
        except solving.TooManyTerms as error:
            if polynomial is not None and len(polynomial) + sum(map(len, elements)) <= MOST_TERMS:
                return Verdict(False, f"the right answer has more than {MOST_TERMS} terms")
            return Verdict(None, error.message)
        except solving.Unsolved as error:
            return Verdict(None, error.message)
        if polynomial is not None and polynomial != least:
            return self.by_least(polynomial, least)
        right = set(map(frozenset, basis))
        seen = set()
        for place, element in enumerate(map(frozenset, elements)):
            if element not in right or element in seen:
                return Verdict(False, "the element is not in the reduced basis, or stands twice", place)
            seen.add(element)
        if seen != right:
            return Verdict(False, f"the reduced basis has {len(right)} elements, and this one has {len(seen)} of them")
        return Verdict(True)

    def solved(self, output, mode):
        """The least polynomial and the reduced basis of an output, as interp finds them, or an Unsolved."""
        part = solving.chosen(self.description, [output])
        settings = solving.Settings(mode, self.order)
        answer = solving.answer(solving.solve(part, settings), part, settings)
        factors = tuple(answer.inputs)
        found = answer.outputs[0]
        return set(found.polynomial.masks(factors)), [set(element.masks(factors)) for element in found.basis]
