"""Relations of low degree: polynomials that are 0 at each care point of an output.

The normal form of a polynomial by the ideal of the care points is the sum of those of its monomials, and it is 0
exactly where the polynomial is 0 at each of them. So the relations of at most a degree are the sums of monomials whose
normal forms sum to 0, which elimination finds.
"""

import itertools
import math
import time

from . import ideals, solving
from .polynomials import Monomials

# So many monomials are asked at the most, so many of them at once, and the search may take so many seconds.
MOST_MONOMIALS, AT_ONCE, SECONDS = 100_000, 1000, 300


def relations(description, output, degree, order=None, seconds=None, progress=None):
    """The relations of at most a degree between the inputs at the care points of an output: a basis of their vector
    space as a list of Polynomials, each with a greatest monomial, by degree and then by the order of the inputs,
    that no other one has.

    `progress` is called with lines that say how far the search is. Raises a solving.Unsolved where nfq has no answer,
    where there are too many monomials, and where the seconds are over.
    """
    order = list(order or range(description.inputs))
    clock = Clock(SECONDS if seconds is None else seconds, progress or (lambda text: None))
    monomials = monomials_up_to(len(order), degree)
    ideal = ideals.care_points(description, output, order)
    found = vanishing_sums(monomials, normal_forms(ideal, [{mask} for mask in monomials], clock), clock)
    if any(normal_forms(ideal, found, clock)):
        raise AssertionError("a relation is not 0 at each care point")
    names = Monomials([description.shown_input_names[place] for place in order])
    return [names.polynomial(masks) for masks in found]


class Clock:
    """The time that a search may take, and where it tells how far it is."""

    def __init__(self, seconds, progress):
        self.seconds, self.progress = seconds, progress
        self.deadline = time.monotonic() + seconds

    def left(self):
        """The seconds that are left, or a solving.TimeUp."""
        left = self.deadline - time.monotonic()
        if left <= 0:
            raise self.time_up()
        return left

    def time_up(self):
        """Why there are no relations, where the seconds are over."""
        remedy = "give more time by --seconds, or ask for a lower degree"
        return solving.TimeUp(f"no relations after {self.seconds} s", remedy)

    def number(self, parts, what):
        """The parts of a list, numbered from 0, some of them told."""
        for number, part in enumerate(parts):
            if number % AT_ONCE == 0:
                self.left()
                self.progress(f"{number} of {len(parts)} {what}")
            yield number, part


def normal_forms(ideal, polynomials, clock):
    """The normal forms of polynomials, asked some at once."""
    found = []
    for start in range(0, len(polynomials), AT_ONCE):
        clock.progress(f"{start} of {len(polynomials)} normal forms")
        try:
            found += ideal.normal_forms(polynomials[start : start + AT_ONCE], clock.left())
        except solving.TimeUp:
            raise clock.time_up() from None
    return found


def monomials_up_to(width, degree):
    """The monomials of at most a degree, by degree and then by the order, as whole numbers."""
    sizes = range(min(degree, width) + 1)
    count = sum(math.comb(width, size) for size in sizes)
    if count > MOST_MONOMIALS:
        told = f"{count} monomials of {width} inputs have at most degree {degree}"
        raise solving.TooManyTerms(f"{told}, and at most {MOST_MONOMIALS} are asked", "ask for a lower degree")
    found = []
    for size in sizes:
        found += sorted(sum(1 << bit for bit in bits) for bits in itertools.combinations(range(width), size))
    return found


def vanishing_sums(monomials, forms, clock):
    """The sums of monomials whose normal forms sum to 0: a basis, where each has a last monomial that no other one has.
    The first monomials are those that elimination keeps.

    A normal form is a whole number here, with a bit for each of its monomials, and so is a sum, with a bit for each
    place in the list.
    """
    bits, kept, found = {}, {}, []
    for number, form in clock.number(forms, "monomials eliminated"):
        rest, parts = sum(1 << bits.setdefault(mask, len(bits)) for mask in form), 1 << number
        while rest.bit_length() in kept:
            other, more = kept[rest.bit_length()]
            rest, parts = rest ^ other, parts ^ more
        if rest:
            kept[rest.bit_length()] = rest, parts
        else:
            found.append({mask for mask, bit in zip(monomials, f"{parts:b}"[::-1]) if bit == "1"})
    return found
