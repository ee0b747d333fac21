"""Polynomials, by monomials of names and by whole numbers."""

import functools
import itertools

from .factors import COMPLEMENT, input_of, is_complement


class Polynomial:
    """A Boolean polynomial: the sum modulo 2 of its monomials, each the product of its factors, a tuple of names. A
    monomial, or a factor in one, that stands twice is a ValueError.

    Two polynomials are equal where they have the same monomials, in whichever order.
    """

    # The monomials; and as numbers over some factors, with what writes these again. One of both may be None.
    __slots__ = ("_monomials", "_masks", "_writer")

    def __init__(self, monomials=()):
        self._monomials = tuple(map(tuple, monomials))
        self._masks = self._writer = None
        products = self.as_set()
        if len(products) < len(self._monomials) or sum(map(len, products)) < sum(map(len, self._monomials)):
            raise ValueError("a monomial, or a factor of one, stands twice")

    @classmethod
    def of_masks(cls, writer, masks):
        """The polynomial of a list of numbers, by the Monomials that have their factors."""
        found = cls()
        found._monomials, found._masks, found._writer = None, masks, writer
        return found

    @property
    def monomials(self):
        """The monomials, in their order."""
        if self._monomials is None:
            self._monomials = tuple(map(self._writer.of, self._masks))
        return self._monomials

    @property
    def terms(self):
        """The number of monomials."""
        return len(self._masks if self._monomials is None else self._monomials)

    @property
    def degree(self):
        """The greatest number of factors of a monomial, and -1 for the polynomial 0."""
        return max(map(len, self.monomials), default=-1)

    def __call__(self, point):
        """The value, 0 or 1, at a point: a mapping of the names of inputs to 0 and 1. A KeyError names an input of a
        monomial that has no value."""
        missing = set(map(input_of, set().union(*self.monomials))) - set(point)
        if missing:
            raise KeyError(min(missing))
        ones = {name if value else COMPLEMENT + name for name, value in point.items()}
        return sum(map(ones.issuperset, self.monomials)) % 2

    def masks(self, factors):
        """The monomials as numbers in which the first of the factors is the greatest bit; a KeyError names another
        factor."""
        if self._writer is None or self._writer.factors != factors:
            bit = bits_of(factors).__getitem__
            self._masks = [sum(map(bit, monomial)) for monomial in self.monomials]
            self._writer = Monomials(factors)
        return self._masks

    def has_complement(self):
        """Whether a factor is the complement of an input."""
        if self._writer is not None and not any(map(is_complement, self._writer.factors)):
            return False
        return any(map(is_complement, set().union(*self.monomials)))

    def __str__(self):
        """The text as the programs print it."""
        if self._monomials is None:
            return self._writer.text(self._masks)
        return " + ".join(["*".join(monomial) or "1" for monomial in self.monomials]) or "0"

    def __repr__(self):
        return f"Polynomial({self})"

    def __eq__(self, other):
        return isinstance(other, Polynomial) and self.as_set() == other.as_set()

    def __hash__(self):
        return hash(self.as_set())

    def as_set(self):
        """The monomials as a set of sets of factors."""
        return frozenset(map(frozenset, self.monomials))


def bits_of(factors):
    """The bit of each factor, in their order, where the first one is the greatest."""
    return {factor: 1 << (len(factors) - 1 - place) for place, factor in enumerate(factors)}


# So many factors of a monomial are found at once, and so many of the last ones of its text.
CHUNK, LAST = 8, 12


class Monomials:
    """Monomials of numbers in which the first of some factors is the greatest bit. In their texts `times` stands
    between factors, and `one` is the text of the monomial without factors."""

    def __init__(self, factors, times="*", one="1"):
        self.factors = tuple(factors)
        self.times, self.one = times, one

    @functools.cached_property
    def parts(self):
        """Of each group of factors the shift that makes its bits the last ones, and by these bits its monomials."""
        found = []
        for shift in range(0, len(self.factors), CHUNK):
            parts = [()]
            for factor in reversed(self.factors[max(0, len(self.factors) - shift - CHUNK) : len(self.factors) - shift]):
                parts += [(factor, *part) for part in parts]
            found.insert(0, (shift, parts))
        return found

    def of(self, mask):
        """The monomial of a number."""
        last = (1 << CHUNK) - 1
        return tuple(itertools.chain.from_iterable([parts[mask >> shift & last] for shift, parts in self.parts]))

    @functools.cached_property
    def words(self):
        """The texts of the monomials in the last factors, by their numbers."""
        words = [""]
        for factor in reversed(self.factors[-LAST:]):
            words += [f"{factor}{self.times}{word}" if word else factor for word in words]
        return [self.one, *words[1:]]

    @functools.cached_property
    def endings(self):
        """The same as they stand behind other factors."""
        return ["", *(f"{self.times}{word}" for word in self.words[1:])]

    @functools.cached_property
    def before(self):
        """Those in the factors before the last ones."""
        return Monomials(self.factors[:-LAST], self.times, "")

    def term(self, mask):
        """The text of a number."""
        first = mask >> LAST
        return self.before.term(first) + self.endings[mask & (1 << LAST) - 1] if first else self.words[mask]

    def terms(self, masks):
        """The texts of a list of numbers. Those beside each other that have the same first factors, as most have in a
        list in order, take these from the one before."""
        words = self.words
        if len(self.factors) <= LAST:
            return [words[mask] for mask in masks]
        endings, last = self.endings, (1 << LAST) - 1
        found, known, front = [], 0, ""
        for mask in masks:
            first = mask >> LAST
            if first != known:
                known, front = first, self.before.term(first)
            found.append(front + endings[mask & last] if first else words[mask])
        return found

    def text(self, masks):
        """The text of a polynomial, its terms in the order of a list of numbers."""
        return " + ".join(self.terms(masks)) or "0"

    def polynomial(self, masks):
        """The polynomial of a set of numbers, its terms from the greatest to the least."""
        return Polynomial.of_masks(self, sorted(masks, reverse=True))
