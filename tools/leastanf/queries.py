"""Polynomials in any form, as people and other programs write them.

A sum is written with + - or ^, a product with * or &, an or with |, the complement with ~ or ! before it, a power with
^ or ** and a number behind it; there are brackets, numbers (of which 2 is 0) and the constants 1'b0 and 1'b1 of Verilog
and 0_R and 1_R of Macaulay2. A product binds more than a sum, and a sum more than an or.

Polynomials are sets of monomials here, and a monomial is a whole number: a bit for each input, the first one the
greatest.
"""

import re

from .formats import rings
from .factors import COMPLEMENT

# A polynomial may have so many terms while it is brought into its form, and a product may take so many steps.
MOST_TERMS, MOST_STEPS = 1_000_000, 10_000_000
ONE = frozenset((0,))

_TOKEN = re.compile(r"\s*(\*\*|1'b[01]|[01]_R\b|[0-9]+|[-+^*&|~!()]|\S)")


class QueryError(Exception):
    """Why a text is no polynomial."""

    status = 3


class Names:
    """What the names in a text stand for: polynomials of the inputs in an order.

    The names are those of the inputs, as an answer shows them and as the program prints them; those that `answer_as`
    gives them in Singular, Macaulay2 and Sage; and x(3), x_3 and x[3] for the third input of the file, where no name of
    the file is x with the number of another place. A name that could be two inputs is none.
    """

    def __init__(self, description, order=None, flips=()):
        self.width = description.inputs
        order = list(order or range(description.inputs))
        self.bits = {place: 1 << (self.width - 1 - at) for at, place in enumerate(order)}
        self.flips = frozenset(flips)
        self.places = {}
        self._add(enumerate(description.shown_input_names))
        self._add(enumerate(description.input_names))
        other = Aliases()
        for system in rings.SYSTEMS:
            other.add(enumerate(system.names(description.shown_input_names, description.outputs)))
        if not any(has_other_number(place, name) for place, name in enumerate(description.shown_input_names)):
            for form in ("x({})", "x_{}", "x[{}]", "x{}"):
                other.add((place, form.format(place + 1)) for place in range(self.width))
        self._add(other.places())
        longest_first = sorted(self.places, key=len, reverse=True)
        self.pattern = re.compile(r"\s*(" + "|".join(map(re.escape, longest_first)) + r")(?![A-Za-z0-9_'\[])")

    def _add(self, named):
        for place, name in named:
            self.places.setdefault(name, place)

    def polynomial(self, name):
        """The polynomial that a name stands for. An input that was complemented is the complement of its variable."""
        place = self.places[name]
        return frozenset((self.bits[place], 0)) if place in self.flips else frozenset((self.bits[place],))

    def factor_bits(self):
        """The bit of each factor that is a variable."""
        return {
            COMPLEMENT + name if place in self.flips else name: self.bits[place] for name, place in self.places.items()
        }


def has_other_number(place, name, letters="x"):
    """Whether a name is one of some letters with a number that is not that of its place, as x0 is of the first one."""
    found = re.fullmatch(rf"[{letters}][\[(_<]?([0-9]+)[\])>]?", name)
    return found is not None and found[1] != str(place + 1)


class Aliases:
    """Names that may stand for several inputs."""

    def __init__(self):
        self.found = {}

    def add(self, named):
        for place, name in named:
            self.found.setdefault(name, set()).add(place)

    def places(self):
        """The names that stand for one input, with its place."""
        return [(next(iter(places)), name) for name, places in self.found.items() if len(places) == 1]


def parse(text, names, twice=True):
    """The polynomial of a text, or a QueryError. `twice` says whether a term may stand twice in a sum of products, as
    no program prints it."""
    found = _sum_of_products(text, names, twice)
    if found is not None:
        return found
    try:
        return _Parser(text, names).whole()
    except RecursionError:
        raise QueryError("the brackets are nested too deep") from None


def _sum_of_products(text, names, twice):
    """The polynomial of a plain sum of products, in which names may have any signs, or None where it is none."""
    bits = {**names.factor_bits(), "1": 0}
    found, repeated = set(), None
    for term in text.split("+"):
        mask = 0
        for factor in term.split("*"):
            bit = bits.get(factor.strip())
            if bit is None:
                return None
            mask |= bit
        if mask in found:
            repeated = term
        found ^= {mask}
    if repeated is not None and not twice:
        raise QueryError(f"the term {repeated.strip()[:60]!r} stands twice")
    return found


class _Parser:
    """Reads a text from its front."""

    def __init__(self, text, names):
        self.text = text
        self.names = names
        self.place = 0
        self.name = self.sign = None
        self.step()

    def step(self):
        """Goes to the next name or sign."""
        found = self.names.pattern.match(self.text, self.place)
        self.name = self.sign = None
        if found:
            self.name, self.place = found[1], found.end()
            return
        found = _TOKEN.match(self.text, self.place)
        if found:
            self.sign, self.place = found[1], found.end()

    def fail(self, why):
        raise QueryError(f"{why}, before {self.text[self.place:][:20]!r}" if self.place < len(self.text) else why)

    def whole(self):
        found = self.any_of()
        if self.name or self.sign:
            self.unexpected()
        return set(found)

    def unexpected(self):
        told = self.name or self.sign
        if told is None:
            self.fail("it ends where a name, a number or a bracket is wanted")
        word = re.match(r"[A-Za-z_][\w.\[\]<>()']*", self.text[self.place - len(told) :])
        if self.sign and word:
            raise QueryError(f"{word[0]!r} is no input of the file")
        self.fail(f"{told!r} stands where it cannot")

    def any_of(self):
        """An or."""
        found = self.sum()
        while self.sign == "|":
            self.step()
            other = self.sum()
            found = plus(plus(found, other), times(found, other))
        return found

    def sum(self):
        if self.sign in ("+", "-"):
            self.step()
        found, signs = self.product()
        added = set()
        while self.sign in ("+", "-", "^"):
            added.add(self.sign)
            self.step()
            other, more = self.product()
            signs |= more
            found = plus(found, other)
        if "&" in signs and added - {"^"}:
            self.fail("'&' stands beside '+': brackets have to say which comes first")
        return found

    def product(self):
        """A product, and the signs in it."""
        found, signs = self.factor(), set()
        while self.sign in ("*", "&"):
            signs.add(self.sign)
            self.step()
            found = times(found, self.factor())
        return found, signs

    def factor(self):
        if self.sign in ("~", "!"):
            self.step()
            return plus(self.factor(), ONE)
        return self.power(self.primary())

    def power(self, found):
        while self.sign == "**" or self.sign == "^" and re.match(r"\s*[0-9]+(?!'b)", self.text[self.place :]):
            sign = self.sign
            self.step()
            if not re.fullmatch("[0-9]+", self.sign or ""):
                self.fail("a power is wanted behind **")
            power = self.sign.lstrip("0")
            if sign == "^" and (not power or power[-1] in "13579"):
                self.fail(f"^{self.sign} may be a power or a sum: write a power with **, or a sum with +")
            found = found if power else ONE
            self.step()
        return found

    def primary(self):
        if self.name is not None:
            found = self.names.polynomial(self.name)
        elif re.match("[0-9]", self.sign or ""):
            found = ONE if int(self.sign.replace("_R", "")[-1]) % 2 else frozenset()
        elif self.sign == "(":
            self.step()
            found = self.any_of()
            if self.sign != ")":
                self.unexpected()
        else:
            self.unexpected()
        self.step()
        return found


def plus(first, second):
    found = first ^ second
    if len(found) > MOST_TERMS:
        raise QueryError(f"more than {MOST_TERMS} terms")
    return found


def times(first, second):
    if len(first) * len(second) > MOST_STEPS:
        raise QueryError(f"a product of {len(first)} and {len(second)} terms is too long")
    found = set()
    for one in first:
        for other in second:
            mask = one | other
            if mask in found:
                found.remove(mask)
            else:
                found.add(mask)
    if len(found) > MOST_TERMS:
        raise QueryError(f"more than {MOST_TERMS} terms")
    return frozenset(found)
