"""Least polynomials and reduced bases by plain elimination, for few inputs, written from the documents.

A point is a word of 0 and 1, and a monomial a whole number: a bit for each input, the first one the greatest. The
monomials that are no greatest monomial of a polynomial that is 0 at the points are those whose columns of values do not
depend on the columns of smaller monomials.
"""


def column(mask, points):
    """The values of a monomial at points, as the bits of a number."""
    return sum(1 << place for place, point in enumerate(points) if int(point, 2) & mask == mask)


class Points:
    """Points, and the columns of values at them that the standard monomials have."""

    def __init__(self, inputs, points):
        self.inputs = inputs
        self.points = list(points)
        self.rows = {}
        self.standard = []
        self.dependent = {}
        for mask in range(2**inputs):
            rest, used = self.reduced(column(mask, self.points))
            if rest:
                self.rows[rest.bit_length()] = rest, used ^ {mask}
                self.standard.append(mask)
            else:
                self.dependent[mask] = used

    def reduced(self, values):
        """What is left of a column, and the standard monomials whose columns were added to it."""
        used = set()
        for length in sorted(self.rows, reverse=True):
            if values.bit_length() == length:
                row, masks = self.rows[length]
                values, used = values ^ row, used ^ masks
        return values, used

    def least(self, ones):
        """The least polynomial that is 1 at these of the points and 0 at the others, a set of monomials."""
        values = sum(1 << place for place, point in enumerate(self.points) if point in ones)
        rest, used = self.reduced(values)
        assert rest == 0
        return used

    def basis(self):
        """The reduced basis: a set of monomials for each element, by ascending greatest monomial."""
        leads = [
            mask
            for mask in sorted(self.dependent)
            if not any(other != mask and other & mask == other for other in self.dependent)
        ]
        return [self.dependent[mask] | {mask} for mask in leads]


def value(polynomial, point):
    """The value of a set of monomials at a point."""
    return sum(int(point, 2) & mask == mask for mask in polynomial) % 2


def read(printed, names):
    """The monomials of a printed polynomial, in their order."""
    if printed == "0":
        return []
    bits = {name: 1 << (len(names) - 1 - place) for place, name in enumerate(names)}
    return [0 if term == "1" else sum(bits[factor] for factor in term.split("*")) for term in printed.split(" + ")]


def count_terms(printed):
    """How many terms the polynomials of printed lines have together."""
    return sum(0 if line.endswith(" = 0") else line.count(" + ") + 1 for line in printed.splitlines())


def text(polynomial, names):
    """A set of monomials as the programs print it."""
    terms = []
    for mask in sorted(polynomial, reverse=True):
        factors = [name for place, name in enumerate(names) if mask >> (len(names) - 1 - place) & 1]
        terms.append("*".join(factors) or "1")
    return " + ".join(terms) or "0"
