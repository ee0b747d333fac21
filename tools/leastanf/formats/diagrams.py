"""Polynomials as zero-suppressed decision diagrams with shared nodes, by which formats without sums of many terms write
them.

A node stands for the polynomial `low + factor*high`. The nodes 0 and 1 are these polynomials.
"""

import operator
from functools import reduce

# So many factors, the last ones that occur: sets of monomials in them are kept as the bits of one number while a
# diagram is made.
LEAF_BITS = 5


class Diagram:
    """Nodes that are shared between polynomials over the same factors. A node is a number, greater than those that it
    needs, and each node but 0 and 1 is needed by a polynomial that was added. `nodes` has by its number the factor of
    each and its nodes high and low, where high is not 0."""

    def __init__(self, factors):
        self.factors = tuple(factors)
        self.nodes = [None, None]
        self._by_bit = self.factors[::-1]
        self._numbers = {}
        self._leaves = {}

    def node(self, factor, high, low):
        """The node of a factor that the nodes below do not have, where high is not 0."""
        key = factor, high, low
        number = self._numbers.get(key)
        if number is None:
            number = self._numbers[key] = len(self.nodes)
            self.nodes.append(key)
        return number

    def add(self, polynomial):
        """The node of a polynomial."""
        masks = sorted(polynomial.masks(self.factors))
        if not masks:
            return 0
        occurring = reduce(operator.or_, masks)
        base = max((occurring & -occurring).bit_length() - 1, 0)
        factors = self._by_bit[base + LEAF_BITS :]
        # For each bit of the group at hand, the node of the groups before it that have the same bits above, and not
        # this one.
        lows = [0] * (len(factors) + 1)
        for key, after, members in groups(masks, base, 1 << len(factors)):
            number = self._leaf(members, base, LEAF_BITS)
            split = (key ^ after).bit_length() - 1
            rest = key & (1 << split) - 1
            while rest:
                bit = (rest & -rest).bit_length() - 1
                number = self.node(factors[bit], number, lows[bit])
                lows[bit] = 0
                rest &= rest - 1
            lows[split] = number
        return number

    def _leaf(self, members, base, bits):
        """The node of a set of monomials in so many factors from a bit on, one bit for each monomial."""
        if members < 2:
            return members
        key = members, base, bits
        number = self._leaves.get(key)
        if number is None:
            half = 1 << (bits - 1)
            high = members >> half
            number = self._leaf(members ^ high << half, base, bits - 1)
            if high:
                number = self.node(self._by_bit[base + bits - 1], self._leaf(high, base, bits - 1), number)
            self._leaves[key] = number
        return number


def groups(masks, base, end):
    """Monomials in ascending order in groups, by their bits before those of a leaf: of each group these bits, those of
    the next one, or the end, and the set of its last bits."""
    shift, last = base + LEAF_BITS, (1 << LEAF_BITS) - 1
    singles = [1 << bits for bits in range(1 << LEAF_BITS)]
    key, members = masks[0] >> shift, 0
    for mask in masks:
        after = mask >> shift
        if after != key:
            yield key, after, members
            key, members = after, 0
        members |= singles[mask >> base & last]
    yield key, end, members
