"""How many nodes and terms a run needs, on a description or a circuit, by sets of diagrams and the lists of families
that each operation asks for.

It is written from the documents, for small files, and shares nothing with the program. A diagram is a number: 0 is
the empty family, 1 the family whose one member is 0, and each other one names a node of a variable and two diagrams.
"""

import collections
import functools

from tests.harness import Ended

# The least table of a program has 2 to this power of slots, and it prints so many terms at most.
LEAST_BITS = 4
MOST_TERMS = 1_000_000

# One output's care points of value 0 and of value 1.
Care = collections.namedtuple("Care", "zeros ones")


class Diagrams:
    """Diagrams over so many variables, where equal families have equal numbers."""

    def __init__(self, inputs):
        self.inputs = inputs
        self.nodes = [None, None]
        self.numbers = {}
        self.union = self.pointwise(lambda a, b: a or b)
        self.inter = self.pointwise(lambda a, b: a and b)
        self.minus = self.pointwise(lambda a, b: a and not b)
        self.sum = self.pointwise(lambda a, b: a != b)

    def node(self, var, low, high):
        if high == 0:
            return low
        key = (var, low, high)
        if key not in self.numbers:
            self.numbers[key] = len(self.nodes)
            self.nodes.append(key)
        return self.numbers[key]

    def var(self, a):
        """The first variable of a diagram; behind all variables for the two constants."""
        return self.nodes[a][0] if a > 1 else self.inputs + 1

    def parts(self, a, var):
        return self.nodes[a][1:] if self.var(a) == var else (a, 0)

    def pointwise(self, test):
        """The operation on two families that takes each number by whether it is in the one and in the other."""

        @functools.cache
        def operation(a, b):
            if a < 2 and b < 2:
                return int(test(a == 1, b == 1))
            var = min(self.var(a), self.var(b))
            (a_low, a_high), (b_low, b_high) = self.parts(a, var), self.parts(b, var)
            return self.node(var, operation(a_low, b_low), operation(a_high, b_high))

        return operation

    def cube(self, symbols):
        """The points that agree with a row's symbols."""
        found = 1
        for var in range(self.inputs, 0, -1):
            symbol = symbols[var - 1]
            found = self.node(var, 0 if symbol == "1" else found, 0 if symbol == "0" else found)
        return found

    def one(self, monomial):
        """The family of one monomial, which is a set of variables."""
        found = 1
        for var in sorted(monomial, reverse=True):
            found = self.node(var, 0, found)
        return found

    def above(self, monomial, points):
        """The points that have all variables of the monomial."""
        if points == 0 or not monomial:
            return points
        var = self.var(points)
        if var > min(monomial):
            return 0
        low, high = self.parts(points, var)
        if var == min(monomial):
            return self.node(var, 0, self.above(monomial - {var}, high))
        return self.node(var, self.above(monomial, low), self.above(monomial, high))

    def members(self, a):
        """The members, each as a set of variables, from the least up."""
        if a < 2:
            return [frozenset()] * a
        var, low, high = self.nodes[a]
        return self.members(low) + [member | {var} for member in self.members(high)]

    def count_nodes(self, families):
        """The number of different nodes of some diagrams."""
        met, left = set(), [a for a in families if a > 1]
        while left:
            a = left.pop()
            if a not in met:
                met.add(a)
                left += [part for part in self.nodes[a][1:] if part > 1]
        return len(met)


class Needs:
    """What operations give, and the families that they ask for, which gather in `asked`."""

    def __init__(self, inputs):
        self.diagrams = Diagrams(inputs)
        self.asked = set()
        self.kept = {}

    def ask(self, *families):
        self.asked.update(families)

    def once(self, key, find):
        """What a call gives, which asks for the same families each time."""
        if key not in self.kept:
            self.kept[key] = find()
        return self.kept[key]

    def cover(self, cubes):
        found = 0
        for cube in cubes:
            found = self.diagrams.union(found, cube)
            self.ask(cube, found)
        return found

    def care_sets(self, kind, rows, output):
        """The care points of an output, by the symbols of the rows: what they say of it is the symbol at its place."""
        d = self.diagrams
        symbols = {"on": "14", "off": "0", "dc": "-2"}
        cubes = {name: [d.cube(ins) for ins, outs in rows if outs[output] in said] for name, said in symbols.items()}
        on = self.cover(cubes["on"])
        off = self.cover(cubes["off"]) if kind in ("fr", "fdr") else 0
        dc = self.cover(cubes["dc"]) if kind in ("fd", "fdr") else 0
        ones = d.minus(on, dc)
        zeros = d.minus(off, dc)
        self.ask(ones, zeros)
        if kind in ("f", "fd"):
            every, listed = d.cube("-" * d.inputs), d.union(on, dc)
            zeros = d.minus(every, listed)
            self.ask(every, listed, zeros)
        return Care(zeros, ones)

    def ones(self, h, points):
        """The points where the polynomial h is 1."""
        if h == 0 or points == 0:
            return 0
        if h == 1:
            self.ask(points)
            return points
        return self.once(("ones", h, points), lambda: self.ones_by_halves(h, points))

    def ones_by_halves(self, h, points):
        d = self.diagrams
        var = min(d.var(h), d.var(points))
        (h_low, h_high), (low, high) = d.parts(h, var), d.parts(points, var)
        both = d.sum(h_low, h_high)
        if high and h_high:
            self.ask(both)
        found = d.node(var, self.ones(h_low, low), self.ones(both, high))
        self.ask(found)
        return found

    def least(self, zeros, ones):
        """The least polynomial that is 0 on zeros and 1 on ones."""
        if ones == 0 or zeros == 0:
            return int(ones != 0)
        return self.once(("least", zeros, ones), lambda: self.least_by_halves(zeros, ones))

    def least_by_halves(self, zeros, ones):
        d = self.diagrams
        var = min(d.var(zeros), d.var(ones))
        (z_low, z_high), (o_low, o_high) = d.parts(zeros, var), d.parts(ones, var)
        same = [d.inter(z_low, z_high), d.inter(o_low, o_high)]
        other = [d.inter(z_low, o_high), d.inter(o_low, z_high)]
        both = [d.union(*same), d.union(*other)]
        h = self.least(*both)
        flips = [self.ones(h, z_high), self.ones(h, o_high)]
        rest = [d.minus(z_high, flips[0]), d.minus(o_high, flips[1])]
        joined = [d.union(z_low, flips[1]), d.union(o_low, flips[0])]
        below = [d.union(joined[0], rest[0]), d.union(joined[1], rest[1])]
        g = self.least(*below)
        found = d.sum(g, d.node(var, 0, h))
        self.ask(*same, *other, *both, h, *flips, *rest, *joined, *below, g, found)
        return found

    def product(self, p, q):
        """The product of two polynomials."""
        if p < 2 or q < 2:
            found = (q if p else 0) if p < 2 else (p if q else 0)
            self.ask(found)
            return found
        return self.once(("product", p, q), lambda: self.product_by_halves(p, q))

    def product_by_halves(self, p, q):
        d = self.diagrams
        var = min(d.var(p), d.var(q))
        (p_low, p_high), (q_low, q_high) = d.parts(p, var), d.parts(q, var)
        sums = [d.sum(p_low, p_high), d.sum(q_low, q_high)]
        low = self.product(p_low, q_low)
        found = d.node(var, low, d.sum(low, self.product(*sums)))
        self.ask(*sums, found)
        return found

    def standard(self, points):
        """The standard monomials of points."""
        if points < 2:
            return points
        return self.once(("standard", points), lambda: self.standard_by_halves(points))

    def standard_by_halves(self, points):
        d = self.diagrams
        var = d.var(points)
        low, high = d.parts(points, var)
        either, both = d.union(low, high), d.inter(low, high)
        found = d.node(var, self.standard(either), self.standard(both))
        self.ask(either, both, found)
        return found

    def leads(self, monomials, var=1):
        """The least monomials, over the variables from this one on, that are not among these."""
        if monomials == 0:
            return 1
        if var > self.diagrams.inputs:
            return 0
        return self.once(("leads", monomials, var), lambda: self.leads_by_halves(monomials, var))

    def leads_by_halves(self, monomials, var):
        d = self.diagrams
        low, high = d.parts(monomials, var)
        below, above = self.leads(low, var + 1), self.leads(high, var + 1)
        kept = d.inter(above, low)
        found = d.node(var, below, kept)
        self.ask(kept, found)
        return found

    def element(self, lead, points):
        """The element of the reduced basis with this lead."""
        d = self.diagrams
        ones = d.above(lead, points)
        zeros = d.minus(points, ones)
        normal_form = self.least(zeros, ones)
        single = d.one(lead)
        found = d.sum(single, normal_form)
        self.ask(ones, zeros, normal_form, single, found)
        return found

    def nodes(self):
        return self.diagrams.count_nodes(self.asked)


# The nodes that the first phase needs and those that the whole run does, and the two counts of terms.
Cost = collections.namedtuple("Cost", "first last leads terms")


def due(cost, bits, limit, whole, name="interp"):
    """How a run that needs this much ends, with 2^bits slots and this limit of terms; without limits as `whole`."""
    full = Ended(5, "", f"{name}: more than {2**bits} nodes are needed\n")
    long = Ended(6, "", f"{name}: more than {limit} terms\n")
    if cost.first > 2**bits:
        return full
    if cost.leads > limit:
        return long
    if cost.last > 2**bits:
        return full
    return long if cost.terms > limit else whole


def bits_for(nodes):
    """The least table that has so many slots, by its logarithm."""
    return max(LEAST_BITS, (nodes - 1).bit_length())


def cost_of(inputs, outputs, kind, rows, mode):
    """What a run on a description costs. Each row has the symbols of its inputs and those of its outputs."""
    needs = Needs(inputs)
    d = needs.diagrams
    care = [needs.care_sets(kind, rows, output) for output in range(outputs)]
    polynomials = [needs.least(zeros, ones) for zeros, ones in care]
    terms = sum(len(d.members(p)) for p in polynomials)
    needs.ask(*polynomials)
    found = []
    if mode == "basis":
        for zeros, ones in care:
            points = d.union(zeros, ones)
            standard = needs.standard(points)
            leads = needs.leads(standard)
            needs.ask(points, standard, leads)
            found += [(lead, points) for lead in d.members(leads)]
    first = needs.nodes()
    elements = [needs.element(lead, points) for lead, points in found]
    needs.ask(*elements)
    return Cost(first, needs.nodes(), terms + len(found), terms + sum(len(d.members(e)) for e in elements))


def steps_of(circuit):
    """How each gate of a circuit is found that an output or a step behind it needs: by its number, the literals of a
    product, of a sum, or of a choice."""
    size = len(circuit.names)

    def inner(literal):
        place = literal // 2 - 1 - size
        return circuit.gates[place] if literal % 2 and place >= 0 else None

    def step(gate):
        u, w = inner(gate.left), inner(gate.right)
        if u and w:
            for select, other in (u, u[::-1]):
                for without, last in (w, w[::-1]):
                    if select == without ^ 1:
                        one, zero = other ^ 1, last ^ 1
                        return ("sum", select, zero) if one == zero ^ 1 else ("choice", select, one, zero)
        return ("product", *gate)

    needed = {literal // 2 for _, literal in circuit.outputs}
    found = {}
    for place in reversed(range(len(circuit.gates))):
        number = size + 1 + place
        if number in needed:
            found[number] = step(circuit.gates[place])
            needed.update(literal // 2 for literal in found[number][1:])
    return dict(sorted(found.items()))


def output_polynomials(needs, circuit):
    """The polynomials of the outputs of a circuit."""
    d = needs.diagrams
    found = {0: 0, **{number: d.one({number}) for number in range(1, len(circuit.names) + 1)}}
    needs.ask(*found.values())

    def of(literal):
        known = found[literal // 2]
        return d.sum(known, 1) if literal % 2 else known

    for number, (kind, *literals) in steps_of(circuit).items():
        parts = [of(literal) for literal in literals]
        needs.ask(*parts)
        if kind == "product":
            found[number] = needs.product(*parts)
        elif kind == "sum":
            found[number] = d.sum(*parts)
        else:
            select, one, zero = parts
            differ = d.sum(one, zero)
            chosen = needs.product(select, differ)
            found[number] = d.sum(zero, chosen)
            needs.ask(differ)
        needs.ask(found[number])
    polynomials = [of(literal) for _, literal in circuit.outputs]
    needs.ask(*polynomials)
    return polynomials


def cost_of_circuit(circuit, care=None, is_basis=False):
    """What a run on a circuit costs, with the position of a care output."""
    needs = Needs(len(circuit.names))
    d = needs.diagrams
    polynomials = output_polynomials(needs, circuit)
    points = d.cube("-" * d.inputs)
    if care is not None:
        needs.ask(points)
        points = needs.ones(polynomials.pop(care), points)
        needs.ask(points)
        for place, polynomial in enumerate(polynomials):
            ones = needs.ones(polynomial, points)
            zeros = d.minus(points, ones)
            polynomials[place] = needs.least(zeros, ones)
            needs.ask(ones, zeros, polynomials[place])
    terms = sum(len(d.members(p)) for p in polynomials)
    if not is_basis:
        return Cost(needs.nodes(), needs.nodes(), terms, terms)
    standard = needs.standard(points)
    leads = needs.leads(standard)
    needs.ask(points, standard, leads)
    first = needs.nodes()
    elements = [needs.element(lead, points) for lead in d.members(leads)]
    needs.ask(*elements)
    return Cost(first, needs.nodes(), terms + len(elements), terms + sum(len(d.members(e)) for e in elements))


# What is asked of a circuit here; its gates are two literals each.
Gates = collections.namedtuple("Gates", "names gates outputs")
Gate = collections.namedtuple("Gate", "left right")


def miter_of(first, second, care):
    """The circuit whose outputs are 1 where those of two circuits over the same inputs differ. The output of the first
    that has the name `care` stays as it is."""
    size, others = len(first.names), len(first.gates)

    def moved(literal):
        return literal + 2 * others if literal // 2 > size else literal

    gates = [*first.gates, *(Gate(moved(gate.left), moved(gate.right)) for gate in second.gates)]
    theirs, outputs = dict(second.outputs), []
    for name, mine in first.outputs:
        other, number = moved(theirs[name]), size + 1 + len(gates)
        gates += [Gate(mine, other), Gate(mine ^ 1, other ^ 1), Gate(2 * number + 1, 2 * number + 3)]
        outputs.append((name, mine if name == care else 2 * number + 4))
    return Gates(first.names, gates, outputs)


def nodes_of_pair(first, second, care=None):
    """The nodes that a run needs which compares two circuits over the same inputs, where the output `care` is 1."""
    miter = miter_of(first, second, care)
    needs = Needs(len(miter.names))
    polynomials = output_polynomials(needs, miter)
    points = needs.diagrams.cube("-" * len(miter.names))
    needs.ask(points)
    if care is not None:
        points = needs.ones(polynomials.pop([name for name, _ in miter.outputs].index(care)), points)
        needs.ask(points)
    for polynomial in polynomials:
        needs.ask(needs.ones(polynomial, points))
    return needs.nodes()
