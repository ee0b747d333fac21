"""The ideals of an output's points, asked of nfq.

`nfq reduce` gives the least polynomial that has a polynomial's values at the care points of an output: its normal form
by their ideal. It is 0 exactly where the polynomial is 0 at each of the points. The points of an output whose value is
0, and those whose value is 1, are the care points of other descriptions, so they are asked in the same way.

Polynomials are sets of whole numbers, as in `queries`. The normal form of a sum is the sum of the normal forms, so a
polynomial that is too long for a run is asked in parts.
"""

from . import answers, programs, remedies, solving
from .polynomials import Monomials, Polynomial
from .descriptions import MOST_BYTES

# The output of these descriptions, which have no names, and the sign between terms.
OUTPUT, PLUS = "f1", " + "
# What to do where nfq has no answer, whose tables have one size.
REMEDIES = {
    solving.TooManyNodes.status: "name another order of the inputs by --order, with those that choose first, or ask for "
    "shorter polynomials",
    solving.TooManyTerms.status: "name another order of the inputs by --order, or ask for shorter polynomials",
    solving.OutOfMemory.status: "ask where more memory is free, or for shorter polynomials",
}
# A query of fewer terms is not cut where it needs too many nodes.
LEAST_CUT = 100


class Ideal:
    """The ideal of the care points of a description's only output, in an order of the inputs."""

    def __init__(self, problem, order):
        self.problem = problem
        self.order = list(order)

    def normal_forms(self, polynomials, seconds=None):
        """The normal forms of polynomials, or an Unsolved of the run that gave none. Where seconds are given, each run
        may take so many."""
        queries = Queries(self, set().union(*polynomials), seconds)
        parts = [part for polynomial in polynomials for part in queries.parts(polynomial)]
        found = []
        for (is_first, _), answer in zip(parts, queries.answers([terms for _, terms in parts])):
            if is_first:
                found.append(answer)
            else:
                found[-1] ^= answer
        return found


class Queries:
    """Runs of nfq on an ideal, with the inputs alone that some row fixes or that are in some monomial."""

    def __init__(self, ideal, masks, seconds=None):
        self.seconds = seconds
        problem, width = ideal.problem, len(ideal.order)
        used = set(remedies.without_unused_inputs(problem).inputs)
        union = 0
        for mask in masks:
            union |= mask
        kept = [place for at, place in enumerate(ideal.order) if place in used or union >> (width - 1 - at) & 1]
        ranks = {place: rank for rank, place in enumerate(kept, 1)}
        found = remedies.Problem(problem.outputs, kept, problem.width, problem.kind, problem.cubes)
        if not found.fits():
            raise solving.Refused(f"{found.rows()} rows over {len(kept)} inputs are too many for the program")
        self.text = found.text(kept)
        self.monomials = Monomials([f"x{ranks.get(place, 0)}" for place in ideal.order])
        bits = {place: 1 << (width - 1 - at) for at, place in enumerate(ideal.order)}
        self.bits = {f"x{rank}": bits[place] for place, rank in ranks.items()}
        self.is_small = None

    def parts(self, polynomial):
        """A polynomial in lists of terms of which each fits a run, and of each whether it is the first one."""
        room = MOST_BYTES // 2 - len(self.text)
        terms = self.monomials.text(sorted(polynomial, reverse=True)).split(PLUS)
        start = size = 0
        for place, term in enumerate(terms):
            size += len(term) + len(PLUS)
            if size > room and place > start:
                yield start == 0, terms[start:place]
                start, size = place, len(term) + len(PLUS)
        yield start == 0, terms[start:]

    def answers(self, parts):
        """The answers to queries, each a list of terms, in runs as large as the program takes."""
        found, batch, size = [], [], len(self.text)
        for terms in parts:
            more = sum(map(len, terms)) + len(PLUS) * len(terms) + len(OUTPUT) + len(" = ")
            if batch and size + more > MOST_BYTES:
                found += self.run(batch)
                batch, size = [], len(self.text)
            batch.append(terms)
            size += more
        return found + self.run(batch) if batch else found

    def run(self, parts):
        """The answers of one run. Where queries need too much together, each half of them has a run of its own, and
        where one needs too many nodes, each half of its terms."""
        data = self.text + "".join(f"{OUTPUT} = {PLUS.join(terms)}\n" for terms in parts).encode()
        run = programs.run("nfq", ["reduce"], data, self.seconds)
        if run.status == 0:
            return self.read(run.output.decode("utf-8", "replace"), len(parts))
        half = len(parts) // 2
        if half and run.status in (solving.TooManyNodes.status, solving.TooManyTerms.status):
            return self.run(parts[:half]) + self.run(parts[half:])
        if run.status == solving.TooManyNodes.status and self.may_be_cut(parts[0]):
            half = len(parts[0]) // 2
            return [self.run([parts[0][:half]])[0] ^ self.run([parts[0][half:]])[0]]
        raise solving.failure(run, remedies_by_status=REMEDIES)

    def may_be_cut(self, terms):
        """Whether a query has many terms, and not the description alone needs too many nodes."""
        if len(terms) < LEAST_CUT:
            return False
        if self.is_small is None:
            self.is_small = programs.run("nfq", ["reduce"], self.text + f"{OUTPUT} = 0\n".encode()).status == 0
        return self.is_small

    def read(self, text, count):
        """The monomials of so many answers."""
        found = []
        try:
            for number, left, right in answers.lines_of(text):
                if left != OUTPUT:
                    raise answers.AnswerError(number, f"{left[:60]!r} stands on the left")
                found.append(set(answers.masks_of(right, self.bits)))
        except answers.AnswerError as error:
            raise solving.Failed(f"nfq printed what is no answer to a query: {error}") from None
        if len(found) != count:
            raise solving.Failed(f"nfq printed {len(found)} answers to {count} queries")
        return found


def care_points(description, output, order):
    """The ideal of the care points of an output."""
    return Ideal(problem_of(description, output), order)


def points_of_value(description, output, order, value):
    """The ideal of the care points whose value is 0 or 1, by a description whose care points they are.

    Of type fd all points are care points that no row with - has. The zeros of the types f and fd are the points that no
    row has which says something, so each such row gets a -. Of type fdr the care points are those of the rows with 0 or
    1 that no row with - has. So the ones of each type, and the zeros of the types fr and fdr, are rows of one kind and
    those with -.
    """
    found = problem_of(description, output)
    on, off, free = map(found.set_of, ("on", "off", "free"))
    if value == 0 and found.kind in ("f", "fd"):
        kind, cubes = "fd", {"-": on + free}
    else:
        kind, cubes = "fdr", {"1": on if value else off, "-": free}
    return Ideal(remedies.Problem(found.outputs, found.inputs, found.width, kind, cubes), order)


def without(ideal, cube):
    """The ideal of the points that are not in a cube, of an ideal of `points_of_value`."""
    found = ideal.problem
    cubes = {**found.cubes, "-": [*found.cubes["-"], cube]}
    return Ideal(found.with_cubes(cubes), ideal.order)


def point_where_one(ideal, polynomial):
    """A point of an ideal of `points_of_value` at which a polynomial is 1, as a whole number with the first input of
    the file the greatest bit, or None. Input by input those points are left out that have it 1, as long as one is
    left."""
    if not ideal.normal_forms([polynomial])[0]:
        return None
    point, width = 0, ideal.problem.width
    for place in range(width):
        bit = 1 << (width - 1 - place)
        rest = without(ideal, (bit, bit))
        if not rest.normal_forms([polynomial])[0]:
            point |= bit
            rest = without(ideal, (bit, 0))
        ideal = rest
    return point


def problem_of(description, output):
    """What a description says of an output, in fewer rows."""
    return remedies.with_fewer_rows(remedies.problem(description, [output]))


def joint_basis(description, mode, order):
    """The reduced basis of the ideals of a description's two outputs, as a list of Polynomials: of their
    intersection in mode union, and of their sum in mode meet. No element has an input that no row fixes."""
    found = remedies.without_unused_inputs(remedies.with_fewer_rows(remedies.problem(description, [0, 1])))
    kept = [place for place in order if place in set(found.inputs)]
    if not found.fits():
        raise solving.Refused(f"{found.rows()} rows over {len(kept)} inputs are too many for the program")
    run = programs.run("nfq", [mode], found.text(kept))
    if run.status:
        raise solving.failure(run, remedies_by_status=REMEDIES)
    names = [f"x{place}" for place in range(1, len(kept) + 1)]
    shown = dict(zip(names, (description.shown_input_names[place] for place in kept)))
    try:
        basis = answers.parse_ideal(run.output.decode("utf-8", "replace"), names).ideal
    except answers.AnswerError as error:
        raise solving.Failed(f"nfq printed what is no basis: {error}") from None
    return [Polynomial(map(shown.__getitem__, monomial) for monomial in element.monomials) for element in basis]
