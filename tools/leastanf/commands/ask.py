r"""Asks nfq on the ideals of an output's care points, in any form.

usage: ask [reduce] FILE.pla [OPTIONS] QUERY..
       ask [reduce] FILE.pla [OPTIONS] - < QUERIES
       ask union|meet FILE.pla [OPTIONS]

A QUERY is NAME = POLYNOMIAL, or the polynomial alone where the file has one output: it asks for the least polynomial
that has the polynomial's values at the care points of output NAME, which is its normal form by their ideal. It is 0
exactly where the polynomial is 0 at each care point, so a relation follows exactly where its normal form is 0.

A polynomial is a sum with + - or ^ of products with * or &, with | for or, ~ or ! for the complement, brackets, powers
as a^2 or a**2, and the constants 0, 1, 1'b0 and 1'b1. Factors and terms stand in any order. What programs read in more
than one way is refused: 0 and odd numbers behind ^, as a^1, and & beside + without brackets. Names are those of the
file; those that answer_as gives them in Singular, Macaulay2 and Sage, and x(3), x_3 and x[3] for the third input, are
taken too, the last ones where no name of the file is x with the number of another place. It is brought into the order
and the form that nfq takes, and where it is too long for a run it is asked in parts. Forms of the file that nfq refuses
are told, as solve tells them.

With union the reduced basis of the intersection of the ideals of two outputs is printed, which is that of the care
points that either has, and with meet that of their sum, which is that of the care points that both have.

options:
  --holds           print for each query whether it is 0 at each care point, as `NAME: yes`; status 1 says that one is
                    not
  --outputs A,B     the two outputs of union and meet, where the file has others
  --order NAMES     the order of the inputs, the greatest first, if it is not that of the file

examples:
  tools/ask examples/half_adder.pla 'sum*carry' '(sum + carry)^2' '~a & sum'
  tools/ask examples/half_adder.pla --holds 'sum + a + b'
  printf 'a = d8*d4\nb = (d1 + 1)*d8\n' | tools/ask examples/seven_segments.pla -
  tools/ask union examples/two_ideals.pla

Statuses: 0 all was answered; 1 with --holds a relation does not follow; 2 the words are not of this form; 3 the
description or a query is refused; 4 rows contradict each other; 5 nfq needs more nodes than its table has; 6 there are
more than 1000000 terms; 7 nfq is out of memory; 8 a file cannot be read; 9 a write failed; 12 an option does not name
inputs or outputs; 69 nfq is missing; 70 nfq failed.
"""

from .. import ideals, queries, solving
from ..polynomials import Monomials
from . import command, say, words

NAME = "ask"
MODES = ("reduce", "union", "meet")
NOT_ZERO = 1


class Query:
    """A query: its output's place and its polynomial."""

    def __init__(self, output, polynomial):
        self.output, self.polynomial = output, polynomial


def read_words(line):
    parser = words.Parser(NAME)
    parser.add_argument("--holds", action="store_true")
    parser.add_texts("--order", "--outputs")
    options = parser.read(line, __doc__)
    if options is None:
        return None
    options.mode = options.words.pop(0) if options.words and options.words[0] in MODES else "reduce"
    given = options.words + options.behind
    if not given:
        parser.error("no file is named")
    options.file, *options.queries = given
    if options.mode == "reduce" and not options.queries:
        parser.error("no query is given; - reads them from standard input")
    if options.mode != "reduce" and options.queries:
        parser.error(f"{options.mode} takes no queries")
    if options.mode == "reduce" and options.outputs is not None:
        parser.error("--outputs goes with union and meet")
    if options.mode != "reduce" and options.holds:
        parser.error("--holds goes with queries")
    if [options.file, *options.queries].count("-") > 1:
        parser.error("standard input can be read once")
    return options


def given_queries(given):
    """The texts of the queries, each with how a message calls it."""
    for number, word in enumerate(given, 1):
        if word == "-":
            lines = words.standard_input().splitlines()
            yield from ((f"query line {line}", text) for line, text in enumerate(lines, 1) if text.strip())
        else:
            yield f"query {number}", word


def read_query(text, description, names):
    """The query of a text, or a QueryError."""
    left, equals, right = text.partition("=")
    if not equals and description.outputs > 1:
        raise queries.QueryError(f"the file has {description.outputs} outputs: write NAME = POLYNOMIAL")
    if not equals:
        return Query(0, queries.parse(left, names))
    for given in (description.shown_output_names, description.output_names):
        if left.strip() in given:
            return Query(given.index(left.strip()), queries.parse(right, names))
    raise queries.QueryError(f"{left.strip()!r} is no output of the file")


def normal_forms(description, order, asked):
    """The normal forms of queries, in their order."""
    found = [None] * len(asked)
    for output in {query.output for query in asked}:
        places = [place for place, query in enumerate(asked) if query.output == output]
        ideal = ideals.care_points(description, output, order)
        for place, form in zip(places, ideal.normal_forms([asked[place].polynomial for place in places])):
            found[place] = form
    return found


def answer_queries(description, order, options):
    """Prints the answers to queries, and gives the status."""
    names = queries.Names(description, order)
    asked = []
    for called, text in given_queries(options.queries):
        try:
            asked.append(read_query(text, description, names))
        except queries.QueryError as error:
            say(NAME, f"{called}: {error}")
            return error.status
    if not asked:
        say(NAME, "no query is given")
        return queries.QueryError.status
    solving.refuse_contradictions(description)
    forms = normal_forms(description, order, asked)
    write = Monomials([description.shown_input_names[place] for place in order])
    for query, form in zip(asked, forms):
        name = description.shown_output_names[query.output]
        print(f"{name}: {'no' if form else 'yes'}" if options.holds else f"{name} = {write.polynomial(form)}")
    return NOT_ZERO if options.holds and any(forms) else 0


def print_basis(description, order, options):
    """Prints the basis of mode union or meet."""
    description = words.chosen(description, options.outputs)
    if description.outputs != 2:
        raise solving.BadOrder(
            f"{options.mode} is of two outputs, and there are {description.outputs}",
            f"choose two by --outputs; they are {','.join(description.shown_output_names)}",
        )
    solving.refuse_contradictions(description)
    basis = ideals.joint_basis(description, options.mode, order)
    for element in basis:
        print(f"0 = {element}")
    if not basis:
        say(NAME, "the basis has no element: 0 alone is 0 at all of the points")


@command(NAME)
def main(line):
    options = read_words(line)
    if options is None:
        return 0
    description = words.description(NAME, options.file)
    try:
        order = words.order(description, options.order) or list(range(description.inputs))
        if options.mode == "reduce":
            return answer_queries(description, order, options)
        print_basis(description, order, options)
    except solving.Unsolved as error:
        say(NAME, str(error))
        return error.status
    return 0
