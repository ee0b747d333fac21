"""Says whether polynomials of any origin take every given value.

usage: agrees FILE.pla [OPTIONS] < POLYNOMIALS
       agrees FILE.pla --relations DEGREE [OPTIONS]

POLYNOMIALS has a line NAME = POLYNOMIAL for some outputs, in any form that `ask --help` has. A polynomial agrees where
it is 0 at each point whose value is 0, and 1 at each whose value is 1; it need not be the least one that does. This is
asked of nfq, at any number of inputs: a polynomial is 0 at points exactly where its normal form by their ideal is 0.
Where one does not agree, a point is told at which it has the other value. Forms of the file that the programs refuse
are told, as solve tells them.

With --relations no polynomials are read: for each output the polynomials of at most so high a degree that are 0 at each
of its care points are printed, a basis of them as a vector space in reduced echelon form, by ascending degree and
order. They come from the normal forms of all monomials of these degrees by elimination, and each is asked of nfq again
before it is printed.

options:
  --relations DEGREE   the relations of at most this degree, of at most 100,000 monomials
  --seconds S          the time that the search for the relations of an output may take: 300 s without it
  --outputs NAMES      these outputs alone
  --order NAMES        the order of the inputs, the greatest first, in which relations are written

examples:
  echo 's = a ^ b ^ cin' | tools/agrees examples/full_adder.pla
  echo 'prime = d2' | tools/agrees examples/digits.pla
  tools/agrees examples/half_adder.pla --relations 2

It prints a line for each polynomial, `NAME: yes` or `NAME: no, ..`, with the reason. Statuses: 0 all agree; 1 one does
not; 2 the words are not of this form; 3 the description or a polynomial is refused; 4 rows contradict each other; 5 to
7 nfq has no answer for relations, or there are too many monomials; 8 a file cannot be read; 9 a write failed; 12 an
option does not name inputs or outputs; 14 the time for relations was up; 15 it is not known of some polynomial, and the
others agree; 69 nfq is missing; 70 nfq failed at relations.
"""

from .. import judging, queries, relations, solving, transcripts
from . import command, say, words
from .progress import Progress
from .verdicts import print_verdicts

NAME = "agrees"


def read_words(line):
    parser = words.Parser(NAME)
    parser.add_number("--relations", 0, 99)
    parser.add_number("--seconds", *solving.LIMITS["seconds"])
    parser.add_texts("--order", "--outputs")
    options = parser.read(line, __doc__, ["file"])
    if options is not None and options.relations is None:
        parser.refuse_standard_input(options, "polynomials are read")
        if options.seconds is not None:
            parser.error("--seconds goes with --relations")
    return options


def refuse_elements(claims):
    """Refuses claims that have elements, or no polynomial."""
    lines = [line for claim in claims for line in claim.element_lines]
    if lines:
        raise transcripts.TranscriptError(min(lines), "a line NAME = POLYNOMIAL is wanted")
    if all(claim.polynomial is None for claim in claims):
        raise transcripts.TranscriptError(None, "no polynomial is given")


def agreeing(judge, description, claims):
    """The verdict on each polynomial, with the name of its output."""
    for output, (name, claim) in enumerate(zip(description.shown_output_names, claims)):
        if claim.polynomial is not None:
            try:
                verdict = judge.agrees(output, claim.polynomial)
            except solving.Unsolved as error:
                verdict = judging.Verdict(None, str(error))
            yield name, verdict, None


def print_relations(description, order, options):
    """Prints the relations of all outputs, when all are found."""
    progress = Progress(NAME, options.file)
    limits = options.relations, order, options.seconds, progress
    try:
        found = [relations.relations(description, output, *limits) for output in range(description.outputs)]
    finally:
        progress.end()
    for name, part in zip(description.shown_output_names, found):
        if description.outputs > 1:
            print(f"# {name}")
        if not part:
            say(NAME, f"output {name} has no relation of at most degree {options.relations}")
        for relation in part:
            print(f"0 = {relation}")


@command(NAME)
def main(line):
    options = read_words(line)
    if options is None:
        return 0
    description = words.description(NAME, options.file)
    try:
        order = words.order(description, options.order)
        outputs = words.outputs(description, options.outputs)
        part = solving.chosen(description, outputs)
        solving.refuse_contradictions(part)
        if options.relations is not None:
            print_relations(part, order, options)
            return 0
        claims = transcripts.parse(words.standard_input(), description, queries.Names(part, order), outputs)
        refuse_elements(claims)
        return print_verdicts(agreeing(judging.Judge(part, order), part, claims))
    except (transcripts.TranscriptError, solving.Unsolved) as error:
        say(NAME, str(error))
        return error.status
