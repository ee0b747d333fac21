r"""Judges an answer, whoever made it: is each polynomial the least one, and each list of elements the reduced basis?

usage: judge FILE.pla [--basis] [--order NAMES] [--polarity NAMES|all] < ANSWER

An answer has a line NAME = POLYNOMIAL for each output, in any order, and behind it, where its basis is judged too, its
elements, each as 0 = POLYNOMIAL. What is judged are the polynomials, and the elements as a set: polynomials are taken
in any form that `ask --help` has, and elements in any order. The scripts that answer_as writes for Singular and
Macaulay2 are taken, and what these programs print: lines as G[3]=.., lists as ideal(..) and {..}, which toString of
Macaulay2 makes, polynomials with commas between them, and the names of inputs there. Elements as x^2 + x, which are 0
in a Boolean ring, are left out. Forms of the file that the programs refuse are told, as solve tells them.

A polynomial is judged at any size, by nfq, or where its table is too small by interp, whose table may be larger. A
basis is judged by interp: in mode check where the file has at most 14 inputs, and else by the reduced basis that it
finds. A polynomial is right where it takes every given value and is the least one that does; mode check alone cannot
judge it where points are free.

options:
  --basis            an output without elements has the empty basis; without this word its basis is judged only where
                     the answer has elements of some output
  --order NAMES      the order of the inputs, the greatest first, if it is not that of the file
  --polarity NAMES   the answer is the least one over the inputs with these complemented, as solve --polarity prints it

examples:
  ./interp anf < examples/seven_segments.pla | tools/judge examples/seven_segments.pla
  ./interp basis < examples/half_adder.pla | tools/judge --basis examples/half_adder.pla
  printf 'graph = 1\n0 = sum + a + b\n0 = a*b + carry\n' | tools/judge examples/half_adder.pla

It prints a line for each output, `NAME: yes` or `NAME: no, ..`, with the reason. Statuses: 0 all of it is right; 1
something is wrong; 2 the words are not of this form; 3 the description or the answer is refused; 4 rows contradict each
other; 8 a file cannot be read; 9 a write failed; 12 an option does not name inputs; 15 it is not known of some output,
and nothing was found wrong; 69 a program is missing.
"""

from .. import judging, queries, solving, transcripts
from . import command, say, words
from .verdicts import print_verdicts

NAME = "judge"


def read_words(line):
    parser = words.Parser(NAME)
    parser.add_argument("--basis", action="store_true")
    parser.add_texts("--order", "--polarity")
    options = parser.read(line, __doc__, ["file"])
    if options is not None:
        parser.refuse_standard_input(options, "answer is read")
    return options


def judged_outputs(judge, claims, with_bases):
    """The verdict on each output, with the line of the answer where it is wrong."""
    for output, (name, claim) in enumerate(claims):
        if with_bases:
            verdict = judge.basis(output, claim.polynomial, claim.elements)
        else:
            verdict = judge.polynomial(output, claim.polynomial)
        yield name, verdict, claim.line if verdict.element is None else claim.element_lines[verdict.element]


def read_claims(description, options, names):
    """What the answer on standard input says of each output, and whether bases are judged."""
    text = words.standard_input()
    claims = transcripts.parse(text, description, names)
    end = len(text.splitlines()) + 1
    with_bases = options.basis or any(
        claim.elements or claim.has_list and claim.polynomial is None for claim in claims
    )
    for name, claim in zip(description.shown_output_names, claims):
        if claim.polynomial is None and not claim.has_list:
            raise transcripts.TranscriptError(end, f"it ends, and has nothing of output {name}")
        if claim.polynomial is None and not with_bases:
            raise transcripts.TranscriptError(end, f"it ends, and has no polynomial of output {name}")
    return claims, with_bases


@command(NAME)
def main(line):
    options = read_words(line)
    if options is None:
        return 0
    description = words.description(NAME, options.file)
    try:
        order, flips = words.order(description, options.order), words.flips(description, options.polarity)
        claims, with_bases = read_claims(description, options, queries.Names(description, order, flips))
        solving.refuse_contradictions(description)
        judge = judging.Judge(description, order, flips)
        named = list(zip(description.shown_output_names, claims))
        return print_verdicts(judged_outputs(judge, named, with_bases))
    except (transcripts.TranscriptError, solving.Unsolved) as error:
        say(NAME, str(error))
        return error.status
