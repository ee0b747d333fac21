"""Writes an answer of interp or nfq in the language of another program.

usage: answer_as FORMAT FILE.pla [--order NAMES] [--ideal] < ANSWER

FILE.pla is the description that was solved: it has the names. Forms of it that the programs refuse are told, as solve
tells them. ANSWER is what interp, nfq or solve printed of it.

formats:
{formats}

In singular, macaulay2 and sage output K's polynomial is fK and its basis is IK, and the ideal of an answer of nfq union
or meet, which has no output, is I1. In circuits and functions element K of the basis of output NAME is the output
NAME_K. A name that the language does not take, or that stands twice, is made over, and a comment tells it. Where inputs
were complemented, an answer has factors ~NAME, which each format takes.

An answer is looked at before it is written: its names are those of the file, each output stands once, in the order of
the file, none is missing, and terms and their factors stand in the order of the inputs, each once.

options:
  --order NAMES    the order of the inputs that the answer has, if it is not that of the file: the rings have it too
  --outputs NAMES  the answer has these outputs alone, in this order, as solve --outputs prints it
  --queries        the answer is one of nfq reduce, or of ask: outputs stand as often, and in the order, as was asked
  --ideal          the answer is one of nfq union or meet, which may be empty, where 0 alone is 0 at all of the points

examples:
  ./interp anf < examples/full_adder.pla | tools/answer_as verilog examples/full_adder.pla
  ./interp basis < examples/half_adder.pla | tools/answer_as singular examples/half_adder.pla
  ./nfq reduce < examples/relations.pla | tools/answer_as json --queries examples/relations.pla
  ./nfq union < examples/two_ideals.pla | tools/answer_as macaulay2 --ideal examples/two_ideals.pla
  ./interp anf < examples/digits.pla | tools/answer_as dot examples/digits.pla

statuses: 0 the answer was written; 2 the words are not of this form; 3 the description or the answer is refused, and a
line is named; 8 a file cannot be read; 9 a write failed; 12 --order does not name every input once, or --outputs names
what is no output.
"""

import gc
import sys

from .. import answers, solving
from ..formats import FORMATS, FormatError
from . import command, say, words

NAME = "answer_as"


def document():
    """The text of --help."""
    width = max(map(len, FORMATS))
    formats = "\n".join(f"  {name:{width}}  {entry.what}" for name, entry in FORMATS.items())
    return __doc__.format(formats=formats)


def read_words(line):
    parser = words.Parser(NAME)
    parser.add_texts("--order", "--outputs")
    parser.add_argument("--queries", action="store_true")
    parser.add_argument("--ideal", action="store_true")
    options = parser.read(line, document(), ["format", "file"])
    if options is None:
        return None
    if options.format not in FORMATS:
        parser.error(f"the formats are {', '.join(FORMATS)}")
    if (options.outputs is not None) + options.queries + options.ideal > 1:
        parser.error("--outputs, --queries and --ideal exclude each other")
    parser.refuse_standard_input(options, "answer is read")
    return options


def read_answer(description, options):
    """The answer on standard input."""
    inputs = description.shown_input_names
    of_inputs = dict(zip(description.input_names, inputs))
    of_outputs = dict(zip(description.output_names, description.shown_output_names))
    inputs = [inputs[place] for place in words.order(description, options.order) or range(description.inputs)]
    outputs = words.chosen(description, options.outputs).shown_output_names
    text = words.standard_input()
    if options.ideal:
        return answers.parse_ideal(text, inputs, of_inputs, ordered=True)
    return answers.parse(text, inputs, outputs, of_inputs, of_outputs, ordered=True, whole=not options.queries)


@command(NAME)
def main(line):
    # Monomials are tuples without cycles, and there may be a million of them: looking for cycles takes half of the
    # time.
    gc.disable()
    options = read_words(line)
    if options is None:
        return 0
    description = words.description(NAME, options.file)
    try:
        answer = read_answer(description, options)
        sys.stdout.writelines(f"{text}\n" for text in FORMATS[options.format].write(answer))
    except (answers.AnswerError, FormatError, solving.BadOrder) as error:
        say(NAME, str(error))
        return error.status
    return 0
