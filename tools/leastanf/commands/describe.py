r"""Writes a description of a table, a list of points, an exclusive-or cover or a table of yosys, as a PLA file.

usage: describe FORM FILE [OPTIONS]      a FILE of - is standard input

forms:
  numbers   the values at the points 0, 1, 2 and so on: whole numbers as 99, 0x63 or 0b1100011, with blanks, commas or
            brackets between them and comments as in C; x, - and ? are free
  graph     the same numbers; the description has the pairs of a value and its argument, the bits of the value first, so
            that its reduced basis has the equations between both
  hex       a truth table in hexadecimal digits on one line, the last digit for the first points
  points    a point on each line, as 01-1, and behind it 0 or 1, or nothing for 1; all other points are free
  esop      a PLA file of type esop, whose rows are summed modulo 2
  yosys     what `eval -table` prints of a circuit; a value of x is free

The first input is the highest bit of a point's number, and the first output that of a value.

options:
  --bits B         numbers, graph: the number of outputs, if it is not that of the greatest value
  --first-lowest   hex: the first input is the lowest bit, as ABC has it
  --inputs NAMES, --outputs NAMES      names, with commas between them

examples:
  echo '3 1 2 0' | tools/describe numbers -
  echo 0x6996 | tools/describe hex - --inputs a,b,c,d --outputs parity
  printf '0011 1\n0101 0\n' | tools/describe points -

Statuses: 0 the description was written; 2 the words are not of this form; 3 the file is refused; 8 it cannot be read; 9
a write failed.
"""

import sys

from .. import descriptions, tables
from ..descriptions import called
from . import command, say
from .words import Parser, tell_of

NAME = "describe"


def of_numbers(data, options):
    return tables.table(tables.numbers(text_of(data)), options.bits, options.inputs, options.outputs)


def of_graph(data, options):
    outputs = options.outputs or ["graph"]
    if len(outputs) != 1:
        raise tables.TableError("a graph has one output")
    return tables.graph(tables.numbers(text_of(data)), options.bits, options.inputs, outputs[0])


def of_hexadecimal(data, options):
    values = tables.hexadecimal(text_of(data), options.first_lowest)
    return tables.table(values, 1, options.inputs, options.outputs)


def of_points(data, options):
    ones, zeros = [], []
    for number, line in enumerate(text_of(data).splitlines(), 1):
        words = line.partition("#")[0].split()
        if words and (len(words) > 2 or words[1:] not in ([], ["0"], ["1"])):
            raise tables.TableError(f"line {number}: a point and its value are wanted")
        if words:
            (zeros if words[1:] == ["0"] else ones).append(words[0])
    outputs = options.outputs or [None]
    if len(outputs) != 1:
        raise tables.TableError("points have one output")
    return tables.points(ones, zeros, None, options.inputs, outputs[0])


def of_cover(data, options):
    found = tables.exclusive_or(data, called(options.file))
    tell_of(NAME, found)
    return tables.renamed(found, options.inputs, options.outputs)


def of_yosys(data, options):
    return tables.renamed(tables.evaluated(text_of(data)), options.inputs, options.outputs)


FORMS = {
    "numbers": of_numbers,
    "graph": of_graph,
    "hex": of_hexadecimal,
    "points": of_points,
    "esop": of_cover,
    "yosys": of_yosys,
}


# The options that go with some forms.
FORMS_OF = {"bits": ("numbers", "graph"), "first_lowest": ("hex",)}


def text_of(data):
    return data.decode("utf-8", "replace")


def read_words(words):
    parser = Parser(NAME)
    parser.add_number("--bits", 1, descriptions.MOST_OF_ANY)
    parser.add_argument("--first-lowest", action="store_true")
    parser.add_texts("--inputs", "--outputs")
    options = parser.read(words, __doc__, ["form", "file"])
    if options is None:
        return None
    if options.form not in FORMS:
        parser.error(f"the forms are {', '.join(FORMS)}")
    for option, forms in FORMS_OF.items():
        if getattr(options, option) and options.form not in forms:
            parser.error(f"--{option.replace('_', '-')} goes with {' and '.join(forms)}")
    given = options.inputs, options.outputs
    options.inputs, options.outputs = (None if names is None else names.split(",") for names in given)
    return options


@command(NAME)
def main(words):
    options = read_words(words)
    if options is None:
        return 0
    try:
        found = FORMS[options.form](descriptions.read_bytes(options.file), options)
    except tables.TableError as error:
        say(NAME, f"{called(options.file)}: {error}")
        return error.status
    sys.stdout.write(descriptions.text(found))
    return 0
