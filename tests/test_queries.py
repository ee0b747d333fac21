"""What nfq answers on examples and on random files, compared with what is found without it.

The normal form of each element of a reduced basis is 0. A random polynomial and its normal form have the same values
at all care points, which are found here by trying each point, and the normal form is its own. On random files with
two outputs the bases of modes union and meet are those that interp finds for one output with all points that are in
either set, and in both. Then most kinds of end are tried, for their status and message: not want of memory, nor a
fault of a stream.
"""

import random

from tests import plain_polynomials
from tests.harness import EXAMPLES, USAGE, Ended, Test, answer, description, program, run
from tests.made_descriptions import random_rows
from tests.plain_descriptions import care_points, names, read, with_end

FILES = (
    "full_adder seven_segments half_adder johnson present "
    "present_graph digits three_points multiplier majority"
).split()
POLYNOMIALS = 8
RANDOM_FILES = 60

# The care points are the graph of x1 = (x2 + 1)*(x3 + 1)*..*(x21 + 1), so the normal form of x1 has 2^20 terms.
GRAPH = ["1" + 20 * "0", *("0" + place * "-" + "1" + (19 - place) * "-" for place in range(20))]
LONG = description(21, 1, "fr", [f"{row} 1" for row in GRAPH]) + "f1 = x1\n"

ONE_POINT = description(2, 1, "fr", ["11 1"])
TWO_POINTS = description(2, 1, "fr", ["11 1", "00 0"])
CONTRADICTION = description(2, 1, "fr", ["1- 1", "-1 0"])
SELECTS = (EXAMPLES / "selects_last.pla").read_text()

# Of most kinds of end: the words, the file, the status and the message.
ENDS = [
    ("", "", 2, USAGE["nfq"]),
    ("anf", "", 2, USAGE["nfq"]),
    ("reduce reduce", "", 2, USAGE["nfq"]),
    ("reduce", "", 3, "nfq: line 0: NoSize\n"),
    ("reduce", f"{TWO_POINTS}f1 = x2 + x1\n", 3, "nfq: query line 1: TermOrder\n"),
    ("reduce", f"{ONE_POINT}\nf2 = x1\n", 3, "nfq: query line 2: UnknownName\n"),
    ("reduce", f"{CONTRADICTION}f1 = x1\n", 4, "nfq: output 1: on line 4, off line 5\n"),
    ("meet", description(2, 1, "fr", ["11 1"], end=None), 3, "nfq: two outputs are needed\n"),
    ("reduce", f"{SELECTS}out = 1\n", 5, "nfq: more than 524288 nodes are needed\n"),
    ("reduce", LONG, 6, "nfq: more than 1000000 terms\n"),
    ("reduce", "#" * 4194305, 10, "nfq: longer than 4194304 bytes\n"),
]


def random_polynomial(draws, inputs):
    """A polynomial of a few random terms, as it is printed."""
    masks = {draws.randrange(2 ** len(inputs)) for _ in range(draws.randint(0, 6))}
    return plain_polynomials.text(masks, inputs)


def reduced(text, queries):
    """The polynomials that nfq prints for queries on a description, each query a name and a polynomial."""
    lines = [f"{name} = {polynomial}\n" for name, polynomial in queries]
    return [line.split(" = ")[1] for line in answer([program("nfq"), "reduce"], with_end(text) + "".join(lines))]


def elements_of(text):
    """The elements of all outputs' reduced bases that interp prints, each with the name of its output."""
    found, output = [], None
    for line in answer([program("interp"), "basis"], text):
        left, polynomial = line.split(" = ")
        if left == "0":
            found.append((output, polynomial))
        else:
            output = left
    return found


def basis_of(inputs, points):
    """The reduced basis that interp finds for one output with these care points."""
    text = description(inputs, 1, "fr", [f"{point} 1" for point in sorted(points)], end=None)
    return answer([program("interp"), "basis"], text)[1:]


class Examples(Test):
    """The answers that stand beside their files, and those that are computed here."""

    def test_stored(self):
        files = [file for mode in ("reduced", "union", "meet") for file in sorted(EXAMPLES.glob(f"*.{mode}"))]
        for file in files:
            mode = {".reduced": "reduce"}.get(file.suffix, file.suffix[1:])
            with self.case(file.name):
                ended = run([program("nfq"), mode], file.with_suffix(".pla").read_text())
                self.assertEqual(ended, Ended(0, file.read_text(), ""))

    def test_elements(self):
        """Each element of the reduced basis vanishes on the care points."""
        for name in FILES:
            with self.case(name):
                text = (EXAMPLES / f"{name}.pla").read_text()
                queries = elements_of(text)
                self.assertEqual(reduced(text, queries), ["0"] * len(queries))

    def test_values(self):
        """A polynomial and its normal form agree at the care points of the output that is named."""
        draws = random.Random(1)
        for name in FILES:
            with self.case(name):
                self.try_values((EXAMPLES / f"{name}.pla").read_text(), draws)

    def try_values(self, text, draws):
        inputs, outputs, kind, rows = read(text)
        ins, outs = names(text, ".ilb", "x", inputs), names(text, ".ob", "f", outputs)
        numbers = [draws.randrange(outputs) for _ in range(POLYNOMIALS)]
        given = [random_polynomial(draws, ins) for _ in numbers]
        found = reduced(text, [(outs[number], polynomial) for number, polynomial in zip(numbers, given)])
        again = reduced(text, [(outs[number], polynomial) for number, polynomial in zip(numbers, found)])
        self.assertEqual(again, found)
        for number, before, after in zip(numbers, given, found, strict=True):
            points = care_points(inputs, kind, rows, number)
            first, second = (plain_polynomials.read(it, ins) for it in (before, after))
            self.assertEqual(
                [plain_polynomials.value(first, point) for point in points],
                [plain_polynomials.value(second, point) for point in points],
                f"{outs[number]} = {before} and {after}",
            )


class TwoSets(Test):
    """The bases of two outputs' points, on random files."""

    def test_bases(self):
        draws = random.Random(1)
        for number in range(RANDOM_FILES):
            inputs, kind = draws.randint(1, 7), draws.choice(["f", "fd", "fr", "fdr"])
            rows = random_rows(draws, inputs, 2, 9)
            text = description(inputs, 2, kind, rows, end=None)
            if run([program("nfq"), "union"], text).status == 4:
                continue
            first, second = (set(care_points(inputs, kind, rows, output)) for output in (0, 1))
            for mode, points in (("union", first | second), ("meet", first & second)):
                with self.case(f"file {number}, {mode}: {text!r}"):
                    self.assertEqual(answer([program("nfq"), mode], text), basis_of(inputs, points))


class Ends(Test):
    """The status and the message of most kinds of end."""

    def test_ends(self):
        for line, text, status, message in ENDS:
            with self.case(f"{line}, {status} {message.strip()}"):
                self.assertEqual(run([program("nfq"), *line.split()], text), Ended(status, "", message))
