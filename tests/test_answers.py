"""Polynomials, the one reader of answers, and the command answer_as: what it takes and refuses, and its statuses."""

import itertools
import os
import pathlib
import random
import subprocess
import sys
import tempfile
import unittest

from tests import plain_polynomials
from tests.harness import EXAMPLES, TOP, InFolder, Test, answer, description, program, run
from tests.plain_descriptions import names, read

sys.path.insert(0, str(TOP / "tools"))

from leastanf import answers
from leastanf.answers import AnswerError
from leastanf.formats import FORMATS
from leastanf.polynomials import Monomials, Polynomial, bits_of

ANSWER_AS = [sys.executable, TOP / "tools/answer_as"]

# Of each refusal of an answer over the inputs a, b of the output f: the text, the line, and a part of what is said.
REFUSED = [
    ("", None, "empty"),
    ("\n\n", None, "empty"),
    ("f = a", 1, "was the answer cut?"),
    ("f = a\nf = b", 2, "was the answer cut?"),
    ("f=a\n", 1, "not of the form"),
    ("yes\n", 1, "not of the form"),
    ("f = \n", 1, "not of the form"),
    (" = a\n", 1, "not of the form"),
    ("\ng = a\n", 2, "'g' is no output"),
    ("f = c\n", 1, "'c' is no input"),
    ("f = a + \n", 1, "'' is no input"),
    ("f = a*\n", 1, "'' is no input"),
    ("f = a + 0\n", 1, "'0' is no input"),
    ("f = 1*a\n", 1, "'1' is no input"),
    ("f = a+b\n", 1, "'a+b' is no input"),
    ("f = f\n", 1, "'f' is no input"),
    ("f = a*a\n", 1, "an input twice"),
    ("f = a*~a + b\n", 1, "an input and its complement"),
    ("f = a + b + a\n", 1, "a term stands twice"),
    ("f = a*b + b*a\n", 1, "a term stands twice"),
    ("0 = a\nf = b\n", 2, "behind the elements"),
]


# The same of an answer over the inputs a, b of the outputs f, g, whose form is looked at as that of interp.
REFUSED_OF_INTERP = [
    ("f = b + a\ng = a\n", 1, "'a' does not stand in the order"),
    ("f = a\n0 = b*a\ng = a\n", 2, "'b*a' does not stand in the order"),
    ("f = a\ng = 1 + a\n", 2, "'a' does not stand in the order"),
    ("f = a\ng = a + a*b\n", 2, "'a*b' does not stand in the order"),
    ("f = ~b + ~a\ng = a\n", 1, "'~a' does not stand in the order"),
    ("f = a\nf = b\n", 2, "output f stands twice"),
    ("f = a\n0 = b\nf = a\ng = b\n", 3, "output f stands twice"),
    ("f = a\ng = b\nf = a\n", 3, "output f stands twice"),
    ("g = a\nf = b\n", 1, "output g stands where output f is wanted"),
    ("f = a\n", 2, "has nothing of output g"),
    ("f = a\n\n0 = b\n", 4, "has nothing of output g"),
]


class Polynomials(Test):
    """Polynomials of Python."""

    def test_values(self):
        """The value at each point is the parity of the monomials that divide it."""
        draws = random.Random(5)
        inputs = ["a", "b", "c", "d"]
        for _ in range(50):
            masks = {draws.randrange(16) for _ in range(draws.randrange(8))}
            polynomial = Monomials(inputs).polynomial(masks)
            with self.case(str(polynomial)):
                for bits in itertools.product("01", repeat=4):
                    point = {name: int(bit) for name, bit in zip(inputs, bits)}
                    self.assertEqual(polynomial(point), plain_polynomials.value(masks, "".join(bits)))
                self.assertEqual(str(polynomial), plain_polynomials.text(masks, inputs))
                self.assertEqual(polynomial.terms, len(masks))
                self.assertEqual(polynomial.degree, max((bin(mask).count("1") for mask in masks), default=-1))
                self.assertEqual(set(polynomial.masks(tuple(inputs))), masks)

    def test_complements(self):
        polynomial = Polynomial([("~a", "b"), ("~b",)])
        values = [polynomial({"a": a, "b": b}) for a in (0, 1) for b in (0, 1)]
        self.assertEqual(values, [1, 1, 1, 0])

    def test_equal(self):
        """Equal are those of the same monomials, in whichever order."""
        one = Polynomial([("a", "b"), ("c",)])
        self.assertEqual(one, Polynomial([("c",), ("b", "a")]))
        self.assertEqual(hash(one), hash(Polynomial([("c",), ("b", "a")])))
        self.assertNotEqual(one, Polynomial([("a", "b")]))
        self.assertNotEqual(one, Polynomial([("a", "b"), ("c",), ()]))

    def test_text_stays(self):
        """The text and the monomials do not depend on the order by which numbers were asked for."""
        polynomial = Monomials(("c", "b", "a")).polynomial({6, 5, 1})
        self.assertEqual(polynomial.masks(("a", "b", "c")), [3, 5, 4])
        self.assertEqual(str(polynomial), "c*b + c*a + a")
        self.assertEqual(polynomial.monomials, (("c", "b"), ("c", "a"), ("a",)))
        self.assertEqual(polynomial.masks(("c", "b", "a")), [6, 5, 1])

    def test_twice(self):
        for monomials in ([("a",), ("a",)], [("a", "b"), ("b", "a")], [(), ()], [("a", "a")]):
            with self.case(monomials), self.assertRaises(ValueError):
                Polynomial(monomials)

    def test_many_factors(self):
        """Numbers of more factors than are found at once."""
        draws = random.Random(6)
        for width in (1, 7, 8, 9, 16, 17, 62, 124):
            inputs = [f"x{place}" for place in range(width)]
            found = Monomials(inputs)
            for _ in range(20):
                mask = draws.getrandbits(width)
                wanted = tuple(name for place, name in enumerate(inputs) if mask >> (width - 1 - place) & 1)
                self.assertEqual(found.of(mask), wanted)
                self.assertEqual(found.terms([mask, 0]), ["*".join(wanted) or "1", "1"])
                masks = sorted({draws.getrandbits(width) & draws.getrandbits(width) for _ in range(50)}, reverse=True)
                text = plain_polynomials.text(masks, inputs)
                self.assertEqual(found.text(masks), text)
                self.assertEqual(answers.masks_of(text, bits_of(inputs)), masks)


class Reading(Test):
    """The reader of answers."""

    def test_of_interp(self):
        """Answers of interp in both modes are read whole, and written as they were."""
        for mode in ("anf", "basis"):
            for file in sorted(EXAMPLES.glob("*.pla")):
                stored = file.with_suffix(f".{mode}")
                if stored.is_file():
                    with self.case(stored.name):
                        text = stored.read_text()
                        found = self.read(file, text)
                        self.assertIsNone(found.ideal)
                        self.assertEqual(str(found), text)
                        lefts = [line.split(" = ")[0] for line in text.splitlines()]
                        self.assertEqual([output.name for output in found], [left for left in lefts if left != "0"])
                        self.assertEqual(sum(len(output.basis) for output in found), lefts.count("0"))

    def test_of_queries(self):
        """Answers of nfq: an output for each query, and an ideal without an output."""
        with self.case("reduce"):
            text = (EXAMPLES / "relations.reduced").read_text()
            found = self.read(EXAMPLES / "relations.pla", text, whole=False)
            self.assertEqual([output.name for output in found], ["graph"] * 3)
            self.assertEqual(str(found), text)
        for mode in ("union", "meet"):
            with self.case(mode):
                text = (EXAMPLES / f"two_ideals.{mode}").read_text()
                found = self.read(EXAMPLES / "two_ideals.pla", text)
                self.assertIsNone(found.outputs)
                self.assertEqual(len(found.ideal), len(text.splitlines()))
                self.assertEqual(str(found), text)

    @staticmethod
    def read(file, text, whole=True):
        source = file.read_text()
        inputs, outputs, _, _ = read(source)
        given = names(source, ".ilb", "x", inputs), names(source, ".ob", "f", outputs)
        return answers.parse(text, *given, ordered=True, whole=whole)

    def test_refused(self):
        for text, line, said in REFUSED:
            with self.case(repr(text)):
                with self.assertRaises(AnswerError) as caught:
                    answers.parse(text, ["a", "b"], ["f"])
                self.assertEqual(caught.exception.line, line)
                self.assertIn(said, str(caught.exception))

    def test_refused_of_interp(self):
        """Where the form of an answer of interp is asked for, it is looked at; elsewhere these are answers."""
        for text, line, said in REFUSED_OF_INTERP:
            with self.case(repr(text)):
                answers.parse(text, ["a", "b"], ["f", "g"])
                with self.assertRaises(AnswerError) as caught:
                    answers.parse(text, ["a", "b"], ["f", "g"], ordered=True, whole=True)
                self.assertEqual(caught.exception.line, line)
                self.assertIn(said, str(caught.exception))
        with self.case("an element before the only output"), self.assertRaises(AnswerError):
            answers.parse("0 = a\n", ["a"], ["f"], whole=True)
        with self.case("an ideal in another order"), self.assertRaises(AnswerError):
            answers.parse_ideal("0 = 1 + a\n", ["a"], ordered=True)

    def test_ideals(self):
        self.assertEqual(answers.parse_ideal("", ["a"]).ideal, ())
        found = answers.parse_ideal("0 = a\r\n\n0 = 1\n", ["a"])
        self.assertEqual(found.ideal, (Polynomial([("a",)]), Polynomial([()])))
        with self.assertRaises(AnswerError):
            answers.parse_ideal("f = a\n", ["a"])

    def test_constants_and_ends(self):
        found = answers.parse("f = 0\r\n0 = 1\r\n", ["a"], ["f"])
        self.assertEqual(found.outputs[0].polynomial, Polynomial())
        self.assertEqual(found.outputs[0].basis, (Polynomial([()]),))

    def test_aliases(self):
        """Another name is taken for an input or an output, but for one that is a name itself."""
        found = answers.parse("f1 = x1 + x2\n", ["a-b", "x1"], ["c-d"], {"x2": "a-b", "x1": "a-b"}, {"f1": "c-d"})
        self.assertEqual(found.outputs[0].name, "c-d")
        self.assertEqual(found.outputs[0].polynomial.monomials, (("x1",), ("a-b",)))


class AnswerAs(InFolder):
    """The command: its words, its statuses, and answers by an order."""

    def answer_as(self, words, text, **how):
        return run([*ANSWER_AS, *words], text, **how)

    def test_examples(self):
        """Each format of each example's answer is what the table writes of it."""
        for name in ("verilog", "singular", "json"):
            for file in sorted(it for it in EXAMPLES.glob("*.anf") if it.with_suffix(".pla").is_file()):
                with self.case(f"{name}, {file.stem}"):
                    ended = self.answer_as([name, file.with_suffix(".pla")], file.read_bytes())
                    self.assertEqual((ended.status, ended.err), (0, ""))
                    self.assertEqual(ended.out, Reading.read(file.with_suffix(".pla"), file.read_text()).text(name))

    def test_ideal(self):
        """An answer of nfq union is an ideal, and no polynomial of an output."""
        for words in ((), ("--ideal",)):
            with self.case(str(words)):
                union = (EXAMPLES / "two_ideals.union").read_bytes()
                ended = self.answer_as(["singular", EXAMPLES / "two_ideals.pla", *words], union)
                self.assertEqual(ended.status, 0)
                self.assertIn("ideal I1 = x1*x2 + x2;\n", ended.out)
                self.assertNotIn("poly", ended.out)
        with self.case("an ideal without elements"):
            ended = self.answer_as(["singular", EXAMPLES / "two_ideals.pla", "--ideal"], b"")
            self.assertEqual(ended.status, 0)
            self.assertIn("ideal I1 = 0;\n", ended.out)
        with self.case("as a circuit"):
            ended = self.answer_as(["verilog", EXAMPLES / "two_ideals.pla", "--ideal"], b"")
            self.assertEqual((ended.status, ended.out), (3, ""))

    def test_outputs(self):
        """An answer has each output once, or those that are named, or those of queries."""
        file = EXAMPLES / "full_adder.pla"
        one, other = (EXAMPLES / "full_adder.anf").read_text().splitlines(keepends=True)
        cases = [
            ((), one, 3, "answer line 2: the answer ends, and has nothing of output c"),
            ((), other, 3, "answer line 1: output c stands where output s is wanted"),
            ((), one + one, 3, "answer line 2: output s stands twice"),
            (("--outputs", "c"), other, 0, ""),
            (("--outputs", "c,s"), other + one, 0, ""),
            (("--outputs", "c,s"), one + other, 3, "answer line 1: output s stands where output c is wanted"),
            (("--outputs", "q"), one, 12, "'q' is none of them"),
            (("--queries",), one + one, 0, ""),
            (("--queries",), one.replace("a + b", "b + a"), 3, "answer line 1: 'a' does not stand in the order"),
            (("--queries", "--ideal"), one, 2, "exclude each other"),
        ]
        for words, text, status, said in cases:
            with self.case((words, text)):
                ended = self.answer_as(["json", file, *words], text)
                self.assertEqual(ended.status, status, ended)
                self.assertIn(said, ended.err)
                self.assertEqual(ended.out != "", status == 0)

    def test_orders(self):
        """The ring has the order that is asked for, and an answer in another one is refused."""
        file, text = EXAMPLES / "half_adder.pla", "graph = 1\n0 = b + sum*a\n"
        for name in FORMATS:
            with self.case(name):
                ended = self.answer_as([name, file], text)
                self.assertEqual((ended.status, ended.out), (3, ""))
                self.assertIn("answer line 2: 'sum*a' does not stand in the order of the inputs", ended.err)
                self.assertIn("--order", ended.err)
        ended = self.answer_as(["singular", file, "--order", "b,sum,a,carry"], text)
        self.assertEqual((ended.status, ended.err), (0, ""))
        self.assertIn("ring r = 2, (b, sum, a, carry), lp;\n", ended.out)
        ended = self.answer_as(["singular", file, "--order", "b,sum,a"], text)
        self.assertEqual((ended.status, ended.out), (12, ""))

    def test_names_that_are_not_printed(self):
        """The program's names and those of the file are both taken."""
        file = self.here / "f.pla"
        file.write_text(description(2, 1, "f", [("11", "1")], names=["a-b", "c/d"], results=["e&f"]))
        for text in ("f1 = x1*x2\n", "e&f = a-b*c/d\n"):
            with self.case(text):
                ended = self.answer_as(["json", file], text)
                self.assertEqual(ended.status, 0, ended)
                self.assertIn('"polynomial": [["a-b", "c/d"]]', ended.out)

    def test_outputs_named_as_inputs_are_printed(self):
        """A factor is an input, though an output has the name by which the program prints it."""
        file = self.here / "f.pla"
        rows = [("11", "10"), ("-1", "01")]
        file.write_text(description(2, 2, "f", rows, names=["a-b", "c"], results=["x2", "f"]))
        printed = run([program("interp"), "anf"], file.read_bytes()).out
        self.assertEqual(printed, "x2 = x1*x2\nf = x2\n")
        ended = self.answer_as(["json", file], printed)
        self.assertEqual(ended.status, 0, ended)
        self.assertIn('"polynomial": [["a-b", "c"]]', ended.out)

    def test_names_of_inputs_and_outputs_are_apart(self):
        """The number of an output is no input that is named like the output, nor is that of an input an output."""
        file = self.here / "f.pla"
        cases = [
            (["a", "b"], ["a", "b-c"], "f1 = f1*b\nf2 = b\n", "'f1' is no input of the file"),
            (["a-b", "c"], ["c", "d"], "x2 = a-b*c\nd = c\n", "'x2' is no output of the file"),
        ]
        for names, results, text, said in cases:
            file.write_text(description(2, 2, "f", [("11", "10"), ("-1", "01")], names=names, results=results))
            with self.case(text):
                ended = self.answer_as(["json", file], text)
                self.assertEqual((ended.status, ended.out), (3, ""))
                self.assertIn(f"answer line 1: {said}", ended.err)

    def test_statuses(self):
        file = EXAMPLES / "full_adder.pla"
        (self.here / "bad.pla").write_text(".i 2\n")
        cases = [
            ([], b"", 2),
            (["verilog"], b"", 2),
            (["vhdl", file], b"", 2),
            (["verilog", file, "more"], b"", 2),
            (["verilog", file, "--no"], b"", 2),
            (["verilog", "-"], b"", 2),
            (["verilog", self.here / "none.pla"], b"", 8),
            (["verilog", self.here], b"", 8),
            (["verilog", self.here / "bad.pla"], b"", 3),
            (["verilog", file], b"", 3),
            (["verilog", file], b"s = q\n", 3),
            (["verilog", file], b"s = a\xff\n", 3),
            (["verilog", file], b"yes\n", 3),
            (["verilog", file, "--order", "a,b"], b"s = a\n", 12),
        ]
        for words, text, status in cases:
            with self.case(str(words)):
                ended = self.answer_as(words, text)
                self.assertEqual((ended.status, ended.out), (status, ""), ended)
                self.assertEqual(len(ended.err.splitlines()), 1, ended)
                self.assertNotIn("Traceback", ended.err)

    def test_help(self):
        ended = self.answer_as(["--help"], b"")
        self.assertEqual(ended.status, 0)
        for name in FORMATS:
            self.assertIn(f"  {name} ", ended.out)

    def test_streams(self):
        """A reader that went away and a full device."""
        words = [*map(str, ANSWER_AS), "python", str(EXAMPLES / "full_adder.pla")]
        answer_file = EXAMPLES / "full_adder.anf"
        with self.case("a closed pipe"):
            ends = os.pipe()
            os.close(ends[0])
            with open(answer_file, "rb") as source, open(ends[1], "wb") as sink:
                ended = subprocess.run(words, stdin=source, stdout=sink, stderr=subprocess.PIPE, check=False)
            self.assertEqual((ended.returncode, ended.stderr), (141, b""))
        with self.case("a full device"):
            with open(answer_file, "rb") as source, open("/dev/full", "wb") as sink:
                ended = subprocess.run(words, stdin=source, stdout=sink, stderr=subprocess.PIPE, check=False)
            self.assertEqual(ended.returncode, 9)
            self.assertNotIn(b"Traceback", ended.stderr)


class Examples(Test):
    """The examples that --help has."""

    def test_run(self):
        for name in ("answer_as", "ask", "judge", "agrees", "describe"):
            text = answer([sys.executable, TOP / "tools" / name, "--help"])
            start = text.index("examples:") + 1
            lines = list(itertools.takewhile(str.strip, text[start:]))
            with self.case(f"{name} has examples"):
                self.assertTrue(lines)
            for line in lines:
                with self.case(line.strip()):
                    self.run_line(line.strip())

    def run_line(self, line):
        with tempfile.TemporaryDirectory() as folder:
            here = pathlib.Path(folder)
            for part in ("examples", "tools"):
                (here / part).symlink_to(TOP / part)
            for part in ("interp", "nfq"):
                (here / part).symlink_to(program(part))
            environment = {**os.environ, "INTERP": program("interp"), "NFQ": program("nfq")}
            ended = run(["bash", "-c", f"set -o pipefail; {line}"], cwd=here, env=environment)
            self.assertIn(ended.status, (0, 1), ended)
            self.assertNotEqual(ended.out, "")


if __name__ == "__main__":
    unittest.main()
