"""Answers that are judged: right ones, and wrong ones of every kind, by each way that there is.

The right answers come from plain elimination at the points, by tests/plain_polynomials.py.
"""

import os
import pathlib
import pty
import random
import sys
import tempfile
import unittest

from tests import plain_polynomials
from tests.harness import EXAMPLES, TOP, InFolder, Test, description, installed, named_programs, program, run
from tests.plain_descriptions import care_points, meets

sys.path.insert(0, str(TOP / "tools"))

from leastanf import descriptions, judging, queries, relations, solving, transcripts

JUDGE = [sys.executable, TOP / "tools/judge"]
AGREES = [sys.executable, TOP / "tools/agrees"]
UNKNOWN = 15


def setUpModule():
    """The package runs the programs that are tried."""
    os.environ.update(named_programs())


class Sample:
    """A random file of a few outputs, with the least polynomial and the reduced basis of each."""

    def __init__(self, draws, most=5):
        self.inputs, self.outputs = draws.randint(1, most), draws.randint(1, 2)
        self.kind = draws.choice(["f", "fd", "fr", "fdr"])
        self.rows = []
        while not self.rows or self.contradicts():
            self.rows = [self.row(draws) for _ in range(draws.randint(1, 6))]
        self.text = description(self.inputs, self.outputs, self.kind, self.rows)
        self.names = [f"x{place}" for place in range(1, self.inputs + 1)]
        self.points, self.ones, self.least, self.bases = [], [], [], []
        for output in range(self.outputs):
            points = care_points(self.inputs, self.kind, self.rows, output)
            ones = {point for point in points if self.value(point, output)}
            found = plain_polynomials.Points(self.inputs, points)
            self.points.append(points)
            self.ones.append(ones)
            self.least.append(found.least(ones))
            self.bases.append(found.basis())

    def row(self, draws):
        symbols = "".join(draws.choice("01-") for _ in range(self.inputs))
        return symbols, "".join(draws.choice("01-~") for _ in range(self.outputs))

    def contradicts(self):
        """Whether an on-row and an off-row share a point; of the types f and fd none does."""
        if self.kind in ("f", "fd"):
            return False
        for output in range(self.outputs):
            for one, said in self.rows:
                for zero, denied in self.rows:
                    apart = any({a, b} == {"0", "1"} for a, b in zip(one, zero))
                    if said[output] == "1" and denied[output] == "0" and not apart:
                        return True
        return False

    def value(self, point, output):
        """The value that the rows give to a care point."""
        return any(outs[output] == "1" and meets(cube, point) for cube, outs in self.rows)

    def description(self):
        return descriptions.parse(self.text.encode(), "f.pla")

    def answer(self, polynomials=None, bases=None):
        """The text of an answer, the right one but for what is given."""
        lines = []
        for output in range(self.outputs):
            polynomial = (polynomials or self.least)[output]
            lines.append(f"f{output + 1} = {plain_polynomials.text(polynomial, self.names)}\n")
            for element in (bases or [[]] * self.outputs)[output]:
                lines.append(f"0 = {plain_polynomials.text(element, self.names)}\n")
        return "".join(lines)


def wrong_polynomials(draws, sample, output):
    """Polynomials that are not the least one, each with what is wrong."""
    points, least, basis = sample.points[output], sample.least[output], sample.bases[output]
    found = plain_polynomials.Points(sample.inputs, points)
    if points:
        other = sample.ones[output] ^ {draws.choice(points)}
        yield "the least one of another function", found.least(other)
        yield "a standard monomial added", least ^ {draws.choice(found.standard)}
        yield "the complement", least ^ found.least(set(points))
    if least:
        yield "a term missing", least - {draws.choice(sorted(least))}
    if basis:
        yield "an element of the basis added", least ^ draws.choice(basis)
        lead = max(draws.choice(basis))
        yield "a lead added", least ^ {lead}
        multiple = times(draws.choice(basis), draws.randrange(2**sample.inputs))
        yield "a greater monomial with the same values", least ^ multiple
    yield "any other", set(draws.sample(range(2**sample.inputs), draws.randint(0, min(4, 2**sample.inputs))))


def times(polynomial, monomial):
    """The product of a polynomial and a monomial."""
    found = set()
    for mask in polynomial:
        found ^= {mask | monomial}
    return found


def wrong_bases(draws, sample, output):
    """Lists of elements that are not the reduced basis, each with what is wrong."""
    basis = sample.bases[output]
    if basis:
        place = draws.randrange(len(basis))
        yield "an element missing", basis[:place] + basis[place + 1 :]
        yield "an element twice", [*basis, basis[place]]
        yield "an element with a term less", [*basis[:place], basis[place] - {min(basis[place])}, *basis[place + 1 :]]
        yield "an element with another one added", [*basis, basis[place] ^ basis[0]]
        yield "a multiple added", [*basis, times(basis[place], (1 << sample.inputs) - 1)]
    yield "an element that is 0", [*basis, set()]
    yield "one added", [*basis, {0}]


class Polynomials(Test):
    """Polynomials by each way: normal forms of nfq, and the least one that interp finds."""

    WAYS = ("polynomial", "by_normal_form", "by_solving")

    def test_right(self):
        draws = random.Random(1)
        for _ in range(12):
            sample = Sample(draws)
            judge = judging.Judge(sample.description())
            for output in range(sample.outputs):
                for way in self.WAYS:
                    with self.case(f"{way}: {sample.text}"):
                        self.assertTrue(getattr(judge, way)(output, sample.least[output]).holds)

    def test_wrong(self):
        draws = random.Random(2)
        kinds = {}
        for _ in range(8):
            sample = Sample(draws)
            judge = judging.Judge(sample.description())
            for output in range(sample.outputs):
                for what, wrong in wrong_polynomials(draws, sample, output):
                    if wrong == sample.least[output]:
                        continue
                    kinds[what] = kinds.get(what, 0) + 1
                    for way in self.WAYS:
                        with self.case(f"{what} by {way}: {sample.text}"):
                            verdict = getattr(judge, way)(output, wrong)
                            self.assertIs(verdict.holds, False, verdict.why)
        with self.case("each kind was tried"):
            self.assertGreaterEqual(min(kinds.values()), 3)
            self.assertEqual(len(kinds), 8)

    def test_agrees(self):
        """A polynomial agrees exactly where it has each given value; else a point is told where it has another."""
        draws = random.Random(3)
        told = 0
        for _ in range(8):
            sample = Sample(draws)
            judge = judging.Judge(sample.description())
            for output in range(sample.outputs):
                for what, polynomial in [("right", sample.least[output]), *wrong_polynomials(draws, sample, output)]:
                    with self.case(f"{what}: {sample.text}"):
                        values = {point: plain_polynomials.value(polynomial, point) for point in sample.points[output]}
                        wanted = all(bit == (point in sample.ones[output]) for point, bit in values.items())
                        verdict = judge.agrees(output, polynomial)
                        self.assertIs(verdict.holds, wanted)
                        if not wanted:
                            told += 1
                            point = verdict.why.split(" at ")[1].split(",")[0]
                            self.assertNotEqual(values[point], point in sample.ones[output])
                            bit = values[point]
                            self.assertEqual(verdict.why, f"it is {bit} at {point}, where {1 - bit} is given")
        self.assertGreater(told, 20)

    def test_points_of_complemented_inputs(self):
        """The point that is told has the values of the inputs of the file."""
        text = description(2, 1, "fr", [("10", "1"), ("01", "0")])
        judge = judging.Judge(descriptions.parse(text.encode(), "f.pla"), flips=[0, 1])
        self.assertEqual(judge.agrees(0, {0}).why, "it is 1 at 01, where 0 is given")
        self.assertEqual(judge.agrees(0, {2, 0}).holds, True)

    def test_swapped_outputs(self):
        """A right polynomial of the other output is wrong."""
        text = (EXAMPLES / "full_adder.anf").read_text().splitlines()
        swapped = f"s = {text[1].split(' = ')[1]}\nc = {text[0].split(' = ')[1]}\n"
        ended = run([*JUDGE, EXAMPLES / "full_adder.pla"], swapped)
        self.assertEqual(ended.status, 1)
        self.assertEqual([line.split(",")[0] for line in ended.out.splitlines()], ["s: no", "c: no"])

    def test_orders_and_polarities(self):
        """The least polynomial by another order, and of complemented inputs, is right by these alone."""
        draws = random.Random(4)
        differ = 0
        for _ in range(8):
            sample = Sample(draws)
            order = draws.sample(range(sample.inputs), sample.inputs)
            flips = [place for place in range(sample.inputs) if draws.random() < 0.5]
            judge = judging.Judge(sample.description(), order, flips)
            for output in range(sample.outputs):

                def moved(point):
                    bits = [str(int(bit) ^ (place in flips)) for place, bit in enumerate(point)]
                    return "".join(bits[place] for place in order)

                points = [moved(point) for point in sample.points[output]]
                least = plain_polynomials.Points(sample.inputs, points).least({moved(p) for p in sample.ones[output]})
                with self.case(f"{order} {flips} {sample.text}"):
                    for way in self.WAYS:
                        self.assertTrue(getattr(judge, way)(output, least).holds)
                        differ += least != sample.least[output]
                        verdict = getattr(judge, way)(output, sample.least[output])
                        self.assertIs(verdict.holds, least == sample.least[output])
        self.assertGreater(differ, 5)

    def test_many_inputs(self):
        """One of 16 data lines with don't cares, over 20 inputs, and 24 care points among 2^24."""
        for name in ("multiplexer", "one_hot"):
            file = EXAMPLES / f"{name}.pla"
            right = (EXAMPLES / f"{name}.anf").read_text()
            with self.case(name):
                ended = run([*JUDGE, file], right)
                self.assertEqual(ended.status, 0, ended)
            for place, line in enumerate(right.splitlines()):
                terms = line.split(" + ")
                with self.case(f"{name}, output {place + 1} without its last term"):
                    lines = right.splitlines()
                    lines[place] = " + ".join(terms[:-1]) if len(terms) > 1 else line.split(" = ")[0] + " = 0"
                    ended = run([*JUDGE, file], "".join(f"{text}\n" for text in lines))
                    self.assertEqual(ended.status, 1, ended)


class Bases(Test):
    """Bases by mode check, and by the reduced basis that interp finds."""

    WAYS = ("basis", "by_check", "by_basis")

    def test_right(self):
        """Elements stand in any order."""
        draws = random.Random(5)
        for _ in range(10):
            sample = Sample(draws)
            judge = judging.Judge(sample.description())
            for output in range(sample.outputs):
                basis = draws.sample(sample.bases[output], len(sample.bases[output]))
                for way in self.WAYS:
                    with self.case(f"{way}: {sample.text}"):
                        self.assertTrue(getattr(judge, way)(output, sample.least[output], basis).holds)
                with self.case(f"alone: {sample.text}"):
                    self.assertTrue(judge.basis(output, None, basis).holds)

    def test_wrong(self):
        draws = random.Random(6)
        for _ in range(5):
            sample = Sample(draws)
            judge = judging.Judge(sample.description())
            for output in range(sample.outputs):
                right = {frozenset(element) for element in sample.bases[output]}
                for what, basis in wrong_bases(draws, sample, output):
                    if len(basis) == len(right) and set(map(frozenset, basis)) == right:
                        continue
                    for way in self.WAYS:
                        with self.case(f"{what} by {way}: {sample.text}"):
                            self.assertIs(getattr(judge, way)(output, sample.least[output], basis).holds, False)
                    with self.case(f"{what} alone: {sample.text}"):
                        verdict = judge.basis(output, None, basis)
                        self.assertIs(verdict.holds, False)
                        bad = (at for at, one in enumerate(basis) if frozenset(one) not in right or one in basis[:at])
                        self.assertEqual(verdict.element, next(bad, None))
                for what, wrong in wrong_polynomials(draws, sample, output):
                    if wrong != sample.least[output]:
                        for way in self.WAYS:
                            with self.case(f"{what} by {way}: {sample.text}"):
                                self.assertIs(getattr(judge, way)(output, wrong, sample.bases[output]).holds, False)

    def test_more_inputs_than_check_takes(self):
        """A basis over 16 inputs: the graph of an S-box, the value before its argument."""
        file = EXAMPLES / "present_graph.pla"
        basis = (EXAMPLES / "present_graph.basis").read_text()
        more = " ".join(f"z{place}" for place in range(8))
        wide = file.read_text().replace(".i 8", ".i 16").replace(".ilb ", f".ilb {more} ")
        lines = [f"--------{line}" if line[:1] in "01" else line for line in wide.splitlines()]
        with tempfile.TemporaryDirectory() as folder:
            path = pathlib.Path(folder) / "wide.pla"
            path.write_text("\n".join([*lines, ""]))
            with self.case("right"):
                self.assertEqual(run([*JUDGE, path], basis).status, 0)
            for place in range(1, len(basis.splitlines())):
                with self.case(f"without line {place + 1}"):
                    kept = basis.splitlines(keepends=True)
                    self.assertEqual(run([*JUDGE, path], "".join(kept[:place] + kept[place + 1 :])).status, 1)


class Command(InFolder):
    """The command judge: what it takes, what it prints, and its statuses."""

    def test_files(self):
        draws = random.Random(7)
        for _ in range(5):
            sample = Sample(draws)
            (self.here / "f.pla").write_text(sample.text)
            with self.case(sample.text):
                ended = run([*JUDGE, self.here / "f.pla"], sample.answer())
                wanted = "".join(f"f{output + 1}: yes\n" for output in range(sample.outputs))
                self.assertEqual((ended.status, ended.out), (0, wanted), ended)
                ended = run([*JUDGE, self.here / "f.pla", "--basis"], sample.answer(bases=sample.bases))
                self.assertEqual((ended.status, ended.out), (0, wanted), ended)
                polynomials = [next(wrong_polynomials(draws, sample, 0))[1], *sample.least[1:]]
                if polynomials[0] != sample.least[0]:
                    ended = run([*JUDGE, self.here / "f.pla"], sample.answer(polynomials))
                    self.assertEqual(ended.status, 1, ended)
                    self.assertTrue(ended.out.startswith("f1: no, "))

    def test_free_points(self):
        """An answer of mode anf is right where points are free, which mode check alone calls a fault of the basis."""
        file, text = EXAMPLES / "half_adder.pla", "graph = 1\n"
        self.assertEqual(run([program("interp"), "check"], file.read_text() + text).out, "no 1 Count\n")
        self.assertEqual(run([*JUDGE, file], text).status, 0)
        self.assertEqual(run([*JUDGE, file, "--basis"], text).status, 1)

    def test_solve_by_polarity(self):
        """What solve prints of complemented inputs is right for these."""
        file = self.here / "f.pla"
        file.write_text(".i 3\n.o 1\n.ilb a b c\n.ob f\n.type fr\n000 0\n011 1\n101 1\n110 0\n111 1\n")
        ended = run([sys.executable, TOP / "tools/solve", "--polarity", "c", file])
        self.assertEqual((ended.status, ended.out), (0, "f = ~c + 1\n"))
        self.assertEqual(run([*JUDGE, file, "--polarity", "c"], ended.out).status, 0)
        file = EXAMPLES / "seven_segments.pla"
        ended = run([sys.executable, TOP / "tools/solve", "--polarity", "d4,d1", file])
        self.assertIn("~d4", ended.out)
        self.assertEqual(run([*JUDGE, file, "--polarity", "d4,d1"], ended.out).status, 0)

    def test_statuses(self):
        file = EXAMPLES / "half_adder.pla"
        contradiction = EXAMPLES / "contradiction.pla"
        cases = [
            ([], "", 2),
            (["-"], "", 2),
            ([file, "more"], "", 2),
            ([self.here / "none"], "", 8),
            ([file], "", 3),
            ([file], "yes\n", 3),
            ([file], "grpah = 1\n", 3),
            ([file], "graph = 1\ngraph = 1\n", 3),
            ([file], "graph = z\n", 3),
            ([file], "graph = 1\n0 = 2\n", 3),
            ([file], "graph = (1\n", 3),
            ([file], "graph = a^1\n", 3),
            ([file, "--order", "a,b"], "graph = 1\n", 12),
            ([file, "--polarity", "z"], "graph = 1\n", 12),
            ([EXAMPLES / "full_adder.pla"], "s = a + b + cin\n", 3),
            ([EXAMPLES / "full_adder.pla"], "a + b + cin\n", 3),
            ([contradiction], "f1 = x1\n", 4),
        ]
        for words, text, status in cases:
            with self.case(f"{words} {text!r}"):
                ended = run([*JUDGE, *words], text)
                self.assertEqual((ended.status, ended.out), (status, ""), ended)
                self.assertNotIn("Traceback", ended.err)
                self.assertEqual(len(ended.err.splitlines()), 1)

    def test_refusals_have_a_place(self):
        """A term or an output twice, an unknown name, and an output that is missing are refused with their line."""
        half, full = EXAMPLES / "half_adder.pla", EXAMPLES / "full_adder.pla"
        cases = [
            (half, "graph = a + b + a\n", 1, "the term 'a' stands twice"),
            (half, "graph = 1\n0 = b*a + sum + a*b\n", 2, "the term 'a*b' stands twice"),
            (half, "\ngraph = 1 + z\n", 2, "'z' is no input"),
            (half, "graph = 1\n\ngrahp = 1\n", 3, "'grahp' is no output"),
            (half, "graph = 1\n0 = a\ngraph = 1\n", 3, "has a polynomial already"),
            (full, "s = a\nI1 = ideal(a)\nc = b\nI1 = ideal(b)\n", 4, "has a list of elements already"),
            (full, "s = a\n", 2, "has nothing of output c"),
            (full, "c = a\n\n", 3, "has nothing of output s"),
            (half, "0 = a\n0 = (\n", 2, "the line goes on, and the text ends"),
        ]
        for file, text, line, said in cases:
            for name, words in (("judge", JUDGE), ("agrees", AGREES)):
                if name == "agrees" and "has nothing" in said:
                    continue
                with self.case(f"{name} {text!r}"):
                    ended = run([*words, file], text)
                    self.assertEqual((ended.status, ended.out), (3, ""), ended)
                    self.assertTrue(ended.err.startswith(f"{name}: answer line {line}: "), ended.err)
                    self.assertIn(said, ended.err)

    def test_not_known(self):
        """Where no program has an answer, it is not known; where nfq has none, interp may have one."""
        file, text = EXAMPLES / "full_adder.pla", (EXAMPLES / "full_adder.anf").read_text()
        full = self.script("full", "cat > made; echo \"$(basename $0): more than 524288 nodes are needed\" >&2; exit 5")
        cases = [
            ("neither", {"INTERP": full, "NFQ": full}, text, UNKNOWN, "not known"),
            ("interp alone", {"NFQ": full}, text, 0, "yes"),
            ("interp alone, wrong", {"NFQ": full}, text.replace("a*b + ", ""), 1, "no"),
            ("nfq alone", {"INTERP": full}, text, 0, "yes"),
            ("nfq alone, wrong", {"INTERP": full}, text.replace("a*b + ", ""), 1, "no"),
        ]
        for what, programs, given, status, word in cases:
            with self.case(what):
                ended = run([*JUDGE, file], given, env={**os.environ, **programs}, cwd=self.here)
                self.assertEqual(ended.status, status, ended)
                self.assertIn(f"c: {word}", ended.out)
        with self.case("as many inputs as a file may have"):
            many = self.here / "many.pla"
            for kind, status in (("fr", 0), ("f", UNKNOWN)):
                many.write_text(description(1024, 1, kind, [("1" * 1024, "1")]))
                ended = run([*JUDGE, many], "f1 = 1\n")
                self.assertEqual(ended.status, status, ended)
        with self.case("no program"):
            ended = run([*JUDGE, file], text, env={**os.environ, "NFQ": "/no/program"})
            self.assertEqual((ended.status, ended.out), (69, ""), ended)
        with self.case("agrees"):
            ended = run([*AGREES, file], text, env={**os.environ, "NFQ": full}, cwd=self.here)
            self.assertEqual(ended.status, UNKNOWN, ended)
            self.assertIn("name another order of the inputs by --order", ended.out)
            self.assertNotIn("--nodes", ended.out)

    def test_wrong_programs(self):
        """A program that answers anything is not believed to say yes: what it prints has to be the polynomial."""
        file, text = EXAMPLES / "full_adder.pla", (EXAMPLES / "full_adder.anf").read_text()
        for said in ("", "yes", "f1 = 0", "f1 = x1 + x2"):
            with self.case(said):
                script = self.script("any", f"cat > made; printf '{said}\\n'")
                ended = run([*JUDGE, file], text, env={**os.environ, "NFQ": script, "INTERP": script}, cwd=self.here)
                self.assertNotEqual(ended.status, 0)
                self.assertNotIn("Traceback", ended.err)


class Transcripts(InFolder):
    """Answers as other programs write them."""

    def setUp(self):
        super().setUp()
        self.file = EXAMPLES / "half_adder.pla"

    def claims(self, text, file=None):
        given = descriptions.read(file or self.file)
        return transcripts.parse(text, given, queries.Names(given))

    def test_forms(self):
        """Elements in each form: sum + a + b and carry + a*b over sum, carry, a, b."""
        wanted = [{0b1000, 0b0010, 0b0001}, {0b0100, 0b0011}]
        forms = [
            "0 = sum + a + b\n0 = carry + a*b\n",
            "b+a+sum,\na*b+carry\n",
            "G[1]=b^2+b\nG[2]=sum+a+b\nG[3]=carry+a*b\n",
            "ideal I1 = sum + a + b, carry + b*a;\n",
            "I1 = ideal(sum + a + b, carry + a*b) \n",
            "o5 = ideal (sum + a + b, carry + a*b)\n\no5 : Ideal of R\n",
            "{sum+a+b, carry+a*b, a^2+a}\n",
            "matrix {{sum+a+b, carry+a*b}}\n",
            "[sum + a + b, carry + a*b]\n",
            "// ** a comment\nsum+(a+b),\n(carry)+a\n*b\n".replace("\n*", "*"),
            "sum ^ a ^ b, carry ^ (a & b)\n",
            "x(1)+x(3)+x(4), x_2+x_3*x_4\n",
            "x[1]+x1*0+x3+x4, x2+x3*x4\n",
            "sum'+a+b, carry'+a*b\n",
        ]
        for text in forms:
            with self.case(text):
                claims = self.claims(text)
                self.assertEqual(claims[0].elements, wanted)
                self.assertIsNone(claims[0].polynomial)

    def test_outputs(self):
        text = "poly f2 = a*b + a*cin + b*cin;\nideal I2 = 0;\ns = a + b + cin\n0 = a\n"
        one, other = self.claims(text, EXAMPLES / "full_adder.pla")
        self.assertEqual(one.polynomial, {4, 2, 1})
        self.assertEqual(other.polynomial, {6, 5, 3})
        self.assertEqual((one.elements, other.elements), ([{4}], []))

    def test_no_elements(self):
        """A 0 in a list of another program is no element, and one on a line of its own is."""
        for text in ("ideal I1 = 0;\n", "I1 = ideal(0_R)\n", "G[1]=0\n", "0\n", "{0}\n"):
            with self.case(text):
                claim = self.claims(text)[0]
                self.assertEqual((claim.elements, claim.has_list), ([], True))
        self.assertEqual(self.claims("0 = 0\n")[0].elements, [set()])

    def test_refused(self):
        for text in ("grahp = a", "graph = a, b", "  2\na + a", "0 = (a", "0 = a)", "graph = ", "a b", "0 = a +"):
            with self.case(text), self.assertRaises(transcripts.TranscriptError):
                self.claims(f"{text}\n")

    def test_lists_of_outputs(self):
        """The place of an element in a list is no name of an output or an input, and none that has a fault in it."""
        file = self.here / "f.pla"
        names = {"names": ["a[0]", "a[1]"], "results": ["p[0]", "p[1]"]}
        file.write_text(description(2, 2, "f", [("11", "11")], **names))
        self.assertEqual(self.claims("p[0] = a[0]\nG[2] = a[1]\n", file)[0].elements, [{1}])
        for left in ("p[2]", "a[0]", "a[2]", "x[1]"):
            with self.case(left), self.assertRaises(transcripts.TranscriptError):
                self.claims(f"p[0] = a[0]\n{left} = a[1]\n", file)

    def test_outputs_with_names_of_other_programs(self):
        """No line of an output is taken for what another program writes beside an answer."""
        file = self.here / "f.pla"
        for name in ("R", "short", "ring", "o1", "//", "--"):
            file.write_text(description(1, 2, "f", [("1", "11")], results=["f", name]))
            with self.case(name):
                self.assertEqual(self.claims(f"f = x1\n{name} = 0\n", file)[1].polynomial, set())
        for line in ("R = x1", "ring = x1", "short = 0", "ideal F = x1"):
            with self.case(line), self.assertRaises(transcripts.TranscriptError):
                self.claims(f"graph = 1\n{line}\n")

    def test_names_that_end_with_signs(self):
        """A line as the program prints it ends where it ends, whatever signs its names have."""
        file = self.here / "f.pla"
        for name in ("in-", "(", "a[", "p|", "&", "c;"):
            file.write_text(description(2, 1, "f", [("11", "1")], names=["b", name], results=["f"]))
            with self.case(name):
                claim = self.claims(f"f = b + {name}\n0 = b*{name}\n0 = {name}\n", file)[0]
                self.assertEqual((claim.polynomial, claim.elements), ({2, 1}, [{3}, {1}]))

    def test_names_in_brackets_and_of_digits(self):
        """What solve prints is read by its names, whatever stands for a list or a number elsewhere."""
        cases = [
            (["{a}", "a"], "s = 1\n0 = {a}\n", {0}, [{2}]),
            (["[0]"], "s = [0]\n", {1}, []),
            (["2", "3"], "s = 2*3\n0 = 2\n0 = 3 + 1\n", {3}, [{2}, {1, 0}]),
        ]
        file = self.here / "f.pla"
        for names, text, polynomial, elements in cases:
            file.write_text(description(len(names), 1, "f", [("1" * len(names), "1")], names=names, results=["s"]))
            with self.case(names):
                claim = self.claims(text, file)[0]
                self.assertEqual((claim.polynomial, claim.elements), (polynomial, elements))

    def test_terms_twice_of_names_with_signs(self):
        """A term that stands twice is refused, whatever signs its names have."""
        file = self.here / "f.pla"
        file.write_text(description(2, 1, "f", [("-1", "1")], names=["a-b", "c"], results=["f"]))
        self.assertEqual(self.claims("f = a-b + c\n", file)[0].polynomial, {2, 1})
        for text in ("f = a-b + a-b + c\n", "f = c + a-b*c + a-b*c\n"):
            with self.case(text), self.assertRaises(transcripts.TranscriptError):
                self.claims(text, file)

    def judged(self, text):
        ended = run([*JUDGE, self.file], text)
        self.assertEqual((ended.status, ended.out), (0, "graph: yes\n"), ended)

    def scripted(self, name):
        basis = self.file.with_suffix(".basis").read_text()
        return run([sys.executable, TOP / "tools/answer_as", name, self.file], basis).out

    def test_scripts(self):
        """The scripts that answer_as writes are read back."""
        for name in ("singular", "macaulay2"):
            with self.case(name):
                self.judged(self.scripted(name))

    def test_scripts_of_names_that_look_alike(self):
        """No name of a script is that of another input in the file."""
        file = self.here / "f.pla"
        for names in (["sum", "sum'"], ["sum'", "sum"], ["a-b", "a'b"], ["f1", "f12"], ["poly", "poly_"], ["1_R", "a"]):
            file.write_text(description(2, 1, "f", [("0-", "1")], names=names, results=["f"]))
            for name in ("singular", "macaulay2"):
                with self.case((names, name)):
                    first = descriptions.read(file).shown_input_names[0]
                    script = run([sys.executable, TOP / "tools/answer_as", name, file], f"f = {first} + 1\n").out
                    ended = run([*JUDGE, file], script)
                    self.assertEqual((ended.status, ended.out), (0, "f: yes\n"), script)

    def test_scripts_by_an_order(self):
        """Names that are made over do not depend on the order of the inputs."""
        file = self.here / "f.pla"
        file.write_text(description(2, 1, "f", [("1-", "1")], names=["a-b", "a|b"], results=["f"]))
        for name in ("singular", "macaulay2"):
            for order in ("a-b,a|b", "a|b,a-b"):
                words = [sys.executable, TOP / "tools/answer_as", name, file, "--order", order]
                script = run(words, "f = a-b\n").out
                for more in ([], ["--order", order]):
                    with self.case((name, order, more)):
                        ended = run([*JUDGE, file, *more], script)
                        self.assertEqual((ended.status, ended.out), (0, "f: yes\n"), script)

    def test_scripts_without_bases(self):
        """In scripts of mode anf outputs are told by their numbers, whatever their names, and no basis is judged."""
        file = self.here / "f.pla"
        rows = [("11-", "100"), ("-11", "010"), ("1-1", "001")]
        for kind, results in (("fd", ["f2", "f1", "f3"]), ("f", ["f0", "I1", "f1"])):
            file.write_text(description(3, 3, kind, rows, results=results))
            least = run([program("interp"), "anf"], file.read_text()).out
            for name in ("singular", "macaulay2"):
                script = run([sys.executable, TOP / "tools/answer_as", name, file], least).out
                with self.case((kind, name)):
                    ended = run([*JUDGE, file], script)
                    self.assertEqual((ended.status, ended.out), (0, "".join(f"{word}: yes\n" for word in results)))
                    wrong = run([*JUDGE, file], script.replace("f1 = ", "f1 = x3 + "))
                    self.assertEqual((wrong.status, wrong.out.count(": no, ")), (1, 1))

    def test_singular(self):
        """What Singular computes of the equations in another order."""
        script = self.scripted("singular") + "option(redSB); ideal G = std(I1 + F);"
        for prints in ("print(G);", "G;", "string(G);"):
            with self.case(prints):
                printed = run([installed("Singular"), "-q"], f"{script} {prints}\n").out
                self.judged("graph = 1\n" + printed)

    def test_macaulay2(self):
        for prints in ("toString I", "toString flatten entries gens I", "I", "gens I"):
            with self.case(prints):
                script = self.here / "f.m2"
                script.write_text(self.scripted("macaulay2") + f"I = ideal gens gb I1; print({prints})\n")
                printed = "graph = 1\n" + run([installed("M2"), "--script", script]).out
                if prints.startswith("toString"):
                    self.judged(printed)
                else:
                    # Powers stand above the line, or without a sign, so the text is refused.
                    self.assertEqual(run([*JUDGE, self.file], printed).status, 3)


class Agrees(InFolder):
    """The command agrees."""

    def test_examples(self):
        """The least polynomials agree, and with a term less they do not."""
        for name in ("seven_segments", "digits", "multiplier", "multiplexer", "one_hot"):
            file, text = EXAMPLES / f"{name}.pla", (EXAMPLES / f"{name}.anf").read_text()
            with self.case(name):
                ended = run([*AGREES, file], text)
                self.assertEqual(ended.status, 0, ended)
                self.assertEqual(ended.out.count(": yes\n"), len(text.splitlines()))
            with self.case(f"{name}, a term less"):
                first, *rest = text.splitlines()
                left, _, right = first.partition(" = ")
                less = f"{left} = {right.rpartition(' + ')[0] or 0}"
                ended = run([*AGREES, file], "\n".join([less, *rest, ""]))
                self.assertEqual(ended.status, 1, ended)

    def test_numbers_of_outputs(self):
        """With --outputs a number is that of the output in the file, and in a script that in the list of these; where
        an output is called by the number of another one, no number is taken."""
        cases = [
            (None, "f2", "f1 = x2\n", 3, ""),
            (None, "f2", "f2 = x2\n", 0, "f2: yes\n"),
            (None, "f2,f1", "f1 = x1\nf2 = x2\n", 0, "f2: yes\nf1: yes\n"),
            (None, "f2", "ring r = 2, (x1, x2), lp;\npoly f1 = x2;\n", 0, "f2: yes\n"),
            (["a-b", "c-d"], "c-d", "f1 = x2\n", 3, ""),
            (["a-b", "c-d"], "c-d", "f2 = x2\n", 0, "c-d: yes\n"),
            (["a*b", "c-d"], "c-d,f1", "f1 = x1\nf2 = x2\n", 0, "c-d: yes\nf1: yes\n"),
            (["f2", "b"], None, "f1 = x1\n", 3, ""),
            (["f2", "b"], "b", "f2 = x2\n", 3, ""),
        ]
        with tempfile.TemporaryDirectory() as folder:
            file = pathlib.Path(folder) / "f.pla"
            for names, chosen, text, status, out in cases:
                file.write_text(description(2, 2, "f", [("1-", "10"), ("-1", "01")], results=names))
                with self.case((names, chosen, text)):
                    ended = run([*AGREES, file, *([] if chosen is None else ["--outputs", chosen])], text)
                    self.assertEqual((ended.status, ended.out), (status, out), ended)

    def test_not_least(self):
        """A polynomial that takes every given value agrees, though it is not the least one."""
        self.assertEqual(run([*AGREES, EXAMPLES / "half_adder.pla"], "graph = 1 + sum*carry\n").status, 0)
        self.assertEqual(run([*JUDGE, EXAMPLES / "half_adder.pla"], "graph = 1 + sum*carry\n").status, 1)

    def test_statuses(self):
        file = EXAMPLES / "half_adder.pla"
        cases = [
            ([], "", 2),
            ([file, "--relations", "x"], "", 2),
            ([file, "--outputs", "x"], "graph = 1\n", 12),
            ([file], "", 3),
            ([file], "0 = a\n", 3),
            ([file], "graph = z\n", 3),
            ([EXAMPLES / "contradiction.pla"], "f1 = x1\n", 4),
            ([EXAMPLES / "one_hot.pla", "--relations", "24"], "", 6),
            ([EXAMPLES / "nothing.pla"], "", 8),
        ]
        for words, text, status in cases:
            with self.case(f"{words} {text!r}"):
                ended = run([*AGREES, *words], text)
                self.assertEqual((ended.status, ended.out), (status, ""), ended)
                self.assertNotIn("Traceback", ended.err)

    def test_relations(self):
        """As many as there are monomials whose columns depend on those of others, and each is 0 at each care point."""
        draws = random.Random(9)
        for _ in range(10):
            sample = Sample(draws)
            degree = draws.randint(0, sample.inputs)
            for output in range(sample.outputs):
                with self.case(f"{degree} {sample.text}"):
                    found = relations.relations(sample.description(), output, degree)
                    columns = [
                        plain_polynomials.column(mask, sample.points[output])
                        for mask in range(2**sample.inputs)
                        if bin(mask).count("1") <= degree
                    ]
                    self.assertEqual(len(found), len(columns) - rank(columns))
                    masks = [set(relation.masks(tuple(sample.names))) for relation in found]
                    for relation in masks:
                        self.assertTrue(relation)
                        self.assertLessEqual(max(bin(mask).count("1") for mask in relation), degree)
                        self.assertFalse(any(plain_polynomials.value(relation, p) for p in sample.points[output]))
                    lasts = [max(relation, key=lambda mask: (bin(mask).count("1"), mask)) for relation in masks]
                    for place, relation in enumerate(masks):
                        self.assertEqual([last for last in lasts if last in relation], [lasts[place]])

    def test_no_relations(self):
        """Where there is none, this is said."""
        ended = run([*AGREES, EXAMPLES / "half_adder.pla", "--relations", "0"])
        self.assertEqual((ended.status, ended.out), (0, ""))
        self.assertEqual(ended.err, "agrees: output graph has no relation of at most degree 0\n")

    def test_limits_of_relations(self):
        """There is a limit of time and one of monomials, each with a message and what to do."""
        words = [*AGREES, EXAMPLES / "half_adder.pla", "--relations", "2", "--seconds", "1"]
        ended = run(words, env={**os.environ, "NFQ": self.script("nfq", "exec sleep 20")})
        self.assertEqual((ended.status, ended.out), (14, ""))
        self.assertEqual(
            ended.err, "agrees: no relations after 1 s: give more time by --seconds, or ask for a lower degree\n"
        )
        ended = run([*AGREES, EXAMPLES / "one_hot.pla", "--relations", "7"])
        self.assertEqual((ended.status, ended.out), (6, ""))
        self.assertIn("536155 monomials of 24 inputs have at most degree 7, and at most 100000 are asked", ended.err)
        self.assertIn("ask for a lower degree", ended.err)
        with self.case("elimination"), self.assertRaises(solving.TimeUp):
            clock = relations.Clock(1, lambda text: None)
            clock.deadline = 0
            relations.vanishing_sums([0], [{0}], clock)

    def test_progress(self):
        """On a terminal it is told how far the search is, and nothing stands there in the end."""
        for words, said in ((["--relations", "2"], ["0 of 11 normal forms", "0 of 11 monomials eliminated"]), ([], [])):
            with self.case(words):
                ours, theirs = pty.openpty()
                ended = run([*AGREES, EXAMPLES / "half_adder.pla", *words], "graph = 1\n", stderr=theirs)
                os.close(theirs)
                told = os.read(ours, 10000).decode() if said else ""
                os.close(ours)
                self.assertEqual(ended.status, 0)
                for part in said:
                    self.assertIn(f"agrees: {EXAMPLES / 'half_adder.pla'}: {part}", told)
                self.assertTrue(told.endswith("\r\x1b[K") or not said, repr(told))

    def test_advanced_encryption_standard(self):
        """The S-box of the Advanced Encryption Standard has 39 quadratic relations, found here by plain arithmetic."""
        box = advanced_encryption_standard()
        self.assertEqual((box[0], box[1], box[0x53]), (0x63, 0x7C, 0xED))
        points = [f"{value:08b}{argument:08b}" for argument, value in enumerate(box)]
        text = description(16, 1, "fr", [(point, "1") for point in points])
        with tempfile.TemporaryDirectory() as folder:
            file = pathlib.Path(folder) / "f.pla"
            file.write_text(text)
            ended = run([*AGREES, file, "--relations", "2"])
        self.assertEqual(ended.status, 0)
        lines = ended.out.splitlines()
        self.assertEqual(len(lines), 39)
        names = [f"x{place}" for place in range(1, 17)]
        columns = []
        for line in lines:
            terms = [[] if term == "1" else list(map(names.index, term.split("*"))) for term in line[4:].split(" + ")]
            self.assertLessEqual(max(map(len, terms)), 2)
            for point in points:
                self.assertEqual(sum(all(point[place] == "1" for place in term) for term in terms) % 2, 0)
            columns.append(sum(1 << sum(1 << place for place in term) for term in terms))
        self.assertEqual(rank(columns), 39)


def rank(columns):
    """The rank of numbers as vectors of bits."""
    kept = {}
    for value in columns:
        while value and value.bit_length() in kept:
            value ^= kept[value.bit_length()]
        if value:
            kept[value.bit_length()] = value
    return len(kept)


def advanced_encryption_standard():
    """The S-box: the inverse in the field of 256 elements, and an affine map of its bits."""

    def product(one, other):
        found = 0
        while other:
            found ^= one if other & 1 else 0
            one = one << 1 ^ (0x11B if one & 0x80 else 0)
            other >>= 1
        return found

    box = []
    for argument in range(256):
        inverse = next((other for other in range(256) if product(argument, other) == 1), 0)
        value = 0x63
        for turn in range(5):
            value ^= (inverse << turn | inverse >> (8 - turn)) & 0xFF
        box.append(value)
    return box


if __name__ == "__main__":
    unittest.main()
