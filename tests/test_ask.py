"""Queries in any form, their normal forms, and the bases of two outputs; and ways in: tables, points, covers and tables
of yosys.

What is due comes from the values at each point and from plain elimination, by tests/plain_polynomials.py.
"""

import itertools
import os
import random
import re
import sys
import unittest

from tests import plain_polynomials
from tests.harness import EXAMPLES, TOP, InFolder, Test, description, installed, named_programs, run
from tests.plain_descriptions import meets
from tests.test_judge import Sample

sys.path.insert(0, str(TOP / "tools"))

import leastanf
from leastanf import answers, descriptions, ideals, queries, tables, transcripts

ASK = [sys.executable, TOP / "tools/ask"]
DESCRIBE = [sys.executable, TOP / "tools/describe"]
NAMES = ["a", "b", "c[0]"]

# Texts over a, b and c[0], each with what it is in Python, whose & binds more than ^ and that more than |.
FORMS = [
    ("(a+b)*c[0]", "(a ^ b) & c"),
    ("b*a", "a & b"),
    ("a^2", "a"),
    ("a^2*b**3 + c[0]", "a & b ^ c"),
    ("~a", "1 ^ a"),
    ("!a & ~b", "(1 ^ a) & (1 ^ b)"),
    ("~(a*b)", "1 ^ a & b"),
    ("~a*b", "(1 ^ a) & b"),
    ("a | b", "a | b"),
    ("a | b & c[0]", "a | b & c"),
    ("a + b | c[0]", "(a ^ b) | c"),
    ("a ^ b ^ c[0]", "a ^ b ^ c"),
    ("a - b", "a ^ b"),
    ("- a - b*c[0]", "a ^ b & c"),
    ("a & b ^ c[0]", "a & b ^ c"),
    ("(a + b) & c[0]", "(a ^ b) & c"),
    ("a + (b & c[0])", "a ^ b & c"),
    ("1'b1 ^ a", "1 ^ a"),
    ("1'b0 ^ a*1'b1", "a"),
    ("a + a", "0"),
    ("2*a + 3*b + 1", "b ^ 1"),
    ("a**0", "1"),
    ("(((a)))", "a"),
    ("((a + b)*(b + c[0]) + 1)**3", "(a ^ b) & (b ^ c) ^ 1"),
    ("a ^ 2 ^ b^12", "a ^ b"),
    (" a*b*c[0]+a * b+\ta", "a & b & c ^ a & b ^ a"),
    ("x1*x(2) + x_3", "a & b ^ c"),
    ("x[1] + x2", "a ^ b"),
    ("c_0_ + c'0'", "0"),
    ("0_R + 1_R*a", "a"),
    ("0", "0"),
    ("1", "1"),
]

# Texts that are refused, each with a part of what is said.
REFUSED = [
    ("", "it ends"),
    ("a +", "it ends"),
    ("(a", "it ends"),
    ("a)", "')' stands"),
    ("a b", "'b' stands"),
    ("2 a", "'a' stands"),
    ("d", "'d' is no input"),
    ("ab", "'ab' is no input"),
    ("c[1]", "'c[1]' is no input"),
    ("c", "'c' is no input"),
    ("a^1", "a power or a sum"),
    ("a^0", "a power or a sum"),
    ("a ^ 1", "a power or a sum"),
    ("a ^ 3 ^ b", "a power or a sum"),
    ("(a + b)^13", "a power or a sum"),
    ("a + b & c[0]", "brackets"),
    ("a & b + c[0]", "brackets"),
    ("a**b", "a power is wanted"),
    ("a = b", "'=' stands"),
    ("(" * 3000 + "a" + ")" * 3000, "nested"),
    ("*".join(f"(a + {place} + b)" for place in range(3)) + "*", "it ends"),
]


def setUpModule():
    """The package runs the programs that are tried."""
    os.environ.update(named_programs())


class Forms(Test):
    """Polynomials in any form."""

    def setUp(self):
        text = description(3, 1, "f", [("111", "1")], names=NAMES)
        self.names = queries.Names(descriptions.parse(text.encode(), "f.pla"))

    def test_values(self):
        for text, wanted in FORMS:
            with self.case(text):
                found = queries.parse(text, self.names)
                for bits in itertools.product((0, 1), repeat=3):
                    due = eval(wanted, dict(zip("abc", bits)))  # the text stands above
                    self.assertEqual(plain_polynomials.value(found, "".join(map(str, bits))), due)

    def test_random(self):
        """Random expressions, whose values Python finds."""
        draws = random.Random(11)
        for _ in range(300):
            text, wanted = self.expression(draws, 4)
            with self.case(text):
                found = queries.parse(text, self.names)
                for bits in itertools.product((0, 1), repeat=3):
                    due = eval(wanted, dict(zip("abc", bits)))  # the text is made here
                    self.assertEqual(plain_polynomials.value(found, "".join(map(str, bits))), due)

    def expression(self, draws, depth):
        """An expression and the same in Python, with brackets around each part."""
        if depth == 0 or draws.random() < 0.1:
            return draws.choice([("a", "a"), ("b", "b"), ("c[0]", "c"), ("0", "0"), ("1", "1")])
        kind = draws.choice(["sum", "product", "or", "complement", "power"])
        one, same = self.expression(draws, depth - 1)
        if kind == "complement":
            return f"{draws.choice('~!')}({one})", f"(1 ^ ({same}))"
        if kind == "power":
            power = draws.randint(2, 9)
            return f"({one}){'**' if power % 2 else '^'}{power}", f"({same})"
        other, also = self.expression(draws, depth - 1)
        signs = {"sum": ("+^-", "^"), "product": ("*&", "&"), "or": ("|", "|")}[kind]
        return f"({one}) {draws.choice(signs[0])} ({other})", f"(({same}) {signs[1]} ({also}))"

    def test_refused(self):
        for text, said in REFUSED:
            with self.case(text[:40]):
                with self.assertRaises(queries.QueryError) as caught:
                    queries.parse(text, self.names)
                self.assertIn(said, str(caught.exception))

    def test_too_long(self):
        """A product of more terms than there may be is refused, and not begun."""
        text = description(62, 1, "f", [("1" * 62, "1")])
        names = queries.Names(descriptions.parse(text.encode(), "f.pla"))
        with self.assertRaises(queries.QueryError):
            queries.parse("*".join(f"(x{place} + 1)" for place in range(1, 63)), names)

    def test_names(self):
        """A name of the file comes before another one of an input, and a name that could be two inputs is none."""
        text = description(3, 1, "f", [("111", "1")], names=["x3", "x_1", "x1"])
        names = queries.Names(descriptions.parse(text.encode(), "f.pla"))
        self.assertEqual(queries.parse("x3", names), {4})
        self.assertEqual(queries.parse("x_1", names), {2})
        self.assertEqual(queries.parse("x1", names), {1})
        with self.assertRaises(queries.QueryError):
            queries.parse("x2", names)
        for given in (["x0", "x1", "x2"], ["x[2]", "x[1]", "x[0]"]):
            text = description(3, 1, "f", [("111", "1")], names=given)
            names = queries.Names(descriptions.parse(text.encode(), "f.pla"))
            self.assertEqual(queries.parse(given[0], names), {4})
            for other in ("x3", "x_3", "x(3)", "x[3]"):
                with self.case((given, other)), self.assertRaises(queries.QueryError):
                    queries.parse(other, names)
        text = description(3, 1, "f", [("111", "1")], names=["a", "b", "x-1"])
        names = queries.Names(descriptions.parse(text.encode(), "f.pla"))
        with self.assertRaises(queries.QueryError):
            queries.parse("x_1", names)
        self.assertEqual(queries.parse("x_2 + x-1", names), {2, 1})
        text = description(2, 1, "f", [("11", "1")], names=["a[0]", "a_0_"])
        names = queries.Names(descriptions.parse(text.encode(), "f.pla"))
        self.assertEqual(queries.parse("a_0_", names), {1})


class NormalForms(InFolder):
    """Normal forms by ask, and the bases of two outputs."""

    def test_random(self):
        """The normal form has the values at each care point, of standard monomials alone."""
        draws = random.Random(12)
        for _ in range(12):
            sample = Sample(draws)
            (self.here / "f.pla").write_text(sample.text)
            asked, wanted = [], []
            for _ in range(6):
                output = draws.randrange(sample.outputs)
                masks = {draws.randrange(2**sample.inputs) for _ in range(draws.randint(0, 5))}
                terms = plain_polynomials.text(masks, sample.names).split(" + ")
                draws.shuffle(terms)
                asked.append(f"f{output + 1} = {draws.choice(['+', ' + ', ' ^ ', '-']).join(terms)}")
                points = sample.points[output]
                ones = {point for point in points if plain_polynomials.value(masks, point)}
                least = plain_polynomials.Points(sample.inputs, points).least(ones)
                wanted.append(f"f{output + 1} = {plain_polynomials.text(least, sample.names)}\n")
            if any(re.search(r"\^ ?[01]\b", text) for text in asked):
                continue
            with self.case(sample.text):
                ended = run([*ASK, self.here / "f.pla", *asked])
                self.assertEqual((ended.status, ended.out), (0, "".join(wanted)), ended)
                lines = "".join(f"{text}\n\n" for text in asked)
                self.assertEqual(run([*ASK, "reduce", self.here / "f.pla", "-"], lines).out, "".join(wanted))

    def test_order(self):
        file = EXAMPLES / "half_adder.pla"
        points = ["0000", "0101", "1001", "1110"]
        least = plain_polynomials.Points(4, points).least({"0101", "1001"})
        wanted = plain_polynomials.text(least, ["b", "a", "carry", "sum"])
        ended = run([*ASK, file, "--order", "b,a,carry,sum", "a+b"])
        self.assertEqual(ended.out, f"graph = {wanted}\n")

    def test_holds(self):
        file = EXAMPLES / "half_adder.pla"
        ended = run([*ASK, file, "--holds", "sum*carry", "sum + a + b", "carry + a*b"])
        self.assertEqual((ended.status, ended.out), (0, "graph: yes\n" * 3))
        ended = run([*ASK, file, "--holds", "sum*carry", "carry + a"])
        self.assertEqual((ended.status, ended.out), (1, "graph: yes\ngraph: no\n"))

    def test_joint_bases(self):
        draws = random.Random(13)
        tried = 0
        while tried < 8:
            sample = Sample(draws)
            if sample.outputs != 2:
                continue
            tried += 1
            (self.here / "f.pla").write_text(sample.text)
            sets = [set(points) for points in sample.points]
            for mode, points in (("union", sets[0] | sets[1]), ("meet", sets[0] & sets[1])):
                with self.case(f"{mode} {sample.text}"):
                    basis = plain_polynomials.Points(sample.inputs, sorted(points)).basis()
                    wanted = "".join(f"0 = {plain_polynomials.text(element, sample.names)}\n" for element in basis)
                    ended = run([*ASK, mode, self.here / "f.pla"])
                    self.assertEqual((ended.status, ended.out), (0, wanted), ended)

    def test_no_elements(self):
        """A basis without elements is told, since nothing is printed of it."""
        for mode in ("union", "meet"):
            with self.case(mode):
                ended = run([*ASK, mode, EXAMPLES / "full_adder.pla"])
                said = "ask: the basis has no element: 0 alone is 0 at all of the points\n"
                self.assertEqual((ended.status, ended.out, ended.err), (0, "", said))

    def test_two_of_more_outputs(self):
        file = EXAMPLES / "seven_segments.pla"
        self.assertEqual(run([*ASK, "meet", file]).status, 12)
        digits = [f"{place:04b}" for place in range(10)]
        basis = plain_polynomials.Points(4, digits).basis()
        wanted = "".join(f"0 = {plain_polynomials.text(element, ['d8', 'd4', 'd2', 'd1'])}\n" for element in basis)
        ended = run([*ASK, "meet", file, "--outputs", "g,a"])
        self.assertEqual((ended.status, ended.out), (0, wanted), ended)

    def test_long_queries(self):
        """A polynomial that is longer than nfq takes is asked in parts, whose normal forms are summed."""
        inputs = 20
        names = [f"x{place}" for place in range(1, inputs + 1)]
        masks = set(random.Random(14).sample(range(2**inputs), 150_000))
        points = ["0" * inputs, "1" * inputs, "01" * 10, "10" * 10]
        text = description(inputs, 1, "fr", [(point, "1") for point in points])
        given = descriptions.parse(text.encode(), "f.pla")
        self.assertGreater(len(plain_polynomials.text(masks, names)), descriptions.MOST_BYTES)
        found = ideals.care_points(given, 0, range(inputs)).normal_forms([masks, {0}])
        ones = {point for point in points if plain_polynomials.value(masks, point)}
        values = [{point for point in points if plain_polynomials.value(form, point)} for form in found]
        self.assertEqual(values, [ones, set(points)])
        self.assertLessEqual(len(found[0]), len(points))

    def test_inputs_that_no_row_fixes(self):
        """More inputs than the program takes, where the rows and the query have few of them."""
        inputs = 70
        text = description(inputs, 1, "fr", [("11" + "-" * 68, "1"), ("00" + "-" * 68, "0")])
        (self.here / "f.pla").write_text(text)
        ended = run([*ASK, self.here / "f.pla", "x1*x70 + x2 + x1"])
        self.assertEqual((ended.status, ended.out), (0, "f1 = x2*x70\n"), ended)

    def test_statuses(self):
        file = EXAMPLES / "half_adder.pla"
        cases = [
            ([], 2),
            ([file], 2),
            (["union", file, "a"], 2),
            (["union", "--holds", file], 2),
            ([file, "--outputs", "a", "a"], 2),
            (["-", "-"], 2),
            ([self.here / "none", "a"], 8),
            ([file, "z"], 3),
            ([file, "a", "a +"], 3),
            ([file, "a + \x1b\n(b"], 3),
            ([file, "other = a"], 3),
            ([file, "-"], 3),
            ([EXAMPLES / "full_adder.pla", "a"], 3),
            ([EXAMPLES / "contradiction.pla", "x1"], 4),
            ([file, "--order", "a", "a"], 12),
            (["union", file], 12),
            (["union", EXAMPLES / "full_adder.pla", "--outputs", "s,s"], 12),
        ]
        for words, status in cases:
            with self.case(str(words)):
                ended = run([*ASK, *words], "")
                self.assertEqual((ended.status, ended.out), (status, ""), ended)
                self.assertNotIn("Traceback", ended.err)
                self.assertEqual(len(ended.err.splitlines()), 1, ended.err)
        with self.case("no program"):
            ended = run([*ASK, file, "a"], env={**os.environ, "NFQ": "/no/program"})
            self.assertEqual((ended.status, ended.out), (69, ""), ended)
        for said in ("", "yes", "f1 = z", "f2 = x1"):
            with self.case(f"a program that says {said!r}"):
                script = self.script("nfq", f"cat > made\nprintf '{said}\\n'")
                ended = run([*ASK, file, "a"], env={**os.environ, "NFQ": script}, cwd=self.here)
                self.assertEqual((ended.status, ended.out), (70, ""), ended)


# Parts of random texts, for each reader something that it takes.
PARTS = [
    "s = a*b + c\n0 = a + 1\n",
    "t = 1\n",
    "G[1]=a^2+a\nG[2]=b\n",
    "ideal I1 = a, b;\n",
    "poly f2 = (a+b)*c;\n",
    "o5 = ideal (a, b)\n",
    "matrix {{a}}\n",
    "~a*b + !c",
    "x(1)*x_2",
    "1'b1",
    "0_R",
    "\\a | \\s\n1'0 | 1'1\n",
    "0x6996",
    ".i 2\n.o 1\n.type esop\n1- 1\n-1 1\n",
    "12, 0x3 x",
    *" + * ^ ** = ( ) [ ] { } | \n \0 \u00b3 \u0663 \u2028".split(" "),
    "9" * 5000,
]


class Random(Test):
    """Random texts: each reader answers, or refuses by an exception of its own."""

    def test_readers(self):
        draws = random.Random(19)
        text = description(3, 2, "fr", [("111", "11")], names="abc", results="st")
        given = descriptions.parse(text.encode(), "f.pla")
        names = queries.Names(given)
        readers = [
            (answers.AnswerError, lambda text: answers.parse(text, "abc", "st")),
            (answers.AnswerError, lambda text: answers.parse_ideal(text, "abc")),
            (transcripts.TranscriptError, lambda text: transcripts.parse(text, given, names)),
            (queries.QueryError, lambda text: queries.parse(text, names)),
            (tables.TableError, lambda text: tables.table(tables.numbers(text))),
            (tables.TableError, lambda text: tables.table(tables.hexadecimal(text))),
            (tables.TableError, tables.evaluated),
            ((descriptions.DescriptionError, tables.TableError), lambda text: tables.exclusive_or(text.encode())),
        ]
        read = [0] * len(readers)
        for _ in range(1500):
            text = self.mutated(draws)
            with self.case(repr(text[:200])):
                for place, (refusal, reader) in enumerate(readers):
                    try:
                        reader(text)
                        read[place] += 1
                    except refusal:
                        pass
        self.assertGreater(sum(read), 100)

    @staticmethod
    def mutated(draws):
        """Some parts, with pieces put in, left out and changed."""
        text = "".join(draws.choice(PARTS) for _ in range(draws.randint(1, 4)))
        for _ in range(draws.randint(0, 4)):
            place, kind = draws.randrange(len(text) + 1), draws.random()
            more = draws.choice(PARTS) if kind < 0.4 else "" if kind < 0.7 else chr(draws.randrange(256))
            text = text[:place] + more + text[place + draws.randint(0, 2) :]
        return text


def parity_cover(inputs):
    """The cover of type esop that has a row for each input."""
    cubes = ["-" * place + "1" + "-" * (inputs - 1 - place) for place in range(inputs)]
    return description(inputs, 1, "esop", [(cube, "1") for cube in cubes]).encode()


class Tables(InFolder):
    """Ways in."""

    def values(self, given, output=0):
        """The values that a description gives to each point: 0, 1 or None."""
        found = []
        for place in range(2**given.inputs):
            word = f"{place:0{given.inputs}b}"
            sets = {given.set_of(row.outputs[output]) for row in given.rows if meets(row.inputs, word)}
            if given.kind in ("f", "fd"):
                found.append(None if "free" in sets else int("on" in sets))
            else:
                self.assertFalse({"on", "off"} <= sets)
                found.append(None if "free" in sets or not sets - {None} else int("on" in sets))
        return found

    def test_table(self):
        draws = random.Random(15)
        for _ in range(20):
            width, bits = draws.randint(1, 5), draws.randint(1, 4)
            table = [draws.choice([None, draws.randrange(2**bits), draws.randrange(2**bits)]) for _ in range(2**width)]
            with self.case(str(table)):
                given = tables.table(table, bits)
                for output in range(bits):
                    wanted = [None if value is None else value >> (bits - 1 - output) & 1 for value in table]
                    self.assertEqual(self.values(given, output), wanted)

    def test_solved(self):
        """A table is solved as a file is."""
        box = [12, 5, 6, 11, 9, 0, 10, 13, 3, 14, 15, 8, 4, 7, 1, 2]
        names = [f"x{place}" for place in (3, 2, 1, 0)], [f"y{place}" for place in (3, 2, 1, 0)]
        found = leastanf.solve(tables.table(box, inputs=names[0], outputs=names[1]))
        self.assertEqual(found.text(), (EXAMPLES / "present.anf").read_text())
        for place, value in enumerate(box):
            point = dict(zip(names[0], map(int, f"{place:04b}")))
            self.assertEqual([output.polynomial(point) for output in found], list(map(int, f"{value:04b}")))
        graph = tables.graph(box, inputs=names[1] + names[0])
        self.assertEqual(leastanf.solve(graph, "basis").text(), (EXAMPLES / "present_graph.basis").read_text())

    def test_numbers(self):
        text = "static const int box[4] = // four\n{0x63, 0b11, 7 /* seven */, x};\n# end"
        self.assertEqual(tables.numbers(text.split("= ")[1]), [0x63, 3, 7, None])
        self.assertEqual(tables.numbers("00 07 0"), [0, 7, 0])
        for text in ("010", "1 08", "0777"):
            with self.case(text), self.assertRaises(tables.TableError):
                tables.numbers(text)
        self.assertEqual(tables.numbers("1 2,3\n-"), [1, 2, 3, None])
        for bad in ("1 2 y", "0x", "1.5", "-1", "1,,2", "{1, 2,\n, 0, 3}"):
            with self.case(bad), self.assertRaises(tables.TableError):
                tables.numbers(bad)

    def test_hexadecimal(self):
        draws = random.Random(16)
        for width in (2, 3, 5):
            values = [draws.randrange(2) for _ in range(2**width)]
            number = sum(value << place for place, value in enumerate(values))
            digits = f"{number:0{max(1, 2**width // 4)}x}"
            with self.case(digits):
                self.assertEqual(tables.hexadecimal(digits), values)
                self.assertEqual(tables.hexadecimal(f"0x{digits.upper()}"), values)
                lowest = tables.hexadecimal(digits, first_is_lowest=True)
                for place in range(2**width):
                    self.assertEqual(lowest[int(f"{place:0{width}b}"[::-1], 2)], values[place])
        self.assertEqual(tables.hexadecimal(" 69_96 6996\r\n"), tables.hexadecimal("0x69966996"))
        for bad in ("", "0x", "123", "xyz", "6996 6996 1", "6996\n8000\n", (tables.MOST_VALUES // 2) * "0"):
            with self.case(bad[:20]), self.assertRaises(tables.TableError):
                tables.hexadecimal(bad)

    def test_hexadecimal_as_abc_has_it(self):
        """ABC reads a truth table whose first input is the lowest bit."""
        ended = run([installed("berkeley-abc"), "-q", "read_truth D8; collapse; write_pla f.pla"], cwd=self.here)
        self.assertEqual(ended.status, 0, ended)
        theirs = leastanf.solve(str(self.here / "f.pla"))
        ours = leastanf.solve(tables.table(tables.hexadecimal("D8", first_is_lowest=True), inputs=theirs.inputs))
        self.assertEqual(ours.outputs[0].polynomial, theirs.outputs[0].polynomial)

    def test_points(self):
        given = tables.points(["01-", (1, 1, 1)], [0], width=3)
        self.assertEqual(self.values(given), [0, None, 1, 1, None, None, None, 1])
        for bad in (([],), (["01", "1"],), (["02"],), ([8], [], 3), ([1],)):
            with self.case(str(bad)), self.assertRaises(tables.TableError):
                tables.points(*bad)

    def test_exclusive_or(self):
        """The points that an odd number of cubes has, of random covers; rows are disjoint."""
        draws = random.Random(17)
        for _ in range(30):
            inputs, outputs = draws.randint(1, 6), draws.randint(1, 2)
            parts = ("01--", inputs), ("01", outputs)
            rows = [
                ["".join(draws.choice(symbols) for _ in range(size)) for symbols, size in parts]
                for _ in range(draws.randint(0, 8))
            ]
            text = description(inputs, outputs, "esop", rows)
            with self.case(text):
                given = tables.exclusive_or(text.encode())
                for output in range(outputs):
                    wanted = []
                    for place in range(2**inputs):
                        word = f"{place:0{inputs}b}"
                        wanted.append(sum(outs[output] == "1" and meets(cube, word) for cube, outs in rows) % 2)
                    self.assertEqual(self.values(given, output), wanted)
                    cubes = [row.inputs for row in given.rows if row.outputs[output] == "1"]
                    for one, other in itertools.combinations(cubes, 2):
                        self.assertTrue(any({a, b} == {"0", "1"} for a, b in zip(one, other)))
        with self.case("other symbols for a free input and for 1"):
            given = tables.exclusive_or(description(2, 1, "esop", [("12", "4"), ("-1", "~")]).encode())
            self.assertEqual(self.values(given), [0, 0, 1, 1])
        with self.case("as many rows as may be"):
            self.assertEqual(len(tables.exclusive_or(parity_cover(17)).rows), tables.MOST_ROWS)
        with self.case("twice as many"), self.assertRaises(tables.TableError):
            tables.exclusive_or(parity_cover(18))
        with self.case("another type"), self.assertRaises(descriptions.DescriptionError):
            tables.exclusive_or(description(1, 1, "f", [("1", "1")]).encode())

    def test_bad_tables(self):
        for values in ([], [1], [1, 2, 3], [0, 4], [0, -1], [0, "1"], [0, 1.0]):
            with self.case(str(values)), self.assertRaises(tables.TableError):
                tables.table(values, 2)
        with self.case("too many values"), self.assertRaisesRegex(tables.TableError, "more than 1048576 values"):
            tables.table([0] * (2 * tables.MOST_VALUES), 1)
        with self.assertRaises(tables.TableError):
            tables.table([0, 1], inputs=["a", "b"])
        with self.assertRaises(tables.TableError):
            tables.table([0, 1], inputs=["a b"])
        with self.assertRaises(tables.TableError):
            tables.table([0, 1], 1025)
        with self.assertRaises(tables.TableError):
            tables.points(["1" * 1025])
        self.assertEqual((tables.table([0, 1], 1024).outputs, tables.points(["1" * 1024]).inputs), (1024, 1024))

    def test_constants(self):
        """Constants of yosys: numbers of 32 bits, those of equal bits, and bits without a value."""
        cases = [("5", f"{5:032b}"), ("-1", 32 * "1"), ("4'1", "1111"), ("3'1z-", "1xx"), ("2'x", "xx"), ("1'0", "0")]
        for word, bits in cases:
            with self.case(word):
                self.assertEqual(tables.constant_bits(word), bits)
        for word in ("3'10", "2'2", "'1", "0x1"):
            with self.case(word), self.assertRaises(tables.TableError):
                tables.constant_bits(word)

    def test_yosys(self):
        """A circuit with x, by what yosys prints of it."""
        (self.here / "f.v").write_text(
            "module f(input [1:0] a, input b, output reg [1:0] s, output [31:0] w);\n"
            "always @* case (a) 2'd0: s = 2'b1x; 2'd1: s = {b, 1'b0}; 2'd2: s = 2'b01; default: s = 2'bx; endcase\n"
            "assign w = {31'b0, b};\nendmodule\n"
        )
        script = "read_verilog f.v; proc -norom; flatten; tee -q -o f.table eval -table a,b -show s -show w"
        ended = run([installed("yosys"), "-q", "-p", script], cwd=self.here)
        self.assertEqual(ended.status, 0, ended)
        given = tables.evaluated((self.here / "f.table").read_text())
        self.assertEqual(given.input_names, ["a[1]", "a[0]", "b"])
        self.assertEqual(given.output_names[:2], ["s[1]", "s[0]"])
        self.assertEqual(self.values(given, 0), [1, 1, 0, 1, 0, 0, None, None])
        self.assertEqual(self.values(given, 1), [None, None, 0, 0, 1, 1, None, None])
        self.assertEqual(self.values(given, 33), [0, 1] * 4)
        rows = ("1'0 | 1'1 1'1", "2'0x | 1'1", "3'01 | 1'1", "1'0 | 4294967296", "1'0 | -2147483649")
        for bad in ("", "no table", *(f"a | b\n{row}\n" for row in rows)):
            with self.case(bad), self.assertRaises(tables.TableError):
                tables.evaluated(bad)

    def test_command(self):
        cases = [
            (["numbers", "-"], "3 1 2 0\n", 0, ".i 2\n.o 2\n.type fr\n00 11\n01 01\n10 10\n11 00\n.e\n"),
            (["numbers", "-", "--bits", "3"], "3 x", 0, ".i 1\n.o 3\n.type fr\n0 011\n.e\n"),
            (["graph", "-"], "1 0", 0, ".i 2\n.o 1\n.type fr\n.ob graph\n10 1\n01 1\n.e\n"),
            (["hex", "-", "--inputs", "a,b", "--outputs", "c"], "8", 0, None),
            (["points", "-"], "01 # one\n\n1- 0\n", 0, ".i 2\n.o 1\n.type fr\n01 1\n1- 0\n.e\n"),
            (["esop", "-"], ".i 2\n.o 1\n.type esop\n1- 1\n-1 1\n", 0, ".i 2\n.o 1\n.type f\n01 1\n10 1\n.e\n"),
            (["yosys", "-"], "\\a | \\s\n1'0 | 1'1\n", 0, ".i 1\n.o 1\n.type fr\n.ilb a\n.ob s\n0 1\n.e\n"),
            ([], "", 2, ""),
            (["numbers"], "", 2, ""),
            (["other", "-"], "", 2, ""),
            (["numbers", "-", "--bits", "0"], "", 2, ""),
            (["numbers", "none"], "", 8, ""),
            (["numbers", "-"], "1 2 3", 3, ""),
            (["hex", "-"], "z", 3, ""),
            (["points", "-"], "01 2", 3, ""),
            (["points", "-"], "", 3, ""),
            (["esop", "-"], ".i 2\n.o 1\n11 1\n", 3, ""),
            (["yosys", "-"], "", 3, ""),
            (["hex", "-", "--inputs", "a"], "8", 3, ""),
            (["graph", "-", "--outputs="], "1 0", 3, ""),
            (["points", "-", "--outputs="], "01", 3, ""),
        ]
        for words, text, status, wanted in cases:
            with self.case(f"{words} {text!r}"):
                ended = run([*DESCRIBE, *words], text, cwd=self.here)
                self.assertEqual(ended.status, status, ended)
                self.assertNotIn("Traceback", ended.err)
                if wanted is not None:
                    self.assertEqual(ended.out, wanted)


if __name__ == "__main__":
    unittest.main()
