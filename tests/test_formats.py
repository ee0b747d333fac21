"""Answers in each format, evaluated at each point by the program that reads the format, where it is installed.

The values that are due come from the monomials alone. Of Sage, which is not asked for, the script is run by Python with
a small ring of its own.
"""

import concurrent.futures
import itertools
import json
import os
import pathlib
import random
import re
import subprocess
import sys
import tempfile
import unittest

from tests.harness import TOP, InFolder, Test, description, installed, run
from tests.plain_descriptions import meets, names, read

sys.path.insert(0, str(TOP / "tools"))

from leastanf import descriptions, formats, tables
from leastanf.answers import Answer, Output
from leastanf.formats import circuits, naming, rings
from leastanf.polynomials import Monomials, Polynomial

PLAIN = ["a", "b", "c", "d"]
# Names that a language keeps for itself, that are no word in it, that begin with a sign, or that the writer uses
# itself.
HARD = ["begin", "a[0]", "_x", "lambda"]
HARDER = ["f1", "n1", "r", "I1"]
HARDEST = ["a.b<1>", "gens", "R", "F"]
WORDS = ["list", "std", "module", "in"]
# Names that no language takes: the last one ends with a backslash.
SIGNS = ["a#b", "$", "out'", "x\\"]
# The reserved words of SystemVerilog, IEEE 1800-2017, by the standard that has them first.
VERILOG = (
    # IEEE 1364-1995
    "always and assign begin buf bufif0 bufif1 case casex casez cmos deassign default defparam disable edge "
    "else end endcase endfunction endmodule endprimitive endspecify endtable endtask event for force forever "
    "fork function highz0 highz1 if ifnone initial inout input integer join large macromodule medium module "
    "nand negedge nmos nor not notif0 notif1 or output parameter pmos posedge primitive pull0 pull1 pulldown "
    "pullup rcmos real realtime reg release repeat rnmos rpmos rtran rtranif0 rtranif1 scalared small specify "
    "specparam strong0 strong1 supply0 supply1 table task time tran tranif0 tranif1 tri tri0 tri1 triand trior "
    "trireg vectored wait wand weak0 weak1 while wire wor xnor xor "
    # IEEE 1364-2001
    "automatic cell config design endconfig endgenerate generate genvar incdir include instance liblist "
    "library localparam noshowcancelled pulsestyle_ondetect pulsestyle_onevent showcancelled signed unsigned "
    "use "
    # IEEE 1364-2005
    "uwire "
    # IEEE 1800-2005
    "alias always_comb always_ff always_latch assert assume before bind bins binsof bit break byte chandle "
    "class clocking const constraint context continue cover covergroup coverpoint cross dist do endclass "
    "endclocking endgroup endinterface endpackage endprogram endproperty endsequence enum expect export "
    "extends extern final first_match foreach forkjoin iff ignore_bins illegal_bins import inside int "
    "interface intersect join_any join_none local logic longint matches modport new null package packed "
    "priority program property protected pure rand randc randcase randsequence ref return sequence shortint "
    "shortreal solve static string struct super tagged this throughout timeprecision timeunit type typedef "
    "union unique var virtual void wait_order wildcard with within "
    # IEEE 1800-2009
    "accept_on checker endchecker eventually global implies let nexttime reject_on restrict s_always "
    "s_eventually s_nexttime s_until s_until_with strong sync_accept_on sync_reject_on unique0 until "
    "until_with untyped weak "
    # IEEE 1800-2012
    "implements interconnect nettype soft"
).split()


def value(polynomial, point):
    """The value of a polynomial at a point, by its monomials."""
    total = 0
    for monomial in polynomial.monomials:
        factors = [1 - point[factor[1:]] if factor[0] == "~" else point[factor] for factor in monomial]
        total ^= all(factors)
    return int(total)


def functions(given):
    """The polynomials of an answer, by the names that the formats give them."""
    found = []
    for output in given:
        found.append((output.name, output.polynomial))
        found += [(f"{output.name}_{number}", element) for number, element in enumerate(output.basis, 1)]
    return found + [(f"ideal_{number}", element) for number, element in enumerate(given.ideal or (), 1)]


def points(inputs):
    """All points, each a mapping of names."""
    return [dict(zip(inputs, values)) for values in itertools.product((0, 1), repeat=len(inputs))]


def table(given):
    """The values of all polynomials of an answer at all points."""
    return [[value(polynomial, point) for _, polynomial in functions(given)] for point in points(given.inputs)]


def drawn(draws, inputs, complements=False, most=10):
    """A random polynomial, its terms in the order of the inputs."""
    masks = {draws.randrange(2 ** len(inputs)) for _ in range(draws.randint(0, most))}
    flips = [complements and draws.random() < 0.5 for _ in inputs]
    factors = [f"~{name}" if flip else name for name, flip in zip(inputs, flips)]
    return Polynomial(
        tuple(factor for place, factor in enumerate(factors) if mask >> (len(inputs) - 1 - place) & 1)
        for mask in sorted(masks, reverse=True)
    )


def samples():
    """Answers of interp without and with bases, of nfq reduce, of nfq union, and of complemented inputs."""
    draws = random.Random(8)
    found = []
    for inputs in (PLAIN, HARD, HARDER, HARDEST, WORDS, SIGNS, ["b"], ["x1", "x", "x11"], ["__debug__", "a"]):
        outputs = [Output(name, drawn(draws, inputs)) for name in ("s", "t", "u")]
        found.append((f"anf over {inputs}", Answer(inputs, outputs)))
        outputs = [Output(name, drawn(draws, inputs), [drawn(draws, inputs) for _ in range(2)]) for name in ("s", "t")]
        found.append((f"basis over {inputs}", Answer(inputs, outputs)))
        found.append((f"ideal over {inputs}", Answer(inputs, ideal=(drawn(draws, inputs), drawn(draws, inputs)))))
    given = [Output("s", drawn(draws, PLAIN)) for _ in range(3)]
    found.append(("three answers for one output", Answer(PLAIN, given)))
    given = [Output(name, drawn(draws, PLAIN)) for name in PLAIN]
    found.append(("outputs that have names of inputs", Answer(PLAIN, given)))
    given = [Output("s", drawn(draws, PLAIN), [drawn(draws, PLAIN)]), Output("s_1", drawn(draws, PLAIN))]
    found.append(("names of elements", Answer(PLAIN, given)))
    constants = [Output("zero", Polynomial(), [Polynomial([()])]), Output("one", Polynomial([()]), [Polynomial()])]
    found.append(("constants", Answer(PLAIN, constants)))
    given = [Output(name, drawn(draws, PLAIN)) for name in ("module", "R", "if")]
    found.append(("keywords as outputs", Answer(PLAIN, given)))
    given = [Output(name, drawn(draws, PLAIN)) for name in SIGNS]
    found.append(("signs as outputs", Answer(PLAIN, given)))
    for _ in range(4):
        one, element, other = (drawn(draws, PLAIN, True) for _ in range(3))
        found.append(("complemented inputs", Answer(PLAIN, [Output("s", one, [element]), Output("t", other)])))
    names_of_many = [f"v{place}" for place in range(11)]
    found.append(("steps", Answer(names_of_many, [Output("s", drawn(draws, names_of_many, most=1700))])))
    return found


SAMPLES = samples()
# Those with something to write as a circuit, and few points.
SMALL = [(what, given) for what, given in SAMPLES if len(given.inputs) <= 4]


class Folder(InFolder):
    """A folder for the files of a test."""

    def write(self, name, text):
        (self.here / name).write_text(text)
        return self.here / name


class Circuits(Folder):
    """Verilog, BLIF and covers, by ABC and yosys."""

    def values_of_cover(self, file, given):
        """The values at all points that a PLA file gives, by the names of its inputs and outputs."""
        text = file.read_text()
        inputs, outputs, _, rows = read(text)
        written = circuits.signals(given, functions(given))
        have = names(text, ".ilb", "?", inputs), names(text, ".ob", "?", outputs)
        self.assertEqual([sorted(part) for part in have], [sorted(part) for part in written])
        places = [have[1].index(name) for name in written[1]]
        found = []
        for point in points(written[0]):
            word = "".join(str(point[name]) for name in have[0])
            found.append([int(any(out[j] == "1" and meets(cube, word) for cube, out in rows)) for j in places])
        return found

    def by_abc(self, kind, reads, text, given):
        self.write(f"f.{kind}", text)
        script = f"{reads} f.{kind}; strash; collapse; write_pla f.pla"
        ended = run([installed("berkeley-abc"), "-q", script], cwd=self.here)
        self.assertEqual(ended.status, 0, ended)
        return self.values_of_cover(self.here / "f.pla", given)

    def test_verilog_in_abc(self):
        for what, given in SAMPLES:
            with self.case(what):
                self.assertEqual(self.by_abc("v", "read_verilog", given.text("verilog"), given), table(given))

    def test_blif_in_abc(self):
        for what, given in SAMPLES:
            with self.case(what):
                self.assertEqual(self.by_abc("blif", "read_blif", given.text("blif"), given), table(given))

    def by_yosys(self, kind, reads, text, given):
        self.write(f"f.{kind}", text)
        script = f"{reads} f.{kind}; hierarchy -auto-top; proc; flatten; simplemap; aigmap; write_aiger -symbols f.aig"
        ended = run([installed("yosys"), "-q", "-p", script], cwd=self.here)
        self.assertEqual(ended.status, 0, ended)
        ended = run([installed("berkeley-abc"), "-q", "read_aiger f.aig; collapse; write_pla f.pla"], cwd=self.here)
        self.assertEqual(ended.status, 0, ended)
        return self.values_of_cover(self.here / "f.pla", given)

    def test_verilog_in_yosys(self):
        for what, given in SMALL:
            with self.case(what):
                self.assertEqual(self.by_yosys("v", "read_verilog", given.text("verilog"), given), table(given))

    def test_blif_in_yosys(self):
        for what, given in SMALL:
            with self.case(what):
                self.assertEqual(self.by_yosys("blif", "read_blif", given.text("blif"), given), table(given))

    def values_of_sum(self, text, given):
        """The values of a cover of type esop."""
        inputs, outputs, _, rows = read(text)
        self.assertEqual((inputs, outputs), (len(given.inputs), len(functions(given))))
        found = []
        for point in points(given.inputs):
            word = "".join(str(bit) for bit in point.values())
            found.append([sum(out[j] == "1" and meets(cube, word) for cube, out in rows) % 2 for j in range(outputs)])
        return found

    def test_esop(self):
        for what, given in SAMPLES:
            with self.case(what):
                self.assertEqual(self.values_of_sum(given.text("esop"), given), table(given))

    def test_esop_in_abc(self):
        """ABC minimizes the cover, and the values stay."""
        for what, given in SMALL:
            if any(any(row) for row in table(given)):
                with self.case(what):
                    self.write("f.esop", given.text("esop"))
                    ended = run([installed("berkeley-abc"), "-q", "&exorcism f.esop g.esop"], cwd=self.here)
                    self.assertEqual(ended.status, 0, ended)
                    self.assertEqual(self.values_of_sum((self.here / "g.esop").read_text(), given), table(given))

    def test_esop_read_again(self):
        """A cover is a description again, whose disjoint rows have the same values."""
        for what, given in SMALL:
            with self.case(what):
                found = tables.exclusive_or(given.text("esop").encode())
                values = []
                for point in points(given.inputs):
                    word = "".join(str(bit) for bit in point.values())
                    rows = [row.outputs for row in found.rows if meets(row.inputs, word)]
                    values.append([sum(row[j] == "1" for row in rows) for j in range(found.outputs)])
                self.assertEqual(values, table(given))

    def test_long_equations(self):
        """ABC takes a sum of 13 bits, whose polynomials together are longer than the equations that it reads."""
        bits = 13
        inputs = [f"{letter}[{place}]" for place in reversed(range(bits)) for letter in "ab"]
        order = {name: place for place, name in enumerate(inputs)}
        carry, outputs = set(), []
        for place in range(bits):
            one, other = frozenset([f"a[{place}]"]), frozenset([f"b[{place}]"])
            outputs.append(Output(f"s[{place}]", self.in_order(carry ^ {one} ^ {other}, order)))
            carry = {monomial | one for monomial in carry} ^ {monomial | other for monomial in carry} ^ {one | other}
        outputs.append(Output(f"s[{bits}]", self.in_order(carry, order)))
        self.assertGreater(max(len(str(output.polynomial)) for output in outputs), 65535)
        self.write("anf.v", Answer(inputs, outputs).text("verilog"))
        last = bits - 1
        self.write("sum.v", f"module sum(input [{last}:0] a, b, output [{bits}:0] s); assign s = a + b; endmodule\n")
        yosys = "read_verilog sum.v; splitnets -ports; synth -flatten; aigmap; write_aiger -symbols sum.aig"
        ended = run([installed("yosys"), "-q", "-p", yosys], cwd=self.here)
        self.assertEqual(ended.status, 0, ended)
        abc = "read_verilog anf.v; strash; cec sum.aig"
        ended = run([installed("berkeley-abc"), "-q", abc], cwd=self.here)
        self.assertIn("Networks are equivalent", ended.out, ended)

    def test_long_sums(self):
        """A long sum whose parts are used once is cut too: ABC takes it, and the tables say the same."""
        inputs = [f"x{place}" for place in range(60)]
        draws = random.Random(3)
        masks = {draws.getrandbits(60) & draws.getrandbits(60) for _ in range(2000)}
        given = Answer(inputs, [Output("s", Monomials(inputs).polynomial(masks))])
        self.assertLess(max(map(len, given.text("verilog").splitlines())), 65535)
        self.write("f.v", given.text("verilog"))
        self.write("f.blif", given.text("blif"))
        abc = "read_blif f.blif; strash; write_aiger f.aig; read_verilog f.v; strash; cec -n f.aig"
        ended = run([installed("berkeley-abc"), "-q", abc], cwd=self.here)
        self.assertIn("Networks are equivalent", ended.out, ended)

    @staticmethod
    def in_order(polynomial, order):
        masks = {sum(1 << (len(order) - 1 - order[name]) for name in monomial) for monomial in polynomial}
        return Monomials(order).polynomial(masks)

    def test_nothing_to_write(self):
        """An ideal without elements is no circuit."""
        for name in ("verilog", "blif", "esop", "python", "dot"):
            with self.case(name), self.assertRaises(formats.FormatError):
                Answer(PLAIN, ideal=()).text(name)

    def test_names_are_told(self):
        """A name that stands for another one is told."""
        given = Answer(["a", "b"], [Output("a", Polynomial([("b",)]))])
        self.assertIn("// a is a2 here\n", given.text("verilog"))
        self.assertIn("# a is a2 here\n", given.text("blif"))
        self.assertIn(".ob a2\n", given.text("esop"))


class Rings(Folder):
    """Singular, Macaulay2 and Sage: each polynomial at each point."""

    def expect(self, given, lines):
        """The lines of values, one for each polynomial and point."""
        wanted = [str(row[place]) for place in range(len(functions(given))) for row in table(given)]
        self.assertEqual(lines, wanted)

    def test_singular(self):
        text = []
        for _, given in SAMPLES:
            text += [given.text("singular"), *self.singular_values(given), "kill r;"]
        self.write("f.sing", "\n".join([*text, "quit;", ""]))
        ended = run([installed("Singular"), "-q", "f.sing"], cwd=self.here)
        self.assertNotIn("?", ended.out, ended.out[:2000])
        # Singular's own remarks, as where a library that would make it faster is not installed.
        values = [line for line in ended.out.splitlines() if not line.startswith("//")]
        self.expect_all(values)

    def singular_values(self, given):
        variables = rings.SINGULAR.names(given.inputs, len(given.outputs or ()))
        for number in range(1, max(1, len(given.outputs or ())) + 1):
            elements = len(given.ideal) if given.ideal is not None else len(given.outputs[number - 1].basis)
            names_of = [f"f{number}"] if given.ideal is None else []
            names_of += [f"I{number}[{place}]" for place in range(1, elements + 1)]
            for name in names_of:
                for point in points(given.inputs):
                    pairs = ",".join(f"{variable},{bit}" for variable, bit in zip(variables, point.values()))
                    yield f"subst({name},{pairs});"

    def test_macaulay2(self):
        lines = []
        for _, given in SAMPLES:
            variables = rings.MACAULAY2.names(given.inputs, len(given.outputs or ()))
            lines.append(given.text("macaulay2"))
            for number, (polynomials, elements) in enumerate(self.parts(given), 1):
                names_of = [f"f{number}"] * polynomials + [f"(I{number}_*)_{place}" for place in range(elements)]
                for name in names_of:
                    for point in points(given.inputs):
                        pairs = ", ".join(f"{variable} => {bit}_R" for variable, bit in zip(variables, point.values()))
                        lines.append(f"print toString sub({name}, {{{pairs}}})")
        script = self.write("f.m2", "\n".join([*lines, ""]))
        ended = run([installed("M2"), "--script", script], cwd=self.here)
        self.assertEqual(ended.status, 0, ended.err)
        self.expect_all(ended.out.split())

    def expect_all(self, lines):
        """The lines of values of all samples."""
        for what, given in SAMPLES:
            size = len(points(given.inputs)) * len(functions(given))
            with self.case(what):
                self.expect(given, lines[:size])
            lines = lines[size:]
        self.assertEqual(lines, [])

    @staticmethod
    def parts(given):
        """Of each output whether it has a polynomial, and its number of elements."""
        if given.ideal is not None:
            return [(0, len(given.ideal))]
        return [(1, len(output.basis)) for output in given]

    def test_order(self):
        """The ring has the order of the answer."""
        given = Answer(["b", "a"], [Output("s", Polynomial([("b",), ("a",)]))])
        for name in ("singular", "macaulay2", "sage"):
            with self.case(name):
                self.assertIn("'b', 'a'" if name == "sage" else "b, a", given.text(name).replace('"', "'"))

    def test_sage(self):
        """By a ring of Python with the same calls."""
        for what, given in SAMPLES:
            with self.case(what):
                found = run_as_sage(given.text("sage"))
                lines = []
                for number, (polynomials, elements) in enumerate(self.parts(given), 1):
                    made = [found[f"f{number}"]] if polynomials else []
                    made += found[f"I{number}"][:elements]
                    for polynomial in made:
                        lines += [str(polynomial.at(list(point.values()))) for point in points(given.inputs)]
                self.expect(given, lines)


class Ring:
    """What stands for a BooleanPolynomialRing of Sage: a polynomial is its values at all points."""

    def __init__(self, names, order):
        if order != "lex" or any(not re.fullmatch("[A-Za-z][A-Za-z0-9_]*", name) for name in names):
            raise ValueError(names)
        self.size = len(names)

    def gens(self):
        every = list(itertools.product((0, 1), repeat=self.size))
        return tuple(Values(tuple(point[place] for point in every)) for place in range(self.size))

    def __call__(self, constant):
        return Values((constant,) * 2**self.size)


class Values:
    def __init__(self, values):
        self.values = values

    def __add__(self, other):
        other = (other,) * len(self.values) if isinstance(other, int) else other.values
        return Values(tuple(map(int.__xor__, self.values, other)))

    def __mul__(self, other):
        return Values(tuple(map(int.__and__, self.values, other.values)))

    def at(self, point):
        return self.values[int("".join(map(str, point)), 2)]


def run_as_sage(script):
    """The names that a script makes."""
    found = {"BooleanPolynomialRing": Ring}
    exec(script, found)  # the script is the one that the format wrote
    return found


class Solvers(Folder):
    """CNF by cryptominisat, and ANF as the documents of bosphorus have it."""

    def solutions(self, given):
        """The points at which each element is 0, with the values of the outputs."""
        found = set()
        for point in points(given.inputs):
            elements = [element for output in given for element in output.basis] + list(given.ideal or ())
            if not any(value(element, point) for element in elements):
                found.add((*point.values(), *(value(output.polynomial, point) for output in given)))
        return found

    def test_cnf(self):
        solver = installed("cryptominisat5")
        for what, given in SMALL:
            with self.case(what):
                file = self.write("f.cnf", given.text("cnf"))
                self.assertEqual(self.header(file), self.counted(file))
                ended = run([solver, "--verb", "0", "--maxsol", "1000", file], cwd=self.here)
                size = len(given.inputs) + len(given.outputs or ())
                models = self.models(ended.out, size)
                self.assertEqual(set(models), self.solutions(given), ended)
                self.assertEqual(len(models), len(set(models)))

    @staticmethod
    def header(file):
        return next(line.split()[2:] for line in file.read_text().splitlines() if line.startswith("p cnf"))

    @staticmethod
    def counted(file):
        """The greatest variable and the number of clauses of a file."""
        clauses = [line for line in file.read_text().splitlines() if line[0] not in "cp"]
        variables = {abs(int(word.lstrip("x") or "0")) for clause in clauses for word in clause.split()}
        named = sum(line.startswith("c ") for line in file.read_text().splitlines())
        return [str(max(*variables, named)), str(len(clauses))]

    @staticmethod
    def models(text, size):
        """The first variables of each model."""
        found, literals = [], []
        for line in text.splitlines():
            if line.startswith("v "):
                literals += [int(word) for word in line.split()[1:]]
                if literals[-1] == 0:
                    signs = {abs(literal): int(literal > 0) for literal in literals}
                    found.append(tuple(signs[place] for place in range(1, size + 1)))
                    literals = []
        return found

    def test_bosphorus(self):
        for what, given in SMALL:
            with self.case(what):
                lines = [line for line in given.text("bosphorus").splitlines() if not line.startswith("c ")]
                named = [line.split()[1:] for line in given.text("bosphorus").splitlines() if line.startswith("c ")]
                size = len(named)
                found = set()
                for bits in itertools.product((0, 1), repeat=size):
                    point = {f"x{place}": bit for place, bit in enumerate(bits, 1)}
                    if not any(self.sum_at(line, point) for line in lines):
                        found.add(bits[: len(given.inputs) + len(given.outputs or ())])
                self.assertEqual(found, self.solutions(given))
                shown = [*given.inputs, *(output.name for output in given)]
                self.assertEqual([words[2] for words in named[: len(shown)]], shown)

    @staticmethod
    def sum_at(line, point):
        total = 0
        for term in line.split(" + "):
            total += term != "0" and all(factor == "1" or point[factor] for factor in term.split("*"))
        return total % 2


class Texts(Folder):
    """Python, JSON, LaTeX and DOT."""

    def test_python(self):
        for what, given in SAMPLES:
            with self.case(what):
                module = {}
                exec(given.text("python"), module)  # the text is the one that the format wrote
                self.assertEqual(module["INPUTS"], list(given.inputs))
                for point, row in zip(points(given.inputs), table(given)):
                    self.assertEqual(list(module["evaluate"](*point.values()).values()), row)

    def test_points_side_by_side(self):
        """Each bit of an argument of the Python function is a point of its own."""
        given = SAMPLES[0][1]
        module = {}
        exec(given.text("python"), module)  # the text is the one that the format wrote
        every = points(given.inputs)
        columns = [sum(point[name] << place for place, point in enumerate(every)) for name in given.inputs]
        found = module["evaluate"](*columns, one=(1 << len(every)) - 1)
        for place, (name, _) in enumerate(functions(given)):
            with self.case(name):
                self.assertEqual(found[name], sum(row[place] << at for at, row in enumerate(table(given))))

    def test_json(self):
        for what, given in SAMPLES:
            with self.case(what):
                told = json.loads(given.text("json"))
                self.assertEqual(told["inputs"], list(given.inputs))
                if given.ideal is None:
                    outputs = [
                        Output(part["name"], Polynomial(part["polynomial"]), map(Polynomial, part["basis"]))
                        for part in told["outputs"]
                    ]
                    self.assertEqual(str(Answer(told["inputs"], outputs)), str(given))
                else:
                    self.assertEqual(list(map(Polynomial, told["ideal"])), list(given.ideal))

    def test_latex(self):
        """The lines read back: a sum goes on where a line begins with a sign."""
        for what, given in SAMPLES:
            with self.case(what):
                shown = {self.shown(name): name for name in given.inputs}
                shown.update({f"\\overline{{{text}}}": f"~{name}" for text, name in list(shown.items())})
                body = given.text("latex").split("\n", 1)[1].rsplit("\n", 2)[0]
                body = body.replace(" \\\\\n&\\quad + ", " + ")
                read_back = []
                for line in body.split(" \\\\\n") if body else []:
                    terms = [term for term in line.split(" &= ")[1].split(" + ") if term != "0"]
                    read_back.append(Polynomial([shown[f] for f in t.split("\\,")] if t != "1" else () for t in terms))
                self.assertEqual(read_back, [polynomial for _, polynomial in functions(given)])

    @staticmethod
    def shown(name):
        if re.fullmatch("[A-Za-z]", name):
            return name
        found = re.fullmatch("([A-Za-z])([0-9]+)", name)
        return f"{found[1]}_{{{found[2]}}}" if found else mathit(name)

    def test_dot(self):
        """Each path to 1 is a monomial."""
        for what, given in SAMPLES:
            with self.case(what):
                text = given.text("dot")
                labels = dict(re.findall(r'^  (\w+) \[label="([^"]*)"', text, re.MULTILINE))
                edges = re.findall(r"^  (\w+) -> (\w+)( \[style=dashed\])?;", text, re.MULTILINE)
                found = []
                labels = {node: name.replace(r"\\", "\\") for node, name in labels.items()}
                for place, (name, polynomial) in enumerate(functions(given)):
                    root = next(end for start, end, _ in edges if start == f"output{place}")
                    self.assertEqual(labels[f"output{place}"], name)
                    found.append(Polynomial(paths(root, labels, edges)))
                self.assertEqual(found, [polynomial for _, polynomial in functions(given)])

    def test_dot_in_graphviz(self):
        graphviz = installed("dot")
        for what, given in SMALL:
            with self.case(what):
                self.assertEqual(run([graphviz, "-Tsvg"], given.text("dot")).status, 0)


def mathit(name):
    """A name in italics, with the signs that LaTeX has for itself escaped."""
    signs = {"\\": "\\backslash{}", "<": "{<}", ">": "{>}", **{sign: f"\\{sign}" for sign in "_#$"}}
    for sign, escaped in signs.items():
        name = name.replace(sign, escaped)
    return f"\\mathit{{{name}}}"


def paths(node, labels, edges):
    """The monomials of the paths from a node to 1."""
    if node in ("0", "1"):
        return [()] * int(node)
    found = []
    for start, end, dashed in edges:
        if start == node:
            below = paths(end, labels, edges)
            found += below if dashed else [(labels[node], *monomial) for monomial in below]
    return found


class Names(Test):
    """Names that stand for others."""

    def test_distinct(self):
        cases = [
            (["a", "a", "a"], ["a", "a2", "a3"]),
            (["a[0]", "a_0_", "a<0>"], ["a_0_2", "a_0_", "a_0_3"]),
            (["1", "+", "_"], ["v1", "v_", "_"]),
        ]
        for given, wanted in cases:
            with self.case(str(given)):
                self.assertEqual(naming.distinct(given, naming.is_word, naming.word), wanted)

    def test_prefix(self):
        self.assertEqual(naming.prefix("n", ["n1", "a"]), "nn")
        self.assertEqual(naming.prefix("n", ["n", "na1"]), "n")

    def test_words_of_singular(self):
        """The words that Singular keeps for itself are known."""
        ended = run([installed("Singular"), "-q"], "reservedName();\n")
        words = {word for word in ended.out.split() if re.fullmatch("[A-Za-z_]+", word)}
        self.assertGreater(len(words), 100)
        self.assertEqual({word for word in words if rings.SINGULAR.keeps(word)}, set())

    def test_words_of_macaulay2(self):
        """No name of two letters or more that Macaulay2 has itself is kept for an input."""
        script = 'scan(unique flatten apply(dictionaryPath, d -> keys d), s -> print s)'
        with tempfile.TemporaryDirectory() as folder:
            file = pathlib.Path(folder) / "words.m2"
            file.write_text(script)
            words = run([installed("M2"), "--script", file]).out.split()
        self.assertGreater(len(words), 1000)
        kept = {word for word in words if rings.MACAULAY2.keeps(word)}
        self.assertEqual({word for word in kept if len(word) > 1}, set())

    def test_words_of_verilog(self):
        """An input that has a reserved word for its name is escaped, and one of another name is not."""
        self.assertEqual(len(set(VERILOG)), 248)
        for word in VERILOG:
            with self.case(word):
                self.assertIn(f"input \\{word} , x;", verilog_of(word))
                self.assertIn(f"input {word}_, x;", verilog_of(f"{word}_"))

    def test_words_of_verilog_in_yosys(self):
        yosys = installed("yosys")
        with tempfile.TemporaryDirectory() as folder:
            file = pathlib.Path(folder) / "f.v"
            for word in VERILOG[::9]:
                with self.case(word):
                    file.write_text(verilog_of(word))
                    self.assertEqual(run([yosys, "-q", "-p", f"read_verilog {file}"]).status, 0)


def verilog_of(name):
    """An answer over an input of this name and another one, in Verilog."""
    return Answer([name, "x"], [Output("s", Polynomial([(name, "x")]))]).text("verilog")


class Deep(Test):
    """An answer over as many inputs as a file may have, each of which stands in a term of its own."""

    def test_inputs(self):
        inputs = [f"x{place}" for place in range(descriptions.MOST_OF_ANY)]
        size = len(inputs)
        polynomial = Monomials(inputs).polynomial({2**size - 2**place for place in range(size)})
        given = Answer(inputs, [Output("s", polynomial)])
        module = {}
        exec(given.text("python"), module)  # the text is the one that the format wrote
        for ones in (0, 1, 2, 3, size - 1, size):
            with self.case(ones):
                self.assertEqual(module["evaluate"](*[1] * ones, *[0] * (size - ones)), {"s": ones % 2})
        for name in formats.FORMATS:
            with self.case(name):
                self.assertNotEqual(given.text(name), "")


def processor_seconds(words, given):
    """How a command of tools/ ended on a file, and the processor time that it took."""
    with open(given, encoding="ascii") as source:
        how = {"stdin": source, "stdout": subprocess.DEVNULL}
        child = subprocess.Popen([sys.executable, TOP / "tools" / words[0], *words[1:]], **how)
    _, status, used = os.wait4(child.pid, 0)
    child.returncode = os.waitstatus_to_exitcode(status)
    return child.returncode, used.ru_utime + used.ru_stime


class Large(Folder):
    """Answers of 500,000 terms over 20 and 40 inputs are written in a time that a square of their length would pass by
    far."""

    TERMS = 500_000
    # Of the processor, for machines that are slower or busy: an idle one takes one to two.
    SECONDS = 10

    def test_dense(self):
        """Half of all products of 20 inputs."""
        self.measure(20, random.Random(2).sample(range(2**20), self.TERMS))

    def test_scattered(self):
        """Random products of 20 of 40 inputs."""
        self.measure(40, [mask << 10 for mask in random.Random(2).sample(range(2**20), self.TERMS)])

    def test_carries(self):
        """The first terms of the carry of a sum of two numbers, which has many factors in each."""
        carry, place = set(), 40
        while len(carry) < self.TERMS:
            place -= 2
            one, other = 2 << place, 1 << place
            carry = {mask | one for mask in carry} ^ {mask | other for mask in carry} ^ {one | other}
        self.measure(40, sorted(carry)[: self.TERMS])

    def measure(self, width, masks):
        inputs = [f"in{place}" for place in range(width)]
        text = description(width, 1, "fr", [("1" * width, "1")], names=inputs, results=["f"])
        file = self.write("f.pla", text)
        given = self.write("f.anf", f"f = {Monomials(inputs).polynomial(masks)}\n")
        with concurrent.futures.ThreadPoolExecutor(os.cpu_count()) as pool:
            found = pool.map(lambda name: processor_seconds(["answer_as", name, file], given), formats.FORMATS)
            for name, (status, seconds) in zip(formats.FORMATS, found):
                with self.case(name):
                    self.assertEqual(status, 0)
                    self.assertLess(seconds, self.SECONDS)


if __name__ == "__main__":
    unittest.main()
