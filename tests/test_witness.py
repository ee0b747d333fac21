"""The answers of interp compared with those of other programs, on small random files.

BRiAl: the least polynomials and the reduced bases, byte by byte. Singular: the printed basis is the reduced one of
its ideal, and as many points are its zeros as are care points. Macaulay2: the printed basis spans the ideal of the
care points. ABC: the polynomials of a file without free points are the file's functions. Each is skipped where the
program is not installed.
"""

import functools
import random
import unittest

from bench import brial
from tests.harness import TOP, InFolder, description, installed, program, run
from tests.made_descriptions import valued

FILES = 100


class Sample:
    """A random file of one output, with its care points, each with its value."""

    def __init__(self, draws):
        self.inputs = draws.randint(1, 6)
        self.rows = sorted(valued(draws, draws.randint(1, 2**self.inputs), self.inputs, 1))
        self.names = [f"x{i + 1}" for i in range(self.inputs)]

    def text(self):
        """The description."""
        return description(self.inputs, 1, "fr", self.rows)

    def cover(self):
        """The description in which all other points have the value 0, with the names that are printed."""
        return description(self.inputs, 1, "f", self.rows, names=self.names, results=["f1"])

    def basis(self):
        """The elements of the basis that interp prints."""
        return [line[4:] for line in printed("basis", self.text()).splitlines() if line.startswith("0 = ")]


@functools.cache
def samples():
    """The files, the same for each program."""
    draws = random.Random(1)
    return [Sample(draws) for _ in range(FILES)]


def printed(mode, text):
    """What interp prints."""
    return run([program("interp"), mode], text).out


class Witness(InFolder):
    """One test for each other program."""

    def expect_each(self, lines, wanted):
        """A line of the other program for each file."""
        self.assertEqual(len(lines), FILES)
        for sample, line in zip(samples(), lines):
            with self.case(sample.text()):
                self.assertEqual(line, wanted)

    def test_brial(self):
        driver = brial.driver(self.here)
        if driver is None:
            raise unittest.SkipTest("BRiAl is not installed")
        for sample in samples():
            text = sample.text()
            for mode in ("anf", "basis"):
                with self.case(f"{mode} of {text}"):
                    self.assertEqual(run([driver, mode], text).out, printed(mode, text))

    def test_singular(self):
        """By Singular, which reduces the basis together with the field polynomials."""
        singular = installed("Singular")
        script = "\n".join(in_singular(sample) for sample in samples())
        lines = run([singular, "-q"], script).out.splitlines()
        self.expect_each([line for line in lines if line.startswith("wrong ")], "wrong 0")

    def test_macaulay2(self):
        """By Macaulay2: the ideal of the care points, intersected point by point."""
        macaulay2 = installed("M2")
        script = self.here / "points.m2"
        script.write_text("\n".join(in_macaulay2(sample) for sample in samples()))
        self.expect_each(run([macaulay2, "--script", script]).out.splitlines(), "same")

    def test_abc(self):
        """By ABC: the polynomial as a circuit does what the file says."""
        abc = installed("berkeley-abc")
        for sample in samples():
            if all(value == "0" for _, value in sample.rows):
                continue  # ABC reads no cover without cubes
            text = sample.cover()
            with self.case(text):
                self.assertIn("Networks are equivalent", self.compare_in_abc(abc, text))

    def compare_in_abc(self, abc, text):
        """What ABC says of a file and of the circuit of its answer."""
        file = self.here / "file.pla"
        file.write_text(text)
        circuit = run([TOP / "tools/answer_as", "verilog", file], printed("anf", text)).out
        (self.here / "answer.v").write_text(circuit)
        steps = [
            "read_pla file.pla; strash; write_blif file.blif",
            "read_verilog answer.v; strash; write_blif answer.blif",
            "cec -n file.blif answer.blif",
        ]
        return run([abc, "-c", "; ".join(steps)], cwd=self.here).out


def in_singular(sample):
    """A script that prints `wrong 0` where the basis is the reduced one, with as many zeros as care points."""
    fields = ", ".join(f"{name}^2+{name}" for name in sample.names)
    elements = ", ".join(sample.basis()) or "0"
    return f"""
ring r = 2, ({', '.join(sample.names)}), lp; option(redSB); ideal F = {fields};
ideal I = {elements}; ideal G = std(I + F);
int wrong = vdim(G) != {len(sample.rows)};
ideal J = simplify(reduce(I, std(0)), 2); int i, j, found;
for (i = 1; i <= size(I); i++) {{ found = 0; for (j = 1; j <= size(G); j++)
{{ if (G[j] == I[i]) {{ found = 1; }} }} if (!found) {{ wrong = 1; }} }}
for (j = 1; j <= size(G); j++) {{ found = 0; for (i = 1; i <= size(I); i++) {{ if (G[j] == I[i]) {{ found = 1; }} }}
if (!found) {{ if (size(lead(G[j])) == 1 && deg(lead(G[j])) < 2 || size(reduce(G[j], std(F))) != 0)
{{ wrong = 1; }} }} }}
print("wrong " + string(wrong)); kill r; kill wrong, i, j, found;"""


def in_macaulay2(sample):
    """A script that prints `same` where the basis spans the ideal of the care points."""
    points = []
    for point, _ in sample.rows:
        points.append("ideal(" + ", ".join(f"{name} + {bit}" for name, bit in zip(sample.names, point)) + ")")
    elements = ", ".join(f"({element})_R" for element in sample.basis()) or "0_R"
    return f"""
R = ZZ/2[{', '.join(sample.names)}, MonomialOrder => Lex];
P = intersect({', '.join(points)});
I = ideal({elements}) + ideal apply(gens R, v -> v^2 + v);
print if I == P then "same" else "other";"""
