"""The command solve: forms, causes, statuses and remedies, each by an example, and what hostile callers do."""

import contextlib
import doctest
import io
import os
import pathlib
import pty
import random
import re
import shlex
import shutil
import signal
import subprocess
import sys
import tempfile
import time

from tests.harness import TOP, InFolder, Test, program, run

sys.path.insert(0, str(TOP / "tools"))

import leastanf
from leastanf import descriptions, orders, points, polarity, remedies, solving
from leastanf.__main__ import COMMANDS
from leastanf.polynomials import Monomials
from leastanf.commands import solve as command

SOLVE = [sys.executable, str(TOP / "tools/solve")]

SMALL = ".i 3\n.o 1\n.ilb a b c\n.ob f\n.type fr\n111 1\n000 0\n110 0\n.e\n"
XOR = ".i 2\n.o 1\n.ilb a b\n.type f\n10 1\n01 1\n.e\n"

# Of each form: a file, what solve prints, and a part of what it says.
FORMS = [
    ("row over lines", ".i 2\n.o 1\n.type f\n1\n1\n1\n.e\n", "f1 = x1*x2\n", ":4:"),
    ("comment behind symbol", ".i 2\n.o 1\n.type f\n11 1#c\n", "f1 = x1*x2\n", ":4:"),
    ("late type", ".i 2\n.o 1\n11 1\n00 0\n.type fr\n", "f1 = x2\n", ":5:"),
    ("names over lines", ".i 2\n.o 1\n.ilb a \\\nb\n.type f\n11 1\n", "f1 = a*b\n", ":3:"),
    ("phases of one", ".i 2\n.o 1\n.phase 1\n.type f\n11 1\n", "f1 = x1*x2\n", ":3:"),
    ("binary variables", ".mv 3 2 1\n.type f\n11 1\n", "f1 = x1*x2\n", ":1:"),
    ("byte order mark", "\ufeff.i 2\n.o 1\n.type f\n11 1\n", "f1 = x1*x2\n", ":1:"),
    ("symbol 3", ".i 2\n.o 1\n.type fr\n11 1\n00 3\n", "f1 = x2\n", ":5:"),
    ("outputs", ".i 1\n.o 65\n.type f\n1 " + "1" * 65 + "\n", "".join(f"f{i} = x1\n" for i in range(1, 66)), ":2:"),
    ("inputs", ".i 63\n.o 1\n.type f\n" + "-" * 61 + "11 1\n", "f1 = x62*x63\n", ":1:"),
    ("rows", ".i 14\n.o 1\n.type f\n" + "".join(f"{k:014b} 1\n" for k in (*range(8192, 16384), 16383)), "f1 = x1\n",
     ":8196:"),
    ("bytes", ".i 1\n.o 1\n.type f\n1 1\n" + "#" * 4194304 + "\n", "f1 = x1\n", ""),
]  # fmt: skip

# Of each warning: a file, and a part of what solve says.
WARNINGS = [
    (".i 2\n.o 1\n.TYPE fr\n11 1\n", "is it meant as .type?"),
    (".i 2\n.o 1\n.type=fr\n11 1\n", "is it meant as .type?"),
    (".i 2\n.o 1\n.names x\n11 1\n", ".names is skipped"),
    (".i 2\n.o 1\n11 1\n00 0\n", "a point without a row has the value 0"),
    (".i 2\n.o 1\n.p 3\n11 1\n", ".p says 3 rows, and there are 1"),
    (".i 2\n.o 1\n.ilb a*b c\n.type f\n11 1\n", "x1 stands for 'a*b'"),
    (".i 2\n.o 1\n.ilb a a\n.type f\n11 1\n", "x2 stands for 'a'"),
    (".i 2\n.o 1\n.ilb a 1_R\n.type f\n11 1\n", "x2 stands for '1_R'"),
    (".i 2\n.o 1\n.ilb 1'b0 a\n.type f\n11 1\n", "x1 stands for '1'b0'"),
]


# Messages of the program.
MESSAGES = [
    "interp: line 3: BadByte",
    "interp: more than 524288 nodes are needed",
    "interp: more than 1 terms",
    "interp: out of memory",
    "interp: read fault",
    "interp: write fault",
    "interp: longer than 4194304 bytes",
    "interp: output 1: on line 5, off line 6",
    "interp: order must name every input once",
]

# What is no description, or a strange one.
GARBAGE = [
    b"",
    b"\0",
    b"\xff\xfe.\0i\0",
    b"\x1f\x8b\x08",
    random.Random(7).randbytes(3000),
    b".i 1\n" * 3,
    b".",
    b".e",
    b"\n" * 100,
    b"#",
    b".i 62\n.o 64\n" + b"-" * 62 + b"~" * 64,
    b".i 1024\n.o 1024\n",
    b".i 1025\n.o 1\n",
    b".i 1\n.o 1\n" + b"1\n" * 20001,
    b".i 1\n.o 1\n.ilb " + b"a" * 100000,
    b"\xef\xbb\xbf",
    b".ilb\n",
    b".i 1\n.o 1\n.ob 0\n1 1\n",
    b".i 1\n.o 1\n.ilb 1\n1 1\n",
    b".mv 100 99 99\n",
    b".mv 99999999 99999998 1\n",
    b".mv -1 0 1\n",
]


def ends_soon(number):
    """Whether a process ends within five seconds: who takes its status may do so a little after it was ended."""
    for _ in range(100):
        try:
            if pathlib.Path(f"/proc/{number}/stat").read_text().rpartition(")")[2].split()[0] == "Z":
                return True
        except FileNotFoundError:
            return True
        time.sleep(0.05)
    return False


class Solving(InFolder):
    """A folder with files, and runs of solve in it."""

    def setUp(self):
        super().setUp()
        self.environment = {**os.environ, "INTERP": program("interp")}
        self.environment.pop("PYTHONUNBUFFERED", None)

    def solve(self, text, *options, **how):
        """How solve ends on a file; `program` is a text of a script that stands for interp."""
        environment = self.environment
        script = how.pop("program", None)
        if script is not None:
            environment = {**environment, "INTERP": self.script("program", script)}
        (self.here / "f.pla").write_bytes(text if isinstance(text, bytes) else text.encode())
        how = {"capture_output": True, "timeout": 600, **how}
        ended = subprocess.run([*SOLVE, *options, "f.pla"], cwd=self.here, env=environment, check=False, **how)
        if ended.stderr is not None:
            ended.stderr = ended.stderr.decode()
            self.assertNotIn("Traceback", ended.stderr)
        if ended.stdout is not None:
            ended.stdout = ended.stdout.decode()
        return ended

    def run_words(self, words, **how):
        """How words end in the folder."""
        how = {"cwd": self.here, "env": self.environment, "capture_output": True, "check": False, **how}
        return subprocess.run(words, **how)

    def begin(self, words, environment):
        """A process of words in the folder."""
        how = {"stdout": subprocess.PIPE, "stderr": subprocess.PIPE}
        return subprocess.Popen(words, cwd=self.here, env=environment, **how)

    def expect(self, ended, status, out, *says):
        self.assertEqual((ended.returncode, ended.stdout), (status, out), ended.stderr)
        for part in says:
            self.assertIn(part, ended.stderr)


class Messages(Solving):
    """Each form, warning, cause and status by an example."""

    def test_forms(self):
        for form, text, answer, where in FORMS:
            with self.case(form):
                self.expect(self.solve(text), 0, answer, f"f.pla{where}", descriptions.FORMS[form])
        self.assertEqual({form for form, *_ in FORMS}, set(descriptions.FORMS))

    def test_warnings(self):
        for text, says in WARNINGS:
            with self.case(says):
                ended = self.solve(text)
                self.assertEqual(ended.returncode, 0)
                self.assertIn(says, ended.stderr)

    def test_causes(self):
        from tests.test_descriptions import REFUSED

        for text, line, cause in REFUSED:
            with self.case(f"{cause} {text[:30]!r}"):
                self.expect(self.solve(text), 3, "", f"f.pla:{line or 0}: {cause}: ", descriptions.CAUSES[cause])

    def test_words(self):
        words = """--nodes 3|--nodes 24|--terms x|--workers 17|--seconds 0|--foo|--node 5|--order|--as pascal
--nodes 99|--nodes 9 --nodes 9|--order b,a --order=a,b|--text --order b,a|--text --as json|--text --polarity auto
--terms 1_0|--terms \u0661|-o a ../f.pla|--text -o a"""
        for options in words.replace("\n", "|").split("|"):
            with self.case(options):
                ended = self.solve(XOR, *options.split())
                self.expect(ended, 2, "", "solve --help has the form")
        ended = subprocess.run(SOLVE, capture_output=True, text=True, check=False)
        self.assertEqual((ended.returncode, ended.stdout), (2, ""))

    def test_statuses(self):
        """Each status of the table but those of signals and the order, which have tests of their own."""
        with self.case(0):
            self.expect(self.solve(XOR), 0, "f1 = a + b\n")
        with self.case(4):
            ended = self.solve(".i 2\n.o 1\n.type fr\n1- 1\n-1 0\n")
            self.expect(ended, 4, "", "is 1 by line 4 (1-) and 0 by line 5 (-1)")
            rows = "".join(f"{point:014b} 1\n" for point in range(8193))
            ended = self.solve(f".i 14\n.o 2\n.type fr\n{rows}".replace(" 1\n", " 11\n") + "0" * 14 + " 10\n")
            self.expect(ended, 4, "", "output f2 is 1 by line 4 (00000000000000) and 0 by line 8197 (00000000000000)")
        text = ".i 2\n.o 1\n.type fr\n0- 1\n00 0\n10 0\n"
        real = shlex.quote(self.environment["INTERP"])
        for first in ("sleep 20", "echo 'interp: out of memory' >&2; exit 7"):
            with self.case(f"4, where the run on the file has no answer: {first}"):
                (self.here / "begun").unlink(missing_ok=True)
                script = f"[ -e begun ] && exec {real} \"$@\"; touch begun; {first}"
                ended = self.solve(text, "--seconds", "1", program=script)
                self.expect(ended, 4, "", "is 1 by line 4 (0-) and 0 by line 5 (00)")
        with self.case(5):
            text = scattered(14, 60)
            self.expect(self.solve(text, "--nodes", "4"), 5, "", "more than 16 nodes are needed", "--order auto")
        with self.case(6):
            self.expect(self.solve(XOR, "--terms", "1"), 6, "", "more than 1 terms", "--polarity auto")
        with self.case(7):
            ended = self.solve(XOR, program="echo 'interp: out of memory' >&2; exit 7")
            self.expect(ended, 7, "", "out of memory", "--nodes")
        with self.case(8):
            ended = self.solve(XOR, "nofile.pla")
            self.expect(ended, 8, "==> f.pla <==\nf1 = a + b\n", "nofile.pla: No such file or directory")
            self.expect(self.solve(XOR, "."), 8, "==> f.pla <==\nf1 = a + b\n", "Is a directory")
        with self.case(9), open("/dev/full", "w", encoding="ascii") as full:
            ended = self.solve(XOR, capture_output=False, stdout=full, stderr=subprocess.PIPE)
            self.assertEqual(ended.returncode, 9)
        with self.case("9, a folder that is a file"):
            self.expect(self.solve(XOR, "-o", "f.pla"), 9, "", "f.pla: the answer cannot be written: File exists")
        with self.case(10):
            data = XOR.encode() + b"#" * descriptions.MOST_BYTES + b"\n"
            run = self.run_words([program("interp"), "anf"], input=data)
            self.assertEqual((run.returncode, run.stdout), (10, b""))
            self.expect(self.solve(data), 0, "f1 = a + b\n", descriptions.FORMS["bytes"])
            self.assertEqual(command.meaning(run.stderr.decode()), command.STATUSES[10])
        with self.case("10, by a name that makes the file as long as it may be"):
            front, back = ".i 1\n.o 1\n.ilb ", "\n1 1\n"
            name = "a" * (descriptions.MOST_BYTES - len(front) - len(back))
            self.expect(self.solve(front + name + back), 0, f"f1 = {name}\n")
        with self.case(12):
            for order in ("a", "a,b,a", "a, b", "", "a,c"):
                self.expect(self.solve(XOR, "--order", order), 12, "", "a,b")
            self.expect(self.solve(XOR, "--order=a"), 12, "", "leaves out b")
            self.expect(self.solve(XOR, "--polarity", "c"), 12, "", "'c' is none of them")
            self.expect(self.solve(XOR, "--outputs", "g"), 12, "", "'g' is none of them")
        with self.case(14):
            ended = self.solve(XOR, "--seconds", "1", program="sleep 20")
            self.expect(ended, 14, "", "no answer after 1 s", "--seconds")
        with self.case(69):
            self.environment["INTERP"] = "no such program"
            self.expect(self.solve(XOR), 69, "", "INTERP")
        with self.case(70):
            ended = self.solve(XOR, program="echo 'interp: the program could not be proved and built' >&2; exit 70")
            self.expect(ended, 70, "", "could not be proved and built")
            self.expect(self.solve(XOR, program="kill -9 $$"), 70, "")
        with self.case(71):
            for wrong in ("a*b", "a", "0", "a + b + 1", "a + c", "a +", ""):
                ended = self.solve(XOR, program=f"cat > /dev/null; echo 'f1 = {wrong}'")
                self.expect(ended, 71, "")
            self.expect(self.solve(XOR, program="cat > /dev/null"), 71, "")

    def test_every_status_is_tried(self):
        """Each status has its example, in a test of this file."""
        others = {2: "test_words", 3: "test_causes", 13: "test_outputs_apart", 141: "test_closed_pipe"}
        others.update(dict.fromkeys((129, 130, 143), "test_signals"))
        source = pathlib.Path(__file__).read_text(encoding="utf-8")
        tried = set(map(int, re.findall(r"with self\.case\(([0-9]+)\)", source)))
        self.assertEqual(tried | set(others), set(command.STATUSES))
        for name in others.values():
            self.assertIn(f"def {name}(", source)

    def test_meanings(self):
        """Each meaning is one sentence, in small letters, and no two statuses have the same."""
        for table in (descriptions.CAUSES, descriptions.FORMS, solving.REMEDIES, command.STATUSES):
            for word, text in table.items():
                with self.case(word):
                    self.assertNotRegex(text, r"^[A-Z][a-z]|\. [a-z]|\.$")
        self.assertEqual(len(set(command.STATUSES.values())), len(command.STATUSES))
        self.assertIn("some outputs have an answer and some have none", command.STATUSES[13])

    def test_why(self):
        words = [*descriptions.CAUSES, *descriptions.FORMS, *solving.REMEDIES, *map(str, command.STATUSES)]
        for word in [*words, *MESSAGES]:
            with self.case(word):
                ended = subprocess.run([*SOLVE, "--why", word], capture_output=True, text=True, check=False)
                self.assertEqual((ended.returncode, ended.stderr), (0, ""))
                self.assertGreater(len(ended.stdout), len(word) + 10)
        ended = subprocess.run([*SOLVE, "--why", "non\nsense"], capture_output=True, text=True, check=False)
        self.assertEqual((ended.returncode, ended.stdout, ended.stderr.count("\n")), (2, "", 1))
        ended = subprocess.run([*SOLVE, "--why"], capture_output=True, text=True, check=False)
        for word in words:
            self.assertIn(f"\n  {word}: {command.meaning(word)}\n", ended.stdout)

    def test_help(self):
        """The examples of the help run."""
        ended = subprocess.run([*SOLVE, "--help"], capture_output=True, text=True, check=False)
        self.assertEqual((ended.returncode, ended.stderr), (0, ""))
        lines = re.search(r"examples:\n((?:  .*\n)+)", ended.stdout)[1].splitlines()
        self.assertGreater(len(lines), 5)
        for name in ("examples", "tools"):
            (self.here / name).symlink_to(TOP / name)
        for line in lines:
            with self.case(line):
                words = shlex.split(line)
                run = self.run_words([*SOLVE, *words[1:]])
                self.assertEqual(run.returncode, 0, run.stderr)


def scattered(inputs, count, seed=1):
    """Random points with random values."""
    draws = random.Random(seed)
    rows = [f"{point:0{inputs}b} {draws.randint(0, 1)}" for point in draws.sample(range(1 << inputs), count)]
    return "\n".join([f".i {inputs}", ".o 1", ".type fr", *rows, ".e", ""])


def random_description(draws):
    """A description of a few inputs, some of which no row may fix, and of up to three outputs."""
    inputs, outputs = draws.randint(3, 8), draws.randint(1, 3)
    found = descriptions.Description("f", inputs, outputs, draws.choice(descriptions.KINDS))
    symbols = ["-" if draws.random() < 0.2 else draws.choice(["01", "01-", "01--"]) for _ in range(inputs)]
    results = draws.choice(["01", "01~", "1", "1-~", "01-", "000111-"])
    table = draws.random() < 0.3
    for number in range(1 << inputs if table else draws.randint(1, 14)):
        cube = f"{number:0{inputs}b}" if table else "".join(map(draws.choice, symbols))
        found.rows.append(descriptions.Row(number, cube, "".join(draws.choice(results) for _ in range(outputs))))
    return found


class Remedies(Solving):
    """Each remedy by an example."""

    def test_fewer_rows(self):
        """A table of 65,536 rows is answered."""
        rows = "".join(f"{k:016b} {int(k >> 12 == 5 or k % 8 == 3)}\n" for k in range(1 << 16))
        ended = self.solve(f".i 16\n.o 1\n.type fr\n.p 65536\n{rows}.e\n")
        self.assertEqual(ended.returncode, 0, ended.stderr)
        self.assertRegex(ended.stderr, r"fewer rows: 65536 made \d\d\n")

    def test_unused_inputs(self):
        text = ".i 70\n.o 2\n.type f\n" + "-" * 68 + "11 10\n" + "1" + "-" * 69 + " 01\n"
        self.expect(self.solve(text), 0, "f1 = x69*x70\nf2 = x1\n", "unused inputs: 70 made 3")

    def test_outputs_apart(self):
        """One output that does not fit takes no other with it."""
        hard = scattered(14, 60).splitlines()[3:-1]
        rows = [*(f"{row}~" for row in hard), "1" * 14 + " ~1", "0" * 14 + " ~0"]
        text = "\n".join([".i 14", ".o 2", ".ob hard easy", ".type fr", *rows, ""])
        ended = self.solve(text, "--nodes", "4")
        self.assertEqual(ended.returncode, 13)
        self.assertEqual(ended.stdout, "easy = x14\n")
        for says in ("outputs apart", "output hard: ", "more than 16 nodes are needed"):
            self.assertIn(says, ended.stderr)

    def test_more_slots(self):
        """Where points are free and the table is too small, a larger one is taken."""
        lines = [".i 23", ".o 1", ".type fr"]
        for chosen in range(17):
            for value in "01":
                data = "".join(value if place == chosen else "-" for place in range(18))
                lines.append(f"{data}{chosen:05b} {value}")
        ended = self.solve("\n".join([*lines, ".e", ""]))
        self.assertEqual(ended.returncode, 0, ended.stderr)
        self.assertIn("more slots: 2^21", ended.stderr)

    def test_another_order(self):
        """A multiplexer with its data first."""
        text = (TOP / "examples/selects_last.pla").read_text()
        ended = self.solve(text)
        self.assertEqual(ended.returncode, 0, ended.stderr)
        self.assertIn("another order: ", ended.stderr)
        shown = descriptions.parse(text.encode(), "f").shown_input_names
        ranks = {name: 1 << (len(shown) - 1 - place) for place, name in enumerate(shown)}
        expected = (TOP / "examples/selects_last.ordered").read_text().partition(" = ")[2].strip()
        masks = solving.masks_of(expected, ranks)
        self.assertEqual(solving.masks_of(ended.stdout.partition(" = ")[2].strip(), ranks), sorted(masks, reverse=True))

    def test_another_order_than_the_asked_one(self):
        """The terms of several outputs are sorted back to the order that is asked for."""
        rows = []
        for chosen in range(4):
            data = "".join("1" if place == chosen else "-" for place in range(4))
            rows += [f"{chosen:02b}{data} 10", f"{chosen:02b}{data[::-1]} 01"]
        text = "\n".join([".i 6", ".o 2", ".type f", *rows, ".e", ""])
        order = "x6,x5,x4,x3,x2,x1"
        whole = self.run_words([program("interp"), "anf", "--order", order], input=text.encode()).stdout.decode()
        ended = self.solve(text, "--jobs", "1", "--nodes", "7", "--order", order)
        self.expect(ended, 0, whole, "another order: reversed")

    def test_parts(self):
        """A parity of 16 inputs has 32,768 rows, and no two of them can be made one."""
        rows = "".join(f"{k:016b} 1\n" for k in range(1 << 16) if bin(k).count("1") % 2)
        ended = self.solve(f".i 16\n.o 1\n.type f\n{rows}.e\n")
        self.expect(ended, 0, "f1 = " + " + ".join(f"x{k}" for k in range(1, 17)) + "\n", "parts: ")
        product = "f1 = " + "*".join(f"x{k}" for k in range(1, 401)) + "\n"
        self.expect(self.solve(f".i 400\n.o 1\n.type f\n{'1' * 400} 1\n"), 0, product, "parts: ")
        ended = self.solve(f".i 1024\n.o 1\n.type f\n{'1' * 1024} 1\n")
        self.expect(ended, 3, "", "output f1 alone has 1 rows over 1024 inputs", "the file is too large")

    def test_first_inputs(self):
        """In mode anf the inputs that the rows agree without are left out, and the text is the same."""
        draws = random.Random(5)
        for _ in range(200):
            inputs = draws.randint(3, 9)
            text = scattered(inputs, draws.randint(2, 1 << inputs - 1), draws.random())
            with self.case(text):
                description = descriptions.parse(text.encode(), "f")
                found = remedies.problem(description, [0])
                fewer = remedies.without_first_inputs(found, list(range(inputs)))
                small = leastanf.descriptions.parse(fewer.text(), "f")
                small.given_input_names = [f"x{place + 1}" for place in fewer.inputs]
                self.assertEqual(self.text_of(small), self.text_of(description))
        free = descriptions.parse(b".i 3\n.o 1\n.type fdr\n1-1 1\n0-0 0\n-11 -\n", "f")
        self.assertIsNone(remedies.without_first_inputs(remedies.problem(free, [0]), [0, 1, 2]))
        rows = []
        for code in draws.sample(range(256), 60):
            front = "".join("-" if draws.random() < 0.8 else draws.choice("01") for _ in range(24))
            rows.append(f"{front}{code:08b} {bin(code).count('1') % 2}")
        ended = self.solve("\n".join([".i 32", ".o 1", ".type fr", *rows, ".e", ""]))
        self.assertEqual(ended.returncode, 0, ended.stderr)
        self.assertIn("first inputs: ", ended.stderr)

    def text_of(self, description):
        run = subprocess.run(
            [program("interp"), "anf"], input=descriptions.text(description).encode(), capture_output=True, check=True
        )
        return run.stdout

    def test_names(self):
        long = "c" * 33
        text = f".i 3\n.o 1\n.ilb a$1 b {long}\n.ob out'\n.type f\n111 1\n1-0 1\n"
        self.expect(self.solve(text), 0, f"out' = a$1*b*{long} + a$1*{long} + a$1\n", "names: a$1 ")
        self.expect(self.solve(text, "--order", f"{long},b,a$1"), 0, f"out' = {long}*b*a$1 + {long}*a$1 + a$1\n")
        self.expect(self.solve(".i 2\n.o 1\n.ilb x2 a$\n.type f\n10 1\n"), 0, "f1 = x1*a$ + x1\n")

    def test_random_files_in_small_tables(self):
        """In tables of a few slots the remedies give the text that the program has in a large one."""
        os.environ["INTERP"] = program("interp")
        draws = random.Random(11)
        met = {}
        for _ in range(500):
            description = random_description(draws)
            with self.case(descriptions.text(description)):
                order = draws.sample(range(description.inputs), description.inputs) if draws.random() < 0.5 else None
                mode = draws.choice(["anf", "anf", "basis"])
                settings = solving.Settings(mode, order, nodes=draws.randint(4, 7), processors=2)
                try:
                    solution = solving.solve(description, settings)
                except (solving.TooManyNodes, solving.Contradiction, solving.TimeUp):
                    continue
                for note in solution.notes:
                    met[note.partition(":")[0]] = met.get(note.partition(":")[0], 0) + 1
                expected = self.expected(description, mode, order)
                for output in solution.outputs:
                    self.assertEqual(output.text(), expected[output.place])
        self.assertLessEqual(set(solving.REMEDIES) - {"more slots", "names"}, set(met))

    def expected(self, description, mode, order):
        """The lines of each output in a large table."""
        names = [description.input_names[place] for place in order or range(description.inputs)]
        words = [program("interp"), mode, "--order", ",".join(names)]
        run = subprocess.run(words, input=descriptions.text(description).encode(), capture_output=True, check=True)
        found = []
        for line in run.stdout.decode().splitlines(keepends=True):
            if line.startswith("0 = "):
                found[-1] += line
            else:
                found.append(line)
        return found

    def test_every_remedy_is_tried(self):
        tested = {name[len("test_") :].replace("_", " ") for name in dir(self) if name.startswith("test_")}
        self.assertLessEqual(set(solving.REMEDIES), tested)

    def test_merged_rows_have_the_same_points(self):
        draws = random.Random(3)
        for _ in range(200):
            width = draws.randint(1, 6)
            rows = ["".join(draws.choice("01-") for _ in range(width)) for _ in range(draws.randint(0, 20))]
            cubes = [remedies.cube_of(row) for row in rows]
            fewer = remedies.merged(cubes, width)
            before, after = (
                {point for point in range(1 << width) if any(point & fixed == ones for fixed, ones in some)}
                for some in (cubes, fewer)
            )
            self.assertEqual(before, after)
            self.assertEqual(remedies.count_points(cubes, width), len(before))
            self.assertLessEqual(len(fewer), len(set(cubes)))


class OnRequest(Solving):
    """Orders and polarities that change the answer."""

    def repeated(self, ended, text=""):
        """What the lines print that repeat the run by the program alone, where a text is the standard input."""
        lines = re.findall(r"the same[^:]* by the program alone: (.*)", ended.stderr)
        self.assertTrue(lines, ended.stderr)
        names = self.here / "bin"
        names.mkdir(exist_ok=True)
        for name, target in (("interp", self.environment["INTERP"]), ("solve", TOP / "tools/solve")):
            if not (names / name).exists():
                (names / name).symlink_to(target)
        environment = {**self.environment, "PATH": f"{names}:{os.environ['PATH']}"}
        how = {"cwd": self.here, "env": environment, "capture_output": True, "text": True, "check": True, "input": text}
        return "".join(subprocess.run(["bash", "-c", line], **how).stdout for line in lines)

    def test_order(self):
        """On samples of a function of few inputs the true function is found."""
        draws = random.Random(2)
        points_ = draws.sample(range(1 << 12), 120)
        rows = [f"{p:012b} {(p >> 11 & 1) ^ ((p >> 10 & 1) & (p >> 9 & 1))}" for p in points_]
        text = "\n".join([".i 12", ".o 1", ".type fr", *rows, ".e", ""])
        before = self.solve(text)
        for wanted in ("auto", "each"):
            with self.case(wanted):
                ended = self.solve(text, "--order", wanted)
                self.assertEqual(ended.returncode, 0, ended.stderr)
                terms = {frozenset(term.split("*")) for term in ended.stdout[len("f1 = ") : -1].split(" + ")}
                self.assertEqual(terms, {frozenset(["x1"]), frozenset(["x2", "x3"])})
                self.assertLess(len(ended.stdout), len(before.stdout))
                self.assertEqual(self.repeated(ended), ended.stdout)

    def test_orders(self):
        """The inputs of a function are found from samples of it, as those that suffice and as those of a fit."""
        draws = random.Random(3)
        used = [2, 5, 9]
        rows = []
        for point in draws.sample(range(1 << 12), 150):
            values = f"{point:012b}"
            a, b, c = (int(values[place]) for place in used)
            rows.append(f"{values} {a ^ b & c}")
        description = descriptions.parse("\n".join([".i 12", ".o 1", ".type fr", *rows, ""]).encode(), "f")
        found = [remedies.problem(description, [0])]
        self.assertEqual(orders.fitted_inputs(found, list(range(12)), 12), used)
        self.assertEqual(orders.needed_inputs(found, [0, 1, 3, 4, 6, 7, 8, 10, 11, *used], 12), used)
        named = orders.orders_for_free_points(found, list(range(12)), description.input_names, 12)
        self.assertTrue(any(order[-3:] == used for _, order in named))
        for _, order in named:
            self.assertEqual(sorted(order), list(range(12)))

    def test_orders_that_are_tried(self):
        """By the literals of the rows and the numbers in names; no two are the same, and none is that of the file."""
        names = "a[0] a[10] a[2] s b[0] b[1]".split()
        cubes = [(0b110000, 0b110000), (0b010100, 0b000100)]
        wanted = {
            "reversed": "b[1] b[0] s a[2] a[10] a[0]",
            "most literals first": "a[10] a[0] s a[2] b[0] b[1]",
            "narrow names first": "s b[0] b[1] a[0] a[2] a[10]",
            "narrow names first, highest bit first": "s b[1] b[0] a[10] a[2] a[0]",
            "single names first, bits side by side": "s a[0] b[0] a[2] b[1] a[10]",
            "single names first, highest bits first": "s a[10] a[2] b[1] a[0] b[0]",
            "bits side by side": "a[0] b[0] a[2] b[1] a[10] s",
            "highest bits first": "a[10] a[2] b[1] a[0] b[0] s",
            "fewest literals first": "a[2] b[0] b[1] a[0] s a[10]",
            "narrow names last": "a[0] a[2] a[10] b[0] b[1] s",
            "most informative first": "a[10] a[0] a[2] s b[0] b[1]",
            "halves side by side": "a[0] s a[10] b[0] a[2] b[1]",
        }
        found = dict(orders.static_orders(range(6), cubes, names, 6))
        self.assertEqual({what: " ".join(names[at] for at in order) for what, order in found.items()}, wanted)
        self.assertEqual(orders.static_orders([0], [], ["x"], 1), [])

    def test_polarities_that_are_tried(self):
        """By the zeros and ones that the rows of value 1 have; no two are the same."""
        rows = ["00- 1", "01- 1", "-11 1", *3 * ["110 0"]]
        given = descriptions.parse("\n".join([".i 3", ".o 1", ".type f", *rows, ""]).encode(), "f")
        wanted = [("none", []), ("all", [0, 1, 2]), ("more zeros than ones", [0]), ("more ones than zeros", [1, 2])]
        self.assertEqual(polarity.candidates(given), wanted)
        given = descriptions.parse(b".i 1\n.o 1\n.type f\n0 1\n", "f")
        self.assertEqual(polarity.candidates(given), [("none", []), ("all", [0])])

    def test_polarity(self):
        """A decoder of 20 bits has more than a million terms, and one where its inputs are complemented."""
        text = ".i 20\n.o 2\n.ob low high\n.type f\n" + "0" * 20 + " 10\n" + "1" * 20 + " 01\n.e\n"
        ended = self.solve(text)
        self.assertEqual(ended.returncode, 13, ended.stderr)
        self.assertIn("--polarity auto", ended.stderr)
        self.assertEqual(ended.stdout, "high = " + "*".join(f"x{k}" for k in range(1, 21)) + "\n")
        for wanted in ("auto", "each"):
            with self.case(wanted):
                ended = self.solve(text, "--polarity", wanted)
                self.assertEqual(ended.returncode, 0, ended.stderr)
                self.assertTrue(ended.stdout.startswith("low = " + "*".join(f"~x{k}" for k in range(1, 21)) + "\n"))
                self.assertEqual(ended.stdout.splitlines()[1], "high = " + "*".join(f"x{k}" for k in range(1, 21)))
                self.assertEqual(self.repeated(ended), ended.stdout.replace("~", ""))

    def test_side_by_side(self):
        """Runs go side by side: none of the first two begins before the other one is there."""
        waits = "for n in $(seq 300); do [ $(ls started.* | wc -l) -gt 1 ] && exec \"$real\" \"$@\"; sleep 0.1; done"
        real = shlex.quote(self.environment["INTERP"])
        script = f"real={real}; touch started.$$; {waits}; touch alone; exit 7"
        ended = self.solve(".i 3\n.o 1\n.type f\n001 1\n", "--polarity", "auto", "--jobs", "2", program=script)
        self.expect(ended, 0, "f1 = ~x1*~x2*x3\n", "polarity ~x1,~x2")
        self.assertFalse((self.here / "alone").exists())

    def test_given_polarity(self):
        self.expect(self.solve(XOR, "--polarity", "b"), 0, "f1 = a + ~b + 1\n")
        self.expect(self.solve(XOR, "--polarity", "all"), 0, "f1 = ~a + ~b\n")
        ended = self.solve(SMALL, "basis", "--polarity", "c", "--order", "c,b,a")
        self.assertEqual(ended.returncode, 0, ended.stderr)
        self.assertEqual(self.repeated(ended), ended.stdout.replace("~", ""))

    def test_line_of_a_large_file(self):
        """The line that repeats the run names the inputs of the smaller text, and says what it prints otherwise."""
        draws = random.Random(2)
        rows = []
        for point in draws.sample(range(1 << 12), 60):
            values = f"{point:012b}"
            a, b, c = map(int, values[:3])
            rows.append(f"{'-' * 30}{values}{'-' * 28} {a ^ b & c}")
        for name, other in (("a", "the same by"), ("a-", "the same, with numbered names, by")):
            names = " ".join(f"{name}{place}" for place in range(1, 71))
            with self.case(name):
                text = "\n".join([".i 70", ".o 1", f".ilb {names}", ".type fr", *rows, ""])
                ended = self.solve(text, "--order", "auto")
                self.assertEqual(ended.returncode, 0, ended.stderr)
                self.assertIn(other, ended.stderr)
                self.assertIn("--order", ended.stderr)
                self.assertEqual(self.repeated(ended), ended.stdout.replace(name, "x" if "-" in name else name))

    def test_lines_of_other_names(self):
        """The lines run where the file is standard input, and where it or a name in it begins like an option."""
        text = SMALL.replace("a b c", "-a b c").replace(".ob f", ".ob -f")
        for path in ("-", "-f.pla", "f.pla"):
            if path != "-":
                (self.here / path).write_text(text)
            for more in (["--order=auto"], ["--polarity=b"], ["--polarity=-a"], ["--outputs=-f", "--polarity=b"]):
                with self.case((path, more)):
                    ended = self.run_words([*SOLVE, *more, "--", path], input=text, text=True)
                    self.assertEqual(ended.returncode, 0, ended.stderr)
                    plain = ended.stdout.replace("~", "").replace("-a", "x1").replace("b", "x2").replace("c", "x3")
                    self.assertEqual(self.repeated(ended, text), plain.replace("-f", "f1"))

    def test_both(self):
        ended = self.solve((TOP / "examples/seven_segments.pla").read_text(), "--order", "each", "--polarity", "each")
        self.assertEqual(ended.returncode, 0, ended.stderr)
        self.assertEqual(self.repeated(ended), ended.stdout.replace("~", ""))


class Looking(Test):
    """The look at an answer finds each wrong one of small functions."""

    def test_wrong_answers(self):
        draws = random.Random(4)
        for kind in descriptions.KINDS:
            for _ in range(40):
                inputs = draws.randint(1, 4)
                rows = [
                    descriptions.Row(0, "".join(draws.choice("01-") for _ in range(inputs)), draws.choice("01-~"))
                    for _ in range(draws.randint(1, 5))
                ]
                description = descriptions.Description("f", inputs, 1, kind)
                description.rows = rows
                with self.case(descriptions.text(description)):
                    self.compare(description, inputs)

    def test_random_choice(self):
        """Where there are many care points some of them are looked at, of each value, and they find what is wrong."""
        for kind in descriptions.KINDS:
            text = f".i 40\n.o 1\n.type {kind}\n1{'-' * 39} 1\n0{'-' * 39} 0\n"
            description = descriptions.parse(text.encode(), "f")
            with self.case(kind):
                sample = points.sample(description, 0)
                self.assertTrue(points.MOST_POINTS // 2 <= sample.size <= points.MOST_POINTS, sample.size)
                self.assertTrue(sample.size // 4 < bin(sample.ones).count("1") < sample.size * 3 // 4)
                for text, right in (("x1", True), ("x1 + x2", False), ("x1*x2 + x1", False), ("1", False)):
                    self.assertEqual(points.fault(description, 0, text, [], description.input_names) is None, right)

    def test_every_point(self):
        """Of up to 4,096 care points all are looked at: a polynomial that is wrong at one of them alone is found."""
        draws = random.Random(6)
        for kind, rows in (("f", "1{0} 1\n"), ("fd", "1{0} 1\n"), ("fr", "1{0} 1\n0{0} 0\n")):
            text = f".i 12\n.o 1\n.type {kind}\n{rows.format('-' * 11)}"
            description = descriptions.parse(text.encode(), "f")
            names = description.input_names
            for wrong in [0, 4095, *draws.sample(range(1, 4095), 40)]:
                with self.case((kind, wrong)):
                    masks = {1 << 11} ^ {mask for mask in range(1 << 12) if mask & wrong == wrong}
                    text = Monomials(names).text(sorted(masks, reverse=True))
                    told = points.fault(description, 0, text, [], names)
                    self.assertEqual(told, f"the polynomial has the wrong value at {wrong:012b}")

    def compare(self, description, inputs):
        """Every polynomial that has the value of a care point is right, and no other one."""
        names = description.input_names
        care = {}
        for point in range(1 << inputs):
            values = f"{point:0{inputs}b}"
            met = {
                description.set_of(row.outputs)
                for row in description.rows
                if all(symbol in (value, "-") for symbol, value in zip(row.inputs, values))
            }
            if "on" in met and "off" in met:
                return
            if "free" not in met and ("on" in met or "off" in met or description.kind in ("f", "fd")):
                care[point] = int("on" in met)
        draws = random.Random(str(care))
        for _ in range(20):
            masks = [mask for mask in range(1 << inputs) if draws.random() < 0.5]
            text = str(Monomials(names).polynomial(masks))
            right = all(sum(mask & point == mask for mask in masks) % 2 == value for point, value in care.items())
            zero = all(sum(mask & point == mask for mask in masks) % 2 == 0 for point in care)
            self.assertEqual(points.fault(description, 0, text, [], names) is None, right)
            right = str(Monomials(names).polynomial(interpolated(care)))
            self.assertEqual(points.fault(description, 0, right, [text], names) is None, zero)


def interpolated(care):
    """The terms of a polynomial that takes the values of some points."""
    masks = []
    for point in sorted(care, key=lambda point: (bin(point).count("1"), point)):
        if sum(mask & point == mask for mask in masks) % 2 != care[point]:
            masks.append(point)
    return masks


class Files(Solving):
    """Several files, folders of answers, standard input, other languages, and the options of the program."""

    def test_several(self):
        (self.here / "g.pla").write_text(SMALL)
        ended = self.solve(XOR, "g.pla")
        self.expect(ended, 0, f"==> g.pla <==\nf = {self.small()}\n==> f.pla <==\nf1 = a + b\n")
        ended = self.solve(XOR, "g.pla", "nofile.pla", "-o", "answers")
        self.expect(ended, 8, "", "nofile.pla")
        self.assertEqual((self.here / "answers/f.anf").read_text(), "f1 = a + b\n")
        self.assertEqual((self.here / "answers/g.anf").read_text(), f"f = {self.small()}\n")
        ended = self.solve(XOR, "-o", "f.pla/answers")
        self.assertEqual(ended.returncode, 9)

    def test_no_file_is_written_over(self):
        """No answer takes the place of a file that is read, by whatever path it has."""
        (self.here / "g.anf").write_text(XOR)
        (self.here / "link").symlink_to(".")
        (self.here / "loop").symlink_to("loop")
        for folder in (".", "link", str(self.here)):
            with self.case(folder):
                self.expect(self.solve(XOR, "g.anf", "-o", folder), 2, "", "would be written over one of the files")
                self.assertEqual((self.here / "g.anf").read_text(), XOR)
        for name, file in (("f.anf", "f.pla"), ("standard_input.anf", "-")):
            with self.case(name):
                (self.here / "f.pla").write_text(XOR)
                os.link(self.here / "f.pla", self.here / name)
                with open(self.here / "f.pla", "rb") as given:
                    ended = self.run_words([*SOLVE, "-o", ".", file], stdin=given)
                self.assertEqual((ended.returncode, ended.stdout), (2, b""), ended.stderr)
                self.assertEqual((self.here / "f.pla").read_text(), XOR)
        with self.case("a link to another answer"):
            (self.here / "a").mkdir()
            (self.here / "a/g.anf").write_text("")
            os.link(self.here / "a/g.anf", self.here / "a/f.anf")
            self.expect(self.solve(XOR, "g.anf", "-o", "a"), 2, "", "would have their answer in one file")
        with self.case("a link to itself"):
            self.expect(self.solve(XOR, "loop", "-o", "answers"), 8, "", "loop: ")

    def small(self):
        run = subprocess.run([program("interp"), "anf"], input=SMALL.encode(), capture_output=True, check=True)
        return run.stdout.decode().strip().partition(" = ")[2]

    def test_progress(self):
        """On a terminal it is told how far the run is, and nothing of this stands there in the end."""
        ours, theirs = pty.openpty()
        ended = self.solve(XOR, capture_output=False, stdout=subprocess.PIPE, stderr=theirs)
        os.close(theirs)
        told = os.read(ours, 10000).decode()
        os.close(ours)
        self.assertEqual((ended.returncode, ended.stdout), (0, "f1 = a + b\n"))
        self.assertIn("\r\x1b[Ksolve: f.pla: the file as it is", told)
        self.assertTrue(told.endswith("\r\x1b[K"), repr(told))

    def test_standard_input(self):
        ended = self.run_words([*SOLVE, "-"], input=XOR.encode())
        self.assertEqual((ended.returncode, ended.stdout), (0, b"f1 = a + b\n"))
        ended = self.run_words([*SOLVE, "-", "-"], input=XOR.encode())
        self.assertEqual((ended.returncode, ended.stdout), (2, b""))

    def test_options(self):
        self.expect(self.solve(XOR, "--order=b,a", "--nodes", "8", "--terms", "2", "--workers", "2"), 0, "f1 = b + a\n")
        text = ".i 63\n.o 1\n.type f\n" + "-" * 61 + "11 1\n"
        order = ",".join(f"x{place}" for place in range(63, 0, -1))
        self.expect(self.solve(text, "--order", order), 0, "f1 = x63*x62\n")
        text = (TOP / "examples/seven_segments.pla").read_text()
        ended = self.solve(text, "--outputs", "g,b")
        self.expect(ended, 0, "g = d8 + d4*d2*d1 + d4*d2 + d4 + d2\nb = d4*d2 + d4*d1 + 1\n")
        lines = SMALL.splitlines(keepends=True)
        self.assertEqual(self.solve(SMALL, "--text").stdout, "".join([*lines[:2], lines[4], *lines[2:4], *lines[5:]]))
        self.assertIn('"inputs"', self.solve(XOR, "--as", "json").stdout)

    def test_chosen_outputs_keep_their_names(self):
        """An output that has a number for its name has that of its place in the file, whichever outputs are chosen."""
        text = ".i 2\n.o 3\n.ob a*b c-d e=f\n.type f\n1- 100\n01 010\n11 001\n"
        lines = {"f1": "f1 = x1\n", "c-d": "c-d = x1*x2 + x2\n", "f3": "f3 = x1*x2\n"}
        for chosen in ("f3", "c-d,f1", "f3,f1", "f3,c-d,f1"):
            wanted = "".join(lines[name] for name in chosen.split(","))
            for more in ([], ["--order=each"], ["--polarity=x1"]):
                with self.case((chosen, more)):
                    ended = self.solve(text, "--outputs", chosen, *more)
                    self.assertEqual(ended.returncode, 0, ended.stderr)
                    if more == ["--polarity=x1"]:
                        self.assertEqual(re.findall("^.*(?= = )", ended.stdout, re.MULTILINE), chosen.split(","))
                    else:
                        self.assertEqual(ended.stdout, wanted)

    def test_same_text(self):
        """Of each example in the modes anf and basis, the text that the program prints."""
        for path in sorted((TOP / "examples").glob("*.pla")):
            for mode in ("anf", "basis"):
                with self.case(f"{path.name} {mode}"):
                    data = path.read_bytes()
                    run = subprocess.run([program("interp"), mode], input=data, capture_output=True, check=False)
                    if run.returncode == 0:
                        self.expect(self.solve(data, mode), 0, run.stdout.decode())


class Hostile(Solving):
    """What callers do that tools should stand."""

    def test_closed_pipe(self):
        text = ".i 12\n.o 1\n.type f\n" + "0" * 12 + " 1\n"
        (self.here / "f.pla").write_text(text)
        (self.here / "small.pla").write_text(XOR)
        for words in ("f.pla", "small.pla", "--why"):
            with self.case(words):
                process = self.begin([*SOLVE, words], self.environment)
                process.stdout.close()
                errors = process.stderr.read().decode()
                process.stderr.close()
                self.assertEqual((process.wait(), errors), (141, ""))

    def test_closed_streams(self):
        for which, status in (("<&-", 0), (">&-", 9), ("2>&-", 0), ("<&- >&- 2>&-", 9)):
            with self.case(which):
                (self.here / "f.pla").write_text(XOR)
                words = f"{shlex.join(SOLVE)} f.pla {which}"
                ended = self.run_words(["bash", "-c", words])
                self.assertEqual(ended.returncode, status, ended.stderr)
                self.assertNotIn(b"Traceback", ended.stderr)

    def test_signals(self):
        """An interrupted run ends with what it started."""
        for number, status in ((signal.SIGINT, 130), (signal.SIGTERM, 143), (signal.SIGHUP, 129)):
            with self.case(number):
                # Where the tests run under nohup it is ignored, and what they start has it so.
                self.addCleanup(signal.signal, number, signal.signal(number, signal.SIG_DFL))
                path = self.script("program", "echo $$ > started\nexec sleep 60")
                (self.here / "f.pla").write_text(XOR)
                process = self.begin([*SOLVE, "f.pla"], {**os.environ, "INTERP": path})
                while not (self.here / "started").exists() or not (self.here / "started").read_text().strip():
                    time.sleep(0.05)
                started = int((self.here / "started").read_text())
                process.send_signal(number)
                out, errors = process.communicate(timeout=20)
                self.assertEqual((process.returncode, out, errors), (status, b"", b""))
                self.assertTrue(ends_soon(started))
                (self.here / "started").unlink()

    def test_signals_at_the_first_run(self):
        """The script that builds the program is asked to end, and awaited, whichever thread needs the program first."""
        shutil.copytree(TOP / "tools", self.here / "tools")
        script = self.here / "interp"
        script.write_text(
            "#!/bin/sh\n"
            "# exec \"$top/tools/run_proved\" interp interp_main 'anf' FILE\n"
            f"cd {shlex.quote(str(self.here))}\n"
            "trap 'kill $!; touch ended; exit 143' TERM\n"
            "sleep 60 & echo $! > started; wait\n"
        )
        script.chmod(0o755)
        (self.here / "f.pla").write_text(XOR)
        (self.here / "large.pla").write_text(".i 63\n.o 1\n.type f\n" + "1" * 63 + " 1\n")
        environment = {name: value for name, value in os.environ.items() if name not in ("INTERP", "NFQ")}
        self.addCleanup(signal.signal, signal.SIGTERM, signal.signal(signal.SIGTERM, signal.SIG_DFL))
        for words in (["f.pla"], ["--polarity=auto", "f.pla"], ["large.pla"]):
            with self.case(words):
                process = self.begin([sys.executable, self.here / "tools/solve", *words], environment)
                while not (self.here / "started").exists() or not (self.here / "started").read_text().strip():
                    time.sleep(0.05)
                process.send_signal(signal.SIGTERM)
                out, _ = process.communicate(timeout=20)
                self.assertEqual((process.returncode, out), (143, b""))
                self.assertTrue(ends_soon(int((self.here / "started").read_text())))
                (self.here / "ended").unlink()
                (self.here / "started").unlink()

    def test_first_run(self):
        """Where the program is not built yet, what its script says of this is shown, once."""
        shutil.copytree(TOP / "tools", self.here / "tools")
        self.script(
            "interp",
            "# exec \"$top/tools/run_proved\" interp interp_main 'anf' FILE\n"
            f"cd {shlex.quote(str(self.here))}\n"
            "[ -f crates/interp_main/out/interp_main ] || echo 'interp: 1 of 24 crates' >&2\n"
            "mkdir -p crates/interp_main/out && touch crates/interp_main/out/interp_main\n"
            f'exec {shlex.quote(self.environment["INTERP"])} "$@"',
        )
        (self.here / "f.pla").write_text(XOR)
        environment = {name: value for name, value in os.environ.items() if name not in ("INTERP", "NFQ")}
        for said in ("interp: 1 of 24 crates\n", ""):
            with self.case(said or "built"):
                words = [sys.executable, self.here / "tools/solve", self.here / "f.pla"]
                ended = subprocess.run(words, capture_output=True, text=True, check=False, env=environment)
                self.assertEqual((ended.returncode, ended.stdout, ended.stderr), (0, "f1 = a + b\n", said))

    def test_garbage(self):
        for data in GARBAGE:
            with self.case(data[:30]):
                ended = self.solve(data)
                self.assertIn(ended.returncode, (0, 3))
                self.assertEqual(ended.returncode == 0, ended.stdout != "")

    def test_names_in_messages(self):
        """Names of files are told as UTF-8, or with backslashes."""
        for name in ("caf\u00e9.pla", b"\xff.pla", "a b'\n.pla", ""):
            with self.case(name):
                ended = self.run_words([*SOLVE, name], env={**self.environment, "LC_ALL": "C"})
                self.assertEqual(ended.returncode, 8)
                self.assertNotIn(b"Traceback", ended.stderr)
                told = name.replace("\n", "\\n") if isinstance(name, str) else "\\udcff.pla"
                self.assertIn(told.encode(), ended.stderr)


class Interface(Test):
    """leastanf.solve."""

    def setUp(self):
        os.environ["INTERP"] = program("interp")

    def test_answer(self):
        answer = leastanf.solve(TOP / "examples/full_adder.pla")
        self.assertEqual([output.name for output in answer], ["s", "c"])
        polynomial = answer["c"].polynomial
        self.assertEqual(polynomial.monomials, (("a", "b"), ("a", "cin"), ("b", "cin")))
        self.assertEqual((polynomial.terms, polynomial.degree), (3, 2))
        self.assertEqual([polynomial({"a": 1, "b": b, "cin": 0}) for b in (0, 1)], [0, 1])
        with self.assertRaises(KeyError):
            polynomial({"a": 1, "B": 1, "cin": 0})
        self.assertIn("assign", answer.text("verilog"))
        basis = leastanf.solve((TOP / "examples/half_adder.pla").read_bytes(), mode="basis")
        self.assertEqual([str(element) for element in basis["graph"].basis], ["carry + a*b", "sum + a + b"])
        self.assertEqual(str(leastanf.solve(XOR.encode(), polarity=["b"], order=["b", "a"])), "f1 = ~b + a + 1\n")

    def test_larger_than_the_program_takes(self):
        """Descriptions of tables and lists of points are solved at any size, as their texts are."""
        values = [point >> 7 & point & 1 for point in range(1 << 14)]
        self.assertEqual(str(leastanf.solve(leastanf.table(values))), "f1 = x7*x14\n")
        points_ = leastanf.tables.points(["1" * 70], ["0" * 70])
        self.assertEqual(str(leastanf.solve(points_)), "f1 = x70\n")
        wide = leastanf.table([0, (1 << 65) - 1])
        self.assertEqual(str(leastanf.solve(wide)), "".join(f"f{place} = x1\n" for place in range(1, 66)))

    def test_exceptions(self):
        for text, limits, status in (
            (".i 2\n.o 1\n.type fr\n1- 1\n-1 0\n", {}, 4),
            (scattered(14, 60), {"nodes": 4}, 5),
            (XOR, {"terms": 1}, 6),
            (XOR, {"order": ["a"]}, 12),
        ):
            with self.case(status):
                with self.assertRaises(solving.BY_STATUS[status]) as caught:
                    leastanf.solve(text.encode(), **limits)
                self.assertEqual(caught.exception.status, status)
                self.assertTrue(caught.exception.remedy)
        with self.assertRaises(leastanf.DescriptionError):
            leastanf.solve(b".i 2\n.i 2\n")
        with self.assertRaises(leastanf.DescriptionError):
            leastanf.solve("no such file")
        with self.assertRaises(ValueError):
            leastanf.solve(XOR.encode(), mode="check")
        for limit, (least, most) in solving.LIMITS.items():
            for value in (least - 1, most + 1):
                with self.case((limit, value)), self.assertRaises(ValueError):
                    leastanf.solve(XOR.encode(), **{limit: value})
        text = ".i 20\n.o 2\n.type f\n" + "0" * 20 + " 10\n" + "1" * 20 + " 01\n.e\n"
        with self.assertRaises(leastanf.SomeMissing) as caught:
            leastanf.solve(text.encode())
        self.assertEqual(([output.name for output in caught.exception.answer], caught.exception.outputs), (["f2"], [0]))

    def test_installed(self):
        """pip installs the package with its commands, which find the program on PATH, and read no folder."""
        with tempfile.TemporaryDirectory() as folder:
            made = pathlib.Path(folder) / "the environment"
            if subprocess.run([sys.executable, "-m", "venv", made], capture_output=True, check=False).returncode:
                self.skipTest("pip or venv is not installed")
            words = [made / "bin/pip", "install", "-q", "--no-deps", "--no-index", TOP / "tools"]
            subprocess.run(words, check=True, capture_output=True)
            (made / "bin/interp").symlink_to(program("interp"))
            (made / "solve it").symlink_to(made / "bin/solve")
            environment = {**os.environ, "PATH": f"{made}/bin:{os.environ['PATH']}"}
            del environment["INTERP"]
            for path in (made / "bin/solve", made / "solve it"):
                ended = run([path, TOP / "examples/full_adder.pla"], env=environment)
                self.assertEqual((ended.status, ended.out), (0, "s = a + b + cin\nc = a*b + a*cin + b*cin\n"), ended)
            given = os.open("/", os.O_RDONLY)
            self.addCleanup(os.close, given)
            for name in COMMANDS:
                with self.case(name):
                    ended = run([made / "bin" / name, "--help"], env=environment, stdin=given)
                    self.assertEqual((ended.status, ended.err), (0, ""), ended)
            with self.case("a folder"):
                ended = run([made / "bin/solve", "-"], env=environment, stdin=given)
                said = "solve: standard input: it is closed, or a folder\n"
                self.assertEqual((ended.status, ended.out, ended.err), (8, "", said))
            for words in ([], ["solved"], ["solve"]):
                with self.case(words):
                    ended = run([made / "bin/leastanf", *words], env=environment)
                    self.assertEqual((ended.status, ended.out, ended.err.count("\n")), (2, "", 1), ended)

    def test_page(self):
        """The lines of docs/PYTHON.md."""
        before = os.getcwd()
        os.chdir(TOP)
        try:
            said = io.StringIO()
            with contextlib.redirect_stdout(said):
                failed, tried = doctest.testfile(str(TOP / "docs/PYTHON.md"), module_relative=False)
        finally:
            os.chdir(before)
        self.assertEqual(failed, 0, said.getvalue())
        self.assertGreater(tried, 30)
