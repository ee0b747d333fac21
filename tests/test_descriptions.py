"""The reader of descriptions against the program, on worked, random and mutated files."""

import concurrent.futures
import os
import random
import subprocess
import sys

from tests.harness import TOP, Test, program

sys.path.insert(0, str(TOP / "tools"))

from leastanf import descriptions, solving

# How many random files there are; the environment may ask for more. Each seed makes other ones.
COUNT = int(os.environ.get("RANDOM_DESCRIPTIONS", "20000"))
SEED = int(os.environ.get("RANDOM_SEED", "1"))

# Files that the reader brings into shape: a name, the file, and the description that it is.
SHAPES = [
    ("row over lines", ".i 2\n.o 1\n1\n1\n1\n", ".i 2\n.o 1\n.type fd\n11 1\n.e\n"),
    ("row over lines", ".i 2\n.o 2\n# a\n1 1\n\n# b\n0 1 # c\n", ".i 2\n.o 2\n.type fd\n11 01\n.e\n"),
    ("names over lines", ".i 2\n.o 1\n.ilb a \\\nb\n", ".i 2\n.o 1\n.type fd\n.ilb a b\n.e\n"),
    ("names over lines", ".i 3\n.o 1\n.ilb a\nb\n  c\n11- 1\n", ".i 3\n.o 1\n.type fd\n.ilb a b c\n11- 1\n.e\n"),
    ("names over lines", ".i 3\n.o 1\n.ilb a \\\n1b c\n", ".i 3\n.o 1\n.type fd\n.ilb a 1b c\n.e\n"),
    ("names over lines", ".i 1\n.o 2\n.ob \\\nf \\\ng\n", ".i 1\n.o 2\n.type fd\n.ob f g\n.e\n"),
    ("names over lines", ".i 3\n.o 1\n.ilb a\\\nb c\n", ".i 3\n.o 1\n.type fd\n.ilb a b c\n.e\n"),
    ("comment behind symbol", ".i 1\n.o 1\n1 1#\u00e9\n", ".i 1\n.o 1\n.type fd\n1 1\n.e\n"),
    ("byte order mark", "\ufeff.i 1\n.o 1\n", ".i 1\n.o 1\n.type fd\n.e\n"),
    ("symbol 3", ".i 1\n.o 2\n.type fr\n1 13\n", ".i 1\n.o 2\n.type fr\n1 10\n.e\n"),
    ("late type", ".i 1\n.o 1\n1 1\n.type fr\n0 0\n", ".i 1\n.o 1\n.type fr\n1 1\n0 0\n.e\n"),
    ("phases of one", ".i 1\n.o 2\n.phase 11\n", ".i 1\n.o 2\n.type fd\n.e\n"),
    ("binary variables", ".mv 3 2 1\n11 1\n", ".i 2\n.o 1\n.type fd\n11 1\n.e\n"),
]

# Files that the program takes, and the description that each is.
TAKEN = [
    (".i 2\r\n.o 1\r\n1 | 1 | 1\r\n.e\r\n", ".i 2\n.o 1\n.type fd\n11 1\n.e\n"),
    (".i 007\n.o 1", ".i 7\n.o 1\n.type fd\n.e\n"),
    ("\t.i 1 # one\n #\n.o 1\n.p 3\n.foo bar\n1 1\n.end of it\n\0", ".i 1\n.o 1\n.type fd\n1 1\n.e\n"),
    (".i 1\n.o 1\n1 1\n.ilb a#b\n.ob \\\n", ".i 1\n.o 1\n.type fd\n.ilb a#b\n.ob \\\n1 1\n.e\n"),
    (".i 2\n.o 1\n.ilb a \\\n11 1\n", ".i 2\n.o 1\n.type fd\n.ilb a \\\n11 1\n.e\n"),
    (".i 1\n.o 1\n.TYPE fr\n1 1\n", ".i 1\n.o 1\n.type fd\n1 1\n.e\n"),
    (".i 1\n.o 1\n#\u00e9\n2 4\n", ".i 1\n.o 1\n.type fd\n2 4\n.e\n"),
]

# Files that are refused: each with its line and the cause.
REFUSED = [
    (".i 2\n.o 1\n\0", 3, "BadByte"),
    (".i 1\n.o 1\n.ilb \u00e9\n", 3, "BadByte"),
    (".i 1\r.o 1\r1 1\r", 1, "BadByte"),
    (".i 2 2\n", 1, "BadNumber"),
    (".i\n", 1, "BadNumber"),
    (".i -1\n", 1, "BadNumber"),
    (".i 2#two\n", 1, "BadNumber"),
    (".i 0\n", 1, "SizeRange"),
    (".i 9" + "0" * 5000 + "\n", 1, "SizeRange"),
    (".i 2\n.i 2\n", 2, "Twice"),
    (".i 1\n.o 1\n.type f\n.type f\n", 4, "Twice"),
    (".i 1\n.o 1\n.ilb a\n.ilb a\n", 4, "Twice"),
    (".i 2\n.o 1\n10 1\n.type g\n", 4, "TypeLate"),
    (".i 2\n.o 1\n.type g\n", 3, "BadType"),
    (".i 2\n.o 1\n.type f d\n", 3, "BadType"),
    (".i 2\n.o 1\n.type esop\n", 3, "BadType"),
    (".i 2\n.ilb a b\n.o 1\n", 2, "NamesEarly"),
    (".i 2\n.o 1\n.ilb a\n", 3, "NameCount"),
    (".i 3\n.o 1\n.ilb a b\n111 1\n000 1\n.e\n", 3, "NameCount"),
    (".i 3\n.o 1\n.ilb a b c d\n111 1\n", 3, "NameCount"),
    (".i 3\n.o 1\n.ilb a b\n.ob f\n", 3, "NameCount"),
    (".i 2\n.o 1\n.ilb a b \\\n11 1\n", 3, "NameCount"),
    (".i 1\n.o 1\n.ilb a \\\n", 3, "NameCount"),
    (".i 3\n.o 1\n.ilb a \\\n.ob f\n", 3, "NameCount"),
    (".i 1\n.o 1\n.ob\n\\\n", 3, "NameCount"),
    (".i 3\n.o 1\n.ilb a\nb \\\n111 1\n", 3, "NameCount"),
    (".i 2\n.o 1\n.type dr\n", 3, "Unsupported"),
    (".i 2\n.o 1\n.phase 0\n", 3, "Unsupported"),
    (".i 2\n.o 1\n.phase 11\n", 3, "Unsupported"),
    (".mv 4 2 3 1\n", 1, "Unsupported"),
    (".i 2\n10 1\n", 2, "RowBeforeSize"),
    ("module f(a);\n", 1, "RowBeforeSize"),
    (".i 2\n.o 1\n1-\n", 3, "RowLength"),
    (".i 2\n.o 1\n1\n.e\n", 3, "RowLength"),
    (".i 2\n.o 1\n11 11\n", 3, "RowLength"),
    (".i 2\n.o 1\n1-\n\0\n", 3, "RowLength"),
    (".i 2\n.o 1\n1x 1\n", 3, "BadSymbol"),
    (".i 2\n.o 1\n11 x\n", 3, "BadSymbol"),
    (".i 2\n.o 1\n3- 1\n", 3, "BadSymbol"),
    (".i 2\n.o 1\n1? 1\n11 1\n", 3, "BadSymbol"),
    (".i 2\n.o 1\n11 ?\n", 3, "BadSymbol"),
    (".i 2\n.o 1\n1?\n1\n", 3, "RowLength"),
    (".i 3\n.o 1\n.ilb a b\n?11 1\n", 3, "NameCount"),
    (".i 2\n.e\n", 2, "NoSize"),
    ("# only\n\n# comments\n", 3, "NoSize"),
    (".i 2\n.o 0\n11\n", 2, "SizeRange"),
    ("", None, "NoSize"),
]

# What random files are made of besides rows.
LINES = """
.type f/.type fd/.type fr/.type fdr/.type r/.type esop/.type/.type f f/.TYPE fr/.p 3/.p/.i 2/.i 3/.i 0/.i x/.i 63
.i 2 3/.o 1/.o 2/.o 65/.o/.e/.end/.e x/.kiss/.phase 1/.phase 11/.phase 10/.mv 3 2 1/.mv 4 2 3 1/.pair 1/.symbolic a
.foo/# .i 2/  # a// \t/1/-/11 1/a/\\/.ilb a b/.ilb a b c/.ilb a \\/.ilb a a/.ilb a+b c/.ob f/.ob f g/.ob 0/.ob \\
""".strip("\n").replace("\n", "/").split("/")
BYTES = [
    *(bytes([byte]) for byte in b"#| \t\n\r\0\\.?3~42"),
    b"\r\n",
    b"\xc3\xa9",
    b"\xef\xbb\xbf",
]


def random_file(draws):
    """A file of a few inputs and outputs, which may be wrong or have a form of another tool."""
    inputs, outputs = draws.randint(1, 5), draws.randint(1, 3)
    kind = draws.choice(["f", "fd", "fr", "fdr", None])
    lines = [f".i {inputs}", f".o {outputs}"]
    if kind:
        lines.append(f".type {kind}")
    if draws.random() < 0.4:
        lines.append(".ilb " + " ".join(random_names(draws, inputs)))
    if draws.random() < 0.3:
        lines.append(".ob " + " ".join(random_names(draws, outputs)))
    symbols = "01-" if draws.random() < 0.5 else "0111----22"
    results = draws.choice(["01", "01-~", "1", "1~", "014-~2", "0~"])
    for _ in range(draws.randint(0, 8)):
        row = "".join(draws.choice(symbols) for _ in range(inputs)) + draws.choice(["", " ", " | "])
        lines.append(row + "".join(draws.choice(results) for _ in range(outputs)))
    if draws.random() < 0.7:
        lines.append(draws.choice([".e", ".end"]))
    data = "\n".join(lines).encode() + draws.choice([b"", b"\n"])
    for _ in range(draws.choice([0, 0, 1, 1, 1, 2, 3])):
        data = mutated(draws, data)
    return data


def random_names(draws, count):
    ends = [""] if draws.random() < 0.7 else ["", "+", "$", "'", "a" * 31]
    return [draws.choice("abcxyz") + str(place) + draws.choice(ends) for place in range(count)]


def mutated(draws, data):
    """The file with one change."""
    lines = data.split(b"\n")
    at = draws.randrange(len(lines))
    how = draws.randrange(8)
    if how == 0:
        lines.insert(at, draws.choice(LINES).encode())
    elif how == 1:
        del lines[at]
    elif how == 2:
        lines.insert(at, lines[draws.randrange(len(lines))])
    elif how == 3:
        lines.append(lines.pop(at))
    elif how == 4:
        lines[at] = draws.choice(LINES).encode()
    else:
        place = draws.randrange(len(data) + 1)
        stop = place + (0 if how == 5 else 1)
        return data[:place] + (b"" if how == 7 else draws.choice(BYTES)) + data[stop:]
    return b"\n".join(lines)


def run_program(data):
    """The status of the program on a file, its answer, and its message."""
    run = subprocess.run([program("interp"), "anf"], input=data, capture_output=True, check=False)
    messages = [line for line in run.stderr.decode().splitlines() if line.startswith("interp:")]
    return run.returncode, run.stdout.decode(), messages[-1] if messages else ""


class Worked(Test):
    """Worked files."""

    def test_shapes(self):
        for form, text, shape in SHAPES:
            with self.case(text):
                description = descriptions.parse(text.encode(), "file")
                self.assertIn(form, description.forms)
                self.assertEqual(descriptions.text(description), shape)
                self.assertEqual(run_program(text.encode())[0], 3)
                self.assertEqual(run_program(shape.encode())[0], 0)

    def test_taken(self):
        for text, shape in TAKEN:
            with self.case(text):
                description = descriptions.parse(text.encode(), "file")
                self.assertEqual(description.forms, {})
                self.assertEqual(descriptions.text(description), shape)
                self.assertEqual(run_program(text.encode()), run_program(shape.encode()))
                self.assertEqual(run_program(text.encode())[0], 0)

    def test_refusals(self):
        for text, line, cause in REFUSED:
            with self.case(text[:40]):
                with self.assertRaises(descriptions.DescriptionError) as caught:
                    descriptions.parse(text.encode(), "file")
                self.assertEqual((caught.exception.cause, caught.exception.line), (cause, line or 0))
                self.assertIn(f"{cause}: ", str(caught.exception))
                status, _, message = run_program(text.encode())
                self.assertEqual(status, 3)
                if not text.startswith((".i 2\n.o 1\n.phase",)):
                    self.assertEqual(message, f"interp: line {line or 0}: {cause}")

    def test_every_cause_is_tried(self):
        tried = {cause for _, _, cause in REFUSED} | {"TooManyRows"}
        self.assertEqual(tried, set(descriptions.CAUSES))
        shapes = {form for form, _, _ in SHAPES} | {"inputs", "outputs", "rows", "bytes"}
        self.assertEqual(shapes, set(descriptions.FORMS))

    def test_sizes(self):
        """Files that are larger than the program takes are read, and told."""
        for form, text in (
            ("inputs", ".i 63\n.o 1\n"),
            ("outputs", ".i 1\n.o 65\n"),
            ("rows", ".i 1\n.o 1\n" + "1 1\n" * 8193),
            ("bytes", ".i 1\n.o 1\n" + "#" * 4194304),
        ):
            with self.case(form):
                self.assertEqual(list(descriptions.parse(text.encode(), "file").forms), [form])
                self.assertIn(run_program(text.encode())[0], (3, 10))

    def test_what_stands_behind(self):
        """A description ends with its last line: nothing behind it is read."""
        for end in (".e", ".end"):
            with self.case(end):
                found = descriptions.parse(f".i 1\n.o 1\n1 1\n{end}\n0 1\n.i 1\nf1 = 0\n".encode(), "file")
                self.assertEqual([row.inputs for row in found.rows], ["1"])


class Against(Test):
    """Random files: what the reader and solving make of each, and what the program does."""

    def test_random_files(self):
        draws = random.Random(SEED)
        path = program("interp")
        os.environ["INTERP"] = path
        files = [random_file(draws) for _ in range(COUNT)]
        with concurrent.futures.ThreadPoolExecutor(os.cpu_count()) as pool:
            for data, ended in zip(files, pool.map(run_program, files)):
                with self.case(data):
                    self.compare(data, *ended)
        with concurrent.futures.ThreadPoolExecutor(os.cpu_count()) as pool:
            taken = [(data, description) for data, description in map(read, files) if description]
            for (data, description), found in zip(taken, pool.map(solved, [description for _, description in taken])):
                with self.case(data):
                    self.compare_answers(data, description, found)

    def compare(self, data, status, _, message):
        """The reader takes what the program takes, and refuses what it refuses with its cause, or names a form."""
        self.assertIn(status, (0, 3, 4))
        try:
            description = descriptions.parse(data, "file")
        except descriptions.DescriptionError as error:
            self.assertEqual(status, 3)
            if not error.forms:
                self.assertEqual(message, f"interp: line {error.line}: {error.cause}")
            return
        self.assertEqual(status == 3, bool(description.forms))
        again = descriptions.parse(descriptions.text(description).encode(), "file")
        self.assertEqual(descriptions.text(again), descriptions.text(description))

    def compare_answers(self, data, description, found):
        """Solving gives the program's text, but for names that it put back, and no answer to a contradiction."""
        status, text, _ = run_program(data)
        if description.forms:
            status, text, _ = run_program(descriptions.text(description).encode())
        if {"inputs", "outputs"} & set(description.forms):
            return
        if status == 4:
            self.assertIsInstance(found, solving.Contradiction)
            return
        self.assertEqual(status, 0)
        named = dict(zip(description.input_names, description.shown_input_names))
        lines = []
        for line, name in zip(text.splitlines(), description.shown_output_names):
            lines.append(f"{name} = {solving.renamed(line.partition(' = ')[2], named)}\n")
        self.assertEqual("".join(lines), found.text())


def read(data):
    """A file and its description, or None."""
    try:
        return data, descriptions.parse(data, "file")
    except descriptions.DescriptionError:
        return data, None


def solved(description):
    """The solution of a description, or why there is none."""
    try:
        return solving.solve(description, solving.Settings(processors=1))
    except solving.Unsolved as unsolved:
        return unsolved
