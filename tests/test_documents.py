"""The lines of README.md, docs/EXAMPLES.md and docs/USES.md print what stands there, those of docs/TOOLS.md end well, the
refusals of docs/FORMAT.md are as its examples say and have the names of the sources, all pages have the same statuses,
docs/LIBRARY.md and docs/READING.md show sources as they are, and docs/PROVED.md names each file of tests."""

import os
import re
import shutil
import sys
import unittest

from tests.harness import TOP, Ended, InFolder, Test, description, named_programs, program, run

sys.path.insert(0, str(TOP / "tools"))

from leastanf.commands import solve
from leastanf.descriptions import CAUSES

# What the blocks of lines in docs/USES.md print, in order: a part of the block, and a part of what it prints.
PRINTS = [
    ("read_verilog examples/adder.v", "Networks are equivalent"),
    ("read_blif", "Networks are equivalent"),
    ("made/even.v", "e = d[0] + 1\n"),
    ("cmp <(", "same\n"),
    ("./circuit anf < made/adder_gates.aig", "s[1] = a[0]*b[0] + a[1] + b[1]\n"),
    ("./circuit count", "s[2]: terms 3, degree 3, nodes 6\n"),
    ("made/adder_other.aig", "s[0]: equal\ns[1]: equal\ns[2]: equal\nNetworks are equivalent"),
    ("examples/tower.aag", "s4: equal\nc0: equal\n"),
    (
        "examples/few_gates.aag",
        "next_idle: different at idle=0 load=0 run=0 done=0 go=0 stop=0\nnext_load: equal\n"
        "next_run: different at idle=0 load=1 run=1 done=0 go=0 stop=1\nnext_done: equal\n"
        "valid: different at idle=0 load=0 run=0 done=0 go=0 stop=0\nthe status is 1\n",
    ),
    ("equal --care valid", "next_idle: equal\nnext_load: equal\nnext_run: equal\nnext_done: equal\n"),
    ("prefix_adder_16", "same\nsame\n"),
    ("--care valid", "0 = idle + load + run + done + 1\n"),
    ("--invert", "f1 = ~x1*~x2*~x3 + 1\n"),
    ("&exorcism", "-01- 1\n-1-1 1\n"),
    (
        "scattered_f",
        "scattered_f.esop:686\nmade/scattered_f_less.esop:29\nmade/scattered.esop:104\nmade/scattered_less.esop:22\n",
    ),
    ("describe esop", "prime = d4*d2 + d4*d1 + d2\n"),
    ("made/present.txt", "y0 = x3 + x2*x1 + x2 + x0\n"),
    ("examples/present.pla", "0 = y0 + x3 + x2*x1 + x2 + x0\n"),
    ("examples/present_graph.pla --relations", "21\n"),
    ("bench/make_files.py", "39\n"),
    ("made/bench/aes.pla", "0\n132\n133\n145\n136\n131\n114\n112\n110\n"),
    ("cryptominisat5", "v -1 2 -3 4 -5 -6 -7 -8 "),
    ("examples/johnson.pla", "0 = q4*q3 + q4*q0 + q3*q0 + q3\n"),
    ("tools/ask --holds", "reachable: yes\nreachable: no\nthe status is 1\n"),
    ("./nfq reduce", "reachable = 0\n"),
    ("describe points", "f1 = 1\n0 = x3 + 1\n0 = x1 + x2 + 1\n"),
    ("print(vdim(G))", "4\n"),
    ("M2 --script", "4\n"),
    ("tools/ask meet", "ideal I1 = x1*x2 + x2;\n0 = d8*d2\n0 = d8*d4\n"),
    ("./interp check", "yes\n"),
    ("tools/judge examples/seven_segments.pla", "a: yes\nb: yes\nc: yes\nd: yes\ne: yes\nf: yes\ng: yes\n"),
    ("tools/judge examples/half_adder.pla", "graph: yes\n"),
    ("tools/agrees examples/digits.pla", "prime: no, it is 1 at 0110, where 0 is given\nprime: yes\n"),
    ("made/blocks", "file 2 ended with 4\n"),
    ("-k ./batch anf < made/stream", "file 3 0\ns = a + b + cin\nc = a*b + a*cin + b*cin\n"),
    ("--joblog made/log", "file 3 0\ns = a + b + cin\nc = a*b + a*cin + b*cin\n"),
    ("tools/solve -o", "s = a + b + cin\nc = a*b + a*cin + b*cin\n"),
    ("./steal anf --workers 8", "s = a + b + cin\nc = a*b + a*cin + b*cin\n"),
    ("answer_as python", "{'s': 0, 'c': 1} {'s': 6, 'c': 8}\n"),
    ("answer_as dot", 'label="cin"'),
]

# Blocks of these documents that are no lines to run begin so.
NO_LINES = ("prime =", "s[0] =", "s[0]:", "next_idle:", "mkdir")

# The programs of the system that the lines need.
PROGRAMS = ("yosys", "berkeley-abc", "Singular", "M2", "cryptominisat5", "parallel")

# Lines that stand in a document, where what they print stands too.
SHOWN = {
    "README.md": (
        "./interp anf < examples/two_points.pla",
        "./interp anf < examples/digits.pla",
        "./interp basis < examples/half_adder.pla",
        "{ cat examples/half_adder.pla; ./interp basis < examples/half_adder.pla; } | ./interp check",
    ),
    "docs/EXAMPLES.md": (
        "./interp anf < examples/seven_segments.pla",
        "./interp anf < examples/full_adder.pla",
        "./interp basis < examples/half_adder.pla",
        "{ cat examples/half_adder.pla; ./interp basis < examples/half_adder.pla; } | ./interp check",
        "{ cat examples/half_adder.pla; ./interp basis < examples/half_adder.pla | head -n 2; } | ./interp check "
        "|| echo 'status 1'",
        "./interp gen",
        "./interp anf --order $(cat examples/decoder.order) < examples/decoder.pla",
        "./nfq reduce < examples/relations.pla",
        "./nfq union < examples/two_ideals.pla",
        "./circuit anf < examples/adder.aag",
        "./circuit count < examples/adder.aag",
        "cat examples/ripple_adder.aag examples/prefix_adder.aag | ./circuit equal",
        "./circuit basis --care valid < examples/states.aag",
        "./circuit anf --care valid --order stop,go,done,run,load,idle < examples/states.aag",
    ),
}


def blocks(text):
    """The blocks of indented lines that run a program."""
    found = []
    for part in text.split("\n\n"):
        lines = part.split("\n")
        if lines[0].startswith("    "):
            found.append("\n".join(line[4:] for line in lines if line.startswith("    ")))
    return [block for block in found if not block.startswith(NO_LINES)]


def missing(text):
    """The programs of the system that a text names and that are not installed."""
    return [name for name in PROGRAMS if name in text and not shutil.which(name)]


def made(text):
    """The files of the folder made that a text names."""
    return set(re.findall(r"made/[\w./]*\w", text))


def tables(name, *head):
    """The tables of a page that have this head, each as the lists of its rows' cells."""
    pattern = rf"(?m)^\| {re.escape(' | '.join(head))} \|\n\|[-|]+\|\n((?:\|.*\|\n)+)"
    found = re.findall(pattern, (TOP / name).read_text())
    return [[[*map(str.strip, re.split(r"(?<!\\)\|", row)[1:-1])] for row in table.splitlines()] for table in found]


class Lines(InFolder):
    """Lines that a shell runs, in a folder with what they need."""

    def setUp(self):
        super().setUp()
        for name in ("bench", "examples", "tools"):
            (self.here / name).symlink_to(TOP / name)
        (self.here / "made").mkdir()
        # Files that lines would write whose program is not installed.
        self.unwritten = set()

    def shell(self, text):
        """How the lines end. The programs of this repository that they name are linked to those that are tried."""
        for name in re.findall(r"(?<![\w/.])\./(\w+)", text):
            link = self.here / name
            if not link.is_symlink():
                link.symlink_to(program(name))
        return run(["bash", "-c", text], cwd=self.here, env={**os.environ, **named_programs()})

    def test_uses(self):
        found = blocks((TOP / "docs/USES.md").read_text())
        with self.case("each block has a line in the table"):
            self.assertEqual(len(found), len(PRINTS))
        for block, (part, prints) in zip(found, PRINTS):
            with self.case(block):
                self.assertIn(part, block)
                self.try_use(block, prints)

    def try_use(self, block, prints):
        """Runs a block; of one that needs a missing program the other lines, as later blocks read what they write."""
        absent = missing(block)
        if absent:
            self.shell("\n".join(line for line in block.splitlines() if not missing(line)))
            self.unwritten.update(path for path in made(block) if not (self.here / path).exists())
            raise unittest.SkipTest(f"{absent[0]} is not installed")
        unwritten = self.unwritten & made(block)
        if unwritten:
            raise unittest.SkipTest(f"{min(unwritten)} was not written, as a program is not installed")
        ended = self.shell(block)
        self.assertEqual(ended.status, 0, ended)
        self.assertIn(prints, ended.out, ended)

    def test_shown(self):
        """What a line prints stands in a block of its own or, if it is a word, in the text."""
        for name, lines in SHOWN.items():
            document = (TOP / name).read_text()
            for line in lines:
                with self.case(f"{name}: {line}"):
                    self.assertIn(line, document)
                    ended = self.shell(line)
                    self.assertEqual(ended.status, 0, ended)
                    printed = ended.out.splitlines()
                    stands = "".join(f"    {row}\n" for row in printed) in document
                    self.assertTrue(stands or len(printed) == 1 and f"`{printed[0]}`" in document, ended)

    def test_tools(self):
        """The lines of docs/TOOLS.md end well, and print something."""
        lines = [line for block in blocks((TOP / "docs/TOOLS.md").read_text()) for line in block.splitlines()]
        self.assertTrue(lines)
        for line in lines:
            with self.case(line):
                ended = self.shell(line)
                self.assertEqual(ended.status, 0, ended)
                self.assertTrue(ended.out, ended)

    def test_each_row_is_shown(self):
        """Each indented row of docs/EXAMPLES.md is a line above, or is printed by one, or stands in a file of examples/."""
        known = {"...", *SHOWN["docs/EXAMPLES.md"]}
        for path in sorted((TOP / "examples").iterdir()):
            known.update(path.read_text().splitlines())
        for line in SHOWN["docs/EXAMPLES.md"]:
            known.update(self.shell(line).out.splitlines())
        rows = re.findall(r"(?m)^    (.+)$", (TOP / "docs/EXAMPLES.md").read_text())
        for row in rows:
            with self.case(row):
                self.assertIn(row, known)

    def test_refusals(self):
        """Each example of a refusal in docs/FORMAT.md is refused by the message beside it."""
        row = r"(?m)^\| (\w+) \| .* \| `(\.i .*?/)`(.*?) \| `(interp: line .*?)` \|"
        rows = re.findall(row, (TOP / "docs/FORMAT.md").read_text())
        self.assertEqual({cause for cause, *_ in rows}, {*CAUSES})
        for cause, example, more, message in rows:
            with self.case(cause):
                text = example.replace("/", "\n")
                text += {"": "", " and a byte 0": "\0", " and 8,193 rows `1 1`": 8193 * "1 1\n"}[more]
                self.assertEqual(run([program("interp"), "anf"], text), Ended(3, "", f"{message}\n"))


class Causes(Test):
    """The causes of refusals that docs/FORMAT.md has, and the faults of answers."""

    def test_names(self):
        """They are those that the sources name."""
        sources = {
            ("refusal", "when", "example", "message", "what to do"): ("pla_reader/src/refusal.rt", "Why"),
            ("refusal", "when", "what to do"): ("cert_check/src/refusal.rt", "AnswerWhy"),
            ("fault", "when", "line"): ("cert_check/src/refusal.rt", "Fault"),
            ("refusal", "when", "example", "what to do"): ("nf_run/src/queries.rt", "QueryWhy"),
            ("refusal W", "when", "what to do"): ("aig_reader/src/refusal.rt", "Why"),
        }
        for head, (source, kind) in sources.items():
            with self.case(f"{source} {kind}"):
                (rows,) = tables("docs/FORMAT.md", *head)
                said = {name for row in rows for name in row[0].split(", ")}
                named = re.findall(rf'\b{kind}::\w+ => "(\w+)"', (TOP / "crates" / source).read_text())
                self.assertEqual(said, {*named})

    def test_queries(self):
        """Each example of a query is refused by the cause beside it, behind a description with two inputs."""
        (rows,) = tables("docs/FORMAT.md", "refusal", "when", "example", "what to do")
        for cause, _, examples, _ in rows:
            for example in re.findall("`([^`]*)`", examples):
                with self.case(f"{cause}: {example}"):
                    ended = run([program("nfq"), "reduce"], description(2, 1, "fr", ["11 1"]) + f"{example}\n")
                    self.assertEqual(ended, Ended(3, "", f"nfq: query line 1: {cause}\n"))


class Statuses(Test):
    """What pages say of the statuses with which programs end."""

    def messages(self, rows, named=r"\w+"):
        """The statuses of rows, each with a message that a program with this name writes. For a number or what stands
        for one there is a #, and of the form of a command line nothing."""
        found = set()
        for status, *cells in rows:
            for message in re.findall(rf"`{named}: ([^`]*)`", " | ".join(cells)):
                told = re.sub(r"(?<=^usage:).*", "", message)
                found.add((int(status), re.sub(r"\b(?:[0-9]+|[A-Z])\b", "#", told)))
        return found

    def formats(self):
        """Of each program the rows that docs/FORMAT.md has of it."""
        found = {}
        for table in tables("docs/FORMAT.md", "status", "message", "what to do"):
            (name,) = {name for _, message, _ in table for name in re.findall(r"`(\w+): ", message)}
            found[name] = table
        self.assertEqual(sorted(found), ["batch", "circuit", "interp", "nfq"])
        return found

    def test_manual(self):
        """The pages of the manual have the statuses of docs/FORMAT.md, and that of an answer."""
        for name, rows in self.formats().items():
            with self.case(name):
                page = (TOP / f"{name}.1").read_text()
                part = re.search(r"(?ms)^\.SH EXIT STATUS\n(.*?)^\.SH", page)[1]
                statuses = [int(status) for status in re.findall(r"(?m)^\.TP\n([0-9]+)$", part)]
                self.assertEqual(statuses, sorted({0, *(int(row[0]) for row in rows)}))

    def test_readme(self):
        """README.md has the messages of docs/FORMAT.md: by the name of interp those that others write too."""
        (rows,) = tables("README.md", "status", "when", "message")
        shared = self.messages(rows, "interp")
        lengths = set()
        for name, table in self.formats().items():
            with self.case(name):
                due = self.messages(table)
                self.assertEqual(due - shared, self.messages(rows, name) - shared)
            lengths.update(re.findall(r"longer than ([0-9]+) bytes", " ".join(cell for row in table for cell in row)))
        self.assertEqual(shared - self.messages(self.formats()["interp"]), set())
        with self.case("bytes"):
            (when,) = [row[1] for row in rows if row[0] == "10"]
            self.assertEqual(set(re.findall("[0-9]+", when.replace(",", ""))), lengths)

    def test_solve(self):
        """solve tells of the statuses of docs/TOOLS.md, and of those of interp but for 1."""
        (rows,) = tables("docs/TOOLS.md", "status", "when")
        own = {int(status) for row in rows for status in row[0].split(", ")}
        others = {int(row[0]) for row in self.formats()["interp"]} - {1}
        self.assertEqual(set(solve.STATUSES), {0} | own | others)


class Sources(Test):
    """The sources that docs/LIBRARY.md and docs/READING.md show are those of the crates."""

    def test_library(self):
        document = (TOP / "docs/LIBRARY.md").read_text()
        callers = [f"crates/uses_library/src/{name}.rt" for name in ("listed", "whole", "counted")]
        for name in (*callers, "crates/node_store/src/any_family.rt"):
            with self.case(name):
                lines = (TOP / name).read_text().splitlines(keepends=True)
                shown = "".join(f"    {line}" if line.strip() else line for line in lines)
                self.assertTrue(shown in document, "not as it stands in the crate")

    def test_reading(self):
        """Each part of a block stands in a file that the page names, line by line below each other; of lines that bring
        names each by itself."""
        document = (TOP / "docs/READING.md").read_text()
        named = {TOP / name for name in re.findall(r"`(crates/[\w/.]+\.(?:rt|antt))`", document)}
        named.update((TOP / "crates/cube_sets/must-fail").glob("*.edit"))
        texts = [path.read_text() for path in sorted(named) if path.is_file()]
        sources = ["\n".join(map(str.strip, text.splitlines())) for text in texts]
        for block in re.findall(r"(?m)(?:^    .*\n)+", document):
            text = "\n".join(map(str.strip, block.splitlines()))
            if text.startswith("logic="):
                continue
            for part in text.splitlines() if text.startswith("ghost use") else [text]:
                with self.case(part):
                    self.assertTrue(any(part in source for source in sources), "not as it stands in a file")


class Tests(Test):
    def test_rows(self):
        """docs/PROVED.md says of each file of tests what it does, and has rows for files that are there alone."""
        rows = re.findall(r"(?m)^\| ((?:`test_\w+`(?:, )?)+) \|", (TOP / "docs/PROVED.md").read_text())
        said = re.findall(r"test_\w+", " ".join(rows))
        self.assertEqual(sorted(said), sorted(path.stem for path in (TOP / "tests").glob("test_*.py")))
