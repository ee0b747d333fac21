"""What callers do that each command of tools/ should stand: streams, words, and random files, answers and options."""

import collections
import concurrent.futures
import multiprocessing
import os
import pathlib
import random
import re
import shutil
import sys
import tempfile
import threading

from tests import test_ask, test_descriptions, test_judge
from tests.harness import EXAMPLES, TOP, Ended, InFolder, named_programs, program, run, text_of

sys.path.insert(0, str(TOP / "tools"))

from leastanf import descriptions, solving
from leastanf.commands import agrees, answer_as, ask, describe, judge, solve
from leastanf.formats import FORMATS

OLDEST = "3.9"
HALF_ADDER = str(EXAMPLES / "half_adder.pla")
ANSWER = (EXAMPLES / "half_adder.basis").read_text()

# Of each command a line that reads standard input, and what it reads there.
READING = {
    "solve": (["-"], pathlib.Path(HALF_ADDER).read_text()),
    "judge": ([HALF_ADDER], ANSWER),
    "agrees": ([HALF_ADDER], "graph = 1\n"),
    "ask": ([HALF_ADDER, "-"], "sum*carry\n"),
    "answer_as": (["json", HALF_ADDER], ANSWER),
    "describe": (["numbers", "-"], "3 1 2 0\n"),
}

# Of each command a line that reads the file of a name, and the text of that file.
NAMED = {
    "solve": ["{}"],
    "judge": ["{}"],
    "agrees": ["{}"],
    "ask": ["{}", "sum*carry"],
    "answer_as": ["json", "{}"],
    "describe": ["numbers", "{}"],
}


def tool(name):
    """The path of a command."""
    return TOP / "tools" / name


def file_of(name):
    """The text of a file that a command reads."""
    return READING["describe"][1] if name == "describe" else pathlib.Path(HALF_ADDER).read_text()


class Folder(InFolder):
    """A folder for the files of a test, and runs of commands in it."""

    def setUp(self):
        super().setUp()
        self.environment = {**os.environ, **named_programs()}

    def call(self, name, words, text=None, **how):
        return run([tool(name), *words], text, cwd=self.here, env=self.environment, **how)

    def expect_message(self, ended, name, status, part):
        """A status of our own, with one line that says why, and no answer."""
        self.assertEqual((ended.status, ended.out), (status, ""), ended)
        self.assertEqual(len(ended.err.splitlines()), 1, ended.err)
        self.assertTrue(ended.err.startswith(f"{name}: "), ended.err)
        self.assertIn(part, ended.err)


class Streams(Folder):
    """Streams that are closed, full, folders or no files."""

    def test_lines(self):
        """The lines of the tables are answered."""
        for name, (words, text) in READING.items():
            with self.case(name):
                ended = self.call(name, words, text)
                self.assertEqual(ended.status, 0, ended)
                self.assertNotEqual(ended.out, "")

    def test_standard_input(self):
        for name, (words, _) in READING.items():
            with self.case(f"{name}, a folder"):
                folder = os.open("/", os.O_RDONLY)
                ended = self.call(name, words, stdin=folder)
                os.close(folder)
                self.expect_message(ended, name, 8, "standard input: it is closed, or a folder")
            with self.case(f"{name}, closed"):
                line = f'exec "{tool(name)}" "$@" <&-'
                ended = run(["sh", "-c", line, name, *words], cwd=self.here, env=self.environment)
                self.expect_message(ended, name, 8, "standard input: it is closed, or a folder")
            with self.case(f"{name}, that cannot be read"):
                with open(self.here / "written", "wb") as sink:
                    ended = self.call(name, words, stdin=sink)
                self.expect_message(ended, name, 8, "standard input: ")
            with self.case(f"{name}, a folder that is not read"):
                folder = os.open("/", os.O_RDONLY)
                ended = self.call(name, ["--help"], stdin=folder)
                os.close(folder)
                self.assertEqual((ended.status, ended.err), (0, ""))

    def test_files(self):
        (self.here / "loop").symlink_to("loop")
        paths = [(".", "Is a directory"), ("none", "No such file"), ("/proc/self/mem", "Input/output error")]
        for name, words in NAMED.items():
            for path, said in [*paths, ("loop", "symbolic links"), ("", "No such file"), ("n" * 300, "too long")]:
                with self.case(f"{name} {path[:20]}"):
                    ended = self.call(name, [word.format(path) for word in words])
                    self.expect_message(ended, name, 8, said)

    def test_closed_fifo(self):
        """A named pipe that is closed by its writer, who wrote nothing, is an empty file."""
        os.mkfifo(self.here / "pipe")
        for name, words in NAMED.items():
            with self.case(name):
                writer = threading.Thread(target=lambda: open(self.here / "pipe", "wb").close())
                writer.start()
                ended = self.call(name, [word.format("pipe") for word in words])
                writer.join()
                self.expect_message(ended, name, 3, "")

    def test_full_output(self):
        for name, (words, text) in READING.items():
            for line in (words, ["--help"]):
                with self.case(f"{name} {line}"), open("/dev/full", "wb") as full:
                    ended = self.call(name, line, text, stdout=full)
                    self.expect_message(ended, name, 9, "cannot be written: No space left")

    def test_full_messages(self):
        """Where messages cannot be written the status is the same."""
        for name, words in NAMED.items():
            with self.case(name), open("/dev/full", "wb") as full:
                ended = self.call(name, [word.format("none") for word in words], stderr=full)
                self.assertEqual((ended.status, ended.out), (8, ""))

    def test_closed_pipe(self):
        for name, (words, text) in READING.items():
            with self.case(name):
                ends = os.pipe()
                os.close(ends[0])
                with open(ends[1], "wb") as sink:
                    ended = self.call(name, words, text, stdout=sink)
                self.assertEqual((ended.status, ended.err), (141, ""))

    def test_closed_output(self):
        for name, (words, text) in READING.items():
            with self.case(name):
                line = f'exec "{tool(name)}" "$@" >&-'
                ended = run(["sh", "-c", line, name, *words], text, cwd=self.here, env=self.environment)
                self.expect_message(ended, name, 9, "cannot be written")


CONTRADICTION = str(EXAMPLES / "contradiction.pla")
# Of each command and each status that its help has, but for those of streams, a line, what it reads, and what stands
# for nfq and interp where it is not these.
STATUS_LINES = {
    "judge": {
        0: ([HALF_ADDER], ANSWER),
        1: ([HALF_ADDER], "graph = 0\n"),
        2: ([], ""),
        3: ([HALF_ADDER], "graph = z\n"),
        4: ([CONTRADICTION], "f1 = x1\n"),
        8: (["none"], ""),
        12: ([HALF_ADDER, "--order", "a"], ANSWER),
        15: ([HALF_ADDER], "graph = 1\n", "echo 'more nodes are needed' >&2; exit 5"),
        69: ([HALF_ADDER], ANSWER, None),
    },
    "agrees": {
        0: ([HALF_ADDER], "graph = 1\n"),
        1: ([HALF_ADDER], "graph = 0\n"),
        2: ([], ""),
        3: ([HALF_ADDER], "graph = z\n"),
        4: ([CONTRADICTION], "f1 = x1\n"),
        5: ([HALF_ADDER, "--relations", "1"], "", "echo 'nfq: more than 4 nodes are needed' >&2; exit 5"),
        6: ([str(EXAMPLES / "one_hot.pla"), "--relations", "24"], ""),
        7: ([HALF_ADDER, "--relations", "1"], "", "echo 'nfq: out of memory' >&2; exit 7"),
        8: (["none"], ""),
        12: ([HALF_ADDER, "--order", "a"], "graph = 1\n"),
        14: ([HALF_ADDER, "--relations", "1", "--seconds", "1"], "", "exec sleep 20"),
        15: ([HALF_ADDER], "graph = 1\n", "echo 'nfq: more than 4 nodes are needed' >&2; exit 5"),
        69: ([HALF_ADDER], "graph = 1\n", None),
        70: ([HALF_ADDER, "--relations", "1"], "", "kill -9 $$"),
    },
    "ask": {
        0: ([HALF_ADDER, "sum"], ""),
        1: ([HALF_ADDER, "--holds", "sum"], ""),
        2: ([], ""),
        3: ([HALF_ADDER, "z"], ""),
        4: ([CONTRADICTION, "x1"], ""),
        5: ([HALF_ADDER, "sum"], "", "echo 'nfq: more than 4 nodes are needed' >&2; exit 5"),
        6: ([HALF_ADDER, "sum"], "", "echo 'nfq: more than 1000000 terms' >&2; exit 6"),
        7: ([HALF_ADDER, "sum"], "", "echo 'nfq: out of memory' >&2; exit 7"),
        8: (["none", "sum"], ""),
        12: ([HALF_ADDER, "--order", "a", "sum"], ""),
        69: ([HALF_ADDER, "sum"], "", None),
        70: ([HALF_ADDER, "sum"], "", "kill -9 $$"),
    },
    "answer_as": {
        0: (["json", HALF_ADDER], ANSWER),
        2: ([], ""),
        3: (["json", HALF_ADDER], "graph = z\n"),
        8: (["json", "none"], ""),
        12: (["json", HALF_ADDER, "--order", "a"], ANSWER),
    },
    "describe": {
        0: (["numbers", "-"], "3 1 2 0\n"),
        2: ([], ""),
        3: (["numbers", "-"], "3 1 2\n"),
        8: (["numbers", "none"], ""),
    },
}


class Statuses(Folder):
    """Each status that the help of a command has, by an example. Those of solve are in tests/test_solve.py."""

    def test_examples(self):
        """What is said of each names no option but those of the command."""
        for name, lines in STATUS_LINES.items():
            document = self.call(name, ["--help"]).out
            for status, (words, text, *program_text) in lines.items():
                with self.case(f"{name} {status}"):
                    ended = self.call_with(name, words, text, *program_text)
                    self.assertEqual(ended.status, status, ended)
                    for option in set(re.findall("--[a-z]+", ended.out + ended.err)) - {"--help"}:
                        self.assertIn(f"  {option} ", document)
                    if status in (0, 1, 15):
                        self.assertEqual((ended.out != "", ended.err), (True, ""), ended)
                    else:
                        self.expect_message(ended, name, status, "")

    def call_with(self, name, words, text, *program_text):
        """A run of a command, where a text of a script may stand for the programs, or None for none."""
        if not program_text:
            return self.call(name, words, text)
        path = self.here / "program"
        if program_text[0] is not None:
            self.script("program", f"cat > read\n{program_text[0]}")
        environment = {**self.environment, "INTERP": str(path), "NFQ": str(path)}
        ended = run([tool(name), *words], text, cwd=self.here, env=environment)
        path.unlink(missing_ok=True)
        return ended

    def test_every_status_is_tried(self):
        """Status 9 is that of streams."""
        for name, lines in STATUS_LINES.items():
            with self.case(name):
                told = " ".join(self.call(name, ["--help"]).out.partition("tatuses: ")[2].split())
                found = set()
                for first, last in re.findall(r"(?:^|; )(\d+)(?: to (\d+))? ", told):
                    found |= set(range(int(first), int(last or first) + 1))
                self.assertEqual(found - {9}, set(lines))


class Words(Folder):
    """Words of command lines."""

    def test_files_behind_two_dashes(self):
        """Behind -- each word is a file, or a query, whatever it begins with."""
        for name, words in NAMED.items():
            text = READING[name][1]
            for path in ("-name.pla", "--help", "-o"):
                (self.here / path).write_text(file_of(name))
                with self.case(f"{name} {path}"):
                    wanted = self.call(name, [word.format(f"./{path}") for word in words], text)
                    ended = self.call(name, ["--", *(word.format(path) for word in words)], text)
                    self.assertEqual((ended.status, ended.out), (0, wanted.out), ended)
                with self.case(f"{name} {path}, not behind --"):
                    ended = self.call(name, [word.format("-name.pla") for word in words], text)
                    self.expect_message(ended, name, 2, "")

    def test_modes_behind_two_dashes(self):
        """Behind -- no word is a mode, an option or a request for help."""
        for mode in ("basis", "--why"):
            (self.here / mode).write_text(file_of("solve"))
            with self.case(f"solve {mode}"):
                self.assertEqual(self.call("solve", ["--", mode]).out, "graph = 1\n")
                self.assertEqual(self.call("solve", ["basis", "--", mode]).out, ANSWER)
        (self.here / "union").write_text(file_of("ask"))
        with self.case("ask"):
            self.assertEqual(self.call("ask", ["--", "union", "-a - b"]).out, "graph = a + b\n")
            self.assertEqual(self.call("ask", ["reduce", "--holds", "--", "union", "sum + a + b"]).out, "graph: yes\n")

    def test_refused(self):
        for name, (words, _) in READING.items():
            for more in (["--no"], ["-x"], ["--hel"], ["--order"], ["--order", "a", "--order", "b"]):
                with self.case(f"{name} {more}"):
                    self.expect_message(self.call(name, [*words, *more]), name, 2, "--help has the form")
            with self.case(f"{name} without words"):
                self.expect_message(self.call(name, []), name, 2, "--help has the form")


class Forms(Folder):
    """Forms of files that the programs refuse."""

    def test_told(self):
        """Each command that reads a description tells which form it brought into shape, and where."""
        text = file_of("solve").replace("\n0000 1\n", "\n0000\n1\n")
        line = text[: text.index("\n0000\n1\n")].count("\n") + 2
        (self.here / "f.pla").write_text(text)
        for name in sorted(set(NAMED) - {"describe"}):
            with self.case(name):
                ended = self.call(name, [word.format("f.pla") for word in NAMED[name]], READING[name][1])
                wanted = f"{name}: f.pla:{line}: {descriptions.FORMS['row over lines']}\n"
                self.assertEqual((ended.status, ended.err), (0, wanted))
        cover = ".i 2\n.o 1\n.TYPE f\n.type esop\n1-\n1\n"
        ended = self.call("describe", ["esop", "-"], cover)
        self.assertEqual(ended.status, 0)
        self.assertIn(f"describe: standard input:5: {descriptions.FORMS['row over lines']}\n", ended.err)
        self.assertIn("describe: standard input:3: .TYPE is no command and is skipped", ended.err)

    def test_warnings(self):
        """Each command that reads a description tells which names stand for others, and what is skipped."""
        (self.here / "f.pla").write_text(".i 2\n.o 1\n.ilb 0 1\n.TYPE fr\n11 1\n.e\n")
        calls = [
            ("solve", ["f.pla"], ""),
            ("ask", ["f.pla", "0 + 1"], ""),
            ("judge", ["f.pla"], "f1 = x1*x2\n"),
            ("agrees", ["f.pla"], "f1 = x1*x2\n"),
            ("answer_as", ["json", "f.pla"], "f1 = x1*x2\n"),
        ]
        for name, words, text in calls:
            with self.case(name):
                ended = self.call(name, words, text)
                self.assertEqual(ended.status, 0)
                self.assertIn(f"{name}: f.pla: x1 stands for '0', which cannot be told in an answer\n", ended.err)
                self.assertIn(f"{name}: f.pla:4: .TYPE is no command and is skipped", ended.err)


class Oldest(Folder):
    """The oldest Python that the tools take, where it is installed."""

    def test_lines(self):
        version = f"{OLDEST}."
        found = shutil.which(f"python{OLDEST}")
        paths = [found, *map(str, pathlib.Path.home().glob(f".pyenv/versions/{version}*/bin/python{OLDEST}"))]
        python = next((path for path in paths if path and version in run([path, "--version"]).out), None)
        if python is None:
            self.skipTest(f"Python {OLDEST} is not installed")
        lines = [(name, words, text) for name, (words, text) in READING.items()]
        lines += [("answer_as", [language, HALF_ADDER], ANSWER) for language in FORMATS]
        for name, words, text in lines:
            with self.case(f"{name} {words}"):
                wanted = self.call(name, words, text)
                ended = run([python, "-W", "error", tool(name), *words], text, cwd=self.here, env=self.environment)
                self.assertEqual((ended.status, ended.out, ended.err), (0, wanted.out, ""))

    def test_documents(self):
        """The documents and the package name this version."""
        for path in ("docs/TOOLS.md", "docs/PYTHON.md"):
            self.assertIn(f"Python {OLDEST}", (TOP / path).read_text())
        self.assertIn(f"Requires-Python: >={OLDEST}", (TOP / "tools/package_builder.py").read_text())


# A line of a command, what it reads, and what stands in the file f.pla.
Thrown = collections.namedtuple("Thrown", "name words text file")

MAINS = {module.NAME: module.main for module in (solve, judge, agrees, ask, answer_as, describe)}

# The statuses that the help of each command has, without those of missing programs, full devices and signals.
STATUSES = {
    "solve": {0, 2, 3, 4, 5, 6, 8, 12, 13},
    "judge": {0, 1, 2, 3, 4, 8, 12, 15},
    "agrees": {0, 1, 2, 3, 4, 8, 12, 15},
    "ask": {0, 1, 2, 3, 4, 8, 12},
    "answer_as": {0, 2, 3, 8, 12},
    "describe": {0, 2, 3, 8},
}

# Options, and words that are none, of each command.
OPTIONS = {
    "solve": "basis|anf|--order,x2,x1|--order=b,a|--order,auto|--order,each|--polarity,all|--polarity,auto"
    "|--polarity,x1|--outputs,f1|--outputs,f2,f1|--nodes,4|--nodes,0|--terms,1|--terms,x|--workers,2"
    "|--as,json|--as,verilog|--as,cnf"
    "|--text|--|-|none.pla|--why|-o,made|--seconds,9|--jobs,1|--jobs,1,--jobs,1|\udcff|\0",
    "judge": "--basis|--order,x2,x1|--order,b,a|--polarity,all|--polarity,x1|--polarity,|--|-|more|--no",
    "agrees": "--relations,2|--relations,0|--relations,x|--order,x2,x1|--outputs,f1|--outputs,g|--|-|--no|--seconds,5",
    "ask": "reduce|union|meet|--holds|--order,x2,x1|--outputs,f1,f2|x1|x1*x2 + 1|~a | b|-|--|(|a^2|f1 = x1|f9 = 0|=",
    "answer_as": "--order,x2,x1|--order,b,a|--outputs,f1|--outputs,f2,f1|--queries|--ideal|--|-|more|--no",
    "describe": "--bits,2|--bits,0|--bits,9999|--first-lowest|--inputs,a,b|--inputs,|--outputs,f|--outputs,a b|--|-"
    "|--no",
}
# Of each form of describe a text.
DESCRIBED = {
    "numbers": "12, 5, 0x3 x",
    "graph": "3 1 2 0",
    "hex": "0x6996",
    "points": "011 1\n1-0 0\n",
    "esop": ".i 2\n.o 1\n.type esop\n1- 1\n-1 1\n",
    "yosys": "\\a | \\s\n1'0 | 1'1\n1'1 | 1'x\n",
    "none": "",
}


def thrown(draws):
    """A random line of a random command, with random files."""
    name = draws.choice(list(MAINS))
    file, text = thrown_file(draws)
    words = ["f.pla"] * (draws.random() < 0.95)
    if name == "ask":
        words += draws.choice([["-"], ["f1 = x1"], ["x1"], ["f1 = 1", "f1 = x1*x1 + 1"]])
    elif name == "answer_as":
        words.insert(0, draws.choice([*FORMATS, "none"]))
    elif name == "describe":
        form = draws.choice(list(DESCRIBED))
        words.insert(0, form)
        file = changed(draws, DESCRIBED[form].encode(), 0.5)
    for _ in range(draws.choice([0, 0, 0, 0, 0, 1, 1, 2])):
        option = draws.choice(OPTIONS[name].split("|"))
        place = draws.randrange(len(words) + 1)
        words[place:place] = option.split(",", 1) if option.startswith("-") else [option]
    return Thrown(name, [word for word in words if "\0" not in word], text, file)


def thrown_file(draws):
    """A description and an answer to it, both of which may have faults."""
    kind = draws.random()
    if kind < 0.6:
        found = test_judge.Sample(draws, 4)
        answer = found.answer(bases=draws.choice([found.bases, None]))
        text = found.text.replace("\n1", "\n" + draws.choice("?34x"), 1) if draws.random() < 0.1 else found.text
        return changed(draws, text.encode(), 0.3), changed_answer(draws, answer)
    if kind < 0.85:
        return test_descriptions.random_file(draws), changed_answer(draws, "f1 = x1\n0 = x2\n")
    if kind < 0.92:
        file = draws.choice(sorted(EXAMPLES.glob("*_*.pla"))).read_bytes()
        return file[: draws.choice([40, 200, 4000])], test_ask.Random.mutated(draws).encode()
    empty = [b"", b"\n", b"# nothing\n", b".e\n", b".i 2\n.o 1\n", b".i 0\n.o 1\n", b".i 1\n.o 0\n1\n"]
    return draws.choice([*empty, draws.randbytes(200)]), draws.choice([b"", draws.randbytes(100)])


def changed(draws, data, chance):
    """The bytes, with changes now and then."""
    while draws.random() < chance:
        data = test_descriptions.mutated(draws, data)
    return data


def changed_answer(draws, text):
    """The bytes of an answer, with a line or a term changed now and then."""
    lines = text.splitlines()
    kind, place = draws.random(), draws.randrange(len(lines))
    left, _, right = lines[place].partition(" = ")
    terms = right.split(" + ")
    if kind < 0.3:
        lines[place : place + 1] = draws.choice([[], [lines[place]] * 2, [f"f{draws.randint(1, 3)} = x1"]])
    elif kind < 0.7:
        terms = draws.choice([terms[::-1], terms[1:], terms * 2, [*terms, "x9"], ["*".join(terms)]])
        lines[place] = f"{left} = {' + '.join(terms)}"
    data = "".join(f"{line}\n" for line in lines).encode()
    return changed(draws, data, 0.1)


def attempt(case):
    """How a command ends on a case, in a process of its own that has read the package before."""
    with tempfile.TemporaryDirectory() as folder:
        here = pathlib.Path(folder)
        (here / "f.pla").write_bytes(case.file)
        (here / "in").write_bytes(case.text)
        child = os.fork()
        if not child:
            status = 255
            try:
                os.chdir(here)
                status = begin(case)
            finally:
                os._exit(status)
        _, ended = os.waitpid(child, 0)
        out, err = ((here / name).read_bytes() for name in ("out", "err"))
        return Ended(os.waitstatus_to_exitcode(ended), text_of(out), text_of(err))


def begin(case):
    """Gives the streams of this process to files, and runs a command."""
    modes = (("in", os.O_RDONLY), ("out", os.O_WRONLY | os.O_CREAT), ("err", os.O_WRONLY | os.O_CREAT))
    for place, (name, mode) in enumerate(modes):
        os.dup2(os.open(name, mode), place)
    sys.stdin, sys.stdout, sys.stderr = (open(place, "r" if place == 0 else "w", closefd=False) for place in range(3))
    try:
        status = MAINS[case.name](case.words)
    except SystemExit as end:
        status = end.code
    sys.stdout.flush()
    return status


class Throwing(Folder):
    """Random bytes, files with faults, odd options and answers with faults, at each command."""

    COUNT = int(os.environ.get("RANDOM_LINES", "1000"))
    SEED = int(os.environ.get("RANDOM_SEED", "1"))

    def test_thrown(self):
        draws = random.Random(self.SEED)
        cases = [thrown(draws) for _ in range(self.COUNT)]
        os.environ.update(named_programs())
        answered = collections.Counter()
        fork = multiprocessing.get_context("fork")
        with concurrent.futures.ProcessPoolExecutor(os.cpu_count(), fork) as pool:
            for case, ended in zip(cases, pool.map(attempt, cases, chunksize=8)):
                with self.case(case):
                    self.look(case, ended)
                    answered[case.name] += ended.status == 0
        with self.case("each command had an answer now and then"):
            self.assertEqual(set(+answered), set(MAINS))

    def look(self, case, ended):
        """The end is one of those that the help has; a refusal has its message, and an answer is one."""
        self.assertIn(ended.status, STATUSES[case.name], ended)
        for word in ("Traceback", "Fatal Python", "fault of the tool"):
            self.assertNotIn(word, ended.err)
        if ended.status == 0:
            self.assertNotEqual(ended.out + ended.err, "", "nothing was said")
            getattr(self, f"look_at_{case.name}", lambda *_: None)(case, ended)
        elif case.name != "solve" and ended.status > 1 and ended.status != 15:
            self.assertEqual(ended.out, "", ended)
        if ended.status > 1 and ended.status != 15:
            self.assertTrue(ended.err.startswith(f"{case.name}: "), ended)

    def interp(self, mode, data):
        return run([program("interp"), mode], data)

    def look_at_solve(self, case, ended):
        """What the program refuses has no answer, but for a form that is named."""
        if {"--help", "-h", "--why", "--"} & set(case.words) or not {"f.pla"} & set(case.words):
            return
        refused = self.interp("anf", case.file)
        if refused.status == 3:
            description = descriptions.parse(case.file, "f.pla")
            self.assertTrue(description.forms)
            for form in description.forms:
                self.assertIn(descriptions.FORMS[form], ended.err)
        elif "--text" not in case.words:
            self.assertNotEqual(refused.status, 4)

    def look_at_describe(self, case, ended):
        """The program takes the description, but for its size."""
        if ended.out.startswith(".i ") and not descriptions.parse(ended.out.encode(), "out").forms:
            self.assertIn(self.interp("anf", ended.out).status, (0, 4, 5, 6), ended)

    def look_at_answer_as(self, case, ended):
        """Mode check of the program takes the form of the answer."""
        if {"--queries", "--ideal", "--outputs", "--order", "--"} & {word.split("=")[0] for word in case.words}:
            return
        description = descriptions.parse(case.file, "f.pla")
        shaped = descriptions.text(description)
        first = case.text.lstrip()[:4]
        if description.inputs <= 14 and solving.fits(description) and first != b"0 = ":
            checked = self.interp("check", shaped.encode() + case.text)
            self.assertIn(checked.status, (0, 1, 4), (checked, ended))

    def look_at_judge(self, case, ended):
        """Where mode check takes the answer, it is right there too."""
        if len(case.words) == 1 and b"\n0 = " in case.text:
            description = descriptions.parse(case.file, "f.pla")
            checked = self.interp("check", descriptions.text(description).encode() + case.text)
            self.assertIn((checked.status, checked.out), [(0, "yes\n"), (3, "")], (checked, ended))
