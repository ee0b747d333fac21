"""Queries and bases of nfq on files that need many nodes, how long these runs take, and how nfq ends where calls fail.

A run on such a file ends: by its answer, or by the count of nodes or terms that is due, in a time that is told here. On
random files no mode takes more than twice the processor time that `interp basis` takes on the same file, or on one of
the joined points, where their basis is the larger one, but for some milliseconds for its start and its queries.
Where memory is refused a run ends with status 7, where a read fails with 8, and where a write fails with 9. The other
statuses are in test_queries.
"""

import pathlib
import random
import resource
import tempfile

from bench import make_files
from tests import plain_polynomials, test_refused
from tests.harness import TOP, Ended, Test, description, program, run
from tests.test_devices import Trial

NO_MEMORY = Ended(7, "", "nfq: out of memory\n")
MANY_NODES = "nfq: more than 524288 nodes are needed\n"

# The files that are compared, the runs of each of which the least counts, and what a run may take beside, in seconds:
# for its start, and in mode reduce for the terms of its queries, which interp is not asked.
COMPARED = 60
MOST_RUNS = 7
START = 0.005
QUERIES = 0.02

MODES = ("reduce", "union", "meet")

# An output that is 1 at x1 = 1 and free else, and one that is 1 at x2 = 1 and free else.
PAIR = description(2, 2, "fr", ["1- 1~", "-1 ~1"])

# The words of each run where calls fail, what it reads, and what it prints.
RUNS = [
    ("reduce", f"{PAIR}f1 = x1*x2 + x2\nf2 = x1 + x2\n", "f1 = 0\nf2 = x1 + 1\n"),
    ("union", PAIR, "0 = x1*x2 + x1 + x2 + 1\n"),
    ("meet", PAIR, "0 = x2 + 1\n0 = x1 + 1\n"),
]


def polynomial(draws, inputs, count):
    """The sum of so many random terms, as a query has it."""
    names = [f"x{place}" for place in range(1, inputs + 1)]
    return plain_polynomials.text(draws.sample(range(1, 2**inputs), count), names)


def queries(draws, inputs, outputs, counts):
    """Queries on the outputs in turn, each of so many random terms."""
    numbered = enumerate(counts)
    return "".join(f"f{number % outputs + 1} = {polynomial(draws, inputs, count)}\n" for number, count in numbered)


class RandomFile:
    """A file of cubes of 2 to 6 literals with two outputs, and queries on it. In each third file most rows say nothing
    new."""

    def __init__(self, seed):
        draws, places = random.Random(seed), make_files.Draws(seed)
        self.inputs, fixed = draws.randint(12, 62), draws.randint(2, 6)
        count = draws.choice([4, 10, 25, 60, 150])
        self.kind = "f" if seed % 3 == 0 else draws.choice(["f", "fd", "fr"])
        if seed % 3 == 0:
            self.text = make_files.redundant(count, self.inputs, 2, min(count, 8), fixed, seed)
        else:
            # No row of type fr is of value 0, so none contradicts another.
            symbols = {"f": "10", "fd": "1~-", "fr": "1~"}[self.kind]
            cubes = [make_files.cube(places, self.inputs, fixed) for _ in range(count)]
            self.rows = [(cube, draws.choice(symbols) + draws.choice(symbols)) for cube in cubes]
            self.text = description(self.inputs, 2, self.kind, self.rows)
        self.queries = queries(draws, self.inputs, 2, [draws.randint(1, 6) for _ in range(draws.randint(1, 4))])

    def joined(self, mode):
        """A file of one output whose care points are those that a mode finds the basis of. None: of the file itself."""
        if self.kind == "f" or mode == "reduce":
            return None
        symbol = {"fr": "1", "fd": "-"}[self.kind]
        first, second = ({cube for cube, side in self.rows if side[output] == symbol} for output in (0, 1))
        # What the rows say is cared for in type fr, and what they leave open is not in type fd.
        if (mode == "union") == (self.kind == "fr"):
            cubes = first | second
        else:
            cubes = {common(cube, other) for cube in first for other in second} - {None}
        return description(self.inputs, 1, self.kind, [(cube, symbol) for cube in sorted(cubes)])


def common(cube, other):
    """The cube of the points of both cubes, or None where there are none."""
    symbols = []
    for mine, yours in zip(cube, other):
        if {mine, yours} == {"0", "1"}:
            return None
        symbols.append(mine if yours == "-" else yours)
    return "".join(symbols)


def confined():
    """What a child does that may have 8 MiB beside the program's file. A great table takes as much."""
    most = pathlib.Path(program("nfq")).stat().st_size + 2**23
    resource.setrlimit(resource.RLIMIT_AS, (most, most))


def timed(words, text, **how):
    """How a run ended, and the processor time that it took, in seconds."""
    before = resource.getrusage(resource.RUSAGE_CHILDREN)
    ended = run(words, text, **how)
    after = resource.getrusage(resource.RUSAGE_CHILDREN)
    return ended, after.ru_utime + after.ru_stime - before.ru_utime - before.ru_stime


class Ends(Test):
    """Files whose runs once had no end, each with a limit of time that is ten times what was seen."""

    def end(self, mode, text, seconds):
        return run([program("nfq"), mode], text, timeout=seconds)

    def test_no_rows(self):
        """The care points are all points, so a polynomial is its own normal form. With 14 terms it needs half of the
        slots."""
        draws = random.Random(1)
        for count, seconds in ((13, 1), (14, 2)):
            with self.case(f"{count} terms"):
                query = queries(draws, 62, 1, [count])
                ended = self.end("reduce", description(62, 1, None, []) + query, seconds)
                self.assertEqual(ended, Ended(0, query, ""))

    def test_cubes(self):
        """60 rows of three literals over 40 inputs."""
        text = make_files.cubes(60, 40, 2, 3, 1)
        for mode in MODES:
            with self.case(mode):
                asked = queries(random.Random(1), 40, 2, [3, 3])
                self.assertEqual(self.end(mode, text + asked, 25), Ended(5, "", MANY_NODES))

    def test_redundant(self):
        """16 outputs of 8,192 rows, most of which say nothing new, and a query on each."""
        text = make_files.redundant(8192, 28, 16, 14, 5, 10)
        ended = self.end("reduce", text + queries(random.Random(1), 28, 16, 16 * [3]), 10)
        self.assertEqual((ended.status, ended.out.count("\n"), ended.err), (0, 16, ""))

    def test_shared(self):
        """The care points of an output are found once: a thousand queries take no more than twice the time of one."""
        draws = random.Random(1)
        text = make_files.points(500, 16, 1, 1)
        asked = queries(draws, 16, 1, [4])
        (one, first), (all_of_them, last) = (timed([program("nfq"), "reduce"], text + n * asked) for n in (1, 1000))
        with self.case("1 and 1,000 queries"):
            self.assertEqual((one.status, all_of_them.out), (0, 1000 * one.out))
            self.assertLessEqual(last, 2 * first + 10 * START)


class Memory(Test):
    """Runs within an address space that has room for a small table beside the program, and for no great one."""

    def test_small_table(self):
        cases = [(mode, text, Ended(0, answer, "")) for mode, text, answer in RUNS]
        cases.append(("reduce", description(62, 1, None, []) + queries(random.Random(1), 62, 1, [14]), NO_MEMORY))
        for mode, text, wanted in cases:
            with self.case(f"{mode}, status {wanted.status}"):
                self.assertEqual(run([program("nfq"), mode], text, preexec_fn=confined), wanted)


class Timed:
    """A run, how it ended, and what it took: the least processor time of each time that it was run."""

    def __init__(self, words, text):
        self.words, self.text, self.seconds = words, text, []
        self.again()

    def again(self):
        self.ended, seconds = timed(self.words, self.text)
        self.seconds.append(seconds)

    def is_within(self, factor, other, beside):
        """Whether it takes at most so many times what the other takes, and this beside. Both are run again while it does
        not."""
        while min(self.seconds) > factor * min(other.seconds) + beside:
            if len(self.seconds) >= MOST_RUNS:
                return False
            self.again()
            other.again()
        return True


class Compared(Test):
    """Random files: what each mode takes and answers, beside interp."""

    def test_times(self):
        for seed in range(COMPARED):
            file = RandomFile(seed)
            whole = Timed([program("interp"), "basis"], file.text)
            for mode in MODES:
                with self.case(f"file {seed}, {mode}"):
                    self.compare(file, mode, whole)

    def compare(self, file, mode, whole):
        """It takes at most twice what interp takes for the bases of both outputs, or for the one basis of the joined
        points, where that is larger. The answer is this one."""
        asked = Timed([program("nfq"), mode], file.text + file.queries)
        beside = QUERIES if mode == "reduce" else START
        self.assertIn(asked.ended.status, (0, 5, 6))
        is_fast = asked.is_within(2, whole, beside)
        joined = file.joined(mode)
        if joined is not None and (asked.ended.status == 0 or not is_fast):
            other = Timed([program("interp"), "basis"], joined)
            if (asked.ended.status, other.ended.status) == (0, 0):
                self.assertEqual(asked.ended.out, other.ended.out.partition("\n")[2])
            is_fast = is_fast or asked.is_within(2, other, beside)
        self.assertTrue(is_fast, f"{asked.seconds} s, where interp takes {whole.seconds} s")


class Refused(test_refused.Refused):
    """Each allocation that is refused, alone and with all that come after it."""

    name = "nfq"
    runs = RUNS


class QueryTrial(Trial):
    """The same trials of nfq, which writes its text by one call."""

    def is_read_fault(self, _number, ended):
        return ended == Ended(8, "", "nfq: read fault\n")

    def is_write_fault(self, _number, ended):
        return ended == Ended(9, "", "nfq: write fault\n")


class Devices(Test):
    """Reads and writes that fail, each in turn."""

    def test_each_call(self):
        for mode, text, answer in RUNS:
            with self.case(mode):
                trial = QueryTrial(mode, [program("nfq"), mode], text)
                self.assertEqual(trial.whole, Ended(0, answer, ""))
                self.assertEqual(trial.try_all(), [])
        with self.case("a message"):
            trial = QueryTrial("a message", [program("nfq"), "meet"], description(2, 1, "fr", ["11 1"]))
            self.assertEqual(trial.whole, Ended(3, "", "nfq: two outputs are needed\n"))
            self.assertEqual(trial.try_all(), [])


class ManualPage(Test):
    """The example of the manual page."""

    def test_example(self):
        """It works for a file that has a line at its end, and for one that has none."""
        lines = (TOP / "nfq.1").read_text().splitlines()
        line = next(line for line in lines if line.endswith("| nfq reduce")).replace("\\e", "\\").replace("\\(aq", "'")
        for end in (None, ".e", ".end"):
            with self.case(f"a file that ends with {end}"), tempfile.TemporaryDirectory() as folder:
                (pathlib.Path(folder) / "f.pla").write_text(description(2, 1, "fr", ["11 1", "00 0"], end=end))
                words = ["sh", "-c", line.replace("nfq reduce", f"{program('nfq')} reduce")]
                self.assertEqual(run(words, cwd=folder), Ended(0, "f1 = x2 + 1\n", ""))
