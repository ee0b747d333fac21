"""The program prints the same run after run, with any number of workers, and where threads are refused.

The jobs are drawn from a counter by interp, and taken from deques by steal, whose runs are the same as interp's. What
is compared are the text, the lines of progress between its lines, and the status. On a table of at most 2^16 slots, and
on one of 2^17 that is not the last one, a run has few workers or none but the main thread; so there are files on larger
tables too, made from a seed. How many threads start is counted, outside of the program.
"""

import itertools
import os
import pathlib
import random
import resource
import shutil
import subprocess
import tempfile
import unittest

from tests.harness import ALL, EXAMPLES, Fault, InFolder, Test, answer, description, faults, program, run
from tests.made_descriptions import random_cube, valued

PROGRAMS = ("interp", "steal")
WORKERS = (1, 2, 4, 8, 16)

# Files of examples/ on tables of 2^12 slots, each with a mode, and how many threads start in a run with two workers and
# more.
SMALL = {
    ("full_adder", "anf"): 1,
    ("seven_segments", "anf"): 1,
    ("multiplier", "anf"): 1,
    ("johnson", "basis"): 0,
    ("one_hot", "basis"): 0,
}

# How often each file on small tables is run with each number of workers, and each other one.
SMALL_TIMES = 40
TIMES = 5

# The number of the user nobody.
NOBODY = 65534

# The outputs of the first large file: one for each of the most workers.
OUTPUTS = 16


def small_files():
    """Files on small tables: how many threads start, and what each is, the words and the text."""
    for (name, mode), threads in SMALL.items():
        yield threads, (name, mode, (EXAMPLES / f"{name}.pla").read_text())


def middle_files():
    """The same of files on tables of 2^14 to 2^17 slots, of those that outgrow a small table also what starts there."""
    draws = random.Random(1)
    yield 0, ("one output", "anf", description(16, 1, "fr", valued(draws, 300, 16, 1)))
    yield 1, ("many outputs", "anf", description(12, OUTPUTS, "fr", valued(draws, 64, 12, OUTPUTS)))
    cubes = [(random_cube(draws, 24, 12), "1") for _ in range(20)]
    yield 1, ("cubes that outgrow a small table", "anf", description(24, 1, "f", cubes))
    for seed in (1, 2, 3):
        yield 1, ("mode gen", f"gen --seed {seed}", "")
    cubes = [(random_cube(draws, 13, 2), "1111") for _ in range(150)]
    yield 1, ("cubes that leave few points", "anf", description(13, 4, "f", cubes))
    cubes = [(random_cube(draws, 14, 7), "".join(draws.choice("01") for _ in range(4))) for _ in range(90)]
    yield 1, ("cubes of four outputs", "anf", description(14, 4, "f", cubes))


def bases():
    """Files on tables of at most 2^16 slots in mode basis: how many elements there are, and what each is, as above."""
    draws = random.Random(1)
    yield 48, ("a basis that outgrows a small table", "basis", description(12, 1, "fr", valued(draws, 60, 12, 1)))
    yield 268, ("four bases", "basis", description(12, 4, "fr", valued(draws, 90, 12, 4)))


def large_files():
    """Files on tables on which a run has as many workers as are asked for: what each is, the words and the text."""
    draws = random.Random(1)
    yield "an output for each worker", "anf", description(16, OUTPUTS, "fr", valued(draws, 300, 16, OUTPUTS))
    yield "one output", "anf", description(20, 1, "fr", valued(draws, 2000, 20, 1))
    yield "points that outgrow 2^16 slots", "anf", description(16, 1, "fr", valued(draws, 3000, 16, 1))
    yield "two bases", "basis", description(12, 2, "fr", valued(draws, 280, 12, 2))


def all_files():
    """All of them, each with how often it is run."""
    yield from ((file, SMALL_TIMES) for _, file in small_files())
    yield from ((file, TIMES) for _, file in [*middle_files(), *bases()])
    yield from ((file, TIMES) for file in large_files())


def most_for(elements, workers):
    """How many workers of so many find so many elements on a table that is neither small nor great."""
    return min(workers, elements // 8)


def ends(path, line, text, workers, **how):
    """How a run with so many workers ends, where the lines of progress stand between those of the answer."""
    return run([path, *line.split(), "--workers", workers], text, stderr=subprocess.STDOUT, **how)


class Repeat(Test):
    """Each run prints what the first one with one worker does."""

    def test_all(self):
        for (what, line, text), times in all_files():
            wanted = ends(program("interp"), line, text, 1)
            for name, workers in itertools.product(PROGRAMS, WORKERS):
                with self.case(f"{what}, {name} {line} --workers {workers}"):
                    self.assertEqual(wanted.status, 0)
                    others = sum(ends(program(name), line, text, workers) != wanted for _ in range(times))
                    self.assertEqual(others, 0, f"of {times} runs print other bytes")


class Threads(Test):
    """How many threads start."""

    def count(self, name, line, text, workers):
        words = [program(name), *line.split(), "--workers", workers]
        ended, started = faults().count(words, text, Fault("thread", 0, 1, ALL, "pass"))
        self.assertEqual(ended.status, 0)
        return started

    def expect(self, files):
        """These files start so many threads with two workers and more, and none with one."""
        for threads, (what, line, text) in files:
            for name, workers in itertools.product(PROGRAMS, WORKERS):
                with self.case(f"{what}, {name} {line} --workers {workers}"):
                    self.assertEqual(self.count(name, line, text, workers), threads if workers > 1 else 0)

    def test_small(self):
        """On a small table polynomials have two workers at most, also where there is one of them, and all else one."""
        self.expect(small_files())

    def test_middle(self):
        """On one of at most 2^16 slots they have two too, but for a single one, which has one. One of 2^17 on which a run
        begins is the same, where greater ones may follow."""
        self.expect(middle_files())

    def test_bases(self):
        """There each eight elements of bases bring a worker, up to as many as are asked for."""
        for elements, (what, line, text) in bases():
            found = sum(it.startswith("0 = ") for it in answer([program("interp"), line], text))
            self.assertEqual(found, elements)
            for name, workers in itertools.product(PROGRAMS, WORKERS):
                with self.case(f"{what}, {name} {line} --workers {workers}"):
                    self.assertEqual(self.count(name, line, text, workers), most_for(elements, workers) - 1)

    def test_large(self):
        """On the other ones the workers are as many as are asked for, and one of them is the main thread.

        How many more threads start depends on who draws a job, as several workers do one job where there are more of
        them than jobs. In mode basis each of two phases starts them.
        """
        for what, line, text in large_files():
            for name, workers in itertools.product(PROGRAMS, WORKERS):
                with self.case(f"{what}, {name} {line} --workers {workers}"):
                    least = {"anf": workers - 1, "basis": 2 * (workers - 1)}
                    started = self.count(name, line, text, workers)
                    self.assertGreaterEqual(started, least[line])
                    self.assertEqual(started == 0, workers == 1)

    def test_a_job_each(self):
        """Where each worker has a job, each of the two lists of jobs starts all of them, and no job has several."""
        _, line, text = next(large_files())
        for name, workers in itertools.product(PROGRAMS, WORKERS):
            with self.case(f"{name} --workers {workers}"):
                self.assertEqual(self.count(name, line, text, workers), 2 * (workers - 1))


class Pools(InFolder):
    """The jobs of interp and of steal are dealt in different ways, which no answer tells: deques are memory."""

    def sizes(self, program_path, folder):
        """The bytes that each call for memory asks for, in a run with two workers; each program has one name here."""
        path = self.here / folder / "program"
        path.parent.mkdir()
        path.symlink_to(program_path)
        words = [path, "anf", "--workers", 2]
        text = (EXAMPLES / "full_adder.pla").read_text()
        ended, sizes = faults().meet(words, text, Fault("alloc", 0, 1, ALL, "pass"))
        self.assertEqual(ended.status, 0)
        return sorted(sizes)

    def test_memory(self):
        """Two runs of one program ask for the same, and steal for more than interp."""
        drawn, again = (self.sizes(program("interp"), folder) for folder in "ab")
        self.assertEqual(drawn, again)
        self.assertGreater(len(self.sizes(program("steal"), "c")), len(drawn))


class Refused(Test):
    """Threads that the system refuses: the run prints what one worker does."""

    def test_each_thread(self):
        """From each thread on all are refused, and each alone, of the first 15 in each run."""
        few = [*small_files(), *middle_files(), *((most_for(it, 16) - 1, file) for it, file in bases())]
        for (threads, (what, line, text)), name in itertools.product(
            [*few, *((15, file) for file in large_files())], PROGRAMS
        ):
            words = [program(name), *line.split(), "--workers", 16]
            wanted = run([*words[:-1], 1], text)
            with self.case(f"{what}, {name} {line}"):
                self.assertEqual(wanted.status, 0)
                met = sum(self.refuse(words, text, wanted, first) for first in range(1, 16))
                self.assertEqual(met, threads)

    def refuse(self, words, text, wanted, first):
        """Refuses a thread alone, and with all that come after it; answers whether there is such a thread."""
        for last in (first, ALL):
            ended, was_met = faults().run(words, text, Fault("thread", 0, first, last, "fail"))
            self.assertTrue(ended == wanted, f"threads {first} to {last} refused: status {ended.status}")
        return was_met

    def test_limit(self):
        """The system refuses all of them, by a limit of one process for a user: in place of root it is nobody."""
        alone = {"preexec_fn": lambda: resource.setrlimit(resource.RLIMIT_NPROC, (1, 1))}
        if os.getuid() == 0:
            alone |= {"user": NOBODY, "group": NOBODY, "extra_groups": []}
        if run(["sh", "-c", "exec true"], **alone).status != 0:
            raise unittest.SkipTest("no user can be limited to one process here")
        if run(["sh", "-c", "true & wait"], **alone).status == 0:
            raise unittest.SkipTest("a limit of one process is not kept here")
        with tempfile.TemporaryDirectory() as folder:
            # Copies that the user nobody can read.
            os.chmod(folder, 0o755)
            for name in PROGRAMS:
                path = pathlib.Path(folder) / name
                shutil.copyfile(program(name), path)
                path.chmod(0o755)
                for (what, line, text), _ in all_files():
                    with self.case(f"{what}, {name} {line}"):
                        self.assertEqual(ends(path, line, text, 16, **alone), ends(path, line, text, 1))
