"""The program with just as many slots as a file needs and with half as many: the status, text and message that are due.

How many nodes each phase of a run needs, and how many terms it has, is computed without the program
(needed_nodes.py). Ten files of examples/ are run in the modes anf and basis, again and again, with several numbers of
workers; then small random files with each small table and several limits of terms. All these have tables on which two
workers are the most. So last there are files on larger tables, and the threads that start are counted there. All are
runs of interp, whose jobs are drawn from a counter, and of steal, whose jobs are taken from deques.
"""

import itertools
import random

from tests.harness import ALL, EXAMPLES, Fault, Test, description, faults, program, run
from tests.made_descriptions import random_rows, valued
from tests.needed_nodes import LEAST_BITS, MOST_TERMS, bits_for, cost_of, due
from tests.plain_descriptions import read
from tests.plain_polynomials import count_terms

FILES = (
    "full_adder seven_segments half_adder johnson one_hot "
    "present present_graph digits three_points written_by_abc"
).split()
PROGRAMS = ("interp", "steal")
WORKERS = (1, 3, 16)
TIMES = 8
RANDOM_FILES = 60

# How often each larger file is run.
LARGE_TIMES = 5


def turned(rows, row, output):
    """The rows, one of which has the other value for an output."""
    point, values = rows[row]
    other = values[:output] + "10"[int(values[output])] + values[output + 1 :]
    return [*rows[:row], (point, other), *rows[row + 1 :]]


def alike(rows, outputs):
    """The rows of one output for so many outputs."""
    return [(point, outputs * value) for point, value in rows]


def large_files():
    """Files on larger tables: the nodes that a whole run needs, what a description is made from, the mode, and by which
    limits, in bits, it has all workers.

    Two of them fill a table of 2^17 slots to the last one, and one needs a slot more. With several outputs of the same
    values each worker finds them all, so that the workers look for the last slots at the same time. The first two find
    their answers with 2^17 slots also where there may be more, and there they have two workers at most.
    """
    more = turned(valued(random.Random(6), 6000, 16, 1)[:5800], 1559, 0)
    exact = turned(more, 5525, 0)
    yield 2**17, (16, 1, "fr", exact), "anf", (17,)
    yield 2**17, (16, 16, "fr", alike(exact, 16)), "anf", (17,)
    yield 2**17 + 1, (16, 16, "fr", alike(more, 16)), "anf", (17, 18)
    yield 134283, (14, 1, "fr", valued(random.Random(2), 300, 14, 1)), "basis", (17, 18)


class Exact(Test):
    """Runs whose limits are near to what they need."""

    def expect(self, wanted, mode, text, *words):
        for name in PROGRAMS:
            ended = run([program(name), mode, *words], text)
            self.assertEqual(ended, wanted, f"{name} {mode} {' '.join(map(str, words))}")

    def try_example(self, text, mode):
        """With the least table that has enough slots, and with half of it, again and again."""
        cost = cost_of(*read(text), mode)
        whole = run([program("interp"), mode], text)
        self.assertEqual((whole.status, count_terms(whole.out)), (0, cost.terms))
        enough = bits_for(cost.last)
        for bits in range(max(LEAST_BITS, enough - 1), enough + 1):
            for workers in WORKERS * TIMES:
                self.expect(due(cost, bits, MOST_TERMS, whole), mode, text, "--nodes", bits, "--workers", workers)

    def test_examples(self):
        for name in FILES:
            for mode in ("anf", "basis"):
                with self.case(f"{name}, {mode}"):
                    self.try_example((EXAMPLES / f"{name}.pla").read_text(), mode)

    def test_large_files(self):
        for nodes, file, mode, limits in large_files():
            text, cost = description(*file), cost_of(*file, mode)
            whole = run([program("interp"), mode], text)
            with self.case(f"{nodes} nodes"):
                self.assertEqual((cost.last, whole.status, count_terms(whole.out)), (nodes, 0, cost.terms))
            for name, bits, workers in itertools.product(PROGRAMS, (17, 18), (2, 4, 8, 16)):
                with self.case(f"{nodes} nodes, {name} {mode} --nodes {bits} --workers {workers}"):
                    words = [program(name), mode, "--nodes", bits, "--workers", workers]
                    least = workers - 1 if bits in limits else 0
                    self.try_workers(due(cost, bits, MOST_TERMS, whole), words, text, least)

    def try_workers(self, wanted, words, text, least):
        """Again and again, with so many threads at the least."""
        for _ in range(LARGE_TIMES):
            ended, started = faults().count(words, text, Fault("thread", 0, 1, ALL, "pass"))
            self.assertEqual((ended.status, ended.err), (wanted.status, wanted.err))
            self.assertTrue(ended == wanted, "other bytes are printed")
            self.assertGreaterEqual(started, least)

    def try_limits(self, cost, whole, mode, text, draws):
        """With each table up to the one that is great enough, and some limits of terms."""
        limits = {max(1, count + more) for count in (cost.leads, cost.terms) for more in (-1, 0)} | {MOST_TERMS}
        for bits in range(LEAST_BITS, bits_for(cost.last) + 1):
            for limit in sorted(limits):
                words = ("--nodes", bits, "--terms", limit, "--workers", draws.choice(WORKERS))
                self.expect(due(cost, bits, limit, whole), mode, text, *words)

    def test_random_files(self):
        draws = random.Random(1)
        for number in range(RANDOM_FILES):
            inputs, outputs, kind = draws.randint(2, 9), draws.randint(1, 3), draws.choice(["f", "fd", "fr", "fdr"])
            rows = random_rows(draws, inputs, outputs, 12)
            text = description(inputs, outputs, kind, rows, end=None)
            for mode in ("anf", "basis"):
                whole = run([program("interp"), mode], text)
                if whole.status == 4:
                    break
                with self.case(f"file {number}, {mode}: {text!r}"):
                    cost = cost_of(inputs, outputs, kind, rows, mode)
                    self.assertEqual((whole.status, count_terms(whole.out)), (0, cost.terms))
                    self.try_limits(cost, whole, mode, text, draws)
