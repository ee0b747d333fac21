"""The program on deep and on wide files with small stacks, compared with what it prints otherwise.

The files have 62 inputs, in mode check 14, and up to 8,192 rows and 64 outputs. Each is run once with the stacks that
the system gives, and then with 1, 2 and 16 workers and stacks of so many KiB as STACK says: that of the main thread,
which has the words and the environment too, here none, and that of each thread that the program starts.
"""

import random
import resource

from tests.harness import Test, description, program, run
from tests.made_descriptions import shared_out

# In KiB: 512 for the marks of the search for contradicting rows, which stand on the main thread's stack, and 128 for
# all else.
STACK = 640
INPUTS = 62
MOST_CHECKED = 14


def cube(symbols):
    """A row's inputs: these symbols at these places, and free ones elsewhere."""
    return "".join(symbols.get(place, "-") for place in range(INPUTS))


def files():
    """Each file: what it is, its text, the words, and the status that it ends with."""
    draws = random.Random(1)
    yield "no rows", description(INPUTS, 1, "fd", []), "basis", 0
    yield "the product of all inputs", description(INPUTS, 1, "f", [("1" * INPUTS, "1")]), "basis", 0
    union = [(cube({place: "1"}), "1") for place in range(INPUTS)]
    yield "the union of all inputs", description(INPUTS, 1, "f", union), "anf", 6
    literals = [{place: draws.choice("01") for place in draws.sample(range(INPUTS), 3)} for _ in range(60)]
    small = description(INPUTS, 1, "f", [(cube(symbols), "1") for symbols in literals])
    yield "a table too small", small, "anf --nodes 16", 5
    yield "100 points", description(INPUTS, 1, "fr", shared_out(draws, 100, INPUTS, 1)), "basis", 0
    many = description(INPUTS, 64, "fr", shared_out(draws, 8192, INPUTS, 64))
    yield "8,192 rows and 64 outputs", many, "anf --nodes 21", 0
    fewer = description(INPUTS, 64, "fr", shared_out(draws, 1024, INPUTS, 64))
    yield "1,024 rows and 64 outputs", fewer, "basis --nodes 21", 0
    judged = description(MOST_CHECKED, 64, "fr", shared_out(draws, 8192, MOST_CHECKED, 64))
    answer = run([program("interp"), "basis", "--nodes", "21"], judged).out
    yield "an answer to 8,192 rows and 64 outputs", judged + answer, "check", 0


def limit_stacks():
    """What a child does before the program starts."""
    resource.setrlimit(resource.RLIMIT_STACK, (STACK * 1024, resource.RLIM_INFINITY))


class Deep(Test):
    """Small stacks."""

    def test_files(self):
        for what, text, line, status in files():
            words = [program("interp"), *line.split()]
            whole = run(words, text, env={})
            with self.case(f"{what}, {line}"):
                self.assertEqual(whole.status, status, whole.err)
                for workers in ("1", "2", "16"):
                    ended = run([*words, "--workers", workers], text, env={}, preexec_fn=limit_stacks)
                    # The texts are long, and are not shown where they differ.
                    self.assertTrue(ended == whole, f"{workers} workers: status {ended.status}, {ended.err}")
