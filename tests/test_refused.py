"""The programs interp and circuit where memory is refused: each allocation of a run in turn, alone and with all that come after it.

A run then ends with status 7, nothing on standard output and the line of this status or a front part of it on
standard error, or as it does with memory. The allocations are those of the C library, which the program and its
threads call.
"""

from tests.harness import ALL, Fault, Test, description, faults, program, run

PAIR = description(2, 2, "fr", ["11 1-", "00 00", "10 -1"], end=None)
JUDGED = description(2, 1, "fr", ["11 1", "00 0"]) + "f1 = x2\n0 = x1 + x2\n"
BASES = "f1 = x2\n0 = x1 + x2\nf2 = x1\n0 = x2\n"

# The words of each run, what it reads, and what it prints.
RUNS = [
    ("anf", PAIR, "f1 = x2\nf2 = x1\n"),
    ("basis", PAIR, BASES),
    ("check", JUDGED, "yes\n"),
    ("anf --workers 2", PAIR, "f1 = x2\nf2 = x1\n"),
    ("basis --workers 2", PAIR, BASES),
    ("gen", "", "points 256\nf1 8\nf2 7\n"),
    ("gen --workers 2", "", "points 256\nf1 8\nf2 7\n"),
]

GATES = "aag 5 2 0 2 3\n2\n4\n10\n6\n6 2 4\n8 3 5\n10 7 9\ni0 a\ni1 b\no0 s\no1 c\n"
CIRCUIT_RUNS = [
    ("anf", GATES, "s = a + b\nc = a*b\n"),
    ("basis --care c", GATES, "s = 0\n0 = b + 1\n0 = a + 1\n"),
    ("count", GATES, "s: terms 2, degree 1, nodes 2\nc: terms 1, degree 2, nodes 2\n"),
    ("anf --order b,a --invert a", GATES, "s = b + ~a + 1\nc = b*~a + b\n"),
    ("equal", 2 * GATES, "s: equal\nc: equal\n"),
]


class Refused(Test):
    """Allocations that are refused to a program of this name in these runs."""

    name = "interp"
    runs = RUNS

    def is_refused(self, ended):
        """Whether this is the end for want of memory."""
        return (ended.status, ended.out) == (7, "") and f"{self.name}: out of memory\n".startswith(ended.err)

    def refuse(self, words, text, whole, number):
        """Refuses an allocation, alone and with all that come after it.

        Answers whether it was met, and how many of the two runs ended for want of memory.
        """
        ends = 0
        for last in (number, ALL):
            ended, was_met = faults().run(words, text, Fault("alloc", 0, number, last, "fail"))
            if ended != whole:
                self.assertTrue(was_met and self.is_refused(ended), f"allocations {number} to {last} refused: {ended}")
            ends += ended.status == 7
        return was_met, ends

    def test_each_allocation(self):
        for line, text, answer in self.runs:
            with self.case(line):
                words = [program(self.name), *line.split()]
                whole = run(words, text)
                self.assertEqual((whole.status, whole.out), (0, answer))
                number, ends, was_met = 0, 0, True
                while was_met:
                    number += 1
                    was_met, more = self.refuse(words, text, whole, number)
                    ends += more
                self.assertGreater(ends, 0, f"{number - 1} allocations were met")


class RefusedCircuits(Refused):
    """The same of circuit."""

    name = "circuit"
    runs = CIRCUIT_RUNS
