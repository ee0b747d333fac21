"""The programs interp and circuit where reads and writes fail: each one in turn, on each file of examples/.

The modes of interp are anf and basis, and check where there are few enough inputs and the answer is short. A read that fails
ends the run with status 8, its message, and nothing on standard output; a write of the answer that fails ends it with
status 9, its message, and the texts of the outputs before. A failed write to standard error takes its line away and
changes nothing else. A read or write that is interrupted, or that moves one byte alone, changes nothing at all, nor
do reads or writes that all do so.
"""

import concurrent.futures
import os

from tests.harness import ALL, EXAMPLES, Ended, Fault, Test, faults, program, run
from tests.plain_descriptions import inputs_of, with_end

# The inputs that mode check takes, and the length of an answer that is judged here: each 4,096 bytes of it are a read.
MOST_CHECKED = 14
SHORT = 2**16


class Trial:
    """One file in one mode, which is run again and again, each time with another fault; what was wrong gathers."""

    def __init__(self, name, words, text, tool="interp"):
        self.name = name
        self.tool = tool
        self.words = words
        self.text = text
        self.whole = run(words, text)
        self.wrong = []

    def judge(self, fault, is_right):
        """Runs with a fault, and answers whether a call was met. Where one was, the end is to be right, else whole."""
        ended, was_met = faults().run(self.words, self.text, fault)
        if not (is_right(ended) if was_met else ended == self.whole):
            self.wrong.append(f"{fault}: {ended}")
        return was_met

    def is_whole(self, ended):
        return ended == self.whole

    def try_descriptor(self, call, fd, is_used, is_right):
        """Each call on the descriptor fails, is interrupted and is short, one at a time; then all are short.

        There is such a call where it is used. `is_right` is told the number of the call that fails, and how the run
        ended.
        """
        number = 1
        while self.judge(Fault(call, fd, number, number, "fail"), lambda ended, at=number: is_right(at, ended)):
            for how in ("interrupt", "short"):
                self.judge(Fault(call, fd, number, number, how), self.is_whole)
            number += 1
        if (number > 1) != is_used:
            self.wrong.append(f"{number - 1} calls of {call} on {fd} were met")
        self.judge(Fault(call, fd, 1, ALL, "short"), self.is_whole)

    def is_read_fault(self, _number, ended):
        return ended == Ended(8, "", f"{self.tool}: read fault\n")

    def is_write_fault(self, number, ended):
        """The texts before have been written, and the line of progress of each of them."""
        told = "".join(self.whole.err.splitlines(keepends=True)[: number - 1])
        texts = self.whole.out.startswith(ended.out) and len(ended.out) < len(self.whole.out)
        is_told = (ended.status, ended.err) == (9, told + f"{self.tool}: write fault\n")
        return texts and is_told and (ended.out == "") == (number == 1)

    def is_line_lost(self, number, ended):
        """The line that was to be written by this call is not there."""
        lines = self.whole.err.splitlines(keepends=True)
        return ended == self.whole._replace(err="".join(lines[: number - 1] + lines[number:]))

    def try_all(self):
        self.try_descriptor("read", 0, True, self.is_read_fault)
        self.try_descriptor("write", 1, self.whole.out != "", self.is_write_fault)
        self.try_descriptor("write", 2, self.whole.err != "", self.is_line_lost)
        return self.wrong


def trials_of(path):
    """The trials of a file. One that ends without an answer gets a small table, so that it ends soon."""
    text = path.read_text()
    table = ["--nodes", "16"] if path.with_suffix(".message").exists() else []
    for mode in ("anf", "basis"):
        yield Trial(f"{path.stem} {mode}", [program("interp"), mode, *table], text)
    if not table and inputs_of(text) <= MOST_CHECKED:
        answer = run([program("interp"), "basis"], text).out
        if len(answer) <= SHORT:
            yield Trial(f"{path.stem} check", [program("interp"), "check"], with_end(text) + answer)


def trials_of_circuit(path):
    """The trials of a circuit."""
    text = path.read_bytes()
    for mode in ("anf", "basis", "count"):
        yield Trial(f"{path.stem} {mode}", [program("circuit"), mode], text, "circuit")
    yield Trial(f"{path.stem} equal", [program("circuit"), "equal"], 2 * text, "circuit")


class Devices(Test):
    """Reads and writes that fail."""

    def test_each_call(self):
        faults()
        trials = [trial for path in sorted(EXAMPLES.glob("*.pla")) for trial in trials_of(path)]
        trials += [trial for path in sorted(EXAMPLES.glob("*.aag")) for trial in trials_of_circuit(path)]
        with concurrent.futures.ThreadPoolExecutor(os.cpu_count()) as pool:
            for trial, wrong in zip(trials, pool.map(Trial.try_all, trials)):
                with self.case(trial.name):
                    self.assertEqual(wrong, [])
