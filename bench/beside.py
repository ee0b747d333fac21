#!/usr/bin/env python3
"""Compares the time that interp takes with that of another build of it, and tells of files that take it longer.

    beside.py OTHER [--program PATH] [--files N] [--seed S] [--runs N]

It makes N files by the seed (random_files.py) and runs both programs on each in turn. What counts is the least
processor time of a few runs, and of some more where interp takes more than a twentieth longer by these. It prints a
line for each kind: how many files have an answer, the times of what the other program takes, in the geometric mean and
at the most, and of how many files that take it a millisecond or more they are above a twentieth. These are named on
standard error, and so are files for which one program alone has an answer. Measure on a machine that does nothing else,
and look once more at what is named: two runs of one program differ.
"""

import argparse
import os
import pathlib
import statistics
import subprocess
import sys
import tempfile
from collections import defaultdict

import run
from random_files import random_files

# Times of what the other program takes, and how many more runs there are where these are passed.
MOST = 1.05
MORE_RUNS = 12
# In fewer milliseconds a process does little but start.
LEAST = 1


def spent(program, mode, file):
    """The status of a run, and the milliseconds of processor time that it took."""
    with open(file, "rb") as text:
        child = subprocess.Popen([program, mode], stdin=text, stdout=subprocess.DEVNULL, stderr=subprocess.DEVNULL)
        _, status, used = os.wait4(child.pid, 0)
    child.returncode = os.waitstatus_to_exitcode(status)
    return child.returncode, (used.ru_utime + used.ru_stime) * 1000


def compared(programs, mode, file, runs):
    """The least times of both programs; None where one has no answer, with what differs."""
    ends = [spent(program, mode, file) for program in programs]
    statuses = [status for status, _ in ends]
    if any(statuses):
        return None, statuses[0] != statuses[1]
    least = [milliseconds for _, milliseconds in ends]
    for number in range(1, runs + MORE_RUNS):
        if number >= runs and least[1] <= MOST * least[0]:
            break
        least = [min(old, spent(program, mode, file)[1]) for old, program in zip(least, programs)]
    return least, False


def is_slower(least):
    """Whether interp takes more than a twentieth longer than the other program, by their least times."""
    return least[0] >= LEAST and least[1] > MOST * least[0]


def main():
    parser = argparse.ArgumentParser()
    parser.add_argument("other", type=run.program)
    run.add_program(parser, "--program", "interp")
    parser.add_argument("--files", type=int, default=200)
    parser.add_argument("--seed", type=int, default=1)
    parser.add_argument("--runs", type=int, default=3)
    options = parser.parse_args()
    programs = [options.other, options.program]
    found, slower, differ = defaultdict(list), [], []
    with tempfile.TemporaryDirectory() as folder:
        file = pathlib.Path(folder) / "file.pla"
        for number, (kind, mode) in enumerate(random_files(options.files, options.seed, file)):
            least, differs = compared(programs, mode, file, options.runs)
            name = f"file {number}, {kind}, {mode}"
            if differs:
                differ.append(name)
            if least is not None:
                found[kind].append(least)
            if least is not None and is_slower(least):
                slower.append(f"{name}: {least[0]:.1f} and {least[1]:.1f} ms")
    print("| files | with an answer | mean times | most | above a twentieth |\n|---|---|---|---|---|")
    for name, runs in sorted(found.items()):
        times = [least[1] / least[0] for least in runs]
        above = sum(map(is_slower, runs))
        print(f"| {name} | {len(times)} | {statistics.geometric_mean(times):.2f} | {max(times):.2f} | {above} |")
    return max(run.tell(slower, "more than a twentieth longer"), run.tell(differ, "one program alone has an answer"))


if __name__ == "__main__":
    sys.exit(main())
