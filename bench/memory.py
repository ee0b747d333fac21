#!/usr/bin/env python3
"""Compares the memory that interp takes by its limit of slots, and tells of runs that take too much.

    memory.py [--program PATH] [--files N] [--seed S]

It makes N files by the seed (random_files.py) and finds for each the least table on which it has an answer. With this
limit of slots and each greater one from 2^16 on, a run is to take at most four times the memory that it takes with the
least. It prints a line for each kind: how many files have an answer on 2^21 slots, and the most times the memory of the
least table, with the limit and the bits of the least one. What files are above four times is said on standard error.
Memory is measured by GNU time, Debian's package of this name.
"""

import argparse
import pathlib
import re
import shutil
import subprocess
import sys
import tempfile
from collections import defaultdict

import run
from random_files import random_files

TIMES = 4
# A process takes as much on fewer slots as on so many.
LEAST_BITS = 12
# The greatest table on which an answer is looked for, and the limits that are tried above the least table.
MOST_BITS = 21
LIMITS = range(16, 24)
EXHAUSTED = 5
# What GNU time says of a run that has no status.
NO_STATUS = re.compile(r"^(?:time: cannot run .*|Command terminated by signal .*)$", re.M)


class NoStatus(Exception):
    """A run could not begin, or a signal ended it: what is said of it."""


def used(program, mode, bits, file):
    """The status of a run with this limit of slots, and the kilobytes that it took."""
    words = ["time", "-f", "%M %x", program, mode, "--nodes", str(bits)]
    with open(file, "rb") as text:
        ended = subprocess.run(
            words, stdin=text, stdout=subprocess.DEVNULL, stderr=subprocess.PIPE, check=False, text=True
        )
    fault = NO_STATUS.search(ended.stderr)
    if fault:
        raise NoStatus(fault[0])
    memory, status = ended.stderr.split()[-2:]
    return int(status), int(memory)


def compared(program, mode, file):
    """(times, limit, least) of the run that takes most beside the one with the least table; None without an answer."""
    least = LEAST_BITS
    status, memory = used(program, mode, least, file)
    while status == EXHAUSTED and least < MOST_BITS:
        least += 1
        status, memory = used(program, mode, least, file)
    if status:
        return None
    above = [(used(program, mode, limit, file)[1] / memory, limit, least) for limit in LIMITS if limit > least]
    return max(above, default=(1.0, least, least))


def main():
    parser = argparse.ArgumentParser()
    run.add_program(parser, "--program", "interp")
    parser.add_argument("--files", type=int, default=200)
    parser.add_argument("--seed", type=int, default=1)
    options = parser.parse_args()
    if not shutil.which("time"):
        print("GNU time is not installed: nothing is measured", file=sys.stderr)
        return 0
    found, above = defaultdict(list), []
    with tempfile.TemporaryDirectory() as folder:
        file = pathlib.Path(folder) / "file.pla"
        for number, (kind, mode) in enumerate(random_files(options.files, options.seed, file)):
            try:
                most = compared(options.program, mode, file)
            except NoStatus as fault:
                sys.exit(f"file {number}, {kind}, {mode}: {fault}")
            if most is not None:
                found[kind].append(most)
            if most is not None and most[0] > TIMES:
                above.append(f"file {number}, {kind}, {mode}, --nodes {most[1]}")
    print("| files | with an answer | most times | by --nodes | least bits |\n|---|---|---|---|---|")
    for name, runs in sorted(found.items()):
        times, limit, least = max(runs)
        print(f"| {name} | {len(runs)} | {times:.1f} | {limit} | {least} |")
    return run.tell(above, f"more than {TIMES} times the memory of the least table")


if __name__ == "__main__":
    sys.exit(main())
