#!/usr/bin/env python3
"""Measures interp beside BRiAl, and compares what they print.

    run.py [--runs N] [--workers N,N..] [--program PATH] [--also PATH] [FILE..]

It makes the files (make_files.py), builds the driver (brial.py) where Debian's packages libbrial-dev and
libbrial-groebner-dev are installed, runs each program on each file in turn, N times, and prints a table: the least
time of each in milliseconds, start and reading included, the peak memory of the first column, which is that of this
script at the least, and the answer's bytes. --also names a second build of interp, to compare with.

A script of this repository that runs a program, as ./interp does, takes some 26 ms, which are those of bash. So where
such a script is named, as it is by default, the program behind it is measured.
"""

import argparse
import hashlib
import os
import pathlib
import re
import shutil
import subprocess
import sys
import tempfile
import time

import brial
import make_files

HERE = pathlib.Path(__file__).resolve().parent
# Seconds after which a run is ended, and what such a run has in place of a status. Where another signal ended a run,
# its status is the negative number of this signal.
LIMIT = 30
LATE = -1000
# What a script has that runs a program: the crate, its first mode, and a file that it takes.
LAUNCHES = re.compile(rb"tools/run_proved\" \w+ (\w+) '(\w+)[^']*' (\S+)")


def program(path):
    """The path of a program, by the value of an option: where this is a script that runs a program of its repository,
    that program. One run of the script proves and builds it where it is missing or older than its sources."""
    found = shutil.which(path)
    if found is None:
        raise argparse.ArgumentTypeError(f"there is no program {path}")
    with open(found, "rb") as file:
        launches = LAUNCHES.search(file.read(4096))
    if launches is None:
        return found
    crate, mode, example = map(bytes.decode, launches.groups())
    top = pathlib.Path(found).resolve().parent
    with open(top / example, "rb") as text:
        ended = subprocess.run([found, mode], stdin=text, stdout=subprocess.DEVNULL, check=False)
    if ended.returncode:
        raise argparse.ArgumentTypeError(f"{path} gave no program")
    return str(top / "crates" / crate / "out" / crate)


def run(words, file):
    """The milliseconds, kilobytes, status, and the bytes with their sum, of one run."""
    with tempfile.TemporaryFile() as out, open(file, "rb") as text:
        begun, is_late = time.monotonic(), False
        try:
            child = subprocess.Popen(words, stdin=text, stdout=out, stderr=subprocess.DEVNULL)
        except OSError as why:
            sys.exit(f"{words[0]} cannot be run: {why.strerror}")
        while True:
            ended, status, used = os.wait4(child.pid, os.WNOHANG)
            if ended:
                break
            if not is_late and time.monotonic() - begun > LIMIT:
                child.kill()
                is_late = True
            time.sleep(0.0005)
        spent = (time.monotonic() - begun) * 1000
        child.returncode = os.waitstatus_to_exitcode(status)
        out.seek(0)
        # The peak memory of a child is that of this script at the least, so an answer is not held.
        digest = hashlib.file_digest(out, "sha256").hexdigest()
        size = os.fstat(out.fileno()).st_size
    return spent, used.ru_maxrss, LATE if is_late else child.returncode, size, digest


def commands(options, mode, driver):
    """The columns of the table: a name and the words of a command."""
    found = [(f"interp, {n}", [options.program, mode, "--workers", n]) for n in options.workers.split(",")]
    if options.also:
        found.append(("also", [options.also, mode]))
    if driver:
        found.append(("BRiAl", [str(driver), mode]))
    return found


def measure(columns, file, runs):
    """For each column the least time, and the first run's other results. What was ended is not run again."""
    results = [run(words, file) for _, words in columns]
    times = [result[0] for result in results]
    for _ in range(runs - 1):
        for column, (_, words) in enumerate(columns):
            if results[column][2] >= 0:
                times[column] = min(times[column], run(words, file)[0])
    return times, results


def cell(spent, status):
    """The milliseconds, and how a run ended that has no answer."""
    if status == LATE:
        return f"none in {LIMIT} s"
    return f"{spent:.0f}, status {status}" if status else f"{spent:.0f}"


def row(name, mode, times, results):
    """Prints a line of the table, and answers the status of the measurement."""
    cells = [cell(spent, result[2]) for spent, result in zip(times, results)]
    memory, answer = results[0][1] / 1024, results[0][3]
    print(f"| `{name}` | {mode} | {' | '.join(cells)} | {memory:.0f} | {answer} |", flush=True)
    return max(tell_killed(name, results), tell_different(name, results))


def add_program(parser, option, name):
    """Takes the path of a program, by default that of this name in this repository."""
    parser.add_argument(option, type=program, default=str(HERE.parent / name))


def arguments(name):
    """A parser of the arguments of a measurement of the program of this name."""
    parser = argparse.ArgumentParser()
    parser.add_argument("--runs", type=int, default=3)
    add_program(parser, "--program", name)
    return parser


def add_names(parser, known):
    """Takes names of what is measured, each one of these."""

    def named(name):
        if name not in known:
            raise argparse.ArgumentTypeError(f"{name} is none of {', '.join(known)}")
        return name

    parser.add_argument("names", nargs="*", type=named)


def tell(names, fault):
    """Says on standard error what has this fault, and answers the status of the measurement."""
    for name in names:
        print(f"{name}: {fault}", file=sys.stderr)
    return 1 if names else 0


def tell_killed(name, results):
    """Says where a signal ended a run on this file that was not too late, and answers the status of the measurement."""
    signals = sorted({-result[2] for result in results if LATE < result[2] < 0})
    return tell([name] if signals else [], f"ended by signal {', '.join(map(str, signals))}")


def tell_different(name, results):
    """Says where programs that have an answer for this file printed others, and answers the status."""
    sums = {result[4] for result in results if result[2] == 0}
    return tell([name] if len(sums) > 1 else [], "what is printed differs")


def main():
    parser = arguments("interp")
    parser.add_argument("--workers", default="1,2,4")
    parser.add_argument("--also", type=program)
    add_names(parser, make_files.FILES)
    options = parser.parse_args()
    worst = 0
    with tempfile.TemporaryDirectory() as folder:
        folder = pathlib.Path(folder)
        driver = brial.driver(folder)
        if driver is None:
            print("BRiAl is not installed: the table is without it", file=sys.stderr)
        heads = [name for name, _ in commands(options, "", driver)]
        print(f"| file | mode | {' | '.join(heads)} | MB | bytes |\n|{'---|' * (len(heads) + 4)}")
        for name in options.names or make_files.FILES:
            mode, make = make_files.FILES[name]
            path = folder / f"{name}.pla"
            path.write_text(make())
            columns = commands(options, mode, driver)
            worst = max(worst, row(name, mode, *measure(columns, path, options.runs)))
    return worst


if __name__ == "__main__":
    sys.exit(main())
