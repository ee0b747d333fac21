#!/usr/bin/env python3
"""Counts the instructions of interp beside those of a plain program of the same method, and compares what they print.

    looks.py [--program PATH] [FILE..]

It makes the files (make_files.py), builds the plain program (plain.rs) by rustc, runs both programs on each file under
callgrind, a tool of valgrind, and prints a table: the bits of the tables' slots, how often each program looks for a
kept result, the instructions of both whole runs in millions, those of the operations on diagrams alone by the number of
its looks, and how many times as many of these interp takes. The last table of both programs has the slots that interp
comes to, or, for a file of which this is not known here, the least of a few sizes that suffices for the plain one. What
interp looks for is counted by the plain program, on tables as interp tries them. Where rustc or valgrind is missing,
nothing is measured.
"""

import argparse
import pathlib
import re
import shutil
import subprocess
import sys
import tempfile

import make_files
import run

SOURCE = pathlib.Path(__file__).resolve().parent / "plain.rs"
TOOLS = ("rustc", "valgrind", "callgrind_annotate")

# The files that are measured where none is named, each with the sizes of the tables that interp tries, in bits of a
# slot. All but the last one are filled in vain.
TRIED = {
    "points_20": [18], "points_24": [19], "multiplier_6": [14, 18], "redundant_28": [14, 18], "cubes_14": [17],
    "majority_13": [16], "points_14_basis": [18], "points_24_basis": [19],
}  # fmt: skip

HEADS = [
    "file", "mode", "bits", "interp, looks", "plain, looks", "interp, whole run", "plain, whole run", "interp, a look",
    "plain, a look", "ratio",
]  # fmt: skip

# The sizes of table that are tried for other files, and the status of the plain program where its table is full.
SIZES = (12, 16, 18, 19, 20)
FULL = 3

# A line of callgrind_annotate: the instructions of a function, and its name behind that of its file.
LINE = re.compile(r"^ *([\d,]+)(?: \([ \d.]+%\))?  (?:[^\s:]*:)?(\S.*)$", re.M)
# Lines of a profile: a function's number, with its name where it comes first; and how often one was called.
NUMBER = re.compile(r"^c?fn=\((\d+)\) (.+)$", re.M)
CALLS = re.compile(r"^cfn=\((\d+)\).*\ncalls=(\d+)", re.M)
TOTAL = "PROGRAM TOTALS"
# What works on diagrams in interp: the functions of these crates, and those of interp_run that some of them are inlined
# in. Left out are how a table is made and how terms are counted and listed, as they are of the plain program.
CRATES = [
    "set_algebra", "node_store", "bool_poly", "computed_cache", "unique_table", "interp_lex", "vanish_basis",
    "std_monomials", "cube_build", "fork_branches",
]  # fmt: skip
INLINED = "interp_run::(solve::find_first|cover_jobs|tasks)"
TABLE_MADE = "unique_table::pass::Shared::make"
LEFT_OUT = f"{TABLE_MADE}|set_algebra::(counted|terms)::"
OPERATIONS = re.compile(f"(?!{LEFT_OUT})(({'|'.join(CRATES)})::|{INLINED})")
# What works on diagrams in the plain program, with all that is called there.
PHASES = re.compile(r"(\w+::)?(cares_of|polynomials_of|leads_of|elements_of)(?: \[|$)")


def build(folder):
    """The paths of the plain program and of its build that counts looks."""
    found = []
    for name, flags in (("plain", []), ("plain_count", ["--cfg", "count"])):
        words = ["rustc", "--edition", "2021", "-C", "opt-level=3", "-C", "panic=abort", *flags, str(SOURCE)]
        subprocess.run([*words, "-o", str(folder / name)], check=True)
        found.append(str(folder / name))
    return found


def ended(words, file):
    """How a run on a file ends, with what it prints."""
    with open(file, "rb") as text:
        return subprocess.run(words, stdin=text, capture_output=True, check=False)


def counted(program, mode, file, sizes):
    """The bits of the first of some tables that suffices for the plain program, and how its run ends; None where none
    does."""
    for bits in sizes:
        end = ended([program, mode, str(bits)], file)
        if end.returncode != FULL:
            return bits, end
    return None


def profiled(words, file, options=()):
    """(instructions, name) of each function that a run on a file calls, and of the whole run, and how many tables
    interp makes. A program may be a script that another one takes the place of, in the same process; what else the
    script starts is no part of the run."""
    with tempfile.TemporaryDirectory() as folder, open(file, "rb") as text:
        profiles = f"--callgrind-out-file={folder}/%p"
        valgrind = ["valgrind", "--tool=callgrind", "--trace-children=yes", profiles, *words]
        child = subprocess.Popen(valgrind, stdin=text, stdout=subprocess.DEVNULL, stderr=subprocess.DEVNULL)
        child.wait()
        profile = pathlib.Path(folder) / str(child.pid)
        annotate = ["callgrind_annotate", "--threshold=100", "--auto=no", *options, profile]
        printed = subprocess.run(annotate, capture_output=True, text=True, check=True).stdout
        tables = calls(profile.read_text(), TABLE_MADE)
    return [(int(count.replace(",", "")), name) for count, name in LINE.findall(printed)], tables


def calls(profile, name):
    """How often the functions are called whose names begin so."""
    numbers = {number for number, called in NUMBER.findall(profile) if called.startswith(name)}
    return sum(int(count) for number, count in CALLS.findall(profile) if number in numbers)


def sums(found, pattern):
    """The instructions of the whole run, and of the functions whose names begin so."""
    total = next(count for count, name in found if name == TOTAL)
    return total, sum(count for count, name in found if pattern.match(name))


def measured(name, folder, program, plain):
    """Prints the line of a file, and answers the status of the measurement."""
    mode, make = make_files.FILES[name]
    path = folder / f"{name}.pla"
    path.write_text(make())
    # interp runs first, and not under valgrind: a file with too many terms ends it, where the plain program would take
    # all memory.
    if ended([program, mode, "--nodes", str(SIZES[-1])], path).returncode:
        return no_answer(name, "interp")
    tried = TRIED.get(name)
    size = counted(plain[1], mode, path, tried[-1:] if tried else SIZES)
    if size is None:
        return no_answer(name, "plain")
    bits, plain_end = str(size[0]), size[1]
    words = [program, mode, "--nodes", bits]
    end = ended(words, path)
    if end.returncode:
        return no_answer(name, "interp")
    filled = tried[:-1] if tried else []
    found, tables = profiled(words, path)
    if tables != len(filled) + 1:
        return run.tell([name], f"interp makes {tables} tables, and {len(filled)} are said to be filled in vain")
    plain_looks = int(plain_end.stderr)
    looks = plain_looks + sum(int(ended([plain[1], mode, str(table)], path).stderr) for table in filled)
    plain_found, _ = profiled([plain[0], mode, bits], path, ["--inclusive=yes"])
    counts = [(looks, *sums(found, OPERATIONS)), (plain_looks, *sums(plain_found, PHASES))]
    print(f"| `{name}` | {mode} | {', '.join([*map(str, filled), bits])} | {cells(counts)} |", flush=True)
    return run.tell([name] if end.stdout != plain_end.stdout else [], "what is printed differs")


def no_answer(name, program):
    """Says which program has no answer for a file, so that there is nothing to compare."""
    print(f"{name}: {program} has no answer", file=sys.stderr)
    return 0


def cells(counts):
    """What a line has of the looks of both programs, of their whole runs and of what they take for their looks."""
    parts = [spent / looks for looks, _, spent in counts]
    looks = [f"{looks:,}" for looks, _, _ in counts]
    whole = [f"{total / 1e6:.1f}" for _, total, _ in counts]
    return " | ".join([*looks, *whole, *(f"{part:.1f}" for part in parts), f"{parts[0] / parts[1]:.2f}"])


def main():
    parser = argparse.ArgumentParser()
    run.add_program(parser, "--program", "interp")
    run.add_names(parser, make_files.FILES)
    options = parser.parse_args()
    missing = [name for name in TOOLS if not shutil.which(name)]
    if missing:
        print(f"{missing[0]} is not installed: nothing is measured", file=sys.stderr)
        return 0
    with tempfile.TemporaryDirectory() as folder:
        folder = pathlib.Path(folder)
        plain = build(folder)
        print(f"| {' | '.join(HEADS)} |\n|{'---|' * len(HEADS)}")
        names = options.names or TRIED
        return max([measured(name, folder, options.program, plain) for name in names])


if __name__ == "__main__":
    sys.exit(main())
