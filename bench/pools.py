#!/usr/bin/env python3
"""Measures steal beside interp on files one of whose outputs costs a hundred times what each other one does.

    pools.py [--runs N] [--workers N,N..] [--program PATH] [--steal PATH]

The files are made by a fixed rule: random points, all of which have a value for the great output, and few for the
others. It stands first, in the middle or last; in a fourth file each eighth output is great, so that by deques the first
of two, four or eight workers is dealt all of them. Both programs run in turn; the table has the least time of each in
milliseconds, start and reading included. It fails where they print different bytes.
"""

import argparse
import pathlib
import sys
import tempfile

import make_files
import run

INPUTS = 24
OUTPUTS = 32
POINTS = 4096
# How many points the other outputs have a value at.
FEW = 60

PLACES = {
    "first": [0],
    "middle": [OUTPUTS // 2],
    "last": [OUTPUTS - 1],
    "each eighth": range(0, OUTPUTS, 8),
}


def uneven(places):
    """Random points, whose values the outputs at these places have, and the others for the first few."""
    draws = make_files.Draws(1)
    rows = []
    for number in range(POINTS):
        values = list(make_files.drawn_bits(draws, OUTPUTS) if number < FEW else "-" * OUTPUTS)
        for place in places:
            values[place] = draws.one_of("01")
        rows.append((make_files.drawn_bits(draws, INPUTS), "".join(values)))
    # A point that was drawn before would contradict.
    return make_files.description(INPUTS, OUTPUTS, "fr", list(dict(reversed(rows)).items()))


def main():
    parser = argparse.ArgumentParser()
    parser.add_argument("--runs", type=int, default=5)
    parser.add_argument("--workers", default="2,4,8,16")
    run.add_program(parser, "--program", "interp")
    run.add_program(parser, "--steal", "steal")
    options = parser.parse_args()
    programs = {"interp": options.program, "steal": options.steal}
    columns = [
        (f"{name}, {workers}", [path, "anf", "--workers", workers])
        for workers in options.workers.split(",")
        for name, path in programs.items()
    ]
    worst = 0
    print(f"| great outputs | mode | {' | '.join(name for name, _ in columns)} | MB | bytes |")
    print(f"|{'---|' * (len(columns) + 4)}")
    with tempfile.TemporaryDirectory() as folder:
        for name, places in PLACES.items():
            path = pathlib.Path(folder) / "uneven.pla"
            path.write_text(uneven(places))
            worst = max(worst, run.row(name, "anf", *run.measure(columns, path, options.runs)))
    return worst


if __name__ == "__main__":
    sys.exit(main())
