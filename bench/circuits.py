#!/usr/bin/env python3
"""Measures circuit beside BRiAl, and compares what they print.

    circuits.py [--runs N] [--program PATH] [NAME..]

It makes the circuits (make_circuits.py) in the ASCII form, runs both programs on each in turn, N times, in mode anf,
and prints a table: the least time of each in milliseconds, start and reading included, the peak memory of circuit,
which is that of this script at the least, and the answer's bytes. BRiAl finds the polynomials gate by gate, and takes
three gates that make an exclusive or or a multiplexer as one, as circuit does.
"""

import pathlib
import sys
import tempfile

import brial
import make_circuits
import run


def main():
    parser = run.arguments("circuit")
    run.add_names(parser, make_circuits.CIRCUITS)
    options = parser.parse_args()
    with tempfile.TemporaryDirectory() as folder:
        folder = pathlib.Path(folder)
        driver = brial.driver(folder)
        columns = [("circuit", [options.program, "anf"]), ("circuit, 23", [options.program, "anf", "--nodes", "23"])]
        columns += [("BRiAl", [str(driver), "gates"])] if driver else []
        heads = " | ".join(name for name, _ in columns)
        print(f"| circuit | inputs | gates | {heads} | MB | bytes |\n|{'---|' * (len(columns) + 5)}")
        names = options.names or make_circuits.CIRCUITS
        return max([measured(name, folder, columns, options.runs) for name in names])


def measured(name, folder, columns, runs):
    """Prints the line of a circuit, and answers the status of the measurement."""
    made = make_circuits.CIRCUITS[name]()
    path = folder / f"{name}.aag"
    path.write_text(made.ascii())
    times, results = run.measure(columns, path, runs)
    cells = [f"`{name}`", len(made.names), len(made.gates)]
    cells += [run.cell(spent, result[2]) for spent, result in zip(times, results)]
    cells += [f"{results[0][1] / 1024:.0f}", max(result[3] for result in results)]
    print(f"| {' | '.join(map(str, cells))} |", flush=True)
    return max(run.tell_killed(name, results), run.tell_different(name, results))


if __name__ == "__main__":
    sys.exit(main())
