#!/usr/bin/env python3
"""Measures mode equal of circuit beside ABC's `cec`, and compares what they say.

    pairs.py [--runs N] [--program PATH] [NAME..]

It takes pairs of circuits of one function: two that are made (make_circuits.py), or one and what ABC makes of it. Both
programs run on each pair in turn, N times, and a table of the least times in milliseconds is printed, start and reading
included, with the status where circuit has no answer.
"""

import pathlib
import shutil
import subprocess
import sys
import tempfile

import make_circuits
import run

ABC = "berkeley-abc"
REWRITTEN = "strash; dch; balance; rewrite; refactor; balance"

# The second circuit of each pair that is made; of the others ABC makes it.
SECONDS = {"adder_16": "prefix_adder_16", "galois_8": "tower_8"}
FIRSTS = [
    "parity_62", "adder_16", "shifter_32", "crc32_62", "galois_8", "galois_16", "galois_31", "keccak_chi", "aes_box",
    "multiplier_6", "ones_32", "comparator_16",
]  # fmt: skip


def abc(script, folder):
    return subprocess.run([ABC, "-q", script], cwd=folder, capture_output=True, text=True, check=True).stdout


def main():
    parser = run.arguments("circuit")
    run.add_names(parser, make_circuits.CIRCUITS)
    options = parser.parse_args()
    if not shutil.which(ABC):
        sys.exit(f"{ABC} is not installed: nothing is measured")
    print("| first | second | gates | circuit equal | cec |\n|---|---|---|---|---|")
    with tempfile.TemporaryDirectory() as folder:
        return max([measured(name, pathlib.Path(folder), options) for name in options.names or FIRSTS])


def measured(name, folder, options):
    """Prints the line of a pair, and answers the status of the measurement: circuit is to say that it is one function,
    as ABC does, or nothing."""
    first, second, both = (folder / it for it in ("first.aig", "second.aig", "both.aig"))
    circuit = make_circuits.CIRCUITS[name]()
    first.write_bytes(circuit.binary())
    if name in SECONDS:
        second.write_bytes(make_circuits.CIRCUITS[SECONDS[name]]().binary())
    else:
        abc(f"read_aiger first.aig; {REWRITTEN}; write_aiger -s second.aig", folder)
    both.write_bytes(first.read_bytes() + second.read_bytes())
    check = f"cec -n {first} {second}"
    is_equal = "Networks are equivalent" in abc(check, folder)
    columns = [("circuit", [options.program, "equal"]), ("cec", [ABC, "-q", check])]
    times, results = run.measure(columns, both, options.runs)
    gates = " + ".join(it.read_bytes().split(b"\n")[0].split()[5].decode() for it in (first, second))
    cells = [run.cell(spent, result[2]) for spent, result in zip(times, results)]
    print(f"| `{name}` | {SECONDS.get(name, 'by ABC')} | {gates} | {' | '.join(cells)} |", flush=True)
    differs = not is_equal or results[0][2] not in (0, 5, run.LATE)
    return max(run.tell_killed(name, results), run.tell([name] if differs else [], "what is said differs"))


if __name__ == "__main__":
    sys.exit(main())
