#!/usr/bin/env python3
"""Measures batch on a stream of many small files beside a loop over interp, and compares what they answer.

    many.py [--files N] [--runs N] [--program PATH] [--batch PATH]

The files are made by a fixed rule: random points over 4 to 8 inputs, with 1 to 4 outputs. It prints the least time of
each way in milliseconds, of runs in turn, and fails where the answers differ.
"""

import argparse
import subprocess
import sys
import time

import make_files
import run


def small_file(number):
    """The text of one file."""
    return make_files.points(4 + 3 * (number % 5), 4 + number % 5, 1 + number % 4, number)


def loop(program, texts):
    """The blocks that batch is to write, by a process for each file."""
    blocks = []
    for number, text in enumerate(texts, 1):
        ended = subprocess.run([program, "anf"], input=text.encode(), capture_output=True, check=False)
        blocks.append(f"file {number} {ended.returncode}\n".encode() + ended.stdout)
    return b"".join(blocks)


def stream(batch, texts):
    """The blocks that batch writes, by one process."""
    return subprocess.run([batch, "anf"], input="".join(texts).encode(), capture_output=True, check=True).stdout


def main():
    parser = argparse.ArgumentParser()
    parser.add_argument("--files", type=int, default=2000)
    parser.add_argument("--runs", type=int, default=3)
    run.add_program(parser, "--program", "interp")
    run.add_program(parser, "--batch", "batch")
    options = parser.parse_args()
    texts = [small_file(number) for number in range(options.files)]
    times, answers = {}, {}
    for _ in range(options.runs):
        for name, way, program in (("loop", loop, options.program), ("batch", stream, options.batch)):
            begun = time.monotonic()
            answers[name] = way(program, texts)
            spent = (time.monotonic() - begun) * 1000
            times[name] = min(spent, times.get(name, spent))
    size = sum(map(len, texts))
    print(f"{options.files} files, {size} bytes: loop {times['loop']:.0f} ms, batch {times['batch']:.0f} ms")
    if answers["loop"] != answers["batch"]:
        print("what is answered differs", file=sys.stderr)
        return 1
    return 0


if __name__ == "__main__":
    sys.exit(main())
