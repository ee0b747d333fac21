#!/usr/bin/env python3
"""Runs the tests of the built programs, each file of `tests/` in a process of its own.

    .ci/tests.py            its status is 1 where a test failed

Files that look at the clock run first and alone, all others side by side, as many as there are processors. What a file
prints stands together.
"""
import os
import pathlib
import subprocess
import sys
from concurrent.futures import ThreadPoolExecutor

TOP = pathlib.Path(__file__).resolve().parent.parent
TIMED = ("test_batch", "test_first_run", "test_query_limits")


def passes(name):
    """Runs the tests of one file, and answers whether they passed."""
    words = [sys.executable, "-m", "unittest", "-v", f"tests/{name}.py"]
    ended = subprocess.run(
        words, cwd=TOP, stdout=subprocess.PIPE, stderr=subprocess.STDOUT, text=True, errors="replace", check=False
    )
    print(f"== tests/{name}.py\n{ended.stdout}", end="", flush=True)
    return ended.returncode == 0


def main():
    others = [it.stem for it in sorted((TOP / "tests").glob("test_*.py")) if it.stem not in TIMED]
    passed = [passes(name) for name in TIMED]
    with ThreadPoolExecutor(os.cpu_count()) as pool:
        passed += pool.map(passes, others)
    sys.exit(not all(passed))


if __name__ == "__main__":
    main()
