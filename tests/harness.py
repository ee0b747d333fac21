"""What all tests share: finding and running programs, how they ended, descriptions, calls that fail, counted cases.

A test that cannot run, as a program or a compiler is missing, is skipped with the reason: the functions here raise
unittest.SkipTest, which a test lets through.
"""

import array
import collections
import functools
import os
import pathlib
import re
import shutil
import subprocess
import sys
import tempfile
import threading
import unittest

TOP = pathlib.Path(__file__).resolve().parent.parent
EXAMPLES = TOP / "examples"

# A run that takes longer has no end.
SECONDS = 100

# The status by which the script of a program says that it could not be built.
NOT_BUILT = 70

# What each program says of wrong words. What steal says is what interp does.
USAGE = {
    "interp": "interp: usage: interp MODE [--workers N] [--nodes B] [--terms T] [--seed S] [--order NAMES]\n",
    "nfq": "nfq: usage: nfq reduce|union|meet\n",
    "circuit": "circuit: usage: circuit anf|basis|count|equal "
    "[--nodes B] [--terms T] [--order NAMES] [--care NAME] [--invert NAMES]\n",
    "batch": "batch: usage: batch anf|basis [--workers N] [--nodes B] [--terms T] [--order NAMES]\n",
}
USAGE["steal"] = USAGE["interp"]

# How a run ended: its status, which is negative where a signal ended it, and what it wrote, as text.
Ended = collections.namedtuple("Ended", "status out err")


# How many runs were started, which several threads may do.
started = collections.Counter()
counting = threading.Lock()


@functools.cache
def program(name):
    """The path of a program: the one that the environment names (INTERP for interp), or the one that is built here.

    The script of this name at the top builds it, where it is missing or older than its sources. A program without a
    script, or one that cannot be built for want of the toolchain, skips the test.
    """
    given = os.environ.get(name.upper())
    if given is not None:
        return str(pathlib.Path(given).resolve(strict=True))
    script = TOP / name
    if not script.is_file():
        raise unittest.SkipTest(f"there is no program {name}")
    crate, mode = re.search(r"/tools/run_proved\" \w+ (\w+) '(\w+)", script.read_text()).groups()
    # With nothing to read each program ends at once, as a description is missing.
    built = subprocess.run([script, mode], stdin=subprocess.DEVNULL, capture_output=True, text=True, check=False)
    if built.returncode == NOT_BUILT and not shutil.which("rt"):
        raise unittest.SkipTest(f"{name} is not built of its sources, and there is no toolchain to build it")
    if built.returncode == NOT_BUILT:
        raise RuntimeError(f"{name} could not be built: {built.stderr}")
    return str(TOP / "crates" / crate / "out" / crate)


def named_programs():
    """The variables of the environment by which the Python tools run the programs that are tried."""
    return {name.upper(): program(name) for name in ("interp", "nfq")}


def installed(name):
    """The path of a program of the system, such as a compiler; the test is skipped where there is none."""
    path = shutil.which(name)
    if path is None:
        raise unittest.SkipTest(f"{name} is not installed")
    return path


def run(words, text=None, **how):
    """Runs the words, and answers how this ended.

    The text, bytes or a string, stands in a file that is the standard input. Where there is none, the input is empty,
    or the one that `how` gives: these are the arguments of subprocess.run, as `env`, `cwd`, `preexec_fn` and
    `timeout`.
    """
    if text is not None:
        with open(os.memfd_create("input"), "w+b") as file:
            file.write(text.encode() if isinstance(text, str) else text)
            file.seek(0)
            return run(words, None, **how, stdin=file)
    with counting:
        started["runs"] += 1
    piped = {"stdin": subprocess.DEVNULL, "stdout": subprocess.PIPE, "stderr": subprocess.PIPE, "timeout": SECONDS}
    how = {**piped, **how}
    try:
        ended = subprocess.run([str(word) for word in words], check=False, **how)
    except subprocess.TimeoutExpired:
        return Ended(f"no end within {how['timeout']} s", "", "")
    return Ended(ended.returncode, text_of(ended.stdout), text_of(ended.stderr))


def text_of(written):
    """What a program wrote, as text; bytes that are none stand as escapes."""
    return (written or b"").decode(errors="backslashreplace")


def answer(words, text=None, **how):
    """The lines that a run prints, which must end well."""
    ended = run(words, text, **how)
    if ended.status != 0:
        raise AssertionError(f"{' '.join(map(str, words))}: {ended}")
    return ended.out.splitlines()


def description(inputs, outputs, kind, rows, names=None, results=None, end=".e"):
    """The text of a file, a string.

    A row is a line, or a pair: the symbols of its inputs and those of its outputs. `kind` is the type, and None leaves
    its line out. `names` and `results` are the names of the inputs and of the outputs, if they have some. `end` is the
    last line, and None leaves it out.
    """
    lines = [f".i {inputs}", f".o {outputs}"]
    lines += [f".ilb {' '.join(names)}"] if names else []
    lines += [f".ob {' '.join(results)}"] if results else []
    lines += [f".type {kind}"] if kind else []
    lines += [row if isinstance(row, str) else " ".join(row) for row in rows]
    lines += [end] if end else []
    return "".join(f"{line}\n" for line in lines)


# Which calls are met, and what becomes of them: see faults.c. `call` is alloc, block, read, write or thread, `fd` the
# descriptor of reads and writes, `first` and `last` count the calls from 1, and `how` is fail, interrupt, short or
# pass.
Fault = collections.namedtuple("Fault", "call fd first last how")

# The number of the last call, where all of them are met from some call on.
ALL = 2**40


class Faults:
    """The library of faults.c, which is loaded before a program and has calls of it fail."""

    def __init__(self):
        if sys.platform != "linux":
            raise unittest.SkipTest("calls are made to fail on Linux alone")
        compiler = next((name for name in ("cc", "gcc", "clang") if shutil.which(name)), None)
        if compiler is None:
            raise unittest.SkipTest("no compiler for C is installed")
        self.folder = tempfile.TemporaryDirectory()
        self.path = pathlib.Path(self.folder.name) / "faults.so"
        source = TOP / "tests/faults.c"
        words = [compiler, "-O1", "-Wall", "-Werror", "-shared", "-fPIC", source, "-o", self.path]
        subprocess.run(words, check=True)

    def meet(self, words, text, fault, **how):
        """Runs the words on a text, and answers how this ended and the bytes that each call asked for that was met."""
        with open(os.memfd_create("met"), "r+b") as met:
            given = {
                **how.pop("env", os.environ),
                "LD_PRELOAD": str(self.path),
                "FAULT_CALL": fault.call,
                "FAULT_FD": str(fault.fd),
                "FAULT_FIRST": str(fault.first),
                "FAULT_LAST": str(fault.last),
                "FAULT_HOW": fault.how,
                "FAULT_TELL": str(met.fileno()),
            }
            ended = run(words, text, **how, env=given, pass_fds=(met.fileno(),))
            return ended, array.array("Q", met.read())

    def count(self, words, text, fault, **how):
        """The same, and how many calls were met."""
        ended, sizes = self.meet(words, text, fault, **how)
        return ended, len(sizes)

    def run(self, words, text, fault, **how):
        """The same, and whether a call was met."""
        ended, count = self.count(words, text, fault, **how)
        return ended, count > 0


@functools.cache
def faults():
    """The library, which is built once; the test is skipped where this cannot be."""
    return Faults()


class Test(unittest.TestCase):
    """Tests whose cases are counted: how many there were is told behind the last test of a class, and how many runs."""

    maxDiff = None

    @classmethod
    def setUpClass(cls):
        cls.cases = 0
        cls.runs_before = started["runs"]

    @classmethod
    def tearDownClass(cls):
        runs = started["runs"] - cls.runs_before
        print(f"{cls.__module__}.{cls.__qualname__}: {cls.cases} cases, {runs} runs", file=sys.stderr, flush=True)

    def case(self, what):
        """The context of a case, which is named: where it fails this is told, and the cases behind it are tried too."""
        type(self).cases += 1
        return self.subTest(what)


class InFolder(Test):
    """Tests of which each has a folder of its own, `here`."""

    def setUp(self):
        folder = tempfile.TemporaryDirectory()
        self.addCleanup(folder.cleanup)
        self.here = pathlib.Path(folder.name)

    def executable(self, name, text):
        """The path of a program in the folder, which has this text."""
        path = self.here / name
        path.write_text(text)
        path.chmod(0o755)
        return str(path)

    def script(self, name, lines):
        """The path of a program in the folder, which has a shell run these lines."""
        return self.executable(name, f"#!/bin/sh\n{lines}\n")
