"""Finding and running the proved programs, interp and nfq."""

import functools
import os
import pathlib
import re
import shutil
import signal
import subprocess
import threading
import time

# The environment variable that names each program.
VARIABLES = {"interp": "INTERP", "nfq": "NFQ"}
# A run of each program that ends well and says nothing on standard error: its word, and what it reads.
TRIALS = {"interp": ("check", b".i 1\n.o 1\n.type fr\n.e\nf1 = 0\n0 = 1\n"), "nfq": ("reduce", b".i 1\n.o 1\n.e\n")}
# What a run has in place of a status where its time was up, or its group was stopped.
TIMED_OUT = None


class ProgramMissing(Exception):
    """A program is not there, or cannot be run."""


class Run:
    """What a run gave: its status (TIMED_OUT where its time was up), its standard output as bytes, the text of its
    standard error, and how many seconds it took."""

    def __init__(self, status, output, errors, seconds):
        self.status, self.output, self.errors, self.seconds = status, output, errors, seconds

    @property
    def message(self):
        """The line of standard error that says why there is no answer, or an empty text."""
        lines = [line for line in self.errors.splitlines() if line.startswith(("interp:", "nfq:"))]
        return lines[-1] if lines else ""


class Group:
    """Runs that are ended together: those that are under way when it is stopped, and those that begin later. A group
    within another one is stopped with it."""

    def __init__(self, outer=None):
        self.lock = threading.Lock()
        self.processes, self.inner = set(), []
        self.stopped = False
        if outer is not None:
            outer.take_in(self)

    def take_in(self, group):
        """Stops a group whenever this one is stopped."""
        with self.lock:
            self.inner.append(group)
            stopped = self.stopped
        if stopped:
            group.stop()

    def begin(self, words):
        """Starts a process, or gives None where the group was stopped."""
        with self.lock:
            if self.stopped:
                return None
            process = subprocess.Popen(
                words, stdin=subprocess.PIPE, stdout=subprocess.PIPE, stderr=subprocess.PIPE, start_new_session=True
            )
            self.processes.add(process)
            return process

    def leave(self, process):
        with self.lock:
            self.processes.discard(process)

    def stop(self):
        """Ends all."""
        with self.lock:
            self.stopped = True
            for process in self.processes:
                kill(process)
            inner = list(self.inner)
        for group in inner:
            group.stop()


def find(name):
    """The path of a program: what its environment variable names, else the one beside this folder, else the one on
    PATH."""
    variable = VARIABLES[name]
    if os.environ.get(variable):
        found = shutil.which(os.environ[variable])
        if found is None:
            named = os.environ[variable]
            raise ProgramMissing(f"there is no program {named}, which the environment variable {variable} names")
        return found
    tools = pathlib.Path(__file__).resolve().parent.parent
    script = shutil.which(str(tools.parent / name)) if tools.name == "tools" else None
    if script is not None:
        build(name, pathlib.Path(script))
    found = script or shutil.which(name)
    if found is None:
        raise ProgramMissing(f"there is no program {name}: put it on PATH, or name it by the variable {variable}")
    return found


@functools.cache
def build(name, script):
    """Has the script of a program prove and build it, once, where this was not done yet or its sources are newer. It
    says on standard error how far it is, which takes minutes. Where the run is ended it is asked to end, and leaves
    what was proved."""
    if not re.search(rf'/run_proved" {name} \w+ ', script.read_text()):
        return
    word, data = TRIALS[name]
    with subprocess.Popen([script, word], stdin=subprocess.PIPE, stdout=subprocess.DEVNULL) as process:
        try:
            process.communicate(data)
        except BaseException:
            process.terminate()
            raise
    if process.returncode:
        raise ProgramMissing(f"{script} gave no program: what it said stands above")


def run(name, words, data=b"", seconds=None, group=None):
    """Runs a program with words on bytes. Where a number of seconds is given, it is ended when they are over."""
    path = find(name)
    group = Group() if group is None else group
    began = time.monotonic()
    try:
        process = group.begin([path, *words])
    except OSError as error:
        raise ProgramMissing(f"{path} cannot be run: {error.strerror}") from None
    if process is None:
        return Run(TIMED_OUT, b"", "", 0.0)
    try:
        output, errors = process.communicate(data, seconds)
        status = process.returncode
        if group.stopped and status == -signal.SIGKILL:
            status = TIMED_OUT
    except subprocess.TimeoutExpired:
        kill(process)
        process.communicate()
        output, errors, status = b"", b"", TIMED_OUT
    except BaseException:
        kill(process)
        process.communicate()
        raise
    finally:
        group.leave(process)
    return Run(status, output, errors.decode("utf-8", "replace"), time.monotonic() - began)


def kill(process):
    """Ends a process with all that it started."""
    try:
        os.killpg(process.pid, signal.SIGKILL)
    except ProcessLookupError:
        pass
