#!/usr/bin/env python3
"""Proves and builds a program of this repository, and then runs it: for tools/run_proved, with the same words.

    first_run.py NAME CRATE MODES FILE [WORDS]

Crates that do not stand on each other are proved at the same time, as far as processors and memory allow. Those of one
time are proved in trees of their own outside the checkout, as one command of the toolchain keeps others from its crate
and from all below it. A tree has a copy of the sources and the libraries that were built. What was made there is given
its place in the checkout whole, by renaming it. So whoever ends this program leaves what was proved until then, and
nothing that is built in part.
"""
import contextlib
import fcntl
import glob
import hashlib
import os
import re
import shutil
import signal
import subprocess
import sys
import tempfile
import threading
import time
from concurrent.futures import FIRST_COMPLETED, ThreadPoolExecutor, wait

TOP = os.path.dirname(os.path.dirname(os.path.realpath(__file__)))
FAILED = 70
PARTS = ("src", "specs", "proofs")
BUILT = ("incremental", "rlib")
# How the names of folders begin that are for the time of a build.
ROOM = "first-run-"
MOST_JOBS = 4
# What a check takes at the most, as seen on the largest crates with one job, in bytes.
MEMORY_OF_A_JOB = 2_000_000_000


class Failed(Exception):
    """The program could not be proved and built."""


def crates_below(text):
    """Returns the crates of such a crates.txt, each with those that it stands on, lowest first."""
    rows = dict(re.findall(r"(?m)^(\w+)[^:#\n]*:([^#\n]*)", text))
    found = {}

    def add(crate):
        if crate not in found:
            deps = [it for it in rows[crate].split() if it in rows]
            found[crate] = list(dict.fromkeys(below for it in deps for below in [*add(it), it]))
        return found[crate]

    for crate in rows:
        add(crate)
    return found


def read(file):
    with contextlib.suppress(OSError), open(file, encoding="utf-8") as it:
        return it.read()
    return ""


def jobs_at_once():
    """Returns how many jobs processors and memory allow, also by the limits of the control group."""
    processors = len(os.sched_getaffinity(0))
    free = 1024 * int(re.search(r"MemAvailable:\s+(\d+)", read("/proc/meminfo"))[1])
    quota = re.match(r"(\d+) (\d+)", read("/sys/fs/cgroup/cpu.max"))
    if quota:
        processors = min(processors, int(quota[1]) // int(quota[2]))
    limit, held = read("/sys/fs/cgroup/memory.max").strip(), read("/sys/fs/cgroup/memory.current").strip()
    if limit.isdigit() and held.isdigit():
        free = min(free, int(limit) - int(held))
    return max(1, min(processors, free // MEMORY_OF_A_JOB))


def size_of(folder):
    return sum(os.path.getsize(f"{at}/{name}") for at, _, names in os.walk(folder) for name in names)


def link_or_copy(one, other):
    """Gives a file another name. The toolchain makes such files anew and never writes into one; of what a check kept
    this holds of the proofs alone."""
    if "/incremental/" in one and not one.endswith(".oantt"):
        return shutil.copy2(one, other)
    try:
        return os.link(one, other)
    except OSError:
        return shutil.copy2(one, other)


def put(folder, to):
    """Gives a folder another place, which has it whole or not at all."""
    room = tempfile.mkdtemp(prefix=ROOM, dir=os.path.dirname(to))
    try:
        shutil.copytree(folder, f"{room}/new", copy_function=link_or_copy)
        if os.path.isdir(to):
            os.rename(to, f"{room}/old")
        os.rename(f"{room}/new", to)
    finally:
        shutil.rmtree(room, ignore_errors=True)


@contextlib.contextmanager
def if_free(folder):
    """Keeps other commands of the toolchain out of a crate, and gives whether none is at work there."""
    handle = os.open(folder, os.O_RDONLY)
    try:
        fcntl.flock(handle, fcntl.LOCK_EX | fcntl.LOCK_NB)
        yield True
    except BlockingIOError:
        yield False
    finally:
        os.close(handle)


class Progress:
    """Says on standard error how far the build is: on a terminal in a line that is rewritten, else in one a crate."""

    def __init__(self, name, total):
        self.name, self.total, self.begun = name, total, time.monotonic()
        self.proved, self.functions, self.within = 0, {}, {}
        self.is_terminal = sys.stderr.isatty()

    def begin(self, crate):
        self.within[crate], self.functions[crate] = "", 0
        if not self.is_terminal:
            self.tell()

    def hear(self, crate, line):
        """Takes a line of the toolchain, which tells now and then how many functions of the crate were checked, and
        names all of them once the crate is proved."""
        so_far = re.match(r"(?:so far: |checked .*, )(\d+ of \d+)\b", line)
        if so_far:
            self.within[crate] = so_far[1]
        self.functions[crate] += bool(re.match(r"fn \S+: proved", line))

    def end(self, crate):
        del self.within[crate]
        self.proved += 1

    def tell(self):
        minutes, seconds = divmod(int(time.monotonic() - self.begun), 60)
        crates = [f"{it} ({so_far} functions)" if so_far else it for it, so_far in list(self.within.items())]
        proved = f"{self.proved} of {self.total} crates and {sum(self.functions.values())} functions proved"
        text = f"{self.name}: {proved} in {minutes} min {seconds} s; now {', '.join(crates)}"
        if self.is_terminal:
            width = os.get_terminal_size(sys.stderr.fileno()).columns or 80
            text = f"\r\033[K{text[: width - 1]}"
        print(text, end="" if self.is_terminal else "\n", file=sys.stderr, flush=True)

    def clear(self):
        if self.is_terminal:
            print("\r\033[K", end="", file=sys.stderr, flush=True)


class Build:
    """A build of a program in the folder `room`, which has its sources as they stand when it begins, and the trees."""

    def __init__(self, name, program, trial, room):
        self.name, self.program, self.trial, self.room = name, program, trial, room
        self.begun = time.time()
        text = read(f"{TOP}/crates.txt")
        every = crates_below(text)
        self.below = {it: every[it] for it in [*every[program], program]}
        self.rows = [it for it in text.splitlines(True) if re.match(r"\w*", it)[0] in self.below]
        for crate in self.below:
            for part in PARTS:
                if os.path.isdir(f"{TOP}/crates/{crate}/{part}"):
                    shutil.copytree(f"{TOP}/crates/{crate}/{part}", f"{room}/sources/{crate}/{part}")
        self.libraries, self.running, self.is_over = {}, set(), threading.Event()
        self.progress = Progress(name, len(self.below))

    def lengths_behind(self):
        """Returns for each crate the length of the longest chain of crates, from it on, that wait for each other."""
        found = {}
        for crate in reversed(self.below):
            above = [found[it] for it in found if crate in self.below[it]]
            found[crate] = size_of(f"{self.room}/sources/{crate}") + max(above, default=0)
        return found

    def lay_out(self, tree, crate):
        """Brings the crate's libraries, and what was kept of it in the checkout, to a tree, and returns its folder."""
        if not os.path.isdir(tree):
            shutil.copytree(f"{self.room}/sources", f"{tree}/crates", copy_function=link_or_copy)
            with open(f"{tree}/crates.txt", "w", encoding="utf-8") as it:
                it.writelines(self.rows)
        for it in self.below[crate]:
            library = f"{tree}/crates/{it}/out/rlib"
            if not os.path.isdir(library):
                shutil.copytree(self.libraries[it], library, copy_function=link_or_copy)
        kept, to = f"{TOP}/crates/{crate}/out", f"{tree}/crates/{crate}/out"
        os.mkdir(to)
        for part in BUILT:
            try:
                if os.path.isdir(f"{kept}/{part}"):
                    shutil.copytree(f"{kept}/{part}", f"{to}/{part}", copy_function=link_or_copy)
            except (OSError, shutil.Error):
                # (another command may write what this one copies)
                shutil.rmtree(f"{to}/{part}", ignore_errors=True)
        for name in self.of_program(crate):
            if os.path.isfile(f"{kept}/{name}"):
                shutil.copy2(f"{kept}/{name}", f"{to}/{name}")
        return f"{tree}/crates/{crate}"

    def of_program(self, crate):
        """Returns the files of the crate's out/ that are the program and tell of what it was built, if it is one."""
        return (crate, f"{crate}.stamp") if crate == self.program else ()

    def prove(self, crate, tree, flags):
        """Proves and builds a crate in a tree, and gives what was made its place."""
        folder = self.lay_out(tree, crate)
        words, given = ["rt", "lib", *flags], os.devnull
        if crate == self.program:
            mode, given = self.trial
            words = ["rt", "run", *flags, "--", mode]
        with open(given, "rb") as source:
            how = {"cwd": folder, "stdin": source, "stdout": subprocess.PIPE, "stderr": subprocess.STDOUT}
            ran = subprocess.Popen(words, encoding="utf-8", errors="replace", **how)
        self.running.add(ran)
        if self.is_over.is_set():
            ran.kill()
        said = []
        with ran:
            for line in ran.stdout:
                said.append(line)
                self.progress.hear(crate, line)
        self.running.discard(ran)
        if ran.returncode:
            raise Failed("".join(said))
        self.give_place(crate, f"{folder}/out")
        self.libraries[crate] = f"{folder}/out/rlib"

    def give_place(self, crate, made):
        to = f"{TOP}/crates/{crate}/out"
        os.makedirs(to, exist_ok=True)
        is_same = read(f"{made}/rlib/stamp") == read(f"{to}/rlib/stamp") != ""
        with if_free(os.path.dirname(to)) as is_free:
            for part in BUILT if is_free and not is_same else ():
                if os.path.isdir(f"{made}/{part}"):
                    put(f"{made}/{part}", f"{to}/{part}")
        for name in self.of_program(crate):
            shutil.copy2(f"{made}/{name}", f"{to}/{name}.new")
            # (a source that was changed since then is newer)
            os.utime(f"{to}/{name}.new", (self.begun, self.begun))
            os.replace(f"{to}/{name}.new", f"{to}/{name}")

    def run(self):
        """Proves all crates, each once those below it are proved, first those on the longest chain. A crate gets the
        jobs that no other waits for; where it is alone the toolchain chooses how many."""
        behind, proved, running, jobs_free = self.lengths_behind(), set(), {}, jobs_at_once()
        left = sorted(self.below, key=lambda it: -behind[it])
        trees = [f"{self.room}/{number}" for number in range(jobs_free)]
        with ThreadPoolExecutor(jobs_free) as pool:
            try:
                while left or running:
                    ready = [it for it in left if proved.issuperset(self.below[it])]
                    is_alone = not running and len(ready) == 1
                    for at, crate in enumerate(ready[:jobs_free]):
                        jobs = max(1, min(MOST_JOBS, jobs_free // (len(ready) - at)))
                        jobs_free -= jobs
                        left.remove(crate)
                        self.progress.begin(crate)
                        tree, flags = trees.pop(), [] if is_alone else ["--jobs", str(jobs)]
                        running[pool.submit(self.prove, crate, tree, flags)] = crate, tree, jobs
                    for it in wait(running, timeout=1, return_when=FIRST_COMPLETED).done:
                        it.result()
                        crate, tree, jobs = running.pop(it)
                        proved.add(crate)
                        trees.append(tree)
                        jobs_free += jobs
                        self.progress.end(crate)
                    if self.progress.is_terminal:
                        self.progress.tell()
            finally:
                self.is_over.set()
                for it in list(self.running):
                    it.kill()
                self.progress.clear()


def become(*words):
    """Goes on as tools/run_proved, with the signals that Python ignores as they were."""
    for it in (signal.SIGPIPE, signal.SIGXFSZ):
        signal.signal(it, signal.SIG_DFL)
    os.execv(f"{TOP}/tools/run_proved", [f"{TOP}/tools/run_proved", *words])


def new_room():
    """Returns the folder for builds of this checkout, empty, and removes what one that was killed left elsewhere."""
    for it in glob.glob(f"{TOP}/crates/*/out/{ROOM}*"):
        shutil.rmtree(it, ignore_errors=True)
    room = f"{tempfile.gettempdir()}/{ROOM}{os.getuid()}-{hashlib.sha256(TOP.encode()).hexdigest()[:16]}"
    shutil.rmtree(room, ignore_errors=True)
    os.mkdir(room, 0o700)
    return room


def main(words):
    name, crate, modes, file = words[:4]
    say = lambda text: print(f"{name}: {text}", file=sys.stderr, flush=True)
    if not shutil.which("rt"):
        say("the program is not built yet, and the command rt is missing, which proves and builds it:")
        say("rt is in the folder bin of the toolchain's kit (README.md, First run); add that folder to PATH")
        return FAILED
    try:
        os.makedirs(f"{TOP}/out", exist_ok=True)
        lock = open(f"{TOP}/out/first_run.lock", "w")
    except OSError as why:
        say(f"the program could not be proved and built: {why}")
        return FAILED
    with lock:
        try:
            fcntl.flock(lock, fcntl.LOCK_EX | fcntl.LOCK_NB)
        except BlockingIOError:
            say("another first run is at work in this checkout; waiting for it to end")
            fcntl.flock(lock, fcntl.LOCK_EX)
            become(*words)
        # (so that what is at work is ended too)
        for it in (signal.SIGTERM, signal.SIGINT, signal.SIGHUP):
            if signal.getsignal(it) != signal.SIG_IGN:
                signal.signal(it, lambda number, _: sys.exit(128 + number))
        try:
            room = new_room()
            try:
                build = Build(name, crate, (modes.split()[0], f"{TOP}/{file}"), room)
                say(f"proving and building the program first: {len(build.below)} crates (how long: see README.md)")
                build.run()
            finally:
                shutil.rmtree(room, ignore_errors=True)
        except (Failed, OSError, shutil.Error) as why:
            print(str(why).rstrip("\n"), file=sys.stderr)
            say("the program could not be proved and built")
            return FAILED
    become("--built", *words)


if __name__ == "__main__":
    sys.exit(main(sys.argv[1:]))
