#!/usr/bin/env python3
"""What a run costs: minutes on the clock and of processors, by its parts.

    .ci/costs.py PID        PID: the process whose children are the parts; it ends this program by SIGTERM

It looks at the processes below that one twice a second, and prints a table once it is told to end. Where the process
ended without a word it prints nothing. It changes nothing, and its own time is in the last part.

A process adds its own time to the part that it belongs to. What it did after the last look at it, and what was never
seen, is in the sum that its parent has of children that ended: from there each part gets it, so the whole is right.
"""
import os
import re
import signal
import sys
import threading
import time
from collections import defaultdict
from typing import NamedTuple

EVERY = 0.5
TICKS = os.sysconf("SC_CLK_TCK")
GATE = "rt ci"
PROOFS, TESTS, READY, EDITS, BUILDS, RUNS, OTHERS = (
    "rt ci: proofs",
    "rt ci: tests",
    "rt ci: what edits begin with",
    "rt ci: must-fail edits",
    "rt ci: builds",
    "rt ci: runs of programs and tests",
    "all else",
)
BUILDERS = ("clang", "ld", "ld.lld", "lld", "rattle-link", "rattle-x64")
# A word of a command that names a file of the repository, or a module of it.
NAMED = re.compile(r"(?!python)[\w.]*\w[./]\w")


class Process(NamedTuple):
    parent: int
    begun: int
    own: int
    ended: int
    """The time of its children that ended, with theirs."""


def processes():
    """Returns each process there is, by its number."""
    found = {}
    for name in os.listdir("/proc"):
        if name.isdigit():
            try:
                with open(f"/proc/{name}/stat", encoding="utf-8", errors="replace") as file:
                    # (the name in brackets may have blanks and brackets)
                    words = file.read().rpartition(")")[2].split()
            except OSError:
                continue
            own, ended = int(words[11]) + int(words[12]), int(words[13]) + int(words[14])
            found[int(name)] = Process(int(words[1]), int(words[19]), own, ended)
    return found


def words_of(number):
    try:
        with open(f"/proc/{number}/cmdline", encoding="utf-8", errors="replace") as file:
            return file.read().rstrip("\0").split("\0")
    except OSError:
        return [""]


def folder_of(number):
    try:
        return os.readlink(f"/proc/{number}/cwd")
    except OSError:
        return ""


def label(words):
    """Returns what the table calls a command: the first file or module that it names, or its last two words."""
    return next(filter(NAMED.match, words), None) or " ".join(os.path.basename(it) for it in words[-2:])


def part_in_gate(number, words):
    """Returns the part of `rt ci` that a command belongs to, or None where that is the part of its parent."""
    command = os.path.basename(words[0])
    if command in BUILDERS:
        return BUILDS
    if command == "rattle-test" or words[0].startswith("/tmp/rt-run-"):
        return RUNS
    if command != "rattle" or words[1:2] not in (["check"], ["build"]):
        return None
    over = words[words.index("--incremental") + 1] if "--incremental" in words[:-1] else ""
    if os.path.basename(folder_of(number)).startswith("rt-edit-"):
        return READY if over.endswith("/seed") else EDITS
    if "--crate-checked" in words:
        return BUILDS
    return TESTS if "--test" in words else PROOFS


class Costs:
    """What the parts below a process cost."""

    def __init__(self, root):
        self.root, self.begin = root, time.monotonic()
        self.known, self.parts = {}, {root: OTHERS}
        self.clock, self.ticks = defaultdict(float), defaultdict(float)
        # What was seen of children that ended, by the parent whose sum did not have it yet.
        self.early = {}
        self.last = self.begin

    def part(self, number, process):
        above = self.parts[process.parent]
        words = words_of(number)
        if words == [""]:
            # (it has ended)
            return self.parts.get(number, above)
        if process.parent == self.root or "unittest" in words[:3]:
            # (bash copies itself before it starts a command)
            return OTHERS if words == words_of(self.root) else label(words)
        return part_in_gate(number, words) or above if above.startswith(GATE) else above

    def below(self, every):
        """Returns the processes at and below the root, each after its parent."""
        children = defaultdict(list)
        for number, process in every.items():
            if number != os.getpid():
                children[process.parent].append(number)
        found = [self.root]
        for number in found:
            found += children[number]
        return {number: every[number] for number in found}

    def look(self):
        """Adds what was done since the last look, and returns whether the root is still there."""
        every = processes()
        if self.root not in every:
            return False
        live, now = self.below(every), time.monotonic()
        for number, process in live.items():
            if number != self.root:
                self.parts[number] = self.part(number, process)
        gone = {it: was for it, was in self.known.items() if it not in live or live[it].begun != was.begun}
        early, self.early = self.early, {}
        for number, process in live.items():
            was = self.known[number] if number in self.known and number not in gone else Process(0, 0, 0, 0)
            self.ticks[self.parts[number]] += process.own - was.own
            self.add_ended(number, process.ended - was.ended, gone, early)
        for part in {self.parts[it] for it in live}:
            self.clock[part] += now - self.last
        self.known, self.last = live, now
        return True

    def add_ended(self, number, ticks, gone, early):
        """Adds the time of children that ended, so far as it was not seen, to their parts, else to their parent's."""
        children = [it for it, was in gone.items() if was.parent == number]
        below = list(children)
        for it in below:
            below += [other for other, was in gone.items() if was.parent == it]
        seen = sum(gone[it].own + gone[it].ended + early.get(it, 0) for it in below)
        seen += 0 if number in gone else early.get(number, 0)
        self.early[number] = max(0, seen - ticks)
        for it in children or [number]:
            self.ticks[self.parts[it]] += max(0, ticks - seen) / len(children or [number])

    def table(self):
        """Returns the lines of the table: the parts of `rt ci`, then the others as they came, and the sum."""
        own = os.times()
        self.ticks[OTHERS] += TICKS * (own.user + own.system)
        first = [it for it in (PROOFS, TESTS, READY, EDITS, BUILDS, RUNS, GATE) if it in self.ticks]
        rest = [it for it in self.ticks if it not in first and it != OTHERS]
        named = {GATE: f"{GATE} itself"}
        rows = [(named.get(it, it), self.clock[it], self.ticks[it] / TICKS) for it in [*first, *rest]]
        rows.append((OTHERS, None, self.ticks[OTHERS] / TICKS))
        rows.append(("together", self.last - self.begin, sum(self.ticks.values()) / TICKS))
        width = max(len(name) for name, _, _ in rows)
        yield f"== {'minutes':{width}}  on the clock  of processors"
        for name, clock, used in rows:
            yield f"   {name:{width}}  {minutes(clock):>12}  {minutes(used):>13}"


def minutes(seconds):
    return "" if seconds is None else f"{seconds / 60:.2f}"


def main():
    told = threading.Event()
    signal.signal(signal.SIGTERM, lambda *_: told.set())
    # (whoever stops the run by Ctrl-C wants the table too)
    signal.signal(signal.SIGINT, signal.SIG_IGN)
    costs = Costs(int(sys.argv[1]))
    while costs.look() and not told.wait(EVERY):
        pass
    if told.is_set() and costs.look():
        print("\n".join(costs.table()), flush=True)


if __name__ == "__main__":
    main()
