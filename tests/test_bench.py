"""What bench/ measures, and how a measurement ends that cannot be made. How fast anything is, is not tested."""

import hashlib
import os
import sys
import unittest.mock

from bench.make_circuits import CIRCUITS
from bench.make_files import FILES
from tests.harness import TOP, InFolder, installed, run
from tests.test_first_run import CRATES, Checkout

# Of each measurement words for a small one, and the scripts of the programs that it measures.
SMALL = [
    ("run.py", ["--runs", "2", "--workers", "1,2", "present_graph"], ["interp"]),
    ("many.py", ["--runs", "2", "--files", "3"], ["batch", "interp"]),
    ("pools.py", ["--runs", "1", "--workers", "2"], ["interp", "steal"]),
    ("circuits.py", ["--runs", "2", "present_box"], ["circuit"]),
    ("beside.py", ["--files", "1", "true"], ["interp"]),
    ("memory.py", ["--files", "1"], ["interp"]),
]

# The digests of what is measured. Where one changes, what bench/RESULTS.md has of it is measured again.
DIGESTS = {
    "files": "19ce98f5d145316c5bd1676510adf14c9c51240c26020a701ecdae1cb399a560",
    "circuits": "8ee98f58cbd02f0e3ce18903cb7ef7054dea5e10fd806b424924478dfb016b15",
    "random files": "2661cda610d56d48e3b6eb2acf372a7c228afaa885855f9a7581d390258d57a0",
}

# A program that takes processor time in so many steps, and one that takes much memory.
BUSY = "i=0; while [ $i -lt {steps} ]; do i=$((i+1)); done"
LARGE = "head -c 50000000 /dev/zero | tail -c 50000000 > /dev/null"


def digest(texts):
    return hashlib.sha256(b"".join(texts)).hexdigest()


class Measurements(InFolder):
    """Runs of the scripts, and of programs that stand for ours."""

    def test_programs_behind_scripts(self):
        """Where a script runs a program of its repository, this is what is measured, and it is built before."""
        checkout, other = Checkout(self.here, seconds=0), self.script("other", "")
        wanted = [other, *(str(checkout.program(name)) for name in CRATES)]
        line = "import run, sys; print(*map(run.program, sys.argv[1:]))"
        words = [sys.executable, "-c", line, other, *(checkout.top / name for name in CRATES)]
        ended = run(words, cwd=checkout.top / "bench", env=checkout.env)
        self.assertEqual((ended.status, ended.out.split()), (0, wanted), ended)
        for path in wanted:
            with self.case(path):
                self.assertTrue(os.access(path, os.X_OK))

    def test_programs_by_default(self):
        """Each measurement runs the script of each program once, which may build it, and then the program."""
        installed("time")
        checkout, started = Checkout(self.here, seconds=0), self.here / "started"
        for name in CRATES:
            text = (checkout.top / name).read_text()
            (checkout.top / name).write_text(text.replace("\n", f"\necho {name} >> '{started}'\n", 1))
        for name, words, scripts in SMALL:
            with self.case(name):
                started.write_text("")
                ended = run([sys.executable, checkout.top / "bench" / name, *words], env=checkout.env)
                self.assertEqual(sorted(started.read_text().split()), scripts, ended)
                self.assertNotIn("Traceback", ended.err)
                self.assertNotEqual(ended.out, "")

    def test_what_cannot_be_measured(self):
        """It is told, and the status is not 0."""
        killed = self.script("killed", "kill -9 $$")
        no_program = self.executable("no_program", "no program\n")
        cases = [
            ("run.py", ["none"], "none is none of points_16, "),
            ("looks.py", ["--program", killed, "none"], "none is none of points_16, "),
            ("circuits.py", ["--program", killed, "none"], "none is none of parity_32, "),
            ("pairs.py", ["--program", killed, "none"], "none is none of parity_32, "),
            ("run.py", ["--program", killed, "present_graph"], "present_graph: ended by signal 9\n"),
            ("circuits.py", ["--program", killed, "present_box"], "present_box: ended by signal 9\n"),
            ("memory.py", ["--program", killed, "--files", "1"], "Command terminated by signal 9\n"),
            ("run.py", ["--program", no_program, "present_graph"], f"{no_program} cannot be run: "),
            ("circuits.py", ["--program", no_program, "present_box"], f"{no_program} cannot be run: "),
        ]
        names = ("run.py", "memory.py", "circuits.py", "pairs.py")
        cases += [(name, ["--program", "/no/program"], "there is no program /no/program") for name in names]
        for name, words, said in cases:
            with self.case((name, words)):
                if name == "memory.py":
                    installed("time")
                ended = run([sys.executable, TOP / "bench" / name, *words])
                self.assertNotEqual(ended.status, 0)
                self.assertIn(said, ended.err)
                self.assertNotIn("Traceback", ended.err)

    def measure(self, name, *words):
        """How a measurement ends; what it says of programs that are not installed is left out."""
        ended = run([sys.executable, TOP / "bench" / name, *words])
        lines = [line for line in ended.err.splitlines(keepends=True) if "is not installed" not in line]
        return ended._replace(err="".join(lines))

    def python(self, line):
        """How a line of Python ends that uses the modules of bench/."""
        return run([sys.executable, "-c", line], cwd=self.here, env={**os.environ, "PYTHONPATH": TOP / "bench"})

    def test_what_differs(self):
        """Where programs print other bytes it is told, and the status is 1; where they do not it is 0.

        Without a compiler there is no BRiAl, whose answer would be another one.
        """
        one, other = self.script("one", "echo f = 0"), self.script("other", "echo f = 1")
        blocks = self.script("blocks", "for it in 1 2; do echo file $it 0; echo f = 0; done")
        words = self.script("words", 'echo "$@"')
        differs = "what is printed differs\n"
        cases = [
            ("run.py", ["--program", one, "--also", other, "--workers", "1", "adder_6"], f"adder_6: {differs}"),
            ("run.py", ["--program", one, "--also", one, "--workers", "1,2", "adder_6"], ""),
            ("run.py", ["--program", words, "--workers", "1,2", "adder_6"], f"adder_6: {differs}"),
            ("circuits.py", ["--program", one, "present_box"], ""),
            ("circuits.py", ["--program", words, "present_box"], f"present_box: {differs}"),
            ("pools.py", ["--program", one, "--steal", one, "--workers", "2"], ""),
            (
                "pools.py",
                ["--program", one, "--steal", other, "--workers", "2"],
                "".join(f"{it}: {differs}" for it in ("first", "middle", "last", "each eighth")),
            ),
            ("many.py", ["--program", one, "--batch", blocks, "--files", "2"], ""),
            ("many.py", ["--program", other, "--batch", blocks, "--files", "2"], "what is answered differs\n"),
        ]
        for name, line, said in cases:
            with self.case((name, line)):
                with unittest.mock.patch.dict(os.environ, PATH=str(self.here)):
                    ended = self.measure(name, *line, "--runs", "1")
                self.assertEqual((ended.status, ended.err), (int(said != ""), said))

    def test_slower(self):
        """A program that takes longer than the other one, and one that alone has no answer."""
        slow, fast = (self.script(name, BUSY.format(steps=steps)) for name, steps in (("slow", 60000), ("fast", 6000)))
        none = self.script("none", "exit 5")
        line = ["--files", "1", "--runs", "1"]
        with self.case("slower"):
            ended = self.measure("beside.py", fast, "--program", slow, *line)
            self.assertRegex(ended.err, r"^file 0, \w+, \w+: [\d.]+ and [\d.]+ ms: more than a twentieth longer\n$")
            self.assertEqual((ended.status, ended.out.split("|")[-2].strip()), (1, "1"))
        with self.case("faster"):
            ended = self.measure("beside.py", slow, "--program", fast, *line)
            self.assertEqual((ended.status, ended.err, ended.out.split("|")[-2].strip()), (0, "", "0"))
        for programs in ((fast, none), (none, fast)):
            with self.case(programs):
                ended = self.measure("beside.py", programs[0], "--program", programs[1], *line)
                self.assertRegex(ended.err, r"^file 0, \w+, \w+: one program alone has an answer\n$")
                self.assertEqual(ended.status, 1)

    def test_memory(self):
        """A run that takes more than four times the memory that the least table needs."""
        installed("time")
        for most, said in ((23, "--nodes 23: more than 4 times the memory of the least table\n"), (24, "")):
            path = self.script("program", f"[ $3 -lt 14 ] && exit 5; [ $3 -lt {most} ] || {LARGE}")
            with self.case(said or "as much as with the least table"):
                ended = self.measure("memory.py", "--program", path, "--files", "1")
                self.assertEqual((ended.status, ended.err.partition(", --")[2]), (int(said != ""), said[2:]))
                self.assertEqual(ended.out.split("|")[-2].strip(), "14")

    def test_runs(self):
        """The least time of each program counts, and what a signal ends, or takes too long, is not run again."""
        lines = {
            "first_is_slow": "[ -e slow ] || sleep 0.9; touch slow",
            "killed": "kill -9 $$",
            "late": "exec sleep 20",
        }
        columns = [(name, [self.script(name, f"echo {name} >> runs; {text}")]) for name, text in lines.items()]
        line = "import run; run.LIMIT = 2; times, results = run.measure({}, '/dev/null', 3); print(times[0] < 900)"
        line += "; print(*[run.cell(0.4, result[2]) for result in results], sep=', ')"
        ended = self.python(line.format(columns))
        self.assertEqual(tuple(ended), (0, "True\n0, 0, status -9, none in 2 s\n", ""))
        runs = (self.here / "runs").read_text().split()
        self.assertEqual({name: runs.count(name) for name in lines}, {"first_is_slow": 3, "killed": 1, "late": 1})

    def test_words_of_makers(self):
        """A maker of files takes the name of a folder, and by other words makes none."""
        for name in ("make_files.py", "make_circuits.py"):
            for words, status in ((["--help"], 0), ([], 2), (["one", "other"], 2), (["--other"], 2)):
                with self.case((name, words)):
                    ended = run([sys.executable, TOP / "bench" / name, *words], cwd=self.here)
                    self.assertEqual((ended.status, os.listdir(self.here)), (status, []), ended)
                    self.assertIn(f"usage: {name} [-h] folder\n", ended.out + ended.err)

    def test_files(self):
        """What is measured is the same on each machine."""
        line = "import pathlib, random_files; path = pathlib.Path('file.pla')"
        line += "; [print(*it, path.read_text()) for it in random_files.random_files(60, 1, path)]"
        texts = {
            "files": (make().encode() for _, make in FILES.values()),
            "circuits": (make().binary() for make in CIRCUITS.values()),
            "random files": [self.python(line).out.encode()],
        }
        for name, made in texts.items():
            with self.case(name):
                self.assertEqual(digest(made), DIGESTS[name])
