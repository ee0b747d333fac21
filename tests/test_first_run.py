"""The first run of a program: what is answered before anything is built, and how it is built.

Nothing is proved here: a command that plays `rt` makes what the toolchain would make.
"""

import contextlib
import os
import pathlib
import pty
import re
import shutil
import signal
import subprocess
import sys
import tempfile
import time
import unittest

from tests.harness import TOP, USAGE, Test, program, run

# What the script of a program adds to what this says of wrong words.
ADVICE = {
    "interp": "interp reads standard input: interp anf < file.pla\n",
    "nfq": "nfq reads standard input: nfq reduce < file.pla\n",
    "circuit": "circuit reads standard input: circuit anf < file.aag\n",
    "batch": "batch reads standard input: batch anf < file.pla\n",
}
# What steal says is what interp does.
ADVICE["steal"] = ADVICE["interp"]
REFUSED = [
    ("interp", []),
    ("interp", [""]),
    ("interp", ["--help"]),
    ("interp", ["-h"]),
    ("interp", ["anf", "--help"]),
    ("interp", ["solve"]),
    ("interp", ["file.pla"]),
    ("interp", ["anf", "file.pla"]),
    ("interp", ["anf", "values.pla"]),
    ("interp", ["file.pla", "anf"]),
    ("interp", ["--nodes", "anf"]),
    ("interp", ["anf", "anf"]),
    ("nfq", []),
    ("nfq", ["--help"]),
    ("nfq", ["anf"]),
    ("nfq", ["reduce", "file.pla"]),
    ("circuit", ["--help"]),
    ("circuit", ["check"]),
    ("batch", ["check"]),
    ("steal", ["--help"]),
    ("steal", ["anf", "file.pla"]),
]
TAKEN = [
    ("interp", ["anf"]),
    ("interp", ["--nodes", "5", "basis", "--order=a,b"]),
    ("interp", ["check", "--order", "--help"]),
    ("interp", ["--", "gen"]),
    ("nfq", ["reduce"]),
    ("nfq", ["union"]),
    ("nfq", ["meet"]),
    ("circuit", ["count", "--care", "f"]),
    ("steal", ["--nodes", "5", "basis"]),
]
CRATES = {"interp": "interp_main", "nfq": "nf_query", "circuit": "circuit_main", "batch": "batch_main", "steal": "steal_main"}

# It plays the command rt in the current folder, a crate: `rt lib` makes its library, and `rt run` its program, which
# prints its words, where it is not there or other sources were. That takes a while, and in the middle of it half of the
# file is there. RT_LOG has a line for each beginning, making and end; RT_STOPS names a crate where it fails.
PLAYED_RT = """#!{python} -IS
import os, sys, time
here = os.path.basename(os.getcwd())
def log(what):
    with open(os.environ["RT_LOG"], "a") as file:
        file.write(f"{{what}} {{here}} {{time.monotonic()}} {{' '.join(sys.argv[1:])}}\\n")
def read(name):
    if os.path.isfile(name):
        with open(name) as file:
            return file.read()
def write(name, text, seconds=0):
    os.makedirs(os.path.dirname(name), exist_ok=True)
    if os.path.isfile(name):
        os.remove(name)
    with open(name, "w") as file:
        file.write(text[: len(text) // 2])
        file.flush()
        os.chmod(name, 0o755)
        time.sleep(seconds)
        file.write(text[len(text) // 2 :])
rows = dict(line.split(":") for line in read("../../crates.txt").splitlines() if line[:1].isalpha())
lacking = [it for it in rows[here].split() if it in rows and not os.path.isfile(f"../{{it}}/out/rlib/stamp")]
if lacking:
    sys.exit(f"no library: {{lacking}}")
log("begins")
print(f"fn {{here}}::one: proved", flush=True)
if os.environ.get("RT_STOPS") == here:
    sys.exit("the proof fails")
stamp = "".join(read(f"src/{{it}}") for it in sorted(os.listdir("src")))
seconds = float(os.environ["RT_SECONDS"])
if sys.argv[1] == "run" and read(f"out/{{here}}.stamp") != stamp:
    log("makes")
    write(f"out/{{here}}", '#!/bin/sh\\necho "built: $@"\\n', seconds)
    write(f"out/{{here}}.stamp", stamp)
elif sys.argv[1] == "lib" and read("out/rlib/stamp") != stamp:
    log("makes")
    write(f"out/rlib/{{here}}.rlib/format", "whole", seconds)
    write("out/incremental/kept.oantt", "whole")
    write("out/rlib/stamp", stamp)
log("ends")
"""


class Checkout:
    """A copy of the repository in which nothing is built, and a toolchain that only plays."""

    def __init__(self, folder, seconds=0.05):
        self.folder = pathlib.Path(folder).resolve()
        self.top, self.log = self.folder / "top", self.folder / "log"
        # (the toolchain that plays reads no proofs)
        leave = shutil.ignore_patterns(".git", "out", "made", "must-fail", "__pycache__", "*.antt")
        shutil.copytree(TOP, self.top, ignore=leave, symlinks=True)
        for name in ("bin", "tmp"):
            (self.folder / name).mkdir()
        self.rt = self.folder / "bin/rt"
        self.rt.write_text(PLAYED_RT.format(python=sys.executable))
        self.rt.chmod(0o755)
        others = [it for it in os.environ["PATH"].split(":") if not os.path.exists(f"{it}/rt")]
        self.env = {
            **os.environ,
            "PATH": ":".join([str(self.rt.parent), *others]),
            "TMPDIR": str(self.folder / "tmp"),
            "RT_LOG": str(self.log),
            "RT_SECONDS": str(seconds),
        }

    def run(self, name, *words, **how):
        return run([self.top / name, *words], env={**self.env, **how.pop("env", {})}, **how)

    def start(self, name, *words, seconds=None):
        env = {**self.env, **({"RT_SECONDS": str(seconds)} if seconds else {})}
        how = {"stdin": subprocess.DEVNULL, "stdout": subprocess.PIPE, "stderr": subprocess.PIPE, "text": True}
        # (a shell that starts these tests in the background has all that they start ignore it)
        hear = lambda: signal.signal(signal.SIGINT, signal.SIG_DFL)
        return subprocess.Popen([self.top / name, *words], env=env, start_new_session=True, preexec_fn=hear, **how)

    def events(self, *kinds):
        """What the toolchain did, of these kinds: begins, makes or ends, the crate, when, and the words."""
        if not self.log.exists():
            return []
        lines = [line.split(" ", 3) for line in self.log.read_text().splitlines()]
        return [(what, crate, float(when), words.split()) for what, crate, when, words in lines if what in kinds]

    def wait_for(self, crate):
        while not any(it == crate for _, it, _, _ in self.events("makes")):
            time.sleep(0.01)

    def program(self, name):
        return self.top / "crates" / CRATES[name] / "out" / CRATES[name]

    def rows(self):
        """The crates and what they stand on."""
        lines = (self.top / "crates.txt").read_text().splitlines()
        return {name: words.split() for name, _, words in (line.partition(":") for line in lines if line[:1].isalpha())}


class FirstRun(Test):
    """Runs in a checkout in which nothing is built."""

    def checkout(self, **how):
        folder = tempfile.TemporaryDirectory()
        self.addCleanup(folder.cleanup)
        return Checkout(folder.name, **how)

    def test_words_are_refused_before_anything_is_built(self):
        checkout = self.checkout()
        for name, words in REFUSED:
            with self.case(f"{name} {words}"):
                begun = time.monotonic()
                ended = checkout.run(name, *words)
                self.assertEqual(ended, (2, "", USAGE[name] + ADVICE[name]))
                self.assertLess(time.monotonic() - begun, 1)
        self.assertEqual(checkout.events("begins"), [])

    def test_the_program_refuses_the_same_words_by_the_same_line(self):
        for name, words in REFUSED:
            with self.case(f"{name} {words}"):
                self.assertEqual(run([program(name), *words]), (2, "", USAGE[name]))
                self.assertEqual(run([TOP / name, *words]), (2, "", USAGE[name] + ADVICE[name]))

    def test_each_mode_is_known(self):
        of_interp = re.search(r"(?m)^\| MODE \| (.*?) \|", (TOP / "README.md").read_text())[1]
        for name in USAGE:
            modes = of_interp if name in ("interp", "steal") else USAGE[name].split()[3]
            with self.case(name):
                known = re.search(r"tools/run_proved\" \w+ \w+ '([a-z ]+)'", (TOP / name).read_text())[1]
                self.assertEqual(known.split(), re.findall(r"\w+", modes))

    def test_other_words_reach_the_program(self):
        checkout = self.checkout(seconds=0)
        for name, words in TAKEN:
            with self.case(f"{name} {words}"):
                ended = checkout.run(name, *words)
                self.assertEqual((ended.status, ended.out), (0, f"built: {' '.join(words)}\n"), ended.err)

    def test_no_toolchain(self):
        checkout = self.checkout()
        checkout.rt.unlink()
        ended = checkout.run("interp", "anf")
        self.assertEqual((ended.status, ended.out), (70, ""))
        self.assertIn("interp: the program is not built yet, and the command rt is missing", ended.err)
        self.assertIn("the toolchain's kit", ended.err)
        self.assertEqual(checkout.run("interp", "--help").status, 2)

    def test_a_folder_that_cannot_be_made(self):
        checkout = self.checkout()
        (checkout.top / "out").touch()
        ended = checkout.run("interp", "anf")
        self.assertEqual((ended.status, ended.out), (70, ""))
        self.assertRegex(ended.err, r"\Ainterp: the program could not be proved and built: .*File exists: .*/out'\n\Z")

    def test_a_terminal_is_told_that_it_is_read(self):
        """How the input is ended is told where it comes from a terminal, and not in mode gen, which reads nothing."""
        checkout = self.checkout(seconds=0)
        told = "interp: reading the file from the terminal; end it with the end of the input (Ctrl-D)\n"
        master, slave = pty.openpty()
        self.addCleanup(os.close, master)
        self.addCleanup(os.close, slave)
        checkout.run("interp", "anf")
        for words, said in ((["anf"], told), (["--order", "gen", "check"], told), (["gen"], ""), (["--", "gen"], "")):
            with self.case(words):
                ended = checkout.run("interp", *words, stdin=slave)
                self.assertEqual((ended.status, ended.out, ended.err), (0, f"built: {' '.join(words)}\n", said))

    def test_tests_are_skipped_where_there_is_no_toolchain(self):
        """Those of a program that is missing or older than its sources."""
        checkout = self.checkout(seconds=0)
        checkout.env.pop("INTERP", None)
        checkout.run("interp", "anf")
        checkout.rt.unlink()
        words = [sys.executable, "-c", "from tests.harness import program; print(program('interp'))"]
        with self.case("built"):
            self.assertEqual(run(words, cwd=checkout.top, env=checkout.env).out, f"{checkout.program('interp')}\n")
        os.utime(checkout.program("interp"), (0, 0))
        for what in ("stale", "missing"):
            with self.case(what):
                ended = run(words, cwd=checkout.top, env=checkout.env)
                self.assertRegex(ended.err, r"unittest.case.SkipTest: interp is not built of its sources, .*\n\Z")
            checkout.program("interp").unlink(missing_ok=True)

    def test_the_program_ends_by_a_closed_pipe(self):
        checkout = self.checkout(seconds=0)
        for built in ("now", "before"):
            with self.case(built):
                reader, writer = os.pipe()
                os.close(reader)
                # (Python ignores this signal, and so would all that it starts)
                catch = lambda: signal.signal(signal.SIGPIPE, signal.SIG_DFL)
                ended = checkout.run("interp", "anf", stdout=writer, preexec_fn=catch)
                os.close(writer)
                self.assertEqual(ended.status, -signal.SIGPIPE, ended.err)

    def test_through_a_symbolic_link(self):
        checkout = self.checkout()
        link = checkout.folder / "bin/polynomials"
        link.symlink_to(checkout.top / "interp")
        ended = run([link, "anf"], env=checkout.env)
        self.assertEqual((ended.status, ended.out), (0, "built: anf\n"), ended.err)
        self.assertEqual(run([link], env=checkout.env), (2, "", USAGE["interp"] + ADVICE["interp"]))

    def test_each_crate_is_proved_once_and_after_those_below_it(self):
        checkout = self.checkout()
        ended = checkout.run("interp", "anf")
        self.assertEqual((ended.status, ended.out), (0, "built: anf\n"), ended.err)
        begun = {crate: when for _, crate, when, _ in checkout.events("begins")}
        ends = {crate: when for _, crate, when, _ in checkout.events("ends")}
        self.assertEqual(len(checkout.events("begins")), len(begun))
        for crate, libraries in checkout.rows().items():
            for it in libraries:
                if crate in begun and it in checkout.rows():
                    self.assertLess(ends[it], begun[crate], f"{crate} over {it}")
        self.assertEqual({"interp_main", "interp_run", "lattice"} - {*begun}, set())
        self.assertNotIn("nf_query", begun)

    @unittest.skipIf(len(os.sched_getaffinity(0)) < 2, "there is one processor")
    def test_crates_are_proved_side_by_side_as_far_as_processors_allow(self):
        checkout, at_once, most = self.checkout(), 0, 0
        checkout.run("interp", "anf")
        for what, _, _, words in checkout.events("begins", "ends"):
            jobs = int(words[words.index("--jobs") + 1]) if "--jobs" in words else 1
            at_once += jobs if what == "begins" else -jobs
            most = max(most, at_once)
        self.assertLessEqual(2, most)
        self.assertLessEqual(most, len(os.sched_getaffinity(0)))
        begins = [what for what, _, _, _ in checkout.events("begins", "ends")]
        self.assertIn(["begins", "begins"], [begins[at : at + 2] for at in range(len(begins))])

    def test_it_says_how_far_it_is(self):
        checkout = self.checkout()
        lines = checkout.run("interp", "anf").err.splitlines()
        crates = len(checkout.events("begins"))
        self.assertEqual(len(lines), 1 + crates)
        self.assertIn(f"first: {crates} crates", lines[0])
        time_so_far = r"proved in \d+ min \d+ s"
        for at, line in enumerate(lines[1:]):
            self.assertLessEqual(int(re.match(rf"interp: (\d+) of {crates} crates ", line)[1]), at)
            self.assertRegex(line, rf"and \d+ functions {time_so_far}; now \w+(, \w+)*$")
        self.assertRegex(lines[1], f"0 of {crates} crates and 0 functions {time_so_far}; now lattice$")
        last = f"{crates - 1} of {crates} crates and {crates - 1} functions {time_so_far}; now interp_main$"
        self.assertRegex(lines[-1], last)

    def test_on_a_terminal_it_rewrites_one_line(self):
        checkout = self.checkout()
        master, slave = pty.openpty()
        self.addCleanup(os.close, master)
        ended = checkout.run("interp", "anf", stderr=slave)
        os.close(slave)
        self.assertEqual(ended.out, "built: anf\n")
        said = b""
        with contextlib.suppress(OSError):
            while piece := os.read(master, 1 << 16):
                said += piece
        first, last = said.decode().split("\r\n")
        self.assertRegex(first, r"first: \d+ crates")
        pieces = last.split("\r\033[K")
        self.assertEqual((pieces[0], pieces[-1]), ("", ""))
        self.assertTrue(all(it.startswith("interp: ") and len(it) < 80 for it in pieces[1:-1]), pieces)
        self.assertLess(10, len(pieces))

    def test_batch_tells_a_terminal_how_many_files_there_are(self):
        """The text and the status are those of the program; where the last of the text cannot be written it is 9."""
        checkout = self.checkout(seconds=0)
        checkout.run("batch", "anf")
        blocks = "".join(f"file {number} 0\nf1 = x2\n" for number in range(1, 1001))
        for status, out, wanted in ((0, None, 0), (7, None, 7), (0, "/dev/full", 9)):
            with self.case((status, out)), open(out or os.devnull, "wb") as sink:
                text = f"#!{sys.executable} -IS\nimport sys\nprint({blocks!r}, end='')\nsys.exit({status})\n"
                checkout.program("batch").write_text(text)
                master, slave = pty.openpty()
                ended = checkout.run("batch", "anf", stderr=slave, **({"stdout": sink} if out else {}))
                os.close(slave)
                said = os.read(master, 1 << 16).decode()
                os.close(master)
                self.assertEqual((ended.status, ended.out), (wanted, "" if out else blocks))
                self.assertIn("batch: write fault\r\n" if out else "batch: 1000 files\r\n", said)

    def test_two_at_once(self):
        for names in (("interp", "interp"), ("interp", "nfq")):
            with self.case(names):
                checkout = self.checkout()
                one = checkout.start(names[0], "anf")
                checkout.wait_for("lattice")
                ended = checkout.run(names[1], "anf" if names[1] == "interp" else "reduce")
                self.assertEqual(ended.status, 0, ended.err)
                waits = f"{names[1]}: another first run is at work in this checkout; waiting for it to end\n"
                self.assertIn(waits, ended.err)
                said, err = one.communicate()
                self.assertEqual((one.returncode, said), (0, "built: anf\n"), err)
                crates = [crate for _, crate, _, _ in checkout.events("begins")]
                first = crates[: crates.index("interp_main") + 1]
                self.assertEqual(len(first), len({*first}))
                self.assertEqual(crates[len(first) :] == [], names[1] == "interp")

    def test_a_killed_run_leaves_nothing_in_part(self):
        for crate in ("set_algebra", "interp_main"):
            with self.case(crate):
                checkout = self.checkout(seconds=0.3)
                one = checkout.start("interp", "anf")
                checkout.wait_for(crate)
                # (in the middle of what is written)
                time.sleep(0.15)
                os.killpg(one.pid, signal.SIGKILL)
                one.communicate()
                self.assertFalse(checkout.program("interp").exists())
                for library in checkout.top.glob("crates/*/out/rlib"):
                    self.assertTrue((library / "stamp").is_file())
                    self.assertEqual(next(library.glob("*.rlib/format")).read_text(), "whole")
                proved = {it.parent.parent.name for it in checkout.top.glob("crates/*/out/rlib")}
                self.assertIn("lattice", proved)
                self.assertNotIn(crate, proved)
                ended = checkout.run("interp", "anf")
                self.assertEqual((ended.status, ended.out), (0, "built: anf\n"), ended.err)
                self.assertNotIn("waiting", ended.err)
                self.assertEqual([*(checkout.folder / "tmp").iterdir()], [])

    def test_a_run_that_is_told_to_end_ends_what_it_started(self):
        for sign in (signal.SIGTERM, signal.SIGINT):
            with self.case(sign):
                checkout = self.checkout(seconds=60)
                one = checkout.start("interp", "anf")
                checkout.wait_for("lattice")
                one.send_signal(sign)
                one.communicate(timeout=10)
                self.assertNotEqual(one.returncode, 0)
                self.assertEqual([*(checkout.folder / "tmp").iterdir()], [])

    def test_a_proof_that_fails(self):
        checkout = self.checkout()
        ended = checkout.run("interp", "anf", env={"RT_STOPS": "set_algebra"})
        self.assertEqual((ended.status, ended.out), (70, ""))
        failed = "the proof fails\ninterp: the program could not be proved and built\n"
        self.assertIn(f"fn set_algebra::one: proved\n{failed}", ended.err)
        self.assertEqual([*(checkout.folder / "tmp").iterdir()], [])
        self.assertFalse(checkout.program("interp").exists())
        self.assertEqual(checkout.run("interp", "anf").out, "built: anf\n")

    def made_by(self, checkout, change):
        """Whether a run asks the toolchain after a change of the checkout, and which crates that makes anew."""
        count, begun = len(checkout.events("makes")), len(checkout.events("begins"))
        change()
        self.assertEqual(checkout.run("interp", "anf").out, "built: anf\n")
        made = [crate for _, crate, _, _ in checkout.events("makes")[count:]]
        return len(checkout.events("begins")) > begun, made

    def test_a_program_is_built_again_where_a_source_is_newer(self):
        checkout = self.checkout()
        checkout.run("interp", "anf")
        source = checkout.top / "crates/lattice/src/lib.rt"
        with self.case("nothing changed"):
            self.assertEqual(self.made_by(checkout, lambda: None), (False, []))
        with self.case("the same text"):
            self.assertEqual(self.made_by(checkout, source.touch), (True, []))
            self.assertEqual(self.made_by(checkout, lambda: None), (False, []))
        with self.case("another text"):
            self.assertEqual(self.made_by(checkout, lambda: source.write_text("// first\n")), (True, ["lattice"]))
        with self.case("changed during the build"):
            source.write_text("// second\n")
            count = len(checkout.events("begins"))
            one = checkout.start("interp", "anf")
            while len(checkout.events("begins")) == count:
                time.sleep(0.01)
            source.write_text("// third\n")
            one.communicate()
            self.assertEqual(self.made_by(checkout, lambda: None), (True, ["lattice"]))
            self.assertIn("// third", (checkout.top / "crates/lattice/out/rlib/stamp").read_text())

    def test_solve_shows_how_a_program_is_built(self):
        """Where sources are newer than the program it is told how far this is, once."""
        checkout = self.checkout(seconds=0)
        checkout.env.pop("INTERP", None)
        file = checkout.folder / "f.pla"
        file.write_text(".i 2\n.o 1\n.type f\n11 1\n")
        checkout.run("interp", "anf")
        # (where the sources have the same text as before it is kept as it is)
        checkout.program("interp").write_text("#!/bin/sh\ncat > /dev/null\necho 'f1 = x1*x2'\n")
        for said in (r"interp: proving and building the program first(.*\n)+.*now interp_main\n", ""):
            if said:
                os.utime(checkout.program("interp"), (0, 0))
            with self.case(said):
                ended = run([checkout.top / "tools/solve", file], env=checkout.env)
                self.assertEqual((ended.status, ended.out), (0, "f1 = x1*x2\n"), ended.err)
                self.assertRegex(ended.err, rf"\A{said}\Z")


if __name__ == "__main__":
    unittest.main()
