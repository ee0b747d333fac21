"""The checks of the repository in .ci/, on a small repository that is as it should be, and where one rule is broken.

Each broken rule is told by its message, with the status 1. What a check looks at it finds from where it stands, so each
small repository has copies of the checks.
"""

import importlib.util
import os
import pathlib
import re
import shutil
import subprocess
import sys
import tempfile
import time
import unittest

from tests.harness import TOP, InFolder, Test, run

# The small repository: a library, the crate of `run`, which stands on it, and a crate of tests.
FILES = {
    "crates.txt": "# Marks of numbers.\nlow:\n# The top call.\ninterp_run: low\n# Tests of both.\nlow_tests: low\n",
    "crates/low/src/lib.rt": """\
//! Marks of
//! numbers.
ghost use Rattle.low.specs.Marks.{IsMarked};

pub use inner::{Inner, Marked, twice};

/// The mark of a number.
pub fn mark(number: u64) -> u64
    ensures { IsMarked number result }
{
    add_one(number)
}

/// One more.
fn add_one(number: u64) -> u64
    ensures { IsMarked number result }
{
    number + 1
}
""",
    "crates/low/src/inner.rt": """\
ghost use Rattle.low.specs.MarkLaws.{MarksAscend};
ghost use Rattle.low.specs.Marks as marks;
ghost use Rattle.low.specs.Odd;
ghost use Rattle.low.specs.Odd.{IsEven as IsTwice, IsHidden};

/// What has marks.
pub trait Marked {
    fn mark_of(&self) -> u64
        ensures { marks.IsSmall result };
}

pub struct Inner;

impl Marked for Inner {
    ghost held = 1;

    fn mark_of(&self) -> u64 {
        7
    }
}

impl Inner {
    // IsHidden
    fn mark(&self) -> u64
        ensures { IsHidden result }
    {
        1
    }

    pub fn marks(&self) -> u64 {
        self.mark()
    }
}

/// The mark of the mark.
pub fn twice(number: u64) -> u64
    requires { marks.IsSmall number
        × IsTwice number }
    ensures first { marks.IsMarked number number }
    ensures second { marks.IsMarked number result × MarksAscend }
{
    // (IsHidden)
    number + 2
}

fn hidden()
    ensures { IsHidden 1 }
{
}
""",
    "crates/low/specs/Lib.antt": "pub mod Marks\npub mod MarkLaws\npub mod Odd\n",
    "crates/low/specs/MarkLaws.antt": "abbrev pub MarksAscend : Type 0\nMarksAscend = 1 < 2\n",
    "crates/low/specs/Odd.antt": """\
-- Numbers by their last bit.
use Rattle.std.specs.Prelude.{ℕ}

-- the last bit is 1
abbrev pub IsOdd : ℕ → Type 0
IsOdd n = (k : ℕ) → n ≡ k + k + 1
-- (and none is both)

abbrev pub IsEven : ℕ → Type 0
IsEven n = (k : ℕ) → n ≡ k + k

IsNoHead n = n

abbrev pub IsHidden : ℕ → Type 0
IsHidden n = n ≡ 0
""",
    "crates/low/specs/Marks.antt": """\
-- Marks.
use Rattle.std.specs.Prelude.{ℕ, ◌≡◌, ◌+◌, ◌<◌}

-- the second is the mark of the first
abbrev pub IsMarked : ℕ → ℕ → Type 0
IsMarked n m = m ≡ next n

-- the next number
pub next : ℕ → ℕ
next n = n + 1

-- it is below 1,024
abbrev pub IsSmall : ℕ → Type 0
IsSmall n = n < 1024
""",
    "crates/low/proofs/Lib.antt": "mod Inner\npub mod MarkLaws\n",
    "crates/low/proofs/Inner.antt": """\
-- Small marks.
use Rattle.std.specs.Prelude.{ℕ}
use Rattle.low.specs.Marks.{IsMarked, IsSmall}

-- a mark is small
small_mark : (n m : ℕ) → IsMarked n m → IsSmall m → IsSmall n
small_mark n m is small = small
""",
    "crates/low/proofs/MarkLaws.antt": """\
-- What marks are.
use Rattle.std.specs.Prelude.{ℕ}
use Rattle.low.specs.Marks.{IsMarked}

-- ---- passed on

-- small ones
pub use Rattle.low.proofs.Inner.{small_mark}

-- a mark is one
pub mark_is : (n m : ℕ) → IsMarked n m → IsMarked n m
mark_is n m is = is
""",
    "crates/low/must-fail/other_mark.edit": "file: src/lib.rt\nold: number + 1\nnew: number + 3\n",
    "crates/low/must-fail/third_mark.edit": "# clause: second\nfile: src/inner.rt\nold: number + 2\nnew: number\n",
    "crates/low/must-fail/held_mark.edit": "# clause: held\nfile: src/inner.rt\nold:         7\nnew:         6\n",
    "crates/low/must-fail/mark_of_trait.edit": (
        "# clause: ensures\nfile: src/inner.rt\nold:         7\nnew:         8\n"
    ),
    "crates/low/must-fail/hidden_mark.edit": "file: src/inner.rt\nold:         1\nnew:         2\n",
    "crates/low/must-fail/no_function.edit": (
        "# clause: twice first\nfile: src/inner.rt\nold: struct Inner;\nnew: struct Outer;\n"
        "file: src/inner.rt\nold: struct Outer;\nnew: struct Inner(u8);\n"
    ),
    "crates/low/README.md": """\
# low

Marks
of numbers.

- **Lemmas**: `proofs/MarkLaws.antt`.
- **Tests**: `crates/low_tests`.
""",
    "crates/interp_run/src/top.rt": """\
//! The top call.
ghost use Rattle.low.specs.Marks.{IsMarked};
ghost use Rattle.low.specs.Odd;

use low::mark;

pub fn run<R: Threads>(
    rt: &R,
) -> u8
    ensures headline { IsMarked 1 result }
    ensures odd { Odd.IsOdd 1 }
{
    mark(1)
}
""",
    "crates/interp_run/src/main.rt": "//! The top call.\n",
    "crates/interp_run/proofs/Lib.antt": "mod Answers\n",
    "crates/interp_run/proofs/Answers.antt": """\
-- The answer to the goal of `run`.
use Rattle.low.proofs.MarkLaws.{mark_is, small_mark}

run_answer : goal.run
run_answer = mark_is small_mark
""",
    "crates/interp_run/README.md": "# interp_run\n\nThe top call.\n\n- **Tests**: `tests/`.\n",
    "crates/low_tests/src/lib.rt": "//! Tests of both.\nuse low::twice;\n",
    "docs/DEFINITIONS.md": """\
# What stands behind `run`

- `IsMarked`, `next` (`Marks.antt`): the next number is the mark of a number.
- `IsOdd`: the last bit is 1.

# Inner words

- `IsSmall`: below 1,024.
- `IsEven`: the last bit is 0.
""",
    "docs/ARCHITECTURE.md": """\
| `low` | marks | - |
| `interp_run` | the top call | `low` |
| `low_tests` | tests of both | `low` |
""",
    "docs/PROVED.md": "| `low` |\n| `interp_run` |\n",
    "tests/README": "",
}


class Repository(Test):
    """Small repositories, on which one check is run."""

    def make(self, changes):
        """The folder of a small repository with changes: of each path its text, None for none, or what makes the new
        one of the old one."""
        folder = tempfile.TemporaryDirectory()
        self.addCleanup(folder.cleanup)
        top = pathlib.Path(folder.name)
        shutil.copytree(TOP / ".ci", top / ".ci")
        for path, text in {**FILES, **changes}.items():
            if callable(text):
                new = text(FILES[path])
                self.assertNotEqual(new, FILES[path])
                text = new
            if text is not None:
                (top / path).parent.mkdir(parents=True, exist_ok=True)
                (top / path).write_text(text)
        return top

    def check(self, name, changes, *words):
        top = self.make(changes)
        return run([sys.executable, top / f".ci/{name}.py", *words], cwd=top)

    def expect_good(self, name, changes, what):
        with self.case(f"{name}: {what}"):
            ended = self.check(name, changes)
            self.assertEqual((ended.status, len(ended.out.splitlines()), ended.err), (0, 1, ""), ended)
            self.assertRegex(ended.out, r"(: ok|the proofs are in shape)\n$")

    def expect_faults(self, name, cases):
        """Each of these changes has its messages, and no others, before the last line."""
        self.expect_good(name, {}, "as it should be")
        for changes, *messages in cases:
            with self.case(f"{name}: {messages}"):
                ended = self.check(name, changes)
                self.assertEqual((ended.status, ended.err), (1, ""), ended)
                self.assertEqual(sorted(ended.out.splitlines()[:-1]), sorted(messages))


def behind(text):
    """Puts a text behind that of a file."""
    return lambda old: old + text


def swapped(old, new):
    """Puts a text in the place of another one."""
    return lambda text: text.replace(old, new)


LOW = "crates/low"
LIB, MARKS, INNER = f"{LOW}/src/lib.rt", f"{LOW}/specs/Marks.antt", f"{LOW}/src/inner.rt"
LAWS, PROOFS = f"{LOW}/proofs/MarkLaws.antt", f"{LOW}/proofs/Inner.antt"
ANSWERS = "crates/interp_run/proofs/Answers.antt"


def other_lemma(statement, uses="IsMarked, IsSmall"):
    """The change by which the crate of `run` has a lemma that its answer uses."""
    brought = f"use Rattle.std.specs.Prelude.{{ℕ}}\nuse Rattle.low.specs.Marks.{{{uses}}}\n"
    return {ANSWERS: behind(f"{brought}\nother : {statement}\nother = x\n\nlast : goal.last\nlast = other\n")}


class Shape(Repository):
    """The shape of proofs."""

    def test_public_modules(self):
        modules, one, other = (f"{LOW}/proofs/{it}.antt" for it in ("Lib", "A", "B"))
        two = {modules: behind("pub mod A\n"), one: "-- Nothing.\n"}
        three = {**two, modules: behind("pub mod A\npub mod B\n"), other: "-- Nothing.\n"}
        bare, passed = "-- a mark is one\n", "-- a mark is small\n"
        self.expect_faults(
            "shape",
            [
                (three, "low: 3 public modules of lemmas, more than 2: MarkLaws, A, B"),
                (
                    {LAWS: swapped(bare, "")},
                    f"{LAWS}:10: no comment above this public lemma: "
                    "pub mark_is : (n m : ℕ) → IsMarked n m → IsMarked n m",
                ),
                (
                    {LAWS: swapped("-- small ones\n", "")},
                    f"{LAWS}:7: no comment above this public lemma: pub use Rattle.low.proofs.Inner.{{small_mark}}",
                ),
                ({PROOFS: swapped(passed, "")}, f"{PROOFS}:5: no comment above small_mark, which MarkLaws passes on"),
            ],
        )
        self.expect_good("shape", two, "two public modules")

    def test_statements(self):
        """A statement of another crate is found again whatever it is written like, and another statement is another."""
        told = f"one statement in several crates: other ({ANSWERS}:9), small_mark ({PROOFS}:6)"
        same = [
            "(n m : ℕ) → IsMarked n m → IsSmall m → IsSmall n",
            "(a b : ℕ) → IsMarked a b → IsSmall b → IsSmall a",
            "(m n : ℕ) → IsSmall n → IsMarked m n → IsSmall m",
            "{n : ℕ} {m : ℕ} → (is : IsMarked n m) → (IsSmall m) → (IsSmall n)",
            "(n m : ℕ) → m ≡ next n → m < 1024 → n < 1024",
            "(n m : ℕ) → m ≡ next n → m < 2 ^ 10 → IsSmall n",
        ]
        uses = "IsMarked, IsSmall, next"
        self.expect_faults("shape", [(other_lemma(statement, uses), told) for statement in same])
        others = [
            "(n m : ℕ) → IsMarked m n → IsSmall m → IsSmall n",
            "(n m : ℕ) → IsMarked n m → IsSmall n → IsSmall m",
            "(n m : ℕ) → IsMarked n m → IsSmall m → n < 1025",
            "(n m : ℕ) → IsSmall m → IsSmall n",
        ]
        for statement in others:
            self.expect_good("shape", other_lemma(statement), statement)

    def test_lines(self):
        proof, code = "-- " + 138 * "x" + "\n", "// " + 98 * "x" + "\n"
        self.expect_faults(
            "shape",
            [
                ({PROOFS: behind(proof)}, f"{PROOFS}:8: 141 columns, more than 140"),
                ({LIB: behind(code)}, f"{LIB}:20: 101 columns, more than 100"),
            ],
        )
        fits = {PROOFS: behind(proof.replace("x", "", 1)), LIB: behind(code.replace("x", "", 1))}
        self.expect_good("shape", fits, "lines as long as may be")
        self.expect_good("shape", {LIB: behind(f'    "{100 * "x"}",\n')}, "a text alone")

    def test_uses(self):
        unused = "\n-- no one\nunused : (n : ℕ) → IsMarked n n\nunused n = unused n\n"
        self.expect_faults(
            "shape",
            [
                ({PROOFS: behind(unused)}, f"{PROOFS}:10: nothing uses unused"),
                ({ANSWERS: swapped("{mark_is, small_mark}", "{mark_is}")}, f"{PROOFS}:6: nothing uses small_mark"),
            ],
        )
        self.expect_good("shape", {PROOFS: behind(f"{unused}\nlast : goal.last\nlast = unused\n")}, "used by an answer")
        self.expect_good("shape", {f"{LOW}/proofs/Worked.antt": unused}, "an example")

    def test_ratios(self):
        """Lines of proof beside those of code and specs."""
        few = {"crates/interp_run/src/top.rt": "\n", "crates/interp_run/src/main.rt": "\n"}
        graph = {"crates/bool_poly/src/lib.rt": "\n", "crates/bool_poly/proofs/Lib.antt": 4 * "\n"}
        words = {"crates/cli_words/src/lib.rt": "\n", "crates/cli_words/proofs/Lib.antt": 2 * "\n"}
        self.expect_faults(
            "shape",
            [
                (few, "interp_run: 6 lines of proof for 2 of code and specs, more than 2 for each"),
                (
                    {**graph, "crates/bool_poly/proofs/Lib.antt": 5 * "\n"},
                    "bool_poly: 5 lines of proof for 1 of code and specs, more than 4 for each",
                ),
                (words, "cli_words: it needs no exception any more"),
            ],
        )
        self.expect_good("shape", graph, "four lines on diagrams")
        self.expect_good("shape", {**few, "crates/interp_run/src/main.rt": "\n\n"}, "two lines for each")


class Definitions(Repository):
    """The list of definitions."""

    def test_faults(self):
        document, told = "docs/DEFINITIONS.md", "docs/DEFINITIONS.md: "
        named = "is named by a clause of a public function, and by no item"
        no_small = {document: swapped("- `IsSmall`: below 1,024.\n", "")}
        method = {**no_small, INNER: swapped("{ marks.IsSmall number\n", "{ 1\n")}
        self.expect_faults(
            "definitions",
            [
                (
                    {document: swapped(", `next`", "")},
                    f"{told}next stands behind `run`, and the first part does not name it",
                ),
                (
                    {document: swapped(", `next`", ", `next`, `IsSmall`")},
                    f"{told}IsSmall is named in the first part, and does not stand behind `run`",
                ),
                (
                    {document: swapped("- `IsSmall`", "- `IsSmall`, `IsNone`")},
                    f"{told}IsNone is named among the inner words, and is none",
                ),
                (
                    {document: swapped("- `IsSmall`", "- `IsSmall`, `next`")},
                    f"{told}next is named among the inner words, and is none",
                ),
                (no_small, f"{told}IsSmall {named}"),
                (method, f"{told}IsSmall {named}"),
                ({document: swapped("- `IsEven`: the last bit is 0.\n", "")}, f"{told}IsEven {named}"),
                ({INNER: swapped("fn hidden", "pub fn hidden")}, f"{told}IsHidden {named}"),
                ({INNER: swapped("    fn mark(", "    pub fn mark(")}, f"{told}IsHidden {named}"),
                ({INNER: swapped("impl Inner", "impl Other for Inner")}, f"{told}IsHidden {named}"),
                (
                    {document: swapped("- `IsOdd`: the last bit is 1.\n", "")},
                    f"{told}IsOdd stands behind `run`, and the first part does not name it",
                    f"{told}IsOdd {named}",
                ),
            ],
        )
        hidden = swapped("fn hidden", "pub(crate) fn hidden")
        self.expect_good("definitions", {INNER: hidden}, "a function for the crate alone")
        word = {**method, INNER: lambda text: text.replace("{ marks.IsSmall", "{ IsSmall")}
        self.expect_good("definitions", word, "a word that is no definition there")

    def test_list(self):
        ended = self.check("definitions", {}, "--list")
        told = "low/specs/Marks.antt: IsMarked next\nlow/specs/Odd.antt: IsOdd\n"
        told += "definitions behind run: 3, of 6 lines: ok\n"
        self.assertEqual((ended.status, ended.out), (0, told))


class Edits(Repository):
    """Edits that must fail."""

    def test_faults(self):
        other, third = f"{LOW}/must-fail/other_mark.edit", f"{LOW}/must-fail/third_mark.edit"
        self.expect_faults(
            "edits",
            [
                ({LIB: behind("// number + 1\n")}, f"{other}: its old text stands in src/lib.rt 2 times: number + 1"),
                ({LIB: swapped("+ 1", "+ 2")}, f"{other}: its old text stands in src/lib.rt 0 times: number + 1"),
                ({other: swapped("lib.rt", "none.rt")}, f"{other}: there is no file src/none.rt"),
                ({other: "file: src/lib.rt\nold: number + 1\n"}, f"{other}: it changes nothing"),
                ({third: swapped("# clause: second\n", "")}, f"{third}: it names no clause, and needs to"),
                ({third: swapped("second", "third")}, f"{third}: it names a clause that is none: third"),
                ({third: swapped("second", "mark second")}, f"{third}: it names a clause that is none: mark second"),
                ({third: swapped("second", "ensures")}, f"{third}: it names a clause that is none: ensures"),
                (
                    {f"{LOW}/must-fail/no_function.edit": swapped("# clause: twice first\n", "")},
                    f"{LOW}/must-fail/no_function.edit: it names no clause, and needs to",
                ),
            ],
        )
        self.expect_good("edits", {third: swapped("second", "mark ensures")}, "a clause of another function")

    def many(self, crates, count):
        """So many edits in each of so many crates beside the others."""
        text = FILES[f"{LOW}/must-fail/other_mark.edit"]
        made = {}
        for crate in range(crates):
            made[f"crates/c{crate:02}/src/lib.rt"] = FILES[LIB]
            made.update({f"crates/c{crate:02}/must-fail/e{number}.edit": text for number in range(count)})
        return made

    def test_counts(self):
        self.expect_good("edits", self.many(1, 16), "16 in a crate")
        self.expect_faults("edits", [(self.many(1, 17), "c00 has 17 edits, more than 16")])
        self.expect_faults("edits", [(self.many(24, 15), "there are 366 edits, more than 360")])

    def test_list(self):
        """Behind a function that other crates cannot name stands one that they can."""
        ended = self.check("edits", {}, "--list")
        lines = [
            "low held_mark: Inner::mark_of, held",
            "low hidden_mark: Inner::mark (Inner::marks), ensures",
            "low mark_of_trait: Inner::mark_of, ensures",
            "low no_function: twice, first",
            "low other_mark: add_one (mark), ensures",
            "low third_mark: twice, second",
        ]
        self.assertEqual((ended.status, ended.out.splitlines()), (0, [*lines, "edits that must fail: 6: ok"]))


class Crates(Repository):
    """What is said of crates."""

    def test_faults(self):
        page, table = f"{LOW}/README.md", "docs/ARCHITECTURE.md"
        over_both = {
            "crates.txt": swapped("low_tests: low", "low_tests: low interp_run"),
            "crates/low_tests/src/lib.rt": behind("use interp_run::run;\n"),
        }
        begins = "low has a page that does not begin with its name and what its documentation says"
        self.expect_faults(
            "crates",
            [
                (
                    {"crates.txt": swapped("# Marks", "# Signs")},
                    "crates.txt: low is not said to be what its documentation says: Marks of numbers.",
                ),
                (
                    {"crates.txt": swapped("low_tests: low", "low_tests: low other")},
                    "crates.txt: low_tests does not use other",
                ),
                ({page: None}, "low has no page"),
                ({page: swapped("# low", "# lower")}, begins),
                ({page: swapped("Marks\nof", "Signs of")}, begins),
                ({page: swapped("**Tests**", "**Trials**")}, "low has a page that does not say where its tests are"),
                ({page: swapped("MarkLaws", "Laws")}, "low has a page that names proofs/Laws.antt, which is not there"),
                (
                    {table: swapped("| `low_tests` | tests of both | `low` |\n", "")},
                    f"{table}: low_tests has no row",
                ),
                ({"docs/PROVED.md": swapped("| `low` |\n", "")}, "docs/PROVED.md: low has no row"),
                ({table: swapped("top call | `low`", "top call | -")}, f"{table}: interp_run stands on low too"),
                ({table: swapped("| - |", "| `low_tests` |")}, f"{table}: low does not stand on low_tests"),
                (over_both, f"{table}: low_tests stands on interp_run too"),
            ],
        )
        least = {**over_both, table: swapped("both | `low`", "both | `interp_run`")}
        self.expect_good("crates", least, "what the other crates of a line stand on is left out")


# The files of tests that look at the clock.
TIMED = ("test_batch", "test_first_run", "test_query_limits")

# A file of tests that tells when its test began and ended; `meets` is one that it waits for while it runs.
TELLING = """\
import pathlib, time, unittest

HERE = pathlib.Path(__file__).parent

class Told(unittest.TestCase):
    def test_told(self):
        (HERE / "{name}.begun").write_text(str(time.monotonic()))
        until = time.monotonic() + 20
        while "{meets}" and not (HERE / "{meets}.begun").exists() and time.monotonic() < until:
            time.sleep(0.01)
        (HERE / "{name}.ended").write_text(str(time.monotonic()))
        self.assertFalse({fails} or "{meets}" and time.monotonic() > until)
"""


class Tests(Repository):
    """The runs of tests."""

    def files(self, *failing):
        """Tests that look at the clock, and two of which each waits for the other one."""
        names = {**dict.fromkeys(TIMED, ""), "test_a": "test_b", "test_b": "test_a"}
        return {
            f"tests/{name}.py": TELLING.format(name=name, meets=meets, fails=name in failing)
            for name, meets in names.items()
        }

    def test_side_by_side(self):
        """Those that look at the clock run alone, and others side by side."""
        if os.cpu_count() < 2:
            raise unittest.SkipTest("there is one processor")
        top = self.make(self.files())
        ended = run([sys.executable, top / ".ci/tests.py"])
        self.assertEqual((ended.status, ended.out.count("== tests/"), ended.out.count("\nOK\n")), (0, 5, 5), ended)
        told = [path for ending in ("begun", "ended") for path in (top / "tests").glob(f"*.{ending}")]
        at = {path.name: float(path.read_text()) for path in told}
        for name in TIMED:
            with self.case(name):
                others = {it.stem for it in (top / "tests").glob("*.py")} - {name}
                for other in others:
                    is_apart = at[f"{name}.ended"] < at[f"{other}.begun"] or at[f"{other}.ended"] < at[f"{name}.begun"]
                    self.assertTrue(is_apart, other)

    def test_status(self):
        for name in ("test_a", "test_b", "test_batch", "test_query_limits"):
            with self.case(name):
                ended = run([sys.executable, self.make(self.files(name)) / ".ci/tests.py"])
                self.assertEqual((ended.status, ended.out.count("\nFAILED")), (1, 1), ended)


# What takes a processor for so many seconds, and a tree of processes that have the names of those of a gate.
SECONDS = 0.4
BUSY = f"import time\nwhile time.process_time() < {SECONDS}: pass\n"
GATE = """\
sleep 0.2
bash rt ci
python3 other.py
exit
"""
RT = """\
called() { local name=$1; shift; (exec -a "$name" python3 "$@"); }
called rattle check
called rattle check --test
called rattle build --crate-checked
(cd rt-edit-1 && called rattle check --incremental /x/seed)
(cd rt-edit-1 && called rattle check --incremental /x/out)
called rattle-test busy
called /tmp/rt-run-1/main busy
"""


class Costs(InFolder):
    """What a run is said to cost."""

    @classmethod
    def setUpClass(cls):
        super().setUpClass()
        spec = importlib.util.spec_from_file_location("costs", TOP / ".ci/costs.py")
        cls.costs = importlib.util.module_from_spec(spec)
        spec.loader.exec_module(cls.costs)

    def setUp(self):
        super().setUp()
        (self.here / "rt-edit-1").mkdir()
        for name in ("check", "build", "busy", "other.py", "rt-edit-1/check"):
            (self.here / name).write_text(BUSY)
        (self.here / "rt").write_text(RT)

    def test_parts(self):
        """Each process is counted in its part, and nothing twice."""
        with subprocess.Popen(["bash", "-c", GATE], cwd=self.here) as root:
            costs = self.costs.Costs(root.pid)
            while os.waitid(os.P_PID, root.pid, os.WEXITED | os.WNOWAIT | os.WNOHANG) is None:
                costs.look()
                time.sleep(0.1)
            costs.look()
        seconds = {part: ticks / self.costs.TICKS for part, ticks in costs.ticks.items()}
        names = self.costs
        times = dict.fromkeys((names.PROOFS, names.TESTS, names.BUILDS, names.READY, names.EDITS, "other.py"), 1)
        times[names.RUNS] = 2
        for part, count in times.items():
            with self.case(part):
                self.assertGreaterEqual(seconds.get(part, 0), count * SECONDS / 2)
                self.assertLessEqual(seconds[part], count * 2 * SECONDS)
        with self.case("all together"):
            self.assertLessEqual(sum(seconds.values()), sum(times.values()) * (SECONDS + 0.2) + 1)

    def ended(self, lines):
        """What is printed of a run of bash that does these lines while it is looked at."""
        script = f"{sys.executable} {TOP}/.ci/costs.py $$ & costs=$!\n{lines}\n"
        return run(["bash", "-c", script], cwd=self.here)

    def test_table(self):
        """It is printed once the program is told to end, with a line for each part and one for all of them."""
        ended = self.ended("sleep 0.5; python3 other.py; sleep 0.7; kill $costs; wait $costs")
        self.assertEqual((ended.status, ended.err), (0, ""))
        head, *rows = ended.out.splitlines()
        self.assertEqual(head.split(), "== minutes on the clock of processors".split())
        found = {name: figures for name, figures in (re.split("  +", row.strip(), maxsplit=1) for row in rows)}
        self.assertEqual(list(found)[-2:], ["all else", "together"])
        self.assertIn("other.py", found)
        self.assertRegex(found["other.py"], r"^\d+\.\d\d +0\.01$")

    def test_no_table(self):
        """Where the root ends without a word nothing is printed."""
        ended = run(["bash", "-c", f"sleep 0.3 & {sys.executable} {TOP}/.ci/costs.py $!; exit"])
        self.assertEqual(tuple(ended), (0, "", ""))
