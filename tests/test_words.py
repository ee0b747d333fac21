"""The words of each program: its options at the ends of their ranges and beyond, in each form and place, and twice.

Then what a run does beside its streams: it makes no file, and in mode gen it reads nothing. Last what pages say of
words.
"""

import os
import re

from tests.harness import EXAMPLES, TOP, USAGE, Ended, InFolder, Test, description, program, run

POINTS = description(2, 1, "fr", ["11 1", "00 0"])
GATES = (EXAMPLES / "half_adder_gates.aag").read_text()

# Of each program its modes, and what it reads.
BEGUN = {
    "interp": (["anf", "basis", "gen"], POINTS),
    "steal": (["anf", "basis", "gen"], POINTS),
    "batch": (["anf", "basis"], POINTS),
    "circuit": (["anf", "basis", "count"], GATES),
    "nfq": (["reduce", "union", "meet"], description(2, 2, "fr", ["11 11", "00 00"])),
}

# Of each option the least value that is taken and the greatest one, and values that are none.
RANGES = {
    "nodes": ("4", "23", ["3", "24", "-4", "4.", "x", ""]),
    "terms": ("1", "1000000", ["0", "1000001", "-1", "1e3", ""]),
    "workers": ("1", "16", ["0", "17", "-1", "two", ""]),
    "seed": ("0", str(2**64 - 1), [str(2**64), "-1", "x", ""]),
}
OPTIONS = {
    "interp": ("nodes", "terms", "workers", "seed"),
    "steal": ("nodes", "terms", "workers", "seed"),
    "batch": ("nodes", "terms", "workers", "seed"),
    "circuit": ("nodes", "terms"),
    "nfq": (),
}

# Words that no program takes, behind a mode.
REFUSED = [["--help"], ["-h"], ["--no", "5"], ["--nod", "5"], ["-n", "5"], ["file"], ["anf"], ["reduce"], [""]]


class Words(InFolder):
    """Each program with its words, in a folder of its own."""

    def ended(self, name, *words, text=None):
        """How a run ends, after which the folder is as empty as before."""
        given = {**os.environ, "TMPDIR": str(self.here), "HOME": str(self.here)}
        ended = run([program(name), *words], BEGUN[name][1] if text is None else text, cwd=self.here, env=given)
        self.assertEqual(list(self.here.iterdir()), [])
        return ended

    def expect_refused(self, name, *words):
        with self.case((name, words)):
            self.assertEqual(self.ended(name, *words), Ended(2, "", USAGE[name]))

    def test_ranges(self):
        """At both ends of its range an option is taken, before the mode and behind it, in both forms."""
        for name, options in OPTIONS.items():
            for option in options:
                mode = "gen" if option == "seed" and "gen" in BEGUN[name][0] else "anf"
                least, most, none = RANGES[option]
                for value in (most, least):
                    lines = [[mode, f"--{option}", value], [mode, f"--{option}={value}"]]
                    lines += [[f"--{option}", value, mode], [f"--{option}={value}", mode]]
                    for words in lines:
                        with self.case((name, words)):
                            ended = self.ended(name, *words)
                            self.assertIn(ended.status, (0, 6))
                            self.assertEqual(ended, self.ended(name, *lines[0]))
                for value in none:
                    self.expect_refused(name, mode, f"--{option}", value)
                    self.expect_refused(name, mode, f"--{option}={value}")
                self.expect_refused(name, mode, f"--{option}")
                self.expect_refused(name, mode, f"--{option}", most, f"--{option}", most)

    def test_refused(self):
        """Words that are none, no mode and two of them, and options of another program."""
        for name, (modes, _) in BEGUN.items():
            self.expect_refused(name)
            self.expect_refused(name, modes[0].upper())
            for words in [*REFUSED, ["--order"], ["--care"], ["--invert"]]:
                self.expect_refused(name, modes[0], *words)
        twice = [2 * [f"--{it}", "a"] for it in ("care", "invert", "order")]
        for words in (["--workers", "2"], ["--seed", "1"], *twice):
            self.expect_refused("circuit", "anf", *words)
        for words in (["--care", "f1"], ["--invert", "x1"], ["--order", "x2,x1", "--order", "x2,x1"]):
            for name in ("interp", "steal", "batch"):
                self.expect_refused(name, "anf", *words)

    def test_effects(self):
        """Options have their effects in each program that takes them."""
        points = description(3, 1, "fr", ["111 1", "010 0", "101 0", "000 1"])
        for name in ("interp", "steal", "batch"):
            plain = self.ended(name, "anf", text=points)
            with self.case(f"{name} --order"):
                turned = self.ended(name, "anf", "--order", "x3,x2,x1", text=points)
                self.assertEqual(turned.status, 0)
                self.assertNotEqual(turned.out, plain.out)
            with self.case(f"{name} --terms"):
                few = self.ended(name, "anf", "--terms", "1", text=points)
                self.assertNotEqual((few.status, few.out), (plain.status, plain.out))
        for name in ("interp", "steal"):
            with self.case(f"{name} --seed"):
                self.assertNotEqual(self.ended(name, "gen", "--seed", "1").out, self.ended(name, "gen").out)

    def test_no_file_is_made(self):
        """In each mode, whether the run has an answer or not."""
        for name, (modes, text) in BEGUN.items():
            for mode in modes:
                for given in (text, "x\n"):
                    with self.case((name, mode, given[:1])):
                        self.ended(name, mode, text=given)

    def test_gen_reads_nothing(self):
        """It ends where its input has no end."""
        for name in ("interp", "steal"):
            with self.case(name):
                source, writer = os.pipe()
                with open(source, "rb") as file:
                    ended = run([program(name), "gen"], stdin=file, timeout=20)
                os.close(writer)
                self.assertEqual(ended, Ended(0, "points 256\nf1 8\nf2 7\n", ""))


class Pages(Test):
    """README.md, docs/FORMAT.md and the pages of the manual."""

    def test_forms(self):
        """They have the form of each program's words: the pages of the manual its modes and options."""
        readme, formats = ((TOP / name).read_text() for name in ("README.md", "docs/FORMAT.md"))
        self.assertIn(USAGE["interp"].replace("interp: usage: ", "    "), formats)
        for name in ("interp", "circuit", "nfq", "batch"):
            with self.case(name):
                _, form = USAGE[name].split(": usage: ")
                self.assertIn(f"    {form}", readme)
                if name != "interp":
                    self.assertIn(f"`{USAGE[name].strip()}`".replace("|", "\\|"), formats)
                page = (TOP / f"{name}.1").read_text().replace("\\-", "-")
                synopsis = re.search(r"(?ms)^\.SH SYNOPSIS\n(.*?)^\.SH", page)[1]
                options = re.findall(r"\[ --(\w+)\n\.IR (\w+) \]", synopsis)
                self.assertEqual(options, re.findall(r"\[--(\w+) (\w+)\]", form))
                modes = form.split()[1].replace("MODE", "anf|basis|check|gen")
                self.assertEqual(re.search(r"\{ (.*) \}", synopsis)[1].replace(" ", ""), modes)

    def test_ranges(self):
        """They have the ranges of the options whose values are few."""
        for option in ("nodes", "terms", "workers"):
            least, most, _ = RANGES[option]
            said = f"{int(least):,} to {int(most):,}"
            for name in ("README.md", "docs/FORMAT.md"):
                with self.case((option, name)):
                    self.assertRegex((TOP / name).read_text(), rf"(?m)^\| `--{option} [A-Z]` \| {said}[: ]")
            for name in ("interp", "circuit"):
                if option in OPTIONS[name]:
                    with self.case((option, name)):
                        page = (TOP / f"{name}.1").read_text().replace("\\-", "-")
                        self.assertRegex(page, rf'(?m)^\.BI --{option} " [A-Z]"\n.*; from {least} to {most}\b')
