"""The program run to each kind of end but want of memory and a fault of a stream, for its status and its message.

The last tests look at mode gen by several workers, and at the lines of progress of a file with many outputs.
"""

import subprocess

from tests.harness import EXAMPLES, USAGE, Ended, Test, description, program, run

POINTS = description(2, 1, "fr", ["11 1", "00 0"])
ORDER = "interp: order must name every input once\n"
TOLD = "output 1: 1 terms, 1 basis\n"

MAJORITY = (EXAMPLES / "majority.pla").read_text()
FIVE_POINTS = description(4, 1, "fr", ["1011 0", "0000 1", "1101 1", "0010 0", "1110 0"], end=None)

# Of each end: the words, the file, the status and the message.
ENDS = [
    ("basis", POINTS, 0, TOLD),
    ("check", f"{POINTS}f1 = x2\n0 = x1 + x2\n", 0, ""),
    ("check", f"{POINTS}f1 = x2\n", 1, ""),
    ("check --order x2,x1", f"{POINTS}f1 = x1\n0 = x2 + x1\n", 0, ""),
    ("check --order x2,x1", f"{POINTS}f1 = x2\n0 = x1 + x2\n", 3, "interp: answer line 2: TermOrder\n"),
    ("", "", 2, USAGE["interp"]),
    ("anf --nodes 3", "", 2, USAGE["interp"]),
    ("anf", description(2, 1, "fd", ["1-"], end=None), 3, "interp: line 4: RowLength\n"),
    ("check", description(15, 1, "fr", []) + "f1 = 0\n0 = 1\n", 3, "interp: more than 14 inputs cannot be checked\n"),
    ("check", f"{POINTS}f1 = x2\n0 = x3\n", 3, "interp: answer line 2: UnknownName\n"),
    ("anf", description(2, 1, "fr", ["1- 1", "-1 0"], end=None), 4, "interp: output 1: on line 4, off line 5\n"),
    ("anf", description(2, 2, "fr", ["1- 11", "-1 10"], end=None), 4, "interp: output 2: on line 4, off line 5\n"),
    ("basis", description(2, 2, "fr", ["1- 00", "-1 11"]), 4, "interp: output 1: on line 5, off line 4\n"),
    ("anf --nodes 4", description(17, 1, "fd", [], end=None), 5, "interp: more than 16 nodes are needed\n"),
    # The first of these needs 16 nodes, which is what there is room for, and the second 17.
    ("anf --nodes 4", MAJORITY, 0, "output 1: 3 terms, 0 basis\n"),
    ("anf --nodes 4", FIVE_POINTS, 5, "interp: more than 16 nodes are needed\n"),
    ("anf --terms 2", description(2, 1, "fd", ["1- 1", "-1 1"], end=None), 6, "interp: more than 2 terms\n"),
    ("basis --order x1", POINTS, 12, ORDER),
    ("basis --order x2,x2", POINTS, 12, ORDER),
    ("basis --order x1,x2,x3", POINTS, 12, ORDER),
    ("anf --order x1", "", 3, "interp: line 0: NoSize\n"),
    ("gen --order x1", "", 0, ""),
]


class Ends(Test):
    """The status and the message of each kind of end."""

    def test_ends(self):
        for line, text, status, message in ENDS:
            with self.case(f"{line}, {status}"):
                ended = run([program("interp"), *line.split()], text)
                self.assertEqual((ended.status, ended.err), (status, message))

    def test_gen(self):
        other = run([program("interp"), "gen", "--seed", "12345"])
        self.assertEqual(other.status, 0)
        for workers in ("1", "2", "8"):
            with self.case(f"--workers {workers}"):
                ended = run([program("interp"), "gen", "--workers", workers])
                self.assertEqual(ended, Ended(0, "points 256\nf1 8\nf2 7\n", ""))
            with self.case(f"seed 12345, --workers {workers}"):
                self.assertEqual(run([program("interp"), "gen", "--seed", "12345", "--workers", workers]), other)

    def test_progress(self):
        """Of many outputs, the text of each is followed by its line of progress, as far as there are such lines."""
        text = description(1, 20, "fr", ["1 " + 20 * "1", "0 " + 20 * "0"], end=None)
        lines = []
        for output in range(1, 21):
            lines += [f"f{output} = x1\n"] + [f"output {output}: 1 terms, 0 basis\n"] * (output <= 16)
        for name in ("interp", "steal"):
            with self.case(f"20 outputs, {name}"):
                ended = run([program(name), "anf"], text, stderr=subprocess.STDOUT)
                self.assertEqual(ended, Ended(0, "".join(lines), ""))
