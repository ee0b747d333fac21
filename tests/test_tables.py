"""On which tables the runs of interp and nfq begin, and on which they go on where one is full.

The sizes of tables change no answer, and clauses keep them within bounds alone, but time and memory hang on them. A
table is one block of memory, of 16 bytes for each slot where there are 2^12 or more, so it is told by the blocks that a
run asks for. What is due is what docs/DECISIONS.md says ("Sizes of tables"), on files of bench/ and on some whose outputs
are alike.
"""

import json
import sys

from bench.make_files import FILES, Draws, bits, description
from tests.harness import ALL, TOP, Fault, Test, answer, faults, program

# The bits of a table's slots, by the bytes of its words: those of nodes, and those of kept results, 2^12 or more.
BITS = {8 * (2**bits + 2 ** max(bits, 12)): bits for bits in range(4, 24)}

# For each rule files that it is for, with the limit of slots and the tables that are due.
RULES = {
    "small tables come first where all rows fit them, and steps follow": [
        ("present_graph", 19, [12]),
        ("split_62", 19, [12, 16, 19]),
        ("split_62", 21, [12, 16, 19, 21]),
    ],
    "points that lie apart are guessed surely, and the guess is followed": [
        ("points_20", 19, [18]),
        ("points_24", 19, [19]),
        ("points_24", 22, [19]),
        ("points_14_basis", 19, [18]),
        ("points_24_basis", 22, [20]),
    ],
    "few rows begin on a light table where more than 2^14 nodes are guessed": [
        ("comparator_9", 19, [17]),
        ("cubes_14", 19, [17]),
        ("cubes_15_one", 19, [17]),
        ("cubes_16_one", 19, [17, 19]),
    ],
    "points that lie close begin on what is guessed and a sixteenth more, up to 2^16 slots": [
        ("aes", 19, [14]),
        ("aes_graph", 19, [15]),
        ("majority_13", 19, [16]),
    ],
    "and go on with 2^17 where up to 2^17 nodes are guessed": [("points_16_many", 19, [16, 17])],
    "of cubes for which few are guessed half is tried": [("parity_13", 19, [15])],
    "2^14 slots come before 2^18": [("multiplier_6", 19, [14, 18])],
    "of cubes for which 2^17 to 2^18 are guessed, and no bases are found, a quarter is tried": [("redundant_20", 19, [16])],
    "2^16 slots come before 2^19": [
        ("cubes_15", 19, [16, 19]),
        ("cubes_16_two", 22, [16, 19]),
        ("redundant_28", 19, [16, 19]),
    ],
    "where more than 2^19 are guessed and may be had, 2^14 and 2^18 come before a step": [
        ("cubes_16", 20, [14, 18, 20]),
        ("cubes_16", 22, [14, 18, 21]),
    ],
    "no table has more slots than the limit": [
        ("multiplier_6", 8, [8]),
        ("cubes_14", 13, [13]),
        ("cubes_16", 16, [16]),
        ("split_62", 14, [12, 14]),
    ],
}  # fmt: skip

# For each mode of nfq files with the tables that are due. Joins follow a guess, and queries none.
QUERIES = {
    "reduce": [("present_graph", [12]), ("points_16", [16]), ("multiplier_6", [16]), ("points_20", [16, 19])],
    "union": [("points_16", [18]), ("cubes_14_two", [14, 18])],
    "meet": [("points_16", [18]), ("cubes_14_two", [14, 18])],
}


class Tables(Test):
    def tables(self, words, text):
        """The bits of the tables that a run makes, one after the other."""
        ended, sizes = faults().meet(words, text, Fault("block", 0, 1, ALL, "pass"))
        self.assertIn(ended.status, (0, 5), ended)
        # (One size may come twice: a table of more than 2^19 slots is copied from zeros, and a join may have two tables.)
        return list(dict.fromkeys(BITS[size] for size in sizes if size in BITS))

    def solving(self, name, limit):
        """The tables of a run of interp on a file of bench/, with one worker and this limit of slots."""
        mode, make = FILES[name]
        return self.tables([program("interp"), mode, "--nodes", limit], make())

    def test_rules(self):
        for rule, runs in RULES.items():
            for name, limit, due in runs:
                with self.case((rule, name, limit)):
                    self.assertEqual(self.solving(name, limit), due)

    def test_queries(self):
        for mode, runs in QUERIES.items():
            for name, due in runs:
                with self.case((mode, name)):
                    query = "f1 = x1*x2\n" if mode == "reduce" else ""
                    self.assertEqual(self.tables([program("nfq"), mode], FILES[name][1]() + query), due)

    def test_alike(self):
        """Outputs of which all rows say the same, or the opposite, are guessed to need what one needs."""
        draws, middle = Draws(8), 2**9
        said = [draws.one_of("01-~") for _ in range(2**10)]
        opposite = ["10-~"["01-~".index(symbol)] for symbol in said]
        others = {"same": (said, 13), "opposite": (opposite, 13)}
        for name, (other, _) in list(others.items()):
            changed = "~" if other[middle] == "-" else "-"
            others[f"{name} but in one row"] = ([*other[:middle], changed, *other[middle + 1 :]], 14)
        for name, (other, due) in others.items():
            with self.case(name):
                rows = [(bits(point, 10), first + second) for point, (first, second) in enumerate(zip(said, other))]
                text = description(10, 2, "fdr", rows)
                self.assertEqual(self.tables([program("interp"), "anf"], text), [due])

    def test_looks(self):
        """The tables on which bench/looks.py has the plain program count what interp looks for are those of interp."""
        line = "import json, looks; print(json.dumps(looks.TRIED))"
        [tried] = answer([sys.executable, "-c", line], cwd=TOP / "bench")
        self.assertNotEqual(json.loads(tried), {})
        for name, due in json.loads(tried).items():
            with self.case(name):
                self.assertEqual(self.solving(name, due[-1]), due)
