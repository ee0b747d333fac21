"""Mode equal of circuit: pairs of circuits beside their own values, beside ABC's equivalence check, and how runs end.

What both circuits of a pair are is told by their gates, one after the other (bench/make_circuits.py), or by ABC.
"""

import pathlib
import random
import tempfile

from bench.make_circuits import CIRCUITS, Circuit, Gate, galois, numbered
from tests.harness import EXAMPLES, Ended, Test, installed, program, run
from tests.needed_nodes import LEAST_BITS, bits_for, nodes_of_pair
from tests.test_aiger import columns, points_of, random_circuit

SMALL = 150
LARGE = 40


def rebuilt(circuit, names, change=None, disguise=None):
    """The circuit over inputs in another order. A function may give another literal for the left operand of a gate at
    a place, and one may make a literal anew, of the same value."""
    other = Circuit(names)
    known = dict(zip(circuit.names, circuit.inputs()))
    found = {known[name]: literal for name, literal in zip(names, other.inputs())}
    found[0] = 0

    def of(literal):
        return found[literal & ~1] ^ literal & 1

    for place, gate in enumerate(circuit.gates):
        left, right = of(gate.left), of(gate.right)
        made = other.conjunction(change(place, left) if change else left, right)
        found[2 * (len(names) + 1 + place)] = disguise(other, made) if disguise else made
    for name, literal in circuit.outputs:
        other.give(name, of(literal))
    return other


def disguised(draws):
    """What makes a literal anew as a choice by an input of it and of itself."""

    def choice(circuit, literal):
        return circuit.choice(draws.choice(circuit.inputs()), literal, literal)

    return choice


def changed(draws, circuit):
    """What complements an operand of one gate."""
    at = draws.randrange(len(circuit.gates)) if circuit.gates else 0
    return lambda place, literal: literal ^ (place == at)


def shuffled(draws, items):
    return draws.sample(items, len(items))


def second_of(draws, circuit, names=None):
    """Another circuit for the same outputs, in any order: the same function in other gates, or mostly another one."""
    names = names or shuffled(draws, circuit.names)
    if draws.random() < 0.5:
        second = rebuilt(circuit, names, disguise=disguised(draws))
    else:
        second = rebuilt(circuit, names, change=changed(draws, circuit))
    second.outputs = shuffled(draws, second.outputs)
    return second


def outputs_at(circuit, names, marked, words):
    """The values of each output at points over inputs of these names, of which some are read as complements."""
    full = (1 << len(words)) - 1
    given = dict(zip(names, columns(words, len(names))))
    values = [given[name] ^ (full if name in marked else 0) for name in circuit.names]
    return dict(zip((name for name, _ in circuit.outputs), circuit.values(values, len(words))))


def told(name, names, marked, word=None):
    """The line of an output whose circuits differ at a point first, or nowhere."""
    if word is None:
        return f"{name}: equal\n"
    bits = (f"{'~' if it in marked else ''}{it}={bit}" for it, bit in zip(names, word))
    return f"{name}: different at {' '.join(bits)}\n"


def compared(first, second, care=None, order=None, marked=()):
    """How a run on two circuits ends, by the values of all outputs at all points."""
    names = order or first.names
    words, _ = points_of(len(names))
    mine, yours = (outputs_at(circuit, names, marked, words) for circuit in (first, second))
    cared = mine[care] if care else (1 << len(words)) - 1
    lines, status = [], 0
    for name, _ in first.outputs:
        if name != care:
            differ = (mine[name] ^ yours[name]) & cared
            least = words[(differ & -differ).bit_length() - 1] if differ else None
            status |= differ != 0
            lines.append(told(name, names, marked, least))
    return Ended(int(status), "".join(lines), "")


def equal(text, *words):
    return run([program("circuit"), "equal", *words], text)


class Small(Test):
    """Random pairs of few inputs, with each of their points."""

    def test_pairs(self):
        """In both forms, in any order of inputs and outputs, with a care output, by an order and with complements."""
        draws = random.Random(41)
        met = set()
        for number in range(2 * SMALL):
            first = random_circuit(draws, draws.randint(1, 7), draws.randint(0, 30), draws.randint(1, 5))
            second = second_of(draws, first)
            care = draws.choice((None, *(name for name, _ in first.outputs)))
            order = draws.choice((None, shuffled(draws, first.names)))
            marked = {name for name in first.names if draws.random() < 0.3}
            words = ["--care", care] if care else []
            words += ["--order", ",".join(order)] if order else []
            words += ["--invert", ",".join(sorted(marked))] if marked else []
            with self.case(f"pair {number}"):
                forms = [draws.choice((circuit.binary(), circuit.ascii().encode())) for circuit in (first, second)]
                wanted = compared(first, second, care, order, marked)
                self.assertEqual(equal(b"".join(forms), *words), wanted)
                met.add((wanted.status, care is None))
        self.assertEqual(len(met), 4)

    def test_with_itself(self):
        draws = random.Random(43)
        for number in range(SMALL):
            circuit = random_circuit(draws, draws.randint(1, 62), draws.randint(0, 30), draws.randint(1, 64))
            with self.case(f"circuit {number}"):
                ended = equal(2 * circuit.binary())
                if ended.status == 5:
                    continue
                self.assertEqual(ended, Ended(0, "".join(f"{name}: equal\n" for name, _ in circuit.outputs), ""))


class Large(Test):
    """Pairs of up to 62 inputs."""

    def test_same_functions(self):
        for one, other in (("adder_16", "prefix_adder_16"), ("galois_8", "tower_8")):
            with self.case(f"{one} and {other}"):
                first, second = (CIRCUITS[name]() for name in (one, other))
                wanted = "".join(f"{name}: equal\n" for name, _ in first.outputs)
                self.assertEqual(equal(first.binary() + second.binary()), Ended(0, wanted, ""))

    def test_two_fields(self):
        first, second = (galois(8, polynomial) for polynomial in (0x1B, 0x1D))
        self.assertEqual(equal(first.binary() + second.binary()), compared(first, second))

    def test_many_gates(self):
        """As many gates as a pair may have, with the three that compare the outputs, and one more."""
        for gates, wanted in (
            (499_999, Ended(0, "f0: equal\n", "")),
            (500_000, Ended(3, "", "circuit: more than 1000000 gates for both\n")),
        ):
            with self.case(f"{gates} gates"):
                self.assertEqual(equal(chain(499_998).binary() + chain(gates).binary()), wanted)

    def test_beside_abc(self):
        """ABC says the same of a pair; where the circuits differ, they do at the point that is told."""
        draws = random.Random(47)
        met = set()
        with tempfile.TemporaryDirectory() as folder:
            for number in range(LARGE):
                first = random_circuit(draws, draws.randint(8, 62), draws.randint(5, 60), draws.randint(1, 6))
                second = second_of(draws, first, first.names)
                with self.case(f"pair {number}"):
                    ended = equal(first.binary() + second.binary())
                    if ended.status in (5, 6):
                        continue
                    self.assertEqual(ended.err, "")
                    met.add(ended.status)
                    names = [name for name, _ in first.outputs]
                    second.outputs.sort(key=lambda output: names.index(output[0]))
                    self.assertEqual(ended.status == 0, are_equal(pathlib.Path(folder), first, second))
                    self.look(first, second, ended)
        self.assertEqual(met, {0, 1})

    def test_written_by_abc(self):
        """A circuit and what ABC makes of it, in a file that ends in a comment."""
        draws = random.Random(53)
        with tempfile.TemporaryDirectory() as folder:
            folder = pathlib.Path(folder)
            for number in range(LARGE):
                circuit = random_circuit(draws, draws.randint(4, 40), draws.randint(5, 60), draws.randint(1, 6))
                (folder / "a.aig").write_bytes(circuit.binary())
                script = "read_aiger a.aig; strash; dch; balance; write_aiger -s b.aig"
                self.assertEqual(run([installed("berkeley-abc"), "-q", script], cwd=folder).status, 0)
                with self.case(f"circuit {number}"):
                    written = (folder / "b.aig").read_bytes()
                    self.assertIn(b"\nc\n", written)
                    for both in (circuit.binary() + written, written + circuit.binary()):
                        ended = equal(both)
                        if ended.status != 5:
                            wanted = "".join(f"{name}: equal\n" for name, _ in circuit.outputs)
                            self.assertEqual(ended, Ended(0, wanted, ""))

    def look(self, first, second, ended):
        """Outputs differ at the points that are told of them."""
        lines = ended.out.splitlines()
        self.assertEqual([line.partition(":")[0] for line in lines], [name for name, _ in first.outputs])
        for line in lines:
            name, _, bits = line.partition(": different at ")
            if bits:
                self.assertEqual([it[:-2] for it in bits.split()], first.names)
                word = "".join(it[-1] for it in bits.split())
                mine, yours = (outputs_at(circuit, first.names, (), [word])[name] for circuit in (first, second))
                self.assertNotEqual(mine, yours)


def chain(gates):
    """A circuit of so many gates, each of which stands on the one before: its output is 1 where both inputs are."""
    circuit = Circuit(numbered("x", 2))
    left, right = circuit.inputs()
    for _ in range(gates):
        circuit.gates.append(Gate(max(left, right), min(left, right)))
        left = 2 * (2 + len(circuit.gates))
    circuit.give("f0", left)
    return circuit


def are_equal(folder, first, second):
    """Whether ABC finds two circuits equivalent, whose inputs and outputs stand in the same order."""
    (folder / "a.aig").write_bytes(first.binary())
    (folder / "b.aig").write_bytes(second.binary())
    ended = run([installed("berkeley-abc"), "-q", "cec -n a.aig b.aig"], cwd=folder)
    return "Networks are equivalent" in ended.out


class Exact(Test):
    """Runs with just as many slots as a pair needs and with half as many."""

    def test_limits(self):
        draws = random.Random(59)
        met = set()
        for number in range(SMALL):
            first = random_circuit(draws, draws.randint(4, 9), draws.randint(5, 40), draws.randint(2, 4))
            second = second_of(draws, first, first.names)
            care = draws.choice((None, *(name for name, _ in first.outputs)))
            nodes = nodes_of_pair(first, second, care)
            words = ["--care", care] if care else []
            with self.case(f"pair {number}"):
                for bits in {bits_for(nodes), bits_for(nodes) - 1}:
                    if bits < LEAST_BITS:
                        continue
                    is_full = nodes > 2**bits
                    met.add(is_full)
                    ended = equal(first.binary() + second.binary(), "--nodes", bits, *words)
                    full = Ended(5, "", f"circuit: more than {2**bits} nodes are needed\n")
                    self.assertEqual(ended, full if is_full else compared(first, second, care))
        self.assertEqual(met, {False, True})


class Ends(Test):
    """Where the second circuit begins, and how runs end."""

    def test_ends(self):
        first = (EXAMPLES / "half_adder_gates.aag").read_bytes()
        both = 2 * first
        place = len(first)
        for words, text, status, message in (
            ([], b"", 3, "byte 0: NoFormat"),
            ([], first, 3, "two circuits are needed"),
            ([], first[:20], 3, "byte 20: Truncated"),
            ([], first + b"aig 1 1 0 1 0", 3, f"byte {place + 13}: Truncated"),
            ([], first + first.replace(b"i0 a\n", b"i0 z\n"), 3, "the circuits must have the same inputs"),
            ([], first + first.replace(b"o0 sum\n", b"o0 t\n"), 3, "the circuits must have the same outputs"),
            ([], 2 * b"aag 0 0 0 1 0\n1\n", 3, "there are no inputs"),
            (["--order", "x"], both, 12, "order must name every input once"),
            (["--invert", "x,x"], both, 12, "invert must name inputs, each once"),
            (["--care", "x"], both, 12, "care must name an output"),
        ):
            with self.case(f"{words} {text[-20:]}"):
                self.assertEqual(equal(text, *words), Ended(status, "", f"circuit: {message}\n"))

    def test_comments(self):
        """A comment may have any lines but one that begins as a circuit does."""
        first = (EXAMPLES / "half_adder_gates.aag").read_bytes()
        answer = equal(2 * first)
        self.assertEqual(answer.status, 0)
        for comment in (b"c\n", b"c\nof aag 1 1\n\naigs\n aig 1\n", b"c\nno end of a line\n"):
            with self.case(comment):
                self.assertEqual(equal(first + comment + first), answer)
        with self.case("a line that begins as a circuit does"):
            ended = equal(first + b"c\naag it is\n" + first)
            self.assertEqual((ended.status, ended.out), (3, ""))
            self.assertTrue(ended.err.startswith(f"circuit: byte {len(first) + 6}: "), ended.err)
        with self.case("a comment without a line feed at its end"):
            self.assertEqual(equal(first + b"c\nnone" + first).err, "circuit: two circuits are needed\n")

    def test_without_names(self):
        """A file in the binary form may end with its last gate."""
        draws = random.Random(61)
        for number in range(SMALL):
            circuit = random_circuit(draws, draws.randint(1, 9), draws.randint(1, 40), draws.randint(1, 5))
            whole = circuit.binary()
            bare = whole[: len(whole) - len(circuit.symbols())]
            with self.case(f"circuit {number}"):
                outputs = range(1, len(circuit.outputs) + 1)
                wanted = Ended(0, "".join(f"f{output}: equal\n" for output in outputs), "")
                self.assertEqual(equal(bare + bare), wanted)
                self.assertEqual(equal(bare + b"c\n" + bare), wanted)

    def test_words(self):
        for words in (["equal", "--nodes", "3"], ["equal", "--care"], ["equal", "equal"], ["equals"]):
            with self.case(words):
                ended = run([program("circuit"), *words], "")
                self.assertEqual((ended.status, ended.out), (2, ""))
