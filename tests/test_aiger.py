"""The program circuit on AIGER files: random circuits beside their own values, plain elimination and BRiAl; files of
yosys and ABC; ABC's equivalence check; and files with a byte changed.

What a circuit's outputs are is told by its gates, one after the other (bench/make_circuits.py), by ABC, or by BRiAl,
which finds the polynomials gate by gate. What is free is told by a care output.
"""

import random
import re
import tempfile

from bench import brial
from bench.make_circuits import CIRCUITS, Circuit, galois, numbered
from tests import plain_polynomials
from tests.harness import EXAMPLES, Ended, InFolder, Test, answer, installed, program, run
from tests.needed_nodes import LEAST_BITS, MOST_TERMS, bits_for, cost_of_circuit, due
from tests.plain_polynomials import Points

POINTS = 256
SMALL = 150
LARGE = 40
CHANGED = 500

# The circuits that BRiAl answers within a second.
BESIDE_BRIAL = [name for name in CIRCUITS if name not in ("galois_31", "ones_32", "comparator_16", "multiplier_6")]


def random_circuit(draws, inputs, gates, outputs):
    """A circuit whose gates stand on near and far literals alike."""
    circuit = Circuit(numbered("x", inputs))
    literals = [0, *circuit.inputs()]
    for _ in range(gates):
        left, right = (draws.choice(literals[-8:] if draws.random() < 0.5 else literals) for _ in range(2))
        make = draws.choice((circuit.conjunction, circuit.conjunction, circuit.sum))
        literals.append(make(left ^ draws.randrange(2), right ^ draws.randrange(2)))
    for place in range(outputs):
        circuit.give(f"f{place}", draws.choice(literals[-2 * outputs :]) ^ draws.randrange(2))
    return circuit


def points_of(inputs):
    """All points of so many inputs, as words, and the values of each input at them as numbers with a bit for each."""
    words = [format(point, f"0{inputs}b") for point in range(2**inputs)]
    return words, columns(words, inputs)


def columns(words, inputs):
    return [sum(1 << place for place, word in enumerate(words) if word[k] == "1") for k in range(inputs)]


def read_line(line, names):
    """What stands on the left of a printed line, and its terms in their order."""
    left, right = line.split(" = ")
    return left, plain_polynomials.read(right, names)


def ones_at(terms, words):
    """The points of some words at which a polynomial is 1, as a number with a bit for each."""
    points = [int(word, 2) for word in words]
    return sum(1 << place for place, at in enumerate(points) if sum(at & mask == mask for mask in terms) % 2)


def answers(circuit, mode, *words, text=None, names=None):
    """The lines that circuit prints: what stands on the left, and the terms."""
    lines = answer([program("circuit"), mode, *words], circuit.binary() if text is None else text)
    return [read_line(line, names or circuit.names) for line in lines]


def degree_of(terms):
    return max((mask.bit_count() for mask in terms), default=0)


def nodes_of(terms, inputs):
    """The nodes of the diagram of a polynomial: its different parts that are no constant, by their first variables."""
    met = set()

    def visit(family, var):
        while var <= inputs and not any(mask >> (inputs - var) & 1 for mask in family):
            var += 1
        if var > inputs or (var, family) in met:
            return
        met.add((var, family))
        bit = 1 << (inputs - var)
        visit(frozenset(mask for mask in family if not mask & bit), var + 1)
        visit(frozenset(mask ^ bit for mask in family if mask & bit), var + 1)

    visit(frozenset(terms), 1)
    return len(met)


class Small(Test):
    """Random circuits of few inputs, with each of their points."""

    def setUp(self):
        self.draws = random.Random(7)

    def drawn(self):
        inputs = self.draws.randint(1, 7)
        return random_circuit(self.draws, inputs, self.draws.randint(0, 30), self.draws.randint(1, 5))

    def ordered(self, terms):
        """The terms of an answer, which must go from the greatest to the least."""
        self.assertEqual(terms, sorted(terms, reverse=True))
        return set(terms)

    def test_all_points(self):
        """In both forms, and by the counts of mode count."""
        for number in range(SMALL):
            circuit = self.drawn()
            words, values = points_of(len(circuit.names))
            with self.case(f"circuit {number}"):
                found = answers(circuit, "anf")
                self.assertEqual(found, answers(circuit, "anf", text=circuit.ascii()))
                self.assertEqual([left for left, _ in found], [name for name, _ in circuit.outputs])
                for (_, terms), ones in zip(found, circuit.values(values, len(words))):
                    self.assertEqual(ones_at(self.ordered(terms), words), ones)
                counts = answer([program("circuit"), "count"], circuit.binary())
                self.assertEqual(
                    counts,
                    [
                        f"{left}: terms {len(terms)}, degree {degree_of(terms)}, "
                        f"nodes {nodes_of(terms, len(circuit.names))}"
                        for left, terms in found
                    ],
                )

    def test_care_points(self):
        """With a care output: the least polynomials and the reduced basis by plain elimination."""
        for number in range(SMALL):
            circuit = self.drawn()
            words, values = points_of(len(circuit.names))
            outputs = dict(zip([name for name, _ in circuit.outputs], circuit.values(values, len(words))))
            care = self.draws.choice(list(outputs))
            kept = [word for place, word in enumerate(words) if outputs[care] >> place & 1]
            plain = Points(len(circuit.names), kept)
            with self.case(f"circuit {number}"):
                wanted = []
                for name, ones in outputs.items():
                    if name != care:
                        at = [word for place, word in enumerate(words) if ones >> place & 1 and word in kept]
                        wanted.append((name, plain.least(at)))
                wanted += [("0", element) for element in plain.basis()]
                found = answers(circuit, "basis", "--care", care)
                self.assertEqual([(left, self.ordered(terms)) for left, terms in found], wanted)
                without = [it for it in found if it[0] != "0"]
                self.assertEqual(answers(circuit, "anf", "--care", care), without)

    def test_orders_and_complements(self):
        """What is printed by an order and with complements, read as it stands, has the circuit's values."""
        for number in range(SMALL):
            circuit = self.drawn()
            words, values = points_of(len(circuit.names))
            order = self.draws.sample(circuit.names, len(circuit.names))
            marked = {name for name in order if self.draws.random() < 0.5}
            options = ["--order", ",".join(order)] + (["--invert", ",".join(sorted(marked))] if marked else [])
            names = [f"~{name}" if name in marked else name for name in order]
            with self.case(f"circuit {number}"):
                found = answers(circuit, "anf", *options, names=names)
                places = [circuit.names.index(name) for name in order]
                turned = [
                    "".join(str(int(word[place]) ^ (name in marked)) for place, name in zip(places, order))
                    for word in words
                ]
                for (_, terms), ones in zip(found, circuit.values(values, len(words))):
                    self.assertEqual(ones_at(self.ordered(terms), turned), ones)


def listed(draws, circuit, loop=False):
    """The circuit in the ASCII form with other variables, with gaps, and its gates in any order, each with its operands
    either way round; and the lines of its gates. With a loop the operand of a gate is one that stands on it, or it
    itself."""
    size = len(circuit.names)
    count = 1 + size + len(circuit.gates)
    most = count + draws.randrange(5)
    variables = [0, *draws.sample(range(1, most + 1), count - 1)]

    def other(literal):
        return 2 * variables[literal // 2] + literal % 2

    gates = []
    for place, gate in enumerate(circuit.gates):
        operands = [other(literal) for literal in gate]
        draws.shuffle(operands)
        gates.append([2 * variables[1 + size + place], *operands])
    if loop:
        below = draws.randrange(len(gates))
        gates[below][draws.choice((1, 2))] = gates[stands_on(draws, circuit, below)][0] + draws.randrange(2)
    draws.shuffle(gates)
    lines = [f"aag {most} {size} 0 {len(circuit.outputs)} {len(gates)}"]
    lines += [f"{other(literal)}" for literal in circuit.inputs()]
    lines += [f"{other(literal)}" for _, literal in circuit.outputs]
    front = "".join(f"{line}\n" for line in lines)
    return front, [f"{' '.join(map(str, gate))}\n" for gate in gates], circuit.symbols()


def stands_on(draws, circuit, below):
    """The place of a gate that stands on the one at this place, or is it."""
    size = len(circuit.names)
    found = {below}
    for place in range(below + 1, len(circuit.gates)):
        if any(literal // 2 - 1 - size in found for literal in circuit.gates[place]):
            found.add(place)
    return draws.choice(sorted(found))


def first_on_itself(front, gates):
    """How many bytes stand before the first line of a gate that stands on one that stands on itself."""
    lines = {int(line.split()[0]) // 2: [int(it) // 2 for it in line.split()[1:]] for line in gates}
    placed, grown = set(), True
    while grown:
        ready = {own for own, operands in lines.items() if all(it not in lines or it in placed for it in operands)}
        grown, placed = ready != placed, ready
    before = len(front)
    for line in gates:
        if int(line.split()[0]) // 2 not in placed:
            return before
        before += len(line)
    return None


class Listed(Test):
    """Files in the ASCII form whose variables have any numbers and whose gates stand in any order."""

    def test_any_order(self):
        draws = random.Random(31)
        for number in range(SMALL):
            circuit = random_circuit(draws, draws.randint(1, 20), draws.randint(1, 40), draws.randint(1, 5))
            with self.case(f"circuit {number}"):
                front, gates, symbols = listed(draws, circuit)
                text = front + "".join(gates) + symbols
                ended = run([program("circuit"), "anf"], text)
                self.assertEqual(ended, run([program("circuit"), "anf"], circuit.binary()))

    def test_loops(self):
        draws = random.Random(37)
        for number in range(SMALL):
            circuit = random_circuit(draws, draws.randint(1, 6), draws.randint(4, 30), 2)
            if not circuit.gates:
                continue
            with self.case(f"circuit {number}"):
                front, gates, symbols = listed(draws, circuit, loop=True)
                byte = first_on_itself(front, gates)
                ended = run([program("circuit"), "anf"], front + "".join(gates) + symbols)
                self.assertEqual(ended, Ended(3, "", f"circuit: byte {byte}: OnItself\n"))


class Large(Test):
    """Circuits of up to 62 inputs, at random points."""

    def try_at_points(self, circuit, found):
        draws = random.Random(11)
        inputs = len(circuit.names)
        words = [format(draws.getrandbits(inputs), f"0{inputs}b") for _ in range(POINTS)]
        values = circuit.values(columns(words, inputs), POINTS)
        self.assertEqual(len(found), len(values))
        for (_, terms), ones in zip(found, values):
            self.assertEqual(ones_at(terms, words), ones)

    def test_random(self):
        draws = random.Random(13)
        answered = 0
        for number in range(LARGE):
            circuit = random_circuit(draws, draws.randint(8, 62), draws.randint(10, 120), draws.randint(1, 20))
            with self.case(f"circuit {number}"):
                ended = run([program("circuit"), "anf"], circuit.binary())
                if ended.status in (5, 6):
                    continue
                self.assertEqual((ended.status, ended.err), (0, ""))
                answered += 1
                self.try_at_points(circuit, [read_line(line, circuit.names) for line in ended.out.splitlines()])
        self.assertGreater(answered, LARGE / 2)

    def test_everyday(self):
        """Parities, adders, shifters, checksums, multipliers and S-boxes: each has an answer."""
        for name, make in CIRCUITS.items():
            circuit = make()
            with self.case(name):
                words = ["--nodes", "23"] if name == "multiplier_6" else []
                ended = run([program("circuit"), "anf", *words], circuit.binary())
                if name in ("ones_32", "comparator_16"):
                    self.assertIn(ended.status, (5, 6))
                    continue
                self.assertEqual((ended.status, ended.err), (0, ""))
                self.try_at_points(circuit, [read_line(line, circuit.names) for line in ended.out.splitlines()])

    def test_same_functions(self):
        """Netlists of one function have one answer, and those of two have two."""
        for one, other in (("adder_16", "prefix_adder_16"), ("galois_8", "tower_8")):
            with self.case(f"{one} and {other}"):
                found = [answer([program("circuit"), "anf"], CIRCUITS[name]().binary()) for name in (one, other)]
                self.assertEqual(*found)
        with self.case("two fields of 2^8 elements"):
            found = [answer([program("circuit"), "anf"], galois(8, p).binary()) for p in (0x1B, 0x1D)]
            self.assertNotEqual(*found)

    def test_beside_brial(self):
        """The same text as by BRiAl, gate by gate."""
        with tempfile.TemporaryDirectory() as folder:
            driver = brial.driver(folder)
            if driver is None:
                self.skipTest("BRiAl is not installed")
            draws = random.Random(17)
            circuits = {name: CIRCUITS[name]() for name in BESIDE_BRIAL}
            for number in range(LARGE):
                circuits[f"circuit {number}"] = random_circuit(draws, draws.randint(4, 62), 40, 8)
            for name, circuit in circuits.items():
                with self.case(name):
                    text = circuit.ascii()
                    self.assertEqual(answer([program("circuit"), "anf"], text), answer([driver, "gates"], text))


def verilog(circuit, found):
    """A module with the circuit's names, whose outputs are printed polynomials."""
    size = len(circuit.names)
    outputs = [left for left, _ in found]
    lines = [f"module m({', '.join(circuit.names + outputs)});"]
    lines += [f"input {name};" for name in circuit.names] + [f"output {name};" for name in outputs]
    for left, terms in found:
        products = [
            [name for place, name in enumerate(circuit.names) if mask >> (size - 1 - place) & 1] or ["1'b1"]
            for mask in terms
        ]
        sums = [f"({' & '.join(product)})" for product in products] or ["1'b0"]
        lines.append(f"assign {left} = {' ^ '.join(sums)};")
    return "\n".join([*lines, "endmodule", ""])


class Outside(InFolder):
    """What yosys and ABC write, and what ABC says of an answer."""

    def are_equal(self, circuit, found):
        """Whether ABC finds the file a.aig, which is there, and the printed polynomials equivalent."""
        (self.here / "anf.v").write_text(verilog(circuit, found))
        script = "read_verilog anf.v; strash; write_aiger b.aig; cec -n a.aig b.aig"
        ended = run([installed("berkeley-abc"), "-q", script], cwd=self.here)
        return "Networks are equivalent" in ended.out

    def test_equivalence(self):
        draws = random.Random(19)
        for number in range(LARGE):
            circuit = random_circuit(draws, draws.randint(4, 62), draws.randint(5, 40), draws.randint(1, 6))
            with self.case(f"circuit {number}"):
                (self.here / "a.aig").write_bytes(circuit.binary())
                self.assertTrue(self.are_equal(circuit, answers(circuit, "anf")))

    def test_files_of_others(self):
        """yosys writes both forms, ABC the binary one, and all three have one answer."""
        yosys = (
            f"read_verilog {EXAMPLES / 'adder.v'}; synth -flatten; aigmap; "
            "write_aiger -symbols y.aig; write_aiger -ascii -symbols y.aag"
        )
        self.assertEqual(run([installed("yosys"), "-q", "-p", yosys], cwd=self.here).status, 0)
        abc = "read_aiger y.aig; strash; balance; write_aiger -s z.aig"
        self.assertEqual(run([installed("berkeley-abc"), "-q", abc], cwd=self.here).status, 0)
        files = [(self.here / name).read_bytes() for name in ("y.aig", "y.aag", "z.aig")]
        found = [answer([program("circuit"), "anf"], text) for text in files]
        self.assertEqual(found[0], found[1])
        self.assertEqual(found[0], found[2])
        self.assertTrue(found[0])

    def test_changed_bytes(self):
        """A file with a byte changed, dropped or added is refused at a place within it, or it is what ABC reads."""
        draws = random.Random(23)
        refused = taken = 0
        for number in range(CHANGED):
            circuit = random_circuit(draws, draws.randint(2, 6), draws.randint(1, 12), draws.randint(1, 3))
            whole = circuit.binary()
            front = len(whole) - len(circuit.symbols())
            place = draws.randrange(front)
            other = bytes([draws.choice((draws.randrange(256), draws.randrange(8), draws.choice(b"0123456789 \n")))])
            there = draws.choice((b"", other, other + whole[place : place + 1]))
            changed = whole[:place] + there + whole[place + 1 :]
            with self.case(f"file {number}"):
                ended = run([program("circuit"), "anf"], changed)
                if ended.status == 3:
                    refused += 1
                    said = re.fullmatch(r"circuit: byte (\d+): \w+\n|circuit: there are no inputs\n", ended.err)
                    self.assertTrue(said, ended.err)
                    self.assertLessEqual(int(said[1] or 0), len(changed))
                    continue
                self.assertEqual((ended.status, ended.err), (0, ""))
                taken += 1
                (self.here / "a.aig").write_bytes(changed)
                named = Circuit(numbered("x", len(circuit.names)))
                found = [read_line(line, named.names) for line in ended.out.splitlines()]
                self.assertTrue(self.are_equal(named, found))
        self.assertGreater(min(refused, taken), CHANGED / 40)


class Exact(Test):
    """Runs with just as many slots as a circuit needs and with half as many, and with a term less than there are."""

    def expect(self, cost, circuit, words, bits, limit):
        ended = run([program("circuit"), *words, "--nodes", bits, "--terms", limit], circuit.binary())
        name = f"{words} {bits} {limit}"
        wanted = due(cost, bits, limit, None, "circuit")
        if wanted is None:
            self.assertEqual((ended.status, ended.err), (0, ""), name)
        else:
            self.assertEqual(ended, wanted, name)

    def test_limits(self):
        draws = random.Random(29)
        met = set()
        for number in range(SMALL):
            circuit = random_circuit(draws, draws.randint(2, 9), draws.randint(1, 40), draws.randint(2, 4))
            care = draws.choice((None, *range(len(circuit.outputs))))
            is_basis = draws.random() < 0.5
            cost = cost_of_circuit(circuit, care, is_basis)
            words = ["basis" if is_basis else "anf"]
            words += [] if care is None else ["--care", circuit.outputs[care][0]]
            with self.case(f"circuit {number}"):
                for bits in {bits_for(cost.first), bits_for(cost.last), bits_for(cost.last) - 1, LEAST_BITS}:
                    for limit in {MOST_TERMS, max(cost.leads, 1), max(cost.leads - 1, 1), max(cost.terms, 1)}:
                        if bits >= LEAST_BITS:
                            met.add(cost.last > 2**bits)
                            self.expect(cost, circuit, words, bits, limit)
        self.assertEqual(met, {False, True})


class Ends(Test):
    """How runs end, each with its status and message."""

    def test_ends(self):
        half = (EXAMPLES / "half_adder_gates.aag").read_bytes()
        for words, text, status, message in (
            (["anf"], b"", 3, "byte 0: NoFormat"),
            (["anf"], b"aig 1 1 0 1 0", 3, "byte 13: Truncated"),
            (["anf"], b"aag 0 0 0 1 0\n1\n", 3, "there are no inputs"),
            (["anf", "--order", "x"], half, 12, "order must name every input once"),
            (["anf", "--order", "x,x"], half, 12, "order must name every input once"),
            (["anf", "--invert", "x,z"], half, 12, "invert must name inputs, each once"),
            (["anf", "--invert", "x,x"], half, 12, "invert must name inputs, each once"),
            (["anf", "--care", "x"], half, 12, "care must name an output"),
            (["anf", "--terms", "2"], half, 6, "more than 2 terms"),
        ):
            with self.case(f"{words} {text[:20]}"):
                self.assertEqual(run([program("circuit"), *words], text), Ended(status, "", f"circuit: {message}\n"))

    def test_words(self):
        half = (EXAMPLES / "half_adder_gates.aag").read_bytes()
        for words in ([], ["--help"], ["solve"], ["anf", "anf"], ["anf", "--nodes", "3"], ["anf", "--care"]):
            with self.case(words):
                ended = run([program("circuit"), *words], half)
                self.assertEqual((ended.status, ended.out), (2, ""))
                self.assertTrue(ended.err.startswith("circuit: usage: circuit anf|basis|count|equal "), ended.err)

