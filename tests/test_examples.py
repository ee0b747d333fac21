"""The program on each file of examples/, compared with the answers beside it, which are judged in mode check too.

NAME.anf and NAME.basis are the answers to NAME.pla in these modes, NAME.ordered the one in mode anf by the order of
the inputs in NAME.order, and NAME.message what stands on standard error where there is no answer. Each answer in mode
basis over few enough inputs is judged as it is, and with a term or a line of it dropped, added or moved. Beside a
circuit NAME.aag, which has no description of its name, stand the answers of circuit, NAME.count among them, with the
care output that NAME.care names. NAME.equal is what it prints where the circuit that NAME.beside names stands behind.
"""

from tests.harness import EXAMPLES, Ended, Test, program, run
from tests.plain_descriptions import inputs_of, with_end
from tests.plain_polynomials import count_terms

# The inputs that mode check takes.
MOST_CHECKED = 14

# So many outputs have a line of progress.
MOST_TOLD = 16

# The ends of a judgement.
YES = Ended(0, "yes\n", "")


def no(line, fault):
    """The end where a line of the answer has a fault."""
    return Ended(1, f"no {line} {fault}\n", "")


def is_element(line):
    """Whether a line of an answer is an element of a basis."""
    return line.startswith("0 = ")


def progress(text):
    """The lines of progress on an answer: the terms of each of the first 16 outputs, and the elements of its basis."""
    counts = []
    for line in text.splitlines():
        if is_element(line):
            counts[-1][1] += 1
        else:
            counts.append([count_terms(line), 0])
    numbered = enumerate(counts[:MOST_TOLD], 1)
    return "".join(f"output {output}: {terms} terms, {elements} basis\n" for output, (terms, elements) in numbered)


def changes_of_first(line):
    """The first line of an answer, changed, each with what is said of it."""
    left, polynomial = line.split(" = ")
    terms = polynomial.split(" + ")
    if len(terms) > 1:
        yield "a term is dropped", f"{left} = {' + '.join(terms[:-1])}", no(1, "Value")
        moved = [terms[-1], *terms[:-1]]
        yield "a term is moved", f"{left} = {' + '.join(moved)}", Ended(3, "", "interp: answer line 1: TermOrder\n")
    if terms[-1] not in ("0", "1"):
        yield "a term is added", f"{line} + 1", no(1, "Value")


def changes(lines):
    """An answer, changed in one place, each with what is said of it."""
    first, rest = lines[0], lines[1:]
    for what, changed, wanted in changes_of_first(first):
        yield what, [changed, *rest], wanted
    if rest and is_element(rest[0]) and " + " in rest[0]:
        yield "a term of an element is dropped", [first, rest[0].rpartition(" + ")[0], *rest[1:]], no(2, "NotZero")
    if len(rest) > 1 and is_element(rest[0]) and is_element(rest[1]):
        yield "two elements are exchanged", [first, rest[1], rest[0], *rest[2:]], no(3, "Order")
    if is_element(lines[-1]):
        last = max(number for number, line in enumerate(lines, 1) if not is_element(line))
        yield "an element is dropped", lines[:-1], no(last, "Count")


class Answers(Test):
    """What is printed, beside what stands in the files."""

    def files(self, ending):
        """The files of examples/ with an ending that stand beside a description."""
        found = sorted(it for it in EXAMPLES.glob(f"*.{ending}") if it.with_suffix(".pla").is_file())
        self.assertTrue(found, ending)
        return found

    def answer_to(self, file, words):
        """How the program ends on the description of a file."""
        return run([program("interp"), *words], file.with_suffix(".pla").read_bytes())

    def test_modes(self):
        for mode in ("anf", "basis"):
            for file in self.files(mode):
                with self.case(file.name):
                    text = file.read_text()
                    self.assertEqual(self.answer_to(file, [mode]), Ended(0, text, progress(text)))

    def test_orders(self):
        for file in self.files("ordered"):
            with self.case(file.name):
                text, order = file.read_text(), file.with_suffix(".order").read_text().strip()
                self.assertEqual(self.answer_to(file, ["anf", "--order", order]), Ended(0, text, progress(text)))

    def test_messages(self):
        for file in self.files("message"):
            with self.case(file.name):
                ended = self.answer_to(file, ["anf"])
                self.assertEqual((ended.out, ended.err), ("", file.read_text()))

    def test_each_file_has_an_answer(self):
        for file in self.files("pla"):
            with self.case(file.name):
                self.assertTrue([other for other in EXAMPLES.glob(f"{file.stem}.*") if other != file])


class Circuits(Test):
    """What circuit prints, beside what stands in the files."""

    def test_modes(self):
        for file in sorted(EXAMPLES.glob("*.aag")):
            care = file.with_suffix(".care")
            words = ["--care", care.read_text().strip()] if care.is_file() else []
            answers = [it for it in map(file.with_suffix, (".anf", ".basis", ".count")) if it.is_file()]
            self.assertTrue(answers, file.name)
            for wanted in answers:
                with self.case(wanted.name):
                    ended = run([program("circuit"), wanted.suffix[1:], *words], file.read_bytes())
                    self.assertEqual(ended, Ended(0, wanted.read_text(), ""))

    def test_pairs(self):
        for file in sorted(EXAMPLES.glob("*.beside")):
            first = file.with_suffix(".aag")
            second = EXAMPLES / f"{file.read_text().strip()}.aag"
            care = file.with_suffix(".care")
            words = ["--care", care.read_text().strip()] if care.is_file() else []
            with self.case(file.name):
                ended = run([program("circuit"), "equal", *words], first.read_bytes() + second.read_bytes())
                wanted = file.with_suffix(".equal").read_text()
                self.assertEqual(ended, Ended(int(": different at " in wanted), wanted, ""))


class Judged(Test):
    """Answers that mode check judges."""

    def judge(self, text, lines, wanted):
        answer = "".join(f"{line}\n" for line in lines)
        self.assertEqual(run([program("interp"), "check"], text + answer), wanted)

    def test_answers(self):
        for file in sorted(it for it in EXAMPLES.glob("*.anf") if it.with_suffix(".pla").is_file()):
            given = file.with_suffix(".pla").read_text()
            if inputs_of(given) > MOST_CHECKED:
                continue
            text = with_end(given)
            lines = run([program("interp"), "basis"], given).out.splitlines()
            with self.case(file.stem):
                self.judge(text, lines, YES)
            for what, changed, wanted in changes(lines):
                with self.case(f"{file.stem}, {what}"):
                    self.judge(text, changed, wanted)
