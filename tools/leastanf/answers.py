"""Answers of the programs: outputs and ideals, read from what `interp` and `nfq` print."""

import math
import operator
import re

from . import formats
from .factors import COMPLEMENT, factors_of, is_complement
from .polynomials import Monomials, Polynomial, bits_of


class AnswerError(Exception):
    """Why a text is no answer, with the number of its first bad line, or None."""

    status = 3

    def __init__(self, line, text):
        super().__init__(text if line is None else f"answer line {line}: {text}")
        self.line = line


class Output:
    """What an answer says of an output: its name, its polynomial, and the elements of its basis, where it has some."""

    def __init__(self, name, polynomial, basis=()):
        self.name = name
        self.polynomial = polynomial
        self.basis = tuple(basis)

    def __repr__(self):
        return f"Output({self.name} = {self.polynomial}, {len(self.basis)} elements)"


class Answer:
    """An answer, by the names of the inputs in the order that it has: outputs in its order, as `interp` and `nfq
    reduce` print them, or an ideal without an output, the elements of its basis, as `nfq union` and `nfq meet` do. The
    other one is None."""

    def __init__(self, inputs, outputs=None, ideal=None):
        self.inputs = tuple(inputs)
        self.outputs = outputs
        self.ideal = ideal

    def __iter__(self):
        """The outputs, in their order."""
        return iter(self.outputs or ())

    def polynomials(self):
        """All polynomials and elements, in the order of the lines."""
        for output in self:
            yield output.polynomial
            yield from output.basis
        yield from self.ideal or ()

    def factors(self):
        """The factors that its monomials may have, in its order; complements only where some monomial has one."""
        return factors_of(self.inputs, any(polynomial.has_complement() for polynomial in self.polynomials()))

    def text(self, name=None):
        """The text in a format of the table `formats.FORMATS`, or as the programs print it."""
        if name is not None:
            return formats.text(self, name)
        lines = []
        for output in self:
            lines.append(f"{output.name} = {output.polynomial}\n")
            lines += [f"0 = {element}\n" for element in output.basis]
        lines += [f"0 = {element}\n" for element in self.ideal or ()]
        return "".join(lines)

    __str__ = text


def monomials_of(text):
    """The monomials of a polynomial's text, each a tuple of factors."""
    if text == "0":
        return []
    return [() if term == "1" else tuple(term.split("*")) for term in text.split(" + ")]


# Terms are cut before the first of so many factors, the last ones. Their parts are kept, but for those that are longer,
# which are cut again.
LAST, LONGEST = 12, 40


def masks_of(text, bits):
    """The monomials of a polynomial's text, each the sum of the bits of its factors, or an AnswerError. The bits stand
    in the order that factors have in the text, as far as it is in order, which makes it fast."""
    return ordered_masks_of(text, bits)[0]


def ordered_masks_of(text, bits):
    """The same, and whether the bits of each monomial descend as its factors are written."""
    if text == "0":
        return [], True
    terms, masks, is_ordered = text.split(" + "), Masks(bits), True
    cut = re.compile(rf"\*(?:{'|'.join(map(re.escape, last_factors(terms, bits)))})(?![^*])").search
    # `lowest` is the last bit of the front, or 1 before there is one.
    front, size, base, lowest, found = " ", 0, 0, 1, []
    for term in terms:
        # A term that begins like the one before, as most do, has its front from there.
        if not term.startswith(front):
            met = cut(term)
            if met is None:
                found.append(0 if term == "1" else masks[term])
                continue
            size = met.start() + 1
            front, base = term[:size], masks[term[: size - 1]]
            lowest = base & -base
        rest = masks[term[size:]]
        if rest >= lowest:
            is_ordered = False
        found.append(base + rest)
    return found, is_ordered and masks.are_ordered


def last_factors(terms, bits):
    """The last factors that occur in some of the terms."""
    met = set("*".join(terms[:: len(terms) // 100 + 1]).split("*"))
    return [factor for factor in bits if factor in met][-LAST:] or list(bits)[-LAST:]


class Masks(dict):
    """The masks of products of factors by their texts, as far as they were asked for and are kept, and whether the bits
    of each product descend."""

    def __init__(self, bits):
        super().__init__()
        self.bits = bits
        self.are_ordered = True

    def __missing__(self, text):
        middle = text.find("*", len(text) // 2)
        if len(text) > LONGEST and middle > 0:
            first, second = self[text[:middle]], self[text[middle + 1 :]]
            self.are_ordered &= second < first & -first
            return first + second
        try:
            bits = [self.bits[factor] for factor in text.split("*")]
        except KeyError as error:
            raise AnswerError(None, f"{error.args[0][:60]!r} is no input of the file") from None
        self.are_ordered &= all(map(operator.gt, bits, bits[1:]))
        mask = self[text] = sum(bits)
        return mask


class Reader:
    """Reads polynomials, as the programs print them, over given inputs. `aliases` are other names for some of them, and
    `ordered` says whether factors and terms have to stand in the order of the inputs."""

    def __init__(self, inputs, aliases, text, ordered=False):
        factors = factors_of(inputs, COMPLEMENT in text)
        self.monomials = Monomials(factors)
        bits = bits_of(factors)
        others = [(before, after) for before, after in (aliases or {}).items() if before not in bits and after in bits]
        self.aliases = dict(others)
        bits.update([(before, bits[after]) for before, after in others])
        self.bits = dict(sorted(bits.items(), key=operator.itemgetter(1), reverse=True))
        self.ordered = ordered
        # The bits of complements, each beside that of its input.
        self.complements = sum(bit for factor, bit in self.bits.items() if is_complement(factor))

    def polynomial(self, line, text):
        """The polynomial of a text on a line."""
        try:
            masks, is_ordered = ordered_masks_of(text, self.bits)
        except AnswerError as error:
            raise AnswerError(line, str(error)) from None
        if self.complements and any(mask >> 1 & mask & self.complements for mask in masks):
            raise AnswerError(line, "a term has an input and its complement")
        if not is_ordered or not all(map(operator.gt, masks, masks[1:])):
            return self.refuse_faults(line, text, masks)
        return Polynomial.of_masks(self.monomials, masks)

    def refuse_faults(self, line, text, masks):
        """The polynomial of another text, which is refused where a term or a factor stands twice, and where order is
        asked for."""
        factors = text.count("*") + len(masks) - masks.count(0)
        if "".join(map(bin, masks)).count("1") != factors:
            raise AnswerError(line, "a term has an input twice")
        if len(set(masks)) != len(masks):
            raise AnswerError(line, "a term stands twice")
        found = Polynomial([self.aliases.get(name, name) for name in monomial] for monomial in monomials_of(text))
        before = math.inf
        for monomial, mask in zip(found.monomials, masks):
            if self.ordered and (mask > before or monomial != self.monomials.of(mask)):
                term = "*".join(monomial)[:60] or "1"
                raise AnswerError(line, f"{term!r} does not stand in the order of the inputs: name it by --order")
            before = mask
        return found


def parse(text, inputs, outputs, input_aliases=None, output_aliases=None, ordered=False, whole=False):
    """The answer that a text is, by the names of the inputs in its order and of the outputs, or else an AnswerError.

    An output may be missing, or stand in several lines, as queries ask for it, but where the answer has to be `whole`:
    there each output stands once, in this order. Of an empty text it is not known what it answers, so it is refused:
    `parse_ideal` takes it for a basis without elements. `input_aliases` and `output_aliases` are other names for some
    of them, and `ordered` says whether factors and terms have to stand in the order of the inputs.
    """
    reader = Reader(inputs, input_aliases, text, ordered)
    found, ideal = [], []
    number = 0
    for number, left, right in lines_of(text):
        name = left if left in outputs else (output_aliases or {}).get(left, left)
        if name != "0" and name not in outputs:
            raise AnswerError(number, f"{left[:60]!r} is no output of the file")
        if name != "0" and ideal:
            raise AnswerError(number, "an output stands behind the elements of an ideal")
        if name != "0" and whole:
            refuse_place(number, name, found, outputs)
        if name == "0" and not found and whole and len(outputs) < 2:
            raise AnswerError(number, f"an element stands before output {outputs[0]}")
        polynomial = reader.polynomial(number, right)
        if name != "0":
            found.append(Output(name, polynomial))
        elif found:
            found[-1].basis += (polynomial,)
        else:
            ideal.append(polynomial)
    if not found and not ideal:
        raise AnswerError(None, "the answer is empty")
    if whole and found and len(found) < len(outputs):
        raise AnswerError(number + 1, f"the answer ends, and has nothing of output {outputs[len(found)]}")
    return Answer(inputs, outputs=found) if found else Answer(inputs, ideal=tuple(ideal))


def refuse_place(line, name, found, outputs):
    """Refuses an output that was found already, or that is not the next one."""
    if any(name == output.name for output in found):
        raise AnswerError(line, f"output {name} stands twice")
    if name != outputs[len(found)]:
        raise AnswerError(line, f"output {name} stands where output {outputs[len(found)]} is wanted")


def parse_ideal(text, inputs, aliases=None, ordered=False):
    """The answer of `nfq union` or `nfq meet` that a text is: lines of elements alone, of which there may be none."""
    reader = Reader(inputs, aliases, text, ordered)
    elements = []
    for number, left, right in lines_of(text):
        if left != "0":
            raise AnswerError(number, f"an element is wanted, and not the output {left!r}")
        elements.append(reader.polynomial(number, right))
    return Answer(inputs, ideal=tuple(elements))


def lines_of(text):
    """The lines of an answer that are not empty: the number, and what stands on both sides of ` = `."""
    lines = text.split("\n")
    if lines.pop() != "":
        raise AnswerError(len(lines) + 1, "the line has no end: was the answer cut?")
    for number, line in enumerate(lines, 1):
        line = line[:-1] if line.endswith("\r") else line
        left, equals, right = line.partition(" = ")
        if line and not (left and equals and right):
            raise AnswerError(number, "it is not of the form NAME = POLYNOMIAL")
        if line:
            yield number, left, right
