"""Answers as circuits and covers: Verilog, BLIF, and exclusive-or covers.

An element of a basis is an output too: element K of output NAME is NAME_K, and that of an ideal without an output
ideal_K. A care point is one where all of these are 0.
"""

import functools
import re

from ..factors import input_of, is_complement
from . import naming
from .diagrams import Diagram
from .functions import functions
from .steps import Language, Steps

VERILOG = Language(" ^ ", " & ", ("1'b0", "1'b1"), brackets=True)

# The symbol of an input by the bits that a monomial has for it and for its complement.
LITERALS = {"00": "-", "10": "1", "01": "0"}

# The symbols of so many inputs, the last ones, are found once for all monomials that have them.
LAST = 12

# How many names stand on a line.
ON_A_LINE = 10


def signals(answer, named):
    """The names of the inputs and of the functions, no two the same."""
    names = naming.distinct([*answer.inputs, *(name for name, _ in named)], is_signal, naming.word)
    return names[: len(answer.inputs)], names[len(answer.inputs) :]


def comments(mark, answer, named, names):
    """A line for each input and function whose name is another one here."""
    before = [*answer.inputs, *(name for name, _ in named)]
    return naming.comments(mark, before, names)


def is_signal(name):
    """Whether BLIF takes a name, and Verilog with a backslash before it."""
    return re.fullmatch(r"[A-Za-z0-9_\[\]<>][A-Za-z0-9_.\[\]<>$:-]*", name) is not None


def groups(names, sign):
    """Names in groups of a few, with the sign between those of a group."""
    return [sign.join(names[start : start + ON_A_LINE]) for start in range(0, len(names), ON_A_LINE)]


def in_lines(names):
    """Names in lines of a few, with commas between all of them."""
    return ",\n  ".join(groups(names, ", "))


def escaped(name):
    """A name as Verilog takes it."""
    return name if naming.is_word(name) and name not in naming.VERILOG else f"\\{name} "


def complemented(factor, texts):
    """The text of a factor by the texts of the inputs."""
    return f"~{texts[input_of(factor)]}" if is_complement(factor) else texts[factor]


def verilog(answer):
    named = functions(answer)
    names = signals(answer, named)
    letter = naming.prefix("n", names[0] + names[1])
    inputs, outputs = [[escaped(name) for name in part] for part in names]
    texts = dict(zip(answer.inputs, inputs))
    steps = Steps(VERILOG, {factor: complemented(factor, texts) for factor in answer.factors()}, letter)
    for _, polynomial in named:
        steps.add(polynomial)
    nodes, roots = steps.write()
    yield from comments("//", answer, named, names[0] + names[1])
    yield f"module anf({in_lines(inputs + outputs)});"
    yield f"input {in_lines(inputs)};"
    yield f"output {in_lines(outputs)};"
    if nodes:
        yield f"wire {in_lines([name for name, _ in nodes])};"
    for name, text in [*nodes, *zip(outputs, roots)]:
        yield f"assign {name} = {text};"
    yield "endmodule"


def blif(answer):
    named = functions(answer)
    inputs, outputs = signals(answer, named)
    letter = naming.prefix("n", inputs + outputs)
    diagram = Diagram(answer.factors())
    roots = [diagram.add(polynomial) for _, polynomial in named]
    signal = dict(zip(answer.inputs, inputs))
    yield from comments("#", answer, named, inputs + outputs)
    yield ".model anf"
    yield ".inputs " + " \\\n ".join(groups(inputs, " "))
    yield ".outputs " + " \\\n ".join(groups(outputs, " "))
    starts = {factor: f".names {signal[input_of(factor)]}" for factor in diagram.factors}
    ones = {factor: "0" if is_complement(factor) else "1" for factor in diagram.factors}
    names = ["", "", *(f" {letter}{number}" for number in range(2, len(diagram.nodes)))]
    for name, (factor, high, low) in zip(names[2:], diagram.nodes[2:]):
        rows = table(ones[factor], high if high < 2 else 2, low if low < 2 else 2)
        yield f"{starts[factor]}{names[high]}{names[low]}{name}\n{rows}"
    for output, root in zip(outputs, roots):
        yield f".names {output}" if root < 2 else f".names {letter}{root} {output}"
        if root:
            yield "1" if root == 1 else "1 1"
    yield ".end"


@functools.cache
def table(one, high, low):
    """The rows of `low + factor*high`, where the factor is 1 at the symbol that is given. High and low are constants,
    which have no column, or 2."""
    zero = "1" if one == "0" else "0"
    rows = []
    for factor in (zero, one):
        for above in (high,) if high < 2 else (0, 1):
            for below in (low,) if low < 2 else (0, 1):
                if below ^ (factor == one and above):
                    rows.append(f"{factor}{above if high > 1 else ''}{below if low > 1 else ''} 1")
    return "\n".join(rows)


def esop(answer):
    named = functions(answer)
    inputs, outputs = signals(answer, named)
    factors = answer.factors()
    rows = {}
    for place, (_, polynomial) in enumerate(named):
        bit = 1 << (len(named) - 1 - place)
        for mask in polynomial.masks(factors):
            rows[mask] = rows.get(mask, 0) | bit
    yield from comments("#", answer, named, inputs + outputs)
    yield f".i {len(inputs)}"
    yield f".o {len(named)}"
    yield ".ilb " + " ".join(inputs)
    yield ".ob " + " ".join(outputs)
    yield ".type esop"
    yield f".p {len(rows)}"
    bits = len(factors) // len(inputs)
    back = min(len(inputs), LAST // bits)
    front, shift, last = len(inputs) - back, back * bits, (1 << back * bits) - 1
    first_symbols, last_symbols = functools.cache(symbols(front, bits)), functools.cache(symbols(back, bits))
    ends = {values: f" {values:0{len(named)}b}" for values in set(rows.values())}
    lines = [first_symbols(mask >> shift) + last_symbols(mask & last) + ends[values] for mask, values in rows.items()]
    if lines:
        yield "\n".join(lines)
    yield ".e"


def symbols(width, bits):
    """The function that gives the symbols of so many inputs by their bits in a monomial: one for each input, or two, of
    which the second one is that of its complement."""
    if bits == 1:
        return lambda mask: f"{mask:0{width}b}"[:width].replace("0", "-")

    def of_literals(mask):
        text = f"{mask:0{2 * width}b}"
        return "".join([LITERALS[text[place : place + 2]] for place in range(0, 2 * width, 2)])

    return of_literals
