"""Answers for solvers, programs, documents and pictures: CNF, Python, JSON, LaTeX and DOT."""

import json
import re

from ..factors import input_of, is_complement
from ..polynomials import Monomials
from . import naming
from .diagrams import Diagram
from .functions import functions
from .steps import Language, Steps

# How many terms stand on a line of a document.
TERMS_ON_A_LINE = 8


def cnf(answer):
    """Clauses, and exclusive-or lines as cryptominisat reads them. The models are the points at which each line of the
    answer holds: each output has its polynomial's value, and each element is 0."""
    names = [*answer.inputs, *(output.name for output in answer)]
    clauses = Clauses(answer, len(names))
    for place, output in enumerate(answer, len(answer.inputs) + 1):
        clauses.equal(place, clauses.root(output.polynomial))
        for element in output.basis:
            clauses.zero(clauses.root(element))
    for element in answer.ideal or ():
        clauses.zero(clauses.root(element))
    for number, name in enumerate(names, 1):
        yield f"c {number} is {name}"
    yield f"p cnf {clauses.last} {len(clauses.lines)}"
    if clauses.lines:
        yield "\n".join(clauses.lines)


class Clauses:
    """Clauses for polynomials, in variables of which the last of an answer's own is given. A literal is a variable or,
    with a minus, its complement."""

    def __init__(self, answer, last):
        inputs = {name: number for number, name in enumerate(answer.inputs, 1)}
        factors = answer.factors()
        self.factors = {factor: inputs.get(factor, -inputs[input_of(factor)]) for factor in factors}
        self.diagram = Diagram(self.factors)
        self.literals = [None, None]
        self.last = last
        self.lines = []

    def root(self, polynomial):
        """The node of a polynomial, whose clauses are made.

        Of a node `low + factor*high` a new variable for the product is 1 where both are, and one for the sum fits an
        exclusive-or.
        """
        root = self.diagram.add(polynomial)
        literals, lines, last = self.literals, self.lines, self.last
        for factor, high, low in self.diagram.nodes[len(literals) :]:
            literal = self.factors[factor]
            if high != 1:
                one, other = literal, literals[high]
                literal = last = last + 1
                lines += (f"-{last} {one} 0", f"-{last} {other} 0", f"{last} {-one} {-other} 0")
            if low == 1:
                literal = -literal
            elif low:
                one, other = literal, literals[low]
                literal = last = last + 1
                lines.append(f"x-{last} {one} {other} 0")
            literals.append(literal)
        self.last = last
        return root

    def equal(self, variable, root):
        if root < 2:
            self.lines.append(f"{variable if root else -variable} 0")
        else:
            self.lines.append(f"x-{variable} {self.literals[root]} 0")

    def zero(self, root):
        if root == 1:
            self.lines += ["1 0", "-1 0"]
        elif root:
            self.lines.append(f"{-self.literals[root]} 0")


def python(answer):
    """A function of the inputs. Its values are whole numbers whose bits are points: 0 and 1 are one point."""
    named = functions(answer)
    names = naming.distinct(answer.inputs, naming.is_python, naming.mend_for_python, {"one"})
    texts = dict(zip(answer.inputs, names))
    texts = {
        factor: f"(one ^ {texts[input_of(factor)]})" if is_complement(factor) else texts[factor]
        for factor in answer.factors()
    }
    steps = Steps(Language(" ^ ", " & ", ("0", "one"), brackets=True), texts, naming.prefix("n", names))
    for _, polynomial in named:
        steps.add(polynomial)
    nodes, roots = steps.write()
    keys = naming.distinct([name for name, _ in named], lambda name: True, str)
    yield from naming.comments("#", [name for name, _ in named], keys)
    yield f"INPUTS = {list(answer.inputs)!r}"
    yield ""
    yield ""
    yield f"def evaluate({', '.join(names)}, one=1):"
    yield '    """The value of each output at a point. Each bit of an argument is a point, as far as `one` has it."""'
    for name, text in nodes:
        yield f"    {name} = {text}"
    yield "    return {"
    for key, text in zip(keys, roots):
        yield f"        {key!r}: {text},"
    yield "    }"


def as_json(answer):
    """The names of the inputs, and of each output its name, its polynomial and the elements of its basis; or the
    elements of the ideal. A polynomial is a list of monomials, each a list of factors."""
    factors = answer.factors()
    write = Monomials(map(json.dumps, factors), ", ", "")

    def monomials(polynomial):
        return f"[[{'], ['.join(write.terms(polynomial.masks(factors)))}]]" if polynomial.terms else "[]"

    def elements(polynomials):
        return f"[{', '.join(map(monomials, polynomials))}]"

    yield f'{{"inputs": {json.dumps(answer.inputs)},'
    if answer.ideal is None:
        yield '"outputs": ['
        last = len(answer.outputs) - 1
        for place, output in enumerate(answer):
            yield f'{{"name": {json.dumps(output.name)},'
            yield f'"polynomial": {monomials(output.polynomial)},'
            yield f'"basis": {elements(output.basis)}}}{"," if place < last else ""}'
        yield "]}"
    else:
        yield f'"ideal": {elements(answer.ideal)}}}'


def latex(answer):
    """Lines of an environment align, one for each line of the answer."""
    factors = answer.factors()
    names = [latex_name(input_of(factor)) for factor in factors]
    pairs = zip(factors, names)
    write = Monomials((f"\\overline{{{name}}}" if is_complement(factor) else name for factor, name in pairs), r"\,")
    lines = []
    for output in answer:
        lines += latex_lines(latex_name(output.name), write.terms(output.polynomial.masks(factors)))
        for element in output.basis:
            lines += latex_lines("0", write.terms(element.masks(factors)))
    for element in answer.ideal or ():
        lines += latex_lines("0", write.terms(element.masks(factors)))
    yield r"\begin{align*}"
    yield from (rf"{line} \\" for line in lines[:-1])
    yield from lines[-1:]
    yield r"\end{align*}"


def latex_name(name):
    """A letter with a number as an index, and any other name in italics as it stands."""
    indexed = re.fullmatch("([A-Za-z])([0-9]+)", name)
    if indexed:
        return f"{indexed[1]}_{{{indexed[2]}}}"
    if len(name) == 1 and name.isalpha():
        return name
    special = {"\\": r"\backslash{}", "^": r"\text{\^{}}", "<": "{<}", ">": "{>}"}
    return "\\mathit{" + "".join(special.get(c, "\\" + c if c in "#$%&_{}" else c) for c in name) + "}"


def latex_lines(left, terms):
    """The lines of an equation with a polynomial's terms, with a few on each."""
    parts = [" + ".join(terms[start : start + TERMS_ON_A_LINE]) for start in range(0, len(terms), TERMS_ON_A_LINE)]
    return [f"{left} &= {parts[0] if parts else '0'}", *(f"&\\quad + {part}" for part in parts[1:])]


def dot(answer):
    """The diagram as a picture of Graphviz. A node is `low + factor*high`: the full line goes to high and the dashed
    one to low, where low is not 0. So each path to 1 is a monomial, of the factors that it leaves by full lines."""
    named = functions(answer)
    diagram = Diagram(answer.factors())
    roots = [diagram.add(polynomial) for _, polynomial in named]
    yield "digraph anf {"
    yield "  1 [shape=box];"
    if 0 in roots:
        yield "  0 [shape=box];"
    labels = {factor: f"[label={quoted(factor)}]" for factor in diagram.factors}
    for number, (factor, high, low) in enumerate(diagram.nodes[2:], 2):
        dashed = f"\n  {number} -> {low} [style=dashed];" if low else ""
        yield f"  {number} {labels[factor]};\n  {number} -> {high};{dashed}"
    for place, ((name, _), root) in enumerate(zip(named, roots)):
        yield f"  output{place} [label={quoted(name)}, shape=plaintext];"
        yield f"  output{place} -> {root};"
    yield "}"


def quoted(name):
    escaped = name.replace("\\", "\\\\").replace('"', '\\"')
    return f'"{escaped}"'
