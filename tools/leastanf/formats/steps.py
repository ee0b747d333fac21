"""Polynomials in steps: expressions over a diagram's nodes, where a node that is used again has a name."""

from .diagrams import Diagram

# Longer expressions have a name too, as some programs take no long ones.
MOST_CHARACTERS = 200


class Language:
    """How a language writes expressions: its signs of sum and product, with the blanks around them, its constants 0 and
    1, and whether a product in a sum has brackets."""

    def __init__(self, plus, times, constants=("0", "1"), brackets=False):
        self.plus, self.times, self.constants, self.brackets = plus, times, constants, brackets


class Steps:
    """Polynomials over the same factors as expressions. `texts` has the text of each factor. The names of nodes are the
    letter with numbers behind those that were named before."""

    def __init__(self, language, texts, letter, before=0):
        self.language = language
        self.texts = texts
        self.letter = letter
        self.before = before
        self.diagram = Diagram(texts)
        self.roots = []

    def add(self, polynomial):
        """Takes a polynomial. The expressions of all that were taken are those of `write`, in order."""
        self.roots.append(self.diagram.add(polynomial))

    def write(self):
        """The named nodes, each a name and its expression over names before it, and the expressions of the
        polynomials."""
        plus, times, brackets = self.language.plus, self.language.times, self.language.brackets
        factors, uses, named = self.texts, self._uses(), []
        # The expression of each node, and how it binds: 0 as a sum, 1 as a product, 2 as a name.
        texts = [(text, 2) for text in self.language.constants]
        for number, (factor, high, low) in enumerate(self.diagram.nodes[2:], 2):
            text, binding = factors[factor], 2
            if high != 1:
                other, bound = texts[high]
                text, binding = f"{text}{times}{other}" if bound else f"{text}{times}({other})", 1
            if low:
                other, bound = texts[low]
                if brackets:
                    text = f"({text})" if binding == 1 else text
                    other = f"({other})" if bound == 1 else other
                text, binding = f"{text}{plus}{other}", 0
            if binding < 2 and uses[number] > 1 or len(text) > MOST_CHARACTERS:
                name = f"{self.letter}{self.before + len(named) + 1}"
                named.append((name, text))
                text, binding = name, 2
            texts.append((text, binding))
        return named, [texts[root][0] for root in self.roots]

    def _uses(self):
        """How often each node is used."""
        uses = [0] * len(self.diagram.nodes)
        for _, high, low in self.diagram.nodes[2:]:
            uses[high] += 1
            uses[low] += 1
        for root in self.roots:
            uses[root] += 1
        return uses
