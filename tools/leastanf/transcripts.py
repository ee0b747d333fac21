"""Answers as other programs write them: Singular, Macaulay2, and people.

A line gives a polynomial to an output, by its name or as `poly f2 = ..` of output 2, or it gives elements of a basis:
`0 = ..`, `ideal I2 = .., ..` of output 2, `G[3]=..`, or polynomials alone, as `print` writes them, of the output that
was named last. In a script, which makes a ring, f2 is output 2 too, whatever the outputs are called; in another text a
line `NAME = ..` is that of the output, whatever else these programs begin so, and f2 and I2 are taken for output 2
where no output is called f or I with the number of another one. Of a list of elements the brackets and the word before
them are left out, and so are the marks o1, o2 of Macaulay2. Elements with a power that are 0 where x^2
is x are the polynomials of the field and are left out too. A 0 that is not on a line `0 = 0` says that a list has no
elements, as these programs have no other way to say it. A term that stands twice in a sum of products is refused, as no
program prints it.
"""

import re

from . import queries

# What says nothing of an output, and what does not in the scripts that `answer_as` writes.
_SKIPPED = re.compile(r"//|--|#|o\d+ :|i\d+ :|ring \w+ ?=|R = ZZ/2\[")
_SKIPPED_IN_SCRIPTS = re.compile(f"{_SKIPPED.pattern}|short = 0|ideal F =")
_LEFT = re.compile(r"(poly |ideal )?\s*([^=\s]+)\s*=\s*(.*)", re.DOTALL)
_RING = re.compile(r"^\s*(ring r = 2,|R = ZZ/2\[)", re.MULTILINE)
_NONE = re.compile(r"\s*0(_R)?\s*")
# What stands beside the equations: the mark of a result of Macaulay2, and the polynomials of the field.
_BESIDE = re.compile(r"^o\d+ = | \+ ideal apply\(gens R, v -> v\^2 \+ v\)")
_WRAPPED = re.compile(r"(?:ideal|matrix)?\s*(\(.*\)|\{.*\}|\[.*\])\Z", re.DOTALL)
_OPEN = re.compile(r"[-+*^&|(\[{,=]\s*\Z")
_POWER = re.compile(r"\^|\*\*")


class TranscriptError(Exception):
    """Why a text is no answer, with the number of a line."""

    status = 3

    def __init__(self, line, text):
        super().__init__(text if line is None else f"answer line {line}: {text}")


class Claim:
    """What an answer says of an output: its polynomial, or None, and the elements of its basis; with the numbers of
    their lines; and whether there is a list of elements, which may be empty."""

    def __init__(self):
        self.polynomial = self.line = None
        self.has_list = False
        self.elements = []
        self.element_lines = []


def parse(text, description, names, outputs=None):
    """What a text says of each output of a description, or of those at some places, a list of Claims, or a
    TranscriptError. A script has numbers for these alone, and another text for all of the file."""
    shown = description.shown_output_names
    outputs = list(range(len(shown)) if outputs is None else outputs)
    claims = [Claim() for _ in outputs]
    names_of_outputs = {}
    for given in (description.output_names, shown):
        names_of_outputs.update((given[output], (place, True)) for place, output in enumerate(outputs))
    by_number = {**names_of_outputs, **_numbered(range(len(outputs)))}
    has_numbers = any(queries.has_other_number(output, name, "fI") for output, name in enumerate(shown))
    by_name = {**({} if has_numbers else _numbered(outputs)), **names_of_outputs}
    is_script = _RING.search(text) is not None
    current = 0 if len(outputs) == 1 else None
    plain, skipped = ((), _SKIPPED_IN_SCRIPTS) if is_script else (names_of_outputs, _SKIPPED)
    factors = {"0", "1", *names.factor_bits()}

    def is_whole(line):
        """Whether a line is one as the program prints it, in which names may have any signs."""
        left, equals, right = line.partition(" = ")
        return bool(equals) and left in {"0", *plain} and factors.issuperset(re.split(r" \+ |\*", right))

    for line, part in logical_lines(text, plain, skipped, is_whole):
        found = _LEFT.match(part)
        left, right = (found[2], found[3]) if found else (None, part)
        lefts = by_number if is_script or found and found[1] else by_name
        place, is_polynomial = lefts.get(left, (current, False))
        if place is None:
            raise TranscriptError(line, f"{left or right[:20]!r} is no output of the file, and none was named before")
        if found and left not in lefts and not _is_label(left, {*lefts, *names.places}):
            raise TranscriptError(line, f"{left!r} is no output of the file")
        if left in lefts and not is_polynomial and claims[place].has_list:
            raise TranscriptError(line, "the output has a list of elements already")
        current = place
        parts = [right] if is_whole(part) else pieces(right)
        polynomials = [_parse(line, piece, names) for piece in parts]
        if is_polynomial:
            _set_polynomial(claims[place], line, polynomials)
        else:
            elements = [entry for entry in zip(parts, polynomials) if left == "0" or not _NONE.fullmatch(entry[0])]
            _add_elements(claims[place], line, elements, factors)
    return claims


def _numbered(outputs):
    """What f1, I1 and so on stand for: the place in a list of outputs, and whether it is the output's polynomial."""
    return {f"{letter}{output + 1}": (place, letter == "f") for letter in "If" for place, output in enumerate(outputs)}


def _is_label(left, named):
    """Whether a left side is 0, or the place of an element in a list that is called like no output and no input."""
    found = re.fullmatch(r"(\w+)\[\d+\]", left)
    return left == "0" or found is not None and not any(name.startswith(f"{found[1]}[") for name in named)


def _set_polynomial(claim, line, polynomials):
    if len(polynomials) != 1:
        raise TranscriptError(line, "one polynomial is wanted")
    if claim.polynomial is not None:
        raise TranscriptError(line, "the output has a polynomial already")
    claim.polynomial, claim.line = polynomials[0], line


def _add_elements(claim, line, elements, factors):
    claim.has_list = True
    for text, element in elements:
        if re.fullmatch(r"\s*[0-9]+\s*", text) and text.strip() not in factors:
            raise TranscriptError(line, "a number alone: write powers on the line, as toString does in Macaulay2")
        if element or not _POWER.search(text):
            claim.elements.append(element)
            claim.element_lines.append(line)


def _parse(line, text, names):
    try:
        return queries.parse(text, names, twice=False)
    except queries.QueryError as error:
        raise TranscriptError(line, str(error)) from None


def logical_lines(text, outputs, skipped, is_whole):
    """The lines that say something, with the number of the first one of each: one goes on where it ends with a sign or
    in a bracket, and is not whole. Those that begin with one of some outputs and = are taken as they stand, whatever is
    skipped."""
    first, parts, depth = 0, [], 0
    for number, line in enumerate(text.splitlines(), 1):
        line = line.strip()
        if line.endswith(";") and not is_whole(line):
            line = line.rstrip(";")
        left, equals, _ = line.partition("=")
        if parts or not equals or left.strip() not in outputs:
            line = _BESIDE.sub("", line)
            if not parts and (not line or skipped.match(line)):
                continue
        first = first if parts else number
        parts.append(line)
        depth += sum(map(line.count, "([{")) - sum(map(line.count, ")]}"))
        if depth <= 0 and not _OPEN.search(line) or len(parts) == 1 and is_whole(line):
            yield first, " ".join(parts)
            parts, depth = [], 0
    if parts:
        raise TranscriptError(first, "the line goes on, and the text ends")


def pieces(text):
    """The polynomials of a list, without what stands around it."""
    text = text.strip()
    found = _WRAPPED.fullmatch(text)
    while found and _is_one_bracket(found[1]) and (found[1][0] != "(" or text.startswith("ideal") or "," in text):
        text = found[1][1:-1].strip()
        found = _WRAPPED.fullmatch(text)
    return _split(text) if text else []


def _is_one_bracket(text):
    """Whether the first bracket of a text is closed by its last sign."""
    depth = 0
    for place, sign in enumerate(text):
        depth += (sign in "([{") - (sign in ")]}")
        if depth == 0:
            return place == len(text) - 1
    return False


def _split(text):
    """The parts of a text between the commas that are in no bracket."""
    if not set("([{") & set(text):
        return [part for part in text.split(",") if part.strip()]
    parts, start, depth = [], 0, 0
    for place, sign in enumerate(text):
        depth += (sign in "([{") - (sign in ")]}")
        if sign == "," and depth == 0:
            parts.append(text[start:place])
            start = place + 1
    return [part for part in [*parts, text[start:]] if part.strip()]
