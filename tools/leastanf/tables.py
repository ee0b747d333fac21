"""Ways in: descriptions of tables, S-boxes, lists of points, exclusive-or covers, and what yosys prints of a circuit.

Each function here gives a Description, which `leastanf.solve` takes and `descriptions.text` writes as a PLA file.
"""

import re

from . import descriptions
from .descriptions import MOST_OF_ANY, Description, DescriptionError, Row

# A table may have so many values, and a cover so many disjoint rows.
MOST_VALUES, MOST_ROWS = 1 << 20, 1 << 16
PRINTABLE = frozenset(map(chr, range(33, 127))) - {"#"}
FREE = ("x", "X", "-", "?")


class TableError(ValueError):
    """Why something is no table."""

    status = 3


def table(values, bits=None, inputs=None, outputs=None):
    """The description of a table: the value at point k is `values[k]`, a whole number of so many bits, or None where it
    is free.

    There are 2^n values for n inputs. The first input is the highest bit of k, and the first output that of the value;
    without `bits` there are as many outputs as the greatest value needs. `inputs` and `outputs` are names.
    """
    values = list(values)
    width = len(values).bit_length() - 1
    if width < 1 or len(values) != 1 << width:
        raise TableError(f"{len(values)} values, where a power of 2 is wanted")
    if len(values) > MOST_VALUES:
        raise TableError(f"more than {MOST_VALUES} values")
    bits = checked_bits([value for value in values if value is not None], bits)
    found = described(width, bits, inputs, outputs)
    for point, value in enumerate(values):
        if value is not None:
            found.rows.append(Row(point + 1, f"{point:0{width}b}", f"{value:0{bits}b}"))
    return found


def graph(values, bits=None, inputs=None, output="graph"):
    """The description of the graph of a table: the care points are the pairs of a value and its argument, the bits of
    the value first. Its reduced basis has the equations between both. `inputs` are names for all of them."""
    found = table(values, bits)
    pairs = described(found.outputs + found.inputs, 1, inputs, [output])
    pairs.rows = [Row(row.line, row.outputs + row.inputs, "1") for row in found.rows]
    return pairs


def points(ones, zeros=(), width=None, inputs=None, output=None):
    """The description of lists of points: of the ones the value is 1, of the zeros 0, and all others are free. A point
    is a text of the symbols of a row, as "01-1", a sequence of 0 and 1, or a whole number of `width` bits."""
    texts = [(point_text(point, width), value) for value, part in (("1", ones), ("0", zeros)) for point in part]
    if not texts:
        raise TableError("no point is given")
    width = len(texts[0][0])
    for text, _ in texts:
        if len(text) != width or not width:
            raise TableError(f"the point {text!r} has {len(text)} inputs, where {width} are wanted")
    found = described(width, 1, inputs, None if output is None else [output])
    found.rows = [Row(number, text, value) for number, (text, value) in enumerate(texts, 1)]
    return found


def point_text(point, width):
    """A point as the symbols of a row."""
    if isinstance(point, int) and not isinstance(point, bool):
        if width is None or not 0 <= point < 1 << width:
            raise TableError(f"the point {point} is no number of {width} bits")
        return f"{point:0{width}b}"
    text = "".join(map(str, point))
    if set(text) - set("01-"):
        raise TableError(f"the point {text!r} has other symbols than 0, 1 and -")
    return text


def numbers(text):
    """The values of a text of whole numbers, in digits or as 0x63 or 0b101, with blanks, commas or brackets between
    them, as programs have them; x, - and ? are free. Comments of C and those behind # are left out. A number such as
    010 is refused, as it is 8 in C and 10 elsewhere."""
    plain = re.sub(r"/\*.*?\*/|//[^\n]*|#[^\n]*", " ", text, flags=re.DOTALL)
    if re.search(r",\s*,", plain):
        raise TableError("between two commas a value is missing")
    found = []
    for word in re.split(r"[\s,;{}()\[\]]+", plain):
        if word in FREE:
            found.append(None)
        elif re.fullmatch("0[xX][0-9a-fA-F]+|0[bB][01]+|[0-9]{1,1000}", word):
            if re.fullmatch("0[0-9]+", word) and int(word) > 7:
                raise TableError(f"{word[:40]!r} is another number in C than elsewhere: write it without a 0 before it")
            found.append(int(word, 0 if word[:2].lower() in ("0x", "0b") else 10))
        elif word:
            raise TableError(f"{word[:40]!r} is no number")
    return found


def hexadecimal(text, first_is_lowest=False):
    """The values of a truth table in hexadecimal digits, as 0x6996 or 6996: the last digit has the first points. The
    first input is the highest bit of a point's number, or its lowest one, as ABC has it."""
    if len(text.strip().splitlines()) > 1:
        raise TableError("each line may be a table of its own: one table on one line is wanted")
    digits = re.sub(r"\s|_", "", text)
    digits = digits[2:] if digits[:2].lower() == "0x" else digits
    if not re.fullmatch("[0-9a-fA-F]+", digits):
        raise TableError("a truth table of hexadecimal digits is wanted")
    size = 4 * len(digits)
    if size & (size - 1) or size > MOST_VALUES:
        raise TableError(f"{len(digits)} digits, where a power of 2 is wanted")
    number = int(digits, 16)
    width = size.bit_length() - 1
    places = range(size)
    if first_is_lowest:
        places = (int(f"{point:0{width}b}"[::-1], 2) for point in places)
    return [number >> place & 1 for place in places]


def checked_bits(values, bits):
    """The number of outputs for values."""
    if any(not isinstance(value, int) or value < 0 for value in values):
        raise TableError("a value is a whole number, or None where it is free")
    most = max(values, default=0)
    if bits is None:
        return max(1, most.bit_length())
    if bits < 1 or most >> bits:
        raise TableError(f"the value {most} has more than {bits} bits")
    return bits


def described(inputs, outputs, input_names=None, output_names=None, kind="fr"):
    """A description without rows."""
    if max(inputs, outputs) > MOST_OF_ANY:
        raise TableError(f"more than {MOST_OF_ANY} inputs or outputs")
    found = Description("a table", inputs, outputs, kind)
    found.typed = True
    return renamed(found, input_names, output_names)


def renamed(found, input_names, output_names):
    """The description with these names, where they are given."""
    for field, names, wanted in (
        ("given_input_names", input_names, found.inputs),
        ("given_output_names", output_names, found.outputs),
    ):
        if names is not None:
            if len(names) != wanted or any(not name or set(name) - PRINTABLE for name in names):
                raise TableError(f"{len(names)} names, where {wanted} of printable signs without blanks are wanted")
            setattr(found, field, list(names))
    return found


def exclusive_or(data, path="these bytes"):
    """The description of a cover of type esop, whose rows are summed modulo 2, with disjoint rows of type f."""
    cover = descriptions.parse(data, path, (*descriptions.KINDS, "esop"))
    if cover.kind != "esop":
        raise DescriptionError(cover.path, None, "BadType", f"the type is {cover.kind}, and esop is wanted")
    found = described(cover.inputs, cover.outputs, cover.given_input_names, cover.given_output_names, "f")
    found.path, found.forms, found.warnings = cover.path, cover.forms, cover.warnings
    for output in range(cover.outputs):
        symbols = "".join("1" if place == output else "0" for place in range(cover.outputs))
        cubes = [row.inputs.replace("2", "-") for row in cover.rows if row.outputs[output] in "14"]
        found.rows += [Row(len(found.rows) + place, cube, symbols) for place, cube in enumerate(disjoint(cubes), 1)]
        if len(found.rows) > MOST_ROWS:
            raise TableError(f"more than {MOST_ROWS} disjoint rows are needed")
    return found


def disjoint(cubes):
    """Disjoint cubes of the points that an odd number of cubes has. Cubes are split at an input that one of them fixes;
    equal ones cancel."""
    odd = set()
    for cube in cubes:
        odd ^= {cube}
    stack = [(odd, "")]
    found = []
    while stack:
        left, front = stack.pop()
        if not left or len(found) > MOST_ROWS:
            continue
        width = len(next(iter(left)))
        place = next((at for at in range(width) if any(cube[at] != "-" for cube in left)), width)
        front += "-" * place
        if place == width:
            found.append(front)
            continue
        parts = {"0": set(), "1": set()}
        for cube in left:
            for symbol in "01" if cube[place] == "-" else cube[place]:
                parts[symbol] ^= {cube[place + 1 :]}
        if parts["0"] == parts["1"]:
            stack.append((parts["0"], front + "-"))
        else:
            stack += [(parts["1"], front + "1"), (parts["0"], front + "0")]
    return found


def evaluated(text):
    """The description of a table that `eval -table` of yosys prints of a circuit: a value of x is free. The bits of a
    signal are named as in the circuit, the highest first."""
    heads, rows = None, []
    for line in text.splitlines():
        left, bar, right = line.partition("|")
        if not bar or not set(line) - set("- |"):
            continue
        if heads is None:
            heads = left.split(), right.split()
        else:
            rows.append([[constant_bits(word) for word in part.split()] for part in (left, right)])
    if not rows:
        raise TableError("there is no table of yosys: a line with signals, and a line for each point")
    shapes = [[list(map(len, part)) for part in row] for row in rows]
    if any(shape != shapes[0] for shape in shapes) or list(map(len, heads)) != list(map(len, shapes[0])):
        raise TableError("the lines of the table do not have the same columns")
    names = []
    for signals, widths in zip(heads, shapes[0]):
        names.append([name for signal, width in zip(signals, widths) for name in bit_names(signal, width)])
    found = described(len(names[0]), len(names[1]), *names)
    for number, row in enumerate(rows, 1):
        inputs, outputs = map("".join, row)
        if "x" in inputs:
            raise TableError("an argument has no value")
        found.rows.append(Row(number, inputs, outputs.replace("x", "~")))
    return found


def constant_bits(word):
    """The bits of a constant of yosys, the highest first. One of 32 bits is a decimal number, and one of equal bits may
    have one of them alone."""
    if re.fullmatch("-?[0-9]{1,10}", word) and -(1 << 31) <= int(word) < 1 << 32:
        return f"{int(word) & 0xFFFFFFFF:032b}"
    found = re.fullmatch("([0-9]{1,6})'([01xz-]+)", word)
    if not found or len(found[2]) not in (1, int(found[1])):
        raise TableError(f"{word[:40]!r} is no constant of yosys")
    bits = found[2] if len(found[2]) > 1 else found[2] * int(found[1])
    return re.sub("[z-]", "x", bits)


def bit_names(signal, width):
    """The names of the bits of a signal, the highest first."""
    name = signal.lstrip("\\")
    return [name] if width == 1 else [f"{name}[{place}]" for place in reversed(range(width))]
