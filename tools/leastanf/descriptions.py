"""Descriptions of functions: the one reader and the one writer of PLA files.

The reader takes what the program interp takes, and the same way. Besides it brings some forms into shape that other
tools write (FORMS), and notes each that it met. Everything else it refuses, with the cause and the line that the
program names.
"""

import errno
import re
import sys

KINDS = ("f", "fd", "fr", "fdr")
MOST_INPUTS, MOST_OUTPUTS, MOST_ROWS, MOST_BYTES = 62, 64, 8192, 4194304
# Of larger sizes no description is made, and of a longer file no more is read.
MOST_OF_ANY, MOST_READ = 1024, 1 << 28

# Of each type, the output symbols that put a row into a set of an output: the sets are "on", "off" and "free".
SETS = {
    "f": {"1": "on", "4": "on"},
    "fd": {"1": "on", "4": "on", "-": "free", "2": "free"},
    "fr": {"1": "on", "4": "on", "0": "off"},
    "fdr": {"1": "on", "4": "on", "0": "off", "-": "free", "2": "free"},
}

# The forms that the program refuses and that are brought into shape, by their names.
FORMS = {
    "row over lines": "a row goes over several lines",
    "names over lines": "a list of names goes over several lines",
    "comment behind symbol": "a comment stands right behind a symbol",
    "byte order mark": "the file begins with a byte order mark",
    "symbol 3": "the output symbol 3 is read as 0",
    "late type": "the type stands behind rows, and is taken for all of them",
    "phases of one": "a line .phase without zeros says nothing",
    "binary variables": "a line .mv without variables of more than two values gives the sizes",
    "inputs": f"there are more than {MOST_INPUTS} inputs",
    "outputs": f"there are more than {MOST_OUTPUTS} outputs",
    "rows": f"there are more than {MOST_ROWS} rows",
    "bytes": f"there are more than {MOST_BYTES} bytes",
}

# The causes for which a description is refused, and what to do.
CAUSES = {
    "BadByte": "outside comments a byte is a tab or printable ASCII: look for a letter with an accent, an end of lines "
    "that is no line feed, or a compressed file",
    "BadNumber": "write one number in digits, as .i 4",
    "SizeRange": f"the program takes 1 to {MOST_INPUTS} inputs and 1 to {MOST_OUTPUTS} outputs, and solve up to "
    f"{MOST_OF_ANY} of each where an output uses few",
    "Twice": "this command stands twice: keep one",
    "TypeLate": "the type stands before the first row; solve moves it there where it is a type",
    "BadType": "the types are f, fd, fr and fdr, in small letters; a cover of type esop is a sum of its rows, and no "
    "union: describe esop makes rows of it",
    "NamesEarly": "names come behind both .i and .o",
    "NameCount": "there is one name for each input (.ilb) or output (.ob)",
    "Unsupported": "write the function without this command",
    "RowBeforeSize": "a row stands before .i and .o: is this a PLA file?",
    "RowLength": "a row has one symbol for each input and each output; in mode check the description ends with .e",
    "BadSymbol": "symbols of inputs are 0 1 - 2, and those of outputs 0 1 - ~ 2 4; a row with an input ? has no point, "
    "so leave it out",
    "TooManyRows": f"the program takes {MOST_ROWS} rows; solve makes them fewer, or cuts the file by outputs",
    "NoSize": "there is no .i or no .o: was a file given?",
}

_REFUSED = (".kiss", ".pair", ".symbolic", ".symbolic-output")
_KNOWN = (".i", ".o", ".type", ".ilb", ".ob", ".p", ".e", ".end", ".mv", ".phase", *_REFUSED)
_PLAIN = re.compile(r"[A-Za-z_][A-Za-z0-9_.\[\]<>]{0,31}\Z")
# Names that are constants in polynomials of any form: of the programs, of Verilog and of Macaulay2.
_CONSTANTS = frozenset(("0", "1", "1'b0", "1'b1", "0_R", "1_R"))
_BAD_BYTE = re.compile(r"[^\t\x20-\x7e]")
_COMMENT = re.compile(r"(?:^|(?<=[ \t]))#.*", re.DOTALL)
_INPUT_SYMBOLS, _OUTPUT_SYMBOLS = frozenset("012-"), frozenset("0124-~")
# The symbols of rows here, and those by which a line is a row and no list of names.
_TAKEN_SYMBOLS, _ROW_SYMBOLS = frozenset("01234-~"), frozenset("01234-~?|")


class DescriptionError(Exception):
    """Why a file has no description: the path, the number of the line (or None), the cause (of CAUSES, or None where
    the file cannot be read), what is wrong there, and the forms that were brought into shape before. The status is that
    of the program."""

    def __init__(self, path, line, cause, text, forms=None):
        self.path, self.line, self.cause, self.text, self.forms = path, line, cause, text, dict(forms or {})
        self.status = 3 if cause else 8
        where = path if line is None else f"{path}:{line}"
        super().__init__(f"{where}: {cause}: {text}" if cause else f"{where}: {text}")


class Row:
    """A row: the number of its first line in the file, and the symbols of its inputs and of its outputs as two
    texts."""

    __slots__ = ("line", "inputs", "outputs")

    def __init__(self, line, inputs, outputs):
        self.line, self.inputs, self.outputs = line, inputs, outputs


class Description:
    """A description: what functions a file describes.

    path                the file's name, for messages
    inputs, outputs     how many there are
    kind                the type: f, fd, fr or fdr (esop too, where the reader was told to take it)
    typed               whether the file has a line .type
    given_input_names   the names of .ilb, or None; given_output_names, those of .ob
    kept_output_names   the names that its outputs have in a description of which it has some, or None
    rows                a list of Row; input symbols are of 0 1 - 2, output symbols of 0 1 - ~ 2 4
    forms               of each form that was brought into shape (a key of FORMS) the number of its first line
    warnings            lines on what may be meant otherwise
    """

    def __init__(self, path, inputs=None, outputs=None, kind="fd"):
        self.path, self.inputs, self.outputs, self.kind = path, inputs, outputs, kind
        self.typed = False
        self.given_input_names = self.given_output_names = self.kept_output_names = None
        self.rows = []
        self.forms = {}
        self.warnings = []

    @property
    def input_names(self):
        """The names that the program prints for the inputs."""
        return printed_names(self.given_input_names, "x", self.inputs)

    @property
    def output_names(self):
        """The names that the program prints for the outputs."""
        return printed_names(self.given_output_names, "f", self.outputs)

    @property
    def shown_input_names(self):
        """The names that solve prints for the inputs: where the program prints numbered ones because some name is not
        plain, only names that cannot be told in an answer are numbered. No name here is the program's for another
        input."""
        return shown_names(self.given_input_names, "x", self.inputs)

    @property
    def shown_output_names(self):
        """The names that solve prints for the outputs, as for the inputs; some of a description keep theirs."""
        return self.kept_output_names or shown_names(self.given_output_names, "f", self.outputs)

    def set_of(self, symbol):
        """The set into which an output symbol puts a row: on, off, free, or None where it says nothing."""
        return SETS[self.kind].get(symbol)


def is_plain(name):
    """Whether the program prints this name."""
    return bool(_PLAIN.match(name))


def numbered_names(letter, count):
    """The names that stand for names that are not printed."""
    return [f"{letter}{place}" for place in range(1, count + 1)]


def printed_names(given, letter, count):
    """The names that were given, where all of them are plain and no two the same, and else numbered ones."""
    if given and len(set(given)) == len(given) and all(map(is_plain, given)):
        return list(given)
    return numbered_names(letter, count)


def shown_names(given, letter, count):
    """The names that were given, where each can be told in an answer; a numbered one stands for each that cannot."""
    printed = printed_names(given, letter, count)
    if not given or printed == given:
        return printed
    seen, twice, numbered = set(), set(), set(printed)
    for name in given:
        (twice if name in seen else seen).add(name)
    return [
        name if is_tellable(name) and name not in twice and (name == number or name not in numbered) else number
        for name, number in zip(given, printed)
    ]


def is_tellable(name):
    """Whether a name in an answer can be told from the rest of its line."""
    return name not in _CONSTANTS and not set(name) & set("*+=,~")


def read(path, kinds=KINDS):
    """The description in a file, or on standard input where the path is -, or else a DescriptionError."""
    return parse(read_bytes(path), called(path), kinds)


def read_bytes(path):
    """The bytes of a file, or of standard input where the path is -, or else a DescriptionError."""
    try:
        if path == "-":
            data = sys.stdin.buffer.read(MOST_READ + 1)
        else:
            with open(path, "rb") as file:
                data = file.read(MOST_READ + 1)
    except (OSError, ValueError) as error:
        closed = path == "-" and getattr(error, "errno", None) in (errno.EBADF, errno.EISDIR)
        why = "it is closed, or a folder" if closed else getattr(error, "strerror", None) or str(error)
        raise DescriptionError(called(path), None, None, why) from None
    if len(data) > MOST_READ:
        raise DescriptionError(called(path), None, None, f"it has more than {MOST_READ} bytes")
    return data


def called(path):
    """How messages call a file."""
    return "standard input" if path == "-" else shown_path(path)


def shown_path(path):
    """A path as a message can tell it, on one line."""
    text_ = str(path).encode("utf-8", "backslashreplace").decode("utf-8")
    return "".join(sign if sign.isprintable() else sign.encode("unicode_escape").decode() for sign in text_)


def parse(data, path, kinds=KINDS):
    """The description that bytes begin with, or else a DescriptionError. The path is for messages. `kinds` are the
    types that are taken."""
    return _Reader(shown_path(path), kinds).read(data)


def text(description, all_names=True):
    """A description as the program takes it, a row on each line, with the names that were given: all of them, or those
    that the program prints."""
    lines = [f".i {description.inputs}", f".o {description.outputs}", f".type {description.kind}"]
    for command, given, printed in (
        (".ilb", description.given_input_names, description.input_names),
        (".ob", description.given_output_names, description.output_names),
    ):
        if given and (all_names or given == printed):
            lines.append(" ".join([command, *given]))
    lines += [f"{row.inputs} {row.outputs}" for row in description.rows]
    return "\n".join([*lines, ".e", ""])


class _Reader:
    """Reads a text line by line. `unfinished` is a row or a list of names that the lines so far leave open, or None."""

    def __init__(self, path, kinds):
        self.description = Description(path)
        self.kinds = kinds
        self.phases = None
        self.said_rows = None
        self.has_type = self.ended = False
        self.unfinished = None
        self.number = 0

    def read(self, data):
        description = self.description
        if len(data) > MOST_BYTES:
            self.note("bytes", None)
        start = 0
        if data.startswith(b"\xef\xbb\xbf"):
            self.note("byte order mark", 1)
            start = 3
        while start < len(data) and not self.ended:
            end = data.find(b"\n", start)
            stop = len(data) if end < 0 else end
            self.number += 1
            self.line(data[start:stop].decode("latin-1"))
            start = stop + 1
        self.finish()
        return description

    def note(self, form, line):
        self.description.forms.setdefault(form, line)

    def warn(self, text_):
        self.description.warnings.append(f"{self.description.path}:{self.number}: {text_}")

    def fail(self, cause, detail="", line=None):
        """Refuses the description. A line that left something unfinished comes before the one that is read now."""
        if self.unfinished:
            line, cause, detail = self.unfinished.refusal()
        hint = CAUSES[cause]
        said = f"{detail}; {hint}" if detail else hint
        line = self.number if line is None else line
        raise DescriptionError(self.description.path, line, cause, said, self.description.forms)

    def line(self, text_):
        plain = text_[:-1] if text_.endswith("\r") else text_
        if "#" in plain:
            plain = self.without_comment(plain)
        if _BAD_BYTE.search(plain):
            self.fail("BadByte", _told_byte(_BAD_BYTE.search(plain)[0]))
        words = plain.split()
        if not words:
            return
        if self.unfinished and self.unfinished.goes_on(words):
            self.unfinished.add(words)
            return
        if self.unfinished:
            self.fail(None)
        if words[0].startswith("."):
            self.command(words[0], words[1:])
        else:
            self.row("".join(words).replace("|", ""))

    def without_comment(self, plain):
        """The line without its comment. In a row one may stand right behind a symbol."""
        cut = _COMMENT.sub("", plain)
        if "#" not in cut or cut.lstrip(" \t").startswith(".") or isinstance(self.unfinished, _Names):
            return cut
        self.note("comment behind symbol", self.number)
        return cut.partition("#")[0]

    def row(self, symbols):
        description = self.description
        if description.inputs is None or description.outputs is None:
            self.fail("RowBeforeSize")
        self.add_symbols(_Symbols(self, self.number), symbols)

    def add_symbols(self, unfinished, symbols):
        """Takes symbols of a row that may have begun on an earlier line."""
        description = self.description
        wanted = description.inputs + description.outputs
        unfinished.symbols += symbols
        have = len(unfinished.symbols)
        if have < wanted and not set(symbols) - _TAKEN_SYMBOLS:
            self.unfinished = unfinished
            return
        self.unfinished = None
        if have != wanted:
            self.fail("RowLength", f"{have} symbols where {wanted} are wanted", unfinished.line)
        if unfinished.line != self.number:
            self.note("row over lines", unfinished.line)
        self.add_row(unfinished.line, unfinished.symbols)

    def add_row(self, line, symbols):
        description = self.description
        inputs, outputs = symbols[: description.inputs], symbols[description.inputs :]
        if "3" in outputs:
            self.note("symbol 3", line)
            outputs = outputs.replace("3", "0")
        for part, taken in ((inputs, _INPUT_SYMBOLS), (outputs, _OUTPUT_SYMBOLS)):
            for symbol in part:
                if symbol not in taken:
                    of = "an input" if part is inputs else "an output"
                    self.fail("BadSymbol", f"'{symbol}' is no symbol of {of}")
        description.rows.append(Row(line, inputs, outputs))
        if len(description.rows) > MOST_ROWS:
            self.note("rows", line)

    def command(self, command, words):
        if command in (".e", ".end"):
            self.ended = True
        elif command in (".i", ".o"):
            self.size(command, words)
        elif command == ".type":
            self.type(words)
        elif command in (".ilb", ".ob"):
            self.names(command, words)
        elif command == ".mv":
            self.sizes_of_values(words)
        elif command == ".phase":
            self.phase(words)
        elif command in _REFUSED:
            self.fail("Unsupported", f"{command} is not taken")
        elif command == ".p":
            self.said_rows = words
        else:
            self.unknown(command)

    def size(self, command, words):
        field, most = ("inputs", MOST_INPUTS) if command == ".i" else ("outputs", MOST_OUTPUTS)
        if getattr(self.description, field) is not None:
            self.fail("Twice", f"{command} was given before")
        if len(words) != 1:
            self.fail("BadNumber", f"{len(words)} words behind {command} where one number is wanted")
        self.set_size(field, most, words[0])

    def set_size(self, field, most, word):
        if not re.fullmatch("[0-9]+", word):
            self.fail("BadNumber", f"'{_shortened(word)}' is no number in digits")
        digits = word.lstrip("0") or "0"
        value = int(digits) if len(digits) < 9 else MOST_OF_ANY + 1
        if not 1 <= value <= MOST_OF_ANY:
            self.fail("SizeRange", f"{_shortened(word)} {field}")
        if value > most:
            self.note(field, self.number)
        setattr(self.description, field, value)

    def sizes_of_values(self, words):
        """.mv TOTAL BINARY SIZE: the binary inputs, and the values of one more variable as outputs."""
        description = self.description
        if description.inputs is not None or description.outputs is not None:
            self.fail("Unsupported", ".mv stands beside .i or .o")
        numbers = [int(word) if re.fullmatch("[0-9]{1,8}", word) else None for word in words]
        if len(numbers) != 3 or None in numbers or numbers[0] != numbers[1] + 1:
            self.fail("Unsupported", "variables of more than two values are not taken")
        self.set_size("inputs", MOST_INPUTS, words[1])
        self.set_size("outputs", MOST_OUTPUTS, words[2])
        self.note("binary variables", self.number)

    def type(self, words):
        if self.has_type:
            self.fail("Twice", ".type was given before")
        kind = words[0] if len(words) == 1 else None
        late = bool(self.description.rows)
        if late and kind not in self.kinds:
            self.fail("TypeLate")
        if kind in ("r", "dr"):
            self.fail("Unsupported", f"the type {kind} is not taken")
        if kind not in self.kinds:
            self.fail("BadType", f"'{_shortened(' '.join(words))}' is no type" if words else "no type is named")
        if late:
            self.note("late type", self.number)
        self.description.kind, self.description.typed, self.has_type = kind, True, True

    def names(self, command, words):
        description = self.description
        of_inputs = command == ".ilb"
        field = "given_input_names" if of_inputs else "given_output_names"
        wanted = description.inputs if of_inputs else description.outputs
        if getattr(description, field) is not None:
            self.fail("Twice", f"{command} was given before")
        if description.inputs is None or description.outputs is None:
            self.fail("NamesEarly")
        _Names(self, command, field, wanted).add(words)

    def phase(self, words):
        if len(words) != 1 or set(words[0]) != {"1"}:
            self.fail("Unsupported", "phases other than 1 are not taken")
        self.note("phases of one", self.number)
        self.phases = (self.number, len(words[0]))

    def unknown(self, command):
        meant = command.lower().split("=")[0]
        if meant in _KNOWN and meant != ".p":
            self.warn(f"{_shortened(command)} is no command and is skipped: is it meant as {meant}?")
        else:
            self.warn(f"{_shortened(command)} is skipped")

    def finish(self):
        description = self.description
        if self.unfinished:
            self.unfinished.end()
        if description.inputs is None or description.outputs is None:
            self.fail("NoSize")
        if self.phases and self.phases[1] != description.outputs:
            self.fail("Unsupported", f"{self.phases[1]} phases for {description.outputs} outputs", self.phases[0])
        rows = len(description.rows)
        said = self.said_rows[0] if self.said_rows else ""
        if re.fullmatch("[0-9]+", said) and (said.lstrip("0") or "0") != str(rows):
            description.warnings.append(f"{description.path}: .p says {_shortened(said)} rows, and there are {rows}")


class _Symbols:
    """A row whose symbols are not all there."""

    def __init__(self, reader, line):
        self.reader, self.line, self.symbols = reader, line, ""

    def goes_on(self, words):
        return not words[0].startswith(".")

    def add(self, words):
        self.reader.add_symbols(self, "".join(words).replace("|", ""))

    def end(self):
        self.reader.fail(None)

    def refusal(self):
        description = self.reader.description
        wanted = description.inputs + description.outputs
        return self.line, "RowLength", f"{len(self.symbols)} symbols where {wanted} are wanted"


class _Names:
    """A list of names that may go on behind its line."""

    def __init__(self, reader, command, field, wanted):
        self.reader, self.command, self.field, self.wanted = reader, command, field, wanted
        self.line = reader.number
        self.given = []
        self.whole = None
        self.must_go_on = False

    def goes_on(self, words):
        """Whether a line is one of names. Where the list is already one that the program takes, it need not be."""
        if words[0].startswith("."):
            goes_on = False
        else:
            goes_on = words[0][0] not in _ROW_SYMBOLS or self.must_go_on and self.whole is None
        if not goes_on and self.whole is not None:
            self.close(self.whole)
        return goes_on

    def add(self, words):
        """Takes the names on a line. A last word \\ says that the list goes on; on the line of the command it may, with
        as many words as are wanted, be a name too, which the program takes it for."""
        self.must_go_on = words[-1:] == ["\\"]
        is_whole = self.must_go_on and self.reader.number == self.line and len(words) == self.wanted
        self.whole = words if is_whole else None
        if self.must_go_on:
            words = words[:-1]
        elif words and words[-1].endswith("\\") and len(self.given) + len(words) < self.wanted:
            words = [*words[:-1], words[-1][:-1]]
        self.given += words
        if len(self.given) > self.wanted or len(self.given) == self.wanted and not self.must_go_on:
            self.close(self.given)
        else:
            self.reader.unfinished = self

    def close(self, names):
        reader = self.reader
        reader.unfinished = None
        if len(names) != self.wanted:
            line, cause, detail = self.refusal()
            reader.fail(cause, detail, line)
        if reader.number != self.line and self.whole is None:
            reader.note("names over lines", self.line)
        setattr(reader.description, self.field, names)

    def end(self):
        if self.whole is None:
            self.reader.fail(None)
        self.close(self.whole)

    def refusal(self):
        of = "inputs" if self.command == ".ilb" else "outputs"
        behind = ", and the list says that it goes on" if self.must_go_on else ""
        return self.line, "NameCount", f"{len(self.given)} names for {self.wanted} {of}{behind}"


def _shortened(word):
    return word if len(word) <= 40 else word[:37] + "..."


def _told_byte(symbol):
    return f"the byte {ord(symbol):#04x}"
