"""Solves PLA files as other tools write them, by the program interp.

usage: solve [anf|basis] [OPTIONS] [--] FILE.pla..      a FILE of - is standard input
       solve --why [WORD..]                             what a cause, a status, a remedy or a message means

A file that the program takes is answered with the program's text. The forms that other tools write and the program
refuses are brought into shape: rows and lists of names over several lines, a comment right behind a symbol, a byte
order mark, the output symbol 3, .type behind rows, .phase of ones, .mv without variables of more than two values, and
files of more inputs, outputs, rows or bytes than the program takes. Each such form is told.

Where the program has no answer because of nodes, terms or sizes, these remedies are tried by themselves, and told. None
of them changes the answer:
  rows that say one thing are made fewer; inputs that no row fixes are left out; each output is solved alone, and those
  that have an answer are printed (status 13 says that others are missing); the table gets more slots, up to 2^23; an
  output without free points is solved by another order of the inputs, or in parts, and its terms are sorted back. In
  mode anf the first inputs are left out as long as the rows agree without them: the part of the least polynomial with
  the first input interpolates the points that a one and a zero share without this input, and there are none.
Each answer is looked at before it is printed: at care points of the rows of the file, all of them up to 4,096 an
output, else a random choice.

options:
  --order NAMES          the order of the inputs, the greatest first, with commas
  --order auto|each      the best of some orders by the literals of the answer, for all outputs or for each: where
                         points are free this changes the answer
  --polarity NAMES|all   these inputs, or all, complemented, and written ~NAME in the answer
  --polarity auto|each   the best of four such choices, for all outputs or for each
  --outputs NAMES        these outputs alone
  --nodes B              tables of 2^B slots, from 4 to 23, and no larger ones
  --terms T              at most so many terms, up to 1000000, for each run
  --workers N            workers of each run, from 1 to 16
  --seconds S            the time that the run on the file may take, that remedies may take together, and that --order
                         auto and --polarity auto may take; without it there is no limit, 300 s, and 60 s
  --jobs J               runs side by side: as many as there are processors by default
  --as FORMAT            the answer in another language, as answer_as writes it
  --text                 print the description that the program is run on, and no answer; it goes without -o
  -o FOLDER              write each answer to a file of the folder, but over none of the files that are read

examples:
  tools/solve examples/full_adder.pla
  tools/solve basis examples/half_adder.pla
  tools/solve --order auto examples/decoder.pla
  tools/solve --polarity auto examples/seven_segments.pla
  tools/solve -o made/answers examples/majority.pla examples/digits.pla
  tools/solve --why TypeLate
  tools/solve --why 5

The environment variable INTERP names the program, if it is not the one beside this folder. Statuses: `solve --why`
lists them.
"""

import os
import pathlib
import re
import shlex
import sys

from .. import choosing, descriptions, polarity, remedies, solving
from ..descriptions import CAUSES, FORMS
from ..formats import FORMATS
from ..solving import REMEDIES, Unsolved
from . import WORDS, command, say, words
from .progress import Progress

NAME = "solve"
STATUSES = {
    0: "every output that was asked for has its answer",
    2: "the words are not of the form that --help has",
    3: "the description is refused: a line and the cause are named",
    8: "a file cannot be read",
    9: "the answer, or a file of it, cannot be written",
    10: f"the file has more than {descriptions.MOST_BYTES} bytes, and interp takes no more: solve takes longer files, "
    "as far as what they say fits",
    69: "there is no program interp: put it on PATH, or name it by the environment variable INTERP",
    129: "the terminal was closed",
    130: "the run was interrupted",
    141: "the reader of the answer went away",
    143: "the run was ended by another program",
    **{
        kind.status: f"{kind.__doc__[0].lower()}{kind.__doc__[1:].rstrip('.')}: {kind.remedy}"
        for kind in solving.CLASSES
        if kind.status != solving.Refused.status
    },
}
# Of messages of the program, a part and what --why explains.
MESSAGES = (
    (r"line \d+: (\w+)", None),
    (r"nodes are needed", 5),
    (r"more than \d+ terms", 6),
    (r"out of memory", 7),
    (r"read fault", 8),
    (r"write fault", 9),
    (r"longer than \d+ bytes", 10),
    (r"on line \d+, off line \d+", 4),
    (r"order must name", 12),
    (r"usage:", 2),
    (r"could not be proved and built", 70),
)
# The options that take numbers, and the limits of the package that they are.
NUMBERS = {"nodes": "nodes", "terms": "terms", "workers": "workers", "seconds": "seconds", "jobs": "processors"}


@command(NAME)
def main(line):
    if line[:1] == ["--why"]:
        return explain(line[1:])
    options = read_words(line)
    if options is None:
        return 0
    results = []
    for path in options.files:
        progress = Progress(NAME, path)
        try:
            results.append(solve_file(path, options, progress))
        except descriptions.DescriptionError as error:
            progress.end()
            say(NAME, str(error))
            results.append(error.status)
        except Unsolved as unsolved:
            progress.end()
            say_unsolved(progress.path, unsolved)
            results.append(unsolved.status)
    return next((status for status in reversed(results) if status), 0)


def read_words(line):
    """The options of a command line, or None for a request for help."""
    parser = words.Parser(NAME)
    parser.add_texts("--order", "--polarity", "--outputs")
    parser.add_argument("--as", dest="language", action=words.Once)
    parser.add_argument("-o", dest="folder", action=words.Once)
    parser.add_argument("--text", action="store_true")
    for option, limit in NUMBERS.items():
        parser.add_number(f"--{option}", *solving.LIMITS[limit])
    options = parser.read(line, __doc__)
    if options is None:
        return None
    options.mode = options.words.pop(0) if options.words[:1] in (["anf"], ["basis"]) else "anf"
    options.files = options.words + options.behind
    if not options.files:
        parser.error("no file is named")
    if options.text and ({options.order, options.language} != {None} or options.polarity in ("auto", "each")):
        parser.error("--text goes without --order and --as, and with --polarity NAMES or all alone")
    if options.files.count("-") > 1:
        parser.error("standard input can be read once")
    if options.language is not None and options.language not in FORMATS:
        parser.error(f"--as takes one of {', '.join(FORMATS)}")
    if options.folder is not None:
        targets = {identity(target(path, options)) for path in options.files}
        if options.text:
            parser.error("--text goes without -o")
        if len(targets) < len(options.files):
            parser.error("two of the files would have their answer in one file")
        if targets & set(map(identity, options.files)):
            parser.error("an answer would be written over one of the files")
    return options


def identity(path):
    """What tells a file from others: the device and the number that it has there, or its path where there is none."""
    try:
        found = os.fstat(sys.stdin.fileno()) if path == "-" else os.stat(path)
        return found.st_dev, found.st_ino
    except OSError:
        return os.path.realpath(path)


def target(path, options):
    """The file of an answer."""
    stem = "standard_input" if path == "-" else pathlib.Path(path).stem
    return pathlib.Path(options.folder) / f"{stem}.{options.language or options.mode}"


def solve_file(path, options, progress):
    """Solves a file, and gives the status."""
    description = words.description(NAME, path)
    tell_of_file(description)
    part = words.chosen(description, options.outputs)
    settings = solving.Settings(
        options.mode, None, options.nodes, options.terms, options.workers, options.seconds, options.jobs
    )
    wanted_order, wanted_polarity = options.order, options.polarity
    if wanted_order not in (None, "auto", "each"):
        settings.order, wanted_order = words.order(description, wanted_order), None
    if wanted_polarity not in (None, "auto", "each"):
        wanted_polarity = words.flips(description, wanted_polarity)
    if options.text:
        write(path, text_of(polarity.flipped(part, wanted_polarity or [])), options)
        return 0
    if wanted_order or wanted_polarity is not None:
        solution, choices = choosing.solve(part, settings, wanted_order, wanted_polarity, progress)
    else:
        solution, choices = solving.solve(part, settings, progress=progress), []
    progress.end()
    for note in solution.notes:
        say(NAME, f"{progress.path}: {note}")
    for choice in choices:
        tell_of_choice(path, part, options, choice)
    text = solution.text()
    if options.language:
        text = solving.answer(solution, part, settings, choices).text(options.language)
    write(path, text, options)
    for _, unsolved in solution.missing:
        say_unsolved(progress.path, unsolved)
    return solving.SomeMissing.status if solution.missing else 0


def text_of(description):
    """The description as the program takes it."""
    if solving.fits(description):
        return descriptions.text(description)
    found = smaller(description)
    if not found.fits():
        raise solving.Refused("all outputs together are too large", "choose some by --outputs")
    small = descriptions.parse(found.text(), description.path)
    # With the names that the program prints, so that those of the inputs that are left do not depend on the others.
    small.given_input_names = [description.input_names[place] for place in found.inputs]
    small.given_output_names = description.output_names
    return descriptions.text(small)


def smaller(description):
    """What a description says, in fewer rows and without the inputs that none of them fixes."""
    whole = remedies.problem(description, range(description.outputs))
    return remedies.without_unused_inputs(remedies.with_fewer_rows(whole))


def tell_of_file(description):
    """Says where a .type may be missing."""
    points = all("-" not in row.inputs and "2" not in row.inputs for row in description.rows)
    zeros = any(set(row.outputs) == {"0"} for row in description.rows)
    if not description.typed and points and zeros and len(description.rows) < 1 << description.inputs:
        say(
            NAME,
            f"{description.path}: there is no .type, so a point without a row has the value 0; where such points are "
            "free, write .type fr",
        )


def tell_of_choice(path, part, options, choice):
    """Says which order and polarity were chosen, and the line that repeats the run by the program alone."""
    chosen = solving.chosen(part, choice.outputs)
    names = chosen.shown_input_names
    head = part.path if len(choice.outputs) == part.outputs else f"{part.path}: {','.join(chosen.shown_output_names)}"
    literals = "" if choice.literals is None else f", {choice.literals} literals"
    if options.order in ("auto", "each"):
        say(NAME, f"{head}: order {','.join(names[place] for place in choice.order)} ({choice.name}{literals})")
    if options.polarity is not None:
        flips = ",".join(f"~{names[place]}" for place in choice.flips) or "of no input"
        say(NAME, f"{head}: polarity {flips}{literals}")
    say(NAME, f"{head}: {same(chosen, choice)} by the program alone: {repeating(path, part, options, choice)}")


def same(chosen, choice):
    """What the program alone prints, in words: it has no factors ~NAME, and numbered names where one is not plain."""
    named = (chosen.shown_input_names, chosen.shown_output_names)
    differ = ["with NAME for ~NAME"] if choice.flips else []
    if named != (chosen.input_names, chosen.output_names):
        differ.append("with numbered names")
    return ", ".join(["the same", *differ]) + ("," if differ else "")


def repeating(path, part, options, choice):
    """A command line that has the answer by the program alone. Where the file has a form that the program refuses, or
    inputs are complemented, or outputs are left out, the description is written by --text first."""
    words = ["interp", options.mode]
    order = choice.order
    if order != sorted(order):
        chosen = solving.chosen(part, choice.outputs)
        kept = set(order if solving.fits(chosen) else smaller(chosen).inputs)
        words += ["--order", ",".join(part.input_names[place] for place in order if place in kept)]
    for option in ("nodes", "terms", "workers"):
        if getattr(options, option) is not None:
            words += [f"--{option}", str(getattr(options, option))]
    run = " ".join(map(shlex.quote, words))
    by_text = [NAME, "--text"]
    if choice.flips:
        by_text.append(f"--polarity={','.join(part.shown_input_names[place] for place in choice.flips)}")
    if options.outputs is not None or len(choice.outputs) < part.outputs:
        by_text.append(f"--outputs={','.join(part.shown_output_names[place] for place in choice.outputs)}")
    if len(by_text) == 2 and not part.forms:
        return run if path == "-" else f"{run} < {shlex.quote(path)}"
    if path.startswith("-") and path != "-":
        by_text.append("--")
    return f"{' '.join(map(shlex.quote, [*by_text, path]))} | {run}"


def say_unsolved(path, unsolved):
    say(NAME, f"{path}: {unsolved.message}")
    if unsolved.remedy:
        say(NAME, f"{path}: {unsolved.remedy}")


def write(path, text, options):
    """Writes an answer, to standard output or to its file."""
    if options.folder is not None:
        pathlib.Path(options.folder).mkdir(parents=True, exist_ok=True)
        target(path, options).write_text(text, encoding="utf-8")
        return
    if len(options.files) > 1:
        print(f"==> {descriptions.shown_path(path)} <==")
    sys.stdout.write(text)
    sys.stdout.flush()


def explain(named):
    """Explains causes, statuses, forms, remedies and messages: those that are named, or all."""
    if not named:
        for title, table in (("causes", CAUSES), ("statuses", STATUSES), ("forms", FORMS), ("remedies", REMEDIES)):
            print(f"{title}:")
            for word, text in sorted(table.items(), key=lambda entry: entry[0] if isinstance(entry[0], int) else 0):
                print(f"  {word}: {text}")
        return 0
    status = 0
    for word in named:
        text = meaning(word)
        if text is None:
            say(NAME, f"{word!r} is no cause, status, form, remedy or message; solve --why lists them")
            status = WORDS
        else:
            print(f"{word}: {text}")
    return status


def meaning(word):
    """What a word or a message means, or None."""
    for table in (CAUSES, FORMS, REMEDIES):
        if word in table:
            return table[word]
    if re.fullmatch("[0-9]{1,3}", word):
        return STATUSES.get(int(word))
    for pattern, status in MESSAGES:
        found = re.search(pattern, word)
        if found and status is None and found[1] in CAUSES:
            return CAUSES[found[1]]
        if found and status is not None:
            return STATUSES[status]
    return None
