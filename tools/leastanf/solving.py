"""Solving a description by the program, with the remedies that keep the answer.

A file that the program takes and answers is answered by one run of it. Where it is too large, or needs too many nodes
or has too many terms, each output is solved alone, on fewer rows and inputs, with more slots, and where it has no free
points by other orders of the inputs, and in parts. Whatever was done, the text is looked at before it is given: at care
points of the rows of the file, by the module `points`.
"""

import concurrent.futures
import operator
import os
import threading
import time

from . import answers, descriptions, orders, points, programs, remedies
from .polynomials import Monomials, Polynomial

MOST_SLOTS = 23
# Of each limit that a caller may give, the least and the greatest.
LIMITS = {
    "nodes": (4, MOST_SLOTS),
    "terms": (1, 1_000_000),
    "workers": (1, 16),
    "seconds": (1, 10**6),
    "processors": (1, 1024),
}
# How many seconds the remedies may take together, where the caller does not say, and which part of it an output in
# parts.
SECONDS = 300
_FOR_PARTS = 0.4
# How many parts an output has at the most, and how many inputs: parts of parts are calls in calls, of which Python
# takes some hundreds.
_MOST_PARTS, _MOST_CUT_INPUTS = 4096, 400


class Unsolved(Exception):
    """Why there is no answer: the status, the program's message or one in its place, and what to do about it."""

    status = None
    remedy = ""

    def __init__(self, message, remedy=None, outputs=()):
        self.message, self.outputs = message, list(outputs)
        if remedy is not None:
            self.remedy = remedy
        super().__init__(f"{message}: {self.remedy}" if self.remedy else message)


class Refused(Unsolved):
    """The program takes no such description."""

    status = 3
    remedy = "the file is too large, and its outputs alone are too"


class Contradiction(Unsolved):
    """Two rows contradict each other."""

    status = 4
    remedy = "an output is 1 and 0 at one point: correct one of the rows"


class TooManyNodes(Unsolved):
    """The diagrams need more nodes than a table has slots."""

    status = 5
    remedy = (
        "put inputs that choose (selects, states) first and those that belong together side by side by --order NAMES, "
        "try --order auto or --polarity auto, or give more slots by --nodes, up to 23"
    )


class TooManyTerms(Unsolved):
    """The answer is longer than the limit."""

    status = 6
    remedy = (
        "try --polarity auto or, where points are free, --order auto, which may give a shorter answer; else raise "
        "--terms, up to 1000000"
    )


class OutOfMemory(Unsolved):
    """Want of memory."""

    status = 7
    remedy = "fewer slots by --nodes take less memory"


class BadOrder(Unsolved):
    """An order or a list of inputs or outputs does not name what it has to."""

    status = 12
    remedy = "--order takes the name of each input once, with commas and no blanks between them; other lists take some"


class SomeMissing(Unsolved):
    """Some outputs have an answer and some have none."""

    status = 13
    remedy = "those that have one are given; each of the others has its own message, with what to do"


class TimeUp(Unsolved):
    """The time was up."""

    status = 14
    remedy = "give more time by --seconds, or try --order auto or --polarity auto"


class Failed(Unsolved):
    """The program failed in another way."""

    status = 70
    remedy = "the program could not be proved and built, or failed: what it said stands above"


class WrongAnswer(Unsolved):
    """The answer that was found does not take the values of the rows."""

    status = 71
    remedy = (
        "this is a fault of the tool or the program, and nothing of the answer was printed: please keep the file and "
        "report it"
    )


CLASSES = (
    Refused,
    Contradiction,
    TooManyNodes,
    TooManyTerms,
    OutOfMemory,
    BadOrder,
    SomeMissing,
    TimeUp,
    Failed,
    WrongAnswer,
)
BY_STATUS = {kind.status: kind for kind in CLASSES}

# What was done beside a run of the program on the file, by the word that begins the line that tells it.
REMEDIES = {
    "fewer rows": "rows that say one thing and differ in one symbol were made one, and rows that another covers left "
    "out: the points are the same",
    "unused inputs": "inputs that no row fixes were left out: no least polynomial has them",
    "outputs apart": "outputs were solved one by one, each with the rows that say something of it, where all together "
    "are too many",
    "first inputs": "in mode anf the first inputs were left out as far as the rows agree without them: the part of the "
    "least polynomial with the first input interpolates the points that a one and a zero share without it, and there "
    "are none",
    "more slots": "the table had more slots, as by --nodes",
    "another order": "an output without free points was solved by another order of the inputs, and its terms sorted "
    "back: there the polynomial is the same set of terms in every order",
    "parts": "an output without free points was cut at inputs: its polynomial is that with the input 0, and the input "
    "times the sum of both",
    "names": "names that the program does not print were replaced for the run, and put back in the answer",
}


class Settings:
    """How to solve: the mode; the places of the inputs in the order that is asked for, or None; the limits that were
    given; how many seconds the run on the file may take (None is no limit) and the remedies together; and how many runs
    go side by side. A ValueError names a limit that is out of its range."""

    def __init__(self, mode="anf", order=None, nodes=None, terms=None, workers=None, seconds=None, processors=None):
        given = {"nodes": nodes, "terms": terms, "workers": workers, "seconds": seconds, "processors": processors}
        for name, value in given.items():
            least, most = LIMITS[name]
            if value is not None and not least <= value <= most:
                raise ValueError(f"{name} is a number from {least} to {most}, and not {value!r}")
        self.mode, self.order, self.nodes, self.terms, self.workers = mode, order, nodes, terms, workers
        self.given_seconds = seconds
        self.seconds = SECONDS if seconds is None else seconds
        self.processors = processors or os.cpu_count() or 1

    def words(self, order_names=None, slots=None):
        """The words of a run of interp."""
        words = [self.mode]
        for option, value in (("--nodes", slots or self.nodes), ("--terms", self.terms), ("--workers", self.workers)):
            if value is not None:
                words += [option, str(value)]
        return words + (["--order", ",".join(order_names)] if order_names else [])

    def more_slots(self):
        """The numbers of bits of larger tables that may be tried."""
        return [] if self.nodes is not None else [21, MOST_SLOTS]


class Solved:
    """An output's answer: its place in the file, its name, the text of its polynomial, and those of its basis."""

    def __init__(self, place, name, polynomial, elements):
        self.place, self.name, self.polynomial, self.elements = place, name, polynomial, elements

    def text(self):
        """The lines of the answer."""
        return "".join([f"{self.name} = {self.polynomial}\n", *(f"0 = {element}\n" for element in self.elements)])


class Solution:
    """What solving gave: the outputs that have an answer, why the others have none, and what was done, in lines."""

    def __init__(self, outputs, missing, notes):
        self.outputs, self.missing, self.notes = outputs, missing, notes

    def text(self):
        """The answer as the program prints it."""
        return "".join(output.text() for output in self.outputs)


def solve(description, settings, original=None, names=None, progress=None):
    """Solves a description, or raises Unsolved where no output has an answer. The answer is looked at by the rows of
    the `original`, if that is not the description itself, and has the names for its inputs."""
    return _Solving(description, settings, original or description, names, progress).solve()


def answer(solution, description, settings, choices=()):
    """The answer of a solution, as polynomials by names. Its inputs are in the order that all outputs have, if they
    have one."""
    order = settings.order or range(description.inputs)
    if len(choices) == 1:
        order = choices[0].order
    names = description.shown_input_names
    return answers.parse(solution.text(), [names[place] for place in order], description.shown_output_names)


def inputs_of(description, names, option):
    """The places of the inputs that a list names, as they are shown or printed by the program."""
    return _places_of(names, description.shown_input_names, description.input_names, option)


def outputs_of(description, names, option):
    """The places of the outputs that a list names."""
    return _places_of(names, description.shown_output_names, description.output_names, option)


def order_of(description, names):
    """The places of the inputs that an order names."""
    found = inputs_of(description, names, "--order")
    shown = description.shown_input_names
    if len(found) != len(shown):
        missing = [name for place, name in enumerate(shown) if place not in set(found)]
        raise BadOrder(f"--order leaves out {_few(missing, ', ')}", told_names(shown))
    return found


def _places_of(names, shown, printed, option):
    """The places that a list of names has among some that are shown, or that the program prints."""
    places = {name: place for place, name in [*enumerate(printed), *enumerate(shown)]}
    found = []
    for name in names:
        if name not in places or places[name] in found:
            fault = "stands twice" if name in places else "is none of them"
            raise BadOrder(f"{option}: '{name}' {fault}", told_names(shown))
        found.append(places[name])
    return found


def told_names(names):
    return f"write names with commas and no blanks between them, each once, of {','.join(names)}"


def failure(run, what="", remedies_by_status=None):
    """The exception for a run that gave no answer. Of some statuses the remedy may be another one than for solve."""
    message = run.message or (run.errors.strip().splitlines() or ["the program gave no answer"])[-1]
    if run.status is programs.TIMED_OUT:
        message = f"no answer after {run.seconds:.0f} s"
    kind = TimeUp if run.status is programs.TIMED_OUT else BY_STATUS.get(run.status, Failed)
    return kind(f"{what}{message}", (remedies_by_status or {}).get(run.status))


def refuse_contradictions(description, outputs=None):
    """Ends with a Contradiction where rows of these outputs, or of all, contradict each other, so that no polynomial
    takes every given value."""
    clash = remedies.first_clash(description, range(description.outputs) if outputs is None else outputs)
    if clash:
        output, one, zero = clash
        raise Contradiction(
            f"output {description.shown_output_names[output]} is 1 by line {one.line} ({one.inputs}) and 0 by line "
            f"{zero.line} ({zero.inputs})"
        )


def fits(description):
    """Whether the program takes a description as it is."""
    sizes = description.inputs, description.outputs, len(description.rows)
    most = descriptions.MOST_INPUTS, descriptions.MOST_OUTPUTS, descriptions.MOST_ROWS
    return "bytes" not in description.forms and all(map(operator.le, sizes, most))


def chosen(description, outputs):
    """The description of some outputs alone."""
    if list(outputs) == list(range(description.outputs)):
        return description
    part = descriptions.Description(description.path, description.inputs, len(outputs), description.kind)
    part.given_input_names, part.typed = description.given_input_names, description.typed
    shown = description.shown_output_names
    part.given_output_names = part.kept_output_names = [shown[place] for place in outputs]
    saying = descriptions.SETS[description.kind]
    for row in description.rows:
        symbols = "".join(row.outputs[place] for place in outputs)
        if any(symbol in saying for symbol in symbols):
            part.rows.append(descriptions.Row(row.line, row.inputs, symbols))
    part.forms = {form: line for form, line in description.forms.items() if form != "bytes"}
    return part


class _Solving:
    """The work on one description."""

    def __init__(self, description, settings, original, names, progress):
        self.description, self.settings, self.original = description, settings, original
        self.order = list(settings.order or range(description.inputs))
        self.names = names or description.shown_input_names
        self.output_names = description.shown_output_names
        self.progress = progress or (lambda text: None)
        self.seats = threading.BoundedSemaphore(settings.processors)
        self.whole = programs.Group()
        self.done, self.winners = {}, {}
        width = description.inputs
        self.rank = {place: 1 << (width - 1 - at) for at, place in enumerate(self.order)}
        self.memo = {}
        self.deadline = None

    def solve(self):
        try:
            return self.looked_at(*self.attempt())
        except BaseException:
            self.whole.stop()
            raise

    def attempt(self):
        """The outputs that have an answer, and why the others have none."""
        outputs = list(range(self.description.outputs))
        if not fits(self.description):
            return self.solve_blocks(outputs)
        run = self.run_on_file()
        if run.status == 0:
            self.note_names()
            return self.read_plain(run), []
        if run.status not in (TooManyNodes.status, TooManyTerms.status, OutOfMemory.status, programs.TIMED_OUT):
            raise self.told_failure(run)
        refuse_contradictions(self.original, outputs)
        self.deadline = time.monotonic() + self.settings.seconds
        if len(outputs) > 1:
            grouped = self.solve_group_by_another_order(outputs) if run.status == TooManyNodes.status else None
            if grouped is not None:
                return grouped, []
            self.note("outputs apart", run.message or "the time was up", None)
        return self.solve_apart(outputs)

    def solve_blocks(self, outputs):
        """The outputs of a large file, as many together as the program takes."""
        refuse_contradictions(self.original, outputs)
        size = descriptions.MOST_OUTPUTS
        blocks = [outputs[start : start + size] for start in range(0, len(outputs), size)]
        found, apart = [], []
        for block, grouped in zip(blocks, self.side_by_side(self.solve_group, blocks)):
            if grouped is None:
                apart += block
            else:
                found += grouped
        if not apart:
            return found, []
        if len(outputs) > 1:
            self.note("outputs apart", "the file is too large for one run", None)
        self.deadline = time.monotonic() + self.settings.seconds
        more, missing = self.solve_apart(apart)
        return sorted(found + more, key=lambda output: output.place), missing

    def side_by_side(self, work, parts):
        """What some work gives for each of some parts, in their order. The program is looked for before, as signals
        reach the first thread alone, and it may have to be built."""
        programs.find("interp")
        with concurrent.futures.ThreadPoolExecutor(self.settings.processors) as pool:
            futures = [pool.submit(work, part) for part in parts]
            try:
                found = []
                for future in futures:
                    found.append(future.result())
                    self.progress(f"{len(found)} parts of {len(parts)}")
                return found
            except BaseException:
                self.whole.stop()
                for future in futures:
                    future.cancel()
                raise

    def run_on_file(self):
        description, settings = self.description, self.settings
        names = description.input_names
        asked = [names[place] for place in self.order] if settings.order else None
        self.progress("the file as it is")
        data = descriptions.text(description, all_names=False).encode()
        return self.run(settings.words(asked), data, settings.given_seconds)

    def run(self, words, data, seconds):
        """A run of the program, which may take so many seconds."""
        with self.seats:
            return programs.run("interp", words, data, seconds, self.whole)

    def run_remedy(self, found, order, slots=None, group=None):
        """A run of the program on a problem by an order of its inputs, as long as the remedies may take."""
        data = found.text(order)
        with self.seats:
            left = self.deadline - time.monotonic()
            if left <= 0:
                return programs.Run(programs.TIMED_OUT, b"", "", self.settings.seconds)
            return programs.run("interp", self.settings.words(slots=slots), data, left, group or self.whole)

    def note(self, remedy, detail, output):
        """Keeps what was done for an output, or for all (None)."""
        self.done.setdefault(remedy, []).append((detail, output))

    def note_names(self):
        """Notes the names that the program does not print and the answer has."""
        description = self.description
        put_back = [
            name
            for shown in (description.shown_input_names, description.shown_output_names)
            for name in shown
            if not descriptions.is_plain(name)
        ]
        if put_back:
            self.note("names", _few(put_back, " "), None)

    def told_failure(self, run):
        if run.status == Contradiction.status:
            refuse_contradictions(self.original)
        return failure(run)

    def read_plain(self, run):
        """The outputs of a run on the file, with the names of the answer."""
        named = dict(zip(self.description.input_names, self.names))
        same = all(name == other for name, other in named.items())
        found = []
        for place, (polynomial, *elements) in enumerate(answer_lines(run, self.description.output_names)):
            texts = [text if same else renamed(text, named) for text in (polynomial, *elements)]
            found.append(Solved(place, self.output_names[place], texts[0], texts[1:]))
        return found

    def looked_at(self, found, missing):
        """The solution, where no answer has a fault at the points that are looked at."""
        for output in found:
            self.progress(f"looking at {output.name}")
            fault = points.fault(self.original, output.place, output.polynomial, output.elements, self.plain_names())
            if fault:
                raise WrongAnswer(f"output {output.name}: {fault}")
        if missing and not found:
            raise self.of_all(missing)
        return Solution(found, missing, self.notes())

    def plain_names(self):
        """The names of the inputs without the marks of those that were complemented."""
        return [name.lstrip("~") for name in self.names]

    def of_all(self, missing):
        """Why there is nothing, where outputs failed for several causes."""
        first = missing[0][1]
        others = "" if len(missing) == 1 else f" (and {len(missing) - 1} more outputs have no answer)"
        return type(first)(first.message + others, first.remedy, [place for place, _ in missing])

    def notes(self):
        """What was done, a line for each remedy."""
        lines = []
        for remedy, entries in self.done.items():
            details = list(dict.fromkeys(detail for detail, _ in entries))
            places = sorted({output for _, output in entries if output is not None})
            names = [self.output_names[place] for place in places] if self.description.outputs > 1 else []
            lines.append(f"{remedy}: {_few(details, '; ')}" + (f", for {_few(names, ', ')}" if names else ""))
        return lines

    # Outputs together, on fewer rows and inputs.

    def solve_group(self, outputs):
        """Some outputs by one run on fewer rows and inputs, where these fit and the run has an answer, or None."""
        whole = remedies.problem(self.description, outputs)
        found = remedies.without_unused_inputs(remedies.with_fewer_rows(whole))
        if not found.fits():
            return None
        self.progress("outputs together on fewer rows")
        order = self.asked_order(found)
        run = self.run(self.settings.words(), found.text(order), self.settings.given_seconds)
        if run.status:
            return None
        self.note_reduced(whole, found, None)
        self.note_names()
        return self.read_outputs(run, outputs, order)

    def solve_group_by_another_order(self, outputs):
        """The outputs by one run by another order, where none of them has free points, or None."""
        parts = (remedies.with_fewer_rows(remedies.problem(self.description, [place])) for place in outputs)
        if any(remedies.without_free_points(part) is None for part in parts):
            return None
        whole = remedies.problem(self.description, outputs)
        found = remedies.without_unused_inputs(remedies.with_fewer_rows(whole))
        self.progress("all outputs by other orders")
        won = self.first_of(found, self.other_orders(found), None)
        if won is None or won[1].status:
            return None
        (name, order), run = won
        self.note_reduced(whole, found, None)
        self.note("another order", name, None)
        self.note_names()
        return self.read_outputs(run, outputs, order)

    def other_orders(self, found):
        """Other orders of the inputs of a problem, each with its name; those that had an answer before stand first."""
        asked = self.asked_order(found)
        cubes = [cube for cubes in found.cubes.values() for cube in cubes]
        others = orders.static_orders(asked, cubes, self.description.shown_input_names, found.width)
        return sorted(others, key=lambda entry: -self.winners.get(entry[0], 0))

    def note_reduced(self, before, after, output):
        if after.rows() < before.rows():
            self.note("fewer rows", f"{before.rows()} made {after.rows()}", output)
        if len(after.inputs) < len(before.inputs):
            self.note("unused inputs", f"{len(before.inputs)} made {len(after.inputs)}", output)

    def read_outputs(self, run, outputs, order):
        """The outputs of a run on a problem by an order of some inputs."""
        bits = self.bits_of(order)
        in_order = list(bits.values()) == sorted(bits.values(), reverse=True)
        same = in_order and list(bits) == [self.names[place] for place in order]
        write = Monomials([self.names[place] for place in self.order])
        found = []
        for place, lines in zip(outputs, answer_lines(run, descriptions.numbered_names("f", len(outputs)))):
            texts = [text if same else write.text(sorted(masks_of(text, bits), reverse=True)) for text in lines]
            found.append(Solved(place, self.output_names[place], texts[0], texts[1:]))
        return found

    def bits_of(self, order):
        """The bits of the inputs by the names that a run on a problem by an order has for them."""
        return {name: self.rank[place] for name, place in zip(descriptions.numbered_names("x", len(order)), order)}

    # Outputs apart.

    def solve_apart(self, outputs):
        """Each output alone, side by side."""
        found, missing = [], []
        for place, ended in zip(outputs, self.side_by_side(self.solve_alone, outputs)):
            if isinstance(ended, Unsolved):
                missing.append((place, ended))
            else:
                found.append(ended)
        if found:
            self.note_names()
        return found, missing

    def solve_alone(self, place):
        """One output, or why it has no answer."""
        try:
            return self.solve_output(place)
        except (Contradiction, Failed, WrongAnswer):
            raise
        except Unsolved as unsolved:
            return unsolved

    def solve_output(self, place):
        """One output."""
        before = remedies.problem(self.description, [place])
        found = remedies.with_fewer_rows(before)
        whole = remedies.without_free_points(found)
        if whole is not None:
            reduced = remedies.without_unused_inputs(whole)
            self.note_reduced(before, reduced, place)
            return self.solve_complete(place, reduced)
        if self.settings.mode == "anf":
            fewer = remedies.without_first_inputs(found, self.order)
            if fewer is not None and len(fewer.inputs) < len(found.inputs):
                left_out = len(found.inputs) - len(fewer.inputs)
                self.note("first inputs", f"{left_out} of {len(found.inputs)} left out", place)
                found = remedies.with_fewer_rows(fewer)
        reduced = remedies.without_unused_inputs(found)
        self.note_reduced(found, reduced, place)
        return self.solve_with_free_points(place, reduced)

    def limits(self, place, found):
        """Why the program takes no such problem."""
        name = self.output_names[place]
        return Refused(f"output {name} alone has {found.rows()} rows over {len(found.inputs)} inputs")

    def solve_with_free_points(self, place, found):
        """An output with free points."""
        if not found.fits():
            raise self.limits(place, found)
        order = self.asked_order(found)
        run = self.run_remedy(found, order)
        for slots in self.settings.more_slots():
            if run.status != TooManyNodes.status:
                break
            run = self.run_remedy(found, order, slots)
            if run.status == 0:
                self.note("more slots", f"2^{slots}", place)
        if run.status:
            raise failure(run, f"output {self.output_names[place]}: ")
        return self.read_outputs(run, [place], order)[0]

    def solve_complete(self, place, found):
        """An output without free points."""
        write = Monomials([self.names[other] for other in self.order])
        terms = self.complete_terms(place, found)
        if len(terms) > (self.settings.terms or 1_000_000):
            raise TooManyTerms(f"output {self.output_names[place]}: {len(terms)} terms")
        return Solved(place, self.output_names[place], write.text(sorted(terms, reverse=True)), [])

    def complete_terms(self, place, found):
        """The terms of an output without free points: by the asked order, by other orders, with more slots, in parts,
        and with the most slots."""
        if len(found.inputs) > _MOST_CUT_INPUTS:
            raise self.limits(place, found)
        if not found.fits():
            return self.terms_by_parts(place, found, self.deadline)
        asked = self.asked_order(found)
        run = self.run_remedy(found, asked)
        if run.status == 0:
            return self.read_terms(run, asked)
        others = self.other_orders(found)
        every = [("as asked", asked), *others]
        middle, most = self.settings.more_slots() or (None, None)
        try:
            if run.status != TooManyNodes.status:
                raise failure(run, f"output {self.output_names[place]}: ")
            terms = self.by_orders(place, found, others, None)
            if terms is None and middle:
                terms = self.by_orders(place, found, every, middle)
            if terms is None:
                terms = self.by_parts_or_slots(place, found, every, most)
            return terms
        except TimeUp:
            raise failure(run, f"output {self.output_names[place]}: ") from None

    def by_parts_or_slots(self, place, found, every, slots):
        """The terms in parts, or else by some orders with the most slots."""
        try:
            return self.terms_by_parts(place, found, time.monotonic() + _FOR_PARTS * self.settings.seconds)
        except (TooManyNodes, TimeUp, Refused) as unsolved:
            terms = self.by_orders(place, found, every, slots) if slots else None
            if terms is None:
                raise unsolved
            return terms

    def asked_order(self, found):
        return [place for place in self.order if place in set(found.inputs)]

    def read_terms(self, run, order):
        [(polynomial, *_)] = answer_lines(run, ["f1"])
        return masks_of(polynomial, self.bits_of(order))

    def by_orders(self, place, found, tried, slots):
        """The terms by the first of some orders that has an answer, or None. Those that had one before are tried
        first."""
        known = [entry for entry in tried if entry[0] in self.winners]
        won = self.first_of(found, known, slots) or self.first_of(found, tried, slots)
        if won is None:
            return None
        (name, order), run = won
        if run.status == TooManyTerms.status:
            raise failure(run, f"output {self.output_names[place]}: ")
        if slots:
            self.note("more slots", f"2^{slots}", place)
        if order != self.asked_order(found):
            self.note("another order", name, place)
            self.winners[name] = self.winners.get(name, 0) + 1
        return self.read_terms(run, order)

    def first_of(self, found, tried, slots):
        """The first of some orders, which run side by side, whose run has an answer or more terms than the limit, or
        None."""
        group = programs.Group(self.whole)
        with concurrent.futures.ThreadPoolExecutor(self.settings.processors) as pool:
            futures = {pool.submit(self.run_remedy, found, order, slots, group): (name, order) for name, order in tried}
            try:
                for future in concurrent.futures.as_completed(futures):
                    if future.result().status in (0, TooManyTerms.status):
                        return futures[future], future.result()
            finally:
                group.stop()
        return None

    def terms_by_parts(self, place, found, deadline):
        """The terms of an output from those where an input is 0 and where it is 1."""
        key = frozenset(found.set_of("on"))
        if key in self.memo:
            return self.memo[key]
        if len(self.memo) > _MOST_PARTS or len(found.inputs) <= 1 or time.monotonic() > deadline:
            raise TimeUp(f"output {self.output_names[place]}: no answer in parts")
        self.note("parts", "cut at inputs", place)
        counts = {other: 0 for other in found.inputs}
        for fixed, _ in found.set_of("on"):
            for other in counts:
                counts[other] += fixed >> (found.width - 1 - other) & 1
        at = max(counts, key=counts.get)
        zero = self.part_terms(place, remedies.cofactor(found, at, False), deadline)
        one = self.part_terms(place, remedies.cofactor(found, at, True), deadline)
        bit = self.rank[at]
        terms = {*zero, *(mask | bit for mask in zero ^ one)}
        self.memo[key] = terms
        return terms

    def part_terms(self, place, part, deadline):
        """The terms of a part, as a set."""
        if not part.cubes:
            return set()
        found = remedies.without_unused_inputs(part)
        if found.fits():
            asked = self.asked_order(found)
            run = self.run_remedy(found, asked)
            if run.status == 0:
                return set(self.read_terms(run, asked))
            if run.status != TooManyNodes.status:
                raise failure(run, f"output {self.output_names[place]}: ")
            terms = self.by_orders(place, found, self.other_orders(found), None)
            if terms is not None:
                return set(terms)
        return self.terms_by_parts(place, found, deadline)


def _few(words, between):
    """The first of some words."""
    return between.join(words[:6]) + (f"{between}and {len(words) - 6} more" if len(words) > 6 else "")


def answer_lines(run, names):
    """For each output of a run the text of its polynomial, and those of the elements behind it."""
    found, left = [], iter(names)
    try:
        for number, name, right in answers.lines_of(run.output.decode("ascii", "replace")):
            if name == "0" and found:
                found[-1].append(right)
            elif name == next(left, None):
                found.append([right])
            else:
                raise answers.AnswerError(number, f"{name[:60]!r} stands on the left")
    except answers.AnswerError as error:
        raise WrongAnswer(f"the program wrote what is no answer: {error}") from None
    if len(found) != len(names):
        raise WrongAnswer(f"the program wrote an answer of {len(found)} outputs, and there are {len(names)}")
    return found


def renamed(text, named):
    """The text of a polynomial with other names."""
    monomials = answers.monomials_of(text)
    return str(Polynomial([named.get(factor, factor) for factor in monomial] for monomial in monomials))


def masks_of(text, bits):
    """The terms of a polynomial's text, by the bits of its names."""
    try:
        return answers.masks_of(text, bits)
    except answers.AnswerError as error:
        raise WrongAnswer(f"the program wrote what is no answer: {error}") from None
