"""Orders and polarities on request: the best of some, by the number of literals of the answers. They change the
answer."""

import concurrent.futures
import copy
import time

from . import orders, polarity, programs, remedies, solving
from .solving import Solution, Unsolved

# How many seconds the search may take, where the caller does not say.
SECONDS = 60
# How often an order is changed step by step, and how many inputs are tried at each step.
_STEPS, _MOST_MOVED = 3, 12


class Choice:
    """For some outputs, the order and the inputs that are complemented; how they are called; and the literals of the
    answer, or None where no run had one."""

    def __init__(self, outputs, order, flips, name, literals):
        self.outputs, self.order, self.flips, self.name, self.literals = outputs, order, flips, name, literals


def solve(description, settings, wanted_order=None, wanted_polarity=None, progress=None):
    """Solves with the best order (auto, or each: for each output its own), the best polarity (auto, each, or a list of
    places), or both. Gives the solution and the choices."""
    choosing = _Choosing(description, settings, wanted_order, wanted_polarity, progress or (lambda text: None))
    choices = choosing.choose()
    found, missing, notes = [], [], []
    for choice in choices:
        try:
            part = choosing.solve_choice(choice)
        except solving.Contradiction:
            raise
        except Unsolved as unsolved:
            if len(choices) == 1:
                raise
            missing += [(place, unsolved) for place in choice.outputs]
            continue
        for output in part.outputs:
            output.place = choice.outputs[output.place]
            found.append(output)
        missing += [(choice.outputs[place], unsolved) for place, unsolved in part.missing]
        notes += [note for note in part.notes if note not in notes]
    if not found:
        raise missing[0][1]
    found.sort(key=lambda output: output.place)
    missing.sort(key=lambda entry: entry[0])
    return Solution(found, missing, notes), choices


class _Choosing:
    """The search of one description."""

    def __init__(self, description, settings, wanted_order, wanted_polarity, progress):
        self.description, self.settings, self.progress = description, settings, progress
        self.wanted_order, self.wanted_polarity = wanted_order, wanted_polarity
        self.deadline = time.monotonic() + (settings.given_seconds or SECONDS)
        self.group = programs.Group()

    def choose(self):
        every = list(range(self.description.outputs))
        if "each" in (self.wanted_order, self.wanted_polarity) and len(every) > 1:
            return [self.choose_for([place]) for place in every]
        choice = self.choose_for(every)
        if choice.literals is None and len(every) > 1:
            return [self.choose_for([place]) for place in every]
        return [choice]

    def choose_for(self, outputs):
        """The best choice for some outputs together."""
        part = solving.chosen(self.description, outputs)
        asked = self.settings.order or list(range(part.inputs))
        if self.wanted_polarity in ("auto", "each"):
            tried = polarity.candidates(part)
        else:
            tried = [("as asked", list(self.wanted_polarity or []))]
        trials = [(name, asked, flips) for name, flips in tried]
        best = self.best(part, outputs, trials)
        if self.wanted_order in ("auto", "each") and remedies_differ_by_order(part):
            best = self.best_order(part, outputs, best)
        return best

    def best_order(self, part, outputs, before):
        turned = polarity.flipped(part, before.flips)
        problems = [remedies.problem(turned, [place]) for place in range(part.outputs)]
        found = orders.orders_for_free_points(problems, before.order, part.shown_input_names, part.inputs)
        best = self.best(part, outputs, [(name, order, before.flips) for name, order in found], before)
        for _ in range(_STEPS):
            moved = [
                (
                    f"{best.name}, {part.shown_input_names[place]} first",
                    [place, *(at for at in best.order if at != place)],
                    best.flips,
                )
                for place in best.order[: -1 - _MOST_MOVED : -1]
            ]
            if best.literals is None or time.monotonic() > self.deadline:
                break
            better = self.best(part, outputs, moved, best)
            if better is best:
                break
            best = better
        return best

    def best(self, part, outputs, trials, before=None):
        """The choice with the fewest literals of some trials, which run side by side, and of the one before."""
        names = ", ".join(self.description.shown_output_names[place] for place in outputs[:4])
        self.progress(f"{len(trials)} orders and polarities for {names}{' ..' if len(outputs) > 4 else ''}")
        best = before or Choice(outputs, trials[0][1], trials[0][2], trials[0][0], None)
        # (signals reach this thread alone, and the program may have to be built)
        programs.find("interp")
        with concurrent.futures.ThreadPoolExecutor(self.settings.processors) as pool:
            futures = [pool.submit(self.literals, part, order, flips) for _, order, flips in trials]
            try:
                for (name, order, flips), future in zip(trials, futures):
                    literals = future.result()
                    if literals is not None and (best.literals is None or literals < best.literals):
                        best = Choice(outputs, order, flips, name, literals)
            except BaseException:
                self.group.stop()
                raise
        return best

    def literals(self, part, order, flips):
        """The number of literals of the answer by an order and a polarity, or None."""
        whole = remedies.problem(polarity.flipped(part, flips), range(part.outputs))
        found = remedies.without_unused_inputs(remedies.with_fewer_rows(whole))
        left = self.deadline - time.monotonic()
        if not found.fits() or left <= 0:
            return None
        kept = [place for place in order if place in set(found.inputs)]
        run = programs.run("interp", self.settings.words(), found.text(kept), left, self.group)
        return None if run.status else run.output.count(b"*") + run.output.count(b" + ")

    def solve_choice(self, choice):
        """The solution for the outputs of a choice. Where no run had an answer, other polarities are tried with all
        remedies."""
        part = solving.chosen(self.description, choice.outputs)
        flips = [choice.flips]
        if choice.literals is None and self.wanted_polarity in ("auto", "each"):
            flips += [places for _, places in polarity.candidates(part) if places != choice.flips]
        for at, places in enumerate(flips):
            choice.flips = places
            try:
                return self.solve_part(part, choice)
            except (solving.TooManyNodes, solving.TooManyTerms, solving.TimeUp):
                if at + 1 == len(flips):
                    raise
        return None

    def solve_part(self, part, choice):
        settings = self.settings
        order = None if choice.order == list(range(part.inputs)) else choice.order
        by_order = copy.copy(settings)
        by_order.order = order
        names = polarity.marked(part.shown_input_names, choice.flips)
        return solving.solve(polarity.flipped(part, choice.flips), by_order, part, names, self.progress)


def remedies_differ_by_order(part):
    """Whether an answer may depend on the order, because a point is free."""
    return any(
        remedies.without_free_points(remedies.with_fewer_rows(remedies.problem(part, [place]))) is None
        for place in range(part.outputs)
    )
