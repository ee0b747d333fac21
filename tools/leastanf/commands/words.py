"""Reading the words of a command line, and what they name."""

import argparse
import re

from .. import descriptions, solving
from . import WORDS, say


class Once(argparse.Action):
    """An option that may stand once."""

    def __call__(self, parser, options, value, option=None):
        if getattr(options, self.dest) is not None:
            parser.error(f"{option} stands twice")
        setattr(options, self.dest, value)


class Parser(argparse.ArgumentParser):
    """A parser of words whose refusals are one line with status 2."""

    def __init__(self, name):
        super().__init__(prog=name, add_help=False, allow_abbrev=False)
        self.add_argument("-h", "--help", action="store_true")

    def read(self, words, document, named=None):
        """The options of a command line, or None where help is asked for, which is then printed. A request for help
        needs no other words.

        Words that are no options are `words`, and those behind --, whatever they begin with, are `behind`. Where names
        for both together are given, each is an option of its name.
        """
        at = words.index("--") if "--" in words else len(words)
        if {"-h", "--help"} & set(words[:at]):
            print(document.strip())
            return None
        options, options.words = self.parse_known_args(words[:at])
        options.behind = words[at + 1 :]
        for word in options.words:
            if word.startswith("-") and word != "-":
                self.error(f"{word} is no option: a word that begins with - stands behind --")
        if named is not None:
            self.name_words(options, named)
        return options

    def name_words(self, options, named):
        """Makes each word that is no option one of its name."""
        given = options.words + options.behind
        if len(given) < len(named):
            self.error(f"a {named[len(given)]} is wanted")
        if len(given) > len(named):
            self.error(f"{given[len(named)]} is a word too many")
        for name, word in zip(named, given):
            setattr(options, name, word)

    def add_number(self, option, least, most):
        """Takes an option of a number in digits, at most once."""
        self.add_argument(option, action=Once, type=lambda text: self.number(option, least, most, text))

    def number(self, option, least, most, text):
        digits = text[1:] if text.startswith("+") else text
        if not re.fullmatch("[0-9]{1,20}", digits) or not least <= int(digits) <= most:
            self.error(f"{option} takes a number from {least} to {most}")
        return int(digits)

    def add_texts(self, *options):
        """Takes options of a text, each at most once."""
        for option in options:
            self.add_argument(option, action=Once)

    def refuse_standard_input(self, options, read):
        """Refuses a file of standard input, from which something else is read."""
        if options.file == "-":
            self.error(f"the {read} from standard input, so the file has to have a name")

    def error(self, message):
        say(self.prog, f"{message}; {self.prog} --help has the form")
        raise SystemExit(WORDS)


def description(name, path):
    """The description in a file, for a command of this name, which tells how it was read and which names stand for
    others."""
    found = descriptions.read(path)
    tell_of(name, found)
    for given, names in (
        (found.given_input_names, found.shown_input_names),
        (found.given_output_names, found.shown_output_names),
    ):
        for before, shown in zip(given or (), names):
            if before != shown:
                say(name, f"{found.path}: {shown} stands for '{before}', which cannot be told in an answer")
    return found


def tell_of(name, found):
    """Tells for a command of this name the forms of a file that were brought into shape, and what may be meant
    otherwise."""
    for form, line in found.forms.items():
        say(name, f"{found.path}{'' if line is None else f':{line}'}: {descriptions.FORMS[form]}")
    for text in found.warnings:
        say(name, text)


def standard_input():
    """The text on standard input."""
    return descriptions.read_bytes("-").decode("utf-8", "replace")


def order(description, text):
    """The places of the inputs in the order that --order names, or None where it is not given."""
    return None if text is None else solving.order_of(description, text.split(","))


def flips(description, text):
    """The places of the inputs that --polarity names."""
    if text is None:
        return []
    if text == "all":
        return list(range(description.inputs))
    return solving.inputs_of(description, text.split(","), "--polarity")


def outputs(description, text):
    """The places of the outputs that --outputs names, or of all where it is not given."""
    if text is None:
        return list(range(description.outputs))
    return solving.outputs_of(description, text.split(","), "--outputs")


def chosen(description, text):
    """The description of the outputs that --outputs names, or of all where it is not given."""
    return solving.chosen(description, outputs(description, text))
