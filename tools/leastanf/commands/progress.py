"""How far a command is."""

import sys

from .. import descriptions


class Progress:
    """A line on a terminal that is rewritten; nothing elsewhere."""

    def __init__(self, name, file):
        self.name, self.path = name, descriptions.called(file)
        self.shows = sys.stderr.isatty()

    def __call__(self, text):
        self.write(f"{self.name}: {self.path}: {text}")

    def end(self):
        self.write("")

    def write(self, text):
        try:
            if self.shows:
                sys.stderr.write(f"\r\033[K{text}")
                sys.stderr.flush()
        except OSError:
            self.shows = False
