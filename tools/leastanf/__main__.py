"""Runs a command by its name.

usage: leastanf COMMAND WORDS

The commands are {commands}, each with --help. `python3 -m leastanf` does the same.
"""

import importlib
import signal
import sys

from .commands import WORDS, command, say

NAME = "leastanf"
COMMANDS = ("solve", "ask", "judge", "agrees", "answer_as", "describe")


@command(NAME)
def run(words):
    if words and words[0] in ("-h", "--help"):
        print(__doc__.format(commands=", ".join(COMMANDS)).strip())
        return 0
    if not words or words[0] not in COMMANDS:
        say(NAME, f"the commands are {', '.join(COMMANDS)}; {NAME} --help has the form")
        return WORDS
    return importlib.import_module(f"{__package__}.commands.{words[0]}").main(words[1:])


def main():
    signal.signal(signal.SIGINT, signal.SIG_DFL)
    return run()


if __name__ == "__main__":
    sys.exit(main())
