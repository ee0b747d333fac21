"""Printing verdicts, as judge and agrees give them."""

import sys

# The statuses: something is wrong, and it is not known of something while nothing was found wrong.
WRONG, UNKNOWN = 1, 15


def print_verdicts(verdicts):
    """Prints a line for each verdict as soon as it is known, and gives the status. The verdicts are triples of the name
    of an output, a judging.Verdict, and the line of the answer where it is wrong, or None."""
    found = set()
    for name, verdict, line in verdicts:
        print(f"{name}: {in_words(verdict, line)}")
        sys.stdout.flush()
        found.add(verdict.holds)
    if False in found:
        return WRONG
    return UNKNOWN if None in found else 0


def in_words(verdict, line):
    """A verdict in words."""
    if verdict.holds:
        return "yes"
    if verdict.holds is None:
        return f"not known, {verdict.why}"
    return f"no, {verdict.why} (answer line {line})" if line else f"no, {verdict.why}"
