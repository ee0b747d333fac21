"""Factors of monomials: the names of inputs, and their complements.

The complement of an input is written `~NAME` and is NAME + 1: answers in which inputs were complemented have such
factors.
"""

COMPLEMENT = "~"


def factors_of(inputs, complements):
    """The factors that monomials may have, by the order of the inputs: the names, and their complements where these are
    asked for."""
    if not complements:
        return tuple(inputs)
    return tuple(factor for name in inputs for factor in (name, COMPLEMENT + name))


def is_complement(factor):
    """Whether a factor is the complement of an input."""
    return factor.startswith(COMPLEMENT)


def input_of(factor):
    """The name of the input of a factor."""
    return factor[1:] if is_complement(factor) else factor
