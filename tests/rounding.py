"""How document 01's figures are rounded, as T-04 of document 02 has changed it, and in what units they come."""

from fractions import Fraction as F
from math import floor


def rounded(value):
    """The nearest whole number, halves to the even one (GB/T 8170)."""
    below = floor(value)
    over = F(value) - below
    if over == F(1, 2):
        return below + below % 2
    return below + (over > F(1, 2))


def rounded_to(unit, value):
    return rounded(value / F(unit)) * F(unit)


def joules_of(kilojoules):
    return rounded(1_000 * kilojoules)


def tenths(value):
    return F(value, 10)
