"""Document 02's tapes, for tapes.py, exports.py and examples.py: the cell of a coordinate in exact fractions, by search, and the octagon that holds cells.

It shares nothing with the library. A number is a Python float, and a tape a list of them. A refusal is raised with its number.
"""
import functools
import math
from fractions import Fraction

from cells import LIMIT, tightest
from sheets import Refused


def edge(n):
    """The lowest place of cell n, in metres."""
    return Fraction(n, 4) - Fraction(1, 8)


@functools.lru_cache(None)
def cell(metres):
    """The greatest n whose lowest place is not above these metres, by search."""
    exact = Fraction(metres)
    low, high = -1, 1
    while edge(low) > exact:
        low *= 2
    while edge(high) <= exact:
        high *= 2
    while low + 1 < high:
        middle = (low + high) // 2
        low, high = (middle, high) if edge(middle) <= exact else (low, middle)
    return low


def enclose(tape):
    """The bounds of the smallest octagon that holds the cell of each point: the greatest value of each form."""
    if not tape:
        raise Refused(15)
    if len(tape) % 2 == 1:
        raise Refused(16)
    held = []
    for point in zip(tape[::2], tape[1::2]):
        if not all(map(math.isfinite, point)):
            raise Refused(14)
        held.append(tuple(map(cell, point)))
        if any(abs(n) > LIMIT for n in held[-1]):
            raise Refused(2)
    return tightest(held)


def corners(c):
    """The corners of an octagon: the first lies on its bounds 0 and 1, the next on 1 and 2, and the last on 7 and 0."""
    right = [(c[1] - c[0], -c[0]), (c[2], c[2] - c[1]), (c[2], c[3] - c[2]), (c[3] - c[4], c[4])]
    left = [(c[4] - c[5], c[4]), (-c[6], c[5] - c[6]), (-c[6], c[6] - c[7]), (c[0] - c[7], -c[0])]
    return right + left


def in_metres(places):
    """The tape of the middles of cells."""
    return [n / 4 for place in places for n in place]
