"""Plots of more cells than can be enumerated, for exports.py and examples.py: the outline of bounds by their corners, and the spectrum of a block
of columns and rows by another, which is tried cell by cell on small ones.
"""
import itertools

import enclosing
import rows
import sheets
from cells import tightest
from openings import entries


def outline_of(bounds):
    """The start and the sides of bounds by their corners, of which the last is the start; and how many cells they have, by rows and by the walk."""
    tight, count = rows.normal(bounds)
    ring = enclosing.corners(tight)
    places = ring[-1:] + ring
    n = [max(abs(x - a), abs(y - b)) for (a, b), (x, y) in zip(places, places[1:])]
    assert sheets.corners(*places[0], n) == places and sheets.cells(*places[0], n) == count
    return places[0], n, count


def entries_of_blocks(block, frame):
    """The entries of a block of so many columns and rows by another: it is opened whole by as many folds as stand in it, and by no more."""
    folds = min((n - 1) // (m - 1) for n, m in zip(block, frame) if m > 1)
    return [0] * folds + [block[0] * block[1]]


for small in itertools.product(range(1, 6), range(1, 6), range(1, 4), range(1, 4)):
    plot, frame = (set(itertools.product(*map(range, sides))) for sides in (small[:2], small[2:]))
    if len(frame) > 1:
        assert entries_of_blocks(small[:2], small[2:]) == entries(tightest(plot), tightest(frame)), small
