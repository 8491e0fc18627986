"""Document 02's spectra as sets of cells, for exports.py, examples.py and spectra.py: the plot opened by every number of folds of a
frame, and the cells that are lost from each to the next.

It shares nothing with the library. An opening by n folds is n trims and then n spreads, taken cell by cell; where no octagon has just
the cells that it leaves, those of the smallest that holds them are counted. A refusal is raised with its number.
"""
import functools

from cells import filled_up, positions, some, sums, tightest
from sheets import Refused


def framed(bounds):
    """The cells of a frame."""
    cells = some(bounds)
    if (0, 0) not in cells:
        raise Refused(19)
    if len(cells) == 1:
        raise Refused(20)
    return cells


def opened(plot, frame, n):
    """The cells of a plot that n folds of a frame open, filled up."""
    made = plot
    for _ in range(n):
        made = positions(made, frame)
    for _ in range(n):
        made = sums(made, frame)
    return filled_up(made) if made else made


def losses(plot, opening):
    """The cells lost from each number of folds to the next, until nothing is open."""
    lost, still = [], plot
    while still:
        now = opening(len(lost) + 1)
        assert still | now == still
        lost.append(still ^ now)
        still = now
    return lost


def entries(plot, frame):
    """All the entries of a spectrum."""
    a, b = some(plot), framed(frame)
    return [len(cells) for cells in losses(a, lambda n: opened(a, b, n))]


def put(numbers, places):
    """Writes as many entries as a list has places for: their number, which is that of the trims, and whether they are all."""
    trims = min(len(numbers), len(places))
    places[:trims] = numbers[:trims]
    return trims, trims == len(numbers)


# ---- rows by two cells side by side, each cell of a row a bit, for rows as wide as the map


def steps(n):
    """Numbers that sum to n, of which some sum to each number below: moves by them, each made or not, are n moves by 0 or 1."""
    while n > 0:
        yield (n + 1) // 2
        n //= 2


def opened_along(row, n):
    for step in steps(n):
        row &= row >> step
    for step in steps(n):
        row |= row << step
    return row


def lost_between(opening, low, high):
    """How many bits are lost from each number of folds to the next, from low to high: an opening has all the bits of one by more folds, so
    that nothing is lost between two that are equal."""
    more, less = opening(low), opening(high)
    assert more | less == more
    if more == less:
        return [0] * (high - low)
    if high - low == 1:
        return [bin(more ^ less).count("1")]
    middle = (low + high) // 2
    return lost_between(opening, low, middle) + lost_between(opening, middle, high)


def entries_along(width):
    """The entries of two rows of so many cells by the cells (0, 0) and (1, 0): each row is opened by itself, and both alike. As many folds as
    a row has cells open nothing, and one fold less opens something."""
    row = (1 << width) - 1
    opening = functools.lru_cache(None)(lambda n: opened_along(row, n))
    assert opening(width - 1) and not opening(width)
    return [2 * lost for lost in lost_between(opening, 0, width)]


# by bits as by sets
for few in range(1, 9):
    assert entries_along(few) == entries(tightest({(x, y) for x in range(few) for y in (0, 1)}), tightest({(0, 0), (1, 0)}))
