"""Folds across the map, for cases.py: blocks of cells, each two runs of numbers for its columns and rows, spread and trimmed many times.

The runs are folded each by itself: n folds move the first number of a run n times by the first of the other, and the last by the last. The
same is tried on small blocks, fold by fold and cell by cell.
"""
import itertools

from cells import FOLD_LIMIT, LIMIT, positions, repeated, sums
from rows import normal

# more than x - y or x + y of any cell here
WIDE = 2**50


def spread(run, by, n):
    """The sums of a number of a run and n numbers of another."""
    return range(run[0] + n * by[0], run[-1] + n * by[-1] + 1)


def trim(run, by, n):
    """The numbers that, moved n times by any numbers of the other, are in the run."""
    return range(run[0] - n * by[0], run[-1] - n * by[-1] + 1)


def folded(fold, block, frame, n):
    return [fold(run, by, n) for run, by in zip(block, frame)]


def answer(block):
    """The tight bounds of what is left, and how many cells it has; or a refusal number."""
    columns, rows = block
    return normal((-rows[0], WIDE, columns[-1], WIDE, rows[-1], WIDE, -columns[0], WIDE)) if columns and rows else 5


def assert_folded():
    block = range(-3, 4), range(2, 7)
    plot = set(itertools.product(*block))
    for frame in itertools.product((range(1, 2), range(-1, 1), range(-2, 2)), (range(1), range(-1, 0), range(1, 4))):
        element = set(itertools.product(*frame))
        for n in range(4):
            assert repeated(lambda cells: sums(cells, element), plot, n) == set(itertools.product(*folded(spread, block, frame, n)))
            assert repeated(lambda cells: positions(cells, element), plot, n) == set(itertools.product(*folded(trim, block, frame, n)))


def at(n):
    return range(n, n + 1)


WEST, NORTH, CELL, ROW = (at(-LIMIT), at(3)), (at(-7), at(LIMIT)), (at(5), at(-6)), (range(-LIMIT, LIMIT + 1), at(3))
EAST, UP, PAIR, FAR = (at(1), at(0)), (at(0), at(1)), (range(2), at(0)), (at(2**20), at(0))
MAP = (range(-LIMIT, LIMIT + 1),) * 2
TO_ROW, FROM_ROW = ("cell (-2000000,3) spread by (0,0) (1,0)", spread, WEST, PAIR), ("row 3 of the map trimmed by (0,0) (1,0)", trim, ROW, PAIR)
MOVED = [("cell (-2000000,3) spread by (1,0)", spread, WEST, EAST), ("cell (-7,2000000) trimmed by (0,1)", trim, NORTH, UP)]
FAR_MOVED = [("cell (5,-6) spread by (1048576,0)", spread, CELL, FAR), ("cell (5,-6) trimmed by (1048576,0)", trim, CELL, FAR)]
BY_ITSELF = [("the map spread by itself", spread, MAP, MAP), ("the map trimmed by itself", trim, MAP, MAP)]
# the folds of each call: across the map as often as it has room for, and once more; the same in two calls; as many as move a cell by 2 ** 32; and
# as many as there can be
CASES = [(case, [n]) for n in (2 * LIMIT, 2 * LIMIT + 1) for case in (*MOVED, TO_ROW, FROM_ROW)]
CASES += [(case, [2 * LIMIT - 2, n]) for n in (2, 3) for case in (TO_ROW, FROM_ROW)]
CASES += [(case, [2**12]) for case in FAR_MOVED] + [(case, [FOLD_LIMIT]) for case in BY_ITSELF]


def answer_of(fold, block, frame, calls):
    """The answer of the last call, each of what the one before gave; or the first refusal."""
    for n in calls:
        block = folded(fold, block, frame, n)
        given = answer(block)
        if isinstance(given, int):
            break
    return given


def answers():
    """What each line says before the answer, the answer, and whether it is a spread's, which has a mark."""
    assert_folded()
    for (what, fold, block, frame), calls in CASES:
        yield "%s, %s times" % (what, " and ".join(map(str, calls))), answer_of(fold, block, frame, calls), fold is spread
