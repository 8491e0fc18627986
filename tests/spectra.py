#!/usr/bin/env python3
"""Works out what crates/spectrum_cases prints, on its own, and says on standard error how often each answer is given:

    python3 tests/spectra.py > crates/spectrum_cases/stdout

It shares with the program its operands, its draws and the form of a line. A plot and a frame are sets of cells, enumerated one by one.
The plot opened by n folds is what source document 004's (8) says, the union of the places of the folded frame inside the plot, and has to be
what n trims and then n spreads give, as document 02 has it. Where these are the cells of no octagon, those of the smallest that holds them
are taken. Of plots too large for that, rows, squares and a strip of three rows, the spectrum follows from what they are, and the same is tried
on small ones.

A refusal is raised with its number. It needs Python 3.9 or newer and nothing else.
"""
import collections
import functools
import itertools
import sys

from cells import LIMIT, are_opposed, forms, on_map, positions, sums, tightest, within
from openings import entries_along, losses, put
from sheets import STEPS, Refused

MAX = 2**31 - 1


def mixed(digest, numbers):
    for n in numbers:
        digest = (digest * 69069 + n) % 2**64
    return digest


# ---- a spectrum


def held(bounds):
    """The cells within bounds, of a box of columns and rows or of one of diagonals, whichever is smaller."""
    c0, c1, c2, c3, c4, c5, c6, c7 = bounds
    columns, rows, falling, rising = (max(0, span + 1) for span in (c2 + c6, c4 + c0, c3 + c7, c1 + c5))
    if columns * rows <= falling * rising:
        return within(bounds)
    box = [((a + b) // 2, (a - b) // 2) for a in range(-c7, c3 + 1) for b in range(-c5, c1 + 1) if (a + b) % 2 == 0]
    return {cell for cell in box if all(form <= bound for form, bound in zip(forms(cell), bounds))}


def smallest(cells):
    """The cells of the smallest octagon that holds these."""
    return held(tightest(cells)) if cells else cells


def operand(bounds):
    cells = held(bounds)
    if not cells:
        raise Refused(1)
    assert smallest(on_map(cells)) == cells
    return frozenset(cells)


def operands(plot, frame):
    """The cells of both, after the checks in document 02's order."""
    a, b = operand(plot), operand(frame)
    if (0, 0) not in b:
        raise Refused(19)
    if b == {(0, 0)}:
        raise Refused(20)
    return a, b


def opened(a, b, n):
    """The cells of a that n folds of b open, and whether they are filled."""
    left, folded = a, {(0, 0)}
    for _ in range(n):
        left, folded = positions(left, b), sums(folded, b)
    made = left
    for _ in range(n):
        made = sums(made, b)
    # the folded frame has (0, 0), so that a place of it in a is at a cell of a
    places = [sums({cell}, folded) for cell in a]
    assert made == set().union(*(place for place in places if place <= a))
    filled = n > 0 and are_opposed(left, b)
    assert filled == (smallest(made) != made)
    return smallest(made), filled


@functools.lru_cache(None)
def spectrum(a, b):
    """The entries; and of each, whether the second of its two openings is filled."""
    marks = []

    def opening(n):
        cells, filled = opened(a, b, n)
        marks.append(filled)
        return cells

    entries = [len(lost) for lost in losses(a, opening)]
    assert sum(entries) == len(a)
    return entries, marks


# ---- lines

# the most places that are printed
SHOWN_PLACES = 24
tally = collections.Counter()


def told(plot, frame, count, known=None):
    """The line of a call with so many places, 901, 902 and on before it; and a digest of the answer and the list. `known` may give the spectrum."""
    places = list(range(901, 901 + count))
    try:
        entries, marks = known() if known else spectrum(*operands(plot, frame))
        number, finished = put(entries, places)
        case = "finished" if finished else "spent"
        tally[case] += 1
        tally["filled"] += any(marks[:number])
    except Refused as refusal:
        case, number = "refused", refusal.args[0]
        tally["refused %d" % number] += 1
    line = "plot%s, frame%s" % tuple("".join(" %d" % c for c in bounds) for bounds in (plot, frame))
    line += ", places %d: %s %d, sum %d, list" % (count, case, number, sum(places))
    line += "".join(" %d" % n for n in places[-SHOWN_PLACES:])
    return line, mixed(("finished", "spent", "refused").index(case), [number] + places)


# ---- worked by hand

# On each drawing a cell of the plot has the number of the entry that counts it: so many folds of the frame open it, or fill it, and no more.
# The frame, to the left, has an o at (0, 0).
BY_HAND = [
    # x from -1, y from 0                 . . . 0 . . .
    #                                     . . 2 2 2 . .
    #                                     . 3 3 3 3 3 .
    #                             # #     1 3 3 3 3 3 1
    #                             # o     1 3 3 3 3 3 1
    #                                     . 3 3 3 3 3 .
    #                                     . . 2 2 2 . .
    ([0, 3, 5, 8, 6, 4, 1, -1], [0, 0, 0, 1, 1, 2, 1, 1], [1, 4, 6, 20]),
    # x from 1, y from -1                 . 0 1 1 2 . .
    #                                     0 1 1 2 2 2 .
    #                         . . # .     1 1 2 2 2 2 2
    #                         . # # o     1 2 2 2 2 2 .
    #                         # # # .     2 2 2 2 2 . .
    #                                     . 1 1 1 . . .
    #                                     . . 0 . . . .
    ([1, 4, 7, 10, 5, 3, -1, -2], [1, 0, 0, 0, 1, 2, 3, 4], [3, 10, 19]),
    # K13 by K4, which opens the four tips; the cell between them is filled
    # x from -1, y from 0         # .     . 1 .
    #                             . o     1 1 1
    #                                     . 1 .
    ([0, 0, 1, 2, 2, 2, 1, 0], [0, 0, 0, 0, 1, 2, 1, 0], [0, 5]),
    # three folds open two rising rows of four 3s, and the three 3s between these are filled
    # x from -4, y from 2                 0 1 2 3 .
    #                             . o     1 2 3 3 3
    #                             # .     2 3 3 3 2
    #                                     3 3 3 2 .
    #                                     . 3 2 . .
    ([-2, -4, 0, 5, 6, 10, 4, 1], [1, 0, 0, 0, 0, 0, 1, 2], [1, 2, 6, 11]),
]


def by_hand():
    """Each with every number of places from none to one more than it has entries."""
    for plot, frame, entries in BY_HAND:
        assert spectrum(*operands(plot, frame))[0] == entries
        for count in range(len(entries) + 2):
            yield told(plot, frame, count)[0]


# ---- refusals

PLOT, OPPOSED, ORIGIN = BY_HAND[0][0], BY_HAND[2][1], [0] * 8
# no cell, though each two of the bounds have some in common; two cells off the map; no cell; four cells without (0, 0)
NONE, PAST = [5, 0, 5, 1, 5, 0, 5, -1], [-3, 1999998, 2000001, 2000005, 4, -1999995, -1999999, -2000002]
NO_ROW, BESIDE = [-3, 9, 9, 9, 2, 9, 9, 9], [0, 2, 2, 3, 1, 0, -1, -1]
# a cell off the map, and the cells from (0, 0) to one; the cell east of (0, 0), three beside it, the cell south-west of it; (0, 0) alone, by bounds that are not all reached
OFF_MAP = [2, 2000003, 2000001, 1999999, -2, -2000003, -2000001, -1999999], [0, MAX, 2000001, MAX, 0, MAX, 0, MAX]
NO_ORIGIN = BESIDE, [0, 1, 1, 1, 0, -1, -1, -1], [0, 1, 1, 2, 1, 1, 0, -1], [1, 0, -1, -2, -1, 0, 1, 2]
ALONE = ORIGIN, [0, 7, 0, 9, 0, 8, 0, 6], [MAX, 0] * 4, [5, 0, 6, 1, 7, 0, 8, 1]
REFUSED = [(NONE, BESIDE), (NONE, ORIGIN), (PAST, NO_ROW), (PAST, BESIDE), (PAST, ORIGIN)]
REFUSED += [(PLOT, frame) for frame in (NO_ROW, NONE, *OFF_MAP, *NO_ORIGIN, *ALONE)]


def refusals():
    """Each with up to three places."""
    for plot, frame in REFUSED:
        for count in range(4):
            yield told(plot, frame, count)[0]


# ---- drawn

# the kinds: hexadecimal digit k, from the last, is for bound k; the bits that are drawn, and then the least
PLOTS = [(0x73737373, 0x35353535), (0x73737373, 0x64646464), (0x77777777, 0x28282828), (0x67676767, 0x28282828), (0x27672767, 0x68286828)]
PLOTS += [(0x77777777, 0x11111111)]
FRAMES = [(0x11013101, 0x44242424), (0x01310111, 0x24242444), (0x21212121, 0x32323232), (0x20202020, 0x33333333), (0x13131313, 0x42424242)]
FRAMES += [(0x01000300, 0x82828282), (0x00010003, 0x82828282), (0x21011101, 0x24244424), (0x01110121, 0x24442424), (0x13131313, 0x41414141)]
PAIRS, SHOWN = 800, 100


def after(s):
    return s * 48271 % (2**31 - 1)


def about(x, y, draw, kind):
    """Bounds that are as far from the forms of a cell as the digits less 2 say."""
    digits = (draw & kind[0]) + kind[1]
    return [form + (digits >> 4 * k) % 16 - 2 for k, form in enumerate(forms((x, y)))]


def draws():
    """Plots, frames, and up to 24 places. Every 16th plot is near the map's edge."""
    c = 1
    for k in range(PAIRS):
        a = after(c)
        b = after(a)
        c = after(b)
        x, y = 1999990 + b % 16 if k % 16 == 15 else b % 61 - 30, b // 61 % 61 - 30
        yield about(x, y, a, PLOTS[k % 6]), about(0, 0, c, FRAMES[k // 6 % 10]), b // 3721 % 25


def drawn():
    """The first each on a line, and after each hundred a digest of all so far."""
    digest = 0
    for k, pair in enumerate(draws(), 1):
        line, of_call = told(*pair)
        digest = mixed(digest, [of_call])
        if k <= SHOWN:
            yield line
        if k % 100 == 0:
            yield "digest of %d pairs %d" % (k, digest)


# ---- far

SIDE, HALF = 2 * LIMIT + 1, LIMIT + 1


def whole(k, m, cells):
    """The spectrum, and that nothing is filled, of a row of k cells by a row of m along it; or of a square of k rows by one of m. The frame folded
    n times is a row of n * (m - 1) + 1 cells. As long as that fits, it fits side by side from end to end, and every cell is open; then none."""
    folds = (k - 1) // (m - 1)
    return [0] * folds + [cells], [False] * (folds + 1)


def cornered(h, s):
    """The same of a square of 2 * h + 1 rows by a diamond that reaches s cells each way. Folded n times it reaches n * s, and in each corner of the
    square leaves rows of one cell, two, and on to n * s, until it does not fit."""
    lost = [4 * sum(range(r + 1, r + s + 1)) for r in range(0, h - s + 1, s)]
    return lost + [(2 * h + 1) ** 2 - sum(lost)], [False] * (len(lost) + 1)


def striped(h):
    """The same of the cells of such a square on its rising diagonal and beside it by a falling pair. The pair stands with one cell on each side of
    the diagonal, and once only; between the rows beside the diagonal, its cells but the two ends are filled."""
    return [2, 2 * (2 * h) + 2 * h - 1], [True, False]


def square(low, high):
    return set(itertools.product(range(low, high + 1), repeat=2))


def diamond(x, y, s):
    """The cells that are at most s steps from (x, y)."""
    return {(x + u, y + v) for u in range(-s, s + 1) for v in range(-s, s + 1) if abs(u) + abs(v) <= s}


def is_spectrum(plot, frame, known):
    return spectrum(frozenset(plot), frozenset(frame)) == known


def assert_known():
    """They hold of short rows along each of the eight steps, of small squares and small strips, wherever (0, 0) is in the frame; and the first of two
    long rows by bits."""
    assert whole(SIDE, 2, 2 * SIDE)[0] == entries_along(SIDE)
    for k, m in itertools.product(range(1, 8), range(2, 5)):
        for first in range(1 - m, 1):
            for dx, dy in STEPS:
                plot, frame = ({(dx * i, dy * i) for i in run} for run in (range(5, 5 + k), range(first, first + m)))
                assert is_spectrum(plot, frame, whole(k, m, k))
            assert is_spectrum(square(5, 4 + k), square(first, first + m - 1), whole(k, m, k * k))
    for h, s in itertools.product(range(1, 7), range(1, 4)):
        for x, y in diamond(0, 0, s):
            assert is_spectrum(square(5 - h, 5 + h), diamond(x, y, s), cornered(h, s))
        strip = {(x, y) for x, y in square(5 - h, 5 + h) if abs(x - y) <= 1}
        assert all(is_spectrum(strip, {(0, 0), other}, striped(h)) for other in ((1, -1), (-1, 1)))


EDGE_ROW, EDGE_COLUMN = [-5, MAX, LIMIT, MAX, 5, MAX, 4000 - LIMIT, MAX], [LIMIT, MAX, -9, MAX, 4000 - LIMIT, MAX, 9, MAX]
ROW, COLUMN, MAP = [-5, MAX, LIMIT, MAX, 5, MAX, LIMIT, MAX], [LIMIT, MAX, -LIMIT, MAX, LIMIT, MAX, LIMIT, MAX], [LIMIT, MAX] * 4
RISING, FALLING = [LIMIT, 0, LIMIT, MAX, LIMIT, 0, LIMIT, MAX], [LIMIT, MAX, LIMIT, 0, LIMIT, MAX, LIMIT, 0]
STRIP = [LIMIT, 1, LIMIT, SIDE, LIMIT, 1, LIMIT, SIDE]
DIAMOND = tightest(diamond(300, -400, 1000))


def along(east, west):
    """A row of so many cells to the east and to the west of (0, 0)."""
    return [0, MAX, east, MAX, 0, MAX, west, MAX]


# the operands, how many places there are, and the spectrum, or the refusal of a cell of the frame
FAR = [
    (EDGE_ROW, along(1, 0), 4001, lambda: whole(4001, 2, 4001)),
    (EDGE_ROW, along(1, 0), 4000, lambda: whole(4001, 2, 4001)),
    (EDGE_COLUMN, [2, MAX, 0, MAX, 0, MAX, 0, MAX], 4001, lambda: whole(4001, 3, 4001)),
    (ROW, along(400, 600), 4001, lambda: whole(SIDE, 1001, SIDE)),
    (ROW, along(LIMIT, 0), 5, lambda: whole(SIDE, HALF, SIDE)),
    (ROW, along(1249999, 1250000), 5, lambda: whole(SIDE, 2500000, SIDE)),
    (ROW, along(2499999, 0), 5, lambda: on_map({(2499999, 0)})),
    (COLUMN, [1000, MAX, 0, MAX, 0, MAX, 0, MAX], 4001, lambda: whole(SIDE, 1001, SIDE)),
    (RISING, [MAX, 0, 0, MAX, 0, 0, 1000, MAX], 4000, lambda: whole(SIDE, 1001, SIDE)),
    (FALLING, [MAX, MAX, LIMIT, 0, 0, MAX, 0, 0], 5, lambda: whole(SIDE, HALF, SIDE)),
    (STRIP, OPPOSED, 5, lambda: striped(LIMIT)),
    (MAP, [300, MAX, 600, MAX, 700, MAX, 400, MAX], 4001, lambda: whole(SIDE, 1001, SIDE * SIDE)),
    (MAP, [0, MAX, LIMIT, MAX, LIMIT, MAX, 0, MAX], 5, lambda: whole(SIDE, HALF, SIDE * SIDE)),
    (MAP, DIAMOND, 1500, lambda: cornered(LIMIT, 1000)),
    (MAP, DIAMOND, 2001, lambda: cornered(LIMIT, 1000)),
]


def far():
    """Each on a line, and then a digest of all."""
    assert_known()
    lines, of_calls = zip(*(told(*case) for case in FAR))
    yield from lines
    yield "digest of %d pairs %d" % (len(FAR), mixed(0, of_calls))


if __name__ == "__main__":
    for part in (by_hand, refusals, drawn, far):
        for line in part():
            print(line)
        print("%s:" % part.__name__, ", ".join("%s %d" % item for item in sorted(tally.items())), file=sys.stderr)
        tally.clear()
