#!/usr/bin/env python3
"""Works out what crates/cases prints, on its own: python3 tests/cases.py > crates/cases/stdout

An octagon's set is taken cell by cell, or row by row (rows.py). A spread has the cells of the smallest octagon that holds the sums, and is
filled where that holds others. Folds across the map are those of far_folds.py.

The splits are those of cells.py: a rest is tried with every pair of kinds and every small count, and the pieces, spread one after the
other, have to make the plot. The constants are read off the sentences of documents 01 and 02.
"""

import re

import far_folds
from cells import FOLD_LIMIT, LIMIT, inside, outline, pairs_that_make, repeated, rows_and_rest, split, tightest
from rows import normal

MIN, MAX = -2**31, 2**31 - 1


def show(answer):
    """A refusal number, or tight bounds and how many cells there are."""
    if isinstance(answer, int):
        return "refused %d" % answer
    return "%s, cells %d" % (" ".join(map(str, answer[0])), answer[1])


def greatest(cells):
    """The greatest values of the eight forms on a few cells."""
    forms = (
        lambda x, y: -y, lambda x, y: x - y, lambda x, y: x, lambda x, y: x + y,
        lambda x, y: y, lambda x, y: y - x, lambda x, y: -x, lambda x, y: -x - y,
    )
    return tuple(max(f(x, y) for x, y in cells) for f in forms)


def around(cells):
    """The tight bounds of a few cells and their number, or refusal 2."""
    if any(max(abs(x), abs(y)) > LIMIT for x, y in cells):
        return 2
    return greatest(cells), len(cells)


def sums(a, b):
    return {(x + v, y + w) for x, y in a for v, w in b}


def fits(plot, frame):
    """The positions at which the whole frame stands inside the plot: each is a cell of the plot less one of the frame."""
    return {(x - v, y - w) for x, y in plot for v, w in frame if all((x - v + a, y - w + b) in plot for a, b in frame)}


def smallest(cells):
    """The cells of the smallest octagon that holds a few cells: those of the rectangle about them that have no form greater."""
    xs, ys = zip(*cells)
    bounds = greatest(cells)
    about = {(x, y) for x in range(min(xs), max(xs) + 1) for y in range(min(ys), max(ys) + 1)}
    return {cell for cell in about if all(a <= b for a, b in zip(greatest({cell}), bounds))}


def marked(answer, filled):
    """An answer with its mark; a refusal has none."""
    return show(answer) if isinstance(answer, int) else show(answer) + (", filled" if filled else ", exact")


def agreed(name, shown):
    """A line of which the program works out both parts, and the two have to agree."""
    print("%s: %s; by cells %s: agree" % (name, shown, shown))


def beside(name, answer):
    agreed(name, show(answer))


def spread_beside(name, made):
    """A spread by the set of its sums: the smallest octagon that holds them, filled where that has others."""
    agreed(name, marked(around(smallest(made)), smallest(made) != made))


def closed_beside(name, plot, frame):
    """A closing: the positions in the sums, and the mark of the spread."""
    made = sums(plot, frame)
    agreed(name, marked(around(fits(made, frame)), smallest(made) != made))


STEPS = "d0 (1,0), d1 (1,1), d2 (0,1), d3 (-1,1), d4 (-1,0), d5 (-1,-1), d6 (0,-1), d7 (1,-1)"
PIECES = (
    "K1 n0=1 n4=1; K2 n1=1 n5=1; K3 n2=1 n6=1; K4 n3=1 n7=1; K5 n0=1 n2=1 n5=1; K6 n0=1 n3=1 n6=1; K7 n1=1 n4=1 n6=1; "
    "K8 n2=1 n4=1 n7=1; K9 n0=2 n3=1 n5=1; K10 n1=1 n4=2 n7=1; K11 n1=1 n3=1 n6=2; K12 n2=2 n5=1 n7=1; K13 n1=n3=n5=n7=1"
)


def sides(piece):
    """The eight sides of a piece: "sides not shown are 0"."""
    n = [0] * 8
    for shown in piece.split()[1:]:
        *names, length = shown.split("=")
        for name in names:
            n[int(name[1:])] = int(length)
    return n


def constants():
    """The map, the map of older records, the folds, a sheet's length, a record's without and with a fee row and with 32-bit sides, that of one
    written, a trailer's, and the greatest radius; the refusals, of which none is 4; the constants of the octagon; the tables."""
    print("limits", *(words.replace(",", "") for words in ("2,000,000", "16,000", "4,000,001", "65,536", "24", "26", "46", "46", "16", "255")))
    print("refusals", *(n for n in range(1, 22) if n != 4))
    print("origin", *[0] * 8)
    print("built", *range(1, 9))
    print("steps", *(n for step in re.findall(r"(-?\d),(-?\d)", STEPS) for n in step))
    # and nothing past the end of the table
    for k, piece in enumerate(PIECES.split("; ") + [""]):
        print("row %d of the pieces:" % k, *sides(piece), "from 0 0")


K2, K4, K13 = {(0, 0), (1, 1)}, {(0, 0), (-1, 1)}, {(0, 0), (1, 1), (-1, 1), (0, 2), (0, 1)}


def opposed_rows():
    """The sums of K2 and K4 leave K13's middle out, so that the smallest octagon that holds them is K13; K2 closed by K4 is K2."""
    assert smallest(sums(K2, K4)) == K13 == sums(K2, K4) | {(0, 1)}
    assert fits(K13, K4) == K2 == fits(sums(K2, K4), K4)
    spread_beside("K2 spread by K4", sums(K2, K4))
    spread_beside("K13 opened by K4", sums(fits(K13, K4), K4))
    closed_beside("K2 closed by K4", K2, K4)


NUMERALS = "i ii iii iv v vi vii viii".split()
# a plot for each of the eight cases, then one of three K9 beside its rows, and one of rows alone
PLOTS = (
    "6 14 7 15 2 8 23 5", "1 7 13 2 14 3 8 11", "13 1 11 10 5 6 9 7", "8 13 3 6 14 2 19 1", "5 7 15 9 6 13 2 16",
    "19 4 1 13 7 6 9 3", "2 15 9 1 13 7 14 4", "16 4 14 2 9 12 5 3", "12 2 1 7 6 5 1 4", "7 1 6 3 7 1 6 3",
)


def splits():
    for shown in PLOTS:
        n = [int(length) for length in shown.split()]
        plot = inside((-4, -5), n)
        assert outline(plot) == ([-4, -5], n)
        start, counts = split(tightest(plot))
        fit = " ".join("(%s)" % NUMERALS[place] for place, _ in pairs_that_make(rows_and_rest(n)[1]))
        print("split of sides %s, by %s: start %d %d, counts %s: agree" % (shown, fit, *start, " ".join(map(str, counts))))


def main():
    plot = {(x, y) for x in range(-2, 3) for y in range(5) if abs(x) + abs(y - 2) <= 2}
    frame = {(0, 0), (1, 0), (0, 1), (1, 1)}
    beside("plot", around(plot))
    beside("positions of the frame", around(fits(plot, frame)))
    spread_beside("ground that it opens", sums(fits(plot, frame), frame))
    print("the price list's figure, cells %d: agree" % len(sums(fits(plot, frame), frame)))
    spread_beside("cell (2000000,0) spread by (0,0)", sums({(2000000, 0)}, {(0, 0)}))
    spread_beside("cell (2000000,0) spread by (1,0)", sums({(2000000, 0)}, {(1, 0)}))
    opposed_rows()
    cells = {(0, 0)}
    print("origin spread once by itself has the same cells:", "agree" if sums(cells, cells) == cells else "disagree")
    spread_beside("origin spread %d times by itself" % FOLD_LIMIT, repeated(lambda made: sums(made, cells), cells, FOLD_LIMIT))
    print("origin spread %d times by itself: %s: agree" % (FOLD_LIMIT + 1, show(6)))
    # the block's cells and those of K13, summed; corner 2 is where the sides n1 and n2 meet: the lowest of the rightmost cells
    block = {(x, y) for x in range(3) for y in range(2)}
    spread = sums(block, K13)
    right = max(x for x, _ in spread)
    corner = (right, min(y for x, y in spread if x == right))
    assert (corner[0] / 4, corner[1] / 4) == (0.75, 0.25)
    spread_beside("the block spread by K13", spread)
    print("its corner 2, in quarter metres east and north: %d %d: agree" % corner)
    for what, answer, is_spread in far_folds.answers():
        print("%s: %s" % (what, marked(answer, False) if is_spread else show(answer)))
    splits()
    # too large to enumerate, or bounds too far apart
    for c in (
        (MIN,) * 8,
        (MAX, MIN) * 4,
        (MIN, MAX) * 4,
        (MIN, MIN, MAX, MAX, MAX, MAX, MAX, MAX),
        (MAX, MAX, MAX, MAX, MIN, MIN, MIN, MIN),
        (MAX, MAX, MIN, MAX, MAX, MAX, MAX, MAX),
        (2000000, MAX, 2000000, MAX, 2000000, MAX, 2000000, MAX),
    ):
        print("normalise %s: %s" % (" ".join(map(str, c)), show(normal(c))))
    for c in (
        (MAX,) * 8,
        (2000000, MAX, 2000001, MAX, 2000000, MAX, 2000000, MAX),
        (MAX, -3, MAX, MAX, MAX, 3, 0, 7),
        (MAX, 0, MAX, 1, MAX, 0, MAX, -1),
        (MAX, 0, MAX, 0, MAX, 0, MAX, 0),
        (-5, -3, MAX, MAX, 5, MAX, 0, -7),
        (MAX, 2, MAX, 3, MAX, 2, MAX, 3),
    ):
        beside("normalise %s" % " ".join(map(str, c)), normal(c))
    constants()


if __name__ == "__main__":
    main()
