#!/usr/bin/env python3
"""Works out what crates/clearance_cases prints, on its own: python3 tests/clearances.py > crates/clearance_cases/stdout

It shares with the program its trees and the form of a line. A disc is taken row by row: every cell in a row of a square about the
centre is tested by its squares. A form is linear, so that its greatest value in a row is at the first cell or the last of those that
pass. No root is taken, and nothing of the library is used.

exports.py and examples.py use `around`. A refusal is raised with its number.
"""
import functools

from cells import LIMIT, tightest
from sheets import Refused

RADIUS_LIMIT = 255
MIN, MAX = -2**31, 2**31 - 1

# ---- discs


@functools.lru_cache(None)
def disc(radius):
    """The disc about (0, 0): its number of cells, and the first and the last cell of each row."""
    near = range(-radius - 2, radius + 3)
    count, ends = 0, []
    for y in near:
        row = [x for x in near if x * x + y * y <= radius * radius]
        count += len(row)
        ends += [(x, y) for x in row[:1] + row[-1:]]
    return count, ends


def reached(x, y, radius):
    """The greatest value of each form on the disc about (x, y); 2 where a cell of it is off the map."""
    ends = [(x + u, y + v) for u, v in disc(radius)[1]]
    if any(abs(n) > LIMIT for cell in ends for n in cell):
        raise Refused(2)
    return tightest(ends)


def around(x, y, radius):
    """The bounds of the smallest octagon that holds the disc."""
    if radius > RADIUS_LIMIT:
        raise Refused(17)
    return reached(x, y, radius)


# ---- the trees


def scattered(n):
    return n % 3999001 - 1999500


def radii():
    """Each radius, about a centre of its own."""
    trees = [(scattered(radius * 624917), scattered(radius * 989921 + 375121), radius) for radius in range(256)]
    assert all(len({abs(x), abs(y), radius}) == 3 for x, y, radius in trees)
    assert {(x > 0, y > 0) for x, y, _ in trees if x and y} == {(a, b) for a in (False, True) for b in (False, True)}
    return trees


def edges():
    """Discs that reach the map's edge on a side or in a corner, and discs that are one cell past it; centres on the edge."""
    reach = [(LIMIT - radius + past, radius) for radius in (0, 1, 3, 5, 254, 255) for past in (0, 1)] + [(LIMIT, 255)]
    return [
        (x, y, radius)
        for far, radius in reach
        for x, y in ((far, 41), (-77, far), (-far, -13), (29, -far), (far, -far))
    ]


def refusals():
    """Radii that are allowed and that are not, about centres on the map, one cell off it, and at both ends of 32 bits."""
    centres = [(12, -9), (LIMIT + 1, 3), (-5, -LIMIT - 1), (MAX, 7), (MIN, -6), (8, MAX), (-4, MIN)]
    centres += [(x, y) for x in (MAX, MIN) for y in (MAX, MIN)]
    return [(x, y, radius) for radius in (0, 255, 256, 2**16 + 255, 2**32 - 1) for x, y in centres]


# ---- lines


def line(x, y, radius):
    """What the program prints of a tree: the answer, and what the cells or the radius say, which have to agree."""
    try:
        answer = " ".join(map(str, around(x, y, radius)))
    except Refused as refusal:
        answer = "refused %d" % refusal.args[0]
    beside = "by cells %s, cells %d" % (answer, disc(radius)[0]) if radius <= RADIUS_LIMIT else "by the radius %s" % answer
    return "tree %d %d radius %d: %s; %s: agree" % (x, y, radius, answer, beside)


if __name__ == "__main__":
    for tree in radii() + edges() + refusals():
        print(line(*tree))
