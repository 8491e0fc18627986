"""The tapes of crates/tape_cases, for tapes.py: blocks, each with a name of at most eight letters, how many of its answers are written,
and its tapes.
"""
import itertools
import math
import struct
import sys

import sheets
from cells import LIMIT, forms
from enclosing import cell, edge, enclose, in_metres

NAN, INFINITY = math.nan, math.inf
# the upper edge of the map's last cell in metres; the lower edge of its first is as far the other way
PAST = float(edge(LIMIT + 1))


def number(bits):
    return struct.unpack("<d", struct.pack("<Q", bits))[0]


def up(number, steps=1):
    for _ in range(abs(steps)):
        number = math.nextafter(number, INFINITY if steps > 0 else -INFINITY)
    return number


def edges(cells):
    """Tapes of one point: for each cell its lowest place, the number below and the number above, as east and as north."""
    tapes = []
    for n in cells:
        other = (n * 7 + 5000) % 3900017 / 4 - 487500.8
        for metres in (up(float(edge(n)), -1), float(edge(n)), up(float(edge(n)))):
            assert cell(metres) - n == (-1 if metres < edge(n) else 0) and cell(other) != n
            tapes += [[metres, other], [other, metres]]
    return tapes


REACHES = [462000.0, 687000.0, 487000.0, 650000.0, 475000.0, 737000.0, 498000.0, 762000.0]


def generated(count):
    """Points by an integer generator, in an octagon whose bounds all differ, with many bits of fraction."""
    tape, state = [], 1
    while len(tape) < 2 * count:
        x = (state * 1103515245 + 12345) % 2**31
        y = state = (x * 1103515245 + 12345) % 2**31
        east, north = x / 2**11 - 500000.7, y / 2**11 - 500000.3
        if all(form < most for form, most in zip(forms((east, north)), REACHES)):
            tape += [east, north]
    assert len(set(enclose(tape))) == 8
    return tape


def backwards(tape):
    return [n for east, north in zip(tape[-2::-2], tape[::-2]) for n in (east, north)]


# no numbers (which the program makes anew), infinities, zeros, the least numbers and the greatest; then numbers off the map, of which
# some wrap round a narrow width
SPECIALS = [number(bits) for bits in (0x7FF8 << 48, 0xFFF8 << 48, (0x7FF0 << 48) + 1, 2**64 - 1)]
SPECIALS += [INFINITY, -INFINITY, 0.0, -0.0, 5e-324, -5e-324, 2.0**-1022, -(2.0**-1022), sys.float_info.max, -sys.float_info.max, LIMIT / 4, -LIMIT / 4]
AFAR = [sign * 2.0**k for k in (19, 28, 29, 30, 31, 48, 50, 51, 52, 53, 61, 62, 63, 64, 1000) for sign in (1, -1)]
AFAR += [1.5 * 2**50, -1.5 * 2**50, 2.0**30 + 0.25, -(2.0**30) - 0.25]
# numbers on an edge or next below it, which a sum or a product that rounds takes for another cell's
TRAPS = [0.12499999999999999, 0.37499999999999994, 0.49999999999999994, -0.12500000000000003, -0.375, 0.625, 0.875, -0.625, 2.375, 2.3749999999999996]
# a point on the map, two off it, two with a coordinate that is not finite, and one with both
POINTS = [[1.3, -2.7], [PAST, 0.1], [-0.1, up(-PAST, -1)], [NAN, 5.9], [-7.2, INFINITY], [-9e99, NAN]]
# each reaches one bound alone
EIGHT = [[0.3, -20.6], [14.2, -15.4], [19.9, 1.1], [15.1, 16.3], [2.2, 21.4], [-13.3, 18.2], [-22.6, 4.4], [-17.8, -12.9]]
# eight different sides, long at two edges of the map and short; the map; the largest diamond; one cell; straight and diagonal rows
OUTLINES = [(LIMIT - 561020, LIMIT - 1361033, [300007, 261013, 1030019, 70001, 887031, 120011, 724999, 516023])]
OUTLINES += [(-9001, 2, [69, 33, 104, 3, 71, 34, 100, 6]), sheets.BLOCK, sheets.DIAMOND]
OUTLINES += [(-LIMIT, -LIMIT, [2 * LIMIT, 0] * 4), (0, -LIMIT, [0, LIMIT] * 4)]
OUTLINES += [(i, j, [0] * 8) for i, j in ((0, 0), (-7, 9), (LIMIT, -LIMIT), (-LIMIT, LIMIT))]
OUTLINES += [(i, j, [11 * (k % 4 == m) for k in range(8)]) for m, i, j in ((0, -12, -LIMIT), (1, -LIMIT, 3), (2, LIMIT, -LIMIT), (3, LIMIT, -5))]


def outline_tapes():
    """The corners of outlines, by walking until the start."""
    walks = [sheets.corners(*outline) for outline in OUTLINES]
    assert all(places[8] == places[0] for places in walks)
    return [in_metres(places[:8]) for places in walks]


def lists():
    """Every list of up to three of six points."""
    for count in (1, 2, 3):
        for points in itertools.product(POINTS, repeat=count):
            yield sum(points, [])


def blocks():
    wall, part = generated(4000), generated(400)
    near = sorted(range(-40, 41), key=abs)
    ends = [sign * (LIMIT + 1 - k) for k in range(24) for sign in (1, -1)] + [LIMIT + 2, -LIMIT - 2]
    spread = list(range(-LIMIT - 1, LIMIT + 2, 12119))
    powers = [sign * 2**k + d for k in range(5, 21) for sign in (1, -1) for d in (-1, 0, 1)]
    yield "lengths", 9, [[], [NAN], [0.5], [600000.0], [NAN, 1.0, 1.0], [9e9, 1.0, NAN], [0.25] * 7, part + [0.25], part + [NAN]]
    yield "specials", 32, [tape for e in SPECIALS + AFAR for tape in ([e, 77.7], [-5.1, e])]
    yield "pairs", 4, [[a, b] for a in SPECIALS for b in SPECIALS]
    yield "traps", 40, [tape for e in TRAPS for tape in ([e, -1.9], [8.8, e])] + [[e, -e] for e in TRAPS]
    yield "order", 42, list(lists())
    yield "odd", 3, [tape + [1.5] for tape in lists()]
    yield "eight", 8, [sum(EIGHT[k:] + EIGHT[:k], []) for k in range(8)] + [sum(EIGHT[:k] + EIGHT[k + 1 :], []) for k in range(8)]
    yield "corners", 30, outline_tapes()
    yield "zero", 24, edges(near)
    yield "ends", 36, edges(ends)
    yield "powers", 6, edges(powers)
    for k in range(0, len(spread), 33):
        yield "spread%d" % (k // 33), 6, edges(spread[k : k + 33])
    yield "steps", 4, [[up(float(edge(n)), k), up(float(edge(-n)), -k)] for n in spread[::8] for k in (-9, -3, -2, 2, 3, 9)]
    yield "points", 6, [wall[k : k + 2] for k in range(0, 400, 2)]
    yield "walls", 9, [wall, backwards(wall), part + part, part + backwards(part), part[:2] * 100, part + [NAN, 0.0], part + [0.0, up(-PAST, -1)]]
