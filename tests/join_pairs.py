"""The pairs of sheets of crates/join_cases, for joins.py. A pair is a name of at most eight letters, two buffers, and calls. A buffer is the
index of its new bytes, these bytes, and how many of all its bytes are lent. A call is a way, two lengths, and the room of the third buffer.
"""
import itertools
import random

import sheets
from joins import BOTH, ITSELF, ROOM, TURNED, answer, join, random_pair, rooms
from old import OLD_SHEETS, PARISH, SAMPLE_24, SAMPLE_26, SOUTH
from sheet_edges import OLD_LEAVING, about_edge, holding
from sheets import LIMIT, PLOTS, SAMPLE, broad, county, laid, numbered, plot, trailer, wide

SIZES = 24, 26, 46
LAST = 2**32 - 1


def made(size, heading, *numbers, outline=plot):
    """The sheet of the plots with these numbers, by so many bytes a record."""
    return laid(size, heading, *numbered(*numbers, outline=outline))


def free(size, heading, *numbers):
    """The same with the fee row 0 in each."""
    return laid(size, heading, *((number, plot(number), 0) for number in numbers))


def changed(data, at, *new):
    """Bytes of which some, from an index on, are others."""
    at %= len(data)
    return data[:at] + bytes(new) + data[at + len(new) :]


# ---- pairs of sheets that fill their buffers


def pair(name, first, second, *ways):
    """The first of these ways with every room, the others with just the room."""
    calls = []
    for way in ways or (BOTH, TURNED):
        one, two = [(first, second), (second, first), (first, first)][way]
        calls += [(way, len(one), len(two), room) for room in rooms(one, two)[: 1 if calls else 4]]
    return name, (0, first, len(first)), (0, second, len(second)), calls


# numbers that go by turns, follow one another, or are in order only as unsigned numbers of 32 bits
APART = [((7, 256, 65537), (5, 255, 70000)), ((1, 2, 3), (40, 50))]
APART += [((2**31, LAST), (1, 2**31 - 1, 2**31 + 1)), ((258, 65536), (3, 513, 2**24))]
HEADINGS = [(b"", b""), (b"north half\n", b""), (b"", b"The south half.\n"), (trailer(1, 46), b"\0" * 9)]


def apart():
    """Sheets of every two record lengths with no plot in common, under two of those headings; plots of 46 lie off the old map."""
    for k, (size, other, half) in enumerate(itertools.product(SIZES, SIZES, (0, 1))):
        one, two = APART[(k + k // 4) % 4]
        heading, below = HEADINGS[k % 4]
        sheet_of = {each: county if each == 46 else plot for each in SIZES}
        first, second = made(size, heading, *one, outline=sheet_of[size]), made(other, below, *two, outline=sheet_of[other])
        yield pair("apart%d" % k, first, second, BOTH, TURNED, ITSELF)


def common():
    """Plots that both have, and that are equal, by every two record lengths: with fee rows, or with the fee row 0 where one of them is 24."""
    for size, other in itertools.combinations_with_replacement(SIZES, 2):
        of = made if 24 < min(size, other) else free
        yield pair("equal", of(size, b"one", 5, 11, 303), of(other, b"other", 11, 303, 400))
        yield pair("subset", of(size, b"", 11, 303, 65536), of(other, b"x", 303))
        yield pair("same", of(size, b"one", 11, 303), of(other, b"other one", 11, 303), BOTH, TURNED, ITSELF)
    yield pair("county", *(made(46, heading, 11, number, outline=county) for heading, number in ((b"one", 7), (b"", 303))))
    for size in (26, 46):
        yield pair("samples", SAMPLE_24, laid(size, b"", *((number, outline, 0) for number, outline, _ in PLOTS)), BOTH, TURNED, ITSELF)
    yield pair("samples", SAMPLE_26, SAMPLE)


def olds():
    """The sheets of tests/old_sheets/ in pairs, and each beside one of 46."""
    yield pair("old", PARISH, SOUTH, BOTH, TURNED)
    for first, second in ("parish-24", "joined-26"), ("grown-26", "south-26"), ("edges-24", "parish-24"), ("sample-26", "edges-26"):
        yield pair("old", OLD_SHEETS[first], OLD_SHEETS[second])
    for name, data in OLD_SHEETS.items():
        yield pair(name[:4] + name[-2:], data, made(46, b"county", 13, outline=county))


def empty():
    """Sheets of no plots, of every record length, with headings and without."""
    none = [trailer(0, 46), b"nothing\n" + trailer(0, 24), trailer(0, 24), b"." + trailer(0, 26)]
    for k, (one, two) in enumerate(itertools.combinations_with_replacement(none, 2)):
        yield pair("none%d" % k, one, two)
    for k, one in enumerate(none):
        yield pair("empty%d" % k, one, made(SIZES[k % 3], b"plots\n"[k:], 12, 345), BOTH, TURNED, ITSELF)


# ---- one number for two plots

FEE = 772
# the record lengths of two sheets, and a plot that both have; then the steps by which one of its fields may differ
OLD_PLOT = [(26, 26), (26, 46), (46, 26)], wide(-300, 515), (1, 256)
COUNTY_PLOT = [(46, 46)], broad(-300000, 515005), (1, 256, 65536)


def least_changes():
    """Changes of sides under which an outline closes still, in as few as can be: two opposite ones, or three with no two opposite."""
    for places in (*itertools.combinations(range(8), 2), *itertools.combinations(range(8), 3)):
        for steps in itertools.product((1, -1, 2, -2), repeat=len(places)):
            change = [dict(zip(places, steps)).get(k, 0) for k in range(8)]
            if sheets.corners(0, 0, change)[-1] == (0, 0):
                yield change
                break


def others(base, steps):
    """Plots that differ from one in i, j or the fee row alone, or in some sides alone, by little or by one of these steps."""
    i, j, n = base
    for step in steps:
        for more in (step, -step):
            yield (i + more, j, n), FEE
            yield (i, j + more, n), FEE
            if step < 65536:
                yield base, FEE + more
    changes = list(least_changes())
    assert len(changes) == 4 + 32
    for change in changes + [[step * side for side in change] for step in steps[1:] for change in changes[:4]]:
        yield (i, j, [side + more for side, more in zip(n, change)]), FEE


def differing():
    """A plot in both that differs so, before other plots or after them; plots of 24 beside others with a fee row."""
    for sizes, base, steps in (OLD_PLOT, COUNTY_PLOT):
        for k, (outline, fee) in enumerate(others(base, steps)):
            size, other = sizes[k % len(sizes)]
            before, after = numbered(2 + k), numbered(400 + k)
            one, two = [(303, base, FEE)], [(303, outline, fee)]
            first, second = laid(size, b"", *(before + one, one + after)[k % 2]), laid(other, b"", *(two + after, before + two, two)[k % 3])
            assert answer(lambda: join(first, len(first), second, len(second), b"")) == "refused 18"
            yield pair("other%d" % k, first, second)
    _, base, _ = OLD_PLOT
    for k, (size, fee) in enumerate(itertools.product((26, 46), (0, 1, 255, 256, 65535))):
        plots = [(11, plot(11), 0), (303, base, fee)]
        yield pair("fee%d" % k, laid(24, b"h", (303, base, 0), (304, plot(304), 0)), laid(size, b"", *plots))
    for size in SIZES:
        yield pair("moved", laid(24, b"", (303, base, 0)), laid(size, b"", (303, wide(-301, 515), 0)))
    yield pair("samples", SAMPLE_24, SAMPLE)
    yield pair("samples", SAMPLE_24, SAMPLE_26)


# ---- sheets that are refused


def faults(size, outline=plot):
    """Sheets that the check refuses with 8, 9, 10, 11, 3 and 2; others with 9, 10 and 11, and one with a fault in each record."""
    good = made(size, b"abc", 12, 345, outline=outline)
    last = len(good) - 16 - size
    top, side = (7, 12) if size == 46 else (5, 8)
    marks = [changed(good, -1, 69), changed(good, -8, size + 1), changed(good, -6, 1)]
    distances = [changed(good, -16, 2 * size + 1), changed(good, -16, *trailer(3, size)[:8])]
    numbers = [changed(good, last, 12, 0), changed(good, 3, 0), changed(good, last, 11, 0)]
    open_side, off_map = changed(good, last + side, good[last + side] + 1), changed(good, last + top, 127)
    found = [good[:15], marks[0], distances[0], numbers[0], open_side, off_map]
    found += marks[1:] + distances[1:] + numbers[1:] + [changed(open_side, 3 + top, 127)]
    given = [answer(lambda: len(sheets.check(data, len(data)))) for data in found]
    assert given == ["refused %d" % number for number in (8, 9, 10, 11, 3, 2, 9, 9, 10, 11, 11, 2)]
    return found


def refused():
    """A fault in one sheet and another in the other; a fault in one of them. What the plots 12 and 345 are in both differs too."""
    spoilt = [faults(size) for size in SIZES]
    for a, b in itertools.combinations(range(6), 2):
        yield pair("both%d%d" % (a, b), spoilt[(a + b) % 3][a], spoilt[(a + b + 1 + a % 2) % 3][b])
    for k, m in itertools.product(range(12), range(3)):
        good, bad = made(SIZES[(k + m) % 3], b"", 12, 345), spoilt[m][k]
        yield pair("second%d" % k, good, bad) if (k + m) % 2 else pair("first%d" % k, bad, good)


def lengths():
    """Lengths that are not the sheet's, in buffers that are longer than the sheets."""
    first, second = made(46, b"abc", 12, 345), made(24, b"", 13)
    m, n = len(first), len(second)
    wrong = (0, 15, 16, m - 1, m + 1, m + 5, m + 6, 2**64 - 1)
    calls = [(BOTH, m, n, 180)] + [(BOTH, k, n, 90) for k in wrong] + [(TURNED, n, k, 90) for k in wrong] + [(BOTH, 0, 2**64 - 1, 0)]
    yield "lengths", (0, first + b"past.", m + 5), (0, second + b"beyond", n + 6), calls


# ---- sheets with a plot at the edge of the map


def edges():
    """Such a plot alone in its sheet, or after another; the other sheet is of another record length, and its plot lies near the middle. Then
    plots past the old map in sheets of 46, beside old sheets."""
    for size in SIZES:
        for k, (far, before) in enumerate(itertools.product(about_edge(size), ((), (43,)))):
            other = [each for each in SIZES if each != size][k % 3 % 2]
            yield pair("edge%d" % k, holding(size, before, far), made(other, b"", 50))
    for k, far in enumerate(OLD_LEAVING):
        yield pair("past%d" % k, holding(46, (43,), far), made((24, 26)[k % 2], b"", 50))


# ---- the fullest sheets


def fullest():
    """Sheets that make one of 65,536 bytes together, with one byte more, or as an old sheet grows; sheets of 65,536 bytes."""
    odd, even = made(24, b"." * 16, *range(1, 1425, 2)), made(26, b"." * 17, *range(2, 1425, 2))
    joins = [(BOTH, len(odd), len(even), room) for room in (LIMIT, LIMIT - 1, ROOM, 0)]
    yield "halves", (0, odd, len(odd)), (0, even, len(even)), joins + [(TURNED, len(even), len(odd), ROOM)]
    old, new = made(24, b"north half" * 504, *range(2520, 5039), LAST), made(46, b"the south half.\n", *range(1, 1424), LAST)
    assert len(old) == len(new) == LIMIT
    turns = [(way, LIMIT, LIMIT, room) for way in (BOTH, TURNED) for room in (ROOM, 0)]
    # the last plot has two fee rows; then it has the fee row 0 in both
    yield "differ", (0, old, LIMIT), (0, new, LIMIT), turns + [(ITSELF, LIMIT, LIMIT, ROOM)]
    yield "agree", (0, b"", ROOM), (LIMIT - 18, b"\0\0", ROOM), turns + [(BOTH, LIMIT + 1, LIMIT, ROOM), (BOTH, LIMIT, LIMIT + 1, ROOM)]
    ends = ("more", made(46, b"", 1424)), ("empty", trailer(0, 24)), ("equal", made(26, b"h", 1260)), ("fee", made(24, b"", 1260))
    for name, one in ends:
        full = [(TURNED, LIMIT, len(one), room) for room in (LIMIT, ROOM)]
        yield name, (0, one, len(one)), (0, new[:16], LIMIT), full + [(BOTH, len(one), LIMIT, ROOM)]
    for count in (1424, 1425):
        old = made(24, b"", *range(1, count + 1))
        grown = [(TURNED, 16, len(old), room) for room in (LIMIT - 16, LIMIT - 17, ROOM)]
        yield "grown", (0, old, len(old)), (0, trailer(0, 46), 16), grown


def pairs():
    for part in (apart, common, olds, empty, differing, refused, lengths, edges):
        yield from part()
    rng = random.Random(6)
    for k in range(60):
        yield random_pair(rng, "random%d" % k)
    yield from fullest()
