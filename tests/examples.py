#!/usr/bin/env python3
"""Works out what the examples of bindings/ write, on its own: python3 tests/examples.py > bindings/expected.txt

It shares with the examples in C and Rust their operands and the words of a line. What the calls answer is worked out by cells.py,
openings.py, blocks.py, clearances.py, enclosing.py, sheets.py and joins.py.
"""
from math import inf, nan

import sheets
from blocks import entries_of_blocks, outline_of
from cells import FOLD_LIMIT, LIMIT, PAIRED, PIECES, WRONG_LENGTH, corner, forms, inside, outline, some, split, tightest
from sheets import Refused
from clearances import around
from enclosing import enclose
from joins import join
from openings import entries, entries_along, put


def words(values):
    return " ".join(map(str, values))


def number(work):
    """The number that a call answers."""
    try:
        work()
    except Refused as refusal:
        return refusal.args[0]
    return 0


def answered(what, work, form):
    """A line with a result in some form, or with a refusal."""
    try:
        result = work()
    except Refused as refusal:
        return "%s: refused %d\n" % (what, refusal.args[0])
    return "%s: %s\n" % (what, form(result))


def shape(cells):
    return "start %s sides %s cells %d" % (*map(words, outline(cells)), len(cells))


def drawn(what, work):
    return answered(what, work, shape)


def bounded(what, bounds):
    return answered(what, lambda: some(bounds), lambda cells: "%s cells %d" % (words(tightest(cells)), len(cells)))


def parted(what, bounds):
    return answered(what, lambda: split(bounds), lambda parts: "start %s counts %s" % tuple(map(words, parts)))


def marked(result):
    cells, filled = result
    return "%s, %s" % (shape(cells), "filled" if filled else "exact")


def spread(what, name, p, f, n=1):
    return answered(what, lambda: PAIRED[name](p, f, n), marked)


def trimmed(what, name, p, f, n=1):
    return drawn(what, lambda: PAIRED[name](p, f, n)[0])


def located(what, bounds, k):
    return answered(what, lambda: corner(bounds, k), lambda place: "%.2f east %.2f north" % tuple(place))


def octagon(i, j, sides):
    return tightest(inside((i, j), sides))


ORIGIN, CROSSED = [0] * 8, [5, 0, 5, 1, 5, 0, 5, -1]
START, SIDES = (-4, -5), [3, 1, 14, 2, 5, 4, 6, 7]
UNEVEN, FRAME = octagon(*START, SIDES), [-4, -1, 5, 11, 7, 4, -2, -7]


def octagons():
    k2, k4, k13 = (octagon(0, 0, PIECES[k - 1]) for k in (2, 4, 13))
    block, square, row = octagon(0, 0, [2, 0, 1, 0] * 2), octagon(0, 0, [2, 0] * 4), octagon(0, 0, [2, 0, 0, 0] * 2)
    yield bounded("all bounds 0", ORIGIN) + bounded("slack bounds", [0, 0, 9, 1, 2, 9, 0, 0]) + bounded("crossed bounds", CROSSED)
    yield drawn("n0=1 alone", lambda: inside((0, 0), [1, 0, 0, 0, 0, 0, 0, 0]))
    yield spread("block spread by K13", "dilate", block, k13)
    sums = tightest(PAIRED["dilate"](block, k13, 1)[0])
    yield trimmed("that trimmed by K13", "erode", sums, k13) + spread("block closed by K13", "closing", block, k13)
    yield located("corner 2 of the spread", sums, 2) + located("corner 8", sums, 8)
    yield trimmed("block trimmed by 3 by 3", "erode", block, square)
    yield spread("K2 spread by K4", "dilate", k2, k4) + spread("K13 opened by K4", "opening", k13, k4)
    yield spread("K2 closed by K4", "closing", k2, k4)
    west, east, one = (tightest({cell}) for cell in ((-LIMIT, 0), (LIMIT, 0), (1, 0)))
    yield trimmed("(-2000000,0) trimmed by (1,0)", "erode", west, one)
    yield spread("(2000000,0) spread by (0,0)", "dilate", east, ORIGIN) + spread("(2000000,0) spread by (1,0)", "dilate", east, one)
    for n in FOLD_LIMIT, FOLD_LIMIT + 1:
        yield spread("origin spread %d times" % n, "dilate_n", ORIGIN, ORIGIN, n)
    yield trimmed("block trimmed twice by 3 by 1", "erode_n", block, row, 2)
    yield "seven bounds: %d\n" % WRONG_LENGTH


COUNTY = (-1234567, 1654321), [100003, 20011, 70001, 30013, 100013, 40009, 29995, 50021]


def drawn_far(bounds):
    start, n, count = outline_of(bounds)
    return "start %s sides %s cells %d" % (words(start), words(n), count)


def county():
    """A plot far off the old map, of more cells than 32 bits count. A row stands where each of its cells lies in the plot."""
    walk = sheets.corners(*COUNTY[0], COUNTY[1])
    bounds = tightest(walk)
    start, n, count = outline_of(bounds)
    assert (start, n) == COUNTY
    yield "county plot: %s cells %d\n" % (words(bounds), count) + "its outline: %s\n" % drawn_far(bounds)
    yield "corner 4: %.2f east %.2f north\n" % tuple(n / 4 for n in walk[4])
    row = inside((7, -3), [0, 4, 0, 0] * 2)
    moved = [[bound - form for bound, form in zip(bounds, forms(cell))] for cell in row]
    yield "trimmed by a rising row: %s\n" % drawn_far([min(each) for each in zip(*moved)])


def uneven():
    """A plot and a frame whose numbers all differ."""
    yield bounded("uneven plot", UNEVEN) + bounded("slack bounds that differ", [5, 4, 0, 10, 40, 27, 11, 20])
    yield drawn("its outline", lambda: inside(START, SIDES))
    yield spread("spread by the frame", "dilate", UNEVEN, FRAME) + trimmed("trimmed by the frame", "erode", UNEVEN, FRAME)
    yield spread("opened by the frame", "opening", UNEVEN, FRAME)
    row = octagon(7, -3, [0, 4, 0, 0] * 2)
    larger = tightest(PAIRED["dilate"](FRAME, row, 1)[0])
    yield spread("the frame spread by a rising row", "dilate", FRAME, row) + spread("opened by that", "opening", UNEVEN, larger)
    yield spread("closed by the frame", "closing", UNEVEN, FRAME)
    yield spread("spread twice by the frame", "dilate_n", UNEVEN, FRAME, 2)
    twice, once = (tightest(PAIRED[name](UNEVEN, FRAME, n)[0]) for name, n in (("dilate_n", 2), ("erode", 1)))
    yield spread("that spread 3 times by the frame", "dilate_n", twice, FRAME, 3)
    yield spread("spread 5 times by the frame", "dilate_n", UNEVEN, FRAME, 5)
    yield trimmed("trimmed twice by the frame", "erode_n", UNEVEN, FRAME, 2)
    yield trimmed("trimmed once and once more", "erode", once, FRAME)
    yield trimmed("the frame trimmed by the plot", "erode", FRAME, UNEVEN)
    for k in range(8):
        yield located("corner %d" % k, UNEVEN, k)


def opposed_rows():
    """Rows whose numbers all differ, one of each kind, and rows that reach the edge of the map."""
    rising, edge, past = (octagon(*start, [0, 4, 0, 0] * 2) for start in ((4, -11), (LIMIT - 13, 5), (LIMIT - 12, 5)))
    falling = octagon(9, 2, [0, 0, 0, 2] * 2)
    yield bounded("rising row", rising) + bounded("falling row", falling)
    yield spread("rising spread by falling", "dilate", rising, falling)
    yield spread("falling spread by rising", "dilate", falling, rising)
    sums = tightest(PAIRED["dilate"](rising, falling, 1)[0])
    yield trimmed("the spread trimmed by rising", "erode", sums, rising)
    yield spread("the spread opened by falling", "opening", sums, falling)
    yield spread("the spread opened by itself", "opening", sums, sums)
    yield spread("falling closed by rising", "closing", falling, rising)
    yield spread("rising opened by falling", "opening", rising, falling)
    yield spread("rising spread by itself", "dilate", rising, rising) + spread("rising spread by (0,0)", "dilate", rising, ORIGIN)
    yield spread("rising spread 3 times by falling", "dilate_n", rising, falling, 3)
    yield spread("rising spread once and then 2 times", "dilate_n", sums, falling, 2)
    yield spread("rising spread 0 times by falling", "dilate_n", rising, falling, 0)
    yield spread("to the edge of the map", "dilate", edge, falling) + spread("past it", "dilate", past, falling)
    yield spread("closed past it", "closing", past, falling)


def splits():
    for sides in [0, 2] * 4, [3, 0, 1, 1, 0, 2, 0, 0]:
        yield parted("split of sides %s" % words(sides), octagon(0, 0, sides))
    yield parted("split of the uneven plot", UNEVEN) + parted("split of crossed bounds", CROSSED)


SMALL, CAP = [0, -1, 1, 7, 6, 11, 5, 4], [0, 1, 1, 1, 1, 2, 1, 1]
LARGE, SLANT = [-9, -14, 2, 32, 37, 43, 13, 4], [3, 4, 1, 7, 6, 5, 0, 2]


def ended(what, places, work):
    """How a call ended that was lent these places: the trims and the ending, or the refusal."""
    try:
        trims, finished = put(work(), places)
    except Refused as refusal:
        return "%s, list of %d: refused %d" % (what, len(places), refusal.args[0])
    return "%s, list of %d: trims %d, %s" % (what, len(places), trims, "finished" if finished else "spent")


def told(what, length, work):
    """The call on the first of six places, and all of them."""
    places = list(range(901, 907))
    lent = places[:length]
    return "%s; places %s\n" % (ended(what, lent, work), words(lent + places[length:]))


def measured(what, plot, frame, length=6):
    return told(what, length, lambda: entries(plot, frame))


def spectra():
    k4, k13 = (octagon(0, 0, PIECES[k - 1]) for k in (4, 13))
    for length in range(6):
        yield measured("small plot by the cap", SMALL, CAP, length)
    for length in 3, 6:
        yield measured("large plot by the slanted frame", LARGE, SLANT, length)
    for length in 1, 6:
        yield measured("K13 by K4", k13, k4, length)
    yield measured("small plot by the large one", SMALL, LARGE) + measured("small plot by (1,0)", SMALL, tightest({(1, 0)}))
    yield measured("small plot by (0,0)", SMALL, ORIGIN) + measured("small plot by (0,0)", SMALL, ORIGIN, 0)
    yield measured("small plot by crossed bounds", SMALL, CROSSED) + measured("crossed bounds by (0,0)", CROSSED, ORIGIN)
    for length in 1, 6:
        yield told("a block by a block", length, lambda: entries_of_blocks((3700005, 3300013), (2000004, 3000002)))
    widest = entries_along(2 * LIMIT + 1)
    for length in 2 * LIMIT, 2 * LIMIT + 1, 2 * LIMIT + 2:
        places = [907] * length
        yield ended("two rows as wide as the map by two cells", places, lambda: widest) + "; last place %d\n" % places[-1]


SURVEY = [12.3, -4.875, 17.62, -4.4, 21.125, -1.07, 22.09, 3.7, 19.84, 8.33, 14.6, 10.95, 9.4, 9.2, 6.375, 5.05, 7.9, -1.375]


def bounded_and_drawn(what, work):
    """The lines of an octagon that is given by its bounds, or of a refusal."""
    try:
        bounds = work()
    except Refused as refusal:
        return "%s: refused %d\n" % (what, refusal.args[0])
    return bounded(what, bounds) + drawn("its outline", lambda: some(bounds))


def surveyed(what, tape):
    return bounded_and_drawn(what, lambda: enclose(tape))


def tapes():
    yield surveyed("surveyed plot", SURVEY)
    yield surveyed("a point that was not measured", [12.3, -4.875, 17.62, nan, 500100.5, 3.7])
    yield surveyed("a point off the map", [12.3, -4.875, 500000.125, -4.4, inf, 3.7])
    yield surveyed("nine numbers", SURVEY[:9]) + surveyed("no point", [])
    yield surveyed("a point at the edge of the map", [500000.0625, -500000.125])


TREES = [(131, -58, 17), (-3, 7, 0), (4, -9, 3), (-12, 8, 5)]
TREES += [(1999983, -1999983, 17), (1999984, -1999983, 17), (1999983, -1999984, 17)]
TREES += [(-1999983, 1999983, 17), (-1999984, 1999983, 17), (-1999983, 1999984, 17)]
TREES += [(-6, 2, 255), (-6, 2, 256), (-6, 2, 2**32 - 1), (2000001, -6, 0), (2, -2000001, 256)]
TREES += [(x, -1 - x, radius) for x in (-(2**31), 2**31 - 1) for radius in (255, 256)]


def trees():
    for tree in TREES:
        yield bounded_and_drawn("tree (%d,%d) radius %d" % tree, lambda: around(*tree))


def record(what, work):
    """A line with a record, or with the number of a refusal."""
    try:
        plot, i, j, n, fee = work()
    except Refused as refusal:
        return "%s: %d\n" % (what, refusal.args[0])
    return "%s: 0 number %d start %d %d sides %s fee row %d\n" % (what, plot, i, j, words(n), fee)


def on_sheets():
    sheet = bytearray(b"plots".ljust(208, b"\0"))
    field = (*sheets.BLOCK, 65535)
    length = sheets.start(sheet, 5)

    def fetched(what, k):
        return record(what, lambda: sheets.fetch(sheet, length, k))

    def read(what, k):
        return record(what, lambda: sheets.read(sheet, length, k))

    yield "start: 0 length %d\n" % length
    plots = (11407, (*sheets.DIAMOND, 515)), (70001, (*START, SIDES, 40961)), (7, field), (31337, (*COUNTY[0], COUNTY[1], 4077))
    for plot, place in plots:
        length = sheets.insert(sheet, length, plot, *place)
        yield "insert %d: 0 length %d\n" % (plot, length)
    yield "insert 7 again: %d\n" % number(lambda: sheets.insert(sheet, length, 7, *field))
    yield "insert 8, no room: %d\n" % number(lambda: sheets.insert(sheet, length, 8, *field))
    yield "check: 0 count %d\n" % len(sheets.check(sheet, length)) + sheets.listing(sheet, length)
    for k in range(1, 5):
        yield fetched("record %d" % k, k)
    yield read("read 0", 0) + read("read 4", 4)
    sheet[5] = 0
    yield fetched("record 1 where number 7 is 0", 1) + read("read 1 where number 7 is 0", 1)
    sheet[length - 1] = ord("E")
    yield sheets.listing(sheet, length) + read("read 1 where letters are wrong", 1)


def on_base_sheets():
    """A sheet whose records have 24 bytes, in a buffer of 160 bytes, of which some are lent."""
    sheet = bytearray(sheets.old_sheet(b"old", (7, sheets.BLOCK), (11407, sheets.DIAMOND)))
    length, past = len(sheet), b"\xee" * 160

    def shown(buffer):
        return "bytes %s\n" % (buffer + past)[:160].hex()

    def inserted(room):
        """The buffer after an insert that is lent so much of it, and the new length or a refusal."""
        lent = (sheet + past)[:room]
        try:
            return lent, "0 length %d" % sheets.insert(lent, length, 258, *START, SIDES, 40961)
        except Refused as refusal:
            return lent, refusal.args[0]

    yield "check: 0 count %d\n" % len(sheets.check(sheet, length)) + sheets.listing(sheet, length)
    yield record("record 0", lambda: sheets.fetch(sheet, length, 0)) + record("read 1", lambda: sheets.read(sheet, length, 1))
    yield "insert 258, room for 46 more: %s\n" % inserted(length + 46)[1]
    yield "insert 258, one byte short: %s\n" % inserted(156)[1] + shown(sheet)
    grown, answer = inserted(157)
    yield "insert 258: %s\n" % answer + shown(grown) + sheets.listing(grown, 157)
    yield record("record 1", lambda: sheets.fetch(grown, 157, 1))


SHARED = (21, -33, [15, 11, 18, 9, 22, 8, 17, 13])
SOUTH = [(41, (-700, 95, [31, 301, 40, 20, 74, 263, 73, 25]), 40961), (9054, (1290, -812, [51, 28, 53, 37, 16, 45, 54, 19]), 515)]
NORTH = sheets.old_sheet(b"north", (770, SHARED), (70001, (*START, SIDES)))


def southern(fee, *more):
    """A sheet whose records have 46 bytes, with this fee row for plot 770."""
    return sheets.sheet(b"south half", SOUTH[0], (770, SHARED, fee), SOUTH[1], *more)


class Lent:
    """A buffer of which some is lent to a call."""

    def __init__(self, byte, room):
        self.buffer = bytearray([byte]) * room

    def called(self, what, call, room):
        lent = self.buffer[:room]
        try:
            answer = "0 length %d" % call(lent)
        except Refused as refusal:
            answer = refusal.args[0]
        self.buffer[:room] = lent
        return "%s: %s\n" % (what, answer)

    def joined(self, what, first, second, room):
        return self.called("join " + what, lambda lent: join(first, len(first), second, len(second), lent), room)

    def converted(self, what, sheet, room):
        return self.called("convert " + what, lambda lent: sheets.convert(sheet, len(sheet), lent), room)

    def shown(self):
        return "bytes %s\n" % self.buffer.hex()


def on_joins():
    """A sheet whose records have 24 bytes and one of 46, joined in a buffer of 216 bytes, of which some are lent."""
    south, other, third = southern(0), southern(258), Lent(0xEE, 216)
    yield sheets.listing(NORTH, len(NORTH)) + sheets.listing(south, len(south))
    yield third.joined("north and south, one byte short", NORTH, south, 204) + third.shown()
    yield third.joined("north and south", NORTH, south, 205) + third.shown() + sheets.listing(third.buffer, 205)
    yield third.joined("south and north", south, NORTH, 210) + third.shown()
    yield third.joined("north and itself", NORTH, NORTH, 113) + third.shown()
    yield third.joined("where 770 has two fee rows", NORTH, other, 216) + third.joined("the same with no buffer", NORTH, other, 0)
    wrong = other[:-1] + b"E"
    yield third.joined("of wrong letters and a length of 15", wrong, NORTH[:15], 216)
    yield third.joined("of a length of 15 and wrong letters", NORTH[:15], wrong, 216) + third.shown()


def on_conversions():
    """Sheets whose records have 46, 26 and 24 bytes, copied with 26 into a buffer of 108 bytes, of which some are lent."""
    south, copy, again, third = southern(258), Lent(0xEE, 108), Lent(0xDD, 108), Lent(0, 164)
    yield copy.converted("south, one byte short", south, 103) + copy.shown()
    yield copy.converted("south", south, 104) + copy.shown() + sheets.listing(copy.buffer, 104)
    written = bytes(copy.buffer[:104])
    yield again.converted("the copy", written, 108) + again.shown()
    yield third.joined("the copy and south", written, south, 164) + third.shown()
    yield copy.converted("north, one byte short", NORTH, 72) + copy.converted("north", NORTH, 73) + copy.shown()
    far = southern(258, (31337, (*COUNTY[0], COUNTY[1]), 4077))
    yield sheets.listing(far, len(far))
    yield copy.converted("where 31337 is off the old map", far, 108) + copy.converted("the same with no buffer", far, 0)
    yield copy.converted("of wrong letters", far[:-1] + b"E", 108) + copy.shown()


def fullest():
    """As many plots as a sheet has room for, a copy of them with 26 bytes for each, and one more in either."""
    plots = [(k + 1, (0, 0, [0] * 8), 1) for k in range(1500)]
    count = max(n for n in range(1500) if len(sheets.sheet(b"", *plots[:n])) <= sheets.LIMIT)
    full, copy = (bytearray(sheets.sheet(b"", *plots[:n]).ljust(sheets.LIMIT, b"\0")) for n in (count, 0))
    length = len(sheets.sheet(b"", *plots[:count]))
    copied = sheets.convert(full, length, copy)
    past = [number(lambda: sheets.insert(buffer, n, count + 1, 0, 0, [0] * 8, 1)) for buffer, n in ((full, length), (copy, copied))]
    return "plots that fit %d: length %d, one more: %d; copied: length %d, one more: %d\n" % (count, length, past[0], copied, past[1])


def limits():
    """What is answered at a limit, and one past it."""

    def cell(x):
        return number(lambda: inside((x, 0), [0] * 8))

    def fold(n):
        return number(lambda: PAIRED["dilate_n"](ORIGIN, ORIGIN, n))

    def tree(radius):
        return number(lambda: around(0, 0, radius))

    def old_cell(x):
        sheet = sheets.laid(26, b"", (1, (x, 0, [0] * 8), 0))
        return number(lambda: sheets.check(sheet, len(sheet)))

    yield "map limit 2000000: %d, one more: %d\n" % (cell(2000000), cell(2000001))
    yield "old map limit 16000: %d, one more: %d\n" % (old_cell(16000), old_cell(16001))
    yield "fold limit 4000001: %d, one more: %d\n" % (fold(4000001), fold(4000002))
    yield "radius limit 255: %d, one more: %d\n" % (tree(255), tree(256))
    sheet = bytearray(65536)
    full = sheets.start(sheet, 65520)
    yield "sheet limit 65536: 0, one more: %d, length %d\n" % (number(lambda: sheets.start(sheet, 65521)), full)
    length = sheets.start(sheet, 0)
    checks = [number(lambda: sheets.check(sheet, n)) for n in (16, 15)]
    yield "trailer %d: %d, one less: %d\n" % (length, *checks)
    named = [number(lambda: sheets.check(sheets.trailer(0, size), 16)) for size in (24, 26, 46, 25, 27, 47)]
    yield "record lengths 24 26 46: %d %d %d, one more each: %d %d %d\n" % tuple(named)
    two = sheet[:62]
    grown = sheets.insert(two, length, 1, 0, 0, [0] * 8, 1)
    three = two + bytes(45)
    yield "record 46: 0, one less: %d, length %d\n" % (number(lambda: sheets.insert(three, grown, 2, 0, 0, [0] * 8, 1)), grown)
    yield fullest()


if __name__ == "__main__":
    on_buffers = on_sheets, on_base_sheets, on_joins, on_conversions, limits
    for part in octagons, county, uneven, opposed_rows, splits, spectra, tapes, trees, *on_buffers:
        print("".join(part()), end="")
