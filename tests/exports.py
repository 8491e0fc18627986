#!/usr/bin/env python3
"""Works out what crates/export_cases writes, on its own: python3 tests/exports.py > crates/export_cases/stdout

It shares with the program its operands and the form of a line: the name of a call, the number that it answers, and the memory that it
was lent, as it is afterwards. What the calls answer is worked out by cells.py, openings.py, blocks.py, clearances.py, enclosing.py,
sheets.py and joins.py.
"""
import struct
from math import inf, isnan, nan

import sheets
from blocks import entries_of_blocks, outline_of
from cells import PAIRED, WRONG_LENGTH, corner, inside, outline, some, split, tightest
from sheets import Refused
from clearances import MAX, MIN, around
from enclosing import enclose
from joins import join
from openings import entries, put

PLOT = [5, 4, 0, 10, 12, 19, 11, 9]
OCTAGONS = [PLOT, [-4, -1, 5, 11, 7, 4, -2, -7], [5, 4, 0, 10, 40, 27, 11, 20], [6, 2, 7, 5, 8, -2, 9, -5]]
OCTAGONS += [tightest({cell}) for cell in ((2000001, -3), (1999999, -7), (-2, 5))]
OCTAGONS += [tightest({(2, 3), (3, 4), (4, 5)}), tightest({(1, 7), (2, 6)})]
OCTAGONS += [PLOT[-k:] + PLOT[:-k] for k in (2, 4, 6)] + [tightest(inside((-6, 1), [0, 3, 0, 2, 0, 3, 0, 2]))]
OCTAGONS += [tightest(inside((-9, 14), [1, 2, 2, 0, 0, 3, 1, 0])), tightest({(1999997, -4), (1999998, -3)})]
FRAMES = [1, 0, 1, 4, 3, 6, 5, 8, 7, 1, 1, 1, 8, 8, 8]
FOLDS = [2, 0, 4000002, 1, 1, 3, 1, 2, 0, 1, 1, 1, 1, 3, 2]
CALLS = {**PAIRED, "normalise": lambda plot, frame, n: (some(plot), False)}
MARKED = "dilate", "opening", "closing", "dilate_n"
TEXT = 273 * ((65536 - 16) // 24 + 2)
WIDE = (-1234567, 1654321, [100003, 20011, 70001, 30013, 100013, 40009, 29995, 50021])


def called(fits, work, *lent):
    """The number that a call answers. An accepted one leaves its results in the lists that it was lent, any other what was there."""
    if not fits:
        return WRONG_LENGTH
    try:
        results = work()
    except Refused as refusal:
        return refusal.args[0]
    for one, result in zip(lent, results):
        one[:] = result
    return 0


def line(name, number, *lent):
    return "\n%-13s %d:%s" % (name, number, "".join(" %s" % value for one in lent for value in one))


def from_number(first, count):
    return list(range(first, first + count))


def bits(places):
    """The 64 bits of each number of metres, in hexadecimal digits; `nan` for what is no number."""
    return ["nan" if isnan(metres) else struct.pack(">d", metres).hex() for metres in places]


# ---- octagons


def operation(name, plot, frame, n, places=8):
    """One call, with memory for a mark where it has one."""

    def work():
        cells, filled = CALLS[name](plot, frame, n)
        return tightest(cells), [int(filled)]

    out, mark = from_number(101, places), [201]
    fits = len(plot) == 8 and places == 8 and (len(frame) == 8 or name == "normalise")
    number = called(fits, work, out, mark)
    return line(name, number, out, mark) if name in MARKED else line(name, number, out)


def operate(plot, frame, n):
    for name in CALLS:
        yield operation(name, plot, frame, n)


def count(plot, counted=lambda plot: len(some(plot))):
    cells = [101]
    return line("count", called(len(plot) == 8, lambda: [[counted(plot)]], cells), cells)


def to_outline(plot, start, sides):
    return line("to_outline", called(len(sides) == 8, lambda: outline(some(plot)), start, sides), start, sides)


def decompose(plot, start, counts):
    return line("decompose", called(len(counts) == 13, lambda: split(plot), start, counts), start, counts)


def to_octagon(start, sides, out):
    return line("to_octagon", called(len(start) == 2, lambda: [tightest(inside(start, sides))], out), out)


def vertex_place(plot, k, place):
    number = called(len(place) == 2, lambda: [corner(plot, k)], place)
    return line("vertex_place", number, bits(place))


def octagons():
    for k, plot in enumerate(OCTAGONS):
        yield from operate(plot, OCTAGONS[FRAMES[k]], FOLDS[k])
        start, sides, out = [101, 102], from_number(201, 8), from_number(301, 8)
        yield to_outline(plot, start, sides)
        yield to_octagon(start, sides, out) + to_octagon(plot, sides, out)
        yield decompose(plot, start, sides)
        start, counts = [101, 102], [201] * 13
        yield count(plot)
        yield decompose(plot, start, counts) + to_outline(plot, start, counts)
        yield vertex_place(plot, k % 9, [0.5, -0.75]) + vertex_place(plot, k % 9, [0.5, -0.75, 1.25])
    yield count(tightest(sheets.corners(*WIDE)), lambda plot: outline_of(plot)[2])
    yield from operate(PLOT[:7], OCTAGONS[1], 1)
    yield from operate(PLOT, OCTAGONS[1][:7], 1)
    for name in MARKED:
        yield operation(name, PLOT, OCTAGONS[1], 1, places=7)
    yield count(PLOT[:7])


# ---- spectra

BROAD, SLANT, LOOSE = [35, 47, 18, 11, -7, -17, -3, 28], [3, 2, 0, 5, 6, 7, 1, 4], [1, 8, 2, 6, 3, 7, 0, 9]
SPOILT = [(3, OCTAGONS[4]), (4, OCTAGONS[3])]
SPOILT += [(0, frame) for frame in (OCTAGONS[3], OCTAGONS[4], OCTAGONS[1], OCTAGONS[6], [0] * 8)]


def told(fits, found, room):
    """The call on the first places of a list, and all of them."""

    def work():
        trims, finished = put(found(), lent)
        return lent, [trims], [int(finished)]

    places, trims, ending = from_number(301, 6), [101], [201]
    lent = places[:room]
    number = called(fits, work, lent, trims, ending)
    places[:room] = lent
    return line("spectrum", number, places, trims, ending)


def spectrum(plot, frame, room=6):
    return told(len(plot) == 8 and len(frame) == 8, lambda: entries(plot, frame), room)


def on_spectra():
    for room in range(7):
        yield spectrum(BROAD, SLANT, room)
    for room in 6, 5, 4:
        yield spectrum(OCTAGONS[2], LOOSE, room)
    for room in 6, 2, 1:
        yield spectrum(OCTAGONS[13], tightest({(0, 0), (1, -1)}), room)
    for room in 1, 6:
        yield told(True, lambda: entries_of_blocks((3700005, 3300013), (2000004, 3000002)), room)
    for k, frame in SPOILT:
        yield spectrum(OCTAGONS[k], frame) + spectrum(OCTAGONS[k], frame, 0)
    for count in 7, 9, 0:
        yield spectrum((BROAD + [9])[:count], SLANT) + spectrum(BROAD, (SLANT + [9])[:count])
    yield spectrum(BROAD[:7], [0] * 8) + spectrum(OCTAGONS[3], SLANT[:7])


# ---- tapes

SURVEY = [-7.31, -12.85, 3.44, -14.2, 10.375, -11.06, 12.9, -5.625, 11.7, 1.52, 5.08, 6.125, -1.96, 5.9, -8.4, 0.77, -9.875, -6.3]
EDGES = [[0.125, -0.125], [0.375, -0.375], [0.12499999999999999, -0.12500000000000003], [0.37499999999999994, -0.37500000000000006]]
EDGES += [[-0.0, 0.0], [500000.12499999994, -500000.125], [-500000.125, 500000.12499999994]]
LENGTHS = [[500500.5, nan, 1.3, inf, 600000.75][:n] for n in (0, 1, 3, 5)]
NOT_FINITE = [[nan, 2.6], [3.1, inf], [-inf, -2.2], [1.4, 2.7, -3.3, 4.6, 5.8, nan]]
NOT_FINITE += [[500001.5, nan], [inf, -500002.25], [2.9, -inf, 500003.75, 1.1]]
OFF_MAP = [[500000.125, 1.7], [-2.8, 500000.125], [-500000.12500000006, 3.9], [4.2, -500000.12500000006]]
OFF_MAP += [[1.0e300, -2.0e300], [5.3, -6.4, 7.6, -900000.0], [-500005.5, 6.6, nan, 7.7]]


def on_tape(tape, places=8):
    out = from_number(101, places)
    return line("enclose", called(places == 8, lambda: [enclose(tape)], out), out, bits(tape))


def on_tapes():
    for tape in [SURVEY, SURVEY[:6]] + EDGES + LENGTHS + NOT_FINITE + OFF_MAP:
        yield on_tape(tape)
    for length, places in (2, 7), (2, 9), (0, 7), (3, 9):
        yield on_tape([1.9, -2.3, 4.7][:length], places)


# ---- trees

CLEAR = [(-37, 52, 0), (9, -4, 1), (-6, -11, 3), (23, 14, 5), (-1234, 5678, 255)]
CLEAR += [(1999745, -31, 255), (17, 1999746, 254), (-1999995, 42, 5), (-8, -1999997, 3)]
TOO_WIDE = [(2, 7, 256), (-4000000, 6, 511), (MIN, MAX, 2**32 - 1)]
PAST_EDGE = [(1999746, -31, 255), (17, 1999747, 254), (-1999996, 42, 5), (-8, -1999998, 3)]
PAST_EDGE += [(2000001, 10, 0), (-12, -2000001, 0), (MAX, 4, 255), (-3, MIN, 255)]


def clearance(tree, places=8):
    out = from_number(101, places)
    return line("clearance", called(places == 8, lambda: [around(*tree)], out), out)


def on_trees():
    for tree in CLEAR + TOO_WIDE + PAST_EDGE:
        yield clearance(tree)
    for tree, places in (CLEAR[1], 7), (CLEAR[1], 9), (TOO_WIDE[0], 7), (PAST_EDGE[4], 9):
        yield clearance(tree, places)


# ---- sheets

ROOM = 163


def sheet_start(buffer, heading):
    length = [101]
    return line("sheet_start", called(True, lambda: [[sheets.start(buffer, heading)]], length), length, [buffer.hex()])


def sheet_insert(buffer, length, plot, start, sides, fee, room=ROOM):
    """The call on the first bytes of a buffer."""
    grown, lent = [101], bytearray(buffer[:room])
    fits = len(start) == 2 and len(sides) == 8
    answer = called(fits, lambda: [[sheets.insert(lent, length, plot, *start, sides, fee)]], grown)
    buffer[:room] = lent
    return line("sheet_insert", answer, grown, [lent.hex()])


def sheet_check(buffer, length):
    records = [101]
    return line("sheet_check", called(True, lambda: [[len(sheets.check(buffer, length))]], records), records)


def record(name, call, buffer, length, k, start, sides):
    def work():
        plot, i, j, n, fee = call(buffer, length, k)
        return [plot], [i, j], n, [fee]

    plot, fee = [101], [401]
    fits = len(start) == 2 and len(sides) == 8
    return line(name, called(fits, work, plot, start, sides, fee), plot, start, sides, fee)


def both(buffer, length, k, starts=2, numbers=8):
    """A record by both calls, one after the other on the same memory."""
    start, sides = from_number(201, starts), from_number(301, numbers)
    fetched = record("sheet_fetch", sheets.fetch, buffer, length, k, start, sides)
    return fetched + record("sheet_read", sheets.read, buffer, length, k, start, sides)


def listed(buffer, length):
    text = sheets.listing(buffer, length)
    return line("list", 0, [len(text), TEXT]) + "\n" + text


BUFFER = bytes([*range(32, 127), *range(128, 196)])
START, SIDES = [-4, -5], [3, 1, 14, 2, 5, 4, 6, 7]
WEST = (513, [-1000, 2000], [303, 1, 714, 2, 305, 4, 706, 7])
SOUTH = ([-8, -11], [6, 7, 3, 1, 14, 2, 5, 4])


def refused_plots(buffer, length, room):
    wrong = [(9, START, [4] + SIDES[1:]), (9, START, SIDES[:7]), (9, START + [8], SIDES)]
    for plot, start, sides in [(9, START, SIDES), (513, START, SIDES)] + wrong:
        yield sheet_insert(buffer, length, plot, start, sides, 52000, room)


def records(buffer, length, cut):
    for k in range(4):
        yield both(buffer, length, k)
    yield both(buffer, cut, 0) + both(buffer, length, 1, starts=1) + both(buffer, length, 1, numbers=7)
    yield sheet_check(buffer, length) + sheet_check(buffer, cut)


def started(buffer):
    yield sheet_start(buffer, 148) + sheet_start(buffer, 3)
    yield sheet_insert(buffer, 19, 70001, START, SIDES, 1800)
    yield sheet_insert(buffer, 65, *WEST, 65535)
    yield sheet_insert(buffer, 111, 16909060, *SOUTH, 0)
    yield from refused_plots(buffer, 157, ROOM)
    yield from records(buffer, 157, 156)


def narrow(buffer):
    yield from records(buffer, 67, 66)
    yield from refused_plots(buffer, 67, 113)
    yield sheet_insert(buffer, 67, 31337, WIDE[:2], WIDE[2], 256)
    yield from records(buffer, 157, 156)


OLD = sheets.old_sheet(BUFFER[:3], (513, (-1000, 2000, WEST[2])), (70001, (-4, -5, SIDES)))
NARROW = OLD + BUFFER[len(OLD) :]


def on_sheets():
    buffer, other = bytearray(BUFFER), bytearray(NARROW)
    yield from started(buffer)
    yield from narrow(other)
    yield listed(buffer, 157) + listed(NARROW, 67) + listed(other, 157)
    buffer[3:5] = b"\0\0"
    yield both(buffer, 157, 0) + both(buffer, 157, 3) + listed(buffer, 157)


# ---- joins and conversions

SOUTH_WEST = (770, (21, -33, [15, 11, 18, 9, 22, 8, 17, 13]), 258)
HALF = sheets.laid(26, b"south", SOUTH_WEST, (70001, (-4, -5, SIDES), 0)) + b"wxyz"
COUNTY = sheets.sheet(b"shire", (513, (-1000, 2000, WEST[2]), 0), (31337, WIDE, 4077)) + b"tuv"


def written(name, call, room, *sources):
    """A call that writes a sheet to the first bytes of a buffer and only reads the others."""
    length, lent = [101], bytearray(BUFFER[:room])
    answer = called(True, lambda: [[call(lent)]], length)
    return line(name, answer, length, [lent.hex()] + [source.hex() for source in sources])


def sheet_join(first, first_length, second, second_length, room):
    return written("sheet_join", lambda lent: join(first, first_length, second, second_length, lent), room, first, second)


def sheet_convert(first, length, room):
    return written("sheet_convert", lambda lent: sheets.convert(first, length, lent), room, first)


def changed(sheet, at, byte):
    return sheet[:at] + bytes([byte]) + sheet[at + 1 :]


def on_joins():
    for room in (163, 157):
        yield sheet_join(NARROW, 67, HALF, 73, room)
    for room in (163, 159):
        yield sheet_join(HALF, 73, NARROW, 67, room)
    yield sheet_join(NARROW, 67, NARROW, 67, 111)
    yield sheet_join(NARROW, 67, COUNTY, 113, 157) + sheet_join(COUNTY, 113, NARROW, 67, 163)
    yield sheet_join(NARROW, 67, HALF, 73, 156) + sheet_join(HALF, 73, NARROW, 67, 158) + sheet_join(NARROW, 67, HALF, 73, 0)
    half = changed(HALF, 55, 1)
    yield sheet_join(NARROW, 67, half, 73, 163) + sheet_join(half, 73, NARROW, 67, 163) + sheet_join(NARROW, 67, half, 73, 0)
    for first_length, second_length, room in (15, 72, 163), (66, 15, 163), (67, 78, 163), (67, 72, 0):
        yield sheet_join(NARROW, first_length, half, second_length, room)
    yield sheet_join(changed(HALF, 57, 51), 73, NARROW, 15, 163)
    for at, byte in (7, 2), (13, 16):
        yield sheet_join(NARROW, 67, changed(HALF, at, byte), 73, 163)
    yield sheet_join(changed(HALF, 10, 127), 73, NARROW, 66, 163)


def on_conversions():
    joined = bytearray(BUFFER)
    assert join(NARROW, 67, HALF, 73, joined) == 157
    for sheet, length, rooms in (NARROW, 67, (163, 71, 70, 0)), (HALF, 73, (163, 73, 72)), (bytes(joined), 157, (163, 97, 96)):
        for room in rooms:
            yield sheet_convert(sheet, length, room)
    for length, room in (113, 163), (113, 0), (15, 163), (117, 163), (112, 163):
        yield sheet_convert(COUNTY, length, room)
    for at, byte, room in (97, 51, 0), (7, 1, 163), (63, 164, 163), (57, 224, 0):
        yield sheet_convert(changed(COUNTY, at, byte), 113, room)
    yield sheet_convert(changed(HALF, 10, 127), 73, 163)


if __name__ == "__main__":
    for part in octagons, on_spectra, on_tapes, on_trees, on_sheets, on_joins, on_conversions:
        print("".join(part()), end="")
