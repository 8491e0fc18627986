"""The sheets that crates/join_cases converts, for joins.py, in the form of the pairs of join_pairs.py: the second buffer of such a pair has no
bytes, and the copy goes to the third. What a conversion answers is worked out by `convert` of sheets.py.
"""
import itertools

from joins import CONVERTED, ROOM
from join_pairs import LAST, SIZES, changed, faults, made
from old import GROWN, JOINED, OLD_SHEETS, converted
from sheet_edges import LEAVING, OLD_LEAVING, OLD_REACHING, REACHING, holding
from sheets import WHOLE, Refused, convert, county, fee_row, laid, numbered


def conversion(name, data):
    """With just the room, one byte short, longer, and with no room; a sheet that is refused, with room and with none."""
    try:
        length = convert(data, len(data), bytearray(ROOM))
        rooms = [length, length - 1, length + 9, 0]
    except Refused:
        rooms = [len(data), 0]
    return name, (0, data, len(data)), (0, b"", 0), [(CONVERTED, len(data), 0, room) for room in rooms]


# ---- sheets on the old map


def lengths_and_headings():
    """Sheets of every record length with no plot, one and three; their headings are empty, text, and a sheet."""
    headings = b"", b"Plots of the parish\n", made(46, b"", 8)
    for k, (size, heading, numbers) in enumerate(itertools.product(SIZES, headings, ((), (LAST,), (7, 256, 65537)))):
        yield conversion("of%d" % k, made(size, heading, *numbers))


def olds():
    """The sheets of tests/old_sheets/; the conversions of those of 24, which are converted to themselves; and what an insert and a join make of
    two of them, whose conversions are two others."""
    for name, data in OLD_SHEETS.items():
        yield conversion(name[:4] + name[-2:], data)
        if name.endswith("24") and not name.startswith("beyond"):
            yield conversion("again", converted(data))
    yield conversion("grown", GROWN)
    yield conversion("joined", JOINED)


# ---- plots off the old map


def cells_past(outlines):
    """Such plots in sheets of 46: alone, after a plot on the old map, before one, and between two."""
    for k, far in enumerate(outlines):
        yield conversion("alone%d" % k, holding(46, (), far))
        yield conversion("second%d" % k, holding(46, (43,), far))
        yield conversion("first%d" % k, laid(46, b"h", (*far, fee_row(far[0])), *numbered(LAST)))
        yield conversion("middle%d" % k, laid(46, b"", *numbered(43), (*far, fee_row(far[0])), *numbered(LAST)))


def edges():
    """Up to 16,000 in each direction, by 24, 26 and 46, and up to 16,001: of the last, every corner and every side fits 16 bits. Then up to
    2,000,000 and 2,000,001."""
    for size in (24, 26):
        for k, far in enumerate(OLD_REACHING + OLD_LEAVING):
            yield conversion("old%d" % k, holding(size, (43,), far))
    yield from cells_past(OLD_REACHING + OLD_LEAVING + REACHING[:1] + LEAVING[:1])


def rectangle(i, j, n0, n2):
    return (i, j, [n0, 0, n2, 0] * 2)


# plots off the old map of which some numbers fit 16 bits, signed or not, and some do not: a start past 16,000, past 32,767 and past 65,535; a
# side past 32,000 and past 65,535; the whole map
FAR = [rectangle(16001, 5, 11, 7), rectangle(3, -16001, 12, 8), rectangle(-32768, 32000, 13, 9), rectangle(33000, -33011, 14, 6)]
FAR += [rectangle(65536 + 31, 65536 * 2 + 53, 15, 4), rectangle(-16000, 1, 32001, 3), rectangle(2, -16000, 5, 32001)]
FAR += [rectangle(-15999, -15998, 65535, 21), rectangle(-15997, -15996, 65536 + 22, 23), rectangle(-15995, 24, 25, 65536), WHOLE]


def far():
    yield from cells_past(list(enumerate(FAR, 301)))
    for k in range(6):
        yield conversion("county%d" % k, made(46, b"", 50 + k, 700, 80000 + k, outline=county))


# ---- sheets that are refused


def refused():
    """What the check refuses comes first, though plots of the sheets of 46 lie off the old map; then lengths that are not the sheet's."""
    for size in SIZES:
        for k, data in enumerate(faults(size, county) if size == 46 else faults(size)):
            yield conversion("fault%d" % k, data)
    # the first plot lies off the old map, and the second has no number above it
    data = made(46, b"", 12, 345, outline=county)
    yield conversion("number", changed(data, 46, 11, 0))
    for size in SIZES:
        data = made(size, b"abc", 12, 345)
        n = len(data)
        calls = [(CONVERTED, length, 0, room) for length in (n, 0, 15, 16, n - 1, n + 1, n + 5, n + 6, 2**64 - 1) for room in (90, 0)]
        yield "lengths", (0, data + b"past.", n + 5), (0, b"", 0), calls


def conversions():
    for part in (lengths_and_headings, olds, edges, far, refused):
        yield from part()
