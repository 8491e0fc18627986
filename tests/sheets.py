#!/usr/bin/env python3
"""Sheets and listings by documents 01 and 02, worked out apart from the crates: an own reading of the format, and cells
counted by Pick's theorem, those of short walks row by row too.

    python3 tests/sheets.py write    writes stdin and stdout of crates/listing, crates/listing_cases and crates/sheet_cases
    python3 tests/sheets.py try      runs crates/listing/out/listing, as `rt run` leaves it in crates/listing, on 400 random sheets, good and spoilt

A record has 46 bytes, or in older sheets 26 or 24; one of 24 has no fee row, and is read with the fee row 0. Those of 26 and 24 are read on
the old map. What crates/sheet_cases writes is worked out in tests/sheet_cases.py. Run this from the top of the repository. It needs Python 3.9 or
newer and nothing else.
"""
import functools
import random
import struct
import subprocess
import sys

MAP = 2000000
OLD_MAP = 16000
LIMIT = 65536
STEPS = [(1, 0), (1, 1), (0, 1), (-1, 1), (-1, 0), (-1, -1), (0, -1), (1, -1)]


class Refused(Exception):
    """A refusal with its number."""


# ---- outlines


def corners(i, j, n):
    """The corners of the walk and its end: corner 0 is the start, corner k+1 is corner k moved n[k] steps along d[k]."""
    places = [(i, j)]
    for (dx, dy), steps in zip(STEPS, n):
        x, y = places[-1]
        places.append((x + dx * steps, y + dy * steps))
    return places


def inside(places, x, y):
    """The cell lies on or to the left of each side of the walk."""
    return all(dx * (y - b) - dy * (x - a) >= 0 for (dx, dy), (a, b) in zip(STEPS, places))


def is_within(places, limit):
    return all(abs(x) <= limit and abs(y) <= limit for x, y in places)


def cells(i, j, n, limit=MAP):
    """The number of cells of an outline. Refuses 3 when the walk does not come back to its start, 2 when some cell lies off a map of this limit."""
    places = corners(i, j, n)
    if places[-1] != places[0]:
        raise Refused(3)
    if not is_within(places, limit):
        raise Refused(2)
    return counted(i, j, tuple(n))


@functools.lru_cache(None)
def counted(i, j, n):
    """By Pick's theorem: the area within the walk, half the cells that it passes, and 1. Where the walk is short, its rows are counted too."""
    places = corners(i, j, n)
    doubled = sum(a * y - x * b for (a, b), (x, y) in zip(places, places[1:])) + sum(n) + 2
    count, rest = divmod(doubled, 2)
    assert rest == 0 and (sum(n) > 4000 or count == walked_cells(i, j, n)), (i, j, n)
    return count


def walked_cells(i, j, n):
    """The cells of each row between the westmost and the eastmost that the walk passes. Where few lie round it, each is tested as well."""
    west, east = {}, {}
    x, y = i, j
    walked = [(x, y)]
    for (dx, dy), steps in zip(STEPS, n):
        for _ in range(steps):
            x, y = x + dx, y + dy
            walked.append((x, y))
    for x, y in walked:
        west[y] = min(west.get(y, x), x)
        east[y] = max(east.get(y, x), x)
    count = sum(east[y] - west[y] + 1 for y in west)
    columns, rows = range(min(west.values()), max(east.values()) + 1), range(min(west), max(west) + 1)
    if len(columns) * len(rows) <= 2000:
        places = corners(i, j, n)
        assert count == sum(inside(places, x, y) for x in columns for y in rows), (i, j, n)
    return count


# ---- sheets


# by the length of a record: its fields, which are number, i, j, n0 to n7 and, but for 24, the fee row; and the limit of its map
FIELDS = {24: "<Ihh8H", 26: "<Ihh8HH", 46: "<Iii8IH"}
MAPS = {24: OLD_MAP, 26: OLD_MAP, 46: MAP}


def record(size, number, i, j, n, fee):
    return struct.pack(FIELDS[size], number, i, j, *n, *([] if size == 24 else [fee]))


def trailer(count, size):
    return struct.pack("<IIHH4s", size * count, count, size, 0, b"GRND")


def laid(size, heading, *plots):
    """The bytes of a sheet of records of this size with these plots, each (number, outline, fee row). One of 24 lacks the fee rows."""
    return heading + b"".join(record(size, number, *outline, fee) for number, outline, fee in plots) + trailer(len(plots), size)


def sheet(heading, *plots):
    """The same by 46, as start, insert and join write it."""
    return laid(46, heading, *plots)


def old_sheet(heading, *plots):
    """The bytes of a sheet of 24 with these plots, each (number, outline)."""
    return laid(24, heading, *((number, outline, 0) for number, outline in plots))


def frame(buffer, length):
    """The bytes of each record of a sheet, and the index of the first."""
    if length < 16 or length > LIMIT or length > len(buffer):
        raise Refused(8)
    distance, count, size, zeros, letters = struct.unpack("<IIHH4s", bytes(buffer[length - 16 : length]))
    if letters != b"GRND" or size not in FIELDS or zeros != 0:
        raise Refused(9)
    if distance != size * count or distance > length - 16:
        raise Refused(10)
    first = length - 16 - distance
    return [bytes(buffer[at : at + size]) for at in range(first, length - 16, size)], first


def fields(data):
    """Number, i, j, sides and fee row of the bytes of a record."""
    number, i, j, *rest = struct.unpack(FIELDS[len(data)], data)
    return number, i, j, rest[:8], rest[8] if len(data) > 24 else 0


def check(buffer, length):
    """The records of a sheet, each (number, i, j, n, fee row, count of cells)."""
    found, before = [], 0
    for data in frame(buffer, length)[0]:
        number, i, j, n, fee = fields(data)
        if number == 0 or number <= before:
            raise Refused(11)
        found.append((number, i, j, n, fee, cells(i, j, n, MAPS[len(data)])))
        before = number
    return found


def fetch(buffer, length, k):
    """Number, i, j, sides and fee row of record k."""
    found = check(buffer, length)
    if k >= len(found):
        raise Refused(13)
    return found[k][:5]


def read(buffer, length, k):
    """The same with no look at the records."""
    rows, _ = frame(buffer, length)
    if k >= len(rows):
        raise Refused(13)
    return fields(rows[k])


def start(buffer, heading):
    if heading + 16 > LIMIT:
        raise Refused(8)
    if heading + 16 > len(buffer):
        raise Refused(12)
    buffer[heading : heading + 16] = trailer(0, 46)
    return heading + 16


def lay(buffer, data):
    """Writes a sheet over the first bytes of a buffer: its length."""
    if len(data) > len(buffer) or len(data) > LIMIT:
        raise Refused(12)
    buffer[: len(data)] = data
    return len(data)


def heading_of(buffer, length):
    return bytes(buffer[: frame(buffer, length)[1]])


def insert(buffer, length, number, i, j, n, fee):
    cells(i, j, n)
    found = check(buffer, length)
    if number == 0 or number in [r[0] for r in found]:
        raise Refused(11)
    rows = sorted([r[:5] for r in found] + [(number, i, j, n, fee)])
    return lay(buffer, sheet(heading_of(buffer, length), *((row[0], row[1:4], row[4]) for row in rows)))


def convert(first, length, second):
    """Copies a sheet by 26 into a second buffer."""
    found = check(first, length)
    if not all(is_within(corners(i, j, n), OLD_MAP) for _, i, j, n, *_ in found):
        raise Refused(21)
    return lay(second, laid(26, heading_of(first, length), *((row[0], row[1:4], row[4]) for row in found)))


# ---- listings


def listing(buffer, length):
    try:
        found = check(buffer, length)
    except Refused as r:
        return "refused %d\n" % r.args[0]
    lines = ["plot i j n0 n1 n2 n3 n4 n5 n6 n7 cells fee"]
    for number, i, j, n, fee, count in found:
        lines.append(" ".join(str(v) for v in [number, i, j] + n + [count, fee]))
    lines.append("plots %d cells %d" % (len(found), sum(r[5] for r in found)))
    return "".join(line + "\n" for line in lines)


# ---- plots


BLOCK = (2, -1, [3, 0, 1, 0, 3, 0, 1, 0])  # record 7 of document 01
DIAMOND = (0, 0, [0, 1, 0, 1, 0, 1, 0, 1])  # record 11407 of document 01: K13
WHOLE = (-MAP, -MAP, [2 * MAP, 0] * 4)
OLD_WHOLE = (-OLD_MAP, -OLD_MAP, [2 * OLD_MAP, 0] * 4)
PLACES = [-15500, -9001, -300, -1, 2, 515, 12345, 15477]
COUNTY_PLACES = [-1700001, -900007, -70003, -16001, 40009, 65541, 1000003, 1230029]
LARGE = [70000, 80000, 72000, 88000, 76000, 76000, 74000, 90000]  # sides that close, each a multiple of 8


def wide(i, j, n0=300):
    """Eight different sides, six of them above 255, on the old map."""
    return (i, j, [n0, 261, 1030, 7, 1058, 12, 770, 516])


def broad(i, j, more=0):
    """Eight different sides, six of them above 65,535."""
    return (i, j, [257 * side + more * (k == 0) for k, side in enumerate(wide(i, j)[2])])


def sides(number):
    """Eight different sides by a number: their remainders by 8 differ."""
    a, b, c, d, k5 = number % 11 * 32, number % 5 * 8, number % 7 * 48, number % 9 * 16, number % 3 * 8
    return [5 + a + k5, 1 + b, 8 + c + k5, 3 + d, 7 + a, 2 + b + k5, 4 + c, 6 + d]


def placed(number, places, n):
    """An outline with these sides, whose i and j are two of eight places."""
    i, j = places[number % 8], places[(number % 8 + number % 7 + 1) % 8]
    assert i != j and len(set(n)) == 8 and corners(i, j, n)[-1] == (i, j)
    return (i, j, n)


def plot(number):
    """The plot with a number, on the old map."""
    return placed(number, PLACES, sides(number))


def county(number):
    """The plot with a number, mostly far off the old map; of three plots in four every side is above 65,535."""
    return placed(number, COUNTY_PLACES, [side + number % 4 * more for side, more in zip(sides(number), LARGE)])


def fee_row(number):
    """The fee row of the plot with a number: above every side on the old map, and no coordinate's bytes."""
    return 40000 + 7 * number % 9973


def numbered(*numbers, outline=plot):
    """The plots with these numbers, each (number, outline, fee row)."""
    return [(number, outline(number), fee_row(number)) for number in numbers]


# ---- what the programs read and write


PLOTS = [(7, BLOCK, 12), (11407, DIAMOND, 3), (0x01020304, wide(-300, 515), 65535)]
SAMPLE = sheet(b"", *PLOTS)


def longest(line, *plots):
    """A sheet of 65,536 bytes with these plots. Its heading is one line again and again, cut at the front."""
    room = LIMIT - len(sheet(b"", *plots))
    return sheet((line * (room // len(line) + 1))[-room:], *plots)


def two_inputs():
    """A sheet of 65,536 bytes and a byte, then a sheet of 65,536 bytes; what is written for each."""
    first = longest(b"A heading of the sheet that one byte follows.\n", *numbered(12, 345, 0x0A0B0C0D, outline=county)) + b"\n"
    second = longest(b"A heading of the sheet that nothing follows.\n", *numbered(21, 546, 0x0B0C0D08, outline=county))
    assert (len(first), len(second)) == (65537, 65536)
    assert listing(first, 65536) != listing(second, 65536) and listing(first, 65536).startswith("plot")
    return first + second, listing(first, len(first)) + listing(second, len(second))


def write():
    from sheet_cases import Cases, given  # it stands on this file

    inputs, listings = two_inputs()
    for name, data in (
        ("crates/listing/stdin", SAMPLE),
        ("crates/listing/stdout", listing(SAMPLE, len(SAMPLE)).encode()),
        ("crates/listing_cases/stdin", inputs),
        ("crates/listing_cases/stdout", listings.encode()),
        ("crates/sheet_cases/stdin", given()),
        ("crates/sheet_cases/stdout", Cases().run()),
    ):
        with open(name, "wb") as f:
            f.write(data)
        print(name, len(data), "bytes")


# ---- random sheets


def random_sides(rng, limit):
    """Eight sides that close: mostly all different, at times small ones, of which some are 0 or equal, and at times as large as a map takes."""
    most = rng.choice([4, 40, 200, 200, 200, 900, limit // 4])
    while True:
        n = [rng.randrange(most) for _ in range(8)]
        n[4] = n[0] + n[1] + n[7] - n[3] - n[5]
        n[6] = n[1] + n[2] + n[3] - n[5] - n[7]
        if min(n) >= 0:
            return n


def random_outline(rng, limit):
    """An outline that closes and lies on a map, at times up to its edges; at times one that does not."""
    n = random_sides(rng, limit)
    places = corners(0, 0, n)
    starts = []
    for axis in (0, 1):
        low, high = -limit - min(p[axis] for p in places), limit - max(p[axis] for p in places)
        starts.append(rng.choice([low, high]) if rng.random() < 0.2 else rng.randint(low, high))
        if rng.random() < 0.002:
            starts[axis] = rng.choice([low - 1, high + 1])
    if rng.random() < 0.004:
        n[rng.randrange(8)] += 1
    return (starts[0], starts[1], n)


def random_fee(rng):
    return rng.choice([0, 1, 255, 256, 65535, rng.randrange(65536)])


def random_sheet(rng):
    """A sheet of any record length, at times spoilt: a number, a byte of the last record or of the trailer, the record length, or the length."""
    size = rng.choice([24, 26, 46])
    count = rng.choice([0, 1, 2, 3, 10, 60])
    numbers = sorted(rng.sample(range(1, 2**32 if rng.random() < 0.5 else 5000), count))
    if count > 1 and rng.random() < 0.1:
        numbers[rng.randrange(count - 1)] = rng.choice([0, numbers[-1]])
    body = b"".join(record(size, v, *random_outline(rng, MAPS[size]), random_fee(rng)) for v in numbers)
    stated = rng.choice([24, 26, 46]) if rng.random() < 0.05 else size
    data = bytearray(rng.randbytes(rng.randrange(30)) + body + trailer(count, stated))
    if rng.random() < 0.3:
        at = max(0, len(data) - 1 - rng.randrange(size + 16))
        data[at] = rng.randrange(256)
    if rng.random() < 0.05:
        data = bytearray(rng.randbytes(LIMIT + 1 - len(data) - rng.randrange(3) + 1)) + data
    if rng.random() < 0.05:
        data = data[: rng.randrange(20)]
    return bytes(data)


def attempt():
    rng = random.Random(1)
    seen = {}
    listed, uneven = 0, 0
    for k in range(400):
        data = random_sheet(rng)
        expected = listing(data, len(data))
        given = subprocess.run(["crates/listing/out/listing"], input=data, capture_output=True, check=True)
        if (given.stdout, given.stderr) != (expected.encode(), b""):
            sys.exit("sheet %d: expected\n%sbut crates/listing/out/listing wrote\n%s%s" % (k, expected, given.stdout, given.stderr))
        kind = expected.split("\n")[0] if expected.startswith("refused") else "listed at %d" % data[-8]
        seen[kind] = seen.get(kind, 0) + 1
        if kind.startswith("listed"):
            found = check(data, len(data))
            listed += len(found)
            uneven += sum(len(set(r[3])) == 8 for r in found)
    print("400 sheets agree:", ", ".join("%s %d" % item for item in sorted(seen.items())))
    print("%d plots listed, %d of them with eight different sides" % (listed, uneven))


if __name__ == "__main__":
    if sys.argv[1:] == ["write"]:
        write()
    elif sys.argv[1:] == ["try"]:
        attempt()
    else:
        sys.exit(__doc__)
