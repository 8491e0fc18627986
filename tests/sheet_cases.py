"""What crates/sheet_cases reads and writes, worked out by the model of tests/sheets.py, whose `write` runs this.

The class has the program's calls in its order: each method has those of one of its functions or of a few. A case is made, called and
written here as it is there, by the words of tests/sheet_words.py, and what the calls answer and leave is the model's.
"""
import struct

from old import OLD_SHEETS
from sheet_edges import LEAVING, OLD_LEAVING, OLD_REACHING, REACHING, holding
from sheet_words import PAST, Words
from sheets import BLOCK, DIAMOND, OLD_WHOLE, WHOLE, broad, county, fee_row, laid, numbered, plot, sheet, start, trailer, wide

LAST = 2**32 - 1
SIZES = {64: 24, 68: 26, 108: 46}  # the record lengths of a sheet of two plots by its length
BASE, FEE, COUNTY = SIZES
HEADING = b"Plots of the parish\n"


def corner_pair(size):
    """The sheet of two plots: one in the corner of the map, up to its east and north edges, and another."""
    far, outline = (broad(1855823, 1666414), county) if size == 46 else (wide(15439, 14702), plot)
    return laid(size, b"", (255, far, fee_row(255)), *numbered(511, outline=outline))


def pair(length, room=COUNTY):
    """A buffer that starts with the sheet of two plots of this length."""
    return bytearray(corner_pair(SIZES[length]).ljust(room, b"\0"))


def past(size, at, data):
    """A buffer of bytes 170 with other bytes from an index on."""
    buffer = bytearray([PAST] * size)
    buffer[at : at + len(data)] = data
    return buffer


# the index of the last byte of i, of n0 and of n4 in a record, by its length
INDEXES = {24: (5, 8, 16), 26: (5, 8, 16), 46: (7, 12, 28)}


def two_bytes(length):
    """Two bytes of that sheet, each with its index."""
    size = SIZES[length]
    i, side, opposite = INDEXES[size]
    yield (side, 43), (opposite, 33)
    yield (length - 4, 0), (length - 16, 0)
    yield (length - 16, 0), (0, 0)
    yield (0, 0), (side, 0)
    yield (side, 0), (i, 127)
    yield (side, 0), (size + 1, 0)
    yield (i, 127), (size + side, 0)
    yield (size - 1, 251), (2 * size - 1, 252)


# distance, count and record length that a trailer states
STATED = [(48, 2, 24), (52, 2, 26), (92, 2, 46), (48, 2, 26), (52, 2, 24), (92, 2, 26), (92, 2, 24), (48, 2, 46), (52, 2, 46)]
STATED += [(24, 1, 24), (26, 1, 26), (46, 1, 46), (72, 3, 24), (78, 3, 26), (138, 3, 46), (0, 0, 24), (0, 0, 26), (0, 0, 46)]
STATED += [(46, 2, 23), (50, 2, 25), (52, 2, 25), (52, 2, 27), (90, 2, 45), (92, 2, 47), (0, 2, 0), (0, 0, 48)]
STATED += [(0, 2**31, 24), (0, 2**31, 26), (0, 2**31, 46), (48, 2**31 + 2, 24), (52, 2**31 + 2, 26), (92, 2**31 + 2, 46)]


def rectangle(i, j, n0, n2):
    return (i, j, [n0, 0, n2, 0] * 2)


def filled(heading, size, count, outline=plot):
    """A buffer of 65,600 bytes with a sheet of so many plots, whose numbers are even, and the length of the sheet."""
    data = laid(size, bytes([PAST] * heading), *numbered(*range(2, 2 * count + 1, 2), outline=outline))
    return past(65600, 0, data), len(data)


class Cases(Words):
    """The program's calls, in its order, and what it writes."""

    # ---- sheets of two plots

    def samples(self):
        buffer = bytearray(sheet(b"", (7, BLOCK, fee_row(7)), (11407, DIAMOND, fee_row(11407))))
        self.show(buffer, COUNTY)
        self.show(buffer, self.tell("length", lambda: start(buffer, 92)))

    def spoilt(self, length):
        for at in range(length):
            buffer = pair(length)
            buffer[at] = (buffer[at] + 1) % 256
            self.show(buffer, length)
        for changes in two_bytes(length):
            buffer = pair(length)
            for at, byte in changes:
                buffer[at] = byte
            self.show(buffer, length)
        for wrong in (0, 15, 16, 63, 65, 67, 69, 107, 109, 2**64 - 1):
            self.show(pair(length), wrong)

    def trailers(self, length):
        for distance, count, each in STATED:
            buffer = pair(length)
            buffer[length - 16 : length] = struct.pack("<IIHH4s", distance, count, each, 0, b"GRND")
            self.show(buffer, length)

    def reading(self, length):
        i, side, _ = INDEXES[SIZES[length]]
        sound = [(0, 255, k) for k in (0, 1, 2, LAST)]
        records = [(0, 0, 0), (side, 43, 1), (i, 127, 0), (0, 0, 2)]
        for at, byte, k in sound + records + [(length - 1, 69, 2), (length - 16, 47, 2)]:
            buffer = pair(length)
            buffer[at] = byte
            self.say_checked(buffer, length)
            self.say_both(buffer, length, k)
        for wrong in (15, length - 1, 109):
            self.say_read(pair(length), wrong, 2)

    def numbers(self, made):
        for length, number in ((15, 0), (made - 1, 0), (made, 0), (made, 255), (made, 511), (made, 9)):
            self.tell_insert(made, length, number, plot(9))

    def tell_insert(self, made, length, number, outline):
        buffer = pair(made, 153)
        self.tell_added(buffer, length, number, outline)
        self.say_digest(buffer)

    def last_number(self, made):
        buffer = pair(made, 154)
        full = self.tell_added(buffer, made, LAST, plot(LAST))
        self.tell_added(buffer, full, LAST, plot(9))
        self.tell_added(buffer, full, 9, plot(9))
        self.say_fetched(buffer, full, 0, 1, 2, 3, LAST)
        self.say_fetched(buffer, 153, LAST)

    def outlines(self):
        for i, j, more in ((1855824, 0, 1), (0, 1, 1), (1855824, 0, 0), (0, 1666415, 0), (-1867389, 0, 0), (0, -2000001, 0)):
            self.tell_insert(COUNTY, 15, 0, broad(i, j, more))
        for made, length, outline in ((BASE, 15, wide(15440, 0)), (BASE, BASE, wide(0, 14703)), (FEE, FEE, wide(-15485, 0))):
            self.tell_insert(made, length, 0, outline)

    # ---- sheets with a plot at the edge of the map

    def edges(self, size, plots):
        for far in plots:
            for before in ((), (43,)):
                data = holding(size, before, far)
                buffer = past(160, 0, data)
                self.say_checked(buffer, len(data))
                self.say_both(buffer, len(data), len(before))
                self.show(buffer, len(data))
                self.tell_converted(buffer, len(data))
                self.tell_grown(buffer, len(data), 50, plot(50))
            data = holding(size, (43,))
            self.tell_grown(past(160, 0, data), len(data), *far)

    def tell_grown(self, buffer, length, number, outline):
        grown = self.tell_added(buffer, length, number, outline)
        self.say_digest(buffer)
        self.show(buffer, grown)
        self.tell_converted(buffer, grown)

    # ---- fee rows, headings and limits

    def fees(self):
        buffer = bytearray(210)
        length = self.tell("length", lambda: start(buffer, 0))
        for number, fee in ((9, 0), (11, 1), (13, 65535), (12, 256)):
            length = self.tell_added(buffer, length, number, plot(number), fee)
        self.show(buffer, length)
        self.say_both(buffer, length, 0, 1, 2, 3)

    def ordered(self, *numbers):
        buffer = past(190, 0, HEADING)
        length = self.tell("length", lambda: start(buffer, len(HEADING)))
        for number in numbers:
            length = self.tell_added(buffer, length, number, plot(number))
        self.say(buffer[: len(HEADING)])
        self.show(buffer, length)
        self.say_fetched(buffer, length, 0, 1, 2)
        self.say_kept(buffer, length)

    def limits(self):
        for size, lengths in ((87, ()), (65535, ()), (65536, (65536,)), (65537, (65536, 65537))):
            buffer = bytearray([PAST] * size)
            for heading in (65520, 65521, 71, 72, 2**64 - 1):
                self.tell("length", lambda: start(buffer, heading))
                self.say_digest(buffer)
            for length in lengths:
                self.show(buffer, length)

    # ---- the sheets of tests/old_sheets/

    def old_sheet(self, data):
        length = len(data)
        buffer = past(400, 0, data)
        self.say_checked(buffer, length)
        self.say_both(buffer, length, *range(6))
        self.show(buffer, length)
        needed = self.tell_converted(buffer, length)
        for room in (needed, max(needed - 1, 0), 0):
            self.tell_converted(buffer, length, room)
        self.say_digest(buffer)
        self.grown(data, 4, plot(4))
        self.grown(data, 80003, county(80003))
        self.grown(data, LAST, county(LAST))
        needed = self.grown(data, 9, plot(9))
        for room, number in ((length, 9), (length + 46, 9), (needed - 1, 9), (needed, 9), (length, 0), (length, 303)):
            self.within(past(400, 0, data), length, room, number)

    def grown(self, data, number, outline):
        buffer = past(400, 0, data)
        more = self.tell_added(buffer, len(data), number, outline)
        self.say_digest(buffer)
        self.show(buffer, more)
        self.say_kept(buffer, more)
        self.tell_converted(buffer, more)
        self.tell_added(buffer, more, 512, plot(512))
        self.say_digest(buffer)
        return more

    def within(self, buffer, length, room, number):
        """An insert in the first bytes of a buffer, and the digest of all."""
        lent = buffer[:room]
        grown = self.tell_added(lent, length, number, plot(number))
        buffer[:room] = lent
        self.say_digest(buffer)
        return grown

    def empty(self, size):
        for room in (21 + size, 66, 67, 80):
            buffer = past(80, 5, trailer(0, size))
            self.show(buffer, 21)
            lent = buffer[:room]
            length = self.tell_added(lent, 21, 303, plot(303))
            buffer[:room] = lent
            self.show(buffer, length)
            self.say_digest(buffer)

    # ---- counts and sums above 2 ^ 32

    def sums(self):
        buffer = past(260, 0, b"")
        length = self.tell("length", lambda: start(buffer, 0))
        length = self.tell_added(buffer, length, 21, WHOLE)
        self.show(buffer, length)
        blocks = [rectangle(-30011, 40023, 65534, 65536), rectangle(50017, -60029, 65535, 65535), rectangle(-70031, -80047, 65536, 65536)]
        for number, outline in enumerate(blocks + [broad(90053, 100069)], 22):
            length = self.tell_added(buffer, length, number, outline)
        self.show(buffer, length)
        two = (31, rectangle(-110051, 120077, 59999, 49999)), (32, rectangle(130069, -140083, 49998, 59998))
        data = holding(46, (), *two)
        self.show(data, len(data))
        for size, count, outline in ((24, 2730, OLD_WHOLE), (26, 2520, OLD_WHOLE), (46, 1424, WHOLE)):
            self.show_digest(*filled(0, size, count, lambda number: outline))

    # ---- the fullest sheets

    def say_sheet(self, buffer, length):
        self.say_checked(buffer, length)
        self.show_digest(buffer, length)
        self.say_fetched(buffer, length, 0, 1259, 1260, 1261, 1422, 1423, 2519, 2520, 2729)
        self.say_digest(buffer)

    def inserted(self, heading, size, count):
        buffer, length = filled(heading, size, count)
        self.say_sheet(buffer, length)
        self.say_sheet(buffer, self.tell_added(buffer, length, 2521, plot(2521)))

    def converted(self, heading, size, count, room):
        buffer, length = filled(heading, size, count)
        second, third = past(65600, 0, b""), past(65600, 0, b"")
        made = self.converted_to(buffer, length, second, room)
        self.say_digest(second)
        self.converted_to(second, made, third, 65600)
        self.say_digest(third)

    def largest(self):
        # the sheet that 1,424 inserts in any order leave
        buffer = bytearray(sheet(bytes(16), *numbered(*range(1, 1425), outline=county))) + bytearray(64)
        length = 65536
        self.say("length %d\n" % length)
        self.say_digest(buffer)
        self.show_digest(buffer, length)
        self.say_fetched(buffer, length, 0, 711, 1423, 1424)
        self.tell_added(buffer, length, 1425, county(1425))
        self.say_digest(buffer)
        self.show_digest(buffer, length)
        self.show(buffer, 65537)

    def run(self):
        self.samples()
        for length in SIZES:
            for part in (self.spoilt, self.trailers, self.reading, self.numbers, self.last_number):
                part(length)
        self.outlines()
        for size in (24, 26, 46):
            self.edges(size, OLD_REACHING + OLD_LEAVING)
        self.edges(46, REACHING + LEAVING)
        self.fees()
        for numbers in ((7, 256, 65537), (65537, 256, 7), (256, 65537, 7)):
            self.ordered(*numbers)
        for data in OLD_SHEETS.values():
            self.old_sheet(data)
        for size in (24, 26):
            self.empty(size)
        self.limits()
        self.sums()
        for heading, size in ((16, 24), (17, 24), (16, 26), (17, 26)):
            self.inserted(heading, size, 1423)
        for size, count in ((24, 1424), (26, 1424), (26, 2520), (24, 2730)):
            self.inserted(0, size, count)
        for case in ((0, 24, 2520, 65536), (0, 24, 2520, 65535), (1, 24, 2520, 65600), (0, 24, 2521, 65600), (0, 24, 2730, 65600)):
            self.converted(*case)
        for case in ((0, 26, 2520, 65536), (16, 46, 1424, 65600)):
            self.converted(*case)
        self.largest()
        return self.out


def given():
    """What the program reads: how many old sheets there are, and each after its length."""
    return bytes([len(OLD_SHEETS)]) + b"".join(bytes([len(data)]) + data for data in OLD_SHEETS.values())
