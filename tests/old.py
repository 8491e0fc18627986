"""The sheets of tests/old_sheets/, by 24 and by 26 bytes a record, and what holds of them by the model of tests/sheets.py.

tests/old_sheets/README.md says which commits wrote them, and how each was made. crates/sheet_cases reads them all, crates/join_cases joins
and converts them, and tests/listing.py has them listed.
"""
import os

from joins import join
from sheets import PLOTS, check, convert, fee_row, heading_of, insert, laid, listing, plot

NAMES = "sample-24", "parish-24", "edges-24", "beyond-24", "sample-26", "south-26", "grown-26", "joined-26", "edges-26", "beyond-26"


def kept(name, kind):
    with open(os.path.join(os.path.dirname(os.path.abspath(__file__)), "old_sheets", "%s.%s" % (name, kind)), "rb") as f:
        return f.read()


OLD_SHEETS = {name: kept(name, "sheet") for name in NAMES}
LISTINGS = {name: kept(name, "listing").decode() for name in NAMES}
SAMPLE_24, SAMPLE_26 = OLD_SHEETS["sample-24"], OLD_SHEETS["sample-26"]


def made(call, data=b""):
    """The sheet that a call leaves in a buffer which starts with some bytes, and the bytes past it are kept."""
    buffer = bytearray(data.ljust(500, b"."))
    length = call(buffer)
    assert set(buffer[length:]) == set(b".")
    return bytes(buffer[:length])


def converted(data):
    return made(lambda buffer: convert(data, len(data), buffer))


# ---- what holds of them


def assert_same_records(data):
    """A conversion of a sheet of 26 is that sheet; of one of 24 it has the fee row 0 in each record. Converted again it is the same."""
    records = [(row[0], row[1:4], row[4]) for row in check(data, len(data))]
    assert converted(data) == laid(26, heading_of(data, len(data)), *records) == converted(converted(data))
    assert data[-8] == 24 and not any(fee for *_, fee in records) or converted(data) == data


for name, data in OLD_SHEETS.items():
    assert data[-8] == int(name[-2:]) and listing(data, len(data)) == LISTINGS[name]
    if name.startswith("beyond"):
        assert LISTINGS[name] == "refused 2\n"
    else:
        assert_same_records(data)

# an insert into a sheet of 24, and a join of one with a sheet of 26: converted, they are what that insert and that join
# wrote when they wrote 26
PARISH, SOUTH = OLD_SHEETS["parish-24"], OLD_SHEETS["south-26"]
GROWN = made(lambda buffer: insert(buffer, len(PARISH), 9, *plot(9), fee_row(9)), PARISH)
JOINED = made(lambda buffer: join(PARISH, len(PARISH), SOUTH, len(SOUTH), buffer))
assert converted(GROWN) == OLD_SHEETS["grown-26"] and converted(JOINED) == OLD_SHEETS["joined-26"]
assert SAMPLE_24 == laid(24, b"", *PLOTS) and SAMPLE_26 == laid(26, b"", *PLOTS)
