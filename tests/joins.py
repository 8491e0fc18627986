#!/usr/bin/env python3
"""Joins of two sheets by document 02 (U6), worked out apart from the crates: a dictionary of plots by number. join_pairs.py has the pairs, and
conversions.py the sheets that the same program converts.

    python3 tests/joins.py write    writes stdin and stdout of crates/join_cases
    python3 tests/joins.py try      runs crates/join_cases/out/join_cases, as `rt run` leaves it in crates/join_cases, on 4,000 random pairs

exports.py and examples.py use `join`. Run this from the top of the repository. It needs Python 3.9 or newer and nothing else.
"""
import collections
import itertools
import random
import subprocess
import sys

import sheets
from sheets import LIMIT, MAPS, Refused, check, convert, heading_of, insert, laid, lay, sheet, start
from tapes import mixed, words

# the room for a sheet, and the most bytes of a third buffer that are written one by one: of more, their digest is written
ROOM = 65600
SHOWN = 512

# which sheets a call joins: the first and the second, the second and the first, the first and itself; or it converts the first
BOTH, TURNED, ITSELF, CONVERTED = range(4)

# ---- a join


def opened(buffer, length):
    """The heading of a sheet, and its plots by number, each [i, j, sides, fee row]."""
    plots = {number: plot for number, *plot, _ in check(buffer, length)}
    return heading_of(buffer, length), plots


def join(first, first_length, second, second_length, third):
    heading, plots = opened(first, first_length)
    for number, plot in opened(second, second_length)[1].items():
        if plots.setdefault(number, plot) != plot:
            raise Refused(18)
    return lay(third, sheet(heading, *((number, plot[:3], plot[3]) for number, plot in sorted(plots.items()))))


def answer(call):
    """What a call answers, in words."""
    try:
        return "length %d" % call()
    except Refused as refusal:
        return "refused %d" % refusal.args[0]


# ---- what holds of two good sheets, in either order


def by_inserts(heading, plots, room):
    """The sheet that inserts make, the greatest number first."""
    buffer = bytearray(heading.ljust(room, b"\0"))
    length = start(buffer, len(heading))
    for number, plot in sorted(plots.items(), reverse=True):
        length = insert(buffer, length, number, *plot)
    return buffer[:length]


def assert_laws(first, second):
    """Of sheets, each with its length: the joined sheet has the plots of both, whichever comes first, and its bytes, of up to 20 plots, are those
    of inserts."""
    for one, two in (first, second), (second, first):
        (heading, plots), (_, others) = opened(*one), opened(*two)
        third = bytearray(2 * ROOM)
        said = answer(lambda: join(*one, *two, third))
        if {**plots, **others} != {**others, **plots}:
            assert said == "refused 18"
        elif len(heading) + 46 * len({*plots, *others}) + 16 > LIMIT:
            assert said == "refused 12"
        else:
            length = int(said.split()[1])
            assert opened(third, length) == (heading, {**plots, **others}) and not any(third[length:])
            assert len(plots) + len(others) > 20 or third[:length] == by_inserts(heading, {**plots, **others}, length)


# ---- what the program reads and writes


def read(pairs):
    """What the program reads."""
    out = words(len(pairs))
    for name, *buffers, calls in pairs:
        out += b"%-8s" % name.encode()
        for at, new, lent in buffers:
            assert at + len(new) <= ROOM and lent <= ROOM
            out += words(at, len(new), lent) + new
        out += words(len(calls)) + b"".join(words(room, way, *lengths) for way, *lengths, room in calls)
    return out


def joined(one, two, third):
    """What a join of sheets, each with its length, answers, once what holds of a join is found to hold."""
    said = answer(lambda: join(*one, *two, third))
    if said.split()[0] == "length" or said in ("refused 18", "refused 12"):
        assert_laws(one, two)
    return said


def converted(data, length, third):
    """The same for a conversion: the copy has the heading and the plots of the sheet, and its own copy is the same."""
    said = answer(lambda: convert(data, length, third))
    if said.startswith("length"):
        copy = third[: int(said.split()[1])]
        again = bytearray(len(copy))
        assert opened(copy, len(copy)) == opened(data, length)
        assert convert(copy, len(copy), again) == len(copy) and copy == again
    return said


def called(name, first, second, way, first_length, second_length, room):
    """What it writes of a call: the answer, and all bytes of the third buffer, or their digest."""
    third = bytearray(k % 251 for k in range(room))
    if way == CONVERTED:
        said = converted(first, first_length, third)
    else:
        one, two = [(first, second), (second, first), (first, first)][way]
        said = joined((one, first_length), (two, second_length), third)
    return "%-8s %s\n%s\n" % (name, said, third.hex() if room <= SHOWN else "digest %d" % mixed(0, third))


def written(pairs):
    """What the program writes."""
    out, first, second = "", bytearray(ROOM), bytearray(ROOM)
    for name, *buffers, calls in pairs:
        lent = []
        for buffer, (at, new, size) in zip((first, second), buffers):
            buffer[at : at + len(new)] = new
            lent.append(bytes(buffer[:size]))
        out += "".join(called(name, *lent, *call) for call in calls)
    return out.encode()


# ---- random pairs


def rooms(first, second):
    """Third buffers with just the room, one byte short, longer, and of length 0; where the pair is refused, one with room and of length 0."""
    try:
        length = join(first, len(first), second, len(second), bytearray(ROOM))
    except Refused:
        return [120, 0]
    return [length, length - 1, length + 9, 0]


def random_plots(rng, limit):
    """Plots for two sheets on a map, each for the first, for the second or for both, and then the same in both but for few."""
    most = rng.choice([12, 300, 2**32])
    for number in sorted(rng.sample(range(1, most), rng.choice([0, 1, 2, 4, 7]))):
        one = sheets.random_outline(rng, limit), rng.choice([0, sheets.random_fee(rng)])
        two = one if rng.random() < 0.97 else rng.choice([(one[0], sheets.random_fee(rng)), (sheets.random_outline(rng, limit), one[1])])
        which = rng.choice(["first", "second", "both"])
        yield number, one if which != "second" else None, two if which != "first" else None


def random_sheet(rng, limit, plots):
    """These plots by any record length whose map is as large as theirs."""
    heading = rng.randbytes(rng.choice([0, 0, 1, 7, 30]))
    size = rng.choice([size for size in MAPS if MAPS[size] >= limit])
    return laid(size, heading, *((number, outline, fee) for number, (outline, fee) in plots))


def random_pair(rng, name):
    """At times one of the sheets is any sheet, which may be spoilt and is no longer than 300 bytes, or a length is another."""
    limit = rng.choice([sheets.OLD_MAP, sheets.OLD_MAP, sheets.MAP])
    plots = list(random_plots(rng, limit))
    both = [random_sheet(rng, limit, [(number, found[k]) for number, *found in plots if found[k]]) for k in (0, 1)]
    if rng.random() < 0.1:
        both[rng.randrange(2)] = sheets.random_sheet(rng)[-300:]
    lengths = [len(data) if rng.random() < 0.97 else rng.randrange(len(data) + 2) for data in both]
    room = rng.choice(rooms(*both) + [rng.randrange(400)])
    calls = [(BOTH, *lengths, room), (TURNED, *lengths[::-1], room), (CONVERTED, lengths[0], 0, rng.choice([room, rng.randrange(300)]))]
    return name, (0, both[0], len(both[0])), (0, both[1], len(both[1])), calls


# ---- the files, and the program on random pairs


def tally(out):
    """How often each answer is given, with lengths taken as one."""
    said = [line.split()[1:3] for line in out.decode().split("\n")[:-1:2]]
    found = collections.Counter(word if word == "length" else "%s %s" % (word, number) for word, number in said)
    return ", ".join("%s: %d" % item for item in sorted(found.items()))


def write():
    from conversions import conversions  # these files stand on this one
    from join_pairs import pairs

    made = list(pairs()) + list(conversions())
    given, expected = read(made), written(made)
    for name, data in (("crates/join_cases/stdin", given), ("crates/join_cases/stdout", expected)):
        with open(name, "wb") as f:
            f.write(data)
        print(name, len(data), "bytes")
    print("%d pairs; %s" % (len(made), tally(expected)))


def attempt():
    rng = random.Random(1)
    made = [random_pair(rng, "r%d" % k) for k in range(4000)]
    expected = written(made)
    given = subprocess.run(["crates/join_cases/out/join_cases"], input=read(made), capture_output=True, check=True)
    for line, (got, want) in enumerate(itertools.zip_longest(given.stdout.split(b"\n"), expected.split(b"\n"))):
        if got != want:
            sys.exit("line %d: crates/join_cases/out/join_cases wrote %s and not %s" % (line + 1, got, want))
    print("%d pairs agree; %s" % (len(made), tally(expected)))


if __name__ == "__main__":
    if sys.argv[1:] == ["write"]:
        write()
    elif sys.argv[1:] == ["try"]:
        attempt()
    else:
        sys.exit(__doc__)
