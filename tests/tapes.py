#!/usr/bin/env python3
"""The surveyor's tapes, and what is answered to each. enclosing.py works the answers out, apart from the crates; tape_blocks.py has the tapes.

    python3 tests/tapes.py write    writes stdin and stdout of crates/tape_cases
    python3 tests/tapes.py try      runs crates/tape_cases/out/tape_cases, as `rt run` leaves it in crates/tape_cases, on 20,000 random tapes

Run it from the top of the repository. It needs Python 3.9 or newer and nothing else.
"""
import itertools
import random
import struct
import subprocess
import sys

from cells import LIMIT
from enclosing import corners, edge, enclose, in_metres
from sheets import Refused
from tape_blocks import AFAR, SPECIALS, blocks, number, up

ROOM = 8192

# ---- what the program reads and writes


def words(*numbers):
    return struct.pack("<%dQ" % len(numbers), *numbers)


def read(blocks):
    """What the program reads."""
    out = words(len(blocks))
    for name, shown, tapes in blocks:
        out += b"%-8s" % name.encode() + words(min(shown, len(tapes)), len(tapes))
        for tape in tapes:
            assert len(tape) <= ROOM
            out += words(len(tape)) + struct.pack("<%dd" % len(tape), *tape)
    return out


def mixed(digest, numbers):
    for n in numbers:
        digest = (digest * 69069 + n) % 2**32
    return digest


def written(blocks):
    """What the program writes. The corners of each octagon give the same octagon, and so its numbers are in the digest twice."""
    out = ""
    for name, shown, tapes in blocks:
        digest = 0
        for k, tape in enumerate(tapes):
            try:
                bounds = enclose(tape)
                text = "octagon" + "".join(" %d" % c for c in bounds)
                assert enclose(in_metres(corners(bounds))) == bounds
                digest = mixed(digest, 2 * ([0] + [n for c in bounds for n in (c < 0, abs(c))]))
            except Refused as refusal:
                text = "refused %d" % refusal.args[0]
                digest = mixed(digest, refusal.args)
            if k < shown:
                out += "%-8s %s\n" % (name, text)
        out += "%-8s digest %d\n" % (name, digest)
    return out.encode()


def write():
    made = list(blocks())
    for name, data in (("crates/tape_cases/stdin", read(made)), ("crates/tape_cases/stdout", written(made))):
        with open(name, "wb") as f:
            f.write(data)
        print(name, len(data), "bytes")


# ---- random tapes


def random_number(rng):
    kind = rng.randrange(80)
    if kind < 2:
        return rng.choice(SPECIALS + AFAR) if kind else number(rng.getrandbits(64))
    if kind < 40:
        return up(float(edge(rng.randint(-LIMIT, LIMIT))), rng.randint(-2, 2))
    return rng.uniform(-500000.2, 500000.2) if kind < 60 else rng.uniform(-3, 3)


def random_tape(rng):
    return [random_number(rng) for _ in range(rng.choice([0, 1, 2, 2, 2, 4, 7, 12, 60]))]


def attempt():
    rng = random.Random(1)
    made = [("r%d" % k, 10, [random_tape(rng) for _ in range(1000)]) for k in range(20)]
    given = subprocess.run(["crates/tape_cases/out/tape_cases"], input=read(made), capture_output=True, check=True)
    for line, (got, want) in enumerate(itertools.zip_longest(given.stdout.split(b"\n"), written(made).split(b"\n"))):
        if got != want:
            sys.exit("line %d: crates/tape_cases/out/tape_cases wrote %s and not %s" % (line + 1, got, want))
    print("20000 tapes agree")


if __name__ == "__main__":
    if sys.argv[1:] == ["write"]:
        write()
    elif sys.argv[1:] == ["try"]:
        attempt()
    else:
        sys.exit(__doc__)
