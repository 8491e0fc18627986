#!/usr/bin/env python3
"""The program `listing` on inputs and outputs that fail, pause, end early or come in pieces.

    python3 tests/listing.py [PROGRAM]    runs crates/listing/out/listing, as `rt run` leaves it in crates/listing, or PROGRAM

Each case holds standard output, standard error and the status to what is expected, byte for byte. The sheets and their listings are
those of tests/sheets.py, and those of tests/old_sheets/ with the listings kept there. Run it from the top of the repository, on Linux. It
needs Python 3.9 or newer and nothing else.
"""
import fcntl
import functools
import os
import resource
import signal
import socket
import struct
import subprocess
import sys
import time

from old import LISTINGS, OLD_SHEETS, SAMPLE_24, SAMPLE_26
from sheets import SAMPLE, county, laid, listing, numbered, sheet

PROGRAM = sys.argv[1] if len(sys.argv) > 1 else "crates/listing/out/listing"
UNREAD = b"listing: the input could not be read\n"
UNWRITTEN = b"listing: the listing could not be written\n"
CASES = []


# ---- sheets


NESTED = sheet(SAMPLE, *numbered(3))  # its heading is itself a sheet
LARGEST = sheet(b"sixteen letters.", *numbered(*range(1, 1425), outline=county))  # 65,536 bytes, by 46 a record
OLD_LARGEST = laid(26, b"", *numbered(*range(1, 2521)))  # as many bytes, by 26 a record
FULLEST = laid(24, b"", *numbered(*range(1, 2731)))  # as many, by 24 a record: the most plots


@functools.lru_cache()
def listed(data):
    """What the program has to write for an input that can be read to its end."""
    return (listing(data, len(data)).encode(), b"", 0)


# ---- runs


def run(stdin, stdout=subprocess.PIPE, stderr=subprocess.PIPE, meanwhile=None, arguments=(), **options):
    """What the program writes to standard output and standard error, and its status."""
    program = subprocess.Popen([PROGRAM, *arguments], stdin=stdin, stdout=stdout, stderr=stderr, **options)
    try:
        if meanwhile:
            meanwhile(program)
        out, err = program.communicate(timeout=20)
    except (OSError, subprocess.TimeoutExpired):  # the program is gone too early, or hangs
        program.kill()
        out, err = program.communicate()
    return (out, err, program.returncode)


def pipe(data, blocking):
    """The two ends of a pipe that holds some bytes. A read of more, while the writing end is open, waits or fails."""
    read_end, write_end = os.pipe()
    fcntl.fcntl(write_end, 1031, 1 << 20)  # F_SETPIPE_SZ: room for more than the largest sheet
    os.write(write_end, data)
    os.set_blocking(read_end, blocking)
    return read_end, write_end


def from_pipe(data, blocking, ended, **options):
    read_end, write_end = pipe(data, blocking)
    if ended:
        os.close(write_end)
    given = run(read_end, **options)
    os.close(read_end)
    if not ended:
        os.close(write_end)
    return given


def state(program):
    with open("/proc/%d/stat" % program.pid) as f:
        return f.read().rsplit(")", 1)[1].split()[0]


def wait_for(program, letter):
    """Waits until the program waits (S) or is stopped (T), has ended (Z), or four seconds have passed."""
    for _ in range(2000):
        if state(program) in (letter, "Z"):
            return
        time.sleep(0.002)


def interrupt(program):
    """Stops the program where it waits, and lets it go on. A call on a socket with a time limit is then interrupted."""
    wait_for(program, "S")
    program.send_signal(signal.SIGSTOP)
    wait_for(program, "T")
    program.send_signal(signal.SIGCONT)
    wait_for(program, "S")


def limited(option, seconds):
    """Two joined sockets; calls on the first have a time limit."""
    first, second = socket.socketpair()
    first.setsockopt(socket.SOL_SOCKET, option, struct.pack("ll", int(seconds), int(seconds % 1 * 1000000)))
    return first, second


def case(function):
    CASES.append(function)
    return function


# ---- inputs that can be read


@case
def sample():
    with open("crates/listing/stdin", "rb") as data, open("crates/listing/stdout", "rb") as text:
        yield run(data), (text.read(), b"", 0)


@case
def arguments_are_not_read():
    yield from_pipe(SAMPLE, True, True, arguments=["--help", "no_such_file"]), listed(SAMPLE)


@case
def nothing_and_a_part():
    yield run(subprocess.DEVNULL), (b"refused 8\n", b"", 0)
    yield from_pipe(SAMPLE[:-1], True, True), (b"refused 9\n", b"", 0)
    yield from_pipe(SAMPLE[-16:], True, True), (b"refused 10\n", b"", 0)


@case
def nested_sheet():
    assert listed(NESTED)[0] != listed(SAMPLE)[0]
    yield from_pipe(NESTED, True, True), listed(NESTED)


@case
def records_without_fee_rows():
    assert listed(SAMPLE_24)[0] != listed(SAMPLE)[0] and listed(SAMPLE_24)[0].count(b" 0\n") == 3
    yield from_pipe(SAMPLE_24, True, True), listed(SAMPLE_24)
    yield from_pipe(SAMPLE + SAMPLE_24, True, True), listed(SAMPLE_24)


@case
def old_sheets():
    """They are listed as kept beside them; the sample by 26 as the sample by 46 is."""
    assert listed(SAMPLE_26) == listed(SAMPLE)
    for name, data in OLD_SHEETS.items():
        yield from_pipe(data, True, True), (LISTINGS[name].encode(), b"", 0)


@case
def pause_that_ends():
    """The writer pauses after a whole sheet, and then goes on, or ends."""
    for data in NESTED, SAMPLE:
        read_end, write_end = pipe(SAMPLE, True)

        def go_on(program):
            wait_for(program, "S")
            time.sleep(0.1)
            os.write(write_end, data[len(SAMPLE) :])
            os.close(write_end)

        yield run(read_end, meanwhile=go_on), listed(data)
        os.close(read_end)


@case
def byte_by_byte():
    """Each read gives one byte, and then the end."""
    for data in NESTED, SAMPLE[:-1]:
        ours, theirs = socket.socketpair(socket.AF_UNIX, socket.SOCK_SEQPACKET)

        def send(program):
            theirs.close()
            for byte in data:
                ours.send(bytes([byte]))
            ours.close()

        yield run(theirs, meanwhile=send), listed(data)


@case
def longest_and_longer():
    for longest in LARGEST, OLD_LARGEST, FULLEST:
        longer = b"x" + longest
        assert len(longest) == 65536 and listed(longest)[0].startswith(b"plot") and listed(longer)[0] == b"refused 8\n"
        yield from_pipe(longest, True, True), listed(longest)
        yield from_pipe(longer, True, True), listed(longer)
        yield from_pipe(longer + longest, True, True), listed(longer)


@case
def interrupted_read():
    theirs, ours = limited(socket.SO_RCVTIMEO, 15)

    def stop_and_send(program):
        theirs.close()
        for part in SAMPLE, NESTED[len(SAMPLE) :]:
            interrupt(program)
            ours.sendall(part)
        interrupt(program)
        ours.close()

    yield run(theirs, meanwhile=stop_and_send), listed(NESTED)


# ---- inputs that cannot


@case
def directory():
    opened = os.open(".", os.O_RDONLY)
    yield run(opened), (b"", UNREAD, 0)
    os.close(opened)


@case
def closed_input():
    yield run(None, preexec_fn=lambda: os.close(0)), (b"", UNREAD, 0)


@case
def write_only_input():
    opened = os.open(os.devnull, os.O_WRONLY)
    yield run(opened), (b"", UNREAD, 0)
    os.close(opened)


@case
def no_bytes_yet():
    """A pipe that does not wait, with nothing, a part, a sheet, or the longest sheet in it, and a writer that may go on."""
    for data in b"", SAMPLE[:-1], SAMPLE, NESTED, LARGEST:
        yield from_pipe(data, False, False), (b"", UNREAD, 0)
    yield from_pipe(b"x" + LARGEST, False, False), (b"refused 8\n", b"", 0)  # longer, whatever comes


@case
def no_bytes_in_time():
    theirs, ours = limited(socket.SO_RCVTIMEO, 0.2)
    ours.sendall(SAMPLE)
    yield run(theirs), (b"", UNREAD, 0)


@case
def broken_between_the_two():
    """A connection that gives the heading, itself a sheet, and then breaks: the peer goes with bytes that it never read."""
    theirs, ours = socket.socketpair()
    theirs.sendall(b"x")
    ours.sendall(SAMPLE)
    ours.close()
    yield run(theirs), (b"", UNREAD, 0)


# ---- outputs that take all, a part or nothing


@case
def slow_reader():
    read_end, write_end = os.pipe()
    got = []

    def drain(program):
        os.close(write_end)
        wait_for(program, "S")
        while True:
            part = os.read(read_end, 1000)
            if not part:
                break
            got.append(part)

    text = listed(LARGEST)[0]
    out, err, status = from_pipe(LARGEST, True, True, stdout=write_end, meanwhile=drain)
    os.close(read_end)
    yield (b"".join(got), err, status), (text, b"", 0)


@case
def full_device():
    for data in SAMPLE, b"", LARGEST:
        with open("/dev/full", "wb") as full:
            yield from_pipe(data, True, True, stdout=full), (None, UNWRITTEN, 0)


@case
def closed_output():
    for data in SAMPLE, b"", LARGEST:
        yield from_pipe(data, True, True, stdout=None, preexec_fn=lambda: os.close(1)), (None, UNWRITTEN, 0)


@case
def read_only_output():
    with open(os.devnull, "rb") as opened:
        yield from_pipe(SAMPLE, True, True, stdout=opened), (None, UNWRITTEN, 0)


@case
def full_pipe():
    """A pipe that does not wait: with no room, and with room for a part of the listing."""
    for room in 0, 8192:
        read_end, write_end = os.pipe()
        os.set_blocking(write_end, False)
        filled = 0
        for size in 4096, 1:
            try:
                while True:
                    filled += os.write(write_end, b"." * size)
            except BlockingIOError:
                pass
        filled -= len(os.read(read_end, room))
        out, err, status = from_pipe(LARGEST, True, True, stdout=write_end)
        os.close(write_end)
        with open(read_end, "rb") as taken:
            out = taken.read()[filled:]
        yield (out, err, status), (listed(LARGEST)[0][:room], UNWRITTEN, 0)


@case
def limited_file():
    """A file that may grow to 1,000 bytes."""

    def limit():
        resource.setrlimit(resource.RLIMIT_FSIZE, (1000, 1000))

    file = os.memfd_create("listing")
    out, err, status = from_pipe(LARGEST, True, True, stdout=file, preexec_fn=limit, restore_signals=False)
    yield (os.pread(file, 100000, 0), err, status), (listed(LARGEST)[0][:1000], UNWRITTEN, 0)
    os.close(file)


@case
def pipe_that_nobody_reads():
    """The program ignores SIGPIPE, whatever it was started with, and the write fails."""
    for restored in True, False:
        read_end, write_end = os.pipe()
        os.close(read_end)
        yield from_pipe(SAMPLE, True, True, stdout=write_end, restore_signals=restored), (None, UNWRITTEN, 0)
        os.close(write_end)


@case
def interrupted_write():
    theirs, ours = limited(socket.SO_SNDTIMEO, 15)
    theirs.setblocking(False)
    filled = 0
    for size in 4096, 1:
        try:
            while True:
                filled += theirs.send(b"." * size)
        except BlockingIOError:
            pass
    os.set_blocking(theirs.fileno(), True)
    got = []

    def stop_and_take(program):
        theirs.close()
        interrupt(program)
        while True:
            part = ours.recv(5000)
            if not part:
                break
            got.append(part)

    out, err, status = from_pipe(LARGEST, True, True, stdout=theirs, meanwhile=stop_and_take)
    yield (b"".join(got)[filled:], err, status), listed(LARGEST)


# ---- standard error fails too


@case
def closed_error():
    yield run(None, stderr=None, preexec_fn=lambda: (os.close(0), os.close(2))), (b"", None, 0)
    with open("/dev/full", "wb") as full:
        yield from_pipe(SAMPLE, True, True, stdout=full, stderr=full), (None, None, 0)


def main():
    count, failed = 0, 0
    for function in CASES:
        for k, (given, expected) in enumerate(function()):
            count += 1
            if given != expected:
                failed += 1
                print("%s, %d: expected %s but had %s" % (function.__name__, k + 1, brief(expected), brief(given)))
    print("%d runs as expected, %d not" % (count - failed, failed))
    sys.exit(failed != 0)


def brief(what):
    return tuple(part[:60] + b".. %d bytes" % len(part) if isinstance(part, bytes) and len(part) > 90 else part for part in what)


if __name__ == "__main__":
    main()
