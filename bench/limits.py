#!/usr/bin/env python3
"""limits.py PROGRAM

Runs a built longhorn on inputs at the limit of an input, 268,435,456 bytes, which are made while they are sent: one of exactly
that length is served, one with a byte more is refused at that place, and one without an end is refused there too.
"""
import struct
import subprocess
import sys

MOST = 268435456
MIB = 1048576


def line(count):
    return b'{"volume":"v","size":2097152,"replicas":1,"streams":[{"frames":%d}]}\n' % count


def frame(seq, data):
    return struct.pack('<HIIqII', 0x1b01, seq, 1, 0, len(data), len(data)) + data


def pieces(length):
    """A script of `length` bytes: writes of up to 1 MiB at the volume's start."""
    first = line(length - 69 - 7)
    assert len(first) == 76, len(first)
    yield first
    left = length - len(first)
    seq = 0
    while left > 0:
        size = min(MIB, left - 26)
        if 0 < left - 26 - size < 26:
            size -= 26
        seq += 1
        yield frame(seq, bytes(size))
        left -= 26 + size


def endless():
    while True:
        yield bytes(MIB)


def run(program, source):
    """The status and the note of a run on these pieces, whose output is thrown away."""
    run = subprocess.Popen([program, 'run'], stdin=subprocess.PIPE, stdout=subprocess.DEVNULL, stderr=subprocess.PIPE)
    sent = 0
    try:
        for piece in source:
            run.stdin.write(piece)
            sent += len(piece)
        run.stdin.close()
    except BrokenPipeError:
        pass
    note = run.stderr.read().decode().strip()
    return run.wait(), note, sent


def with_one_more(source):
    yield from source
    yield b'x'


def main():
    program = sys.argv[1]
    refused = (3, 'script %d input' % MOST)
    failed = 0
    for name, source, wanted in (
        ('as long as may be', pieces(MOST), (0, '')),
        ('a byte longer', with_one_more(pieces(MOST)), refused),
        ('without end', endless(), refused),
    ):
        status, note, sent = run(program, source)
        failed += (status, note) != wanted
        print('%-18s %10d bytes sent: status %d %s' % (name, sent, status, note))
    print('%d passed, %d failed' % (3 - failed, failed))
    sys.exit(failed != 0)


main()
