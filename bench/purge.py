#!/usr/bin/env python3
"""purge.py PROGRAM PEER [REPEATS]

Races a built longhorn against the peer, a fast plain Rust program of the same work, on one script: 16 MiB, 249 snapshots with
10,000 writes of 4 KiB between them, all removed, and one purge, which folds 248 layers. A script has at most 16 streams, so the
writes stand in eight places. Both have to print the same. By turns, in time of the processor. Prints of the whole run the
milliseconds of both and the ratio, as medians with the least and the greatest; and what the purge adds to the same script
without it, as medians with the middle half, since the rest of a run takes more time than the purge.
"""
import json
import os
import random
import statistics
import struct
import subprocess
import sys
import tempfile

SIZE = 16 << 20
BLOCK = 4096
SNAPSHOTS = 249
# How often writes and snapshots follow each other, and how many writes there are each time.
TURNS = 8
WRITES = 1250
RUN = ['run', '--workers', 'one']


def write(seq, place, byte):
    """The frame that fills a block with a byte."""
    return struct.pack('<HIIqII', 0x1b01, seq, 1, place * BLOCK, BLOCK, BLOCK) + bytes([byte]) * BLOCK


def writes(chance):
    """The frames of one turn."""
    return b''.join(write(seq, chance.randrange(SIZE // BLOCK), chance.randrange(1, 256)) for seq in range(1, WRITES + 1))


def script(end):
    """A script of writes, snapshots and their removals, which ends with these commands."""
    chance = random.Random(1)
    names = ['n%d' % number for number in range(SNAPSHOTS)]
    streams, bodies = [], []
    for turn in range(TURNS):
        taken = names[turn * SNAPSHOTS // TURNS:(turn + 1) * SNAPSHOTS // TURNS]
        bodies.append(writes(chance))
        streams += [{'frames': len(bodies[-1])}, {'control': ['snapshot ' + name for name in taken]}]
    streams[-1]['control'] += ['remove ' + name for name in names] + end
    head = json.dumps({'volume': 'v', 'size': SIZE, 'replicas': 1, 'streams': streams}, separators=(',', ':'))
    return head.encode() + b'\n' + b''.join(bodies)


def printed(program, path):
    """What a run of a script prints."""
    with open(path, 'rb') as given:
        return subprocess.run([program, *RUN], stdin=given, stdout=subprocess.PIPE, check=True).stdout


def timed(program, path):
    """The milliseconds that a run of a script keeps a processor busy."""
    with open(path, 'rb') as given:
        run = subprocess.Popen([program, *RUN], stdin=given, stdout=subprocess.DEVNULL)
    _, status, usage = os.wait4(run.pid, 0)
    run.returncode = os.waitstatus_to_exitcode(status)
    if run.returncode != 0:
        sys.exit('%s ended with %d' % (program, run.returncode))
    return (usage.ru_utime + usage.ru_stime) * 1e3


def spread(values):
    """The median, with the least and the greatest."""
    return '%.2f (%.2f to %.2f)' % (statistics.median(values), min(values), max(values))


def middle(values):
    """The median, with the borders of the middle half."""
    low, median, high = statistics.quantiles(values, n=4)
    return '%.2f (%.2f to %.2f)' % (median, low, high)


def race(programs, paths, repeats):
    """Of each turn and program the milliseconds of each script. The programs take turns in going first."""
    turns = []
    for number in range(repeats):
        turn = [None, None]
        for which in ((0, 1), (1, 0))[number % 2]:
            turn[which] = [timed(programs[which], path) for path in paths]
        turns.append(turn)
    return turns


def main():
    programs, repeats = sys.argv[1:3], 5 * (int(sys.argv[3]) if len(sys.argv) > 3 else 5)
    with tempfile.TemporaryDirectory() as folder:
        paths = [os.path.join(folder, name) for name in ('with', 'without')]
        for path, end in zip(paths, (['purge'], [])):
            with open(path, 'wb') as file:
                file.write(script(end))
        seen, wanted = (printed(program, paths[0]) for program in programs)
        if seen != wanted:
            sys.exit('the two do not print the same')
        turns = race(programs, paths, repeats)
    whole = [[times[0] for times in turn] for turn in turns]
    print('%d layers folded, the whole run: %s ms, the peer: %s ms, ratio: %s'
          % (seen.count(b' mark folded '), *map(spread, zip(*whole)), spread([own / other for own, other in whole])))
    added = [[times[0] - times[1] for times in turn] for turn in turns]
    print('the purge adds: %s ms, the peer: %s ms' % tuple(map(middle, zip(*added))))


if __name__ == '__main__':
    main()
