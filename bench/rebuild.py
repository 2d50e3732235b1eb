#!/usr/bin/env python3
"""rebuild.py PROGRAM PEER [REPEATS]

Times what a rebuild adds to a run of a built longhorn: a script with an `add` of the second of two replicas, and the same script
without it. At the end both replicas fail, so that no head is digested. First 64 MiB, all written, raced against the peer, a fast
plain Rust program of the same work; both have to print the same. Then 64 MiB of a volume of 1 GiB, and one block in each of 32
pages of volumes of 64 MiB and of 1 GiB, for the program alone. By turns, in time of the processor, as medians with the middle
half. And the most memory that each run has, in MiB.
"""
import json
import os
import struct
import subprocess
import sys
import tempfile

from purge import RUN, middle, printed

MIB = 1 << 20
BLOCK = 4096
PAGE = 512 * BLOCK
PAGES = 32
# What is written, in a volume of which size; the first is raced against the peer.
INPUTS = (('64 MiB of 64 MiB', 64, True), ('64 MiB of 1 GiB', 1024, True),
          ('a block a page, 64 MiB', 64, False), ('a block a page, 1 GiB', 1024, False))


def write(seq, offset, data):
    """The frame of a write."""
    return struct.pack('<HIIqII', 0x1b01, seq, 1, offset, len(data), len(data)) + data


def frames(whole):
    """Writes to 32 pages: of all their blocks, or of their first. They come one by one, so that this program stays small."""
    if whole:
        for place in range(PAGES * PAGE // MIB):
            yield write(place, place * MIB, bytes([place + 1]) * MIB)
    else:
        for page in range(PAGES):
            yield write(page, page * PAGE, bytes([page + 1]) * BLOCK)


def keep_script(path, mib, whole, added):
    """Keeps a script of these writes, and of a replica that fails and is added again, or not."""
    streams = [{'frames': sum(map(len, frames(whole)))}, {'control': ['fail r1'] + ['add r1'] * added},
               {'control': ['fail r0', 'fail r1']}]
    head = json.dumps({'volume': 'v', 'size': mib * MIB, 'replicas': 2, 'streams': streams}, separators=(',', ':'))
    with open(path, 'wb') as file:
        file.write(head.encode() + b'\n')
        file.writelines(frames(whole))


def timed(program, path):
    """How many milliseconds a run of a script keeps a processor busy, and the most MiB that it has."""
    with open(path, 'rb') as given:
        run = subprocess.Popen([program, *RUN], stdin=given, stdout=subprocess.DEVNULL)
    _, status, usage = os.wait4(run.pid, 0)
    run.returncode = os.waitstatus_to_exitcode(status)
    if run.returncode != 0:
        sys.exit('%s ended with %d' % (program, run.returncode))
    return (usage.ru_utime + usage.ru_stime) * 1e3, usage.ru_maxrss / 1024


def race(programs, paths, repeats):
    """Of each turn and program what each script takes. The programs take turns in going first."""
    turns = []
    for number in range(repeats):
        turn = [None] * len(programs)
        for which in range(len(programs))[::1 if number % 2 else -1]:
            turn[which] = [timed(programs[which], path) for path in paths]
        turns.append(turn)
    return turns


def tell(name, turns):
    """Prints of each program what the add adds, and its most memory; and of two the ratio of the whole runs."""
    for which, whose in enumerate(('the program', 'the peer')[:len(turns[0])]):
        (with_add, without) = zip(*(turn[which] for turn in turns))
        added = [one[0] - other[0] for one, other in zip(with_add, without)]
        print('%s, %s: the add adds %s ms to %s; most memory %.1f MiB, and %.1f without it'
              % (name, whose, middle(added), middle([one[0] for one in without]),
                 max(one[1] for one in with_add), max(one[1] for one in without)))
    if len(turns[0]) == 2:
        print('%s: the whole run takes %s of the peer\'s time' % (name, middle([own[0][0] / other[0][0] for own, other in turns])))


def main():
    programs, repeats = sys.argv[1:3], 4 * (int(sys.argv[3]) if len(sys.argv) > 3 else 5)
    with tempfile.TemporaryDirectory() as folder:
        for number, (name, mib, whole) in enumerate(INPUTS):
            paths = [os.path.join(folder, '%d-%d' % (number, added)) for added in (1, 0)]
            for path, added in zip(paths, (1, 0)):
                keep_script(path, mib, whole, added)
            raced = programs if number == 0 else programs[:1]
            seen = [printed(program, paths[0]) for program in raced]
            if any(b'mark promoted r1' not in text for text in seen) or seen[0] != seen[-1]:
                sys.exit('%s: no rebuild, or the two do not print the same' % name)
            tell(name, race(raced, paths, repeats))


if __name__ == '__main__':
    main()
