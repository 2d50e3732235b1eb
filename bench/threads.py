#!/usr/bin/env python3
"""threads.py PROGRAM PEER [REPEATS]

Times a run of a built longhorn by a worker for each stream against one by a single worker, and both against the peer, a fast
plain Rust program of the same work: eight streams, each with 2,500 reads and writes of 4 KiB at random in 8 MiB of its own, on
two replicas. By turns, in seconds of the clock, as medians with the least and the greatest. One by one both have to print the
same; side by side the two journals may differ, and the last lines, which tell what is left of the volume, may not.
"""
import json
import os
import random
import struct
import subprocess
import sys
import tempfile
import time

from purge import spread

MIB = 1 << 20
BLOCK = 4096
STREAMS = 8
CALLS = 2500
OWN = 8 * MIB
WORKERS = ('one', 'each')


def frame(seq, kind, offset, data=b''):
    """The frame of a read or a write of a block."""
    return struct.pack('<HIIqII', 0x1b01, seq, kind, offset, BLOCK, len(data)) + data


def stream(number):
    """The frames of a stream."""
    chance = random.Random(number)
    places = (number * OWN + chance.randrange(OWN // BLOCK) * BLOCK for _ in range(CALLS))
    return b''.join(frame(seq, 0, place) if chance.random() < 0.5 else frame(seq, 1, place, chance.randbytes(BLOCK))
                    for seq, place in enumerate(places, 1))


def keep_script(path):
    """Keeps the script."""
    bodies = [stream(number) for number in range(STREAMS)]
    head = json.dumps({'volume': 'v', 'size': STREAMS * OWN, 'replicas': 2, 'streams': [{'frames': len(body)} for body in bodies]},
                      separators=(',', ':'))
    with open(path, 'wb') as file:
        file.write(head.encode() + b'\n' + b''.join(bodies))


def words(program, workers):
    return [program, 'run', '--workers', workers]


def printed(program, workers, path):
    """What a run prints."""
    with open(path, 'rb') as given:
        return subprocess.run(words(program, workers), stdin=given, stdout=subprocess.PIPE, check=True).stdout


def timed(program, workers, path):
    """The seconds that a run takes."""
    with open(path, 'rb') as given:
        start = time.perf_counter()
        subprocess.run(words(program, workers), stdin=given, stdout=subprocess.DEVNULL, check=True)
        return time.perf_counter() - start


def ends_alike(texts):
    """Whether the same is left of the volume: the modes, the chains and the digests of the heads."""
    return len({text[text.index(b'\nmode '):] for text in texts}) == 1


def main():
    programs, repeats = sys.argv[1:3], int(sys.argv[3]) if len(sys.argv) > 3 else 11
    with tempfile.TemporaryDirectory() as folder:
        path = os.path.join(folder, 'script')
        keep_script(path)
        seen = [printed(program, workers, path) for workers in WORKERS for program in programs]
        if seen[0] != seen[1] or not ends_alike(seen):
            sys.exit('the two do not print the same')
        turns = [[[timed(program, workers, path) for program in programs[::turn % 2 * 2 - 1]][::turn % 2 * 2 - 1]
                  for workers in WORKERS] for turn in range(repeats)]
    for number, workers in enumerate(WORKERS):
        own, other = zip(*(turn[number] for turn in turns))
        print('%s: %s s, the peer: %s s, ratio: %s'
              % (workers, spread(own), spread(other), spread([a / b for a, b in zip(own, other)])))
    for number, whose in enumerate(('the program', 'the peer')):
        print('%s takes by a worker for each stream %s of its time by one' % (whose, spread([turn[1][number] / turn[0][number] for turn in turns])))


if __name__ == '__main__':
    main()
