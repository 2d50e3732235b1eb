#!/usr/bin/env python3
"""folders.py PROGRAM [PEER] [REPEATS]

Times runs of a built longhorn that save replicas and that open them, by the clock and with all that they flush, in folders in
memory where there is /dev/shm. H is 64 MiB, all written, with a snapshot, on two replicas, whose heads are digested; L is 1 GiB
with 66 blocks in three layers, on a replica that fails at the end, so that nothing is digested. Each is raced against the peer, a
fast plain Rust program of the same work, where one is named; what both print has to be the same. Then three blocks of 1 GiB are
saved and opened against three blocks of 2 MiB, by the program alone. By turns, each time in an empty folder or one that was saved
by the same program, medians with the least and the greatest; and the most memory that a run has, in MiB, where it is more than
this script's own.
"""
import hashlib
import json
import os
import shutil
import statistics
import struct
import subprocess
import sys
import tempfile
import time

MIB = 1 << 20
GIB = 1 << 30
BLOCK = 4096
MEMORY = '/dev/shm'
RUN = ['run', '--workers', 'one']


def write(seq, offset, content):
    """The frame of a write."""
    return struct.pack('<HIIqII', 0x1b01, seq, 1, offset, len(content), len(content)) + content


def read(seq, offset):
    """The frame of a read of a block."""
    return struct.pack('<HIIqII', 0x1b01, seq, 0, offset, BLOCK, 0)


def filled(number):
    """A block of one byte."""
    return bytes([1 + number * 7 % 255]) * BLOCK


def keep(path, size, replicas, members, streams):
    """Keeps a script with these members, of streams that are lists of commands, or what gives frames one by one, so that this stays
    small."""
    parts = [{'control': stream} if isinstance(stream, list) else {'frames': sum(map(len, stream()))} for stream in streams]
    head = json.dumps({'volume': 'v', 'size': size, 'replicas': replicas, **members, 'streams': parts}, separators=(',', ':'))
    with open(path, 'wb') as file:
        file.write(head.encode() + b'\n')
        for stream in streams:
            file.writelines(() if isinstance(stream, list) else stream())
    return path


def whole(top):
    """H: the paths of the script that saves 64 MiB, and of the one that opens them."""
    def frames():
        for place in range(64):
            yield write(place, place * MIB, b''.join(map(filled, range(place * 256, place * 256 + 256))))
    return keep(os.path.join(top, 'H-save'), 64 * MIB, 2, {'save': True}, [frames, ['snapshot a']]), \
        keep(os.path.join(top, 'H-open'), 64 * MIB, 2, {'open': True}, [['status']])


def sparse(path, size, spots, names):
    """The paths, which begin so, of a script that saves blocks at these spots, by turns in layers under the snapshots of these names
    and in the head; of one that does it and fails its replica; and of one that opens them, reads them and fails it."""
    def written(turn):
        return lambda: (write(number, spots[number], filled(number)) for number in range(turn, len(spots), len(names) + 1))

    def reads():
        return (read(number, spot) for number, spot in enumerate(spots))
    streams = [written(0)]
    for turn, name in enumerate(names, 1):
        streams += [['snapshot ' + name], written(turn)]
    return keep(path + '-saved', size, 1, {'save': True}, streams), \
        keep(path + '-save', size, 1, {'save': True}, [*streams, ['fail r0']]), \
        keep(path + '-open', size, 1, {'open': True}, [reads, ['fail r0']])


class Race:
    """Runs of programs in rooms of their own below one folder."""

    def __init__(self, top):
        self.top = top

    def timed(self, program, path, room):
        """The seconds that a run takes, the most MiB that it has, and a digest of what it prints."""
        with open(path, 'rb') as source, open(os.path.join(self.top, 'printed'), 'w+b') as sink:
            start = time.perf_counter()
            run = subprocess.Popen([program, *RUN], stdin=source, stdout=sink, cwd=room)
            _, status, usage = os.wait4(run.pid, 0)
            seconds = time.perf_counter() - start
            run.returncode = os.waitstatus_to_exitcode(status)
            if run.returncode != 0:
                sys.exit('%s ended with %d' % (program, run.returncode))
            sink.seek(0)
            return seconds, usage.ru_maxrss / 1024, hashlib.file_digest(sink, 'sha256').digest()

    def turn(self, program, saving, opening):
        """One run that saves into an empty folder, or one that opens what was saved there before."""
        room = os.path.join(self.top, 'room')
        shutil.rmtree(room, ignore_errors=True)
        os.mkdir(room)
        told = self.timed(program, saving, room)
        return self.timed(program, opening, room) if opening else told

    def race(self, sides, repeats):
        """What each side takes, turn by turn. They take turns in going first."""
        turns = []
        for number in range(repeats):
            turn = [None] * len(sides)
            for which in range(len(sides))[::1 if number % 2 else -1]:
                turn[which] = self.turn(*sides[which])
            turns.append(turn)
        return turns


def spread(values, form):
    """The median of some values, with the least and the greatest."""
    return '%s (%s to %s)' % tuple(form % value for value in (statistics.median(values), min(values), max(values)))


def tell(name, whose, turns):
    """Prints of each side its time and its most memory, and of two the ratio."""
    for which, who in enumerate(whose[:len(turns[0])]):
        print('%s, %s: %s s; most memory %.1f MiB' % (name, who, spread([turn[which][0] for turn in turns], '%.4f'),
                                                      max(turn[which][1] for turn in turns)))
    if len(turns[0]) == 2:
        print('%s: %s of the other\'s time' % (name, spread([own[0] / other[0] for own, other in turns], '%.2f')))


def main():
    words = sys.argv[1:]
    repeats = int(words.pop()) if words[-1].isdigit() else 7
    programs = [os.path.abspath(path) for path in words]
    spots = [turn * 16 * MIB + 5 * BLOCK for turn in range(64)] + [0, GIB - BLOCK]
    with tempfile.TemporaryDirectory(dir=MEMORY if os.access(MEMORY, os.W_OK) else None) as top:
        runs = Race(top)
        save, opened = whole(top)
        saved, save_bare, opened_bare = sparse(os.path.join(top, 'L'), GIB, spots, ['a', 'b'])
        for name, *pair in (('H save', save, None), ('H open', save, opened), ('L save', save_bare, None), ('L open', saved, opened_bare)):
            turns = runs.race([(program, *pair) for program in programs], repeats)
            if any(side[2] != turn[0][2] for turn in turns for side in turn):
                sys.exit('%s: the two do not print the same' % name)
            tell(name, ('the program', 'the peer'), turns)
        three = [sparse(os.path.join(top, '%d' % size), size, [0, 5 * BLOCK, size - BLOCK], []) for size in (GIB, 2 * MIB)]
        for name, pairs in (('save', [(save, None) for _, save, _ in three]), ('open', [(saved, opened) for saved, _, opened in three])):
            turns = runs.race([(programs[0], *pair) for pair in pairs], 3 * repeats)
            tell('three blocks, ' + name, ('of 1 GiB', 'of 2 MiB'), turns)


if __name__ == '__main__':
    main()
