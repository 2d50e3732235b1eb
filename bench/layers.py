#!/usr/bin/env python3
"""layers.py PROGRAM [REPEATS]

Times a built longhorn on scripts, each with and without the calls that are measured: a read of one byte whose block is in the
lowest of 1, 16 and 249 layers, the first of that block and each later one, and its ratio to one layer; and a revert, which makes a new head, on a volume of 1 GiB and on
one of 2 MiB; and a snapshot on two replicas of 1 GiB, and a removal, which carries as much. By turns, in time of the processor,
as medians with the least and the greatest. And the memory of one snapshot of 247, on both volumes, and of a purge that folds
them, where GNU time is there.
"""
import json
import os
import shutil
import statistics
import struct
import subprocess
import sys
import tempfile

PAGE = 2 << 20
MIB = 1 << 20
BLOCK = 4096
LAYERS = (1, 16, 249)
# The volume that is read, and how often each of its blocks is after the first time.
SIZE = 16 * MIB
READS = 12
REVERTS = 60_000
# As many as stand on a first one below the head.
SNAPSHOTS = 247
VOLUMES = ((512 * PAGE, '1 GiB'), (PAGE, '2 MiB'))
GNU_TIME = shutil.which('time')
# One stream after another.
RUN = ['run', '--workers', 'one']


def frame(seq, kind, offset, size, data=b''):
    return struct.pack('<HIIqII', 0x1b01, seq, kind, offset, size, len(data)) + data


def script(size, streams, replicas):
    """A script of these streams: a list of commands, or the bytes of frames."""
    heads = [{'frames': len(stream)} if isinstance(stream, bytes) else {'control': stream} for stream in streams]
    head = json.dumps({'volume': 'v', 'size': size, 'replicas': replicas, 'streams': heads}, separators=(',', ':'))
    return head.encode() + b'\n' + b''.join(stream for stream in streams if isinstance(stream, bytes))


def snapshots(count):
    return ['snapshot n%d' % number for number in range(count)]


def filled(size):
    """The frames that fill so much of a volume."""
    return b''.join(frame(number, 1, number * MIB, MIB, b'a' * MIB) for number in range(size // MIB))


def layered(layers):
    """The streams that fill a volume and put so many layers less one on top of what was written. A revert makes the head anew, so
    that it is not known from the writes where a block is."""
    again = ['revert n%d' % (layers - 2)] if layers > 1 else []
    return [filled(SIZE), snapshots(layers - 1) + again]


def removals(count):
    return ['remove n%d' % number for number in range(count)]


def reads(rounds):
    blocks = SIZE // BLOCK
    return b''.join(frame(number, 0, number % blocks * BLOCK, 1) for number in range(rounds * blocks))


class Bench:
    def __init__(self, program, folder, repeats):
        self.program, self.folder, self.repeats = program, folder, repeats

    def kept(self, name, given):
        path = os.path.join(self.folder, name)
        with open(path, 'wb') as file:
            file.write(given)
        return path

    def timed(self, path):
        """The seconds that a run of a script keeps a processor busy."""
        with open(path, 'rb') as given:
            run = subprocess.Popen([self.program, *RUN], stdin=given, stdout=subprocess.DEVNULL)
        _, status, usage = os.wait4(run.pid, 0)
        run.returncode = os.waitstatus_to_exitcode(status)
        if run.returncode != 0:
            sys.exit('%s ended with %d' % (self.program, run.returncode))
        return usage.ru_utime + usage.ru_stime

    def peak(self, path):
        """The most memory that a run of a script has, in KiB."""
        with open(path, 'rb') as given:
            run = subprocess.run([GNU_TIME, '-f', '%M', self.program, *RUN], stdin=given,
                                 stdout=subprocess.DEVNULL, stderr=subprocess.PIPE, text=True, check=True)
        return int(run.stderr.split()[-1])

    def added(self, measure, size, streams, more, count, replicas=1, last=()):
        """What each of the calls that stand in a script besides adds to a run of it, before its last streams, at each turn."""
        without = self.kept('without', script(size, [*streams, *last], replicas))
        besides = self.kept('with', script(size, [*streams, more, *last], replicas))
        return [(measure(besides) - measure(without)) / count for _ in range(self.repeats)]


def spread(values):
    """The median, with the least and the greatest."""
    return '%.2f (%.2f to %.2f)' % (statistics.median(values), min(values), max(values))


def main():
    program, repeats = sys.argv[1], int(sys.argv[2]) if len(sys.argv) > 2 else 5
    with tempfile.TemporaryDirectory() as folder:
        bench = Bench(program, folder, repeats)
        # No head is digested, which would read each block too.
        first, unread = [reads(1)], [['fail r0']]
        for which, before, rounds in (('first', [], 1), ('later', first, READS)):
            more, one = reads(rounds), None
            for layers in LAYERS:
                taken = bench.added(bench.timed, SIZE, layered(layers) + before, more, rounds * SIZE // BLOCK, 1, unread)
                one = one or statistics.median(taken)
                print('a %s read from the lowest of %d: %s nanoseconds, against one layer: %s'
                      % (which, layers, spread([time * 1e9 for time in taken]), spread([time / one for time in taken])))
        failed = [['fail r0', 'fail r1']]
        layers = [snapshots(SNAPSHOTS)]
        for what, written in (('nothing', []), ('64 MiB', [filled(64 * MIB)])):
            taken = bench.added(bench.timed, 512 * PAGE, written, layers[0], SNAPSHOTS, 2, failed)
            carried = bench.added(bench.timed, 512 * PAGE, written + layers, removals(SNAPSHOTS), SNAPSHOTS, 2, failed)
            print('a snapshot on two replicas of 1 GiB, %s written: %s microseconds, a removal: %s'
                  % (what, spread([time * 1e6 for time in taken]), spread([time * 1e6 for time in carried])))
        if GNU_TIME is not None:
            taken = bench.added(bench.peak, 512 * PAGE, written + layers + [removals(SNAPSHOTS)], ['purge'], 1, 2, failed)
            print('a purge of %d layers: %s KiB' % (SNAPSHOTS, spread(taken)))
        first = [['snapshot s']]
        for size, volume in VOLUMES:
            taken = bench.added(bench.timed, size, first, ['revert s'] * REVERTS, REVERTS)
            print('a new head of %s: %s microseconds' % (volume, spread([time * 1e6 for time in taken])))
            if GNU_TIME is not None:
                taken = bench.added(bench.peak, size, first, snapshots(SNAPSHOTS), SNAPSHOTS)
                print('a snapshot of %s: %s KiB' % (volume, spread(taken)))


main()
