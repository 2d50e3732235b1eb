#!/usr/bin/env python3
"""Walks through the memory of the built program: each allocation of five runs is refused once, the first, the second and so on."""
import argparse
import os
import shutil
import subprocess
import sys
import tempfile
from collections import Counter
from typing import NamedTuple

import folder
import script
import store

TOP = os.path.dirname(os.path.dirname(os.path.abspath(__file__)))
PROGRAM = os.path.join(TOP, 'crates', 'volume_cli', 'out', 'volume_cli')
SOURCE = os.path.join(TOP, 'tools', 'refuse_memory.c')
HELP = '''
The program is not made anew: a library is loaded before it, compiled by `cc` from refuse_memory.c, which refuses its Nth call of
malloc or realloc. N goes from 1 on, by one, until a run asks for less. Of each run it is judged that

  its status is 8, with the note `no memory`, or that of a run in which nothing is refused, with all of its output and no note;
  its output is a beginning of that output;
  each replica's folder is as it was, or as it would be, or is not clean and says so;
  each backup that is in the store can be restored, as the disk that it would be.

A line is printed for each run, with how many N there were, and one for each that is odd. The status is 1 where one is. It takes
two minutes, and is no part of the gate.
'''
SIZE = 2 << 20
NO_MEMORY = 8
SECONDS = 60
# What a folder is told to be that is neither as it was nor as it would be.
TOLD = ('unclean Dirty', 'damaged volume.meta 0')

FRAMES = '''volume v 4M
replicas 2
stream frames
  write 100 random seed 1 20000
  read 0 30000
  write 2097100 fill 61 100
  read 2097000 300
  read 4194303 2
  ping
  frame 7 0 0
stream frames
  write 12288 random seed 2 4096
  read 12000 5000
  close
'''
REBUILD = '''volume v 4M
replicas 3
fault worker 2 replica 2 carries 3
stream frames
  write 0 random seed 1 20480
  write 2097152 fill 61 4096
stream commands
  snapshot a
  snapshot b
stream frames
  write 4096 random seed 2 8192
stream commands
  status
  fail r1
  add r1
  snapshot c
  remove a
  remove b
  purge
  revert c
  add r2
  snapshot c
  remove d
  status
stream frames
  read 0 20480
'''
SAVED = '''volume v 2M
replicas 3
save
now "first"
stream frames
  write 0 random seed 1 12288
stream commands
  snapshot a
  fail r2
stream frames
  write 4096 random seed 2 4096
'''
OPENED = '''volume v 2M
replicas 3
open
save
now "second"
stream frames
  read 0 16384
  write 8192 random seed 3 8192
stream commands
  snapshot b
  add r2
  remove a
  purge
stream frames
  write 0 fill 62 4096
'''
BACKED = '''volume abc 4M
replicas 2
now "a run"
stream frames
  write 0 random seed 1 8192
  write 2097152 fill 61 4096
stream commands
  snapshot s
stream frames
  write 4096 fill 62 4096
stream commands
  snapshot t
  backup b s
  backup c t
  backup c t
  backup d u
'''


class Run(NamedTuple):
    """A run: what it is called, its words and its input, and the input of a run that is done before it in the same folder."""
    name: str
    words: list
    given: bytes = b''
    before: bytes = b''


class Ended(NamedTuple):
    """How a run ended, and whether it asked for the memory that was to be refused."""
    code: int
    printed: bytes
    note: bytes
    refused: bool = False


def make_runs():
    """The five runs. One worker serves each, so that each asks for the same memory every time."""
    one = ['run', '--workers', 'one']
    frames, rebuild, saved, opened, backed = map(script.make, (FRAMES, REBUILD, SAVED, OPENED, BACKED))
    return [Run('frames', one, frames), Run('rebuild', one, rebuild), Run('open and save', one, opened, saved), Run('backup', one, backed),
            Run('restore', ['restore', 'c', 'abc'], b'', backed)]


class Walk:
    """A walk through the memory of one run, in a folder of its own."""

    def __init__(self, run, program, library, room, onward):
        self.run, self.program, self.library, self.onward = run, program, library, onward
        self.base, self.room, self.told, self.given = (os.path.join(room, name) for name in ('base', 'room', 'told', 'given'))
        os.mkdir(self.base)
        # From a file each read gives the same bytes every time, and so the same memory is asked for.
        with open(self.given, 'wb') as file:
            file.write(run.given)
        if run.before:
            subprocess.run([program, 'run', '--workers', 'one'], input=run.before, cwd=self.base, stdout=subprocess.DEVNULL, check=True)
        self.begun = stands(self.base)
        self.whole = self.ended(None)
        self.left = stands(self.room)
        self.counts = Counter()

    def ended(self, number):
        """How the run ends whose allocation of a number is refused, or none for None."""
        shutil.rmtree(self.room, ignore_errors=True)
        shutil.copytree(self.base, self.room)
        with open(self.told, 'w+b') as told, open(self.given, 'rb') as given:
            words = {'LD_PRELOAD': self.library, 'REFUSED_TOLD': str(told.fileno())}
            if number is not None:
                words['REFUSED_ALLOCATION'] = str(number)
            if self.onward:
                words['REFUSED_ONWARD'] = 'yes'
            ended = subprocess.run([self.program, *self.run.words], stdin=given, cwd=self.room, env=words, capture_output=True,
                                   timeout=SECONDS, pass_fds=[told.fileno()])
            return Ended(ended.returncode, ended.stdout, ended.stderr, bool(os.fstat(told.fileno()).st_size))

    def go(self):
        """Refuses one allocation after another. What is odd of each, as texts."""
        if (self.whole.code, self.whole.note) != (0, b''):
            yield 'ends with status %d where nothing is refused' % self.whole.code
        number = 1
        while True:
            ended = self.ended(number)
            if not ended.refused:
                break
            self.counts[ended.code] += 1
            yield from ('allocation %d: %s' % (number, odd) for odd in self.odd(ended))
            number += 1
        yield from self.odd(ended)

    def odd(self, ended):
        """What is odd in how a run ended, and in what it left."""
        yield from odd_end(ended, self.whole)
        yield from odd_left(stands(self.room), self.begun, self.left)


def odd_end(ended, whole):
    """What is odd in how a run ended, beside one in which nothing was refused."""
    if ended.code == NO_MEMORY:
        if ended.note not in (b'no memory\n', b''):
            yield 'status 8 has the note %r' % ended.note[:80]
        if not whole.printed.startswith(ended.printed):
            yield 'its output of %d bytes is no beginning of the whole' % len(ended.printed)
    elif ended[:3] != whole[:3]:
        yield 'it ends with status %d, the note %r and %d bytes of output' % (ended.code, ended.note[:80], len(ended.printed))


def odd_left(left, begun, whole):
    """What is odd in what stands behind a run, beside what stood before it, and what stands where nothing is refused."""
    for name, found in left.items():
        is_told = isinstance(found, folder.Refused) and found.reason in TOLD
        if found not in (begun.get(name), whole.get(name)) and not is_told:
            yield '%s is neither as it was nor as it would be: %s' % (name, found.reason if isinstance(found, folder.Refused) else 'another')
    for name in begun.keys() - left.keys():
        yield '%s is gone' % name


def stands(room):
    """What replicas' folders and backups hold that stand in a folder, by name."""
    found = {}
    for replica in range(8):
        path = os.path.join(room, 'replicas', 'r%d' % replica)
        if os.path.isdir(path):
            found['the folder of r%d' % replica] = folder.open_folder(path, SIZE)
    target = store.Store(room)
    for name in target.backups('abc'):
        try:
            found['the backup %s' % name] = target.disk('abc', name)
        except store.Refused as why:
            found['the backup %s' % name] = folder.Refused(str(why))
    return found


def main():
    formatter = argparse.RawDescriptionHelpFormatter
    parser = argparse.ArgumentParser(prog='refuse_memory.py', description=__doc__, formatter_class=formatter, epilog=HELP)
    parser.add_argument('names', nargs='*', help='the runs, as `frames`; all where none is named')
    parser.add_argument('--program', default=PROGRAM, help='another program than the one that is built here')
    parser.add_argument('--onward', action='store_true', help='all allocations behind the first that is refused are refused too')
    words = parser.parse_args()
    runs = [run for run in make_runs() if not words.names or run.name in words.names]
    is_odd = len(runs) < len(words.names)
    with tempfile.TemporaryDirectory(dir='/dev/shm' if os.access('/dev/shm', os.W_OK) else None) as room:
        library = os.path.join(room, 'refuse_memory.so')
        subprocess.run([os.environ.get('CC', 'cc'), '-O2', '-shared', '-fPIC', '-o', library, SOURCE], check=True)
        for number, run in enumerate(runs):
            place = os.path.join(room, str(number))
            os.mkdir(place)
            walk = Walk(run, os.path.abspath(words.program), library, place, words.onward)
            for odd in walk.go():
                is_odd = True
                print('%s: %s' % (run.name, odd), flush=True)
            ends = ', '.join('%d with status %d' % (count, code) for code, count in sorted(walk.counts.items()))
            print('%s: %d allocations refused: %s' % (run.name, sum(walk.counts.values()), ends), flush=True)
    sys.exit(is_odd)


if __name__ == '__main__':
    main()
