#!/usr/bin/env python3
"""Walks through the calls of the built program to the system: each by which it reads, writes, or looks at files fails once, the
first, the second and so on. Then each read and write of several bytes moves one byte once."""
import argparse
import os
import re
import shutil
import subprocess
import sys
import tempfile
from collections import Counter
from typing import NamedTuple

import asked
import folder
import journal
import script
from refuse_memory import PROGRAM, SECONDS, TOLD, Run, stands
from report import read_report

SOURCE = os.path.join(os.path.dirname(os.path.abspath(__file__)), 'refuse_calls.c')
HELP = '''
The program is not made anew: a library is loaded before it, compiled by `cc` from refuse_calls.c, which has its Nth call fail. N
goes from 1 on, by one, until a run makes less. What grows finds the disk full, and all else an error of the disk. Of each run it is
judged what `docs/FORMATS.md` says of its status, and of what stands then:

  input that fails (4) leaves all as it was, and nothing is printed, but what a served replica has answered;
  output that fails (5) is a beginning, and what is saved and backed up stands as in a run in which nothing fails;
  a folder that fails (6) as it is opened leaves all as it was, and nothing is printed; as it is saved, all is printed, the folders
  before it are saved, it is as it was, as it would be or not clean and says so, and those behind it are as they were;
  a store that fails (7) ends its backup with `target fault`, and all else is served, printed and saved; each backup that is `ok`
  can be restored as its disk, and so can that one, if it is there; a restore and a list have written a beginning.

A call that moves one byte changes nothing at all.

A line is printed for each run, with how many N there were, and one for each that is odd. The status is 1 where one is.
'''
# The statuses by what failed, with their notes, and what tells of it: a handle, or the first folder of a path.
NOTES = {4: b'read fault\n', 5: b'write fault\n', 6: b'shelf fault\n', 7: b'target fault\n'}
CAUSES = {'0': 4, '1': 5, 'replicas': 6, 'backupstore': 7}
FAULT = ' error target fault'
FOLDER = re.compile('^replicas/r([0-7])')
BACKUP = re.compile('[0-9]+ [0-9]+ [0-9]+ [0-9]+ backup ([^ ]+) [^ ]+ (.*)')

SAVED = '''volume v 2M
replicas 2
save
now "first"
stream frames
  write 0 random seed 1 12288
stream commands
  snapshot a
stream frames
  write 4096 random seed 2 4096
'''
OPENED = '''volume v 2M
replicas 2
open
save
now "second"
stream frames
  read 0 16384
  write 8192 random seed 3 8192
stream commands
  snapshot b
  remove a
  purge
stream frames
  write 0 fill 62 4096
'''
BACKED = '''volume abc 2M
replicas 1
now "a run"
stream frames
  write 0 random seed 1 8192
stream commands
  snapshot s
stream frames
  write 4096 fill 62 4096
stream commands
  snapshot t
  backup b s
  backup c t
  backup c t
  backup d u
'''
CALLS = '''volume v 2M
stream frames
  write 0 fill 61 5000
  read 4000 2000
  ping
  close
'''


class Ended(NamedTuple):
    """How a run ended, and of the call that failed or was short its name, and the handle or the path it was of. It has no name where
    there was none."""
    code: int
    printed: bytes
    note: bytes
    call: str = ''
    where: str = ''


def make_runs():
    """The runs. One worker serves each, so that each makes the same calls every time."""
    one = ['run', '--workers', 'one']
    saved, opened, backed, calls = map(script.make, (SAVED, OPENED, BACKED, CALLS))
    frames = calls[calls.index(b'\n') + 1:]
    return [Run('save', one, saved), Run('open and save', one, opened, saved), Run('backup', one, backed),
            Run('restore', ['restore', 'c', 'abc'], b'', backed), Run('list', ['backups', 'abc'], b'', backed),
            Run('replica', ['replica', '2097152'], frames)]


def compiled(room):
    """The library that is loaded before the program, compiled into a folder."""
    library = os.path.join(room, 'refuse_calls.so')
    subprocess.run([os.environ.get('CC', 'cc'), '-O2', '-shared', '-fPIC', '-o', library, SOURCE, '-ldl'], check=True)
    return library


class Walk:
    """A walk through the calls of one run, in a folder of its own."""

    def __init__(self, run, program, library, room):
        self.run, self.program, self.library = run, os.path.abspath(program), library
        self.base, self.room, self.given = (os.path.join(room, name) for name in ('base', 'room', 'given'))
        os.mkdir(self.base)
        with open(self.given, 'wb') as file:
            file.write(run.given)
        if run.before:
            subprocess.run([self.program, 'run', '--workers', 'one'], input=run.before, cwd=self.base, stdout=subprocess.DEVNULL, check=True)
        self.begun = stands(self.base)
        self.whole = self.ended('FAILED_CALL', 0)
        self.left = stands(self.room)
        self.counts = {'FAILED_CALL': Counter(), 'SHORT_CALL': Counter()}
        # Whether a call before was one by which the output is written: what follows is no more an opening.
        self.is_written = False

    def ended(self, what, number):
        """How the run ends of which the call of a number fails or is short, or none for 0."""
        shutil.rmtree(self.room, ignore_errors=True)
        # The files are the same, since no run changes one that is there; that is looked at behind the last.
        shutil.copytree(self.base, self.room, copy_function=os.link)
        with tempfile.TemporaryFile() as told, open(self.given, 'rb') as given:
            words = {'LD_PRELOAD': self.library, 'CALL_TOLD': str(told.fileno()), what: str(number)}
            ended = subprocess.run([self.program, *self.run.words], stdin=given, cwd=self.room, env=words, capture_output=True,
                                   timeout=SECONDS, pass_fds=[told.fileno()])
            told.seek(0)
            call, _, where = told.read().decode().strip('\n').partition(' ')
        where = os.path.relpath(os.path.join(self.room, where), self.room)
        return Ended(ended.returncode, ended.stdout, ended.stderr, call, where)

    def go(self):
        """Has one call after another fail, and then be short. What is odd of each, as texts."""
        if (self.whole.code, self.whole.note) != (0, b''):
            yield 'ends with status %d where nothing fails' % self.whole.code
        for what, count in self.counts.items():
            number = 1
            while True:
                ended = self.ended(what, number)
                judged = self.odd_failed(ended) if what == 'FAILED_CALL' and ended.call else self.odd_same(ended)
                yield from ('%s %d, %s of %s: %s' % (what, number, ended.call, ended.where, odd) for odd in judged)
                if not ended.call:
                    break
                count[ended.code] += 1
                number += 1
        if stands(self.base) != self.begun:
            yield 'a file that was there is changed in its place'

    def odd_same(self, ended):
        """What is odd in a run that has to end as one in which nothing fails."""
        yield from odd_end(ended, 0, b'', self.whole.printed)
        yield from odd_left(stands(self.room), self.left)

    def odd_failed(self, ended):
        """What is odd in how a run ended of which that call failed, and in what it left."""
        # A folder that was made is made to stay in the one above, which may be that of the run.
        code, left = CAUSES.get(ended.where.split('/')[0], 7 if self.run.name == 'backup' else 6), stands(self.room)
        self.is_written |= code == 5
        if code == 4 or code == 6 and not self.is_written:
            printed = beginning(ended, self.whole) if self.run.words[0] == 'replica' else b''
            wanted = self.begun
        elif code == 5 or code == 7 and self.run.words[0] != 'run':
            printed, wanted = beginning(ended, self.whole), self.left
            if ended.printed == self.whole.printed:
                yield 'all of it is printed'
        elif code == 6:
            printed, wanted = self.whole.printed, with_folders(ended.where, self.begun, left, self.left)
        elif code == 7:
            printed, wanted = ended.printed, with_backups(ended.printed, left, self.left)
            yield from odd_backups(ended.printed, self.whole.printed)
            report, its = read_report(printed.decode()), asked.read_script(self.run.given)
            yield from filter(None, [journal.check(report, its)])
        yield from odd_end(ended, code, NOTES[code], printed)
        yield from odd_left(left, wanted)


def folder_of(replica):
    """What the folder of a replica is called among what stands."""
    return 'the folder of r%d' % replica


def beginning(ended, whole):
    """What a run has printed, where that is a beginning of all; else all."""
    return ended.printed if whole.printed.startswith(ended.printed) else whole.printed


def with_folders(where, begun, found, whole):
    """What stands by right once a call failed of the folder in which a replica is saved: its own as found where that may be."""
    saved = FOLDER.search(where)
    # Where the call was of the folder above, it was to keep the last one that is there.
    own = int(saved[1]) if saved else max((number for number in range(8) if folder_of(number) in found), default=0)
    wanted = {name: held for name, held in whole.items() if name not in map(folder_of, range(own, 8))}
    for replica in range(own, 8):
        name = folder_of(replica)
        may_be = [begun.get(name)] if replica > own else [begun.get(name), whole.get(name), *map(folder.Refused, TOLD)]
        wanted[name] = found.get(name) if found.get(name) in may_be else may_be[0]
    return {name: held for name, held in wanted.items() if held is not None}


def with_backups(printed, found, whole):
    """What stands by right behind a run that printed this: of the backups those that are `ok`, and others if they are there."""
    made = {'the backup ' + told[1] for told in map(BACKUP.fullmatch, printed.decode().splitlines()) if told and told[2] == 'ok'}
    return {name: held for name, held in whole.items() if name in made or name in found or not name.startswith('the backup ')}


def odd_backups(printed, whole):
    """What is odd in what was printed of a run of which one backup failed: all but what backups are answered is as ever."""
    lines, wanted = printed.decode().splitlines(), whole.decode().splitlines()
    if sum(line.endswith(FAULT) for line in lines) != 1:
        yield 'not one backup has failed'
    if [BACKUP.sub('', line) for line in lines] != [BACKUP.sub('', line) for line in wanted]:
        yield 'another call is answered otherwise'


def odd_end(ended, code, note, printed):
    """What is odd in how a run ended that has to end so."""
    if (ended.code, ended.note) != (code, note):
        yield 'it ends with status %d and the note %r' % (ended.code, ended.note[:80])
    if ended.printed != printed:
        yield 'it prints %d bytes, other than the %d that it has to' % (len(ended.printed), len(printed))


def odd_left(left, wanted):
    """What is odd in what stands behind a run."""
    for name in sorted(left.keys() | wanted.keys()):
        if left.get(name) != wanted.get(name):
            told = left.get(name)
            yield '%s is %s' % (name, 'gone' if told is None else told.reason if isinstance(told, folder.Refused) else 'another')


def main():
    formatter = argparse.RawDescriptionHelpFormatter
    parser = argparse.ArgumentParser(prog='refuse_calls.py', description=__doc__, formatter_class=formatter, epilog=HELP)
    parser.add_argument('names', nargs='*', help='the runs, as `save`; all where none is named')
    parser.add_argument('--program', default=PROGRAM, help='another program than the one that is built here')
    words = parser.parse_args()
    runs = [run for run in make_runs() if not words.names or run.name in words.names]
    is_odd = len(runs) < len(words.names)
    with tempfile.TemporaryDirectory(dir='/dev/shm' if os.access('/dev/shm', os.W_OK) else None) as room:
        library = compiled(room)
        for number, run in enumerate(runs):
            place = os.path.join(room, str(number))
            os.mkdir(place)
            walk = Walk(run, words.program, library, place)
            for odd in walk.go():
                is_odd = True
                print('%s: %s' % (run.name, odd), flush=True)
            failed, short = walk.counts.values()
            ends = ', '.join('%d with status %d' % (count, code) for code, count in sorted(failed.items()))
            print('%s: %d calls failed: %s; %d were short' % (run.name, sum(failed.values()), ends, sum(short.values())), flush=True)
    sys.exit(is_odd)


if __name__ == '__main__':
    main()
