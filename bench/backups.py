#!/usr/bin/env python3
"""backups.py PROGRAM PEER [REPEATS]

Times backups and restores of a built longhorn against the peer, a fast plain Rust program of the same work, by the clock, with
stores in memory where there is /dev/shm. F is 64 MiB, all written, of which an eighth is written anew between two backups, and the
second one is restored; S is 1 GiB with one block. Both have to leave and to write the same; what is written is thrown away while
they are timed. Runs that make backups end with a replica that fails, so that no head is digested. Of an incremental backup alone, of
1 GiB of which two pages were written since, the time is what a run takes longer that has it at its end than one that has not.
By turns: medians with the least and the greatest, the ratio of the medians, and that of neighbours. Time and memory of a run are
taken by PEER-meter, a small program that stands beside the peer: what this script itself has would else be counted.

Each block is digested twice, in the look before and when it is written. So F is also set against twice the time of the digest alone,
which is what a run on the same 64 MiB takes longer where its replica does not fail at the end: its head is then digested once.
Making the first backup of F, which is what a run takes longer that has it at its end, is set against that time too; and the increment
against what the digest of two pages takes by it, with the time in which two pages are put as a folder's objects are.
"""
import hashlib
import os
import shutil
import statistics
import subprocess
import sys
import tempfile
import time

from folders import GIB, MEMORY, MIB, RUN, filled, keep, spread, write

# The names by which each is known.
WHOSE = ('the program', 'the peer')


def megabyte(place, turn):
    """A MiB of blocks, each of one byte, which is another at each turn."""
    return b''.join(filled(number + turn) for number in range(place * 256, place * 256 + 256))


def all_of_it():
    """The frames that write 64 MiB."""
    return (write(place, place * MIB, megabyte(place, 0)) for place in range(64))


def an_eighth():
    """The frames that write each eighth MiB anew."""
    return (write(place, place * MIB, megabyte(place, 1)) for place in range(0, 64, 8))


def a_block():
    """The frame that writes a block late in 1 GiB."""
    yield write(1, GIB - 4096, filled(1))


def two_pages():
    """The frames that write two pages of 1 GiB."""
    return (write(place, place * (GIB // 2), megabyte(place, 2)) for place in range(2))


def tree(room):
    """A digest of all files below a folder."""
    digest = hashlib.sha256()
    for folder, names, files in os.walk(room):
        names.sort()
        for file in sorted(files):
            with open(os.path.join(folder, file), 'rb') as source:
                digest.update(('%s %s ' % (os.path.relpath(source.name, room), hashlib.file_digest(source, 'sha256').hexdigest())).encode())
    return digest.hexdigest()


# What F is made by.
FULL = [all_of_it, ['snapshot a'], an_eighth, ['snapshot b', 'backup b1 a', 'backup b2 b']]
# An incremental backup at the end of a run, and the same run without it.
WITH = [a_block, ['snapshot a'], two_pages, ['snapshot b', 'backup b1 a', 'backup b2 b'], ['fail r0']]
WITHOUT = [*WITH[:3], ['snapshot b', 'backup b1 a'], ['fail r0']]


# The first backup of F, and the same run without it.
FIRST = [all_of_it, ['snapshot a'], ['backup b1 a'], ['fail r0']]
NO_BACKUP = [*FIRST[:2], FIRST[3]]


class Race:
    """Runs of programs in rooms of their own below one folder."""

    def __init__(self, top, meter):
        self.top = top
        self.meter = meter

    def ran(self, program, words, room, given=None, kept=None):
        """The seconds that a run takes, and the most MiB that it has."""
        figures = os.path.join(self.top, 'figures')
        with open(given or os.devnull, 'rb') as source, open(kept or os.devnull, 'wb') as sink:
            subprocess.run([self.meter, figures, program, *words], stdin=source, stdout=sink, cwd=room, check=True)
        with open(figures, encoding='ascii') as file:
            status, nanoseconds, kibibytes = map(int, file.read().split()[:3])
        if status != 0:
            sys.exit('%s %s ended with %d' % (program, ' '.join(words), status))
        return nanoseconds / 1e9, kibibytes / 1024

    def written(self, program, words, room):
        """A digest of what a run writes."""
        kept = os.path.join(self.top, 'kept')
        self.ran(program, words, room, kept=kept)
        with open(kept, 'rb') as file:
            digest = hashlib.file_digest(file, 'sha256').hexdigest()
        os.remove(kept)
        return digest

    def store(self, peer, name, size, streams):
        """A room with the store that the peer leaves behind these streams."""
        room = os.path.join(self.top, name)
        os.mkdir(room)
        given = keep(os.path.join(self.top, name + '-script'), size, 1, {}, [*streams, ['fail r0']])
        self.ran(peer, RUN, room, given)
        os.remove(given)
        return room

    def made(self, program, given):
        """What a run takes that makes a store, and a digest of that."""
        room = os.path.join(self.top, 'made')
        os.mkdir(room)
        figures = self.ran(program, RUN, room, given)
        left = tree(room)
        shutil.rmtree(room)
        return figures, left

    def made_by_turns(self, programs, given, repeats):
        """What each program takes, turn by turn. All have to leave the same."""
        for number in range(repeats):
            turn = [None] * len(programs)
            for which in range(len(programs))[::1 if number % 2 else -1]:
                turn[which] = self.made(programs[which], given)
            if len({left for _, left in turn}) > 1:
                sys.exit('the two do not leave the same store')
            yield [figures for figures, _ in turn]

    def turns(self, programs, words, room, repeats):
        """What each program takes, turn by turn. They take turns in going first."""
        for number in range(repeats):
            turn = [None] * len(programs)
            for which in range(len(programs))[::1 if number % 2 else -1]:
                turn[which] = self.ran(programs[which], words, room)
            yield turn

    def longer(self, program, given, repeats):
        """The seconds that a run takes longer by the first input than by the second, turn by turn."""
        takes = lambda path: self.made(program, path)[0][0]
        return [takes(given[0]) - takes(given[1]) for _ in range(repeats)]


def tell(name, turns):
    """Prints what each takes, and how they compare. The median time of the first is given back."""
    seconds = [[turn[which][0] for turn in turns] for which in (0, 1)]
    most = [statistics.median(turn[which][1] for turn in turns) for which in (0, 1)]
    for which in (0, 1):
        print('%s, %s: %s s; most memory %.1f MiB' % (name, WHOSE[which], spread(seconds[which], '%.4f'), most[which]))
    medians = [statistics.median(each) for each in seconds]
    print('%s: %.2f of the peer\'s time by the medians, by neighbours %s; %.2f of its memory'
          % (name, medians[0] / medians[1], spread([own / other for own, other in zip(*seconds)], '%.2f'), most[0] / most[1]))
    return medians[0]


def put_two_pages(top):
    """The seconds in which two pages are put: each beside its place, flushed, and then renamed, with its folder flushed."""
    room = os.path.join(top, 'put')
    os.mkdir(room)
    folder = os.open(room, os.O_RDONLY)
    page = megabyte(0, 3) * 2
    began = time.perf_counter()
    for name in ('one', 'two'):
        with open(os.path.join(room, name + '.tmp'), 'wb', buffering=0) as file:
            file.write(page)
            os.fsync(file.fileno())
        os.rename(os.path.join(room, name + '.tmp'), os.path.join(room, name))
        os.fsync(folder)
    took = time.perf_counter() - began
    os.close(folder)
    shutil.rmtree(room)
    return took


def digest_alone(runs, program, streams, repeats):
    """The seconds that the digest of 64 MiB takes: by turns, a run whose head is digested and one whose replica fails."""
    paths = [keep(os.path.join(runs.top, 'digest-%d' % len(end)), 64 * MIB, 1, {}, [*streams, *end]) for end in ([], [['fail r0']])]
    differences = []
    for _ in range(repeats):
        with_digest, without = (runs.ran(program, RUN, runs.top, path)[0] for path in paths)
        differences.append(with_digest - without)
    return differences


def main():
    program, peer = map(os.path.abspath, sys.argv[1:3])
    repeats = int(sys.argv[3]) if len(sys.argv) > 3 else 7
    whole = FULL[:3]
    with tempfile.TemporaryDirectory(dir=MEMORY if os.access(MEMORY, os.W_OK) else None) as top:
        runs = Race(top, peer + '-meter')
        stores = [('F', runs.store(peer, 'F', 64 * MIB, FULL)),
                  ('S', runs.store(peer, 'S', GIB, [a_block, ['snapshot b', 'backup b2 b']]))]
        for name, room in stores:
            for words in (['backups', 'v'], ['restore', 'b2', 'v']):
                if runs.written(program, words, room) != runs.written(peer, words, room):
                    sys.exit('%s: the two do not write the same for `%s`' % (name, ' '.join(words)))
            seconds = tell(name, list(runs.turns((program, peer), ['restore', 'b2', 'v'], room, repeats)))
            if name == 'F':
                made = keep(os.path.join(top, 'made-script'), 64 * MIB, 1, {}, [*FULL, ['fail r0']])
                tell('F made', list(runs.made_by_turns((program, peer), made, repeats)))
                digests = digest_alone(runs, program, whole, repeats)
                digest = statistics.median(digests)
                print('F: the digest alone takes %s s; the restore takes %.2f of twice that'
                      % (spread(digests, '%.4f'), seconds / 2 / digest))
                given = [keep(os.path.join(top, 'first-%d' % number), 64 * MIB, 1, {}, streams)
                         for number, streams in enumerate((FIRST, NO_BACKUP))]
                first = runs.longer(program, given, repeats)
                print('F: the first backup takes %s s, %.2f of the digest alone'
                      % (spread(first, '%.4f'), statistics.median(first) / digest))
            shutil.rmtree(room)
        given = [keep(os.path.join(top, 'increment-%d' % number), GIB, 1, {}, streams) for number, streams in enumerate((WITH, WITHOUT))]
        for whose, each in zip(WHOSE, (program, peer)):
            takes = runs.longer(each, given, repeats)
            print('an increment of two pages of 1 GiB, %s: %s s' % (whose, spread(takes, '%.4f')))
            if whose == WHOSE[0]:
                puts = [put_two_pages(top) for _ in range(repeats)]
                print('.. and two pages are put in %s s: it takes %.2f of that with their digest'
                      % (spread(puts, '%.4f'), statistics.median(takes) / (digest / 16 + statistics.median(puts))))


if __name__ == '__main__':
    main()
