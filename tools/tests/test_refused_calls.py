"""Tests of the built program whose calls to the system fail one after another, and of what that walk calls odd."""
import os
import shutil
import tempfile
import unittest

import refuse_calls
from built_program import PROGRAM, ProgramTest
from folder import Refused
from refuse_calls import odd_backups, odd_end, odd_left, with_backups, with_folders
from saved_runs import MEMORY

DIRTY, GONE, BAD = Refused('unclean Dirty'), Refused('damaged volume.meta 0'), Refused('damaged volume-head-000.img.map 0')
FIRST, SECOND, THIRD = (refuse_calls.folder_of(replica) for replica in range(3))
BEGUN, WHOLE = {FIRST: 'a', SECOND: 'a', THIRD: 'a'}, {FIRST: 'b', SECOND: 'b', THIRD: 'b'}
# What a call that failed was of, what stands then of r0, r1 and r2, and whether that is odd.
FOLDERS = [
    ('replicas/r1/x', 'baa', False), ('replicas/r1', ['b', DIRTY, 'a'], False), ('replicas/r1/x', ['b', GONE, 'a'], False),
    ('replicas/r1/x', 'bba', False), ('replicas/r1/x', ['b', BAD, 'a'], True), ('replicas/r1/x', 'bca', True), ('replicas/r1/x', 'aaa', True),
    ('replicas/r1/x', 'bbb', True), ('replicas/r1/x', ['b', DIRTY, DIRTY], True), ('replicas/r1/x', [DIRTY, DIRTY, 'a'], True),
    ('replicas', ['b', 'b', DIRTY], False), ('replicas', [DIRTY, 'a', 'a'], True), ('replicas/r0/x', [DIRTY, 'a', 'a'], False),
    ('replicas/r1/x', ['b', None, 'a'], True), ('replicas/r1/x', ['b', 'a', None], True),
]
# Of which no folder is there at first.
NEW_FOLDERS = [
    ('replicas', [None] * 3, False), ('.', [DIRTY, None, None], False), ('.', [None, DIRTY, None], True), ('replicas', ['b', DIRTY, None], False),
    ('replicas', ['b', GONE, None], False), ('replicas/r2', ['b', 'b', None], False), ('replicas/r1', ['b', 'b', 'b'], True),
]
SERVED = b'0 0 0 0 status ok layers 1 modes RW\n1 1 0 1 backup b s ok\n2 2 0 2 backup b s error backup exists\n'
# What is printed in place of that, what else than r0 stands then where the backup `b` would, and whether that is odd.
BACKUPS = [
    (SERVED.replace(b'b s ok', b'b s error target fault').replace(b'backup exists', b'target fault'), {}, True),
    (SERVED.replace(b'b s ok', b'b s error target fault'), {'the backup b': 1}, False),
    (SERVED.replace(b'b s ok', b'b s error target fault').replace(b'error backup exists', b'ok'), {'the backup b': 1}, False),
    (SERVED.replace(b'b s ok', b'b s error target fault').replace(b'error backup exists', b'ok'), {}, True),
    (SERVED.replace(b'b s ok', b'b s error target fault').replace(b'error backup exists', b'ok'), {'the backup b': 2}, True),
    (SERVED.replace(b'backup exists', b'target fault'), {'the backup b': 1}, False),
    (SERVED.replace(b'backup exists', b'target fault'), {'the backup b': 1, 'the backup c': 1}, True),
    (SERVED.replace(b'backup exists', b'target fault'), {'the backup b': Refused('refused missing x')}, True), (SERVED, {'the backup b': 1}, True),
    (SERVED.replace(b'backup exists', b'target fault').replace(b'layers 1', b'layers 2'), {'the backup b': 1}, True),
    (SERVED.replace(b'backup exists', b'target fault')[:40], {}, True),
]


def folders(held):
    """What stands of three folders, of which one may not be there."""
    return {name: found for name, found in zip((FIRST, SECOND, THIRD), held) if found is not None}


class Odd(unittest.TestCase):
    def test_folders_of_which_one_failed(self):
        for begun, rows in ((BEGUN, FOLDERS), ({}, NEW_FOLDERS)):
            for where, held, is_odd in rows:
                found = folders(held)
                odd = list(odd_left(found, with_folders(where, begun, found, WHOLE)))
                self.assertEqual(bool(odd), is_odd, (where, held, odd))

    def test_backups_of_which_one_failed(self):
        for printed, more, is_odd in BACKUPS:
            found = {FIRST: 'b', **more}
            wanted = with_backups(printed, found, {FIRST: 'b', 'the backup b': 1})
            odd = [*odd_backups(printed, SERVED), *odd_left(found, wanted)]
            self.assertEqual(bool(odd), is_odd, (printed, more, odd))

    def test_ends(self):
        ended = refuse_calls.Ended(6, b'abc', b'shelf fault\n')
        self.assertEqual(list(odd_end(ended, 6, b'shelf fault\n', b'abc')), [])
        for other in (ended._replace(code=0), ended._replace(note=b''), ended._replace(printed=b'ab'), ended._replace(code=-11)):
            self.assertEqual(len(list(odd_end(other, 6, b'shelf fault\n', b'abc'))), 1, other)


# The statuses of each run, beside 0 of those in which a call is short.
STATUSES = {'save': {4, 5, 6}, 'open and save': {4, 5, 6}, 'backup': {4, 5, 7}, 'restore': {5, 7}, 'list': {5, 7}, 'replica': {4, 5}}


@unittest.skipUnless(shutil.which(os.environ.get('CC', 'cc')), 'there is no compiler of C, by which calls to the system fail')
class Calls(ProgramTest):
    def test_each_call_fails_once_and_is_short_once(self):
        room = tempfile.mkdtemp(dir=MEMORY if os.access(MEMORY, os.W_OK) else None)
        self.addCleanup(shutil.rmtree, room)
        library = refuse_calls.compiled(room)
        for run in refuse_calls.make_runs():
            with self.subTest(run.name):
                place = os.path.join(room, run.name)
                os.mkdir(place)
                walk = refuse_calls.Walk(run, PROGRAM, library, place)
                self.assertEqual(list(walk.go()), [])
                failed, short = walk.counts.values()
                self.assertEqual((set(failed), set(short)), (STATUSES[run.name], {0}))


if __name__ == '__main__':
    unittest.main()
