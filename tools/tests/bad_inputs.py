"""What tests of the built program with bad inputs have in common: each run ends within a minute, and with little memory."""
import os
import stat

import measured
from built_program import PROGRAM
from saved_runs import SavedTest
from test_program import HEAD

SIZE = 1 << 21
# A first line; what stands behind its good members counts in their place, as the last of a name does.
LINE = b'{"volume":"v","size":2097152,"replicas":1,"streams":[{"frames":0}]%s}\n'
# What a run of it without calls prints.
SERVED = (0, HEAD, b'')
DIGITS = b'9' * 10000


def refused(what, place=0):
    """How a run ends whose input is no script."""
    return 3, b'', b'script %d %s\n' % (place, what)


def deep(opened, closed, depth, inner=b''):
    """A value with so many lists or objects, each in the one before."""
    return opened * depth + inner + closed * depth


# What is put between the braces of metadata or of a cfg that is good else, and whether it is read then.
MEMBERS = [
    (b',"x":' + deep(b'[', b']', 126), True), (b',"x":' + deep(b'[', b']', 127), False), (b',"x":' + b'[' * 100000, False),
    (b',"x":' + deep(b'{"a":', b'}', 126, b'0'), True), (b',"x":' + deep(b'{"a":', b'}', 127, b'0'), False),
    (b',"x":' + b'{"":' * 100000, False), (b',"x":' + DIGITS, False), (b',"x":0.' + DIGITS, True), (b',"x":1e' + DIGITS, False),
    (b',"x":1e-' + DIGITS, True), (rb',"x":"\ud800"', False), (rb',"x":"\udc00\ud800"', False), (rb',"x\udfff":0', False),
    (rb',"x":"\x41"', False), (b',"x":"\xff"', False), (b',"x":"\t"', False), (rb',"x":"\ud834\udd1e\"\\\/\b\f\n\r\t\u0000"', True),
]


class BadInputTest(SavedTest):
    """Tests whose runs are measured."""

    def measure(self, words, given=b'', held=0):
        """The status of a run, what it printed, and its note, where it may hold so many bytes beside its input."""
        status, printed, note, memory = measured.run([PROGRAM, *words], self.room, given)
        most = measured.MOST_MEMORY + len(given) + held
        self.assertLessEqual(memory, most, '%d bytes of memory where %d may be had' % (memory, most))
        return status, printed, note

    def assert_ends(self, wanted, given, words=('run', '--workers', 'one'), held=0):
        """A run of an input ends so."""
        status, printed, note = self.measure(words, given, held)
        what = given if len(given) < 300 else given[:200] + b' .. ' + given[-90:]
        self.assertEqual((status, note), (wanted[0], wanted[2]), what)
        self.assertTrue(printed == wanted[1], (what, printed[:300]))


def standing(top):
    """All that stands below a folder: of each path what it is, whose it is to read, how long, and what it holds where that is short."""
    found = {}
    for folder, folders, names in os.walk(top):
        for name in folders + names:
            path = os.path.join(folder, name)
            told = os.lstat(path)
            kept = None
            if stat.S_ISREG(told.st_mode) and told.st_size <= 4 * SIZE and os.access(path, os.R_OK):
                with open(path, 'rb') as file:
                    kept = hash(file.read())
            elif stat.S_ISLNK(told.st_mode):
                kept = os.readlink(path)
            length = 0 if stat.S_ISDIR(told.st_mode) else told.st_size
            found[os.path.relpath(path, top)] = told.st_mode, length, kept
    return found
