"""Tests of what the walk through memory calls odd. The walk itself is no part of the gate: `tools/refuse_memory.py` does it."""
import unittest

import script
from folder import Refused
from refuse_memory import Ended, make_runs, odd_end, odd_left

WHOLE = Ended(0, b'abc', b'')
# How a run ended, and whether that is odd.
ENDS = [
    (WHOLE, False), (Ended(0, b'abc', b'', True), False), (Ended(8, b'', b'no memory\n', True), False), (Ended(8, b'ab', b'', True), False),
    (Ended(8, b'abc', b'no memory\n', True), False), (Ended(0, b'ab', b'', True), True), (Ended(0, b'abcd', b'', True), True),
    (Ended(0, b'abc', b'no memory\n', True), True), (Ended(8, b'b', b'no memory\n', True), True), (Ended(8, b'abcd', b'', True), True),
    (Ended(8, b'', b'read fault\n', True), True), (Ended(6, b'', b'shelf fault\n', True), True), (Ended(-11, b'', b'', True), True),
    (Ended(-6, b'abc', b'', True), True),
]
# What stands behind a run, where `a` stood and `b` would, and whether that is odd.
LEFT = [
    ({'x': 'a'}, False), ({'x': 'b'}, False), ({'x': 'b', 'y': 'b'}, False), ({'x': Refused('unclean Dirty')}, False),
    ({'x': Refused('damaged volume.meta 0')}, False), ({'x': 'c'}, True), ({}, True), ({'x': 'a', 'z': 'b'}, True),
    ({'x': Refused('damaged volume-head-000.img.map 0')}, True), ({'x': 'a', 'y': Refused('refused damaged x')}, True),
]


class Odd(unittest.TestCase):
    def test_ends(self):
        for ended, is_odd in ENDS:
            self.assertEqual(bool(list(odd_end(ended, WHOLE))), is_odd, ended)

    def test_what_is_left(self):
        for left, is_odd in LEFT:
            self.assertEqual(bool(list(odd_left(left, {'x': 'a'}, {'x': 'b', 'y': 'b'}))), is_odd, left)

    def test_the_runs_have_scripts(self):
        for run in make_runs():
            for given in filter(None, (run.given, run.before)):
                self.assertEqual(script.make(script.show(given)), given, run.name)


if __name__ == '__main__':
    unittest.main()
