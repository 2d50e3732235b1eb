"""Tests of the built program with one worker: it prints what a slow executor prints, whichever carry of a line fails."""
import random
import re
import subprocess
import unittest

import asked
import one_worker
import script
from built_program import LAUNCHER, ProgramTest
from generated_runs import run_text

SEEDS = 60
# The third frame is refused, so that nothing is carried for it; nor is for the ping.
FRAMES = '''volume v 2M
replicas 3
%s
stream 0 frames
  write 0 "a"
  read 0 1
  read 2M 1
  write 4095 "aa"
  read 4000 200
  ping
  write 0 fill 61 8K
  write 1 ""
  read 8191 0
  read 0 9000
'''
# Layers `a` and `b` have the second block, `a` and `c` the first, and `d` has none. All but the last go into the next.
PURGE = '''volume v 2M
replicas 2
%s
stream 0 frames
  write 0 fill 61 8K
stream 1 commands
  snapshot a
stream 2 frames
  write 4K "b"
stream 3 commands
  snapshot b
stream 4 frames
  write 0 "c"
stream 5 commands
  snapshot c
stream 6 commands
  snapshot d
  remove a
  remove b
  remove c
  purge
stream 7 frames
  read 0 8194
'''
# Layer `t` has the first page, `a` on it both, and `C` on that the second. Then the head stands on `t`, and has the first
# page: `a` and `C` are not below it. The replica that is to be added has `t` alone of them. So the first rebuild copies five
# pages. The second `add` finds the replica in use, or that no replica is left, or begins a rebuild that ends well. What is read
# behind that is read of the replica that was rebuilt, if there it is.
REBUILD = '''volume v 4M
replicas %d
%%s
stream 0 frames
  write 0 fill 61 8K
stream 1 commands
  snapshot t
stream 2 frames
  write 2097151 "cc"
stream 3 commands
  fail r1
  snapshot a
stream 4 frames
  write 3000000 "e"
stream 5 commands
  snapshot C
  revert t
stream 6 frames
  write 4095 "gg"
stream 7 commands
  add r1
  add r1
  status
  fail r0
stream 8 frames
  read 0 8194
  read 2097150 4
  read 2999999 3
stream 9 commands
  revert C
stream 10 frames
  read 0 8194
  read 2097150 4
  read 2999999 3
'''
# A text, the worker whose lines fail, and how many carries its line to each replica has.
EACH = [
    (FRAMES, 0, [16, 8, 8]),
    (PURGE, 6, [18, 18]),
    (REBUILD % 2, 7, [12, 12]),
    (REBUILD % 3, 7, [12, 12, 2]),
]
MARKS = ('fault', 'failed', 'added', 'promoted', 'aborted', 'folded', 'dropped')
# For the names of generated scripts: some begin with others or are capitals, so that only their bytes tell which is first.
NAMES = dict(zip('abcdefgh', ('b', 'ab', 'a', 'C', 'a-b', 'D', 'B', 'a.b')))


def generated(seed):
    """A text made at random, with these names."""
    return re.sub('(snapshot|remove|revert) ([a-h])\n', lambda found: '%s %s\n' % (found[1], NAMES[found[2]]),
                  run_text(random.Random(seed)))


class Carries(ProgramTest):
    def compare(self, text):
        """Compares what the program prints of a script with what the slow executor does, and gives it."""
        given = script.make(text)
        ended = subprocess.run([LAUNCHER, 'run', '--workers', 'one'], input=given, capture_output=True, timeout=60)
        self.assertEqual((ended.returncode, ended.stderr), (0, b''))
        self.assertEqual(ended.stdout.decode(), one_worker.report_of(asked.read_script(given)), text)
        return ended.stdout.decode()

    def test_each_carry_fails_once(self):
        for text, worker, counts in EACH:
            for replica, count in enumerate(counts):
                for carry in range(1, count + 2):
                    fault = 'fault worker %d replica %d carries %d' % (worker, replica, carry)
                    with self.subTest(fault, text=text):
                        self.assertEqual(' mark fault ' in self.compare(text % fault), carry <= count)

    def test_generated_scripts_are_served_as_slowly(self):
        printed = ''.join(self.compare(generated(seed)) for seed in range(SEEDS))
        for mark in MARKS:
            self.assertIn(' mark %s ' % mark, printed)

    def test_a_purge_goes_by_the_bytes_of_names(self):
        names = list(NAMES.values())
        commands = ['snapshot ' + name for name in [*names, 'top']] + ['remove ' + name for name in names]
        printed = self.compare('volume v 2M\nreplicas 1\nstream 0 commands\n%s\npurge\n' % '\n'.join(commands))
        self.assertEqual(re.findall(' mark folded ([^ ]+) ', printed), ['B', 'C', 'D', 'a', 'a-b', 'a.b', 'ab', 'b'])


if __name__ == '__main__':
    unittest.main()
