"""Tests of a save that is killed: whichever of its calls was the last, each folder is clean as it was or as it would be, or says so."""
import os
import shutil
import unittest
from collections import Counter

import asked
import folder
import journal
import kill_points
import opening
import script
from built_program import PROGRAM
from report import read_report
from saved_runs import SIZE, SavedTest

MOMENTS = 200
REPLICAS = 4
# What a folder is told to be where it is not clean.
TOLD = ('unclean Dirty', 'damaged volume.meta 0')

FIRST = '''volume v 2M
replicas 4
save
now "first"
stream frames
  write 0 random seed 1 20480
  write 65536 random seed 2 8192
stream commands
  snapshot a
stream frames
  write 4096 random seed 3 8192
stream commands
  snapshot b
  snapshot c
stream frames
  write 1048576 random seed 4 4096
'''
SECOND = '''volume v 2M
replicas 4
open
save
now "second"
stream frames
  write 8192 random seed 5 12288
stream commands
  snapshot d
  remove b
  remove c
  revert a
  purge
stream frames
  write 0 random seed 6 4096
  write 65536 random seed 7 4096
stream commands
  snapshot e
stream frames
  write 200704 random seed 8 4096
'''
LOOK = '''volume v 2M
replicas 4
open
stream frames
  read 65532 8
stream commands
  status
'''


@unittest.skipUnless(kill_points.can_trace(), 'no program can be traced here')
class KilledSaves(SavedTest):
    def replicas(self):
        """The folder with the replicas' own."""
        return os.path.join(self.room, 'replicas')

    def saved(self):
        """What each replica's folder holds."""
        return folder.open_all(self.replicas(), SIZE, REPLICAS)[0]

    def go_back(self, kept):
        """Puts the folders back as they are kept, or takes them away where none are."""
        shutil.rmtree(self.replicas(), ignore_errors=True)
        if kept:
            shutil.copytree(kept, self.replicas())

    def kill_at(self, text, kept, moments):
        """Kills a run's save at so many moments. What came of the folders, counted, where each may be as before or behind the run."""
        path = os.path.join(self.room, 'script')
        with open(path, 'wb') as file:
            file.write(script.make(text))
        command = [PROGRAM, 'run', '--workers', 'one']
        self.go_back(kept)
        before = self.saved()
        changes = kill_points.run_to(command, path, self.room)
        behind = self.saved()
        self.assertTrue(all(isinstance(saved, folder.Saved) for saved in behind), behind)
        self.assertGreaterEqual(changes, moments)
        counts = Counter()
        for number in range(moments):
            most = 1 + number * (changes - 1) // (moments - 1)
            with self.subTest(most=most):
                self.go_back(kept)
                self.assertEqual(kill_points.run_to(command, path, self.room, most), most)
                counts.update(self.outcomes(before, behind))
                self.look()
        return counts

    def outcomes(self, before, behind):
        """What each folder is."""
        for replica, found in enumerate(self.saved()):
            if isinstance(found, folder.Refused):
                self.assertIn(found.reason, TOLD, replica)
                yield found.reason
            else:
                # All is compared: names, marks, times, and which blocks each layer has.
                self.assertIn(found, (before[replica], behind[replica]), replica)
                yield 'as before' if found == before[replica] else 'as behind'

    def look(self):
        """Opens the folders by a run, and judges it."""
        given = script.make(LOOK)
        begun = opening.of_folders(self.replicas(), SIZE, REPLICAS)
        code, printed, note = self.run_in(self.room, given)
        if begun.note:
            self.assertEqual((code, printed, note), (9, '', begun.note + '\n'))
        else:
            self.assertEqual((code, note), (0, ''))
            self.assertEqual(journal.check(read_report(printed), asked.read_script(given), begun), '')

    def test_a_save_over_an_earlier_one(self):
        self.run_text(self.room, FIRST)
        kept = os.path.join(self.room, 'kept')
        shutil.copytree(self.replicas(), kept)
        counts = self.kill_at(SECOND, kept, MOMENTS)
        for outcome, count in (('as before', 100), ('as behind', 100), ('unclean Dirty', 100), ('damaged volume.meta 0', 5)):
            self.assertGreaterEqual(counts[outcome], count, counts)

    def test_a_first_save(self):
        counts = self.kill_at(FIRST, None, MOMENTS // 4)
        for outcome, count in (('as behind', 25), ('unclean Dirty', 25), ('damaged volume.meta 0', 25)):
            self.assertGreaterEqual(counts[outcome], count, counts)

    def test_what_was_killed_is_saved_anew(self):
        self.run_text(self.room, FIRST)
        kept = os.path.join(self.room, 'kept')
        shutil.copytree(self.replicas(), kept)
        path = os.path.join(self.room, 'script')
        with open(path, 'wb') as file:
            file.write(script.make(SECOND))
        kill_points.run_to([PROGRAM, 'run', '--workers', 'one'], path, self.room, 20)
        begun = opening.of_folders(self.replicas(), SIZE, REPLICAS)
        self.assertEqual(begun.reasons, ('unclean Dirty', None, None, None))
        _, left = self.judge(self.room, 'volume v 2M\nreplicas 4\nopen\nsave\nstream commands\n  add r0\n', begun)
        self.assertEqual(left.reasons, (None, None, None, None))


if __name__ == '__main__':
    unittest.main()
