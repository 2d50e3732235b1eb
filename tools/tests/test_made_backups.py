"""Tests of the built program's command `backup`: what is restored is what its snapshot was at the place of its answer, also while
others write, take snapshots away and rebuild replicas."""
import itertools
import os
import random
import shutil
import string
import subprocess
import tempfile
import unittest
from collections import Counter

import asked
import journal
import script
import store
from built_program import LAUNCHER, TOP, ProgramTest
from generated_runs import backed_text
from plain_disk import PlainDisk
from report import Entry, Mark, read_report
from saved_runs import MEMORY
from store import PAGE
from tally import outcomes

SEEDS = 20
# How often each outcome comes up at least.
LEAST = {'backup ok': 40, 'backup backup exists': 3, 'backup no such snapshot': 10, 'write ok': 200, 'add ok': 10, 'snapshot ok': 200,
         'purge ok': 40, 'mark folded': 20}
# How many runs may pass in which a page is not written at each time: on a busy machine a worker may come late.
TRIES = 20
# Two snapshots, of which the second has one page that is another, and one that was not there.
TWO_BACKUPS = '''volume v 6M
replicas 2
%s
stream 0 frames
  write 0 fill 61 4096
  write 2097152 fill 62 4096
stream 1 commands
  snapshot s
stream 2 frames
  write 2097151 fill 63 2
  write 4194304 fill 64 1
stream 3 commands
  snapshot t
stream 4 commands
  backup b s
  backup c t
'''
# Two pages are backed up, and then the one that is another by then, over that. One replica has them all.
OVER_A_BASE = '''volume v 6M
fault worker 4 replica 0 carries %d
stream 0 frames
  write 0 fill 61 4096
  write 2097152 fill 62 4096
stream 1 commands
  snapshot s
stream 2 frames
  write 2097152 fill 63 1
stream 3 commands
  snapshot t
stream 4 commands
  backup b s
  backup c t
'''


class MadeBackups(ProgramTest):
    def setUp(self):
        self.room = tempfile.mkdtemp(dir=MEMORY if os.access(MEMORY, os.W_OK) else None)
        self.addCleanup(shutil.rmtree, self.room)

    def run_in(self, words, given=b''):
        """What a run prints that is done."""
        ended = subprocess.run([LAUNCHER, *words], input=given, cwd=self.room, capture_output=True, timeout=60)
        self.assertEqual((ended.returncode, ended.stderr), (0, b''), words)
        return ended.stdout

    def judge(self, volume, text, words=()):
        """The report of a run, of which each backup that was answered `ok` is restored and compared."""
        given = script.make(text)
        its = asked.read_script(given)
        printed = self.run_in(['run', *words], given).decode()
        report = read_report(printed)
        self.assertEqual(journal.check(report, its), '', text + printed)
        disk, entries, made = PlainDisk(), {}, {}
        for line in report.journal:
            if not isinstance(line, Entry):
                disk.take_mark(line, entries)
                continue
            entries[line.place] = line
            if line.kind == 'backup':
                name, snapshot = line.call[1:3]
                if not line.refusal:
                    made[name] = dict(disk.copies[snapshot]), snapshot
                else:
                    self.assertEqual(line.refusal == 'backup exists', name in made, printed)
            elif not line.refusal:
                disk.take_call(line.call)
        found = store.Store(self.room)
        for name, (blocks, snapshot) in made.items():
            copy = PlainDisk()
            copy.blocks = blocks
            whole = copy.read(0, its.head.size)
            self.assertTrue(found.disk(volume, name) == whole, (text, printed, name))
            self.assertTrue(self.run_in(['restore', name, volume]) == whole, (text, printed, name))
            self.assertEqual(found.cfg(volume, name).snapshot, snapshot)
        self.assertEqual(found.backups(volume), sorted(made))
        return report

    def test_backups_beside_others_are_their_snapshots(self):
        counts = Counter()
        for seed in range(SEEDS):
            for words in ((), ('--workers', 'one')):
                with self.subTest(seed=seed, words=words):
                    counts.update(outcomes(self.judge('v', backed_text(random.Random(seed)), words)))
                    shutil.rmtree(os.path.join(self.room, 'backupstore'), ignore_errors=True)
        for outcome, count in LEAST.items():
            with self.subTest(outcome):
                self.assertGreaterEqual(counts[outcome], count)

    def test_each_page_is_written_before_a_backup_and_meanwhile_and_behind(self):
        writes = ['  write %d fill %02x 1' % (number % 2 * PAGE + number * 4096 % PAGE, 1 + number % 255) for number in range(40000)]
        commands = ['stream 1 commands', '  snapshot s', '  backup b s']
        text = '\n'.join(['volume v 4M', 'replicas 2', 'stream 0 frames', *writes, *commands]) + '\n'
        for _ in range(TRIES):
            if times_of_pages(self.judge('v', text), 'b') == [{0, 1}] * 3:
                return
            shutil.rmtree(os.path.join(self.room, 'backupstore'))
        self.fail('in none of the runs is each page written at each time')

    def test_each_carry_of_a_run_fails_once(self):
        for worker, replica in itertools.product(range(5), range(2)):
            for carry in itertools.count(1):
                with self.subTest(worker=worker, replica=replica, carry=carry):
                    text = TWO_BACKUPS % 'fault worker %d replica %d carries %d' % (worker, replica, carry)
                    report = self.judge('v', text, ('--workers', 'one'))
                    self.assertEqual([entry.answer for entry in report.journal if isinstance(entry, Entry)], ['ok'] * 8, text)
                shutil.rmtree(os.path.join(self.room, 'backupstore'))
                if not any(isinstance(line, Mark) for line in report.journal):
                    break
            # Each worker carries to each replica, but that a page comes from one alone.
            self.assertEqual(carry > 1, (worker, replica) != (4, 1))

    def test_a_page_has_a_request_and_a_reply_and_over_a_base_only_others_come(self):
        lost = 'error no replica'
        for carry, answers in enumerate([[lost, lost]] * 4 + [['ok', lost]] * 2 + [['ok', 'ok']], 1):
            with self.subTest(carry=carry):
                report = self.judge('v', OVER_A_BASE % carry, ('--workers', 'one'))
                self.assertEqual([line.answer for line in report.journal if isinstance(line, Entry) and line.kind == 'backup'], answers)
            shutil.rmtree(os.path.join(self.room, 'backupstore'), ignore_errors=True)

    def test_names_have_each_character(self):
        characters = string.ascii_letters + string.digits
        volume, backup, snapshot = characters + '._', characters[::-1] + '-.', characters[1:] + '_.-'
        names = [backup, *characters, *('0' + mark for mark in '._-')]
        lines = ['  snapshot ' + snapshot, *('  backup %s %s' % (name, snapshot) for name in names)]
        writes = ['  write 4095 "ab"', 'stream 1 commands', *lines]
        self.judge(volume, '\n'.join(['volume %s 2M' % volume, 'stream 0 frames', *writes]) + '\n', ('--workers', 'one'))
        listed = ['backup %s %s 1\n' % (name, snapshot) for name in sorted(names)]
        self.assertEqual(self.run_in(['backups', volume]).decode(), ''.join(listed))

    def test_a_backup_of_an_earlier_run_exists(self):
        text = 'volume v 2M\nstream 0 commands\n  snapshot s\n  backup b s\n'
        self.judge('v', text)
        self.assertIn(b' backup b s error backup exists\n', self.run_in(['run'], script.make(text)))

    def test_a_store_that_cannot_be_written_is_a_target_fault(self):
        with open(os.path.join(self.room, 'backupstore'), 'wb'):
            pass
        given = script.make('volume v 2M\nstream 0 commands\n  snapshot s\n  backup b s\n  status\n')
        ended = subprocess.run([LAUNCHER, 'run'], input=given, cwd=self.room, capture_output=True, timeout=60)
        self.assertEqual((ended.returncode, ended.stderr), (7, b'target fault\n'))
        self.assertIn(b' backup b s error target fault\n', ended.stdout)
        self.assertIn(b'\nhead r0 ', ended.stdout)

    def test_the_example_is_what_the_readme_tells(self):
        with open(os.path.join(TOP, 'examples', 'backed_up.script.txt'), encoding='utf-8') as file:
            self.judge('abc', file.read(), ('--workers', 'one'))


def times_of_pages(report, name):
    """The pages that are written before the backup of that name is taken up, then until it is answered, and behind that."""
    entries = [line for line in report.journal if isinstance(line, Entry)]
    backup, = (entry for entry in entries if entry.call[:2] == ('backup', name))
    times = [set(), set(), set()]
    for entry in entries:
        if entry.kind == 'write':
            times[(entry.place >= backup.saw) + (entry.place > backup.place)].add(int(entry.call[1]) // PAGE)
    return times


if __name__ == '__main__':
    unittest.main()
