"""Tests of the built program with one worker and with one for each stream: what it prints of generated scripts, and how often
each kind of outcome comes up there."""
import random
import subprocess
import unittest
from collections import Counter

import asked
import journal
import one_worker
import script
from built_program import LAUNCHER, ProgramTest
from generated_runs import rebuild_text, run_text
from report import read_report
from tally import outcomes

SEEDS = 40
# The order in which workers come to their steps is another one at each time.
TIMES = 2
# How often each outcome comes up at least. That there is no replica is answered only where none is left, says journal.py.
LEAST = {
    'read ok': 500, 'read no replica': 100, 'read out of range': 100, 'read too long': 40,
    'write ok': 500, 'write no replica': 100, 'write out of range': 100, 'ping ok': 40, 'other unsupported': 40,
    'snapshot ok': 100, 'snapshot name used': 40, 'snapshot no replica': 40,
    'remove ok': 50, 'remove no such snapshot': 40, 'remove no replica': 1,
    'revert ok': 40, 'revert no such snapshot': 40, 'revert no replica': 1,
    'purge ok': 50, 'purge no replica': 20, 'mark folded': 40, 'mark dropped': 5,
    'fail ok': 50, 'mark failed': 40, 'mark fault': 100, 'status ok': 50,
    'add ok': 50, 'add aborted': 30, 'add in use': 100, 'add no replica': 100,
    'aborted as its target falls': 30, 'aborted as its source falls': 3, 'left, once it was rebuilt': 20,
    'of one replica': 3, 'of two replicas': 20, 'of three replicas or more': 20,
    'ends with a replica': 20, 'ends with no replica': 20,
}
# With a worker for each stream calls overlap.
LEAST_EACH = {**LEAST, 'answered behind what it saw': 100, 'written while a replica is rebuilt': 5}


class Each(ProgramTest):
    def printed(self, given, words):
        """What the program prints of a script."""
        ended = subprocess.run([LAUNCHER, 'run', *words], input=given, capture_output=True, timeout=60)
        self.assertEqual((ended.returncode, ended.stderr), (0, b''))
        return ended.stdout.decode()

    def judge(self, make_text, words, seeds, times):
        """Runs generated scripts, looks for what is odd in what they print, and counts what comes up there."""
        counts = Counter()
        for seed in range(seeds):
            text = make_text(random.Random(seed))
            given = script.make(text)
            its = asked.read_script(given)
            for _ in range(times):
                with self.subTest(make_text.__name__, seed=seed, words=words):
                    printed = self.printed(given, words)
                    report = read_report(printed)
                    self.assertEqual(journal.check(report, its), '', text + printed)
                    counts.update(outcomes(report))
        return counts

    def judge_all(self, words, times, least):
        """Judges scripts of both kinds, in which each outcome comes up so often at least."""
        counts = self.judge(run_text, words, SEEDS, times) + self.judge(rebuild_text, words, SEEDS, times)
        for outcome, count in least.items():
            with self.subTest(outcome, words=words):
                self.assertGreaterEqual(counts[outcome], count)

    def test_one_worker_prints_one_journal_of_the_script(self):
        self.judge_all(['--workers', 'one'], 1, LEAST)

    def test_workers_side_by_side_print_one_journal_of_the_script(self):
        self.judge_all([], TIMES, LEAST_EACH)

    def test_a_worker_that_is_alone_serves_commands_as_one_worker_does(self):
        for seed in range(SEEDS):
            text = run_text(random.Random(seed), 1)
            given = script.make(text)
            with self.subTest(seed=seed):
                self.assertEqual(self.printed(given, ['--workers', 'each']), one_worker.report_of(asked.read_script(given)), text)

    def test_sixteen_workers_are_served(self):
        def sixteen(chance):
            return run_text(chance, 16)
        self.judge(sixteen, ['--workers', 'each'], 10, 1)

    def test_one_worker_prints_the_same_at_each_time(self):
        given = script.make(run_text(random.Random(0)))
        self.assertEqual(self.printed(given, ['--workers', 'one']), self.printed(given, ['--workers', 'one']))


if __name__ == '__main__':
    unittest.main()
