"""Tests of run_tests, where the program is not built."""
import os
import shutil
import subprocess
import sys
import tempfile
import unittest

from built_program import TOP

LEFT_OUT = ('tools: tests are left out: longhorn: the program is not built, or older than its sources: ./longhorn proves and builds it')


class RunTests(unittest.TestCase):
    def ran(self, *words):
        """The status and the output of run_tests of a copy in which nothing is built."""
        with tempfile.TemporaryDirectory() as folder:
            os.mkdir(os.path.join(folder, 'crates'))
            shutil.copytree(os.path.join(TOP, 'tools'), os.path.join(folder, 'tools'))
            for name in ('longhorn', 'crates.txt'):
                shutil.copy(os.path.join(TOP, name), folder)
            command = [sys.executable, os.path.join(folder, 'tools', 'run_tests'), *words]
            ended = subprocess.run(command, env={**os.environ, 'LONGHORN_TESTED': ''}, capture_output=True, text=True)
            return ended.returncode, ended.stdout.splitlines()

    def test_tests_of_the_program_are_left_out_and_a_line_says_so(self):
        self.assertEqual(self.ran('test_program', 'test_each'), (0, [LEFT_OUT, 'tools: 0 passed, 0 failed']))

    def test_they_fail_where_the_program_must_be_built(self):
        self.assertEqual(self.ran('--built', 'test_program', 'test_each'), (1, ['tools: 0 passed, 2 failed']))

    def test_others_are_run_all_the_same(self):
        self.assertEqual(self.ran('test_launcher'), (0, ['tools: 4 passed, 0 failed']))
        self.assertEqual(self.ran('--built', 'test_launcher'), (0, ['tools: 4 passed, 0 failed']))


if __name__ == '__main__':
    unittest.main()
