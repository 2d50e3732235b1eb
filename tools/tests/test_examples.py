"""Tests of the examples, and of run_all with programs that stand for longhorn."""
import os
import shutil
import subprocess
import sys
import tempfile
import unittest

import asked
import journal
import opening
import script
import store
from report import read_report

EXAMPLES = os.path.join(os.path.dirname(os.path.dirname(os.path.abspath(script.__file__))), 'examples')
TEXT = '.script.txt'
# The examples that are stored as scripts under their own names, since documents run them.
STORED = ('a_rebuild', 'backed_up', 'backup_beside_writes', 'saved', 'saved_2', 'side_by_side')
NAMES = sorted(name[:-len(TEXT)] for name in os.listdir(EXAMPLES) if name.endswith(TEXT))
# Prints what stands beside the example whose script it gets, with `ok` changed where it is told to.
STAND_IN = '''#!%s
import os, sys
sys.path.insert(0, %r)
import script
given = sys.stdin.buffer.read()
assert sys.argv[1:] == ['run', '--workers', 'one'], sys.argv
for name in %r:
    with open(os.path.join(%r, name + %r), encoding='utf-8') as file:
        if script.make(file.read()) == given:
            with open(os.path.join(%r, name + '.output')) as output:
                sys.stdout.write(output.read()%s)
'''


def read(name):
    """The text of a file of the examples."""
    with open(os.path.join(EXAMPLES, name), encoding='utf-8') as file:
        return file.read()


def files(top):
    """All files below a folder, with their bytes."""
    found = {}
    for folder, _, names in os.walk(top):
        for name in names:
            with open(os.path.join(folder, name), 'rb') as file:
                found[os.path.relpath(file.name, top)] = file.read()
    return found


def begun(name, replicas):
    """How the run of an example begins: behind another one where its name ends with `_2`."""
    first = name.removesuffix('_2')
    blank = opening.blank(replicas)
    return blank if first == name else opening.behind(read_report(read(first + '.output')), blank)


class Examples(unittest.TestCase):
    def test_show_of_make_is_the_text_but_for_its_comments(self):
        self.assertTrue(NAMES)
        for name in NAMES:
            lines = read(name + TEXT).splitlines(True)
            self.assertTrue(lines[0].startswith('# '), name)
            self.assertEqual(script.show(script.make(''.join(lines))), ''.join(line for line in lines if line[0] != '#'), name)

    def test_stored_scripts_are_what_is_made(self):
        for name, stored in (('first_steps', 'first.script'), *((name, name + '.script') for name in STORED)):
            with open(os.path.join(EXAMPLES, stored), 'rb') as file:
                self.assertEqual(script.make(read(name + TEXT)), file.read())

    def test_the_first_script_is_written_byte_by_byte_too(self):
        with open(os.path.join(EXAMPLES, 'first.script'), 'rb') as file:
            self.assertEqual(subprocess.run([os.path.join(EXAMPLES, 'make_first')], capture_output=True).stdout, file.read())

    @unittest.skipUnless(shutil.which('sha512sum'), 'there is no sha512sum here')
    def test_the_store_that_is_made_is_that_of_its_backups(self):
        with tempfile.TemporaryDirectory() as made, tempfile.TemporaryDirectory() as wanted:
            subprocess.run([os.path.join(EXAMPLES, 'make_store')], cwd=made, check=True)
            for number, page in enumerate((b'', b'a' * 4096)):
                disk = bytes(store.PAGE) + page.ljust(store.PAGE, b'\0')
                store.Store(wanted).back_up('abc', 'b%d' % number, 's%d' % number, disk)
            # Blocks are too long to be shown.
            self.assertEqual(*({name: store.checksum(held) for name, held in files(top).items()} for top in (made, wanted)))

    def test_no_expected_output_has_anything_odd(self):
        for name in NAMES:
            its = asked.read_script(script.make(read(name + TEXT)))
            self.assertEqual(journal.check(read_report(read(name + '.output')), its, begun(name, its.head.replicas)), '', name)

    def run_all(self, change):
        """The status and the output of run_all with a program that changes what it prints."""
        with tempfile.TemporaryDirectory() as folder:
            program = os.path.join(folder, 'program')
            with open(program, 'w') as file:
                file.write(STAND_IN % (sys.executable, os.path.dirname(script.__file__), NAMES, EXAMPLES, TEXT, EXAMPLES, change))
            os.chmod(program, 0o755)
            ended = subprocess.run([sys.executable, os.path.join(EXAMPLES, 'run_all'), program], capture_output=True, text=True)
            return ended.returncode, ended.stdout.splitlines()

    def test_run_all_passes_what_prints_the_expected_output(self):
        status, lines = self.run_all('')
        self.assertEqual((status, lines[-1]), (0, 'examples: %d passed, 0 failed' % len(NAMES)))

    def test_run_all_names_what_prints_another_output(self):
        status, lines = self.run_all(".replace('ping ok', 'ping error too long')")
        self.assertEqual((status, lines[-1]), (1, 'examples: %d passed, 1 failed' % (len(NAMES) - 1)))
        self.assertIn('first_steps: line 3 is `2 2 0 2 ping error too long`, and `2 2 0 2 ping ok` is expected', lines)


if __name__ == '__main__':
    unittest.main()
