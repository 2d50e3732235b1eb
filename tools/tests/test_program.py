"""Tests of the built program from outside: the codes and notes of its statuses, and the examples."""
import os
import re
import subprocess
import sys
import tempfile
import unittest

from built_program import LAUNCHER, TOP, ProgramTest

LINE = b'{"volume":"v","size":2097152,"replicas":1,"streams":[{"control":["status"]}]%s}\n'
STATUS = LINE % b''
HEAD = b'mode r0 RW\nchain r0 head\nhead r0 731859029215873fdac1c9f2f8bd25a334abf0f3a9e1b057cf2cacc2826d86b0\n'
PRINTED = b'0 0 0 0 status ok layers 1 modes RW\n' + HEAD

# What stands behind the good members of a line, of which the last of a name counts, and the member that is refused.
BAD_MEMBERS = [
    (b',"volume":"-v"', b'volume'), (b',"size":2097152.0', b'size'), (b',"size":"2097152"', b'size'), (b',"replicas":0', b'replicas'),
    (b',"replicas":9', b'replicas'), (b',"open":null', b'open'), (b',"save":1', b'save'), (b',"now":"\\u00e9"', b'now'), (b',"streams":{}', b'streams'),
    (b',"streams":[{"frames":-0}]', b'streams'), (b',"streams":[{"frames":0,"control":null}]', b'streams'), (b',"lines":null', b'lines'),
    (b',"lines":{}', b'lines'), (b',"lines":[0]', b'lines'), (b',"lines":[[]]', b'lines'), (b',"streams":[],"volume":"-v"', b'volume'),
]

# Commands that are none in a script of eight replicas.
NO_COMMANDS = [b'stop', b'fail r8', b'fail r10', b'fail r01', b'add r8', b'add r10', b'backup b1', b'backup -b s']

# Plans that are none in a script of two replicas and one stream.
BAD_PLANS = [
    b'{"worker":1,"replica":0,"fail":[]}', b'{"worker":0,"replica":2,"fail":[]}', b'{"worker":0,"replica":0,"fail":[1,2,2]}',
    b'{"worker":0,"replica":1,"fail":[]},{"worker":0,"replica":1,"fail":[1]}', b'{"worker":0,"replica":0,"fail":[0]}',
    b'{"worker":0,"replica":0,"fail":[4294967296]}', b'{"worker":0,"replica":0,"fail":[1.0]}', b'{"replica":0,"fail":[]}',
    b'{"worker":0,"fail":[]}', b'{"worker":0,"replica":0}', b'{"worker":0.0,"replica":0,"fail":[]}',
    b'{"worker":0,"replica":0,"fail":[%s]}' % b','.join(b'%d' % number for number in range(1, 1026)),
]

# A line with a member given twice, members that nobody knows, and escapes; what it asks is answered first so.
SPELLED = (b'{"streams":[{"frames":0,"x":-0},{"control":["purge","revert \\u0062"]}],"size":1,"size":4194304,"open":false,'
           b'"x":[1e3],"now":"2026","volume":"\\u0076.1","replicas":8,"lines":[{"fail":[3,4294967295],"replica":7,"worker":1,"x":-0},'
           b'{"worker":0,"replica":7,"fail":[%s]}]}\n' % b','.join(b'%d' % number for number in range(1, 1025)))
ANSWERED = b'0 0 1 0 purge ok\n1 1 1 1 revert b error no such snapshot\n'


class Program(ProgramTest):
    def run_with(self, words, stdin=subprocess.DEVNULL, stdout=subprocess.PIPE, given=None):
        """The code, what was printed, and the note."""
        streams = {'input': given} if given is not None else {'stdin': stdin}
        ended = subprocess.run([LAUNCHER, *words], stdout=stdout, stderr=subprocess.PIPE, **streams)
        return ended.returncode, ended.stdout, ended.stderr

    def test_done_has_no_note(self):
        for words in (['run'], ['run', '--workers', 'one'], ['run', '--workers=each']):
            self.assertEqual(self.run_with(words, given=STATUS), (0, PRINTED, b''), words)

    def test_words_that_ask_for_nothing(self):
        for words in ([], ['Run'], ['run', 'run'], ['run', '--workers', 'two'], ['--help'], ['run', '--help'], [b'ru\xffn'], [b'run', b'\xff']):
            self.assertEqual(self.run_with(words, given=STATUS), (2, b'', b'usage\n'), words)

    def test_an_input_that_is_no_script(self):
        rows = [
            (b'', b'script 0 line\n'),
            (b'{}\n', b'script 0 member volume\n'),
            (LINE % b',"open":"true"', b'script 0 member open\n'),
            (LINE % b',"save":0', b'script 0 member save\n'),
            (LINE % b'}', b'script 0 json\n'),
            (STATUS.replace(b'status', b'fail r1'), b'script 0 member streams\n'),
            (STATUS + b'x', b'script %d rest\n' % len(STATUS)),
        ]
        for given, note in rows:
            self.assertEqual(self.run_with(['run'], given=given), (3, b'', note), given)

    def test_a_line_is_refused_for_its_first_bad_member(self):
        rows = [*BAD_MEMBERS]
        rows += [(b',"replicas":8,"streams":[{"control":["%s"]}]' % text, b'streams') for text in NO_COMMANDS]
        rows += [(b',"replicas":2,"lines":[%s]' % plans, b'lines') for plans in BAD_PLANS]
        for end, member in rows:
            self.assertEqual(self.run_with(['run'], given=LINE % end), (3, b'', b'script 0 member %s\n' % member), end)

    def test_a_line_in_another_spelling_is_read(self):
        code, printed, note = self.run_with(['run', '--workers', 'one'], given=SPELLED)
        self.assertEqual((code, printed[:len(ANSWERED)], note), (0, ANSWERED, b''))

    def test_a_folder_as_input_is_a_read_fault(self):
        with tempfile.TemporaryDirectory() as folder:
            handle = os.open(folder, os.O_RDONLY)
            try:
                self.assertEqual(self.run_with(['run'], stdin=handle), (4, b'', b'read fault\n'))
            finally:
                os.close(handle)

    @unittest.skipUnless(os.path.exists('/dev/full'), 'no full device here')
    def test_a_full_device_is_a_write_fault(self):
        with open('/dev/full', 'wb') as full, tempfile.TemporaryFile() as given:
            given.write(STATUS)
            given.seek(0)
            self.assertEqual(self.run_with(['run'], stdin=given, stdout=full), (5, None, b'write fault\n'))

    def test_the_readme_shows_what_its_second_command_prints(self):
        with open(os.path.join(TOP, 'README.md'), encoding='utf-8') as file:
            text = file.read()
        example = text[text.index('## An example'):]
        commands = re.findall(r'^    \./longhorn (run --workers one) < (\S+)', example, re.MULTILINE)
        self.assertEqual(len(commands), 2)
        with tempfile.TemporaryDirectory() as room:
            for words, path in commands:
                with open(os.path.join(TOP, path), 'rb') as given:
                    ended = subprocess.run([LAUNCHER, *words.split(' ')], stdin=given, cwd=room, capture_output=True, text=True)
                self.assertEqual((ended.returncode, ended.stderr), (0, ''), path)
        shown = re.search(r'the second prints\n\n((?:    .+\n)+)', example)[1]
        self.assertEqual(ended.stdout, re.sub('^    ', '', shown, flags=re.MULTILINE))

    def test_the_examples_print_what_stands_beside_them(self):
        ended = subprocess.run([sys.executable, os.path.join(TOP, 'examples', 'run_all'), LAUNCHER], capture_output=True, text=True)
        self.assertEqual(ended.returncode, 0, ended.stdout)
        self.assertTrue(ended.stdout.splitlines()[-1].endswith(', 0 failed'), ended.stdout)


if __name__ == '__main__':
    unittest.main()
