"""Tests of script.py."""
import os
import random
import struct
import subprocess
import sys
import tempfile
import unittest
import unittest.mock

import byte_text
import frame_text
import script
from generated_texts import canonical_text

TOOL = script.__file__
LINE = b'{"volume":"v","size":2097152,"replicas":1,"streams":[{"frames":%d}]}\n'


def frame(seq, kind, offset, size, content=b''):
    """The bytes of a frame, written apart from the tool."""
    return b'\x01\x1b' + struct.pack('<IIqII', seq, kind, offset, size, len(content)) + content


def framed(*frames):
    """A script of one stream of frames."""
    stream = b''.join(frames)
    return LINE % len(stream) + stream


def text(*lines):
    """A text of one stream of frames, in canonical form."""
    return '\n'.join(['volume v 2M', 'replicas 1', 'stream 0 frames', *('  ' + line for line in lines), ''])


# Texts in canonical form, and the bytes that they make.
PAIRS = [
    (text('read 0 4K'), framed(frame(1, 0, 0, 4096))),
    (text('write 4095 "a"', 'read 4094 4', 'ping'), framed(frame(1, 1, 4095, 1, b'a'), frame(2, 0, 4094, 4), frame(3, 6, 0, 0))),
    (text('read 2044K 4K', 'read 2044K 4097', 'read 2M 0'),
     framed(frame(1, 0, 2093056, 4096), frame(2, 0, 2093056, 4097), frame(3, 0, 2097152, 0))),
    (text('read -1 1', 'read 0 1048577', 'frame 7 0 0'), framed(frame(1, 0, -1, 1), frame(2, 0, 0, 1048577), frame(3, 7, 0, 0))),
    (text('write 0 zeros 1M'), framed(frame(1, 1, 0, 1048576, bytes(1048576)))),
    (text('ping', 'close'), framed(frame(1, 6, 0, 0), frame(2, 5, 0, 0))),
    (text('ping', 'close', 'bytes hex 00'), framed(frame(1, 6, 0, 0), frame(2, 5, 0, 0), b'\0')),
    (text('write 0 ""'), framed(frame(1, 1, 0, 0))),
    (text(), framed()),
    (text('ping seq 7', 'read 0 0 seq 0', 'ping'), framed(frame(7, 6, 0, 0), frame(0, 0, 0, 0), frame(3, 6, 0, 0))),
    (text('frame 1 0 5 "ab"', 'frame 0 1 2 "x"', 'frame 5 1 0', 'bytes "x"'),
     framed(frame(1, 1, 0, 5, b'ab'), frame(2, 0, 1, 2, b'x'), frame(3, 5, 1, 0), b'x')),
    (text('read -8589934592G 0', 'read 9223372036854775807 4294967295'),
     framed(frame(1, 0, -2 ** 63, 0), frame(2, 0, 2 ** 63 - 1, 2 ** 32 - 1))),
    (text(r'write 0 "\"\\" fill 61 16 hex 0102 zeros 1K "x"'),
     framed(frame(1, 1, 0, 1045, b'"\\' + b'a' * 16 + b'\1\2' + bytes(1024) + b'x'))),
    ('volume v 2M\nreplicas 2\nopen\nsave\nnow "say \\"now\\""\nfault worker 0 replica 1 carries 2 5\nstream 0 frames\n  ping\n'
     'stream 1 commands\n  purge\n  backup b sys-0\n  add r1\nstream 2 frames\n',
     b'{"volume":"v","size":2097152,"replicas":2,"open":true,"save":true,"now":"say \\"now\\"","streams":[{"frames":26},'
     b'{"control":["purge","backup b sys-0","add r1"]},{"frames":0}],"lines":[{"worker":0,"replica":1,"fail":[2,5]}]}\n'
     + frame(1, 6, 0, 0)),
    ('volume v 1G\nreplicas 1\nstream 0 commands\n', b'{"volume":"v","size":1073741824,"replicas":1,"streams":[{"control":[]}]}\n'),
    ('json {"volume":"v","size":2097153,"replicas":1,"streams":[{"frames":26},{"control":[]},{"frames":1}]}\nstream 0 frames\n  ping\n'
     'stream 2 frames\n  bytes "x"\n',
     b'{"volume":"v","size":2097153,"replicas":1,"streams":[{"frames":26},{"control":[]},{"frames":1}]}\n' + frame(1, 6, 0, 0) + b'x'),
    ('json\nstream frames\n  ping\n', b'\n' + frame(1, 6, 0, 0)),
    ('json  {} \nstream frames\n', b' {} \n'),
    ('bytes ""\n', b''),
    ('bytes "{}"\n', b'{}'),
    ('bytes hex ff0a\n', b'\xff\n'),
]


class MakeAndShow(unittest.TestCase):
    def test_a_text_makes_its_bytes_and_they_show_it(self):
        for given, made in PAIRS:
            with self.subTest(given):
                self.assertEqual(script.make(given), made)
                self.assertEqual(script.show(made), given)

    def test_show_of_make_is_the_text_for_1000_texts(self):
        source = random.Random(7)
        for _ in range(1000):
            given = canonical_text(source)
            self.assertEqual(script.show(script.make(given)), given)

    def test_make_of_show_is_the_bytes_for_broken_scripts(self):
        source = random.Random(8)
        for _ in range(500):
            bytes_ = bytearray(script.make(canonical_text(source)))
            for _ in range(source.randint(1, 3)):
                place = source.randrange(len(bytes_) + 1)
                bytes_[place:place + source.choice([0, 1, 1, 40])] = source.choice([b'', b'\n', b'x', b'\xff', b'9', b'\x01\x1b'])
            self.assertEqual(script.make(script.show(bytes(bytes_))), bytes(bytes_))

    def test_make_of_show_is_the_bytes_of_lines_in_another_spelling(self):
        members = [b'"volume":"v"', b'"size":2097152', b'"replicas":1', b'"streams":[{"frames":26}]']
        ping = frame(1, 6, 0, 0)
        lines = [b','.join(members) + more for more in (b'', b',"lines":[]', b',"now":""', b',"open":false', b',"x":[[[]]]', b',"x":1e3',
                                                        b',"size":2097152', b',"lines":[{"worker":0,"replica":0,"fail":[2,1]}]')]
        lines += [b','.join(reversed(members)), b', '.join(members), b',"open":true,'.join([b','.join(members[:3]), members[3]])]
        lines += [b','.join([*members[:1], size, *members[2:]]) for size in (b'"size":2097152.0', b'"size":"2097152"', b'"size":true')]
        lines += [b','.join([*members[:3], streams]) for streams in (b'"streams":[{"frames":26,"control":[]}]', b'"streams":[]', b'"streams":5',
                                                                     b'"streams":[{"frames":26.0}]', b'"streams":[{"frames":true}]')]
        for line in lines:
            given = b'{' + line + b'}\n' + ping
            with self.subTest(given):
                shown = script.show(given)
                self.assertEqual(script.make(shown), given)
                self.assertIn('ping', shown)

    def test_a_text_in_other_forms_makes_the_same_bytes(self):
        given = '# a comment\r\nvolume  v 2048K\r\n\r\nstream frames\r\n  write 0K "a"\r\nread 1024 1\n\tclose seq 3'
        self.assertEqual(script.make(given), framed(frame(1, 1, 0, 1, b'a'), frame(2, 0, 1024, 1), frame(3, 5, 0, 0)))

    def test_bytes_of_a_file_are_found_from_the_folder_of_the_text(self):
        with tempfile.TemporaryDirectory() as folder:
            with open(os.path.join(folder, 'some bytes'), 'wb') as file:
                file.write(b'\0\xffabc')
            self.assertEqual(script.make(text('write 0 file "some bytes" seq 4'), folder), framed(frame(4, 1, 0, 5, b'\0\xffabc')))
            with open(os.path.join(folder, 'text'), 'w') as file:
                file.write(text('write 0 file "some bytes" "d"'))
            ended = subprocess.run([sys.executable, TOOL, 'make', os.path.join(folder, 'text')], capture_output=True)
            self.assertEqual(ended.stdout, framed(frame(1, 1, 0, 6, b'\0\xffabcd')))

    def test_calls_are_counted_to_their_limit(self):
        self.assertEqual(frame_text.MOST_CALLS, 65536)
        with unittest.mock.patch.object(frame_text, 'MOST_CALLS', 50):
            most = text(*['ping'] * 50, 'close')
            self.assertEqual(script.show(script.make(most)), most)
            with self.assertRaisesRegex(script.BadLine, 'line 54: .*at most 50 calls'):
                script.make(text(*['ping'] * 51))
            more = framed(*(frame(number, 6, 0, 0) for number in range(1, 60)))
            self.assertIn('bytes', script.show(more))
            self.assertEqual(script.make(script.show(more)), more)


class RandomBytes(unittest.TestCase):
    def test_they_are_those_of_splitmix64(self):
        numbers = (6457827717110365317, 3203168211198807973, 9817491932198370423, 4593380528125082431, 16408922859458223821)
        self.assertEqual(byte_text.random_bytes(1234567, 40), struct.pack('<5Q', *numbers))
        self.assertEqual(byte_text.random_bytes(1234567, 13), struct.pack('<5Q', *numbers)[:13])

    def test_their_seed_is_found(self):
        source = random.Random(9)
        for seed in (0, 1, 2 ** 63, 2 ** 64 - 1, *(source.randrange(2 ** 64) for _ in range(50))):
            self.assertEqual(byte_text.seed_of(byte_text.random_bytes(seed, 21)), seed)
        self.assertIsNone(byte_text.seed_of(byte_text.random_bytes(3, 100) + b'x'))
        self.assertIsNone(byte_text.seed_of(byte_text.random_bytes(3, 15)))


HEAD = 'volume v 2M\n'
FRAMES = HEAD + 'stream frames\n'
COMMANDS = HEAD + 'replicas 2\nstream commands\n'
# A text, the line that is named, or None for the text as a whole, and what is said of it.
BAD_TEXTS = [
    ('', None, 'needs `volume NAME SIZE`'),
    (HEAD, None, '1 to 16 streams'),
    ('volume v\n', 1, '`volume v 2M`'),
    ('volume -v 2M\n', 1, 'a letter or a digit first'),
    ('volume v 3M\n', 1, 'a multiple of 2M'),
    ('volume v 2G\n', 1, 'from 2M to 1G'),
    ('volume v 2m\n', 1, 'such as 512, 4K, 1M'),
    ('# comment\n\nvolme v 2M\n', 3, 'begins no line before the streams'),
    (HEAD + HEAD, 2, 'once'),
    (HEAD + 'replicas 9\n', 2, 'from 1 to 8'),
    (HEAD + 'replicas 01\n', 2, 'from 1 to 8'),
    (HEAD + 'open yes\n', 2, 'alone on a line'),
    (HEAD + 'now today\n', 2, 'now "TEXT"'),
    (HEAD + 'now "%s"\n' % ('x' * 41), 2, 'at most 40'),
    (HEAD + 'now "x\n', 2, 'begins and ends with'),
    (HEAD + 'fault 0 1 2\n', 2, 'fault worker W replica R carries N'),
    (HEAD + 'fault worker 0 replica 0 carries 2 2\n', 2, 'each greater than the one before'),
    (HEAD + 'fault worker 0 replica 0 carries 0\n', 2, 'from 1 to 4294967295'),
    (HEAD + 'fault worker 0 replica 0 carries 1\nfault worker 0 replica 0 carries 2\n', 3, 'already'),
    (HEAD + 'fault worker 1 replica 0 carries 1\nstream frames\n', 2, 'the last is 0'),
    (HEAD + '\nfault worker 0 replica 1 carries 1\nstream frames\n', 3, 'the last is 0'),
    (HEAD + 'stream writes\n', 2, '`stream frames` or `stream commands`'),
    (HEAD + 'stream 1 frames\n', 2, '`stream 0 frames`'),
    ('stream frames\n', 1, 'before the streams stands'),
    (HEAD + 'stream frames\n' * 17, 18, 'one more'),
    (FRAMES + 'wriet 0 "a"\n', 3, '`wriet` begins no frame'),
    (FRAMES + 'replicas 2\n', 3, 'before the first stream'),
    (FRAMES + 'write 0\n', 3, 'bytes are one or more of'),
    (FRAMES + 'write "0" "a"\n', 3, 'not an offset'),
    (FRAMES + 'write 0 "a\n', 3, 'begins and ends with'),
    (FRAMES + 'write 0 hex 123\n', 3, 'two hexadecimal digits'),
    (FRAMES + 'write 0 fill 1 5\n', 3, 'fill 61 4K'),
    (FRAMES + 'write 0 random 7 64K\n', 3, 'random seed N SIZE'),
    (FRAMES + 'write 0 random 7 64K seq 1\n', 3, 'random seed 7 64K'),
    (FRAMES + 'write 0 random seed 7\n', 3, 'lacks a word'),
    (FRAMES + 'write 0 zeros 1048577\n', 3, 'from 0 to 1048576'),
    (FRAMES + 'write 0 zeros 1M "a"\n', 3, 'more than the 1048576 bytes'),
    (FRAMES + 'write 0 file no-such-file\n', 3, 'cannot be read'),
    (FRAMES + 'read 0\n', 3, 'lacks a word'),
    (FRAMES + 'read 0 4G\n', 3, 'from 0 to 4294967295'),
    (FRAMES + 'read 8589934592G 1\n', 3, 'not an offset'),
    (FRAMES + 'ping 1\n', 3, 'too much'),
    (FRAMES + 'ping seq 4294967296\n', 3, 'not a seq'),
    (FRAMES + 'frame 1 0\n', 3, 'lacks a word'),
    (FRAMES + 'close\nping\n', 4, 'behind `close`'),
    (FRAMES + 'snapshot s\n', 3, '`stream commands`'),
    (COMMANDS + 'snapshot  s\n', 4, 'parted by one space'),
    (COMMANDS + 'snapshot sys-1\n', 4, 'does not begin with `sys-`'),
    (COMMANDS + 'remove sys-01\n', 4, 'write `remove NAME`'),
    (COMMANDS + 'delete s\n', 4, '`snapshot NAME`, `remove NAME`'),
    (COMMANDS + 'fail r2\n', 4, 'the last is r1'),
    (COMMANDS + 'add r1\nadd r2\n', 5, 'the last is r1'),
    (COMMANDS + 'add 1\n', 4, 'write `add rK`'),
    (COMMANDS + 'add r01\n', 4, 'write `add rK`'),
    (COMMANDS + 'add r1 r0\n', 4, 'write `add rK`'),
    (COMMANDS + 'backup b s\nstream commands\nbackup c s\n', 6, 'one stream alone'),
    (COMMANDS + '  status\n  ping\n', 5, 'no command'),
    ('json {}\nvolume v 2M\n', 2, 'in place of all lines'),
    ('json {}\nstream commands\n', 2, 'only streams of frames'),
    ('bytes ""\nstream frames\n', 2, 'before the streams stands'),
    (HEAD + 'bytes ""\n', 2, 'in place of all lines'),
    (HEAD + 'stream commands\n' + 'snapshot %s\n' % ('n' * 64) * 15000, None, 'too many commands'),
]


class BadTexts(unittest.TestCase):
    def test_a_bad_line_is_named_with_what_would_be_right(self):
        for given, number, what in BAD_TEXTS:
            with self.subTest(given[:80]):
                with self.assertRaises(script.BadLine) as caught:
                    script.make(given)
                self.assertEqual(caught.exception.number, number)
                self.assertIn(what, str(caught.exception))


class CommandLine(unittest.TestCase):
    def run_tool(self, *words, given=b''):
        """The status, output and note of the tool."""
        ended = subprocess.run([sys.executable, TOOL, *words], input=given, capture_output=True)
        return ended.returncode, ended.stdout, ended.stderr.decode()

    def test_make_and_show_pass_bytes_on(self):
        given, made = PAIRS[1]
        self.assertEqual(self.run_tool('make', given=given.encode()), (0, made, ''))
        self.assertEqual(self.run_tool('show', '-', given=made), (0, given.encode(), ''))

    def test_a_bad_line_writes_nothing(self):
        self.assertEqual(self.run_tool('make', given=b'volume v 2M\nreplica 2\n')[:2], (1, b''))
        status, output, note = self.run_tool('make', 'no-such-file')
        self.assertEqual((status, output, note), (1, b'', 'no-such-file: No such file or directory\n'))
        self.assertEqual(self.run_tool('make', given=b'\xff')[:2], (1, b''))

    def test_each_help_tells_the_lines_of_a_text(self):
        for words in (['--help'], ['make', '--help'], ['show', '--help']):
            status, output, _ = self.run_tool(*words)
            self.assertEqual(status, 0)
            self.assertIn(b'random seed N SIZE', output)


if __name__ == '__main__':
    unittest.main()
