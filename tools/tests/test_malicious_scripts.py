"""Tests of the built program on scripts, words and frames that are meant to harm: each ends in time, in little memory, and with its
own status and note."""
import struct
import unittest

from bad_inputs import DIGITS, LINE, SERVED, BadInputTest, deep, refused
from json_text import DEEPEST, depth
from script_head import MOST_LINE

PING = struct.pack('<HIIqII', 0x1b01, 1, 6, 0, 0, 0)
CLOSE = struct.pack('<HIIqII', 0x1b01, 1, 5, 0, 0, 0)
MOST_CALLS = 65536
JSON = refused(b'json')
NO_STREAMS = refused(b'member streams')

# Values that are nested, and whether they are read as a member's: the object of the line is one of the 127 levels.
NESTED = [
    (deep(b'[', b']', 126), True), (deep(b'[', b']', 127), False), (deep(b'[', b']', 130), False),
    (deep(b'{"a":', b'}', 126, b'0'), True), (deep(b'{"a":', b'}', 127, b'0'), False), (deep(b'{"":[', b']}', 63), True),
    (deep(b'{"":[', b']}', 64), False), (deep(b'[', b']', 100000), False), (deep(b'{"a":', b'}', 100000, b'0'), False),
    (b'[' * 100000, False), (b'{"a":' * 100000, False), (b'[{"":' * 100000, False), (b']' * 100000, False),
    (b'[' + b','.join([deep(b'[', b']', 125)] * 1000) + b']', True),
]

# Numbers, and whether they are read: what is past a double's range is none, however it is spelled.
NUMBERS = [
    (DIGITS, False), (b'-' + DIGITS, False), (b'0' + DIGITS, False), (b'0' * 10000, False), (b'0.' + DIGITS, True),
    (b'-0.' + b'0' * 10000, True), (DIGITS + b'.0', False), (DIGITS + b'e-9999', True), (b'1' + b'0' * 10000 + b'e-10000', True),
    (b'1e' + DIGITS, False), (b'1e-' + DIGITS, True), (b'-1E+' + DIGITS, False), (b'0e' + DIGITS, True), (b'1e308', True),
    (b'1e309', False), (b'9' * 308, True), (b'9' * 309, False), (b'1' + b'0' * 308, True), (DIGITS + b'x', False), (DIGITS + b'.', False),
]

# Members that hold what is long, and the first that is refused.
LONG_MEMBERS = [
    (b',"size":2097152.' + b'0' * 10000, b'size'), (b',"size":' + DIGITS + b'e-9999', b'size'), (b',"size":"%s"' % DIGITS, b'size'),
    (b',"replicas":0.' + DIGITS, b'replicas'), (b',"now":"%s"' % DIGITS, b'now'), (b',"volume":"%s"' % DIGITS, b'volume'),
    (b',"volume":"%s"' % (b'v' * 1000000), b'volume'), (b',"streams":[{"frames":1e-%s}]' % DIGITS, b'streams'),
    (b',"streams":[{"control":["remove sys-%s"]}]' % DIGITS, b'streams'), (b',"streams":[{"control":["add r%s"]}]' % DIGITS, b'streams'),
    (b',"streams":[{"control":["status%s"]}]' % (b' ' * 900000), b'streams'), (b',"streams":[%s]' % deep(b'[', b']', 125), b'streams'),
    (b',"streams":[%s]' % b','.join([b'{"frames":0}'] * 17), b'streams'),
    (b',"streams":[%s]' % b','.join([b'{"frames":0}'] * 60000), b'streams'),
    (b',"lines":[%s]' % b','.join([b'{"worker":0,"replica":0,"fail":[]}'] * 29000), b'lines'),
    (b',"lines":[{"worker":0,"replica":0,"fail":[0.%s]}]' % DIGITS, b'lines'),
]

# What a text may hold, each way of an escape, and what none may: halves of pairs, escapes that are none, and control characters.
TEXTS = [
    rb'\"', rb'\\', rb'\/', rb'\b', rb'\f', rb'\n', rb'\r', rb'\t', rb'\u0000', rb'\uFFFF', rb'\uffff', rb'\uD834\uDD1E', rb'\ud834\uDd1e',
    rb'\ud800\udc00', rb'\udbff\udfff', rb'\ud7ff', rb'\ue000', rb'\\ud800', b'\x7f', b'\xc2\x80', b'\xdf\xbf', b'\xe0\xa0\x80',
    b'\xed\x9f\xbf', b'\xee\x80\x80', b'\xef\xbb\xbf', b'\xef\xbf\xbf', b'\xf0\x90\x80\x80', b'\xf4\x8f\xbf\xbf', rb'\"' * 100000,
    rb'\u0000' * 150000,
]
NO_TEXTS = [
    rb'\ud800', rb'\uDBFF', rb'\udc00', rb'\udfff', rb'\ud800\ud800', rb'\udc00\ud800', rb'\ud800\u0041', rb'\ud800x', rb'\ud800\n',
    rb'\ud800\\udc00', rb'\ud800\udc0', rb'\ud800' * 1000, rb'\x41', rb'\u', rb'\u004', rb'\u00g1', rb'\U00000041', rb"\'", rb'\a', rb'\v',
    rb'\0', rb'\e', rb'\u+041', rb'\u 041', rb'\u{41}', b'\\', b'\\\t', b'\x80', b'\xbf', b'\xc0\xaf', b'\xc1\xbf', b'\xc3', b'\xe0\x80\x80',
    b'\xe0\x9f\xbf', b'\xe2\x82', b'\xed\xa0\x80', b'\xed\xbf\xbf', b'\xed\xa0\xbd\xed\xb8\x80', b'\xf0\x80\x80\x80', b'\xf0\x8f\xbf\xbf',
    b'\xf4\x90\x80\x80', b'\xf5\x80\x80\x80', b'\xf8\x88\x80\x80\x80', b'\xfe', b'\xff', *(bytes([code]) for code in range(32)),
]
TIMES = [(rb'\u0041\"\\\/ ~' + b'x' * 34, True), (b'x' * 41, False), (rb'\t', False), (rb'\u0000', False), (rb'\u007f', False), (b'\x7f', False),
         (rb'\u00e9', False), (rb'\ud834\udd1e', False), (rb'\u0020' * 40, True)]

# Commands whose names are as long as may be, and what each is answered.
LONGEST = [
    (b'snapshot ' + b'n' * 64, b'ok'), (b'snapshot ' + b'-' * 64, b'ok'), (b'snapshot Sys-' + b'0' * 60, b'ok'),
    (b'remove ' + b'n' * 64, b'ok'), (b'revert ' + b'm' * 64, b'error no such snapshot'), (b'remove sys-9999999999', b'error no such snapshot'),
    (b'backup %s %s' % (b'b' * 64, b'-' * 64), b'ok'), (b'backup %s %s' % (b'0' * 64, b'n' * 64), b'error no such snapshot'),
]
# Commands with a byte more.
TOO_LONG = [b'snapshot ' + b'n' * 65, b'snapshot ' + b'n' * 900000, b'remove ' + b'n' * 65, b'revert ' + b'n' * 65, b'remove sys-10000000000',
            b'backup %s s' % (b'b' * 65), b'backup b ' + b'n' * 65, b'snapshot ' + rb'\u00e9' * 32, b'snapshot ' + b'\xc3\xa9' * 32,
            rb'snapshot a\u0000', b'snapshot ' + b'n' * 64 + b' ']


def script(streams, rest=b''):
    """A script of these streams, each as JSON."""
    return LINE % (b',"streams":[%s]' % b','.join(streams)) + rest


def control(texts):
    """A stream of commands."""
    return b'{"control":[%s]}' % b','.join(b'"%s"' % text for text in texts)


class Scripts(BadInputTest):
    def test_values_are_nested_to_a_limit(self):
        for value, is_read in NESTED:
            self.assert_ends(SERVED if is_read else JSON, LINE % (b',"x":' + value))
            self.assert_ends(refused(b'member volume') if value.startswith(b'{') and depth(value.decode()) <= DEEPEST else JSON, value + b'\n')

    def test_numbers_of_many_digits(self):
        for value, is_read in NUMBERS:
            for member in b'"x"', b'"x":[0],"y"':
                self.assert_ends(SERVED if is_read else JSON, LINE % (b',%s:%s' % (member, value)))
        for member in b'"size"', b'"replicas"', b'"streams":[{"frames":0}],"open"':
            self.assert_ends(JSON, LINE % (b',%s:%s' % (member, DIGITS)))

    def test_members_that_are_long(self):
        for end, member in LONG_MEMBERS:
            self.assert_ends(refused(b'member ' + member), LINE % end)

    def test_texts_with_every_escape(self):
        for text in [*TEXTS, b''.join(TEXTS[:-2])]:
            self.assert_ends(SERVED, LINE % (b',"x":"%s"' % text))
            self.assert_ends(SERVED, LINE % (b',"x%s":[]' % text))
        for text in NO_TEXTS:
            self.assert_ends(JSON, LINE % (b',"x":"%s"' % text))
            self.assert_ends(JSON, LINE % (b',"x%s":[]' % text))
        for text, is_time in TIMES:
            self.assert_ends(SERVED if is_time else refused(b'member now'), LINE % (b',"now":"%s"' % text))
        for text in rb'v\u0000', rb'\u0000', rb'v\n', rb'\ud834\udd1e':
            self.assert_ends(refused(b'member volume'), LINE % (b',"volume":"%s"' % text))
        # A mark of the order of bytes is no JSON.
        self.assert_ends(JSON, b'\xef\xbb\xbf' + LINE % b'')

    def test_a_line_ends_at_its_limit(self):
        for begin, fill, end in ((b'', b' ', b''), (b',"x":"', b'a', b'"'), (b',"x":[', b'\t', b']'), (b',"x":"', b'\xff', b'"')):
            for length, is_line in ((MOST_LINE - 1, True), (MOST_LINE, True), (MOST_LINE + 1, False), (MOST_LINE + 5000, False)):
                line = LINE % (begin + fill * (length - len(LINE % (begin + end))) + end)
                self.assertEqual(len(line), length)
                self.assert_ends(refused(b'line') if not is_line else JSON if fill == b'\xff' else SERVED, line)
        for given in (b'x' * MOST_LINE, b'x' * (MOST_LINE - 1), b'{' + b' ' * (3 * MOST_LINE), b'x' * MOST_LINE + b'\n'):
            self.assert_ends(refused(b'line'), given)
        self.assert_ends(JSON, b'x' * (MOST_LINE - 1) + b'\n')
        # Places count the line.
        line = LINE % (b',"streams":[{"frames":25}]' + b' ' * (MOST_LINE - len(LINE) - 24))
        self.assertEqual(len(line), MOST_LINE)
        self.assert_ends(refused(b'frame', MOST_LINE), line + PING[:25])
        self.assert_ends(refused(b'rest', MOST_LINE + 24), line + PING[:24])
        self.assert_ends(refused(b'rest', MOST_LINE + 25), line + PING)

    def test_the_tree_of_a_line_is_bounded_by_its_length(self):
        one = deep(b'{"":', b'}', 125, b'0')
        for value in (b'{"":0}', b'[0]', b'[]', b'0', b'""', one, deep(b'[', b']', 125)):
            values = b','.join([value] * (1000000 // (len(value) + 1)))
            given = LINE % (b',"x":[%s]' % values)
            self.assert_ends(SERVED, given, held=128 * len(given))
        for keys in (range(100000), range(100000, 0, -1), [7] * 100000):
            given = LINE % (b',"x":{%s}' % b','.join(b'"%05d":0' % key for key in keys))
            self.assert_ends(SERVED, given, held=128 * len(given))

    def test_names_end_at_their_limit(self):
        entries = b''.join(b'%d %d 0 %d %s %s\n' % (place, place, place, *told) for place, told in enumerate(LONGEST))
        status, printed, note = self.measure(['run', '--workers', 'one'], script([control(text for text, _ in LONGEST)]))
        self.assertEqual((status, printed[:len(entries)], note), (0, entries, b''))
        for text in TOO_LONG:
            self.assert_ends(NO_STREAMS, script([control([text])]))
        self.assert_ends(SERVED, LINE % (b',"volume":"%s"' % (b'v' * 64)))
        self.assert_ends(refused(b'member volume'), LINE % (b',"volume":"%s"' % (b'v' * 65)))

    def test_commands_are_counted_to_their_limit(self):
        for streams in ([MOST_CALLS], [1, MOST_CALLS - 1], [4096] * 16):
            given = script([control([b'status'] * count) for count in streams])
            status, printed, note = self.measure(['run', '--workers', 'one'], given)
            self.assertEqual((status, printed.count(b' status ok layers 1 modes RW\n'), note), (0, MOST_CALLS, b''))
        for streams, what in (([MOST_CALLS + 1], b'member streams'), ([1, MOST_CALLS], b'calls'), ([0, MOST_CALLS + 1], b'member streams'),
                              ([4096] * 15 + [4097], b'calls')):
            self.assert_ends(refused(what), script([control([b'status'] * count) for count in streams]))
        self.assert_ends(NO_STREAMS, script([control([b''] * MOST_CALLS)]))

    def test_frames_are_counted_to_their_limit(self):
        for frames, commands, close in ((MOST_CALLS, 0, b''), (MOST_CALLS, 0, CLOSE), (MOST_CALLS - 1, 1, CLOSE)):
            given = self.counted(frames, commands, close)
            status, printed, note = self.measure(['run', '--workers', 'one'], given)
            self.assertEqual((status, printed.count(b' ping ok\n'), note), (0, frames, b''))
        for frames, commands, close, what, at in (
                (MOST_CALLS + 1, 0, b'', b'calls', MOST_CALLS), (MOST_CALLS + 1, 0, CLOSE, b'calls', MOST_CALLS),
                (MOST_CALLS, 1, b'', b'calls', MOST_CALLS - 1), (1, MOST_CALLS, b'', b'calls', 0),
                (MOST_CALLS, 0, PING[:25], b'frame', MOST_CALLS), (MOST_CALLS, 0, b'\1', b'frame', MOST_CALLS),
                (MOST_CALLS, 0, CLOSE + b'\1', b'frame', MOST_CALLS + 1), (MOST_CALLS - 1, 1, b'\1\x1b', b'frame', MOST_CALLS - 1),
                (0, MOST_CALLS, b'\1', b'frame', 0)):
            given = self.counted(frames, commands, close)
            place = given.index(b'\n') + 1 + at * len(PING)
            self.assert_ends(refused(what, place), given)

    def counted(self, frames, commands, end):
        """A script of so many frames with an end behind, and so many commands behind that."""
        given = PING * frames + end
        return script([b'{"frames":%d}' % len(given), control([b'status'] * commands)], given)

    def test_each_line_may_have_the_most_failures(self):
        carries = b','.join(b'%d' % carry for carry in range(1, 1025))
        plans = [b'{"worker":%d,"replica":%d,"fail":[%s]}' % (worker, replica, carries) for worker in range(16) for replica in range(8)]
        more = b',"replicas":8,"lines":[%s],"streams":[%s]' % (b','.join(plans), b','.join([control([b'snapshot s'])] * 16))
        status, printed, note = self.measure(['run', '--workers', 'one'], LINE % more)
        marks = b''.join(b'%d mark fault 0 r%d 1\n' % (replica, replica) for replica in range(8))
        self.assertEqual((status, printed[:len(marks)], note), (0, marks, b''))
        for bad in (b'1,' + carries, carries + b',1025', carries + b',' + DIGITS):
            last = plans[:-1] + [b'{"worker":15,"replica":7,"fail":[%s]}' % bad]
            given = LINE % more.replace(b','.join(plans), b','.join(last))
            self.assert_ends(JSON if bad.endswith(DIGITS) else refused(b'member lines'), given)

    def test_words_that_are_long(self):
        digits, name = DIGITS.decode(), 'n' * 100000
        rows = [['gen', digits, '1', '1'], ['gen', '0', digits, '1'], ['gen', '0', '1', digits], ['gen', '18446744073709551616', '1', '1'],
                ['replica', digits], ['run', '--workers', digits], ['run', '--workers=' + name], ['run', *['x'] * 10000],
                ['restore', 'n' * 65, 'v'], ['restore', 'b', 'n' * 65], ['restore', name, 'v'], ['backups', 'n' * 65], ['backups', name],
                [name], ['--' + name]]
        for words in rows:
            self.assertEqual(self.measure(words), (2, b'', b'usage\n'), [word[:80] for word in words[:5]])
        for words, kind in ((['restore', 'n' * 64, 'v' * 64], 10), (['backups', 'n' * 64], 0), (['gen', '18446744073709551615', '1', '1'], 0)):
            self.assertEqual(self.measure(words)[0], kind, words)

    def test_frames_that_a_served_replica_cannot_hold(self):
        for given, note in ((PING[:22] + b'\xff' * 4, b'frame 0\n'), (PING * 1000 + PING[:22] + b'\1\0\x10\0', b'frame 26000\n'),
                            (b'\n' * 1000000, b'frame 0\n'), (PING * 40000 + PING[:-1], b'frame 1040000\n')):
            status, printed, told = self.measure(['replica', '2097152'], given)
            self.assertEqual((status, len(printed), told), (11, given.count(PING) * len(PING), note))


if __name__ == '__main__':
    unittest.main()
