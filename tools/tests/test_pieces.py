"""Tests of the built program with one worker on streams that are longer than a piece: its reader of frames gets 65,536 bytes at once,
or as many as the longest frame has, and a frame may lie over the end of a piece anywhere."""
import subprocess
import unittest

import asked
import one_worker
import script
from built_program import LAUNCHER, ProgramTest

PIECE = 65536
HEADER = 26
LONGEST = 1 << 20
# How many frames without data a piece has room for.
IN_PIECE = PIECE // HEADER
HEAD = 'volume v 4M\nreplicas 2\nstream frames\n'
PING = '  ping\n'
READ = '  read 4095 2\n'
LONG = '  write %d %s 1M\n'


class Pieces(ProgramTest):
    def ended(self, given):
        return subprocess.run([LAUNCHER, 'run', '--workers', 'one'], input=given, capture_output=True)

    def assert_served(self, text):
        """The program prints what the slow executor prints."""
        given = script.make(text)
        ended = self.ended(given)
        self.assertEqual((ended.returncode, ended.stderr), (0, b''), text[:300])
        self.assertTrue(ended.stdout == one_worker.report_of(asked.read_script(given)).encode(), text[:300])

    def test_frames_without_data_over_the_ends_of_pieces(self):
        self.assert_served(HEAD + '  write 4090 "abcdefghij"\n' + (PING + READ) * (IN_PIECE + 40))

    def test_the_longest_frames_over_the_ends_of_pieces(self):
        for before, content in ((0, 'random seed 1'), (IN_PIECE - 1, 'fill 61'), (IN_PIECE, 'fill 62'), (IN_PIECE + 1, 'fill 63')):
            self.assert_served(HEAD + PING * before + LONG % (4095, content) + READ + LONG % (2 << 20, 'fill 64') + '  write 7 "abc"\n' + READ)

    def test_frames_that_end_where_a_piece_does(self):
        for length in PIECE - HEADER - 1, PIECE - HEADER, PIECE - HEADER + 1, PIECE - 2 * HEADER:
            self.assert_served(HEAD + ('  write 4095 fill 65 %d\n' % length + READ) * 3 + '  close\n')

    def test_what_is_bad_behind_the_end_of_a_piece_has_its_place(self):
        given = script.make(HEAD + PING * (IN_PIECE + 5) + LONG % (0, 'fill 66'))
        line = given.index(b'\n') + 1
        for frame, told in ((IN_PIECE, IN_PIECE), (IN_PIECE + 4, IN_PIECE + 4), (IN_PIECE + 5, IN_PIECE + 5)):
            bent = bytearray(given)
            bent[line + frame * HEADER] ^= 1
            ended = self.ended(bytes(bent))
            self.assertEqual((ended.returncode, ended.stdout, ended.stderr), (3, b'', b'script %d frame\n' % (line + told * HEADER)))
        # The last frame tells of a byte more than there is.
        bent = bytearray(given)
        place = line + (IN_PIECE + 5) * HEADER
        bent[place + 22:place + 26] = (LONGEST + 1).to_bytes(4, 'little')
        ended = self.ended(bytes(bent))
        self.assertEqual((ended.returncode, ended.stdout, ended.stderr), (3, b'', b'script %d frame\n' % place))


if __name__ == '__main__':
    unittest.main()
