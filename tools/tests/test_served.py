"""Tests of the built program that serves one replica by frames, and of the load that it generates itself."""
import contextlib
import os
import random
import resource
import subprocess
import tempfile
import threading
import unittest

import generated_load
from built_program import LAUNCHER, PROGRAM, ProgramTest
from frame_text import CLOSE, HEADER, PING, READ, WRITE, Frame, pack_frame
from plain_disk import PlainDisk

SIZE = 1 << 21
CALLS = 10_000
# How many bytes are written into the pipe at once.
PIECES = (1, 25, 26, 27, 65_536)
# A client that hears nothing for so many seconds gives up.
LIMIT = 60


class Client:
    """What a client knows: a plain disk of zeros, and what each frame is answered on it."""

    def __init__(self, size):
        self.size, self.disk = size, PlainDisk()

    def reply(self, asked):
        """The frame that replies, by the table of replies."""
        refusal, content, size = self.refusal(asked), b'', 0
        if refusal:
            return pack_frame(Frame(asked.seq, 3, asked.offset, len(refusal), refusal))
        if asked.kind == READ:
            content = self.disk.read(asked.offset, asked.size)
            size = len(content)
        elif asked.kind == WRITE:
            self.disk.write(asked.offset, asked.content)
            size = len(asked.content)
        return pack_frame(Frame(asked.seq, 2, asked.offset, size, content))

    def refusal(self, asked):
        """Why a frame is refused, or nothing."""
        if asked.kind not in (READ, WRITE, PING):
            return b'unsupported'
        if asked.kind == READ and asked.size > 1 << 20:
            return b'too long'
        length = asked.size if asked.kind == READ else len(asked.content)
        return b'' if asked.kind == PING or 0 <= asked.offset <= self.size - length else b'out of range'


def frame(chance, seq, longest):
    """A frame of chance: mostly a read or a write, near the edges of blocks, of the volume, or anywhere."""
    offset = chance.choice([chance.randrange(SIZE), 4096 * chance.randrange(SIZE // 4096) - chance.randrange(3), SIZE - chance.randrange(5)])
    kind = chance.choice([READ, READ, READ, WRITE, WRITE, WRITE, WRITE, PING, 7, 2 ** 32 - 1])
    length = chance.choice([0, 1, 5, 4096, chance.randrange(longest)])
    content = chance.randbytes(length) if kind == WRITE else chance.choice([b'', b'', b'unread'])
    return Frame(seq, kind, offset, chance.choice([length, length, 1048577]) if kind == READ else chance.randrange(9), content)


def frames(seed, count, longest):
    """Frames of chance, and the bytes that reply to them."""
    chance, client = random.Random(seed), Client(SIZE)
    asked = [frame(chance, chance.randrange(2 ** 32), longest) for _ in range(count)]
    return b''.join(map(pack_frame, asked)), b''.join(map(client.reply, asked))


@contextlib.contextmanager
def serving(program=LAUNCHER, **streams):
    """The program that serves a replica, with both of its streams to be written and read as they come; it is ended after a while."""
    streams = {'stdin': subprocess.PIPE, 'stdout': subprocess.PIPE, 'stderr': subprocess.PIPE, **streams}
    with subprocess.Popen([program, 'replica', str(SIZE)], bufsize=0, **streams) as served:
        watch = threading.Timer(LIMIT, served.kill)
        watch.start()
        try:
            yield served
        finally:
            watch.cancel()
            served.kill()


def read_whole(stream, count):
    """So many bytes, or less where the stream ends."""
    parts, lacking = [], count
    while lacking:
        part = stream.read(lacking)
        if not part:
            break
        parts.append(part)
        lacking -= len(part)
    return b''.join(parts)


def write_pieces(stream, content, length):
    """Writes all, so many bytes at a time, as far as somebody reads them."""
    with contextlib.suppress(BrokenPipeError), stream:
        for at in range(0, len(content), length):
            stream.write(content[at:at + length])


class Served(ProgramTest):
    def served(self, given, size=SIZE):
        """The code, what was sent back, and the note."""
        ended = subprocess.run([LAUNCHER, 'replica', str(size)], input=given, capture_output=True, timeout=LIMIT)
        return ended.returncode, ended.stdout, ended.stderr

    def test_a_client_that_waits_for_each_reply_is_answered(self):
        chance, client = random.Random(1), Client(SIZE)
        with serving() as served:
            for call in range(CALLS):
                asked = frame(chance, call, 9000)
                served.stdin.write(pack_frame(asked))
                wanted = client.reply(asked)
                self.assertEqual(read_whole(served.stdout, len(wanted)), wanted, (call, asked))
            served.stdin.close()
            self.assertEqual((served.stdout.read(), served.stderr.read(), served.wait()), (b'', b'', 0))

    def test_a_client_may_wait_within_a_frame(self):
        given, wanted = frames(2, 1, 100)
        with serving() as served:
            served.stdin.write(given + given[:25])
            self.assertEqual(read_whole(served.stdout, len(wanted)), wanted)
            served.stdin.close()
            self.assertEqual((served.stdout.read(), served.stderr.read(), served.wait()), (b'', b'frame %d\n' % len(given), 11))

    def test_a_client_that_closes_need_not_end_its_input(self):
        with serving() as served:
            served.stdin.write(pack_frame(Frame(1, PING, 0, 0)) + pack_frame(Frame(2, CLOSE, 0, 0)) + b'more')
            self.assertEqual((served.stdout.read(), served.wait()), (pack_frame(Frame(1, 2, 0, 0)), 0))

    def test_frames_may_come_in_any_pieces(self):
        for length in PIECES:
            given, wanted = frames(length, 300 if length < 1000 else 60, 3000 if length < 1000 else 1 << 20)
            with self.subTest(length=length), serving() as served:
                writer = threading.Thread(target=write_pieces, args=(served.stdin, given, length))
                writer.start()
                sent = served.stdout.read() if length < 1000 else read_whole(served.stdout, len(wanted) + 1)
                writer.join()
                self.assertTrue(sent == wanted)
                self.assertEqual((served.stderr.read(), served.wait()), (b'', 0))

    def test_a_read_of_a_blank_replica(self):
        asked = bytes.fromhex('011b 01000000 00000000 0000000000000000 00100000 00000000')
        sent = bytes.fromhex('011b 01000000 02000000 0000000000000000 00100000 00100000') + bytes(4096)
        self.assertEqual(self.served(asked), (0, sent, b''))
        self.assertEqual(self.served(asked + bytes(2)), (11, sent, b'frame 26\n'))

    def test_what_is_no_frame_is_told_by_its_place(self):
        ping, sent = pack_frame(Frame(1, PING, 0, 0)), pack_frame(Frame(1, 2, 0, 0))
        too_long = HEADER.pack(0x1b01, 1, WRITE, 0, 0, (1 << 20) + 1)
        for behind in (b'\x01', b'\x02\x1b', ping[:25], HEADER.pack(0x1b01, 1, WRITE, 0, 1, 1), too_long, too_long + bytes(1 << 21)):
            self.assertEqual(self.served(ping * 2 + behind), (11, sent * 2, b'frame 52\n'), behind[:30])
        self.assertEqual(self.served(pack_frame(Frame(1, CLOSE, 0, 0)) + too_long), (0, b'', b''))

    def test_the_largest_volume_is_served(self):
        last = (1 << 30) - 1
        asked = [Frame(1, WRITE, last, 1, b'z'), Frame(2, READ, last - 1, 2), Frame(3, READ, last, 2)]
        sent = b''.join(map(Client(last + 1).reply, asked))
        self.assertEqual(self.served(b''.join(map(pack_frame, asked)), last + 1), (0, sent, b''))

    @unittest.skipUnless(os.path.exists('/dev/full'), 'no full device here')
    def test_a_full_device_is_a_write_fault(self):
        with open('/dev/full', 'wb') as full, serving(stdout=full) as served:
            served.stdin.write(pack_frame(Frame(1, PING, 0, 0)))
            self.assertEqual((served.stderr.read(), served.wait()), (b'write fault\n', 5))

    @unittest.skipIf(os.environ.get('LONGHORN_TESTED'), 'another program may open what is closed')
    def test_an_output_that_is_closed_is_a_write_fault(self):
        with serving(PROGRAM, stdout=subprocess.DEVNULL, preexec_fn=lambda: os.close(1)) as served:
            served.stdin.write(pack_frame(Frame(1, PING, 0, 0)))
            self.assertEqual((served.stderr.read(), served.wait()), (b'write fault\n', 5))

    def test_an_output_that_nobody_reads_any_more_has_a_beginning(self):
        given, wanted = frames(3, 400, 100_000)
        for count in (0, 1, 26, 70_000):
            with self.subTest(count=count), serving() as served:
                writer = threading.Thread(target=write_pieces, args=(served.stdin, given, 65_536))
                writer.start()
                sent = read_whole(served.stdout, count)
                served.stdout.close()
                self.assertEqual((sent, served.stderr.read(), served.wait()), (wanted[:count], b'write fault\n', 5))
                writer.join()

    def test_a_file_that_may_grow_no_more_has_a_beginning(self):
        given, wanted = frames(4, 100, 100_000)

        def limit():
            resource.setrlimit(resource.RLIMIT_FSIZE, (100_000, 100_000))
        # The signal for that, which would end the program, is left ignored.
        with tempfile.TemporaryFile() as kept, serving(stdout=kept, restore_signals=False, preexec_fn=limit) as served:
            write_pieces(served.stdin, given, 65_536)
            self.assertEqual((served.stderr.read(), served.wait()), (b'write fault\n', 5))
            kept.seek(0)
            self.assertEqual(kept.read(), wanted[:100_000])

    def test_a_folder_as_input_is_a_read_fault(self):
        with tempfile.TemporaryDirectory() as folder:
            handle = os.open(folder, os.O_RDONLY)
            try:
                with serving(stdin=handle) as served:
                    self.assertEqual((served.stdout.read(), served.stderr.read(), served.wait()), (b'', b'read fault\n', 4))
            finally:
                os.close(handle)

    def test_words_that_ask_for_no_replica(self):
        for words in ([], ['0'], ['2097153'], ['02097152'], ['1075838976'], ['2M'], ['2097152', '1'], ['-1']):
            ended = subprocess.run([LAUNCHER, 'replica', *words], stdin=subprocess.DEVNULL, capture_output=True)
            self.assertEqual((ended.returncode, ended.stdout, ended.stderr), (2, b'', b'usage\n'), words)


class Generated(ProgramTest):
    def generated(self, *words):
        """The code, what was printed, and the note."""
        ended = subprocess.run([LAUNCHER, 'gen', *map(str, words)], stdin=subprocess.DEVNULL, capture_output=True, timeout=LIMIT)
        return ended.returncode, ended.stdout.decode(), ended.stderr

    def test_one_call(self):
        # Of 0, the first four draws are a write of 3,090 bytes `74` at 718,600.
        reply = bytes.fromhex('011b 01000000 02000000 08f70a0000000000 120c0000 00000000')
        disk = bytes(718600) + b'\x74' * 3090 + bytes(SIZE - 718600 - 3090)
        wanted = ['stream 0 ' + generated_load.digest(reply), 'control ok,ok,ok,ok,ok', 'modes RW,RW', 'chain head sys-1',
                  'disk ' + generated_load.digest(disk)]
        self.assertEqual(self.generated(0, 1, 1), (0, '\n'.join(wanted) + '\n', b''))

    def test_the_summary_is_that_of_a_slow_run(self):
        for words in ((0, 1, 1), (2 ** 64 - 1, 2, 30), (5, 1, 200), (7, 15, 64)):
            self.assertEqual(self.generated(*words), (0, generated_load.summary_of(*words), b''), words)

    def test_the_summary_is_the_same_at_each_run(self):
        first = self.generated(7, 15, 64)
        self.assertEqual(first[0], 0)
        for _ in range(19):
            self.assertEqual(self.generated(7, 15, 64), first)

    @unittest.skipUnless(os.path.exists('/dev/full'), 'no full device here')
    def test_a_full_device_is_a_write_fault(self):
        with open('/dev/full', 'wb') as full:
            ended = subprocess.run([LAUNCHER, 'gen', '0', '1', '1'], stdin=subprocess.DEVNULL, stdout=full, stderr=subprocess.PIPE)
        self.assertEqual((ended.returncode, ended.stderr), (5, b'write fault\n'))

    def test_words_that_ask_for_no_load(self):
        for words in ('', '0', '0 1', '0 0 1', '0 16 1', '0 1 0', '0 1 4097', '18446744073709551616 1 1', '00 1 1', '0 1 1 1', '-1 1 1'):
            ended = subprocess.run([LAUNCHER, 'gen', *words.split()], stdin=subprocess.DEVNULL, capture_output=True)
            self.assertEqual((ended.returncode, ended.stdout, ended.stderr), (2, b'', b'usage\n'), words)


if __name__ == '__main__':
    unittest.main()
