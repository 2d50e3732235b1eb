"""Tests of the built program that serves sessions, with clients of this machine that call side by side over TCP."""
import contextlib
import hashlib
import os
import random
import re
import shutil
import signal
import socket
import struct
import subprocess
import sys
import tempfile
import threading
import time
import unittest

import asked
import journal
import refuse_calls
from built_program import LAUNCHER, PROGRAM, TOP, ProgramTest
from frame_text import CLOSE, HEADER, PING, READ, WRITE, Frame, pack_frame
from nbd_client import NbdClient
from report import bytes_of, read_report
from script_head import Head
from served_sessions import MOST_CALLS, free_port
from test_served import SIZE

TOOLS = os.path.join(TOP, 'tools')
MIB = 1 << 20
# Who waits for so many seconds has lost.
LIMIT = 120
# For so long it is seen that nothing comes.
QUIET = 0.3
# A port may be taken between the look at it and its use. So often another one is tried.
TRIES = 5
BLANK = b'mode r0 RW\nchain r0 head\nhead r0 731859029215873fdac1c9f2f8bd25a334abf0f3a9e1b057cf2cacc2826d86b0\n'
READ_4096 = bytes.fromhex('011b 01000000 00000000 0000000000000000 00100000 00000000')
# What fails and what is short in a walk through the calls of one session, with the status of a run in which it does, at least.
MET = {
    'FAILED_CALL': {('socket', 12), ('bind', 12), ('listen', 12), ('accept4', 12), ('recv', 0), ('send', 0), ('write', 5)},
    'SHORT_CALL': {('recv', 0), ('send', 0), ('write', 0)},
}
REPLY_4096 = bytes.fromhex('011b 01000000 02000000 0000000000000000 00100000 00100000') + bytes(4096)


class Peer:
    """A client of a session."""

    def __init__(self, port, room=None):
        self.link = socket.socket()
        if room:
            self.link.setsockopt(socket.SOL_SOCKET, socket.SO_RCVBUF, room)
        self.link.settimeout(LIMIT)
        try:
            self.link.connect(('127.0.0.1', port))
        except OSError:
            self.link.close()
            raise
        self.link.setsockopt(socket.IPPROTO_TCP, socket.TCP_NODELAY, 1)

    def send(self, *frames):
        self.link.sendall(b''.join(map(pack_frame, frames)))

    def take(self, count):
        """So many bytes, or less where no more come. That a stream was cut off is its end too."""
        parts = []
        while count:
            try:
                part = self.link.recv(min(count, MIB))
            except ConnectionResetError:
                break
            if not part:
                break
            parts.append(part)
            count -= len(part)
        return b''.join(parts)

    def take_reply(self):
        """The bytes of the next reply."""
        head = self.take(HEADER.size)
        return head + self.take(HEADER.unpack(head)[5])

    def ask(self, asked):
        """Calls, and waits for the reply."""
        self.send(asked)
        return self.take_reply()

    def hears_nothing(self):
        """Whether nothing comes for a while."""
        self.link.settimeout(QUIET)
        try:
            return bool(self.link.recv(1, socket.MSG_PEEK)) and False
        except TimeoutError:
            return True
        finally:
            self.link.settimeout(LIMIT)

    def talk(self, content, piece=MIB):
        """Sends all, so many bytes at a time, and that nothing follows. Gives a function that waits for all that comes back."""
        came = []
        threads = [threading.Thread(target=self._send_pieces, args=(content, piece)),
                   threading.Thread(target=lambda: came.append(self.take(1 << 40)))]
        for thread in threads:
            thread.start()

        def heard():
            for thread in threads:
                thread.join()
            self.link.close()
            return came[0] if came else None
        return heard

    def _send_pieces(self, content, piece):
        # A session that has ended may cut the stream off.
        with contextlib.suppress(OSError):
            for at in range(0, len(content), piece):
                self.link.sendall(content[at:at + piece])
            self.link.shutdown(socket.SHUT_WR)

    def vanish(self):
        """Cuts the stream off, whatever is under way."""
        self.link.setsockopt(socket.SOL_SOCKET, socket.SO_LINGER, struct.pack('ii', 1, 0))
        self.link.close()


class Serving:
    """A program that serves sessions, one for each client where no other number is given, and the clients in the order in which
    they came."""

    def __init__(self, clients, sessions=None, size=SIZE, replicas=1, program=LAUNCHER, rooms=(), may_fail=False, **streams):
        streams = {'stdin': subprocess.DEVNULL, 'stdout': subprocess.PIPE, 'stderr': subprocess.PIPE, **streams}
        for left in reversed(range(TRIES)):
            self.port = free_port()
            words = [program, 'serve', '127.0.0.1:%d' % self.port, str(size), str(replicas), str(sessions or clients)]
            self.program = subprocess.Popen(words, **streams)
            first = self._first(rooms[0] if rooms else None) if clients else None
            if first or not clients or may_fail:
                break
            told = self.program.communicate()
            if not left:
                raise AssertionError('nobody is let in: %d %r' % (self.program.returncode, told))
        self.watch = threading.Timer(LIMIT, self.program.kill)
        self.watch.start()
        self.peers = [first] if first else []
        if first:
            self.peers += [Peer(self.port, rooms[number] if number < len(rooms) else None) for number in range(1, clients)]

    def _first(self, room):
        """The first client, who comes as soon as the doors are open; none where they are not."""
        while self.program.poll() is None:
            with contextlib.suppress(ConnectionRefusedError):
                return Peer(self.port, room)
            time.sleep(0.02)
        return None

    def ended(self):
        """The code, what was printed, and the note."""
        printed, note = self.program.communicate()
        return self.program.returncode, printed, note

    def close(self):
        self.watch.cancel()
        if self.program.returncode is None:
            self.program.kill()
            self.program.communicate()
        for peer in self.peers:
            peer.link.close()


def reply_to(asked_for, entry):
    """The bytes that reply to a frame, by what the journal has of its call."""
    if entry.refusal:
        return pack_frame(Frame(asked_for.seq, 3, asked_for.offset, len(entry.refusal), entry.refusal.encode()))
    content = bytes_of(entry.runs) if entry.runs else b''
    size = len(asked_for.content) if asked_for.kind == WRITE else len(content)
    return pack_frame(Frame(asked_for.seq, 2, asked_for.offset, size, content))


def frames(seed, count=MOST_CALLS):
    """Calls of chance, many of them in a few blocks that sessions share, some past the end. What they write has few runs."""
    chance, found = random.Random(seed), []
    for _ in range(count):
        kind = chance.choice([READ, READ, READ, WRITE, WRITE, WRITE, WRITE, PING, 7, (1 << 32) - 1])
        length = chance.choice([0, 1, 5, chance.randrange(40), 4096])
        edge = 4096 * chance.randrange(SIZE // 4096) - chance.randrange(3)
        offset = chance.choice([chance.randrange(4 * 4096), edge, SIZE - chance.randrange(5)])
        content = bytes([chance.randrange(256)]) * length if kind == WRITE else chance.choice([b'', b'', b'unread'])
        size = chance.choice([length, length, length, MIB + 1]) if kind == READ else chance.randrange(9)
        found.append(Frame(chance.randrange(1 << 32), kind, offset, size, content))
    return found


def pings(count):
    return [Frame(seq, PING, 0, 0) for seq in range(count)]


def replies_to_pings(count):
    return b''.join(pack_frame(Frame(seq, 2, 0, 0)) for seq in range(count))


def packed(*all_frames):
    return b''.join(map(pack_frame, all_frames))


class ServeTest(ProgramTest):
    def begin(self, *words, **more):
        """A program that serves, and its clients; it is ended behind the test."""
        serving = Serving(*words, **more)
        self.addCleanup(serving.close)
        return serving

    def judge(self, ended, sent, size=SIZE, replicas=1):
        """The report of sessions that sent these frames and made as many calls of them as they tell. It has to be a legal one."""
        code, printed, note = ended
        self.assertEqual((code, note), (0, b''))
        report = read_report(printed.decode())
        self.assertEqual(len(report.sessions), len(sent))
        calls = [[asked.asked_by(one) for one in given[:session.calls]] for given, session in zip(sent, report.sessions)]
        self.assertEqual(journal.check(report, asked.Script(Head('v', size, replicas), calls)), '')
        return report

    def ends(self, report):
        """How each session ended, and with how many calls."""
        return [(session.end, session.calls) for session in report.sessions]

    def replies(self, report, sent):
        """What the journal makes each session reply."""
        entries = [[entry for entry in report.entries if entry.stream == number] for number in range(len(sent))]
        return [b''.join(map(reply_to, given, known)) for given, known in zip(sent, entries)]


class Sessions(ServeTest):
    def test_a_read_of_a_blank_volume(self):
        for behind, end in ((b'', b'ended'), (bytes(2), b'frame 26')):
            serving = self.begin(1)
            heard = serving.peers[0].talk(READ_4096 + behind)
            printed = b'0 0 0 0 read 0 4096 ok 00*4096\nsession 0 %s 1 1\n' % end + BLANK
            self.assertEqual((heard(), serving.ended()), (REPLY_4096, (0, printed, b'')))

    def test_a_session_is_answered_while_another_waits(self):
        serving = self.begin(2, replicas=2)
        sent = [[], []]

        def call(number, *words):
            sent[number].append(Frame(*words))
            return serving.peers[number].ask(sent[number][-1])
        for turn in range(50):
            call(turn % 2, turn, WRITE, turn, 1, b'%c' % (turn + 1))
            self.assertEqual(call(1 - turn % 2, turn, READ, 0, turn + 1)[HEADER.size:], bytes(range(1, turn + 2)))
        # From here on one of them waits within a frame.
        half = pack_frame(Frame(7, PING, 0, 0))
        serving.peers[1].link.sendall(half[:13])
        for turn in range(50):
            call(0, turn, READ, turn, 1)
        self.assertTrue(serving.peers[1].hears_nothing())
        serving.peers[1].link.sendall(half[13:])
        sent[1].append(Frame(7, PING, 0, 0))
        self.assertEqual(serving.peers[1].take_reply(), pack_frame(Frame(7, 2, 0, 0)))
        serving.peers[0].send(Frame(0, CLOSE, 0, 0))
        serving.peers[1].link.shutdown(socket.SHUT_WR)
        report = self.judge(serving.ended(), sent, replicas=2)
        self.assertEqual(self.ends(report), [('closed', 100), ('ended', 51)])
        # Each call was answered before the next was made, so none saw less than all that was answered.
        self.assertEqual([entry.saw for entry in report.entries], [entry.place for entry in report.entries])

    def test_sixteen_sessions_make_all_their_calls(self):
        serving = self.begin(16, replicas=2)
        sent = [frames(seed) for seed in range(16)]
        heard = [None] * 16

        # Half of them wait for each reply, and half send all at once.
        def wait_for_each(number):
            heard[number] = b''.join(map(serving.peers[number].ask, sent[number]))
            serving.peers[number].send(Frame(0, CLOSE, 0, 0))
        asking = [threading.Thread(target=wait_for_each, args=(number,)) for number in range(8)]
        for thread in asking:
            thread.start()
        hear = [serving.peers[number].talk(packed(*sent[number], Frame(0, CLOSE, 0, 0))) for number in range(8, 16)]
        for thread in asking:
            thread.join()
        heard[8:] = [one() for one in hear]
        report = self.judge(serving.ended(), sent, replicas=2)
        self.assertEqual(self.ends(report), [('closed', MOST_CALLS)] * 16)
        for number, wanted in enumerate(self.replies(report, sent)):
            self.assertTrue(heard[number] == wanted, number)
        self.assertTrue(any(entry.saw < entry.place for entry in report.entries))

    def test_nobody_is_served_before_all_are_in_and_one_more_never(self):
        serving = self.begin(1, sessions=2)
        first = serving.peers[0]
        first.send(Frame(1, PING, 0, 0))
        self.assertTrue(first.hears_nothing())
        serving.peers += [Peer(serving.port), Peer(serving.port)]
        more = serving.peers[2]
        more.send(Frame(1, PING, 0, 0))
        self.assertEqual(first.take_reply(), pack_frame(Frame(1, 2, 0, 0)))
        self.assertEqual(serving.peers[1].ask(Frame(1, PING, 0, 0)), pack_frame(Frame(1, 2, 0, 0)))
        self.assertTrue(more.hears_nothing())
        for peer in serving.peers[:2]:
            peer.send(Frame(2, CLOSE, 0, 0))
        report = self.judge(serving.ended(), [pings(2)[1:]] * 2)
        self.assertEqual(more.take(1), b'')
        self.assertEqual(self.ends(report), [('closed', 1)] * 2)

    def test_a_session_is_cut_at_each_byte_of_its_third_frame(self):
        given = [Frame(1, WRITE, 4095, 2, b'ab'), Frame(2, READ, 4094, 4), Frame(3, WRITE, 0, 5, b'cdefg')]
        front, third = packed(*given[:2]), packed(given[2])
        lengths = list(range(len(third) + 1))
        while lengths:
            now, lengths = lengths[:16], lengths[16:]
            serving = self.begin(len(now))
            hear = [peer.talk(front + third[:length]) for peer, length in zip(serving.peers, now)]
            heard = [one() for one in hear]
            sent = [given] * len(now)
            report = self.judge(serving.ended(), sent)
            wanted = {0: ('ended', 2), len(third): ('ended', 3)}
            self.assertEqual(self.ends(report), [wanted.get(length, ('frame %d' % len(front), 2)) for length in now])
            self.assertEqual(heard, self.replies(report, sent))

    def test_what_is_no_frame_is_told_by_its_place(self):
        bad = [b'\x01', b'\x02\x1b', b'\x01\x1c' + bytes(24), bytes(26), HEADER.pack(0x1b01, 1, WRITE, 0, 0, MIB + 1),
               HEADER.pack(0x1b01, 1, WRITE, 0, 0, MIB + 1) + bytes(2 * MIB), HEADER.pack(0x1b01, 1, CLOSE, 0, 0, MIB + 1),
               HEADER.pack(0x1b01, 1, CLOSE, 0, 0, 1), b'\x02\x1b' + packed(*pings(3))]
        serving = self.begin(len(bad), replicas=8)
        hear = [peer.talk(packed(*pings(2)) + behind) for peer, behind in zip(serving.peers, bad)]
        self.assertEqual([one() for one in hear], [replies_to_pings(2)] * len(bad))
        report = self.judge(serving.ended(), [pings(2)] * len(bad), replicas=8)
        self.assertEqual(self.ends(report), [('frame 52', 2)] * len(bad))

    def test_a_close_ends_a_session_whatever_stands_behind(self):
        behind = [b'', b'\x02', packed(*pings(2)), packed(Frame(1, CLOSE, 0, 0)), bytes(100)]
        serving = self.begin(len(behind))
        hear = [peer.talk(packed(*pings(3), Frame(9, CLOSE, 7, 8, b'data')) + more) for peer, more in zip(serving.peers, behind)]
        self.assertEqual([one() for one in hear], [replies_to_pings(3)] * len(behind))
        self.assertEqual(self.ends(self.judge(serving.ended(), [pings(3)] * len(behind))), [('closed', 3)] * len(behind))

    def test_how_a_session_ends_that_has_made_all_its_calls(self):
        place = 'frame %d' % (HEADER.size * MOST_CALLS)
        behind = [(b'', 'ended'), (packed(Frame(1, CLOSE, 0, 0)), 'closed'), (b'\x01\x1b', place), (b'\0', place),
                  (packed(*pings(1))[:25], place), (packed(*pings(1)), 'full'), (packed(*pings(1)) + b'\0', 'full'),
                  (packed(Frame(1, 9, 0, 0)), 'full'), (packed(Frame(1, READ, 0, 1 << 30)), 'full')]
        serving = self.begin(len(behind))
        hear = [peer.talk(packed(*pings(MOST_CALLS)) + more) for peer, (more, _) in zip(serving.peers, behind)]
        self.assertEqual([one() for one in hear], [replies_to_pings(MOST_CALLS)] * len(behind))
        report = self.judge(serving.ended(), [pings(MOST_CALLS)] * len(behind))
        self.assertEqual(self.ends(report), [(end, MOST_CALLS) for _, end in behind])

    def test_frames_may_come_in_any_pieces(self):
        pieces = [1, 25, 26, 27, 1000, 65536]
        serving = self.begin(len(pieces))
        sent = [frames(100 + piece, 300) for piece in pieces]
        hear = [peer.talk(packed(*given), piece) for peer, given, piece in zip(serving.peers, sent, pieces)]
        heard = [one() for one in hear]
        report = self.judge(serving.ended(), sent)
        self.assertEqual(self.ends(report), [('ended', 300)] * len(pieces))
        self.assertTrue(heard == self.replies(report, sent))

    def test_the_longest_calls_and_the_largest_volume(self):
        size = 1 << 30
        serving = self.begin(1, size=size)
        content = random.Random(5).randbytes(1000) * 1048 + bytes(576)
        sent = [Frame(1, WRITE, size - MIB, MIB, content), Frame(2, READ, size - MIB, MIB), Frame(3, READ, size - 1, 2),
                Frame(4, READ, 0, MIB + 1)]
        heard = serving.peers[0].talk(packed(*sent))
        code, printed, note = serving.ended()
        self.assertEqual((code, note), (0, b''))
        report = read_report(printed.decode())
        self.assertEqual(report.unread, [])
        self.assertEqual([entry.answer.partition(' ')[0] for entry in report.entries], ['ok', 'ok', 'error', 'error'])
        self.assertEqual(self.ends(report), [('ended', 4)])
        self.assertTrue([heard()] == self.replies(report, [sent]))
        self.assertEqual(bytes_of(report.entries[1].runs), content)


class Faults(ServeTest):
    def test_a_peer_that_never_reads_holds_nobody_else(self):
        serving = self.begin(3, rooms=[4096])
        mute, others = serving.peers[0], serving.peers[1:]
        sent = [[Frame(seq, READ, 0, MIB) for seq in range(256)]] + [frames(seed, 500) for seed in (1, 2)]
        mute.send(*sent[0])
        for peer, given in zip(others, sent[1:]):
            for one in given:
                peer.ask(one)
            peer.send(Frame(0, CLOSE, 0, 0))
        time.sleep(QUIET)
        self.assertIsNone(serving.program.poll())
        mute.link.close()
        report = self.judge(serving.ended(), sent)
        ends = self.ends(report)
        self.assertEqual((ends[0][0], ends[1:]), ('write fault', [('closed', 500)] * 2))
        self.assertTrue(1 <= ends[0][1] < 256, ends)

    def test_a_peer_that_vanishes_is_a_fault_of_its_own_session(self):
        serving = self.begin(3)
        gone, silent, other = serving.peers
        self.assertEqual(gone.ask(Frame(0, PING, 0, 0)), pack_frame(Frame(0, 2, 0, 0)))
        gone.vanish()
        silent.vanish()
        sent = frames(3, 200)
        heard = b''.join(map(other.ask, sent))
        other.send(Frame(0, CLOSE, 0, 0))
        report = self.judge(serving.ended(), [pings(1), [], sent])
        self.assertEqual(self.ends(report), [('read fault', 1), ('read fault', 0), ('closed', 200)])
        self.assertEqual(heard, self.replies(report, [pings(1), [], sent])[2])

    def test_a_port_that_is_taken(self):
        with socket.create_server(('127.0.0.1', 0)) as taken:
            self.assertEqual(self.run_with('127.0.0.1:%d' % taken.getsockname()[1]), (12, b'', b'door fault\n'))

    def test_an_address_that_is_none_of_this_machine(self):
        for address in ('', 'x', ':', '127.0.0.1', '127.0.0.1:', '127.0.0.1:x', '127.0.0.1:65536', '127.0.0.1:-1', '127.0.0.1:20000 ',
                        '[::1]', '192.0.2.1:20000'):
            self.assertEqual(self.run_with(address), (12, b'', b'door fault\n'), address)

    def test_words_that_ask_for_no_sessions(self):
        with socket.create_server(('127.0.0.1', 0)) as taken:
            address = '127.0.0.1:%d' % taken.getsockname()[1]
            for words in ([], ['2097152'], ['2097152', '1'], ['2097152', '1', '1', '1'], *self.with_one_bad()):
                self.assertEqual(self.run_with(address, words), (2, b'', b'usage\n'), words)
        ended = subprocess.run([LAUNCHER, 'serve'], stdin=subprocess.DEVNULL, capture_output=True, timeout=LIMIT)
        self.assertEqual((ended.returncode, ended.stdout, ended.stderr), (2, b'', b'usage\n'))

    @staticmethod
    def with_one_bad():
        """Words of which one is past its limits, or no number."""
        good = ['2097152', '1', '1']
        bad = [['0', '2097151', '2097153', '02097152', '1075838976', '2M', '-1', '', '18446744073711648768'],
               ['0', '9', '01', '-1', '', '1.0', '256', '257'], ['0', '17', '01', '+1', '', 'x', '256', '272']]
        for place, values in enumerate(bad):
            for value in values:
                yield [*good[:place], value, *good[place + 1:]]

    def run_with(self, address, words=('2097152', '1', '1')):
        """The code, what was printed, and the note, of a run that serves nobody."""
        ended = subprocess.run([LAUNCHER, 'serve', address, *words], stdin=subprocess.DEVNULL, capture_output=True, timeout=LIMIT)
        return ended.returncode, ended.stdout, ended.stderr

    @unittest.skipUnless(os.path.exists('/dev/full'), 'no full device here')
    def test_a_full_device_is_a_write_fault_and_the_sessions_are_served(self):
        with open('/dev/full', 'wb') as full:
            serving = self.begin(1, stdout=full)
            heard = serving.peers[0].talk(READ_4096)
            self.assertEqual(heard(), REPLY_4096)
            self.assertEqual(serving.ended()[::2], (5, b'write fault\n'))

    @unittest.skipIf(os.environ.get('LONGHORN_TESTED'), 'another program may open what is closed')
    def test_an_output_that_is_closed_is_a_write_fault(self):
        serving = self.begin(1, program=PROGRAM, stdout=subprocess.DEVNULL, preexec_fn=lambda: os.close(1))
        heard = serving.peers[0].talk(READ_4096)
        self.assertEqual(heard(), REPLY_4096)
        self.assertEqual(serving.ended()[::2], (5, b'write fault\n'))


class Bridged(ServeTest):
    def test_a_disk_of_nbd_stands_in_front_of_sessions(self):
        serving = self.begin(0, sessions=3, replicas=2)
        words = [os.path.join(TOOLS, 'nbd_bridge'), '127.0.0.1:%d' % serving.port, str(SIZE), '3', '--listen', '127.0.0.1:0']
        bridge = subprocess.Popen([sys.executable, *words], stdout=subprocess.PIPE, stderr=subprocess.PIPE, text=True)
        self.addCleanup(bridge.communicate)
        self.addCleanup(bridge.kill)
        port = int(bridge.stdout.readline().rsplit(':', 1)[1])
        disk, chance = bytearray(SIZE), random.Random(46)
        clients = [NbdClient(port, LIMIT).go() for _ in range(2)]
        for turn in range(300):
            client, length = clients[turn % 2], chance.choice([1, 4096, chance.randrange(20_000), SIZE if turn == 150 else 5])
            offset = chance.randrange(SIZE - length + 1)
            if chance.randrange(2):
                disk[offset:offset + length] = content = bytes([chance.randrange(256)]) * length
                self.assertEqual(client.write(offset, content), 0)
            else:
                self.assertEqual(client.read(offset, length), (0, bytes(disk[offset:offset + length])))
        self.assertEqual(clients[0].read(0, SIZE), (0, bytes(disk)))
        for client in clients:
            client.end()
        bridge.send_signal(signal.SIGTERM)
        self.assertEqual(bridge.communicate(timeout=LIMIT), ('', ''))
        code, printed, note = serving.ended()
        self.assertEqual((code, note), (0, b''))
        report = read_report(printed.decode())
        self.assertEqual(journal.check(report), '')
        ends = self.ends(report)
        self.assertEqual([end for end, _ in ends], ['closed'] * 3)
        self.assertEqual((min(ends[:2])[1] > 100, ends[2][1], set(report.of_replicas('head'))), (True, 0, {0, 1}))
        self.assertEqual(set(report.of_replicas('head').values()), {hashlib.sha512(disk).hexdigest()[:64]})

    def test_a_file_system_is_copied_in_and_read_back(self):
        words = [sys.executable, os.path.join(TOOLS, 'try_filesystem'), '--program', LAUNCHER]
        ended = subprocess.run(words, stdin=subprocess.DEVNULL, capture_output=True, text=True, timeout=10 * LIMIT)
        self.assertEqual((ended.returncode, ended.stderr), (0, ''))
        if ': left out' in ended.stdout:
            self.skipTest(ended.stdout.strip())
        self.assertEqual(re.findall('^[0-9]+ files are the same$|^session . [a-z]+', ended.stdout, re.MULTILINE),
                         ['60 files are the same', *('session %d closed' % number for number in range(3))])


@unittest.skipUnless(shutil.which(os.environ.get('CC', 'cc')), 'there is no compiler of C, by which calls to the system fail')
class Refused(ServeTest):
    """Each call to the system fails once, and is short once, while one client calls."""
    sent = [Frame(1, WRITE, 4095, 2, b'ab'), Frame(2, READ, 4090, 9), Frame(3, PING, 0, 0)]

    def served(self, what, number):
        """How a run ends of which that call fails or is short: the end, the replies, and which call it was."""
        with tempfile.TemporaryFile() as told:
            words = {**os.environ, 'LD_PRELOAD': self.library, 'CALL_TOLD': str(told.fileno()), what: str(number)}
            serving = Serving(1, program=PROGRAM, env=words, pass_fds=[told.fileno()], may_fail=True)
            heard = []
            with contextlib.suppress(OSError, struct.error):
                for peer in serving.peers:
                    heard += [peer.ask(one) for one in self.sent]
                    peer.send(Frame(0, CLOSE, 0, 0))
            ended = serving.ended()
            serving.close()
            told.seek(0)
            return ended, b''.join(heard), told.read().decode().partition(' ')[0]

    def test_each_call_fails_once_and_is_short_once(self):
        room = tempfile.mkdtemp()
        self.addCleanup(shutil.rmtree, room)
        self.library = refuse_calls.compiled(room)
        whole, replies, _ = self.served('FAILED_CALL', 0)
        self.judge(whole, [self.sent])
        for what, met in MET.items():
            ends, number = set(), 0
            while not number or call:
                number += 1
                (code, printed, note), heard, call = self.served(what, number)
                with self.subTest(what, number=number, call=call):
                    is_same = (code, printed, note, heard) == (*whole, replies)
                    if code == 0 and not is_same:
                        report = self.judge((code, printed, note), [self.sent])
                        self.assertIn((call, report.sessions[0].end), {('recv', 'read fault'), ('send', 'write fault')})
                        self.assertTrue(replies.startswith(heard))
                    elif code == 12:
                        self.assertEqual((printed, note, heard), (b'', b'door fault\n', b''))
                    elif code == 5:
                        self.assertEqual((note, heard, whole[1].startswith(printed)), (b'write fault\n', replies, True))
                    else:
                        self.assertTrue(is_same, (code, printed, note, heard))
                    ends.add((call, code))
            self.assertLessEqual(met, ends)


if __name__ == '__main__':
    unittest.main()
