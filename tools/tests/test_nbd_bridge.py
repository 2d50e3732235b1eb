"""Tests of the bridge from NBD to sessions, against a stand-in that answers sessions' frames on one plain disk."""
import contextlib
import os
import random
import signal
import socket
import struct
import subprocess
import sys
import threading
import unittest

from frame_text import CLOSE, HEADER, READ, WRITE, Frame, pack_frame
from nbd_client import NO_NAME, NbdClient
from nbd_export import ACK, EXPORT, GO, INFO, INFORMATION, INVALID, LIST, OPTION, REQUEST, REQUEST_MAGIC, SERVER, SHUTDOWN, UNSUPPORTED
from plain_disk import PlainDisk
from served_sessions import MOST_CALLS

TOP = os.path.dirname(os.path.dirname(os.path.dirname(os.path.abspath(__file__))))
BRIDGE = os.path.join(TOP, 'tools', 'nbd_bridge')
SIZE = 8 << 20
# Whoever waits longer than so many seconds has lost.
LIMIT = 60


class StandIn:
    """It accepts all sessions first, and then answers each one's frames, as `serve` does. It keeps what it was asked."""

    def __init__(self, count):
        self.listener = socket.create_server(('127.0.0.1', 0))
        self.address = '{}:{}'.format(*self.listener.getsockname())
        self.disk, self.lock = PlainDisk(), threading.Lock()
        self.calls, self.ends = [[] for _ in range(count)], [None] * count
        # Writes are answered only while this is set.
        self.open = threading.Event()
        self.open.set()
        self.thread = threading.Thread(target=self.serve_all)
        self.thread.start()

    def serve_all(self):
        links = [self.listener.accept()[0] for _ in self.calls]
        self.listener.close()
        threads = [threading.Thread(target=self.serve, args=each) for each in enumerate(links)]
        for thread in threads:
            thread.start()
        for thread in threads:
            thread.join()

    def serve(self, number, link):
        with link, link.makefile('rb') as frames:
            while header := frames.read(HEADER.size):
                magic, seq, kind, offset, size, length = HEADER.unpack(header)
                content = frames.read(length)
                if kind == CLOSE:
                    self.ends[number] = 'closed'
                    return
                if len(self.calls[number]) == MOST_CALLS:
                    self.ends[number] = 'full'
                    return
                link.sendall(self.reply(number, seq, kind, offset, size, content))
        self.ends[number] = 'ended'

    def reply(self, number, seq, kind, offset, size, content):
        if kind == WRITE:
            self.open.wait(LIMIT)
        with self.lock:
            self.calls[number].append((kind, offset, size if kind == READ else len(content)))
            if kind == READ and size <= 1 << 20:
                back = self.disk.read(offset, size)
                return pack_frame(Frame(seq, 2, offset, len(back), back))
            if kind == WRITE and len(content) <= 1 << 20:
                self.disk.write(offset, content)
                return pack_frame(Frame(seq, 2, offset, len(content)))
        return pack_frame(Frame(seq, 3, offset, 8, b'too long'))


class BridgeTest(unittest.TestCase):
    def begin(self, count):
        """A stand-in and a bridge before it."""
        self.stand_in = StandIn(count)
        words = [sys.executable, BRIDGE, self.stand_in.address, str(SIZE), str(count), '--listen', '127.0.0.1:0']
        self.bridge = subprocess.Popen(words, stdout=subprocess.PIPE, stderr=subprocess.PIPE, text=True)
        self.addCleanup(self.bridge.kill)
        self.port = int(self.bridge.stdout.readline().rsplit(':', 1)[1])

    def client(self):
        return NbdClient(self.port, LIMIT)

    def end(self):
        """Ends the bridge. Gives what it told, and what came of the sessions."""
        self.bridge.send_signal(signal.SIGTERM)
        _, told = self.bridge.communicate(timeout=LIMIT)
        self.stand_in.thread.join(LIMIT)
        self.assertEqual(self.bridge.returncode, 0)
        self.assertTrue(all(len(calls) <= MOST_CALLS for calls in self.stand_in.calls))
        return told, self.stand_in.ends

    def test_reads_and_writes_are_those_of_a_disk(self):
        self.begin(1)
        client, disk, chance = self.client().go(), bytearray(SIZE), random.Random(46)
        for _ in range(200):
            length = chance.choice([0, 1, 511, 4096, chance.randrange(3 << 20)])
            offset = chance.randrange(SIZE - length + 1)
            if chance.randrange(2):
                disk[offset:offset + length] = content = chance.randbytes(length)
                self.assertEqual(client.write(offset, content), 0)
            else:
                self.assertEqual(client.read(offset, length), (0, bytes(disk[offset:offset + length])))
        self.assertEqual(client.read(0, SIZE), (0, bytes(disk)))
        client.end()
        self.assertEqual(self.end(), ('', ['closed']))

    def test_long_requests_are_split(self):
        self.begin(1)
        client = self.client().go()
        content = random.Random(1).randbytes((3 << 20) + 5)
        self.assertEqual(client.write(7, content), 0)
        self.assertEqual(client.read(7, len(content)), (0, content))
        client.end()
        self.end()
        parts = [(7, 1 << 20), (7 + (1 << 20), 1 << 20), (7 + (2 << 20), 1 << 20), (7 + (3 << 20), 5)]
        self.assertEqual(self.stand_in.calls[0], [(kind, *part) for kind in (WRITE, READ) for part in parts])

    def test_a_flush_is_answered_behind_all_earlier_writes(self):
        self.begin(1)
        client = self.client().go()
        self.stand_in.open.clear()
        cookies = [client.ask(1, 4096 * k, 4096, bytes([k]) * 4096) for k in range(20)] + [client.ask(3, 0, 0)]
        client.link.settimeout(0.3)
        with self.assertRaises(TimeoutError):
            client.link.recv(1, socket.MSG_PEEK)
        client.link.settimeout(LIMIT)
        self.stand_in.open.set()
        self.assertEqual([client.hear()[:2] for _ in cookies], [(cookie, 0) for cookie in cookies])
        self.assertEqual(self.stand_in.disk.read(0, 20 * 4096), b''.join(bytes([k]) * 4096 for k in range(20)))
        client.end()
        self.end()

    def test_a_session_is_kept_for_the_next_client(self):
        self.begin(3)
        for k in range(5):
            client = self.client().go()
            self.assertEqual(client.write(k, b'x'), 0)
            client.end()
        # Clients side by side have a session each.
        first, second = self.client().go(), self.client().go()
        self.assertEqual(first.write(5, b'y'), 0)
        self.assertEqual(second.read(0, 7), (0, b'xxxxxy\0'))
        first.end()
        second.end()
        self.assertEqual(self.end(), ('', ['closed'] * 3))
        self.assertEqual([len(calls) for calls in self.stand_in.calls], [6, 1, 0])

    def test_the_next_session_is_taken_before_one_is_full_and_the_last_is_told(self):
        self.begin(2)
        client = self.client().go()
        # A request whose parts are of two sessions.
        for k in range(MOST_CALLS - 2):
            client.ask(1, k, 1, b'a')
        for k in range(MOST_CALLS - 2):
            self.assertEqual(client.hear()[1], 0)
        self.assertEqual(client.write(0, b'b' * (4 << 20)), 0)
        self.assertEqual([len(calls) for calls in self.stand_in.calls], [MOST_CALLS, 2])
        for k in range(MOST_CALLS):
            client.ask(0, 0, 1)
        heard = [client.hear(1)[1] for _ in range(MOST_CALLS)]
        self.assertEqual(heard, [0] * (MOST_CALLS - 2) + [108, 108])
        client.end()
        # A client that comes now is told so at once.
        late = self.client()
        self.assertEqual(late.option(GO, NO_NAME), [(SHUTDOWN, b'')])
        late.close()
        told, ends = self.end()
        self.assertEqual(told, 'nbd_bridge: no session is left\n' * 2)
        self.assertEqual(ends, ['closed', 'closed'])

    def test_a_client_that_vanishes_leaves_its_session_in_order(self):
        self.begin(1)
        client = self.client().go()
        self.stand_in.open.clear()
        for k in range(10):
            client.ask(1, k << 20, 1 << 20, bytes([k]) * (1 << 20)) if k < 3 else client.ask(0, 0, 1 << 20)
        client.close()
        self.stand_in.open.set()
        client = self.client()
        while client.option(GO, NO_NAME)[0][0] == SHUTDOWN:
            pass
        self.assertEqual(client.read((2 << 20) - 1, 2), (0, b'\x01\x02'))
        client.end()
        self.assertEqual(self.end()[1], ['closed'])

    def test_a_request_past_the_end_is_refused(self):
        self.begin(1)
        client = self.client().go()
        self.assertEqual(client.size, SIZE)
        self.assertEqual(client.read(SIZE - 1, 2), (22, b''))
        self.assertEqual(client.write(SIZE - 1, b'ab'), 28)
        self.assertEqual(client.read(1 << 63, 1), (22, b''))
        self.assertEqual(client.read(0, (32 << 20) + 1), (22, b''))
        client.ask(4, 0, 4096)
        self.assertEqual(client.hear()[1], 22)
        self.assertEqual(client.read(SIZE - 1, 1), (0, b'\0'))
        client.end()
        self.end()
        self.assertEqual(self.stand_in.calls, [[(READ, SIZE - 1, 1)]])

    def test_options(self):
        self.begin(1)
        client = self.client()
        self.assertEqual(client.option(GO, NO_NAME[:5]), [(INVALID, b'')])
        self.assertEqual(client.option(LIST), [(SERVER, b'\0\0\0\0'), (ACK, b'')])
        self.assertEqual(client.option(LIST, b'x'), [(INVALID, b'')])
        self.assertEqual(client.option(5), [(UNSUPPORTED, b'')])
        self.assertEqual(client.option(8), [(UNSUPPORTED, b'')])
        self.assertEqual(client.option(INFO, b'\0\0\0'), [(INVALID, b'')])
        self.assertEqual(client.option(INFO, struct.pack('>IHH', 0, 1, 3)), [
            (INFORMATION, b'\0\0' + EXPORT.pack(SIZE, 5)), (INFORMATION, struct.pack('>HIII', 3, 1, 4096, 32 << 20)), (ACK, b'')])
        self.assertEqual(client.option(99, bytes(5000)), [(1 << 31 | 9, b'')])
        self.assertEqual(client.option(2), [(ACK, b'')])
        self.assertEqual(client.input.read(), b'')
        client.close()
        # The older way to begin, with zeros behind the flags or without.
        for flags, zeros in ((3, 0), (1, 124)):
            client = NbdClient(self.port, LIMIT, flags)
            client.link.sendall(OPTION.pack(b'IHAVEOPT', 1, 3) + b'abc')
            self.assertEqual(client.take(10 + zeros), EXPORT.pack(SIZE, 5) + bytes(zeros))
            self.assertEqual(client.write(0, b'abc'), 0)
            client.end()
        self.assertEqual(self.end()[1], ['closed'])

    def test_what_is_no_client_of_nbd_ends_its_connection_alone(self):
        self.begin(1)
        chance = random.Random(7)
        for bytes_sent in (b'', b'\0\0\0\x07', b'\0\0\0\x03NBDMAGIC' + bytes(12), chance.randbytes(5000)):
            link = socket.create_connection(('127.0.0.1', self.port), LIMIT)
            link.sendall(bytes_sent)
            link.shutdown(socket.SHUT_WR)
            with contextlib.suppress(ConnectionResetError):
                while link.recv(4096):
                    pass
            link.close()
        cut_off = REQUEST.pack(REQUEST_MAGIC, 0, 1, 1, 0, 9) + b'short'
        for request in (bytes(28), REQUEST.pack(REQUEST_MAGIC, 0, 1, 1, 0, (32 << 20) + 1), cut_off):
            client = self.client().go()
            client.link.sendall(request)
            client.link.shutdown(socket.SHUT_WR)
            with contextlib.suppress(ConnectionResetError):
                self.assertEqual(client.input.read(), b'')
            client.close()
        client = self.client().go()
        self.assertEqual(client.read(0, 10), (0, bytes(10)))
        client.end()
        self.assertEqual(self.end(), ('', ['closed']))

    def test_it_waits_until_it_is_served(self):
        with socket.create_server(('127.0.0.1', 0)) as listener:
            address = '{}:{}'.format(*listener.getsockname())
        words = [sys.executable, BRIDGE, address, str(SIZE), '1', '--listen', '127.0.0.1:0', '--wait', '0.2']
        ended = subprocess.run(words, capture_output=True, text=True, timeout=LIMIT)
        self.assertEqual((ended.returncode, ended.stdout, ended.stderr), (1, '', 'nbd_bridge: Connection refused\n'))

    def test_a_server_that_ends_is_told(self):
        self.begin(1)
        client = self.client().go()
        # What is no frame's kind is refused, and the call goes on; a session that is cut off answers no more.
        self.assertEqual(client.write(0, b'a'), 0)
        self.stand_in.calls[0].extend([(READ, 0, 0)] * (MOST_CALLS - 1))
        self.assertEqual(client.read(0, 1), (5, b''))
        self.assertEqual(client.read(0, 1), (108, b''))
        client.end()
        self.bridge.send_signal(signal.SIGTERM)
        self.assertIn('session 0 has ended', self.bridge.communicate(timeout=LIMIT)[1])


if __name__ == '__main__':
    unittest.main()
