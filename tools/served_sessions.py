"""Sessions of `longhorn serve`: connections on which calls go out as frames, and are answered in their order."""
import random
import socket
import threading
import time

from frame_text import CLOSE, HEADER, MAGIC, MOST_CONTENT, Frame, pack_frame

RESPONSE, ERROR = 2, 3
# So many calls of a session are answered.
MOST_CALLS = 4096
SEQS = 1 << 32
# Ports that the system gives to nobody who asks for any: who connects again and again cannot meet itself there.
PORTS = range(20000, 32000)


class Broken(Exception):
    """A session that answers no more."""


class Refused(Exception):
    """What a call was answered that was not done."""


def free_port():
    """A port of this machine at which nobody listens."""
    while True:
        port = random.SystemRandom().choice(PORTS)
        with socket.socket() as probe:
            try:
                probe.bind(('127.0.0.1', port))
                return port
            except OSError:
                pass


def connect(address, wait):
    """A connection to where `serve` listens, or will within so many seconds."""
    end = time.monotonic() + wait
    while True:
        try:
            link = socket.create_connection(address)
            break
        except ConnectionRefusedError:
            if time.monotonic() >= end:
                raise
            time.sleep(0.05)
    link.setsockopt(socket.IPPROTO_TCP, socket.TCP_NODELAY, 1)
    return link


class Session:
    """One session. One thread may send calls while another one receives what they are answered."""

    def __init__(self, number, link, most_calls=MOST_CALLS):
        self.number, self.link, self.left = number, link, most_calls
        self.sent = self.received = 0
        self.replies = link.makefile('rb')

    def send(self, kind, offset, size, content=b''):
        """Sends a call. It is counted, whatever comes of it."""
        self.left -= 1
        self.sent += 1
        self._send(Frame(self.sent % SEQS, kind, offset, size, content))

    def receive(self):
        """The data of the next reply."""
        self.received += 1
        magic, seq, kind, _, size, length = HEADER.unpack(self._read(HEADER.size))
        if magic != MAGIC or seq != self.received % SEQS or length > MOST_CONTENT:
            raise Broken(f'session {self.number} replied what is no reply')
        content = self._read(length)
        if kind == ERROR:
            raise Refused(content.decode('ascii', 'replace'))
        if kind != RESPONSE:
            raise Broken(f'session {self.number} replied with type {kind}')
        return content

    def close(self):
        """Says that no call comes any more."""
        try:
            self._send(Frame(0, CLOSE, 0, 0))
            self.link.shutdown(socket.SHUT_WR)
        except (Broken, OSError):
            pass
        self.replies.close()
        self.link.close()

    def _send(self, frame):
        try:
            self.link.sendall(pack_frame(frame))
        except OSError as error:
            raise Broken(f'session {self.number} takes no call: {error.strerror}') from error

    def _read(self, length):
        try:
            content = self.replies.read(length)
        except OSError as error:
            raise Broken(f'session {self.number} gives no reply: {error.strerror}') from error
        if len(content) < length:
            raise Broken(f'session {self.number} has ended')
        return content


class Sessions:
    """All sessions, opened at once. They are lent one by one, the lowest first, and come back with what is left of their calls."""

    def __init__(self, address, count, wait=0.0, most_calls=MOST_CALLS):
        self.free, self.lock = [], threading.Lock()
        for number in range(count):
            self.free.append(Session(number, connect(address, wait), most_calls))

    def lend(self):
        """A session that has calls left and is lent to nobody, or none."""
        with self.lock:
            return self.free.pop(0) if self.free else None

    def give_back(self, session):
        """Takes a session back. One without calls is closed."""
        if not session.left:
            session.close()
            return
        with self.lock:
            self.free.append(session)
            self.free.sort(key=lambda one: one.number)

    def close(self):
        """Closes those that are lent to nobody."""
        with self.lock:
            free, self.free = self.free, []
        for session in free:
            session.close()
