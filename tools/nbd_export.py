"""One connection of the NBD protocol: the fixed newstyle handshake, and then reads, writes and flushes, in simple replies.

The protocol is that of https://github.com/NetworkBlockDevice/nbd/blob/master/doc/proto.md."""
import queue
import struct
import threading

from frame_text import MOST_CONTENT, READ, WRITE
from served_sessions import Broken, Refused

GREETING = struct.Struct('>8s8sH')
OPTION = struct.Struct('>8sII')
OPTION_REPLY = struct.Struct('>QIII')
EXPORT = struct.Struct('>QH')
REQUEST = struct.Struct('>IHHQQI')
REPLY = struct.Struct('>IIQ')
OPTION_REPLY_MAGIC, REQUEST_MAGIC, REPLY_MAGIC = 0x3e889045565a9, 0x25609513, 0x67446698
FIXED_NEWSTYLE, NO_ZEROES = 1, 2
EXPORT_NAME, ABORT, LIST, INFO, GO = 1, 2, 3, 6, 7
ACK, SERVER, INFORMATION = 1, 2, 3
UNSUPPORTED, INVALID, SHUTDOWN, TOO_BIG = 1 << 31 | 1, 1 << 31 | 3, 1 << 31 | 7, 1 << 31 | 9
INFO_EXPORT, INFO_BLOCK_SIZE = 0, 3
# There are flags, and a flush can be sent. Clients are not asked to open several connections, since each takes a session.
FLAGS = 1 | 4
CMD_READ, CMD_WRITE, CMD_DISC, CMD_FLUSH = 0, 1, 2, 3
EIO, EINVAL, ENOSPC, ESHUTDOWN = 5, 22, 28, 108
# The longest request, and the longest text of an option.
MOST_REQUEST, MOST_OPTION = 32 << 20, 4096


class Gone(Exception):
    """The client has ended, or does not speak the protocol."""


class Job:
    """A request that was taken up: its parts, each with the session that carries it, or an error from the start."""

    def __init__(self, cookie, kind, error=0):
        self.cookie, self.kind, self.error, self.parts = cookie, kind, error, queue.SimpleQueue()


class Connection:
    """A client, served by sessions that are lent to it. Requests are taken up by one thread and answered by another, in order."""

    def __init__(self, link, sessions, size, tell):
        self.link, self.sessions, self.size, self.tell = link, sessions, size, tell
        self.input = link.makefile('rb')
        self.session, self.told_of_none = None, False
        self.jobs = queue.SimpleQueue()

    def serve(self):
        """Serves the client to its end, and gives the session back that it had."""
        try:
            if self.shake_hands():
                self.transmit()
        except (Gone, OSError):
            pass
        finally:
            if self.session:
                self.sessions.give_back(self.session)
            self.input.close()
            self.link.close()

    # ---- the handshake

    def shake_hands(self):
        """Answers the client's options. Tells whether it goes on to requests."""
        self.link.sendall(GREETING.pack(b'NBDMAGIC', b'IHAVEOPT', FIXED_NEWSTYLE | NO_ZEROES))
        flags, = struct.unpack('>I', self.take(4))
        if flags & ~(FIXED_NEWSTYLE | NO_ZEROES):
            return False
        while True:
            magic, option, length = OPTION.unpack(self.take(OPTION.size))
            if magic != b'IHAVEOPT':
                return False
            content = self.take_option(option, length)
            if content is None:
                continue
            if option == EXPORT_NAME:
                if not self.borrow():
                    return False
                self.link.sendall(EXPORT.pack(self.size, FLAGS) + (b'' if flags & NO_ZEROES else bytes(124)))
                return True
            if option == ABORT:
                self.answer(option, ACK)
                return False
            if option == LIST:
                self.list_exports(option, content)
            elif option in (INFO, GO):
                if self.inform(option, content) and option == GO:
                    return True
            else:
                self.answer(option, UNSUPPORTED)

    def take_option(self, option, length):
        """The data of an option, or none where it is too long, which is answered."""
        if length <= MOST_OPTION:
            return self.take(length)
        for begin in range(0, length, MOST_OPTION):
            self.take(min(MOST_OPTION, length - begin))
        if option == EXPORT_NAME:
            raise Gone
        self.answer(option, TOO_BIG)
        return None

    def list_exports(self, option, content):
        """There is one export, which has no name."""
        if content:
            self.answer(option, INVALID)
            return
        self.answer(option, SERVER, struct.pack('>I', 0))
        self.answer(option, ACK)

    def inform(self, option, content):
        """Tells of the export, whatever its name. Tells whether that went well."""
        wanted = asked_for(content)
        if wanted is None:
            self.answer(option, INVALID)
            return False
        if option == GO and not self.borrow():
            self.answer(option, SHUTDOWN)
            return False
        self.answer(option, INFORMATION, struct.pack('>H', INFO_EXPORT) + EXPORT.pack(self.size, FLAGS))
        if INFO_BLOCK_SIZE in wanted:
            self.answer(option, INFORMATION, struct.pack('>HIII', INFO_BLOCK_SIZE, 1, 4096, MOST_REQUEST))
        self.answer(option, ACK)
        return True

    def answer(self, option, kind, content=b''):
        self.link.sendall(OPTION_REPLY.pack(OPTION_REPLY_MAGIC, option, kind, len(content)) + content)

    # ---- requests

    def transmit(self):
        """Takes up requests until the client ends. Each is answered, and all replies of the session are read."""
        answers = threading.Thread(target=self.answer_all)
        answers.start()
        try:
            while self.take_request():
                pass
        except (Gone, OSError):
            pass
        finally:
            self.jobs.put(None)
            answers.join()

    def take_request(self):
        """Takes up a request, and sends its parts as calls. Tells whether another may come."""
        magic, _, kind, cookie, offset, length = REQUEST.unpack(self.take(REQUEST.size))
        if magic != REQUEST_MAGIC or kind == CMD_DISC:
            return False
        if kind == CMD_WRITE:
            if length > MOST_REQUEST:
                return False
            content = self.take(length)
        job = Job(cookie, kind, self.fault(kind, offset, length))
        # It is known to the other thread before its first call is sent, so that replies are read while later ones are.
        self.jobs.put(job)
        if not job.error and kind != CMD_FLUSH:
            for begin in range(0, length, MOST_CONTENT):
                size = min(MOST_CONTENT, length - begin)
                part = content[begin:begin + size] if kind == CMD_WRITE else b''
                job.parts.put(self.send_call(kind, offset + begin, size, part))
        job.parts.put(None)
        return True

    def fault(self, kind, offset, length):
        """Why a request is refused, or 0."""
        if kind == CMD_FLUSH:
            return 0
        if kind not in (CMD_READ, CMD_WRITE) or length > MOST_REQUEST:
            return EINVAL
        if offset + length > self.size:
            return ENOSPC if kind == CMD_WRITE else EINVAL
        return 0

    def send_call(self, kind, offset, size, content):
        """Sends a call on a session that has one left. Gives the session, or the error of a call that was not sent."""
        if not self.borrow():
            return ESHUTDOWN
        session = self.session
        try:
            session.send(WRITE if kind == CMD_WRITE else READ, offset, size, content)
        except Broken as why:
            self.tell(str(why))
            session.left = 0
            return EIO
        return session

    def borrow(self):
        """Sees that there is a session with a call left. One whose calls are used is closed once they are answered."""
        if self.session and not self.session.left:
            self.jobs.put(self.session)
            self.session = None
        if not self.session:
            self.session = self.sessions.lend()
            if not self.session and not self.told_of_none:
                self.told_of_none = True
                self.tell('no session is left')
        return self.session is not None

    # ---- replies

    def answer_all(self):
        """Answers what was taken up, in order. A client that is gone is answered no more, but its replies are read."""
        heard = True
        while (job := self.jobs.get()) is not None:
            if not isinstance(job, Job):
                self.sessions.give_back(job)
                continue
            content = self.finish(job)
            if heard:
                heard = self.reply(job, content)

    def finish(self, job):
        """Awaits what the calls of a request are answered. A flush has none: all before it are answered by now."""
        content = []
        while (part := job.parts.get()) is not None:
            if isinstance(part, int):
                job.error = job.error or part
                continue
            try:
                content.append(part.receive())
            except Refused as why:
                self.tell(f'a call was refused: {why}')
                job.error = job.error or EIO
            except Broken as why:
                self.tell(str(why))
                part.left = 0
                job.error = job.error or EIO
        return b''.join(content) if job.kind == CMD_READ and not job.error else b''

    def reply(self, job, content):
        try:
            self.link.sendall(REPLY.pack(REPLY_MAGIC, job.error, job.cookie) + content)
        except OSError:
            return False
        return True

    def take(self, length):
        """So many bytes of the client."""
        content = self.input.read(length)
        if len(content) < length:
            raise Gone
        return content


def asked_for(content):
    """What the data of an option asks to be told, or none where it is malformed."""
    if len(content) < 6:
        return None
    name, = struct.unpack_from('>I', content)
    if len(content) < 6 + name:
        return None
    count, = struct.unpack_from('>H', content, 4 + name)
    if len(content) != 6 + name + 2 * count:
        return None
    return struct.unpack_from(f'>{count}H', content, 6 + name)
