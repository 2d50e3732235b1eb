"""A small client of the NBD protocol over TCP, one request at a time or several."""
import socket
import struct

from nbd_export import (ACK, CMD_DISC, CMD_READ, CMD_WRITE, EXPORT, GO, GREETING, INFORMATION, OPTION, OPTION_REPLY, OPTION_REPLY_MAGIC,
                        REPLY, REPLY_MAGIC, REQUEST, REQUEST_MAGIC, SERVER)

NO_NAME = struct.pack('>IH', 0, 0)


class NbdClient:
    """A connection. Requests may be sent ahead; replies come in their order."""

    def __init__(self, port, limit, flags=3):
        self.link = socket.create_connection(('127.0.0.1', port), limit)
        self.input = self.link.makefile('rb')
        self.cookies = self.size = 0
        if self.take(GREETING.size) != b'NBDMAGICIHAVEOPT\0\x03':
            raise ConnectionError('the greeting is not that of NBD')
        self.link.sendall(struct.pack('>I', flags))

    def take(self, length):
        content = self.input.read(length)
        if len(content) < length:
            raise ConnectionError('the server has ended')
        return content

    def option(self, option, content=b''):
        """Sends an option. Gives what it is answered, up to the last answer."""
        self.link.sendall(OPTION.pack(b'IHAVEOPT', option, len(content)) + content)
        answers = []
        while not answers or answers[-1][0] in (SERVER, INFORMATION):
            magic, same, kind, length = OPTION_REPLY.unpack(self.take(OPTION_REPLY.size))
            if (magic, same) != (OPTION_REPLY_MAGIC, option):
                raise ConnectionError('an option has no answer')
            answers.append((kind, self.take(length)))
        return answers

    def go(self):
        """Goes on to requests."""
        answers = self.option(GO, NO_NAME)
        if answers[-1][0] != ACK:
            raise ConnectionError('the server lets nobody in')
        self.size, _ = EXPORT.unpack(answers[0][1][2:])
        return self

    def ask(self, kind, offset, length, content=b''):
        """Sends a request, and gives its cookie."""
        self.cookies += 1
        self.link.sendall(REQUEST.pack(REQUEST_MAGIC, 0, kind, self.cookies, offset, length) + content)
        return self.cookies

    def hear(self, length=0):
        """The next reply: its cookie, its error, and so many bytes where there is none."""
        magic, error, cookie = REPLY.unpack(self.take(REPLY.size))
        if magic != REPLY_MAGIC:
            raise ConnectionError('a request has no reply')
        return cookie, error, b'' if error else self.take(length)

    def read(self, offset, length):
        """An error, or 0 and the bytes."""
        self.ask(CMD_READ, offset, length)
        return self.hear(length)[1:]

    def write(self, offset, content):
        """An error, or 0."""
        self.ask(CMD_WRITE, offset, len(content), content)
        return self.hear()[1]

    def end(self):
        """Ends, and waits until the server has let go."""
        self.ask(CMD_DISC, 0, 0)
        if self.input.read():
            raise ConnectionError('the server goes on')
        self.close()

    def close(self):
        self.input.close()
        self.link.close()
