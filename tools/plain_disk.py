"""The bytes that a journal makes: one plain disk, which copies itself whole for each snapshot."""
import hashlib

from report import bytes_of

BLOCK = 4096
ZEROS = bytes(BLOCK)
# So many blocks are hashed at once.
STRETCH = 512


class PlainDisk:
    """A disk of zeros at first, or that of an opening. Blocks of zeros alone are not kept, so its size says nothing of its room."""

    def __init__(self, opening=None):
        self.blocks = dict(opening.blocks) if opening else {}
        self.copies = dict(opening.copies) if opening else {}

    def read(self, offset, length):
        """The bytes of a range."""
        first, end = offset // BLOCK, -(-(offset + length) // BLOCK)
        whole = b''.join(self.blocks.get(number, ZEROS) for number in range(first, end))
        return whole[offset - first * BLOCK:][:length]

    def write(self, offset, content):
        """The bytes of a range become these."""
        first, end = offset // BLOCK, -(-(offset + len(content)) // BLOCK)
        before, after = offset - first * BLOCK, end * BLOCK - offset - len(content)
        whole = self.read(first * BLOCK, before) + content + self.read(offset + len(content), after)
        for number in range(first, end):
            block = whole[(number - first) * BLOCK:][:BLOCK]
            if block == ZEROS:
                self.blocks.pop(number, None)
            else:
                self.blocks[number] = block

    def take_call(self, call):
        """Takes the changes of a call that was done."""
        if call[0] == 'write':
            self.write(int(call[1]), bytes_of(call[3]))
        elif call[0] == 'unmap':
            self.write(int(call[1]), bytes(int(call[2])))
        elif call[0] == 'snapshot':
            self.copies[call[1]] = dict(self.blocks)
        elif call[0] == 'revert' and call[1] in self.copies:
            self.blocks = dict(self.copies[call[1]])

    def take_mark(self, mark, entries):
        """Takes the changes of a mark; a salvage lists some of `entries`, by place."""
        if mark.kind == 'added':
            self.copies[mark.words[3]] = dict(self.blocks)
        elif mark.kind in ('folded', 'dropped'):
            self.copies.pop(mark.words[1], None)
        elif mark.kind == 'salvaged' and mark.words[2] != '-':
            for entry in filter(None, map(entries.get, map(int, mark.words[2].split(',')))):
                self.take_call(entry.call)

    def digest(self, size):
        """The first 64 hexadecimal digits of the SHA-512 of all bytes, where the disk has that size."""
        hashed = hashlib.sha512()
        for first in range(0, size // BLOCK, STRETCH):
            hashed.update(self.read(first * BLOCK, min(STRETCH * BLOCK, size - first * BLOCK)))
        return hashed.hexdigest()[:64]
