"""The frames of a stream: as bytes, and as lines of a text."""
import struct
from typing import NamedTuple

from byte_text import Quoted, Wrong, read_bytes, read_number, read_size, spell_bytes, spell_size

HEADER = struct.Struct('<HIIqII')
MAGIC = 0x1b01
READ, WRITE, CLOSE, PING = 0, 1, 5, 6
MOST_CONTENT = 1 << 20
MOST_CALLS = 65536
LARGEST = (1 << 32) - 1
FRAME_FORM = ('a frame is `write OFFSET BYTES`, `read OFFSET SIZE`, `ping`, `close` or `frame TYPE OFFSET SIZE [BYTES]`, '
              'each with `seq N` behind it or without')


class Frame(NamedTuple):
    """A frame of a stream: `kind` is its type, `content` its data."""
    seq: int
    kind: int
    offset: int
    size: int
    content: bytes = b''


def pack_frame(frame):
    """The bytes of a frame."""
    return HEADER.pack(MAGIC, frame.seq, frame.kind, frame.offset, frame.size, len(frame.content)) + frame.content


def cut_frames(stream, room):
    """The whole frames at the front of a stream, and the bytes behind them.

    It ends at a bad frame, behind a Close, and before the call that is one more than `room`.
    """
    frames, place = [], 0
    while len(stream) - place >= HEADER.size:
        magic, seq, kind, offset, size, length = HEADER.unpack_from(stream, place)
        end = place + HEADER.size + length
        if magic != MAGIC or length > MOST_CONTENT or end > len(stream) or (kind != CLOSE and not room):
            break
        frames.append(Frame(seq, kind, offset, size, stream[place + HEADER.size:end]))
        place = end
        if kind == CLOSE:
            break
        room -= 1
    return frames, stream[place:]


def spell_frame(frame, number):
    """The one canonical line of a frame that is the `number`th of its stream, counted from 1."""
    seq, kind, offset, size, content = frame
    if kind == WRITE and size == len(content):
        line = 'write %s %s' % (spell_size(offset), spell_bytes(content))
    elif kind == READ and not content:
        line = 'read %s %s' % (spell_size(offset), spell_size(size))
    elif kind in (PING, CLOSE) and not (offset or size or content):
        line = 'ping' if kind == PING else 'close'
    else:
        line = 'frame %d %s %s' % (kind, spell_size(offset), spell_size(size))
        if content:
            line += ' ' + spell_bytes(content)
    return line if seq == number else '%s seq %d' % (line, seq)


def read_frame(words, number, folder):
    """The frame that the words of a line say; its seq is `number` where none is given."""
    verb, rest = words[0], words[1:]
    if isinstance(verb, Quoted) or verb not in ARGUMENTS:
        raise Wrong('`%s` begins no frame: %s; `stream frames` or `stream commands` begins the next stream' % (verb, FRAME_FORM))
    count = ARGUMENTS[verb]
    if len(rest) < count:
        raise Wrong('`%s` lacks a word: %s' % (verb, FRAME_FORM))
    given, rest = rest[:count], rest[count:]
    if verb == 'write':
        offset, content = read_offset(given[0]), read_bytes(rest, folder, MOST_CONTENT)
        kind, size = WRITE, len(content)
    elif verb == 'read':
        kind, offset, size, content = READ, read_offset(given[0]), read_size(given[1], 0, LARGEST), b''
    elif verb == 'frame':
        kind = read_number(given[0], 0, LARGEST, 'a type')
        offset, size = read_offset(given[1]), read_size(given[2], 0, LARGEST)
        content = read_bytes(rest, folder, MOST_CONTENT) if rest and rest[0] != 'seq' else b''
    else:
        kind, offset, size, content = PING if verb == 'ping' else CLOSE, 0, 0, b''
    return Frame(read_seq(rest, number), kind, offset, size, content)


# How many words each kind of line has before bytes and seq.
ARGUMENTS = {'write': 1, 'read': 2, 'ping': 0, 'close': 0, 'frame': 3}


def read_offset(word):
    """An offset, which may be negative."""
    return read_size(word, -1 << 63, (1 << 63) - 1, 'an offset')


def read_seq(words, number):
    """The seq that the last two words of a line give, or the number that it has without them."""
    if not words:
        return number
    if len(words) != 2 or words[0] != 'seq' or isinstance(words[0], Quoted):
        raise Wrong('`%s` is too much: %s' % (' '.join(words), FRAME_FORM))
    return read_number(words[1], 0, LARGEST, 'a seq')
