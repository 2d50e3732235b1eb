"""Words, sizes and bytes of a text, both ways."""
import os
import re
import struct

UNITS = {'': 1, 'K': 1 << 10, 'M': 1 << 20, 'G': 1 << 30}
SIZE = re.compile(r'(-?)(0|[1-9][0-9]*)([KMG]?)', re.ASCII)
WORD = re.compile(r'\s*("(?:[^"\\]|\\["\\])*"(?!\S)|[^\s"]\S*)')
TEXT = re.compile(rb'[ -~]*')
LONG_RUN = re.compile(rb'(.)\1{15,}', re.DOTALL)
BYTES_FORM = 'bytes are one or more of `"TEXT"`, `hex 61ff`, `zeros SIZE`, `fill HH SIZE`, `random seed N SIZE`, `file PATH`'

# The constants of splitmix64.
STEP = 0x9e3779b97f4a7c15
FIRST_FACTOR = 0xbf58476d1ce4e5b9
SECOND_FACTOR = 0x94d049bb133111eb
MASK = (1 << 64) - 1


class Wrong(Exception):
    """Says what is wrong with a line, and what would be right."""


class Quoted(str):
    """A word that stood between quotes, without them."""


def split_words(line):
    """The words of a line; what stands between quotes is one word."""
    words, place = [], 0
    while line[place:].strip():
        found = WORD.match(line, place)
        if not found:
            raise Wrong(r'a text begins and ends with `"`, and inside it `\"` is a quote and `\\` a backslash')
        word, place = found.group(1), found.end()
        words.append(Quoted(re.sub(r'\\(.)', r'\1', word[1:-1])) if word[0] == '"' else word)
    return words


def quote(text):
    """The text between quotes, as `split_words` reads it."""
    return '"%s"' % re.sub(r'(["\\])', r'\\\1', text)


def read_size(word, least=0, most=MASK, what='a size'):
    """The number that a word says, with K, M or G behind it."""
    found = None if isinstance(word, Quoted) else SIZE.fullmatch(word)
    number = int(found[1] + found[2]) * UNITS[found[3]] if found and len(word) <= 24 else None
    if number is None or not least <= number <= most:
        raise Wrong('`%s` is not %s: that is a whole number from %d to %d, such as 512, 4K, 1M' % (word, what, least, most))
    return number


def spell_size(number):
    """The shortest word for a number: with the largest unit that divides it."""
    for unit in 'GMK':
        if number and number % UNITS[unit] == 0:
            return '%d%s' % (number // UNITS[unit], unit)
    return str(number)


def read_number(word, least, most, what):
    """The whole number that a word says, without a unit."""
    if isinstance(word, Quoted) or not re.fullmatch('0|[1-9][0-9]{0,19}', word, re.ASCII) or not least <= int(word) <= most:
        raise Wrong('`%s` is not %s: that is a whole number from %d to %d' % (word, what, least, most))
    return int(word)


def random_bytes(seed, length):
    """The first bytes that splitmix64 gives from a seed, the lowest byte of each number first."""
    count = (length + 7) // 8
    state, numbers = seed, []
    for _ in range(count):
        state = state + STEP & MASK
        mixed = (state ^ state >> 30) * FIRST_FACTOR & MASK
        mixed = (mixed ^ mixed >> 27) * SECOND_FACTOR & MASK
        numbers.append(mixed ^ mixed >> 31)
    return struct.pack('<%dQ' % count, *numbers)[:length]


def seed_of(content):
    """The seed from which `random_bytes` gives just these bytes, or None; fewer than 16 bytes count for nothing."""
    if len(content) < 16:
        return None
    mixed, = struct.unpack_from('<Q', content)
    # Each step of the mixing is undone, the last one first.
    mixed ^= mixed >> 31 ^ mixed >> 62
    mixed = mixed * pow(SECOND_FACTOR, -1, 1 << 64) & MASK
    mixed ^= mixed >> 27 ^ mixed >> 54
    mixed = mixed * pow(FIRST_FACTOR, -1, 1 << 64) & MASK
    mixed ^= mixed >> 30 ^ mixed >> 60
    seed = mixed - STEP & MASK
    if random_bytes(seed, 16) == content[:16] and random_bytes(seed, len(content)) == content:
        return seed
    return None


def read_bytes(words, folder, most):
    """Takes the pieces of bytes from the front of `words`, and gives them joined: at most `most` bytes."""
    pieces, length = [], 0
    while words and (isinstance(words[0], Quoted) or words[0] in READERS):
        word = words.pop(0)
        if isinstance(word, Quoted):
            piece = word.encode()
        else:
            count, read = READERS[word]
            if len(words) < count:
                raise Wrong('`%s` lacks a word: %s' % (word, BYTES_FORM))
            piece = read(words[:count], folder, most - length)
            del words[:count]
        pieces.append(piece)
        length += len(piece)
        if length > most:
            raise Wrong('these are more than the %d bytes that may stand here' % most)
    if not pieces:
        raise Wrong(BYTES_FORM)
    return b''.join(pieces)


def read_hex(words, folder, most):
    """Two hexadecimal digits a byte."""
    if not re.fullmatch('([0-9a-fA-F]{2})+', words[0]):
        raise Wrong('`hex %s` is not two hexadecimal digits a byte, such as `hex 61ff`' % words[0])
    return bytes.fromhex(words[0])


def read_zeros(words, folder, most):
    """A number of zeros."""
    return bytes(read_size(words[0], 0, most))


def read_fill(words, folder, most):
    """One byte, again and again."""
    if not re.fullmatch('[0-9a-fA-F]{2}', words[0]):
        raise Wrong('`fill %s` is not a byte of two hexadecimal digits and a size, such as `fill 61 4K`' % words[0])
    return bytes.fromhex(words[0]) * read_size(words[1], 0, most)


def read_random(words, folder, most):
    """Bytes that follow from a seed."""
    if words[0] != 'seed':
        raise Wrong('random bytes are `random seed N SIZE`, such as `random seed 7 64K`')
    return random_bytes(read_number(words[1], 0, MASK, 'a seed'), read_size(words[2], 0, most))


def read_file(words, folder, most):
    """The bytes of a file, found from the folder of the text."""
    path = os.path.join(folder, words[0])
    try:
        with open(path, 'rb') as file:
            return file.read(most + 1)
    except OSError as error:
        raise Wrong('the file %s cannot be read: %s' % (path, error.strerror)) from None


# By the first word of a piece: how many words follow, and who reads them.
READERS = {'hex': (1, read_hex), 'zeros': (1, read_zeros), 'fill': (2, read_fill),
           'random': (3, read_random), 'file': (1, read_file)}


def spell_bytes(content):
    """The one canonical spelling of bytes."""
    if not content:
        return '""'
    seed = seed_of(content)
    if seed is not None:
        return 'random seed %d %s' % (seed, spell_size(len(content)))
    pieces, place = [], 0
    for run in LONG_RUN.finditer(content):
        pieces += spell_stretch(content[place:run.start()])
        size = spell_size(run.end() - run.start())
        pieces.append('zeros ' + size if run[1] == b'\0' else 'fill %s %s' % (run[1].hex(), size))
        place = run.end()
    return ' '.join(pieces + spell_stretch(content[place:]))


def spell_stretch(content):
    """The bytes between two long runs: as a text where all can be printed, else in hexadecimal digits."""
    if not content:
        return []
    return [quote(content.decode()) if TEXT.fullmatch(content) else 'hex ' + content.hex()]
