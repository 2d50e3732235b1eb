"""Texts of scripts in canonical form, made at random."""
import string

NAME_LETTERS = string.ascii_letters + string.digits + '._-'
PRINTED = ''.join(chr(code) for code in range(0x20, 0x7f))


def canonical_text(random):
    """One text in canonical form."""
    replicas, streams = random.randint(1, 8), random.choice([1, 1, 1, 2, 2, 3, 3, 16])
    pages = random.choice([1, 1, 2, 3, 512, random.randint(1, 512)])
    lines = ['volume %s %s' % (random.choice(string.ascii_letters) + name(random, 63), '1G' if pages == 512 else '%dM' % (2 * pages)),
             'replicas %d' % replicas]
    lines += [word for word in ('open', 'save') if random.random() < 0.2]
    if random.random() < 0.3:
        lines.append('now ' + quoted(random, random.randint(1, 40)))
    pairs = [(worker, replica) for worker in range(streams) for replica in range(replicas)]
    for pair in random.sample(pairs, min(len(pairs), random.choice([0, 0, 0, 1, 3]))):
        carries = sorted(random.sample(range(1, 5000), random.randint(0, 5)))
        lines.append(' '.join(['fault worker %d replica %d carries' % pair, *map(str, carries)]))
    backups = random.randrange(streams)
    for stream in range(streams):
        of_frames = random.random() < 0.6
        lines.append('stream %d %s' % (stream, 'frames' if of_frames else 'commands'))
        lines += ['  ' + line for line in (frames(random) if of_frames else commands(random, replicas, stream == backups))]
    return '\n'.join(lines) + '\n'


def name(random, most):
    """Letters that a name may have."""
    return ''.join(random.choice(NAME_LETTERS) for _ in range(random.randint(0, random.choice([3, most]))))


def quoted(random, length):
    """A text between quotes, of so many letters, none of which makes a long run."""
    letters = ''.join(random.choice(PRINTED) for _ in range(length))
    return '"%s"' % letters.replace('\\', '\\\\').replace('"', '\\"')


def commands(random, replicas, may_back_up):
    """The lines of a stream of commands."""
    forms = ['snapshot a%s' % name(random, 62), 'remove b%s' % name(random, 62), 'revert sys-%d' % random.randrange(10 ** 10), 'purge',
             'status', 'add r%d' % random.randrange(replicas), 'fail r%d' % random.randrange(replicas),
             'salvage r%d' % random.randrange(replicas), 'expand %d' % random.randrange(10 ** 10)]
    if may_back_up:
        forms.append('backup c%s d%s' % (name(random, 62), name(random, 62)))
    return [random.choice(forms) for _ in range(random.randint(0, 6))]


def frames(random):
    """The lines of a stream of frames."""
    lines = []
    for number in range(1, random.randint(1, 6)):
        seq = random.choice([number, number, number, random.randrange(1 << 32)])
        lines.append(frame(random) + (' seq %d' % seq if seq != number else ''))
    if random.random() < 0.2:
        lines.append('close')
        if random.random() < 0.3:
            lines.append('bytes ' + content(random, 1))
    elif random.random() < 0.1:
        lines.append('bytes "no frame"')
    return lines


def frame(random):
    """The line of a frame that is no Close."""
    kind = random.randrange(8)
    if kind < 3:
        return 'write %s %s' % (offset(random), content(random, 0))
    if kind < 5:
        return 'read %s %s' % (offset(random), size(random))
    if kind == 5:
        return 'ping'
    if kind == 6:
        return 'frame 0 %s %s %s' % (offset(random), size(random), content(random, 1))
    line = 'frame %d %s %s' % (random.choice([2, 3, 4, 7, 8, 4294967295]), offset(random), size(random))
    return line + random.choice(['', ' ' + content(random, 1)])


def size(random):
    """A size below 2^32, as shortly as can be."""
    plain = random.choice([0, 1, 1023, 1025, 4097, 1048577, 4294967295, 2 * random.randrange(1 << 30) + 1])
    return random.choice([str(plain), '%dK' % (2 * random.randrange(500) + 1), '%dM' % (2 * random.randrange(500) + 1), '3G'])


def offset(random):
    """An offset, negative or not."""
    return random.choice(['', '', '-']) + random.choice(['1', '4095', '1K', '4K', '2044K', '3M', '1G', '5G', '9223372036854775807'])


def content(random, least):
    """Bytes in their one spelling: `least` bytes at least."""
    if random.random() < 0.2:
        return 'random seed %d %s' % (random.randrange(1 << 64), random.choice(['16', '17', '100', '1K']))
    pieces, last = [], None
    for _ in range(random.randint(0, 3)):
        if random.random() < 0.6:
            pieces.append(stretch(random))
        values = [value for value in ('00', '61', 'ff') if value != last]
        last = random.choice(values)
        length = random.choice(['16', '17', '63', '1K', '4K'])
        pieces.append('zeros ' + length if last == '00' else 'fill %s %s' % (last, length))
    if not pieces or random.random() < 0.5:
        pieces.append(stretch(random))
    return ' '.join(pieces) if least or random.random() < 0.9 else '""'


def stretch(random):
    """A text or hexadecimal digits that begin and end with no byte of a long run."""
    if random.random() < 0.5:
        return '"b%sb"' % quoted(random, random.randint(0, 9))[1:-1]
    return 'hex 01%s7f' % bytes(random.randrange(256) for _ in range(random.randint(0, 9))).hex()
