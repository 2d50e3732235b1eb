"""The first line of a script: what it may say, and its JSON."""
import json
import re
from typing import NamedTuple

import json_text
from byte_text import Wrong, quote

PAGE = 1 << 21
LARGEST_VOLUME = 1 << 30
MOST_REPLICAS = 8
MOST_STREAMS = 16
MOST_COMMANDS = 65536
MOST_CARRIES = 1024
LARGEST_CARRY = (1 << 32) - 1
MOST_INPUT = 1 << 28
MOST_LINE = 1 << 20

PLAIN_NAME = '[a-zA-Z0-9][a-zA-Z0-9._-]{0,63}'
SNAPSHOT_NAME = '(?!sys-)[a-zA-Z0-9._-]{1,64}'
LAYER_NAME = '(?:%s|sys-(?:0|[1-9][0-9]{0,9}))' % SNAPSHOT_NAME
REPLICA = 'r([0-9])'
# Each command: its form for people, and the texts that are one.
COMMANDS = [
    ('snapshot NAME', 'snapshot ' + SNAPSHOT_NAME),
    ('remove NAME', 'remove ' + LAYER_NAME),
    ('revert NAME', 'revert ' + LAYER_NAME),
    ('purge', 'purge'),
    ('add rK', 'add ' + REPLICA),
    ('fail rK', 'fail ' + REPLICA),
    ('backup BACKUP NAME', 'backup %s %s' % (PLAIN_NAME, LAYER_NAME)),
    ('expand BYTES', 'expand (?:0|[1-9][0-9]{0,9})'),
    ('salvage rK', 'salvage ' + REPLICA),
    ('status', 'status'),
]


class PlannedFault(NamedTuple):
    """The carries, counted from 1, that fail on the line from a worker to a replica."""
    worker: int
    replica: int
    carries: tuple


class Head(NamedTuple):
    """What the first line says. A stream is a number of bytes of frames, or a list of commands."""
    volume: str
    size: int
    replicas: int = 1
    open: bool = False
    save: bool = False
    now: str = ''
    streams: tuple = ()
    faults: tuple = ()


def check_volume(name):
    """A volume's name."""
    if not re.fullmatch(PLAIN_NAME, name):
        raise Wrong('`%s` is no name of a volume: that is 1 to 64 letters, digits, points, underscores and hyphens, '
                    'a letter or a digit first' % name)


def check_size(size):
    """A volume's size."""
    if size % PAGE or not PAGE <= size <= LARGEST_VOLUME:
        raise Wrong('%d is no size of a volume: that is a multiple of 2M, from 2M to 1G' % size)


def check_replicas(replicas):
    """A number of replicas."""
    if not 1 <= replicas <= MOST_REPLICAS:
        raise Wrong('%d is no number of replicas: that is 1 to %d' % (replicas, MOST_REPLICAS))


def check_now(now):
    """A time of the run."""
    if not re.fullmatch('[ -~]{0,40}', now):
        raise Wrong('%s is no time of a run: that is a text of at most 40 characters of ASCII that can be printed'
                    % quote(now))


def check_command(text, replicas):
    """A command's text."""
    found = next(filter(None, (re.fullmatch(pattern, text) for _, pattern in COMMANDS)), None)
    if not found:
        verb = text.split(' ')[0]
        forms = [form for form, _ in COMMANDS if form.split(' ')[0] == verb] or [form for form, _ in COMMANDS]
        raise Wrong('`%s` is no command: write %s; words are parted by one space, a NAME is 1 to 64 letters, digits, points, '
                    'underscores and hyphens, and a snapshot\'s own does not begin with `sys-`'
                    % (text, ', '.join('`%s`' % form for form in forms)))
    if found.lastindex and int(found[1]) >= replicas:
        raise Wrong('there is no r%s: replicas are numbered from 0, and the last is r%d' % (found[1], replicas - 1))


def check_fault(fault, replicas, streams):
    """A line's planned faults, where so many replicas and streams are there."""
    if not 0 <= fault.worker < streams:
        raise Wrong('there is no worker %d: workers are numbered as the streams, from 0, and the last is %d'
                    % (fault.worker, streams - 1))
    if not 0 <= fault.replica < replicas:
        raise Wrong('there is no replica %d: replicas are numbered from 0, and the last is %d' % (fault.replica, replicas - 1))
    rising = all(one < two for one, two in zip(fault.carries, fault.carries[1:]))
    if not rising or len(fault.carries) > MOST_CARRIES or not all(1 <= carry <= LARGEST_CARRY for carry in fault.carries):
        raise Wrong('carries are at most %d whole numbers from 1 to %d, each greater than the one before'
                    % (MOST_CARRIES, LARGEST_CARRY))


def check_head(head):
    """All that is asked of a first line, beside its length."""
    check_volume(head.volume)
    check_size(head.size)
    check_replicas(head.replicas)
    check_now(head.now)
    if not 1 <= len(head.streams) <= MOST_STREAMS:
        raise Wrong('a script has 1 to %d streams' % MOST_STREAMS)
    if not all(0 <= stream <= MOST_INPUT for stream in head.streams if isinstance(stream, int)):
        raise Wrong('a stream of frames has at most %d bytes' % MOST_INPUT)
    lists = [stream for stream in head.streams if not isinstance(stream, int)]
    for commands in lists:
        for text in commands:
            check_command(text, head.replicas)
    if sum(any(text.startswith('backup ') for text in commands) for commands in lists) > 1:
        raise Wrong('`backup` stands in one stream alone')
    if sum(map(len, lists)) > MOST_COMMANDS:
        raise Wrong('a script has at most %d calls' % MOST_COMMANDS)
    for place, fault in enumerate(head.faults):
        check_fault(fault, head.replicas, len(head.streams))
        if any(other[:2] == fault[:2] for other in head.faults[:place]):
            raise Wrong('the line from worker %d to replica %d has its faults already' % fault[:2])


def spell_head(head):
    """The one spelling that is written: no blanks, the members in their order, those left out that say what they would without."""
    members = {'volume': head.volume, 'size': head.size, 'replicas': head.replicas}
    if head.open:
        members['open'] = True
    if head.save:
        members['save'] = True
    if head.now:
        members['now'] = head.now
    members['streams'] = [{'frames': stream} if isinstance(stream, int) else {'control': list(stream)} for stream in head.streams]
    if head.faults:
        members['lines'] = [{'worker': fault.worker, 'replica': fault.replica, 'fail': list(fault.carries)}
                            for fault in head.faults]
    return json.dumps(members, separators=(',', ':')).encode()


def read_head(line):
    """What a first line says that is good and spelled as `spell_head` would; else None."""
    head = understand_head(line)
    return head if head is not None and spell_head(head) == line else None


def understand_head(line):
    """What a first line says that is good, however it is spelled; else None."""
    try:
        members = json_text.read(line)
        if not isinstance(members, dict):
            return None
        streams = tuple(read_stream(stream) for stream in read_list(members['streams']))
        faults = tuple(PlannedFault(read_whole(fault['worker']), read_whole(fault['replica']), tuple(map(read_whole, read_list(fault['fail']))))
                       for fault in read_list(members.get('lines', [])))
        head = Head(members['volume'], read_whole(members['size']), read_whole(members['replicas']), members.get('open', False),
                    members.get('save', False), members.get('now', ''), streams, faults)
        if not all(type(flag) is bool for flag in (head.open, head.save)):
            return None
        check_head(head)
        return head
    except (Wrong, ValueError, TypeError, KeyError):
        return None


def read_whole(value):
    """A whole number, spelled as one."""
    if not json_text.is_whole(value):
        raise ValueError
    return value


def read_list(value):
    """A list."""
    if not isinstance(value, list):
        raise ValueError
    return value


def read_stream(stream):
    """A stream: it has bytes of frames or commands, and not both."""
    if ('frames' in stream) == ('control' in stream):
        raise ValueError
    return read_whole(stream['frames']) if 'frames' in stream else tuple(read_list(stream['control']))


def frame_lengths(line):
    """The lengths of the frame streams that a line names, good or not, by the streams' numbers; None where it tells none."""
    try:
        streams = json.loads(line)['streams']
        lengths = {number: stream['frames'] for number, stream in enumerate(streams) if 'frames' in stream}
        return lengths if all(type(length) is int and length >= 0 for length in lengths.values()) else None
    except (ValueError, TypeError, KeyError, RecursionError):
        return None
