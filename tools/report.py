"""What `run` and `serve` print, read line by line."""
import re
from typing import NamedTuple

NUMBER = '(?:0|[1-9][0-9]*)'
RUNS = '(?:-|[0-9a-f]{2}\\*[1-9][0-9]*(?:,[0-9a-f]{2}\\*[1-9][0-9]*)*)'
LONGEST_RUN = re.compile(rb'(.)\1*', re.DOTALL)
REPLICA = 'r[0-9]'
NAME = '[a-zA-Z0-9._-]{1,64}'
# Each call: its first word, and the pattern of the words behind it.
CALLS = {
    'read': ' -?%s %s' % (NUMBER, NUMBER),
    'write': ' -?%s %s %s' % (NUMBER, NUMBER, RUNS),
    'unmap': ' -?%s %s' % (NUMBER, NUMBER),
    'ping': '',
    'other': ' ' + NUMBER,
    'snapshot': ' ' + NAME,
    'remove': ' ' + NAME,
    'revert': ' ' + NAME,
    'purge': '',
    'add': ' ' + REPLICA,
    'fail': ' ' + REPLICA,
    'backup': ' %s %s' % (NAME, NAME),
    'expand': ' ' + NUMBER,
    'salvage': ' ' + REPLICA,
    'status': '',
}
FRAME_CALLS = ('read', 'write', 'unmap', 'ping', 'other')
MARKS = {
    'fault': ' %s %s %s' % (NUMBER, REPLICA, NUMBER),
    'failed': ' ' + REPLICA,
    'added': ' %s %s sys-%s' % (REPLICA, REPLICA, NUMBER),
    'promoted': ' ' + REPLICA,
    'aborted': ' ' + REPLICA,
    'folded': ' %s %s' % (NAME, NAME),
    'dropped': ' ' + NAME,
    'salvaged': ' %s (?:-|%s(?:,%s)*)' % (REPLICA, NUMBER, NUMBER),
}


def one_of(patterns):
    """A pattern for a first word and what stands behind it."""
    return '|'.join(word + rest for word, rest in patterns.items())


ENTRY_LINE = re.compile('(%s) (%s) (%s) (%s) (%s) (ok|ok %s|ok layers %s modes (?:RW|WO|ERR)(?:,(?:RW|WO|ERR))*|error .+)'
                        % (NUMBER, NUMBER, NUMBER, NUMBER, one_of(CALLS), RUNS, NUMBER))
MARK_LINE = re.compile('(%s) mark (%s)' % (NUMBER, one_of(MARKS)))
REPLY_LINE = re.compile('reply (%s) (%s) (%s) (%s) (-?%s) (%s) (%s)' % (NUMBER, NUMBER, NUMBER, NUMBER, NUMBER, NUMBER, RUNS))
SESSION_LINE = re.compile('session (%s) (closed|ended|frame %s|full|read fault|write fault) (%s) (%s)' % (NUMBER, NUMBER, NUMBER, NUMBER))
OPEN_LINE = re.compile('open (%s) (RW|ERR .+)' % REPLICA)
MODE_LINE = re.compile('mode (%s) (RW|ERR)' % REPLICA)
CHAIN_LINE = re.compile('chain (%s) head((?: %s\\*?)*)' % (REPLICA, NAME))
HEAD_LINE = re.compile('head (%s) ([0-9a-f]{64})' % REPLICA)


class Entry(NamedTuple):
    """A call of the journal, as its line gives it; `line` is that line's number."""
    line: int
    place: int
    saw: int
    stream: int
    index: int
    call: tuple
    answer: str

    @property
    def kind(self):
        """The first word of the call."""
        return self.call[0]

    @property
    def refusal(self):
        """The text of a refusal, or the empty text."""
        return self.answer[len('error '):] if self.answer.startswith('error ') else ''

    @property
    def runs(self):
        """The runs that a read was answered, or the empty text."""
        return self.answer[len('ok '):] if self.kind == 'read' and self.answer.startswith('ok ') else ''


class Mark(NamedTuple):
    """A mark of the journal: what came to a replica or a layer."""
    line: int
    place: int
    words: tuple

    @property
    def kind(self):
        """The first word of the mark."""
        return self.words[0]


class FrameReply(NamedTuple):
    """A reply line: the frame that answers a call."""
    line: int
    stream: int
    index: int
    seq: int
    kind: int
    offset: int
    size: int
    runs: str


class Session(NamedTuple):
    """A line of a session: how it ended, the number of its calls, and how long the journal was when it looked last."""
    line: int
    number: int
    end: str
    calls: int
    seen: int


class OfReplica(NamedTuple):
    """A line that says something of one replica: its group, and what it says."""
    line: int
    group: str
    replica: int
    value: object


class Report(NamedTuple):
    """The lines of a report in their order, and those that are none with their numbers."""
    lines: list
    unread: list

    @property
    def journal(self):
        """The entries and marks."""
        return [line for line in self.lines if isinstance(line, (Entry, Mark))]

    @property
    def entries(self):
        """The calls of the journal."""
        return [line for line in self.lines if isinstance(line, Entry)]

    @property
    def sessions(self):
        """The sessions that ended. A report that has some is one of `serve`."""
        return [line for line in self.lines if isinstance(line, Session)]

    def of_replicas(self, group):
        """What the lines of a group say, by the replicas' numbers."""
        return {line.replica: line.value for line in self.lines if isinstance(line, OfReplica) and line.group == group}

    @property
    def replica_count(self):
        """One more than the greatest replica's number that is named anywhere."""
        named = {line.replica for line in self.lines if isinstance(line, OfReplica)}
        for mark in self.journal:
            words = mark.words if isinstance(mark, Mark) else ()
            named |= {replica_number(word) for word in words[1:3] if mark.kind not in LAYER_MARKS and re.fullmatch(REPLICA, word)}
        return max(named, default=0) + 1


LAYER_MARKS = ('folded', 'dropped')


def replica_number(word):
    """The number in the name of a replica."""
    return int(word[1:])


def read_report(text):
    """The report that `run` or `serve` printed."""
    lines, unread = [], []
    for number, line in enumerate(text.split('\n'), 1):
        if line:
            read = read_line(number, line)
            if read is None:
                unread.append((number, line))
            else:
                lines.append(read)
    return Report(lines, unread)


def read_line(number, line):
    """What one line says, or None where it is none of a report."""
    found = ENTRY_LINE.fullmatch(line)
    if found:
        call = tuple(found[5].split(' '))
        return Entry(number, *map(int, found.group(1, 2, 3, 4)), call, found[6]) if is_answer(call[0], found[6]) else None
    found = MARK_LINE.fullmatch(line)
    if found:
        return Mark(number, int(found[1]), tuple(found[2].split(' ')))
    found = REPLY_LINE.fullmatch(line)
    if found:
        return FrameReply(number, *map(int, found.group(1, 2, 3, 4, 5, 6)), found[7])
    found = SESSION_LINE.fullmatch(line)
    if found:
        return Session(number, int(found[1]), found[2], int(found[3]), int(found[4]))
    for group, pattern in (('open', OPEN_LINE), ('mode', MODE_LINE), ('chain', CHAIN_LINE), ('head', HEAD_LINE)):
        found = pattern.fullmatch(line)
        if found:
            value = tuple(found[2].split()) if group == 'chain' else found[2]
            return OfReplica(number, group, replica_number(found[1]), value)
    return None


def is_answer(kind, answer):
    """Whether a call of that kind may have an answer of this form."""
    if answer.startswith('error '):
        return True
    if kind == 'read':
        return answer.startswith('ok ') and not answer.startswith('ok layers ')
    if kind == 'status':
        return answer.startswith('ok layers ')
    return answer == 'ok'


def bytes_count(runs):
    """How many bytes some runs are."""
    return 0 if runs == '-' else sum(int(run[3:]) for run in runs.split(','))


def is_shortest(runs):
    """Whether each run is as long as can be."""
    values = [run[:2] for run in runs.split(',')]
    return all(one != two for one, two in zip(values, values[1:]))


def spell_runs(content):
    """Bytes as runs, each as long as can be."""
    return ','.join('%02x*%d' % (content[run.start()], run.end() - run.start()) for run in LONGEST_RUN.finditer(content)) or '-'


def bytes_of(runs):
    """The bytes that runs say."""
    return b'' if runs == '-' else b''.join(bytes.fromhex(run[:2]) * int(run[3:]) for run in runs.split(','))


def shorten(text, most):
    """The text, with its middle left out where it is longer than `most`."""
    if len(text) <= most:
        return text
    front = (most - 1 + 1) // 2
    return '%s…%s' % (text[:front], text[len(text) - (most - 1 - front):])


def spell_call(call, most=40):
    """A call for people: ranges as `OFFSET+LENGTH`, its bytes shortened."""
    if call[0] in ('read', 'write', 'unmap'):
        words = [call[0], '%s+%s' % call[1:3], *(shorten_runs(runs, 16) for runs in call[3:])]
    else:
        words = list(call)
    return shorten(' '.join(words), most)


def shorten_runs(runs, most):
    """Runs, with those at the end left out that have no room."""
    if len(runs) <= most:
        return runs
    kept = runs[:most - 1].rpartition(',')[0] if ',' in runs[:most] else runs[:most - 1]
    return kept + '…'
