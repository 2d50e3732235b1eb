"""What is odd in a report."""
import re

import asked
import ended_sessions
import rebuilds
from plain_disk import PlainDisk
from replay import ERR, MOST_LAYERS, RW, Replay
from report import (FRAME_CALLS, LAYER_MARKS, Entry, FrameReply, Mark, OfReplica, bytes_count, is_shortest, replica_number,
                    shorten, shorten_runs, spell_runs)

MOST_LENGTH = 1 << 20
GROUPS = ('open', 'journal', 'reply', 'session', 'mode', 'chain', 'head')
# The refusals of each call.
REFUSALS = {
    'read': ('too long', 'out of range', 'no replica'),
    'write': ('out of range', 'no replica'),
    'unmap': ('too long', 'out of range', 'no replica'),
    'ping': (),
    'other': ('unsupported',),
    'snapshot': ('name used', 'chain full', 'no replica'),
    'remove': ('no such snapshot', 'no replica'),
    'revert': ('no such snapshot', 'no replica'),
    'purge': ('no replica',),
    'add': ('in use', 'chain full', 'no replica', 'aborted [0-9]+'),
    'fail': (),
    'backup': ('no such snapshot', 'backup exists', 'no replica', 'block differs', 'target fault'),
    'expand': ('bad size', 'no replica'),
    'salvage': ('in use', 'replica left', 'not last'),
    'status': (),
}
NEEDS_REPLICA = ('write', 'unmap', 'snapshot', 'remove', 'revert', 'purge', 'expand')


def find_odd(report, script=None, opening=None):
    """The findings, each as the number of its line, or None for the report as a whole, and a sentence.

    With a script it is judged too whether the report is one of it, and with an opening whether the run began so.
    """
    checker = Checker(report, script, opening)
    checker.check()
    return sorted(checker.findings, key=lambda finding: (finding[0] is None, finding[0] or 0))


class Checker:
    """Goes over a report once, and keeps what it finds."""

    def __init__(self, report, script, opening):
        self.report = report
        self.script = script
        self.opening = opening
        self.findings = []
        self.replay = Replay(report, opening)
        self.disk = PlainDisk(opening)
        # The volume's size, where it is known.
        self.size = script and script.head.size
        self.entries = {entry.place: entry for entry in report.entries}
        self.journal = report.journal
        # Which line of the journal each is, by its number.
        self.ranks = {line.line: rank for rank, line in enumerate(self.journal)}
        # A prefix of a report, as a fault of its sink leaves it, lacks lines and says nothing by that.
        self.is_front = not report.of_replicas('mode')
        # Whether every line of the journal so far was there; else nothing is said of what follows from all of them.
        self.is_whole = not report.unread
        self.next_place = 0
        self.next_index = {}
        self.last_place = {}
        self.counts = {}

    def say(self, line, sentence, *words):
        """Keeps a finding of a line, which is None or anything that has a line's number."""
        self.findings.append((line and line.line, sentence % words))

    def say_all(self, line, sentences):
        """Keeps findings of a line."""
        for sentence in sentences:
            self.say(line, '%s', sentence)

    def check(self):
        """All checks."""
        for number, line in self.report.unread:
            self.findings.append((number, 'is no line of a report: `%s`' % shorten(line, 60)))
        self.check_groups()
        self.check_opening()
        for line in self.journal:
            self.check_place(line)
            if isinstance(line, Entry):
                self.check_order(line)
                if self.script:
                    self.say_all(line, asked.odd_call(line, self.script))
                self.check_entry(line)
            else:
                self.check_mark(line)
        self.check_askers()
        if self.report.sessions:
            self.findings += ended_sessions.odd_sessions(self.report, self.is_whole)
        else:
            self.check_replies()
        self.check_end()

    def check_groups(self):
        """The groups stand in their order."""
        highest = 0
        for line in self.report.lines:
            rank = GROUPS.index(group_of(line))
            if rank < highest:
                self.say(line, 'stands behind a line of the group `%s`, and belongs before it', GROUPS[highest])
            highest = max(highest, rank)

    def check_opening(self):
        """The opening lines are all there where the run opens, and say what the opening tells."""
        lines = [line for line in self.report.lines if isinstance(line, OfReplica) and line.group == 'open']
        if self.script and not self.script.head.open:
            wanted = []
        else:
            wanted = list(range(self.script.head.replicas if self.script else len(lines)))
        seen = [line.replica for line in lines]
        if seen != wanted and not (self.is_front and seen == wanted[:len(seen)]):
            self.say(lines[0] if lines else None, 'tells the opening of %s, and %s were opened', replicas_text(seen),
                     replicas_text(wanted))
        if lines and all(line.value != RW for line in lines) and not self.is_front:
            self.say(lines[0], 'begins an opening in which no replica is RW')
        for line, told in zip(lines, self.opening.lines if self.opening else ()):
            if line.value != told:
                self.say(line, 'opens r%d as `%s`, and its folder is `%s`', line.replica, line.value, told)

    def check_place(self, line):
        """Places count from 0."""
        if line.place != self.next_place:
            self.say(line, 'has place %d, where %d comes next', line.place, self.next_place)
            self.is_whole = False
        self.next_place = line.place + 1

    def check_order(self, entry):
        """Each stream's calls stand in order, and see what came before."""
        stream, index = entry.stream, self.next_index.get(entry.stream, 0)
        if entry.index != index:
            self.say(entry, 'is call %d of stream %d, where call %d comes next', entry.index, stream, index)
        if entry.saw > entry.place:
            self.say(entry, 'saw %d, which is past its own place %d', entry.saw, entry.place)
        if entry.saw <= self.last_place.get(stream, -1):
            self.say(entry, 'saw %d, but the call before it in stream %d ended at place %d', entry.saw, stream,
                     self.last_place[stream])
        self.next_index[stream] = entry.index + 1
        self.last_place[stream] = entry.place

    def check_entry(self, entry):
        """The answer is one that the call may have here."""
        if entry.refusal and not any(re.fullmatch(text, entry.refusal) for text in REFUSALS[entry.kind]):
            self.say(entry, 'is refused as `%s`, which no `%s` is', entry.refusal, entry.kind)
        if entry.kind == 'other' and not entry.refusal:
            self.say(entry, 'is `ok`, but a frame of another type is answered `unsupported`')
        self.check_bytes(entry)
        if self.is_whole:
            self.check_modes(entry)
            if self.replay.layers_known:
                self.check_names(entry)
                self.check_content(entry)
            self.replay.take_entry(entry)
            self.take_content(entry)

    def check_bytes(self, entry):
        """Ranges and bytes of a read or a write fit."""
        if entry.kind not in ('read', 'write', 'unmap'):
            return
        offset, length = map(int, entry.call[1:3])
        runs = entry.call[3] if entry.kind == 'write' else entry.runs
        if runs and bytes_count(runs) != length:
            self.say(entry, 'has %d bytes, and its length is %d', bytes_count(runs), length)
        if runs and not is_shortest(runs):
            self.say(entry, 'has two runs of one byte side by side')
        if self.size is not None:
            self.say_all(entry, asked.odd_range(entry, self.size))
        elif offset < 0 and not entry.refusal:
            self.say(entry, 'is `ok` at a negative offset')
        if entry.kind == 'write' and length > MOST_LENGTH:
            self.say(entry, 'writes %d bytes, and a frame has at most %d', length, MOST_LENGTH)
        if entry.kind != 'write' and (length > MOST_LENGTH) != (entry.refusal == 'too long'):
            self.say(entry, 'of %d bytes is answered `%s`; `too long` is for more than %d', length, shorten(entry.answer, 30),
                     MOST_LENGTH)

    def check_modes(self, entry):
        """The answer fits the replicas' modes."""
        source = self.replay.source()
        if entry.refusal == 'no replica' and source is not None and entry.kind != 'add':
            self.say(entry, 'is refused as `no replica`, but r%d is RW', source)
        if not entry.refusal and source is None and entry.kind in NEEDS_REPLICA:
            self.say(entry, 'is `ok`, but no replica is RW')
        if entry.kind in ('add', 'fail', 'salvage') and replica_number(entry.call[1]) >= len(self.replay.modes):
            if not self.is_front:
                self.say(entry, 'names %s, which the report has no mode of', entry.call[1])
        elif entry.kind == 'fail' and self.replay.modes[replica_number(entry.call[1])] != ERR:
            self.say(entry, 'is `ok`, but %s is %s', entry.call[1], self.replay.modes[replica_number(entry.call[1])])
        elif entry.kind == 'add':
            self.say_all(entry, rebuilds.odd_answer(entry, self.replay))
        if entry.kind == 'status' and entry.answer.split(' ')[-1] != ','.join(self.replay.modes):
            self.say(entry, 'tells the modes %s, which are %s', entry.answer.split(' ')[-1], ','.join(self.replay.modes))

    def check_names(self, entry):
        """The answer fits the names and layers that the journal has made."""
        replay, name = self.replay, entry.call[-1]
        if entry.kind == 'snapshot' and (name in replay.used) != (entry.refusal == 'name used'):
            self.say(entry, 'is answered `%s`, but the name %s', entry.answer,
                     'was taken before' if name in replay.used else 'is free')
        is_full = entry.kind == 'snapshot' and name not in replay.used and replay.layer_count >= MOST_LAYERS
        if entry.kind == 'snapshot' and is_full != (entry.refusal == 'chain full'):
            self.say(entry, 'is answered `%s`, and there are %d layers', entry.answer, replay.layer_count)
        if entry.kind in ('remove', 'revert', 'backup') and replay.is_live(name) == (entry.refusal == 'no such snapshot'):
            self.say(entry, 'is answered `%s`, but there is %s snapshot of the name', entry.answer,
                     'a' if replay.is_live(name) else 'no')
        left = replay.can_go() if entry.kind == 'purge' and not entry.refusal else []
        if left:
            self.say(entry, 'is `ok`, but there is still to fold or to drop: %s', shorten(', '.join(left), 60))
        if entry.kind == 'status' and int(entry.answer.split(' ')[2]) != replay.layer_count:
            self.say(entry, 'tells %s layers, and there are %d', entry.answer.split(' ')[2], replay.layer_count)

    def check_content(self, entry):
        """A read gives what one plain disk has there."""
        if entry.runs and is_carried(entry):
            there = spell_runs(self.disk.read(int(entry.call[1]), int(entry.call[2])))
            if entry.runs != there:
                self.say(entry, 'reads `%s`, and a plain disk has `%s` there', shorten_runs(entry.runs, 40),
                         shorten_runs(there, 40))

    def take_content(self, entry):
        """Takes the changes of an entry to bytes and size."""
        if not entry.refusal and (entry.kind not in ('write', 'unmap') or is_carried(entry)):
            self.disk.take_call(entry.call)
        if self.size is not None and entry.kind == 'expand' and not entry.refusal:
            self.size = int(entry.call[1])

    def check_mark(self, mark):
        """The mark may stand here."""
        if mark.kind == 'fault':
            self.check_count(mark)
        if self.script:
            self.say_all(mark, asked.odd_mark(mark, self.script))
        if not self.is_whole:
            return
        if mark.kind in LAYER_MARKS:
            if self.replay.source() is None:
                self.say(mark, 'takes %s away, but no replica is RW', mark.words[1])
            if self.replay.layers_known:
                self.check_layer_mark(mark)
        else:
            self.check_replica_mark(mark)
        self.replay.take_mark(mark, self.entries)
        self.disk.take_mark(mark, self.entries)

    def check_count(self, mark):
        """The counts of one line's faults rise."""
        line, count = mark.words[1:3], int(mark.words[3])
        if count <= self.counts.get(line, 0):
            self.say(mark, 'has the count %d, and the fault before it on that line %d', count, self.counts.get(line, 0))
        self.counts[line] = count

    def check_replica_mark(self, mark):
        """The mark fits the mode of its replica, the rebuild that is open, and the lines around it."""
        if mark.kind == 'added':
            self.say_all(mark, rebuilds.odd_rebuild(mark, self.replay))
        elif mark.kind in rebuilds.FALLS:
            self.say_all(mark, rebuilds.odd_fall(mark, self.replay))
        elif mark.kind in ('promoted', 'aborted'):
            self.say_all(mark, rebuilds.odd_end(mark, self.replay, self.neighbour(mark, -1)))
        else:
            self.say_all(mark, rebuilds.odd_start(mark, self.replay))
        following = [self.neighbour(mark, 1), self.neighbour(mark, 2)]
        if not (self.is_front and None in following):
            self.say_all(mark, rebuilds.odd_behind(mark, self.replay, following))

    def neighbour(self, line, step):
        """The line of the journal so many behind one, or before it, or None."""
        rank, journal = self.ranks[line.line] + step, self.journal
        return journal[rank] if 0 <= rank < len(journal) else None

    def check_layer_mark(self, mark):
        """The layer may be folded or dropped."""
        replay, gone = self.replay, mark.words[1]
        children = replay.children(gone)
        if gone not in replay.marked:
            self.say(mark, 'takes %s away, which is not marked', gone)
        if replay.below_head == gone:
            self.say(mark, 'takes %s away, on which the head stands', gone)
        if children != list(mark.words[2:]):
            self.say(mark, 'takes %s away, on which %s', gone, ('stands ' + ', '.join(children)) if children else 'no layer stands')

    def check_askers(self):
        """A mark that a call alone makes stands between what such a call saw and its answer."""
        # What the calls behind a line saw, the least for each.
        seen = {}
        for line in reversed(self.journal if self.is_whole and not self.is_front else []):
            if isinstance(line, Mark):
                asker = asker_of(line)
                if asker and not seen.get(asker, line.place + 1) <= line.place:
                    self.say(line, 'stands in no `%s` that saw what is before it and is answered behind it', ' '.join(asker))
            elif line.kind in ('add', 'purge'):
                seen[line.call] = min(line.saw, seen.get(line.call, line.saw))

    def check_replies(self):
        """Each call by a frame has one reply line, which says what its entry says."""
        asked = {(entry.stream, entry.index): entry for entry in self.report.entries if entry.kind in FRAME_CALLS}
        answered, last = set(), (-1, -1)
        for reply in (line for line in self.report.lines if isinstance(line, FrameReply)):
            key = reply.stream, reply.index
            entry = asked.get(key)
            if entry is None:
                self.say(reply, 'replies to call %d of stream %d, which has no entry as a frame', reply.index, reply.stream)
            elif key in answered:
                self.say(reply, 'replies to call %d of stream %d once more', reply.index, reply.stream)
            elif key < last:
                self.say(reply, 'stands behind the reply to call %d of stream %d', last[1], last[0])
            if entry is not None:
                self.check_reply(reply, entry)
            answered.add(key)
            last = max(last, key)
        for key, entry in asked.items():
            if key not in answered and not self.is_front:
                self.say(entry, 'is call %d of stream %d, which has no reply line', entry.index, entry.stream)

    def check_reply(self, reply, entry):
        """A reply line says what its entry says."""
        if entry.refusal:
            wanted = 3, len(entry.refusal), spell_runs(entry.refusal.encode())
        elif entry.kind == 'read':
            wanted = 2, bytes_count(entry.runs), entry.runs
        else:
            wanted = 2, int(entry.call[2]) if entry.kind in ('write', 'unmap') else 0, '-'
        for what, seen, want in zip(('type', 'size', 'bytes'), (reply.kind, reply.size, reply.runs), wanted):
            if seen != want:
                self.say(reply, 'has the %s %s, and its entry in line %d makes it %s', what, shorten(str(seen), 30), entry.line,
                         shorten(str(want), 30))
        if self.script:
            self.say_all(reply, asked.odd_reply(reply, self.script))
        elif entry.kind in ('read', 'write', 'unmap') and reply.offset != int(entry.call[1]):
            self.say(reply, 'has the offset %d, and its entry in line %d has %s', reply.offset, entry.line, entry.call[1])

    def check_end(self):
        """The lines of the replicas are all there, and agree."""
        lines = [line for line in self.report.lines if isinstance(line, OfReplica) and line.group != 'open']
        modes = [line for line in lines if line.group == 'mode']
        if self.is_front:
            self.say(None, 'has no modes at its end: it is a prefix of a report')
            return
        if self.script:
            self.say_all(None, asked.odd_lack(self.next_index, self.script))
        if [line.replica for line in modes] != list(range(self.script.head.replicas if self.script else len(modes))):
            self.say(modes[0], 'begins modes of %s, where each replica has one, in order',
                     replicas_text([line.replica for line in modes]))
        self.check_last_modes(modes)
        wanted = [line.replica for line in modes if line.value == RW]
        for group in ('chain', 'head'):
            self.check_sameness([line for line in lines if line.group == group], group, wanted)
        if self.size is not None and self.is_whole and self.replay.layers_known:
            self.check_digest([line for line in lines if line.group == 'head'])

    def check_last_modes(self, modes):
        """The modes at the end are those of the journal."""
        for line in modes:
            known = self.is_whole and line.replica < len(self.replay.modes)
            if known and line.value != self.replay.modes[line.replica]:
                self.say(line, 'gives r%d the mode %s, and the journal %s', line.replica, line.value,
                         self.replay.modes[line.replica])

    def check_sameness(self, lines, group, wanted):
        """Exactly the replicas in mode RW have a line of the group, and all say the same."""
        seen = [line.replica for line in lines]
        if seen != wanted:
            self.say(lines[0] if lines else None, 'has `%s` of %s, and in mode RW is %s', group, replicas_text(seen),
                     replicas_text(wanted))
        for line in lines[1:]:
            if line.value != lines[0].value:
                self.say(line, 'gives r%d another %s than r%d has', line.replica, group, lines[0].replica)
        if group == 'chain' and lines and self.is_whole and self.replay.layers_known and lines[0].value != self.replay.chain:
            self.say(lines[0], 'gives the chain `%s`, and the journal `%s`', chain_text(lines[0].value),
                     chain_text(self.replay.chain))


    def check_digest(self, lines):
        """The heads read as the plain disk does."""
        digest = self.disk.digest(self.size) if lines else None
        for line in lines:
            if line.value != digest:
                self.say(line, 'gives r%d the digest %s, and a plain disk has %s', line.replica, shorten(line.value, 17),
                         shorten(digest, 17))


def asker_of(mark):
    """The call that alone makes a mark, or None."""
    if mark.kind == 'added':
        return 'add', mark.words[1]
    return ('purge',) if mark.kind in LAYER_MARKS else None


def is_carried(entry):
    """Whether the range of a read or a write is one that can be carried, and has just as many bytes as it says."""
    offset, length = map(int, entry.call[1:3])
    runs = entry.call[3] if entry.kind == 'write' else entry.runs
    return offset >= 0 and length <= MOST_LENGTH and (entry.kind == 'unmap' or bytes_count(runs) == length)


def replicas_text(replicas):
    """Some replicas, by name."""
    return ', '.join('r%d' % replica for replica in replicas) or 'none'


def chain_text(names):
    """A chain, from the head down."""
    return shorten(' '.join(('head', *names)), 60)


def group_of(line):
    """The group of a line."""
    if isinstance(line, (Entry, Mark)):
        return 'journal'
    if isinstance(line, OfReplica):
        return line.group
    return 'reply' if isinstance(line, FrameReply) else 'session'
