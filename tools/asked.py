"""What a script asks for, and what is odd in a report beside it: each as a sentence."""
from typing import NamedTuple

import frame_text
from report import LAYER_MARKS, replica_number, shorten, spell_call, spell_runs
from script_head import MOST_LINE, understand_head


class Asked(NamedTuple):
    """A call of a script as a journal spells it; of a frame also its seq and its offset."""
    call: tuple
    seq: object = None
    offset: object = None


class Script(NamedTuple):
    """A script: its first line, and the calls of each stream in order."""
    head: object
    streams: list

    @property
    def plans(self):
        """How many carries of each line fail, by worker and replica; of a line that is not there, none."""
        return {(fault.worker, fault.replica): len(fault.carries) for fault in self.head.faults}


def read_script(content):
    """The script that these bytes are, or None."""
    line, feed, rest = content.partition(b'\n')
    head = understand_head(line) if feed and len(line) < MOST_LINE else None
    if head is None:
        return None
    streams, room = [], frame_text.MOST_CALLS
    for stream in head.streams:
        if isinstance(stream, int):
            frames, left = frame_text.cut_frames(rest[:stream], room)
            if left or len(rest) < stream:
                return None
            rest = rest[stream:]
            streams.append([asked_by(frame) for frame in frames if frame.kind != frame_text.CLOSE])
        else:
            streams.append([Asked(tuple(text.split(' '))) for text in stream])
        room -= len(streams[-1])
    return None if rest or room < 0 else Script(head, streams)


def asked_by(frame):
    """The call that a frame asks for."""
    if frame.kind == frame_text.READ:
        call = 'read', str(frame.offset), str(frame.size)
    elif frame.kind == frame_text.WRITE:
        call = 'write', str(frame.offset), str(len(frame.content)), spell_runs(frame.content)
    else:
        call = ('ping',) if frame.kind == frame_text.PING else ('other', str(frame.kind))
    return Asked(call, frame.seq, frame.offset)


def odd_call(entry, script):
    """What is odd in a call, beside what its stream asks for."""
    if entry.stream >= len(script.streams):
        yield 'is of stream %d, and the script has %d' % (entry.stream, len(script.streams))
    elif entry.index >= len(script.streams[entry.stream]):
        yield 'is call %d of stream %d, which asks for %d in all' % (entry.index, entry.stream, len(script.streams[entry.stream]))
    elif script.streams[entry.stream][entry.index].call != entry.call:
        yield 'is `%s`, and its stream asks there for `%s`' % (
            spell_call(entry.call), spell_call(script.streams[entry.stream][entry.index].call))


def odd_mark(mark, script):
    """What is odd in a mark, beside the replicas, streams and planned faults that there are."""
    words = () if mark.kind in LAYER_MARKS else mark.words[2:3] if mark.kind == 'fault' else mark.words[1:3]
    for word in words:
        if word[0] == 'r' and replica_number(word) >= script.head.replicas:
            yield 'names %s, and the script has %d replicas' % (word, script.head.replicas)
    if mark.kind == 'fault':
        worker, replica, count = int(mark.words[1]), replica_number(mark.words[2]), int(mark.words[3])
        planned = script.plans.get((worker, replica), 0)
        if worker >= len(script.streams):
            yield 'is of worker %d, and the script has %d streams' % (worker, len(script.streams))
        elif count > planned:
            yield 'counts %d faults of the line from worker %d to r%d, for which %d are planned' % (count, worker, replica, planned)


def odd_range(entry, size):
    """What is odd in the answer of a read or a write on a volume of that size."""
    offset, length = map(int, entry.call[1:3])
    is_good = 0 <= offset and offset + length <= size
    if entry.refusal != 'too long' and is_good == (entry.refusal == 'out of range'):
        yield 'is answered `%s`, and %s of %d bytes %s its range' % (shorten(entry.answer, 30), 'a volume', size,
                                                                    'has' if is_good else 'does not have')


def odd_reply(reply, script):
    """What is odd in a reply line, beside the frame that it replies to."""
    calls = script.streams[reply.stream] if reply.stream < len(script.streams) else []
    asked = calls[reply.index] if reply.index < len(calls) else Asked(())
    if asked.seq is not None:
        for what, seen, want in (('seq', reply.seq, asked.seq), ('offset', reply.offset, asked.offset)):
            if seen != want:
                yield 'has the %s %d, and its frame %d' % (what, seen, want)


def odd_lack(counts, script):
    """What is odd in the numbers of calls that a whole report has of each stream."""
    for stream, calls in enumerate(script.streams):
        if counts.get(stream, 0) < len(calls):
            yield 'has %d of the %d calls of stream %d' % (counts.get(stream, 0), len(calls), stream)
