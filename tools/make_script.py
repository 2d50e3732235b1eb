"""Reads a text line by line, and makes its script."""
from typing import NamedTuple

import byte_text
import frame_text
import script_head
from byte_text import Wrong, read_bytes, read_number, read_size, split_words
from script_head import Head, PlannedFault


class BadLine(Exception):
    """A line that is none, with its number, or None for the text as a whole."""

    def __init__(self, number, what):
        super().__init__('%s: %s' % ('at the end' if number is None else 'line %d' % number, what))
        self.number = number


class Stream(NamedTuple):
    """A stream that is read: of frames, with their bytes, or of commands, with their texts."""
    of_frames: bool
    parts: list


class TextReader:
    """Reads a text line by line, and then gives the script."""

    def __init__(self, folder):
        self.folder = folder
        self.head = {}
        self.faults = []
        self.first = None
        self.whole = None
        self.streams = []
        self.frame_count = 0
        self.closed = False
        # How many streams there were when one had a `backup`.
        self.backup_stream = None
        self.calls = 0
        self.length = 0

    def read_line(self, number, line):
        """Reads a line of that number."""
        bare = line.strip()
        if not bare or bare[0] == '#':
            return
        verb = bare.split(None, 1)[0]
        if verb == 'json' and not self.is_begun():
            self.first = line.lstrip()[len('json '):].encode()
        elif verb == 'stream':
            self.begin_stream(split_words(bare))
        elif not self.streams:
            self.read_head_line(number, split_words(bare))
        elif self.streams[-1].of_frames:
            self.read_frame_line(split_words(bare))
        else:
            self.read_command(bare)
        if self.length > script_head.MOST_INPUT:
            raise Wrong('a script has at most %d bytes, and here are more' % script_head.MOST_INPUT)

    def is_begun(self):
        """Whether a line that says something was read before."""
        return bool(self.head or self.faults or self.streams or self.whole is not None or self.first is not None)

    def read_head_line(self, number, words):
        """A line that stands before the streams."""
        verb, rest = words[0], words[1:]
        readers = {'volume': self.read_volume, 'replicas': self.read_replicas, 'open': self.read_switch,
                   'save': self.read_switch, 'now': self.read_now}
        if verb == 'bytes' and (self.whole is not None or not self.is_begun()):
            self.whole = (self.whole or b'') + self.take_bytes(rest)
        elif self.whole is not None or self.first is not None or verb in ('bytes', 'json'):
            raise Wrong('`json` stands in place of all lines before the streams, and `bytes` there in place of all lines')
        elif verb == 'fault':
            self.faults.append((number, self.read_fault(rest)))
        elif verb not in readers:
            raise Wrong('`%s` begins no line before the streams: those are `volume NAME SIZE`, `replicas COUNT`, `open`, '
                        '`save`, `now "TEXT"`, `fault worker W replica R carries N..`; '
                        'and then `stream frames` or `stream commands`' % verb)
        elif verb in self.head:
            raise Wrong('`%s` stands in a text once' % verb)
        else:
            self.head[verb] = readers[verb](rest)

    def read_volume(self, words):
        """The name and the size of the volume."""
        if len(words) != 2:
            raise Wrong('the volume is `volume NAME SIZE`, such as `volume v 2M`')
        size = read_size(words[1])
        script_head.check_volume(words[0])
        script_head.check_size(size)
        return words[0], size

    def read_replicas(self, words):
        """How many replicas there are."""
        if len(words) != 1:
            raise Wrong('the replicas are `replicas COUNT`, such as `replicas 2`')
        return read_number(words[0], 1, script_head.MOST_REPLICAS, 'a number of replicas')

    def read_switch(self, words):
        """That a thing is done which is else not done."""
        if words:
            raise Wrong('`open` and `save` each stand alone on a line')
        return True

    def read_now(self, words):
        """The time of the run."""
        if len(words) != 1 or not isinstance(words[0], byte_text.Quoted):
            raise Wrong('the time is `now "TEXT"`, such as `now "2026-01-01T00:00:00Z"`')
        script_head.check_now(words[0])
        return str(words[0])

    def read_fault(self, words):
        """The planned faults of a line."""
        if [*words[0:1], *words[2:3], *words[4:5]] != ['worker', 'replica', 'carries']:
            raise Wrong('planned faults are `fault worker W replica R carries N..`, '
                        'such as `fault worker 0 replica 1 carries 2 5`')
        fault = PlannedFault(read_number(words[1], 0, script_head.MOST_STREAMS - 1, 'a worker'),
                             read_number(words[3], 0, script_head.MOST_REPLICAS - 1, 'a replica'),
                             tuple(read_number(word, 1, script_head.LARGEST_CARRY, 'a carry') for word in words[5:]))
        script_head.check_fault(fault, script_head.MOST_REPLICAS, script_head.MOST_STREAMS)
        if any(other[:2] == fault[:2] for _, other in self.faults):
            raise Wrong('the line from worker %d to replica %d has its faults already: '
                        'put all its carries into one line' % fault[:2])
        return fault

    def begin_stream(self, words):
        """A line that begins a stream."""
        if self.whole is not None or (self.first is None and 'volume' not in self.head):
            raise Wrong('before the streams stands `volume NAME SIZE`, such as `volume v 2M`')
        number = str(len(self.streams))
        if len(words) == 3 and self.first is None and words[1] != number:
            raise Wrong('this is the stream of number %s, counted from 0: write `stream %s %s`' % (number, number, words[2]))
        if len(words) not in (2, 3) or words[-1] not in ('frames', 'commands'):
            raise Wrong('a stream begins with `stream frames` or `stream commands`, with its number between or without')
        if len(self.streams) == script_head.MOST_STREAMS:
            raise Wrong('a script has 1 to %d streams, and this is one more' % script_head.MOST_STREAMS)
        if self.first is not None and words[-1] == 'commands':
            raise Wrong('behind `json` only streams of frames stand: the commands are in its line')
        self.streams.append(Stream(words[-1] == 'frames', []))
        self.frame_count = 0
        self.closed = False

    def read_frame_line(self, words):
        """A line of a stream of frames."""
        if words[0] == 'bytes':
            content = self.take_bytes(words[1:])
        else:
            if words[0] in script_head.Head._fields or words[0] == 'fault':
                raise Wrong('`%s` stands before the first stream' % words[0])
            frame = frame_text.read_frame(words, self.frame_count + 1, self.folder)
            if self.closed:
                raise Wrong('behind `close` its stream has no frame: '
                            'begin the next one with `stream frames` or `stream commands`')
            self.frame_count += 1
            self.closed = frame.kind == frame_text.CLOSE
            if not self.closed:
                self.count_call()
            content = frame_text.pack_frame(frame)
        self.streams[-1].parts.append(content)
        self.length += len(content)

    def take_bytes(self, words):
        """What a line of `bytes` says."""
        content = read_bytes(words, self.folder, script_head.MOST_INPUT)
        if words:
            raise Wrong('`%s` is too much: %s' % (words[0], byte_text.BYTES_FORM))
        return content

    def read_command(self, text):
        """A line of a stream of commands."""
        script_head.check_command(text, self.head.get('replicas', 1))
        if text.startswith('backup '):
            if self.backup_stream not in (None, len(self.streams)):
                raise Wrong('`backup` stands in one stream alone, and an earlier one has it')
            self.backup_stream = len(self.streams)
        self.count_call()
        self.streams[-1].parts.append(text)

    def count_call(self):
        """One call more."""
        if self.calls == frame_text.MOST_CALLS:
            raise Wrong('a script has at most %d calls, and this is one more' % frame_text.MOST_CALLS)
        self.calls += 1

    def finish(self):
        """The script's bytes, once all lines are read."""
        if self.whole is not None:
            return self.whole
        rest = b''.join(part for stream in self.streams if stream.of_frames for part in stream.parts)
        line = self.first if self.first is not None else self.first_line()
        script = line + b'\n' + rest
        if len(script) > script_head.MOST_INPUT:
            raise Wrong('a script has at most %d bytes, and these are %d' % (script_head.MOST_INPUT, len(script)))
        return script

    def first_line(self):
        """The first line, without its line feed."""
        if 'volume' not in self.head or not self.streams:
            raise Wrong('a text needs `volume NAME SIZE`, such as `volume v 2M`, and then 1 to %d streams'
                        % script_head.MOST_STREAMS)
        replicas = self.head.get('replicas', 1)
        for number, fault in self.faults:
            try:
                script_head.check_fault(fault, replicas, len(self.streams))
            except Wrong as wrong:
                raise BadLine(number, wrong) from None
        streams = tuple(sum(map(len, stream.parts)) if stream.of_frames else tuple(stream.parts) for stream in self.streams)
        name, size = self.head['volume']
        line = script_head.spell_head(Head(name, size, replicas, self.head.get('open', False), self.head.get('save', False),
                                           self.head.get('now', ''), streams, tuple(fault for _, fault in self.faults)))
        if len(line) >= script_head.MOST_LINE:
            raise Wrong('the first line has at most %d bytes, and this one %d: there are too many commands'
                        % (script_head.MOST_LINE - 1, len(line)))
        return line


def make(text, folder='.'):
    """The bytes of the script that a text says; files are found from `folder`."""
    reader = TextReader(folder)
    number = None
    try:
        for number, line in enumerate(text.split('\n'), 1):
            reader.read_line(number, line)
        number = None
        return reader.finish()
    except Wrong as wrong:
        raise BadLine(number, wrong) from None
