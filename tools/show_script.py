"""Shows a script as the text that makes it."""
import frame_text
import script_head
from byte_text import quote, spell_bytes, spell_size


def show(script):
    """The canonical text that makes these bytes."""
    line, feed, rest = script.partition(b'\n')
    if not feed or len(line) >= script_head.MOST_LINE or not is_text(line):
        return 'bytes %s\n' % spell_bytes(script)
    head = script_head.read_head(line)
    lengths = script_head.frame_lengths(line)
    if lengths is None or sum(lengths.values()) != len(rest):
        return show_json(line, [('stream frames', rest)])
    streams, place = {}, 0
    for number, length in lengths.items():
        streams[number] = rest[place:place + length]
        place += length
    if head is None:
        return show_json(line, [('stream %d frames' % number, stream) for number, stream in streams.items()])
    return show_good(head, streams)


def is_text(line):
    """Whether a line of a text can hold this one as it is."""
    try:
        line.decode()
        return True
    except UnicodeDecodeError:
        return False


def show_json(line, streams):
    """The text of a script whose first line stands as it is."""
    lines = [('json ' + line.decode()) if line else 'json']
    room = frame_text.MOST_CALLS
    for begin, stream in streams[:script_head.MOST_STREAMS]:
        shown, room = show_frames(stream, room)
        lines += [begin, *shown]
    if len(streams) > script_head.MOST_STREAMS:
        left = b''.join(stream for _, stream in streams[script_head.MOST_STREAMS:])
        lines += ['  bytes ' + spell_bytes(left)] if left else []
    return '\n'.join(lines) + '\n'


def show_good(head, streams):
    """The text of a script whose first line is what `make` writes."""
    lines = ['volume %s %s' % (head.volume, spell_size(head.size)), 'replicas %d' % head.replicas]
    lines += ['open'] * head.open + ['save'] * head.save + (['now ' + quote(head.now)] if head.now else [])
    for fault in head.faults:
        lines.append(' '.join(['fault worker %d replica %d carries' % fault[:2], *map(str, fault.carries)]))
    # A text counts the calls line by line, so commands that stand behind frames do not take their room.
    room = frame_text.MOST_CALLS - sum(len(stream) for stream in head.streams if not isinstance(stream, int))
    for number, stream in enumerate(head.streams):
        if isinstance(stream, int):
            shown, room = show_frames(streams[number], room)
            lines += ['stream %d frames' % number, *shown]
        else:
            lines += ['stream %d commands' % number, *('  ' + text for text in stream)]
    return '\n'.join(lines) + '\n'


def show_frames(stream, room):
    """The lines of a stream of frames, of which at most `room` are calls, and the room that is left."""
    frames, rest = frame_text.cut_frames(stream, room)
    lines = ['  ' + frame_text.spell_frame(frame, number) for number, frame in enumerate(frames, 1)]
    if rest:
        lines.append('  bytes ' + spell_bytes(rest))
    return lines, room - sum(frame.kind != frame_text.CLOSE for frame in frames)
