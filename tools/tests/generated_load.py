"""A slow stand-in for `longhorn gen`: it makes the script of a generated load, runs it with one worker, and sums the run up."""
import hashlib

import asked
import frame_text
import one_worker
import script
from frame_text import pack_frame
from report import Entry, FrameReply, bytes_of, read_report
from side_by_side import PAGE

COMMANDS = ('snapshot g', 'fail r1', 'add r1', 'remove g', 'purge')


def summary_of(number, streams, calls):
    """The summary of a generated load."""
    its = asked.read_script(script.make(text_of(number, streams, calls)))
    report = read_report(one_worker.report_of(its))
    lines = ['stream %d %s' % (stream, digest(replies_of(report, stream))) for stream in range(streams)]
    commands = [line for line in report.journal if isinstance(line, Entry) and line.stream == streams]
    lines.append('control ' + ','.join(entry.answer for entry in commands))
    modes, chains, heads = (report.of_replicas(group) for group in ('mode', 'chain', 'head'))
    lines.append('modes ' + ','.join(modes[replica] for replica in sorted(modes)))
    if chains:
        lines += [' '.join(['chain head', *chains[min(chains)]]), 'disk ' + heads[min(heads)]]
    return '\n'.join(lines) + '\n'


def text_of(number, streams, calls):
    """The text of its script."""
    lines = ['volume gen %d' % (streams * PAGE), 'replicas 2']
    for stream in range(streams):
        lines.append('stream frames')
        lines += frames((number + stream) % 2 ** 64, stream * PAGE, calls)
    return '\n'.join([*lines, 'stream commands', *COMMANDS]) + '\n'


def frames(state, page, calls):
    """The lines of a stream of frames: four draws for each."""
    for _ in range(calls):
        drawn = []
        for _ in range(4):
            state = (state * 6364136223846793005 + 1442695040888963407) % 2 ** 64
            drawn.append(state >> 33)
        choice, offset, length, byte = drawn[0] % 4, page + drawn[1] % 2093056, 1 + drawn[2] % 4096, drawn[3] % 256
        yield 'write %d fill %02x %d' % (offset, byte, length) if choice else 'read %d %d' % (offset, length)


def replies_of(report, stream):
    """The bytes of the frames that reply to a stream, one after another."""
    replies = [line for line in report.lines if isinstance(line, FrameReply) and line.stream == stream]
    return b''.join(pack_frame(frame_text.Frame(line.seq, line.kind, line.offset, line.size, bytes_of(line.runs))) for line in replies)


def digest(content):
    """The first 64 hexadecimal digits of the SHA-512 of bytes."""
    return hashlib.sha512(content).hexdigest()[:64]
