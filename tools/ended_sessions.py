"""What is odd in a report of `serve`, whose sessions called side by side."""
from frame_text import HEADER
from report import FRAME_CALLS, Entry, Session
from served_sessions import MOST_CALLS


def odd_sessions(report, is_whole):
    """The findings, each as the number of its line and a sentence. Of a journal that lacks lines less is said."""
    sessions, entries = report.sessions, calls_by_session(report)
    for number, session in enumerate(sessions):
        if session.number != number:
            yield session.line, 'is of session %d, where session %d comes next' % (session.number, number)
    for line in report.lines:
        why = odd_line(line, len(sessions))
        if why:
            yield line.line, why
    for session in sessions:
        for why in odd_session(session, entries.get(session.number, []), len(report.journal)) if is_whole else ():
            yield session.line, why


def calls_by_session(report):
    """The calls of each session, in their order."""
    found = {}
    for entry in report.entries:
        found.setdefault(entry.stream, []).append(entry)
    return found


def odd_line(line, sessions):
    """Why a line is none of such a report, or None. A session makes calls of frames, over lines that never fail."""
    if isinstance(line, Entry):
        if line.kind not in FRAME_CALLS:
            return 'is `%s`, and a session makes calls of frames alone' % line.kind
        return None if line.stream < sessions else 'is of session %d, and %d have ended' % (line.stream, sessions)
    kind = 'session' if isinstance(line, Session) else getattr(line, 'group', None)
    return None if kind in ('session', 'mode', 'chain', 'head') else 'is a line that no report of sessions has'


def odd_session(session, calls, length):
    """What is odd in a session's line, beside its calls and the journal's length."""
    if session.calls != len(calls):
        yield 'tells %d calls, and the journal has %d of session %d' % (session.calls, len(calls), session.number)
    if calls and session.seen <= calls[-1].place:
        yield 'saw %d at last, and its last call ended at place %d' % (session.seen, calls[-1].place)
    if session.seen > length:
        yield 'saw %d at last, and the journal has %d lines' % (session.seen, length)
    if session.calls > MOST_CALLS or (session.end == 'full' and session.calls < MOST_CALLS):
        yield 'ends `%s` with %d calls, and a session makes %d at most' % (session.end, session.calls, MOST_CALLS)
    if session.end == 'write fault' and not calls:
        yield 'ends `write fault` without a call that it replied to'
    least = sum(HEADER.size + (int(call.call[2]) if call.kind == 'write' else 0) for call in calls)
    if session.end.startswith('frame ') and int(session.end[len('frame '):]) < least:
        yield 'has a bad frame at %s, and the frames of its calls have %d bytes' % (session.end[len('frame '):], least)
