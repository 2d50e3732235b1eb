"""How often each kind of outcome came up in reports."""
from rebuilds import FALLS, fallen
from replay import RW
from report import Entry


def outcomes(report):
    """Each outcome of a report, as often as it came up."""
    rebuild, fell, rebuilt = None, None, set()
    for line in report.journal:
        if isinstance(line, Entry):
            yield '%s %s' % (line.kind, line.refusal.rstrip(' 0123456789') or 'ok')
            if line.saw < line.place:
                yield 'answered behind what it saw'
            if rebuild and line.kind == 'write' and not line.refusal:
                yield 'written while a replica is rebuilt'
        elif line.kind == 'added':
            rebuild = line.words[1:3]
        elif line.kind == 'promoted':
            rebuild, rebuilt = None, rebuilt | {line.words[1]}
        elif line.kind == 'aborted':
            yield 'aborted as its %s falls' % ('target' if fell == rebuild[0] else 'source')
            rebuild = None
        elif line.kind in FALLS:
            fell = 'r%d' % fallen(line)
            rebuilt -= {fell}
            yield 'mark ' + line.kind
        else:
            yield 'mark ' + line.kind
    yield from ('left, once it was rebuilt' for _ in rebuilt)
    modes = list(report.of_replicas('mode').values())
    yield ('of one replica', 'of two replicas', 'of three replicas or more')[min(len(modes), 3) - 1]
    yield 'ends with a replica' if RW in modes else 'ends with no replica'
