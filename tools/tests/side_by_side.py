"""A slow stand-in for longhorn: it serves a script with a worker for each stream, whose steps come in an order of chance."""
from plain_disk import PlainDisk
from replay import ERR, MOST_LAYERS, RW, WO, Replay
from report import Entry, Mark, OfReplica, Report, bytes_of, spell_runs

TURN_CALLS = ('snapshot', 'remove', 'revert', 'purge', 'add')
PAGE = 1 << 21


def report_of(script, random):
    """The report of one run of a script."""
    run = Run(script)
    workers = [run.worker(stream) for stream in range(len(script.streams))]
    # Now and then some workers alone go on, so that others are overtaken by far.
    while workers:
        awake = random.sample(workers, random.randint(1, len(workers)))
        for _ in range(random.randint(1, 12)):
            worker = random.choice(awake)
            if worker in workers and next(worker, worker) is worker:
                workers.remove(worker)
    return run.report()


class Run:
    """What the workers share: the journal, the modes and layers, the disk, and the turn of calls on the whole volume."""

    def __init__(self, script):
        self.script = script
        self.size, self.replicas = script.head.size, range(script.head.replicas)
        self.journal = []
        self.replay = Replay(Report([OfReplica(0, 'mode', replica, RW) for replica in self.replicas], []))
        self.disk = PlainDisk()
        self.holder = None
        self.carries = {}
        self.faults = {}
        self.plans = {plan[:2]: plan.carries for plan in script.head.faults}

    @property
    def modes(self):
        """The mode of each replica."""
        return self.replay.modes

    def worker(self, stream):
        """The steps of a stream's worker, its calls one after another."""
        for index, (call, _, _) in enumerate(self.script.streams[stream]):
            saw = len(self.journal)
            yield
            while call[0] in TURN_CALLS and self.holder not in (None, stream):
                yield
            if call[0] in TURN_CALLS:
                self.holder = stream
            answer = None
            for answer in self.steps(stream, call):
                if answer is None:
                    yield
            entry = Entry(0, len(self.journal), saw, stream, index, call, answer)
            self.journal.append(entry)
            self.replay.take_entry(entry)
            if not entry.refusal:
                self.disk.take_call(call)
            if self.holder == stream:
                self.holder = None
            yield

    def steps(self, stream, call):
        """The steps of a call, each as None, and at last its answer."""
        kind = call[0]
        yield None
        if kind == 'fail':
            self.fail(int(call[1][1:]))
            yield 'ok'
        elif kind == 'status':
            yield 'ok layers %d modes %s' % (self.replay.layer_count, ','.join(self.modes))
        elif self.refusal(call):
            yield self.refusal(call)
        elif kind == 'add':
            yield from self.rebuild(stream, int(call[1][1:]))
        else:
            if kind in ('read', 'write'):
                yield from self.carry_out(stream, kind)
            elif kind == 'purge':
                yield from self.take_layers_away()
            if kind != 'ping' and RW not in self.modes:
                yield 'error no replica'
            elif kind == 'read':
                yield 'ok ' + spell_runs(self.disk.read(int(call[1]), int(call[2])))
            else:
                yield 'ok'

    def refusal(self, call):
        """How a call is refused whatever replicas are left, or the empty text."""
        kind, replay = call[0], self.replay
        if kind == 'other':
            return 'error unsupported'
        if kind == 'read' and int(call[2]) > 1 << 20:
            return 'error too long'
        if kind in ('read', 'write') and not 0 <= int(call[1]) <= self.size - int(call[2]):
            return 'error out of range'
        if kind == 'snapshot' and call[1] in replay.used:
            return 'error name used'
        if kind in ('remove', 'revert') and not replay.is_live(call[1]):
            return 'error no such snapshot'
        if kind == 'add' and self.modes[int(call[1][1:])] != ERR:
            return 'error in use'
        return 'error chain full' if kind in ('snapshot', 'add') and replay.layer_count >= MOST_LAYERS else ''

    def mark(self, *words):
        """Puts a mark into the journal."""
        mark = Mark(0, len(self.journal), words)
        self.journal.append(mark)
        self.replay.take_mark(mark, {})
        self.disk.take_mark(mark, {})

    def end_rebuild(self, replica):
        """A rebuild of which a replica fell is aborted."""
        if self.replay.rebuild and replica in self.replay.rebuild:
            self.mark('aborted', 'r%d' % self.replay.rebuild[0])

    def fail(self, replica):
        """A replica fails by a command."""
        if self.modes[replica] != ERR:
            self.mark('failed', 'r%d' % replica)
            self.end_rebuild(replica)

    def carry(self, stream, replica):
        """One carry of a worker's line to a replica, which may fail."""
        line = stream, replica
        self.carries[line] = self.carries.get(line, 0) + 1
        if self.carries[line] in self.plans.get(line, ()):
            self.faults[line] = self.faults.get(line, 0) + 1
            if self.modes[replica] != ERR:
                self.mark('fault', '%d' % stream, 'r%d' % replica, '%d' % self.faults[line])
                self.end_rebuild(replica)

    def carry_out(self, stream, kind):
        """The carry of a read to one replica, or the two of a write, of its bytes and of its end, to all that are left."""
        for replica in self.replicas if kind == 'read' else [*self.replicas, *self.replicas]:
            if self.modes[replica] == RW or kind == 'write' and self.modes[replica] == WO:
                self.carry(stream, replica)
                yield None
                if kind == 'read' and self.modes[replica] == RW:
                    return

    def take_layers_away(self):
        """The marks of a purge."""
        while self.replay.can_go() and RW in self.modes:
            gone = self.replay.can_go()[0]
            children = self.replay.children(gone)
            self.mark('folded' if children else 'dropped', gone, *children)
            yield None

    def rebuild(self, stream, target):
        """A rebuild page by page, and its answer."""
        source = self.replay.source()
        if source is None:
            yield 'error no replica'
            return
        self.mark('added', 'r%d' % target, 'r%d' % source, 'sys-%d' % self.replay.head_number)
        yield None
        yield from self.copy(stream, source, target)
        if self.replay.unanswered[target] is None:
            self.mark('promoted', 'r%d' % target)
            yield 'ok'
        else:
            yield 'error aborted %d' % self.replay.unanswered[target].place

    def copy(self, stream, source, target):
        """The carries of a rebuild, as long as it is not aborted."""
        for _ in range(self.size // PAGE):
            for replica in (source, target):
                if self.replay.unanswered[target] is None:
                    self.carry(stream, replica)
                    yield None

    def report(self):
        """The report of what was run."""
        lines = [spell_line(line) for line in self.journal]
        for entry in sorted((line for line in self.journal if isinstance(line, Entry)), key=lambda entry: entry[3:5]):
            seq, offset = self.script.streams[entry.stream][entry.index][1:]
            if seq is None:
                continue
            content = entry.refusal.encode() if entry.refusal else bytes_of(entry.runs) if entry.runs else b''
            size = int(entry.call[2]) if entry.kind == 'write' and not entry.refusal else len(content)
            lines.append('reply %d %d %d %d %d %d %s' % (entry.stream, entry.index, seq, 3 if entry.refusal else 2, offset, size,
                                                         spell_runs(content)))
        left = [replica for replica in self.replicas if self.modes[replica] == RW]
        lines += ['mode r%d %s' % (replica, self.modes[replica]) for replica in self.replicas]
        lines += [' '.join(['chain r%d head' % replica, *self.replay.chain]) for replica in left]
        lines += ['head r%d %s' % (replica, self.disk.digest(self.size)) for replica in left]
        return '\n'.join(lines) + '\n'


def spell_line(line):
    """The line of an entry or a mark."""
    if isinstance(line, Mark):
        return '%d mark %s' % (line.place, ' '.join(line.words))
    return '%d %d %d %d %s %s' % (*line[1:5], ' '.join(line.call), line.answer)
