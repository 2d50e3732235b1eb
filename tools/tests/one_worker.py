"""A slow stand-in for longhorn with one worker: it serves stream after stream, and counts each carry of a line as longhorn does."""
from plain_disk import PlainDisk
from replay import ERR, RW
from side_by_side import PAGE, Run


def report_of(script):
    """The report of the run of a script."""
    run = OneWorker(script)
    for stream in range(len(script.streams)):
        for _ in run.worker(stream):
            pass
    return run.report()


class OneWorker(Run):
    """A run whose steps come one after another. What is carried between them depends on which pages a layer has blocks in."""

    def __init__(self, script):
        super().__init__(script)
        self.disk = PagedDisk()

    def steps(self, stream, call):
        """The steps of a call; each replica is asked for its part of a command on the layers."""
        if call[0] in ('snapshot', 'remove', 'revert') and not self.refusal(call):
            self.ask_all(stream, RW)
        yield from super().steps(stream, call)

    def carry(self, stream, replica):
        """One carry, and whether it came through."""
        count = self.faults.get((stream, replica))
        super().carry(stream, replica)
        return self.faults.get((stream, replica)) == count

    def exchange(self, stream, replica):
        """A request and, where it came through, the reply: says whether that did."""
        return self.carry(stream, replica) and self.carry(stream, replica)

    def ask_all(self, stream, *modes):
        """An exchange with each replica in one of the modes."""
        for replica in self.replicas:
            if self.modes[replica] in modes:
                self.exchange(stream, replica)

    def carry_out(self, stream, kind):
        """A write is carried to all replicas that are left, a read to one after another until one gives its bytes."""
        for replica in self.replicas:
            if self.modes[replica] == RW and self.exchange(stream, replica) and kind == 'read':
                break
        return ()

    def take_layers_away(self):
        """A purge: of each layer that goes, the pages of the layer above are folded first, and then each replica takes its part."""
        while self.replay.can_go() and RW in self.modes:
            gone = self.replay.can_go()[0]
            children = self.replay.children(gone)
            for _ in range(sum(len(self.disk.pages[child]) for child in children)):
                self.ask_all(self.holder, RW)
            self.ask_all(self.holder, RW)
            if RW in self.modes:
                self.mark('folded' if children else 'dropped', gone, *children)
        return ()

    def copy(self, stream, source, target):
        """The carries of a rebuild: each replica's part of its snapshot, and then each page of a layer out and in."""
        for replica in self.replicas:
            if self.modes[replica] != ERR:
                self.exchange(stream, replica)
        for _ in range(sum(map(len, self.disk.pages.values()))):
            for replica in (source, target):
                if self.replay.unanswered[target] is None:
                    self.exchange(stream, replica)
        return ()


class PagedDisk(PlainDisk):
    """A plain disk that knows in which pages each layer has blocks, and the head."""

    def __init__(self):
        super().__init__()
        self.head = set()
        self.pages = {}

    def take_call(self, call):
        """Takes the changes of a call that was done."""
        super().take_call(call)
        if call[0] == 'write' and call[2] != '0':
            offset, length = map(int, call[1:3])
            self.head.update(range(offset // PAGE, (offset + length - 1) // PAGE + 1))
        elif call[0] == 'snapshot':
            self.freeze(call[1])
        elif call[0] == 'revert':
            self.head = set()

    def take_mark(self, mark, entries):
        """Takes the changes of a mark."""
        super().take_mark(mark, entries)
        if mark.kind == 'added':
            self.freeze(mark.words[3])
        elif mark.kind in ('folded', 'dropped'):
            gone = self.pages.pop(mark.words[1])
            for child in mark.words[2:]:
                self.pages[child] |= gone

    def freeze(self, name):
        """The head becomes a layer."""
        self.pages[name], self.head = self.head, set()
