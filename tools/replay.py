"""What a journal makes of modes, names and layers. It knows no bytes."""
from collections import Counter

from report import replica_number

RW, WO, ERR = 'RW', 'WO', 'ERR'
MOST_LAYERS = 250
LAYER_CHANGES = ('snapshot', 'remove', 'revert')


class Replay:
    """Modes and layers, as the journal's lines so far leave them.

    Where the run began with saved replicas, their layers are told by its opening. Where that is not given, `layers_known` is false.
    """

    def __init__(self, report, opening=None):
        opened = report.of_replicas('open')
        self.modes = [opened.get(replica, RW).split(' ')[0] for replica in range(report.replica_count)]
        self.layers_known = opening is not None or not opened
        self.parents = dict(opening.parents) if opening else {}
        self.marked = set(opening.marked) if opening else set()
        self.used = set(opening.used) if opening else set()
        self.below_head = opening.below_head if opening else None
        self.head_number = opening.head_number if opening else 0
        # Target and source of the rebuild that has not ended.
        self.rebuild = None
        # Of each rebuild whose `add` has no entry yet, by its target: the mark that ended it, or None.
        self.unanswered = {}

    @property
    def layer_count(self):
        """How many layers there are, the head counted."""
        return len(self.parents) + 1

    @property
    def chain(self):
        """The layers below the head, from its parent down, as a chain line names them."""
        names, name = {}, self.below_head
        # A journal that takes a name twice may put a layer above itself.
        while name is not None and name not in names:
            names[name] = name + '*' * (name in self.marked)
            name = self.parents.get(name)
        return tuple(names.values())

    def source(self):
        """The lowest replica in mode RW, or None."""
        return self.modes.index(RW) if RW in self.modes else None

    def is_live(self, name):
        """Whether there is a snapshot of the name that is not marked."""
        return name in self.parents and name not in self.marked

    def children(self, parent):
        """The layers that stand on one, by name."""
        return [name for name, below in self.parents.items() if below == parent]

    def can_go(self):
        """The layers that can be folded or dropped: marked, with one child at most, and without the head on them."""
        standing = Counter(self.parents.values())
        return sorted(name for name in self.marked & self.parents.keys() if name != self.below_head and standing[name] < 2)

    def put_layer(self, name):
        """The head becomes a layer of that name."""
        self.used.add(name)
        self.parents[name] = self.below_head
        self.put_head(name)

    def put_head(self, parent):
        """A new head stands on a layer."""
        self.below_head = parent
        self.head_number += 1

    def take_entry(self, entry):
        """Takes the changes of an entry."""
        if entry.answer == 'ok' and entry.kind in LAYER_CHANGES:
            self.change_layers(entry.kind, entry.call[1])
        if entry.kind == 'add':
            self.unanswered.pop(replica_number(entry.call[1]), None)

    def change_layers(self, kind, name):
        """A snapshot, a mark or a revert that was done."""
        if kind == 'snapshot':
            self.put_layer(name)
        elif kind == 'remove':
            self.marked.add(name)
        else:
            self.put_head(name)

    def take_mark(self, mark, entries):
        """Takes the changes of a mark; a salvage lists some of `entries`, by place."""
        words = mark.words
        if mark.kind in ('fault', 'failed'):
            self.modes[replica_number(words[2 if mark.kind == 'fault' else 1])] = ERR
        elif mark.kind == 'added':
            self.begin_rebuild(replica_number(words[1]), replica_number(words[2]), words[3])
        elif mark.kind in ('promoted', 'aborted'):
            self.end_rebuild(mark, replica_number(words[1]))
        elif mark.kind == 'salvaged':
            self.modes[replica_number(words[1])] = RW
            listed = () if words[2] == '-' else [entries.get(int(place)) for place in words[2].split(',')]
            for entry in listed:
                if entry is not None and entry.kind in LAYER_CHANGES:
                    self.change_layers(entry.kind, entry.call[1])
        else:
            self.take_layer_away(words)

    def begin_rebuild(self, target, source, name):
        """A replica begins to be rebuilt, over a layer of that name."""
        self.modes[target] = WO
        self.rebuild = target, source
        self.unanswered[target] = None
        self.put_layer(name)

    def end_rebuild(self, mark, target):
        """A rebuild is promoted or aborted by a mark."""
        self.modes[target] = RW if mark.kind == 'promoted' else ERR
        self.rebuild = None
        if target in self.unanswered:
            self.unanswered[target] = mark

    def take_layer_away(self, words):
        """A layer that was folded into its child, or dropped."""
        gone = words[1]
        below = self.parents.pop(gone, None)
        self.marked.discard(gone)
        if words[0] == 'folded' and words[2] in self.parents:
            self.parents[words[2]] = below
