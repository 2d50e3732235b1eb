"""How a run begins: blank, from replicas' folders, or behind an earlier run of which the report is there."""
from typing import NamedTuple

import folder
from plain_disk import PlainDisk
from replay import ERR, RW, Replay
from report import Entry


class Opening(NamedTuple):
    """How a run begins. The disk is told as its blocks, a snapshot's copy so too; a layer as its parent's name."""
    # Of each replica why it is not read, or None.
    reasons: tuple
    parents: dict
    marked: frozenset
    # The names of all layers of the disk.
    used: frozenset
    below_head: object
    head_number: int
    blocks: dict
    copies: dict

    @property
    def modes(self):
        """The mode of each replica."""
        return [RW if reason is None else ERR for reason in self.reasons]

    @property
    def lines(self):
        """What the opening lines of the report say of each replica."""
        return [RW if reason is None else '%s %s' % (ERR, reason) for reason in self.reasons]

    @property
    def note(self):
        """The note of a run that finds no clean folder, or None where there is one."""
        if None in self.reasons:
            return None
        return ' '.join(['no clean shelf', *('r%d %s' % told for told in enumerate(self.reasons))])

    @property
    def volume(self):
        """What is of the volume alone: layers, head, disk and copies, whatever replicas there are and names were used."""
        return self[1:3] + self[4:]


def blank(replicas):
    """The opening of a run that opens nothing."""
    return Opening((None,) * replicas, {}, frozenset(), frozenset(), None, 0, {}, {})


def of_folders(top, size, replicas):
    """The opening of a run on the folders below `top`, the replicas' own."""
    found, reasons = folder.open_all(top, size, replicas)
    read = [saved for saved in found if isinstance(saved, folder.Saved)]
    if not read:
        return blank(0)._replace(reasons=tuple(reasons))
    return of_saved(read[0], tuple(reasons))


def of_saved(saved, reasons=(None,)):
    """The opening of a run whose disk is that of a folder."""
    parents = {name: layer.parent for name, layer in saved.layers.items()}
    marked = frozenset(name for name, layer in saved.layers.items() if layer.marked)
    copies = {name: saved.blocks_of(name) for name in parents if name not in marked}
    return Opening(reasons, parents, marked, frozenset(parents), saved.head.parent, saved.number,
                   saved.blocks_of(None), copies)


def behind(report, opening):
    """The opening of a run on what a run of that report has saved."""
    replay, disk = Replay(report, opening), PlainDisk(opening)
    entries = {entry.place: entry for entry in report.entries}
    for line in report.journal:
        if isinstance(line, Entry):
            replay.take_entry(line)
            if not line.refusal:
                disk.take_call(line.call)
        else:
            replay.take_mark(line, entries)
            disk.take_mark(line, entries)
    reasons = tuple(None if mode == RW else 'unclean Error' for mode in replay.modes)
    copies = {name: disk.copies[name] for name in replay.parents if replay.is_live(name)}
    return Opening(reasons, replay.parents, frozenset(replay.marked & replay.parents.keys()), frozenset(replay.parents),
                   replay.below_head, replay.head_number, disk.blocks, copies)
