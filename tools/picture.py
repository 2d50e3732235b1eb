"""One SVG of a run: the places from left to right, a lane for each stream and each replica."""
from collections import Counter

from canvas import FAINT, INK, RED, Canvas
from layout import (ALL, AXIS, BAND_GAP, LETTER, LINE_HEIGHT, ONE_LINE, PADDING, RIGHT, SHORT, SMALL_LETTER, WIDTH, Layout,
                    labels_for, lane_of, mark_label, needed_labels)
from replay import ERR, RW, WO, Replay
from report import LAYER_MARKS, Entry, replica_number, shorten

LEAST_WIDTH = 640
MOST_CHAIN_ROWS = 8
# How the bar of each kind of call is filled at its place, and its border.
COLOURS = {
    'read': ('#d6e9f8', '#3a7ab0'),
    'write': ('#fde3bd', '#b5730b'),
    'unmap': ('#f6d3cc', '#a8523f'),
    'ping': ('#ececec', '#777777'),
    'other': ('#ffffff', '#777777'),
    'snapshot': ('#cdeed9', '#2a8a55'),
    'remove': ('#f5efb2', '#94850e'),
    'revert': ('#e6d8f3', '#7a4bab'),
    'purge': ('#e9d5c3', '#8a5a2b'),
    'add': ('#d3ecec', '#23807f'),
    'fail': ('#f3d6e2', '#a63a6b'),
    'backup': ('#dfe3f0', '#56608a'),
    'expand': ('#dfe3f0', '#56608a'),
    'salvage': ('#dfe3f0', '#56608a'),
    'status': ('#f2f2f2', '#777777'),
}
HEAD_FILL, LAYER_FILL, MARKED_FILL = '#fde3bd', '#cdeed9', '#f0f0f0'
MODES = {RW: '#58a55c', WO: '#e8a800', ERR: RED}
MODE_TEXTS = {RW: 'replica in mode RW', WO: 'replica in mode WO, being rebuilt', ERR: 'replica in mode ERR'}
MODE_AFTER = {'fault': ERR, 'failed': ERR, 'aborted': ERR, 'added': WO, 'promoted': RW, 'salvaged': RW}
# Of the description, what is said of the lanes.
LANES = ('Each stream has a lane with a bar for each call, from what it saw when it was taken up to its place. '
         'Each replica has a lane coloured by its mode, with its marks.')
# What is said of the sign that marks have after which a replica has a mode.
SIGNS = {WO: 'a rebuild begins', RW: 'a replica is read again', ERR: 'a replica falls'}


def draw(report, most=None, height=4000):
    """The SVG of a report, of which at most `most` entries and marks are drawn, and no more than that height has room for."""
    return Picture(report, most, height).draw()


class Picture:
    """Draws a report that is laid out."""

    def __init__(self, report, most, height):
        self.report = report
        self.layout = Layout(report, most, height)
        self.canvas = Canvas()
        self.modes_before = find_modes(report)
        self.bands = [band for group in self.layout.groups for band in group]
        self.left_out = len(self.layout.journal) - len(self.layout.kept)
        self.width = WIDTH if len(self.bands) > 1 else max([LEAST_WIDTH, *(band.right + RIGHT for band in self.bands)])

    def draw(self):
        """The whole picture."""
        top = self.draw_title()
        for number, group in enumerate(self.layout.groups):
            if number:
                top = self.draw_gap(top)
            for band in group:
                self.draw_band(band, top)
                top += band.height
        top = self.draw_end(top + 6)
        if self.layout.form != ALL:
            top = self.draw_refusals(top)
        height = self.draw_legend(top + 4) + 10
        return self.canvas.svg(self.width, height, self.title(), ' '.join([*self.notes(), LANES, self.end_text()]).strip())

    def draw_title(self):
        """What the picture shows; gives the next free height."""
        self.note(24, self.title(), size=15, bold=True)
        lines, room = [''], (self.width - 24) / SMALL_LETTER
        for note in self.notes():
            if lines[-1] and len(lines[-1]) + 1 + len(note) > room:
                lines.append('')
            lines[-1] = (lines[-1] + ' ' + note).strip()
        for number, line in enumerate(lines):
            self.note(42 + 15 * number, line, FAINT)
        return 41 + 15 * len(lines)

    def title(self):
        """How much the picture shows."""
        entries = self.report.entries
        refused, marks = sum(bool(entry.refusal) for entry in entries), len(self.layout.journal) - len(entries)
        title = '%s of %s on %s, %d refused' % (count_text(len(entries), 'call'), count_text(len(self.layout.streams), 'stream'),
                                                count_text(self.report.replica_count, 'replica'), refused)
        return title + (', ' + count_text(marks, 'mark') if marks else '')

    def notes(self):
        """Sentences that say how the picture is to be read."""
        notes, most = ['Places from left to right.'], most_at_once(self.report.entries)
        if most > 1:
            notes += ['Bars one above the other are calls that overlap: at most %d at once.' % most,
                      'Another run may have another order.']
        if any(('stream', stream) not in band.lanes for band in self.bands for stream in self.layout.streams):
            notes.append('A band shows the streams that have a bar in it.')
        if self.left_out:
            notes.append('Left out in the middle: %d of %d places.' % (self.left_out, len(self.layout.journal)))
        if self.report.unread:
            notes.append('Of the report %s could not be read.' % count_text(len(self.report.unread), 'line'))
        return notes

    def end_text(self):
        """The modes at the end in a sentence, or the empty text where the report has none."""
        modes = self.report.of_replicas('mode')
        texts = ['r%d %s' % (replica, modes[replica]) for replica in sorted(modes)]
        return 'At the end: %s.' % ', '.join(texts) if texts else ''

    def note(self, base, text, colour=INK, size=11, bold=False):
        """A line of text from the left edge."""
        self.canvas.text(12, base, text, size, colour, bold, label=False)

    def draw_gap(self, top):
        """Says what is left out between the front and the end; gives the next free height."""
        front = sum(len(band.columns) for band in self.layout.groups[0])
        left_out = self.layout.journal[front:front + self.left_out]
        self.canvas.rectangle(12, top, self.width - 24, 24, '#f4f4f4')
        text = 'places %d to %d are left out here: %d of %d' % (left_out[0].place, left_out[-1].place, self.left_out,
                                                                len(self.layout.journal))
        self.canvas.text(24, top + 16, text, 12, bold=True, label=False)
        return top + 24 + BAND_GAP

    # A band.

    def draw_band(self, band, top):
        """A band whose upper edge is at `top`."""
        self.draw_axis(band, top)
        tops, place = {}, top + AXIS
        for lane, height in band.lanes.items():
            kind, number = lane
            tops[lane] = place
            name = 'layers' if kind == 'layers' else 'stream %d' % number if kind == 'stream' else 'r%d' % number
            self.note(place + (height / 2 + 4 if kind == 'stream' else 12), name, bold=True)
            self.canvas.line(12, place + height, band.right, place + height, '#dddddd')
            if kind == 'replica':
                self.draw_modes(band, number, place)
            place += height
        faults = [column for column in band.columns if column.line.kind == 'fault']
        for column in faults:
            self.draw_cause(column, band, tops)
        for bar in band.bars:
            lane = lane_of(bar.entry)
            self.draw_call(bar, tops[lane] + band.lanes[lane] / 2)
        for column in faults:
            self.draw_cause_dot(column, band, tops)
        for column in band.columns:
            if not isinstance(column.line, Entry):
                self.draw_mark(column, tops)

    def draw_axis(self, band, top):
        """The places above a band, as many as have room, and a line down from each."""
        free = 0
        self.note(top + 12, 'place', FAINT, 10)
        for column in band.columns:
            self.canvas.line(column.left, top + AXIS - 4, column.left, top + band.height - BAND_GAP, '#ececec')
            if column.left >= free:
                self.canvas.text(column.left, top + 12, str(column.line.place), 10, FAINT)
                free = column.left + (len(str(column.line.place)) + 1) * SMALL_LETTER

    def draw_call(self, bar, centre):
        """The part of a call's bar that is in a band: from what the call saw to its place, where it has its full colour."""
        entry, (fill, border) = bar.entry, COLOURS[bar.entry.kind]
        left, width = bar.left + 1, bar.right - bar.left - 1
        labels, height = labels_for(entry, self.layout.form, width), self.bar_height(entry)
        top, ink, thick = centre - height / 2, RED if entry.refusal else border, 2 if entry.refusal else 1
        title = 'place %d, saw %d, stream %d, call %d: %s: %s' % (*entry[1:5], ' '.join(entry.call), entry.answer)
        title = shorten(title if bar.own is not None else 'goes on to ' + title, 200)
        if bar.begins and bar.own is not None and bar.own <= bar.left:
            self.canvas.rectangle(left, top, width, height, fill, ink, thick, title)
        else:
            self.canvas.rectangle(left, top, width, height, paler(fill), title=title)
            if bar.own is not None:
                self.canvas.rectangle(bar.own + 1, top, bar.right - bar.own - 1, height, fill, title=title)
            self.draw_border(bar, left, top, height, ink, thick)
        for number, label in enumerate(labels):
            is_refusal = bool(entry.refusal) and self.layout.form == ALL and number + 1 == len(labels)
            self.canvas.text(left + PADDING, top + 13 + number * LINE_HEIGHT, label, colour=RED if is_refusal else INK,
                             bold=number == 0 and self.layout.form != ONE_LINE)
        if entry.refusal and bar.own is not None:
            self.canvas.cross(bar.right, top)

    def bar_height(self, entry):
        """How high the bar of a call is."""
        return len(needed_labels(entry, self.layout.form)) * LINE_HEIGHT + 6

    def draw_border(self, bar, left, top, height, ink, thick):
        """The border of a part of a bar, which is open where the call begins before the band or ends behind it."""
        for edge in (top, top + height):
            self.canvas.line(left, edge, bar.right, edge, ink, thick)
        if bar.begins:
            self.canvas.line(left, top, left, top + height, ink, thick)
        if bar.own is not None:
            self.canvas.line(bar.right, top, bar.right, top + height, ink, thick)

    def draw_cause(self, column, band, tops):
        """A dashed line from the stream whose line to a replica failed to that replica; it passes behind the bars between."""
        begin = self.cause_begin(column, band, tops)
        if begin is not None:
            self.canvas.line(column.left + 6, begin, column.left + 6, tops[lane_of(column.line)] + 8.5, RED, dashed=True)

    def draw_cause_dot(self, column, band, tops):
        """A dot where that line begins."""
        begin = self.cause_begin(column, band, tops)
        if begin is not None:
            self.canvas.dot(column.left + 6, begin)

    def cause_begin(self, column, band, tops):
        """The height at which that line begins: the lower edge of the bar that is there, if there is one."""
        stream = int(column.line.words[1])
        if ('stream', stream) not in tops:
            return None
        heights = [self.bar_height(bar.entry) / 2 for bar in band.bars
                   if bar.entry.stream == stream and bar.left <= column.left < bar.right]
        return tops['stream', stream] + band.lanes['stream', stream] / 2 + max(heights, default=0)

    def draw_modes(self, band, replica, top):
        """The bar of a replica's modes in a band."""
        mode, begin = self.modes_before[band.columns[0].line.line][replica], band.columns[0].left
        for column in band.columns:
            if lane_of(column.line) == ('replica', replica):
                self.canvas.rectangle(begin, top + 5, column.left + 6 - begin, 7, MODES[mode])
                mode, begin = MODE_AFTER[column.line.kind], column.left + 6
        self.canvas.rectangle(begin, top + 5, band.right - begin, 7, MODES[mode])

    def draw_mark(self, column, tops):
        """A mark, in the lane of its replica or in the lane of layers. A rebuild hangs on its source."""
        mark, left, label, top = column.line, column.left, mark_label(column.line), tops[lane_of(column.line)]
        middle = left + 6
        if mark.kind in LAYER_MARKS:
            width = len(label) * SMALL_LETTER + 6
            self.canvas.rectangle(left + 3, top + 3, width, 16, '#ffffff', FAINT, title=' '.join(mark.words))
            self.canvas.text(left + 6, top + 14, label, 10)
            return
        if mark.kind == 'added':
            self.canvas.line(middle, tops['replica', replica_number(mark.words[2])] + 8.5, middle, top + 8.5, INK, 1.5)
        self.draw_mark_sign(MODE_AFTER[mark.kind], middle, top + 8.5)
        self.canvas.text(left + (12 if mark.kind == 'added' else 3), top + 25, label, 10)

    def draw_mark_sign(self, mode, middle, centre):
        """The sign of a mark after which its replica has that mode."""
        if mode == RW:
            self.canvas.polygon([(middle - 6, centre + 5.5), (middle + 6, centre + 5.5), (middle, centre - 6.5)])
        elif mode == WO:
            self.canvas.polygon([(middle - 6, centre), (middle, centre - 6.5), (middle + 6, centre), (middle, centre + 6.5)])
        else:
            self.canvas.cross(middle, centre, INK, 5)

    # What stands below the bands.

    def draw_end(self, top):
        """The chain and the digest of each replica at the end, once where several have the same; gives the next free height."""
        chains, heads = self.report.of_replicas('chain'), self.report.of_replicas('head')
        for chain in dict.fromkeys(chains.values()):
            top = self.draw_chain(names_of(chains, chain), chain, top)
        for digest in dict.fromkeys(heads.values()):
            self.note(top + 12, 'digest of the head of %s: %s…' % (names_of(heads, digest), digest[:16]))
            top += 20
        modes = self.report.of_replicas('mode')
        if ERR in modes.values():
            self.note(top + 12, '%s at the end: ERR' % names_of(modes, ERR), RED)
            top += 20
        return top

    def draw_chain(self, replicas, chain, top):
        """One chain from the head down; gives the next free height."""
        self.note(top + 12, 'chain of %s at the end, from the head down' % replicas, bold=True)
        rows, half, left_out = self.chain_rows(('head', *chain)), MOST_CHAIN_ROWS // 2, 0
        if len(rows) > MOST_CHAIN_ROWS:
            left_out = sum(map(len, rows[half:-half]))
            rows = rows[:half] + rows[-half:]
        top += 20
        for number, row in enumerate(rows):
            if left_out and number == half:
                self.canvas.text(24, top + 13, '%d layers are left out here' % left_out, bold=True, label=False)
                top += 22
            self.draw_layers(row, top, number + 1 == len(rows))
            top += 26
        return top

    def chain_rows(self, names):
        """The names of a chain in rows that have room, each with where its box begins and how wide that is."""
        rows, place = [[]], 24
        for name in names:
            width = len(name) * LETTER + 12
            if rows[-1] and place + width > self.width - RIGHT - 14:
                rows.append([])
                place = 24
            rows[-1].append((name, place, width))
            place += width + 14
        return rows

    def draw_layers(self, row, top, is_last):
        """The boxes of layers, each joined to its parent."""
        for number, (name, left, width) in enumerate(row):
            if not is_last or number + 1 < len(row):
                self.canvas.line(left + width, top + 10, left + width + 14, top + 10, INK)
            fill = MARKED_FILL if name.endswith('*') else HEAD_FILL if name == 'head' else LAYER_FILL
            self.canvas.rectangle(left, top, width, 20, fill, INK, dashed=name.endswith('*'))
            self.canvas.text(left + 6, top + 14, name)

    def draw_refusals(self, top):
        """The refusals with their places, for which small boxes have no room; gives the next free height."""
        places = {}
        for entry in self.report.entries:
            if entry.refusal:
                places.setdefault(entry.refusal, []).append(str(entry.place))
        for refusal, numbers in sorted(places.items()):
            text = '%s refused, %s: place%s %s' % (count_text(len(numbers), 'call'), refusal, 's' * (len(numbers) > 1),
                                                   ', '.join(numbers))
            room = int((self.width - 30) / LETTER)
            self.note(top + 14, text if len(text) <= room else text[:room].rpartition(', ')[0] + ', and more', RED)
            top += 18
        return top

    def draw_legend(self, top):
        """The signs of the picture, of those that it has; gives the next free height."""
        left = 12
        for what, key, text in self.legend():
            width = 26 + len(text) * 6.3 + 16
            if left + width > self.width - 12:
                left, top = 12, top + 20
            self.draw_sign(what, key, left, top)
            self.canvas.text(left + 26, top + 13, text, label=False)
            left += width
        return top + 20

    def legend(self):
        """What the legend says: which sign, of which kind or mode, and the words for it."""
        counts = Counter(entry.kind for entry in self.report.entries)
        words = {kind: kind if self.layout.form == ALL or short == kind else '%s: %s' % (short, kind)
                 for kind, short in SHORT.items()}
        items = [('kind', kind, text) for kind, text in words.items() if counts[kind]]
        if any(entry.refusal for entry in self.report.entries):
            items.append(('refused', None, 'refused'))
        if counts:
            items.append(('saw', None, 'from what a call saw when it was taken up to its place'))
        seen = {mode for modes in self.modes_before.values() for mode in modes}
        items += [('mode', mode, text) for mode, text in MODE_TEXTS.items() if mode in seen]
        marked = {MODE_AFTER.get(line.kind) for line in self.report.journal if not isinstance(line, Entry)}
        items += [('mark', mode, text) for mode, text in SIGNS.items() if mode in marked]
        if any(line.kind == 'fault' for line in self.report.journal):
            items.append(('cause', None, 'the line of that stream to the replica failed'))
        if any(name.endswith('*') for chain in self.report.of_replicas('chain').values() for name in chain):
            items.append(('marked', None, 'removed layer'))
        return items

    def draw_sign(self, what, key, left, top):
        """One sign of the legend."""
        if what == 'kind':
            self.canvas.rectangle(left, top + 3, 20, 12, *COLOURS[key])
        elif what == 'refused':
            self.canvas.rectangle(left, top + 3, 20, 12, '#ffffff', RED, 2)
            self.canvas.cross(left + 20, top + 3)
        elif what == 'saw':
            self.canvas.rectangle(left, top + 3, 20, 12, paler(FAINT), FAINT)
            self.canvas.rectangle(left + 13, top + 3, 7, 12, FAINT)
        elif what == 'cause':
            self.canvas.line(left + 12, top + 4, left + 12, top + 17, RED, dashed=True)
            self.canvas.dot(left + 12, top + 4)
        elif what == 'mode':
            self.canvas.rectangle(left, top + 5, 20, 7, MODES[key])
        elif what == 'mark':
            self.draw_mark_sign(key, left + 12, top + 9)
        else:
            self.canvas.rectangle(left, top + 3, 20, 12, MARKED_FILL, INK, dashed=True)


def find_modes(report):
    """The modes of all replicas before each line of the journal, by the line's number, and those at the end by None."""
    replay, modes = Replay(report), {}
    entries = {entry.place: entry for entry in report.entries}
    for line in report.journal:
        modes[line.line] = tuple(replay.modes)
        if not isinstance(line, Entry):
            replay.take_mark(line, entries)
    modes[None] = tuple(replay.modes)
    return modes


def most_at_once(entries):
    """The greatest number of calls that are open at one place."""
    steps = Counter()
    for entry in entries:
        steps[min(entry.saw, entry.place)] += 1
        steps[entry.place + 1] -= 1
    most = count = 0
    for place in sorted(steps):
        count += steps[place]
        most = max(most, count)
    return most


def paler(colour):
    """A colour, more than half of the way to white."""
    return '#' + ''.join('%02x' % (255 - (255 - int(colour[at:at + 2], 16)) * 2 // 5) for at in (1, 3, 5))


def names_of(values, value):
    """The replicas that have a value."""
    return ', '.join('r%d' % replica for replica in sorted(values) if values[replica] == value)


def count_text(count, noun):
    """A number of things."""
    return '%d %s%s' % (count, noun, '' if count == 1 else 's')
