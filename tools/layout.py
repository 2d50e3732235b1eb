"""Where everything of a picture stands: bands of columns, a column for each place, with lanes, and bars and labels in them."""
from bisect import bisect_left, bisect_right
from typing import NamedTuple

from byte_text import spell_size
from report import LAYER_MARKS, Entry, replica_number, shorten, shorten_runs

WIDTH = 1200
LEFT = 84
RIGHT = 16
LETTER = 6.62
SMALL_LETTER = 6.02
LINE_HEIGHT = 13
# The room on both sides of a label in its bar, and behind the bar.
PADDING = 5
GAP = 4
AXIS = 18
BAND_GAP = 12
LEAST_COLUMN = 25
# With no more streams each band shows all of them.
FEW_STREAMS = 4
MOST_LABEL = 18
# How much the bars say: on lines below each other all that a call says, where few streams have few calls; or its kind, and its
# range or names, on one line; or a letter and its names.
ALL, ONE_LINE, LETTERS = 'all', 'one line', 'letters'
MOST_LINES_OF_ALL = 40
MOST_LINES_OF_ONE = 80
LANE_GAPS = {ALL: 16, ONE_LINE: 9, LETTERS: 12}
# What a short label says of each kind of call.
SHORT = {'read': 'R', 'write': 'W', 'unmap': 'U', 'ping': 'P', 'other': 'O', 'snapshot': 'snap', 'remove': 'rem', 'revert': 'rev',
         'purge': 'purge', 'add': 'add', 'fail': 'fail', 'backup': 'back', 'expand': 'exp', 'salvage': 'salv', 'status': 'stat'}


class Column(NamedTuple):
    """What stands at one place: the journal's line, and where its column begins and ends."""
    line: object
    left: float
    right: float


class Bar(NamedTuple):
    """The part of a call's bar that is in a band: from where to where, and whether the call begins and ends there.

    `own` is where the column of the call's place begins, or None in a band before it.
    """
    entry: object
    left: float
    right: float
    begins: bool
    own: object


class Band(NamedTuple):
    """Columns that stand side by side, the bars over them, and the height of each lane from the top down."""
    columns: list
    bars: list
    lanes: dict
    right: float

    @property
    def height(self):
        """The height of the band, its axis counted."""
        return AXIS + sum(self.lanes.values()) + BAND_GAP


class Row:
    """A band's columns, of which one after another is added."""

    def __init__(self, first):
        self.first = first
        self.columns = []
        self.right = LEFT
        # Where the label of the last mark ends, in each lane that has one.
        self.label_ends = {}

    def add_call(self, entry, begin, needed):
        """Adds the column of a call whose bar begins at that line of the journal; says whether it has room.

        A bar that begins before may be long enough for its label already.
        """
        left = self.columns[begin - self.first].left if begin - self.first < len(self.columns) else self.right
        right = max(self.right + LEAST_COLUMN, left + needed)
        return self.add(Column(entry, self.right, right), right)

    def add_mark(self, mark, lane, needed):
        """Adds the column of a mark; says whether it has room. Its label may reach into the columns behind it."""
        left = max(self.right, self.label_ends.get(lane, 0))
        if not self.add(Column(mark, left, left + LEAST_COLUMN), left + needed):
            return False
        if len(self.columns) > 1:
            self.columns[-2] = self.columns[-2]._replace(right=left)
        self.label_ends[lane] = left + needed
        return True

    def add(self, column, end):
        """Adds a column with what reaches to that end, where it has room. The first one always has."""
        if self.columns and end > WIDTH - RIGHT:
            return False
        self.columns.append(column)
        self.right = column.right
        return True

    @property
    def end(self):
        """Where the last column and the last label end."""
        return max([self.right, *self.label_ends.values()])


class Layout:
    """Lays the journal of a report out in bands: all of it, or its front and its end.

    `groups` has one list of bands or two, and `kept` the lines of the journal that stand in them.
    """

    def __init__(self, report, most, height):
        self.journal = report.journal
        self.streams = sorted({entry.stream for entry in report.entries})
        self.form = form_of(len(self.journal), len(self.streams))
        self.replica_count = report.replica_count
        self.has_layer_lane = any(line.kind in LAYER_MARKS for line in self.journal)
        self.groups = self.choose(len(self.journal) if most is None else min(most, len(self.journal)), height)
        self.kept = [column.line for group in self.groups for band in group for column in band.columns]

    def choose(self, most, height):
        """The bands of as many lines of the journal as have room in a height, but two at least."""
        chosen = self.lay_out(most)
        if total(chosen) <= height:
            return chosen
        least, limit = min(most, 2), most - 1
        while least < limit:
            middle = (least + limit + 1) // 2
            if total(self.lay_out(middle)) <= height:
                least = middle
            else:
                limit = middle - 1
        return self.lay_out(least)

    def lay_out(self, count):
        """The bands of so many lines of the journal, from its front and its end."""
        front = len(self.journal) if count == len(self.journal) else (count + 1) // 2
        parts = [self.journal[:front]]
        if count < len(self.journal):
            parts.append(self.journal[len(self.journal) - (count - front):])
        rows = [self.rows(part) for part in parts]
        bars = self.bars([row for group in rows for row in group])
        return [[self.band(row, bars.pop(0)) for row in group] for group in rows]

    def rows(self, lines):
        """Rows that hold these lines of the journal, in their order."""
        rows, places = [], [line.place for line in lines]
        for number, line in enumerate(lines):
            if not (rows and self.add(rows[-1], line, begin_of(line, number, places))):
                rows.append(Row(number))
                self.add(rows[-1], line, number)
        return rows

    def add(self, row, line, begin):
        """Adds a line of the journal to a row, where it has room."""
        if isinstance(line, Entry):
            return row.add_call(line, max(begin, row.first), label_width(needed_labels(line, self.form)))
        label = mark_label(line)
        # The label of a rebuild stands beside the line that may come up from its source.
        return row.add_mark(line, lane_of(line), len(label) * SMALL_LETTER + (23 if line.kind == 'added' else 14))

    def bars(self, rows):
        """The parts of bars in each row."""
        lines = [column.line for row in rows for column in row.columns]
        places, firsts, count = [line.place for line in lines], [], 0
        for row in rows:
            firsts.append(count)
            count += len(row.columns)
        bars = [[] for _ in rows]
        for number, entry in enumerate(lines):
            if not isinstance(entry, Entry):
                continue
            begin = begin_of(entry, number, places)
            last = bisect_right(firsts, number) - 1
            for at in range(bisect_right(firsts, begin) - 1, last + 1):
                columns, here = rows[at].columns, begin >= firsts[at]
                own = columns[number - firsts[at]] if at == last else None
                bars[at].append(Bar(entry, columns[begin - firsts[at]].left if here else LEFT, own.right - GAP if own else rows[at].end,
                                    here and places[begin] == min(entry.saw, entry.place), own and own.left))
        return bars

    def band(self, row, bars):
        """A row and its bars as a band, with its lanes."""
        lanes, lines = {}, {}
        for bar in bars:
            lines[bar.entry.stream] = max(lines.get(bar.entry.stream, 1), len(needed_labels(bar.entry, self.form)))
        for stream in self.streams:
            if stream in lines or len(self.streams) <= FEW_STREAMS:
                lanes['stream', stream] = lines.get(stream, 1) * LINE_HEIGHT + 6 + LANE_GAPS[self.form]
        if self.has_layer_lane:
            lanes['layers', 0] = 22
        used = {lane_of(column.line) for column in row.columns}
        for replica in range(self.replica_count):
            lanes['replica', replica] = 30 if ('replica', replica) in used else 18
        return Band(row.columns, bars, lanes, row.end)


def form_of(lines, streams):
    """How much bars say in a journal of so many lines and streams."""
    if lines <= MOST_LINES_OF_ALL and streams <= FEW_STREAMS:
        return ALL
    return ONE_LINE if lines <= MOST_LINES_OF_ONE else LETTERS


def begin_of(line, number, places):
    """At which of these places a line's column or bar begins; its own is that of the number."""
    return min(bisect_left(places, line.saw), number) if isinstance(line, Entry) else number


def total(groups):
    """The height of some groups of bands."""
    return sum(band.height for group in groups for band in group)


def lane_of(line):
    """The lane in which a line of the journal stands."""
    if isinstance(line, Entry):
        return 'stream', line.stream
    if line.kind in LAYER_MARKS:
        return 'layers', 0
    return 'replica', replica_number(line.words[2 if line.kind == 'fault' else 1])


def label_width(labels):
    """How wide a bar with these lines of text is, and the gap behind it."""
    return max(map(len, labels)) * LETTER + 2 * PADDING + GAP + 1


def needed_labels(entry, form):
    """The lines of a bar that has the least room."""
    if form == ALL:
        return all_labels(entry)
    if form == ONE_LINE:
        return (' '.join(one_line_words(entry)),)
    names = () if entry.kind in ('read', 'write', 'unmap', 'other') else entry.call[1:]
    return (SHORT[entry.kind], *((shorten(' '.join(names), MOST_LABEL),) if names else ()))


def labels_for(entry, form, width):
    """The lines of a bar of that width: as many words or lines as have room, which may be none."""
    most = int((width - 2 * PADDING) / LETTER + 0.01)
    if form == ONE_LINE:
        words = one_line_words(entry)
        fitting = [' '.join(words[:count]) for count in range(1, len(words) + 1)]
        return tuple(text for text in fitting if len(text) <= most)[-1:]
    labels = needed_labels(entry, form)
    return labels if max(map(len, labels)) <= most else ()


def all_labels(entry):
    """The lines of a bar that has room: the call, its range or names, its bytes or its refusal."""
    labels = [entry.kind]
    if entry.kind in ('read', 'write', 'unmap'):
        labels.append('%s+%s' % entry.call[1:3])
    elif entry.call[1:]:
        labels.append(' '.join(entry.call[1:]))
    if entry.refusal:
        labels.append(entry.refusal)
    elif entry.kind == 'write' or entry.runs:
        labels.append(shorten_runs(entry.runs or entry.call[3], 16))
    elif entry.kind == 'status':
        labels.append('%s layers' % entry.answer.split(' ')[2])
    return tuple(shorten(label, MOST_LABEL) for label in labels)


def one_line_words(entry):
    """The words of a bar of one line: the kind, and the range with its units or the names."""
    words = [SHORT[entry.kind]]
    if entry.kind in ('read', 'write', 'unmap'):
        words.append('%s+%s' % tuple(spell_size(int(number)) for number in entry.call[1:3]))
    elif entry.call[1:]:
        words.append(shorten(' '.join(entry.call[1:]), MOST_LABEL))
    return words


def mark_label(mark):
    """What a mark is called in the picture."""
    words = mark.words
    if mark.kind == 'fault':
        return 'fault w%s #%s' % (words[1], words[3])
    if mark.kind == 'added':
        return 'added from %s, %s' % (words[2], shorten(words[3], 14))
    if mark.kind == 'folded':
        return '%s into %s' % (shorten(words[1], 14), shorten(words[2], 14))
    return shorten(words[1], 14) + ' dropped' if mark.kind == 'dropped' else mark.kind
