#!/usr/bin/env python3
"""Looks at what `longhorn run` or `serve` printed: checks it, prints its journal as a table, or draws it."""
import argparse
import os
import sys

import asked
import findings
import opening
import picture
from report import Entry, read_report, shorten, shorten_runs, spell_call

CHECK_HELP = '''
Prints one line for each thing that is odd, as `line 7: has place 5, where 4 comes next`, and nothing where there is none; the
status is then 1 or 0. Odd are: a line that is none of a report, groups out of order, places and indices that skip, a call that
saw its own future or was taken up before the call before it in its stream had ended, bytes that do not fit their range, a read that
does not give what one plain disk has at its place, a call without its reply line, a reply line without its call or of other
contents, answers that do not fit the names, layers and modes that the journal has made, marks that may not stand where they
do, rebuilds that begin, end or are answered as they may not be, and modes, chains and heads at the end that are missing or do
not agree. What `serve` printed has lines of sessions in place of replies: odd are sessions out of order, calls that no session
makes, marks, counts of calls that are not those of the journal, a journal that was shorter when a session looked at it last than
its last call, or is shorter now, and ends that do not fit the calls. Where a line of the journal is missing, nothing is said of
what would follow from all lines; and nothing of bytes where the run began with saved replicas, unless --opened tells them.

With --script SCRIPT, what was run, odd are also: calls that are not those of their stream, each once and in order, ranges
that the volume does not have, replies to other frames, more faults of a line than are planned, replicas and streams that there
are not, and heads whose digest is not that of the plain disk.

With --opened FOLDER besides, the folder `replicas` as it stood before the run, odd are also: opening lines that do not say what
each replica's folder is; and layers, names and bytes are judged from those on that the lowest clean folder has.
'''

TABLE_HELP = '''
Columns: the place, the journal's length that the call saw when it was taken up, its stream, the call with its range as
`OFFSET+LENGTH`, and its reply, both shortened where they are long. A mark has a place and its text alone.
'''

PICTURE_HELP = '''
Writes one SVG. The places go from left to right, in bands like lines of text. Each stream has a lane with a bar for each call,
which reaches from what the call saw when it was taken up to its place, and has its full colour there: calls whose bars stand one
above the other overlap. Bars are coloured by kind; a refused one has a red border and a cross; one that is open at the edge of
a band goes on in the next. Each replica has a lane coloured by its mode, with its marks: where it falls, joined by a dashed line
to the stream whose line to it failed, if that is why; and where its rebuild begins, joined to its source, and ends. What a purge
takes out has a lane too. Below are the chain at the end and a legend. Where at most 4 streams have a journal of at most 40
lines, bars have all that a call says, with its bytes; of at most 80 lines, the kind and the range or names; else a letter.
Refusals then stand in words below, and all that a call says is shown where a pointer rests on its bar. What has no room is left
out in the middle, and the picture says how much that is. Its title and its description are for those who do not see it.
'''


def check(report, script=None, opening=None):
    """The findings, as lines; with a script also those of a report that is none of it, and with an opening of one that began else."""
    return ''.join('%s %s\n' % ('the report' if number is None else 'line %d:' % number, text)
                   for number, text in findings.find_odd(report, script, opening))


def table(report):
    """The journal in columns."""
    rows = [('place', 'saw', 'stream', 'call', 'reply')]
    for line in report.journal:
        if isinstance(line, Entry):
            answer = 'ok ' + shorten_runs(line.runs, 36) if line.runs else shorten(line.answer, 40)
            rows.append((str(line.place), str(line.saw), str(line.stream), spell_call(line.call), answer))
        else:
            rows.append((str(line.place), '', '', shorten('mark ' + ' '.join(line.words), 40), ''))
    widths = [max(map(len, column)) for column in zip(*rows)]
    lines = ['  '.join([*(cell.rjust(width) for cell, width in zip(row[:3], widths)), row[3].ljust(widths[3]), row[4]])
             for row in rows]
    return ''.join(line.rstrip() + '\n' for line in lines)


def read_words():
    """The words of the command line."""
    formatter = argparse.RawDescriptionHelpFormatter
    parser = argparse.ArgumentParser(prog='journal.py', description=__doc__, formatter_class=formatter,
                                     epilog='\n'.join(['check' + CHECK_HELP, 'table' + TABLE_HELP, 'picture' + PICTURE_HELP]))
    verbs = parser.add_subparsers(dest='verb', required=True, metavar='check|table|picture')
    added = {}
    for verb, short, text in (('check', 'says what is odd, a line for each finding', CHECK_HELP),
                              ('table', 'prints the journal in columns', TABLE_HELP),
                              ('picture', 'draws the run as one SVG', PICTURE_HELP)):
        added[verb] = verbs.add_parser(verb, help=short, description=text, formatter_class=formatter)
        added[verb].add_argument('report', nargs='?', default='-',
                                 help='a file with what `run` or `serve` printed; standard input where it is left out or `-`')
    added['check'].add_argument('--script', metavar='SCRIPT', help='a file with the script that was run')
    added['check'].add_argument('--opened', metavar='FOLDER', help='the folder `replicas` as it stood before the run; with --script')
    added['picture'].add_argument('--most', type=whole_number, metavar='COUNT', help='draw at most so many entries and marks')
    added['picture'].add_argument('--height', type=whole_number, metavar='PIXELS', default=4000,
                                  help='draw no more bands than have room in that height; 4000 where it is left out')
    return parser.parse_args()


def whole_number(text):
    """A number of the command line, 2 or more."""
    if not (text.isascii() and text.isdigit()) or int(text) < 2:
        raise argparse.ArgumentTypeError('%r is no whole number from 2 on' % text)
    return int(text)


def read_asked(path):
    """The script in a file."""
    with open(path, 'rb') as file:
        script = asked.read_script(file.read())
    if script is None:
        sys.exit('%s: is no script' % path)
    return script


def read_begin(words):
    """The script that was run, and how the run began, as far as the words tell them."""
    if words.opened and not words.script:
        sys.exit('--opened wants --script beside it')
    script = words.script and read_asked(words.script)
    return script, words.opened and opening.of_folders(words.opened, script.head.size, script.head.replicas)


def read_input(path):
    """The report in a file or on standard input."""
    if path == '-':
        text = sys.stdin.buffer.read()
    else:
        with open(path, 'rb') as file:
            text = file.read()
    return read_report(text.decode(errors='replace'))


def main():
    words = read_words()
    try:
        report = read_input(words.report)
        if words.verb == 'check':
            written = check(report, *read_begin(words))
        elif words.verb == 'table':
            written = table(report)
        else:
            written = picture.draw(report, words.most, words.height)
        sys.stdout.buffer.write(written.encode())
        sys.stdout.buffer.flush()
    except BrokenPipeError:
        os.dup2(os.open(os.devnull, os.O_WRONLY), sys.stdout.fileno())
        return
    except OSError as error:
        sys.exit('%s: %s' % (error.filename or words.report, error.strerror))
    sys.exit(words.verb == 'check' and bool(written))


if __name__ == '__main__':
    main()
