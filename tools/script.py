#!/usr/bin/env python3
"""Makes a script of longhorn from a text, and shows any script as such a text."""
import argparse
import os
import sys

from byte_text import Wrong
from make_script import BadLine, make
from script_head import MOST_INPUT
from show_script import show

GRAMMAR = r'''
the lines of a text

  volume NAME SIZE                     the volume; a SIZE is a number of bytes, as 512, 4K, 2M, 1G
  replicas COUNT                       1 to 8; 1 where the line is left out
  open                                 the run begins with saved replicas
  save                                 the run saves its replicas
  now "TEXT"                           the time of the run
  fault worker W replica R carries N.. of the line from worker W to replica R these carries fail, counted from 1
  stream frames                        a stream of frames begins, whose lines follow; `stream 2 frames` says which it is
    write OFFSET BYTES                 a write; its size is the number of bytes
    read OFFSET SIZE                   a read
    ping
    close                              the end of the stream
    frame TYPE OFFSET SIZE [BYTES]     any frame
    .. seq N                           behind any of these: its seq; without, its number in the stream, from 1
    bytes BYTES                        bytes that are no frame
  stream commands                      a stream of commands begins, whose lines follow, as they are:
    snapshot NAME, remove NAME, revert NAME, purge, add rK, fail rK, backup BACKUP NAME, expand BYTES, salvage rK, status
  # TEXT                               says nothing, as an empty line

  BYTES are one or more of

  "TEXT"                               the text; \" is a quote and \\ a backslash in it
  hex 61FF                             two hexadecimal digits a byte
  zeros SIZE                           zeros
  fill HH SIZE                         one byte, again and again
  random seed N SIZE                   what splitmix64 gives from that seed
  file PATH                            the bytes of a file, found from the folder of the text

The lines of the volume stand before the streams. A script that is made so is one that longhorn reads, except for `bytes`; it
may be one that today's longhorn does not serve. Two lines more are there for inputs that are none:

  json LINE                            in place of all lines before the streams: the first line, as it is. Then only streams
                                       of frames follow, whose bytes stand one after another, whatever the line says of them
  bytes BYTES                          in place of all others: the whole input
'''

MAKE_HELP = r'''
What is written is one line of JSON, without blanks, with the members volume, size, replicas, open, save, now, streams, lines in
that order, of which open and save are left out where they are false, now and lines where they are empty; and then the bytes of
the frames. A line that is none is named with its number and what would be right, and nothing is written.
'''

SHOW_HELP = r'''
What is printed is canonical: no comments and no empty lines, `volume`, `replicas`, `open`, `save`, `now`, `fault` in this order,
each stream with its number and its lines two blanks further in, each number with the largest unit that divides it, seq only
where it is not the frame's number, a frame as `write`, `read`, `ping` or `close` where one says it, and bytes as one
`random seed` where they are 16 or more and come from a seed, else with each run of 16 or more equal bytes as `zeros` or `fill`,
and what is between as a text where all of it can be printed, else as `hex`.

The text of `show` makes the same bytes again, whatever they are, and a text in canonical form is shown as it is.
A first line that `make` would not write so is shown as `json`, from the first bytes on that are no good frame a stream is shown
as `bytes`, and an input without a first line as `bytes` alone.
'''


def read_words():
    """The words of the command line."""
    formatter = argparse.RawDescriptionHelpFormatter
    parser = argparse.ArgumentParser(prog='script.py', description=__doc__, epilog=GRAMMAR + MAKE_HELP + SHOW_HELP,
                                     formatter_class=formatter)
    verbs = parser.add_subparsers(dest='verb', required=True, metavar='make|show')
    verb = verbs.add_parser('make', help='writes the bytes of the script that a text says', formatter_class=formatter,
                            description='Writes the bytes of the script that a text says to standard output.',
                            epilog=GRAMMAR + MAKE_HELP)
    verb.add_argument('text', nargs='?', default='-', help='a file with a text; standard input where it is left out or `-`')
    verb = verbs.add_parser('show', help='prints any script as a text', formatter_class=formatter,
                            description='Prints any script as the text that makes it.', epilog=GRAMMAR + SHOW_HELP)
    verb.add_argument('script', nargs='?', default='-', help='a file with a script; standard input where it is left out or `-`')
    return parser.parse_args()


def read_input(path):
    """The bytes of a file, or of standard input, one more than a script may have at most."""
    if path == '-':
        return sys.stdin.buffer.read(MOST_INPUT + 1)
    with open(path, 'rb') as file:
        return file.read(MOST_INPUT + 1)


def run(words):
    """Does what the words ask for, and gives what is to be written."""
    if words.verb == 'make':
        return make(read_input(words.text).decode('utf-8-sig'), os.path.dirname(words.text))
    script = read_input(words.script)
    if len(script) > MOST_INPUT:
        raise Wrong('this has more than the %d bytes that a script may have' % MOST_INPUT)
    return show(script).encode()


def main():
    words = read_words()
    path = words.text if words.verb == 'make' else words.script
    try:
        sys.stdout.buffer.write(run(words))
        sys.stdout.buffer.flush()
    except BrokenPipeError:
        os.dup2(os.open(os.devnull, os.O_WRONLY), sys.stdout.fileno())
    except (BadLine, Wrong) as wrong:
        sys.exit('%s: %s' % ('standard input' if path == '-' else path, wrong))
    except UnicodeDecodeError:
        sys.exit('%s: the text is not UTF-8' % path)
    except OSError as error:
        sys.exit('%s: %s' % (path, error.strerror))


if __name__ == '__main__':
    main()
