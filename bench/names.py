#!/usr/bin/env python3
"""names.py PROGRAM PEER [REPEATS]

Races a built longhorn against the peer, a fast plain Rust program of the same work, on one stream of 65,536 commands: a snapshot
under a new name, its removal and a purge, over and over, and a status at the end. So 21,845 names are taken, of which no more
than one is live. And on half of it, which shows how the time grows. Both have to print the same. By turns, in time of the
processor, as medians with the least and the greatest.
"""
import json
import os
import statistics
import sys
import tempfile

from purge import printed, race, spread

MOST_COMMANDS = 65_536


def script(count):
    """A script of so many commands, less one or two, and a status."""
    commands = []
    for number in range((count - 1) // 3):
        commands += ['snapshot n%d' % number, 'remove n%d' % number, 'purge']
    streams = [{'control': commands + ['status']}]
    head = json.dumps({'volume': 'v', 'size': 2 << 20, 'replicas': 1, 'streams': streams}, separators=(',', ':'))
    return head.encode() + b'\n'


def main():
    programs, repeats = sys.argv[1:3], int(sys.argv[3]) if len(sys.argv) > 3 else 11
    with tempfile.TemporaryDirectory() as folder:
        paths = [os.path.join(folder, name) for name in ('whole', 'half')]
        for path, count in zip(paths, (MOST_COMMANDS, MOST_COMMANDS // 2)):
            with open(path, 'wb') as file:
                file.write(script(count))
        seen, wanted = (printed(program, paths[0]) for program in programs)
        if seen != wanted:
            sys.exit('the two do not print the same')
        turns = race(programs, paths, repeats)
    whole = [[times[0] for times in turn] for turn in turns]
    print('%d layers folded: %s ms, the peer: %s ms, ratio: %s'
          % (seen.count(b' mark folded '), *map(spread, zip(*whole)), spread([own / other for own, other in whole])))
    print('the whole against its half: %s' % spread([turn[0][0] / turn[0][1] for turn in turns]))


main()
