#!/usr/bin/env python3
"""zeros.py PROGRAM [READS]

Runs a built longhorn on reads of 1 MiB of zeros by sixteen streams, each of READS (4,096, the most that a stream may have), by a
worker for each stream and by one worker, and tells the most memory of each run: what the reads give is kept as runs, so it is
not what they are together, 64 GiB, but what the streams have in hand.
"""
import json
import os
import struct
import subprocess
import sys
import tempfile

MIB = 1 << 20
STREAMS = 16
MOST = 4096


def keep_script(path, reads):
    """Keeps the script."""
    body = b''.join(struct.pack('<HIIqII', 0x1b01, seq, 0, 0, MIB, 0) for seq in range(1, reads + 1))
    head = json.dumps({'volume': 'v', 'size': 2 * MIB, 'replicas': 1, 'streams': [{'frames': len(body)}] * STREAMS}, separators=(',', ':'))
    with open(path, 'wb') as file:
        file.write(head.encode() + b'\n' + STREAMS * body)


def most_memory(program, workers, path):
    """The most memory of a run, in MiB."""
    with open(path, 'rb') as given:
        run = subprocess.Popen([program, 'run', '--workers', workers], stdin=given, stdout=subprocess.DEVNULL)
        _, status, used = os.wait4(run.pid, 0)
    if status:
        sys.exit('a run ended with status %d' % os.waitstatus_to_exitcode(status))
    return used.ru_maxrss / 1024


def main():
    program, reads = sys.argv[1], int(sys.argv[2]) if len(sys.argv) > 2 else MOST
    with tempfile.TemporaryDirectory() as folder:
        path = os.path.join(folder, 'script')
        keep_script(path, reads)
        for workers in ('each', 'one'):
            print('%s: %.1f MiB for %d reads of 1 MiB' % (workers, most_memory(program, workers, path), STREAMS * reads))


if __name__ == '__main__':
    main()
