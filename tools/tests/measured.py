"""A run that is measured: its status, what it printed, its note, and its most memory. One that takes longer than a minute is killed.

Run by itself it starts a command, waits for its end, and tells the handle of a number its status and its most memory. That stands
between a test and the program, since a process that starts another hands it its own most memory.
"""
import os
import signal
import subprocess
import sys

SECONDS = 60
# The most bytes that a run may take beside its input and what it has to hold.
MOST_MEMORY = 64 << 20


def main(handle, *command):
    """Runs a command, and tells a handle its status and its most memory, in KiB."""
    child = os.posix_spawn(command[0], command, os.environ)
    signal.signal(signal.SIGALRM, lambda *_: os.kill(child, signal.SIGKILL))
    signal.alarm(SECONDS)
    _, status, used = os.wait4(child, 0)
    os.write(int(handle), b'%d %d' % (os.waitstatus_to_exitcode(status), used.ru_maxrss))


def run(command, room, given=b''):
    """The status of a command that is run in a room, what it printed, its note, and the most bytes of memory that it had."""
    reads, writes = os.pipe()
    with open(reads, 'rb') as told:
        with open(writes, 'wb'):
            own = [sys.executable, '-I', '-S', os.path.abspath(__file__), str(writes), *command]
            ended = subprocess.run(own, input=given, cwd=room, capture_output=True, pass_fds=[writes])
        status, memory = map(int, told.read().split())
    return status, ended.stdout, ended.stderr, memory << 10


if __name__ == '__main__':
    main(*sys.argv[1:])
