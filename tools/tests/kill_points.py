"""Ends a program right behind one of the calls by which it changes files, found by ptrace: at the same moment each time."""
import ctypes
import os
import platform
import signal
import sys

TRACE_ME, NEXT_CALL, SET_OPTIONS, GET_CALL = 0, 24, 0x4200, 0x420e
# Stops at calls are told apart, threads are followed, and none outlives this process.
OPTIONS = 0x1 | 0x8 | 0x100000
CALL_STOP = signal.SIGTRAP | 0x80
ALL_THREADS = 0x40000000
AT_ENTRY, AT_EXIT = 1, 2
# The numbers of calls that change files, by machine. Those that open one change it where they make or empty it: their flags are
# the third word, or the second where no folder is named.
CHANGES = {
    'x86_64': {1: 'write', 18: 'write', 20: 'write', 296: 'write', 328: 'write', 76: 'length', 77: 'length', 285: 'length', 74: 'flush',
               75: 'flush', 82: 'rename', 264: 'rename', 316: 'rename', 83: 'folder', 258: 'folder', 87: 'remove', 263: 'remove',
               257: 'open', 2: 'plain open'},
    'aarch64': {64: 'write', 66: 'write', 68: 'write', 70: 'write', 287: 'write', 45: 'length', 46: 'length', 47: 'length', 82: 'flush',
                83: 'flush', 38: 'rename', 276: 'rename', 34: 'folder', 35: 'remove', 56: 'open'},
}.get(platform.machine(), {})
LIBRARY = ctypes.CDLL(None, use_errno=True)
LIBRARY.ptrace.argtypes = [ctypes.c_long, ctypes.c_long, ctypes.c_void_p, ctypes.c_void_p]
LIBRARY.ptrace.restype = ctypes.c_long


class Call(ctypes.Structure):
    """What the system tells of a call at which a thread stands."""
    _fields_ = [('stop', ctypes.c_uint8), ('machine', ctypes.c_uint32), ('place', ctypes.c_uint64), ('stack', ctypes.c_uint64),
                ('number', ctypes.c_uint64), ('words', ctypes.c_uint64 * 6)]


def can_trace():
    """Whether programs can be traced here, and their calls are known."""
    return bool(CHANGES) and sys.platform == 'linux' and run_to([sys.executable, '-c', 'open("/dev/null", "w")'], '/dev/null', '/', 1) == 1


def run_to(command, given, room, most=None):
    """Runs a command in a room until it has changed files so often, or to its end; how often it did, or None where nobody can tell."""
    child = os.fork()
    if child == 0:
        begin(command, given, room)
    try:
        if not os.WIFSTOPPED(os.waitpid(child, ALL_THREADS)[1]) or LIBRARY.ptrace(SET_OPTIONS, child, None, OPTIONS) != 0:
            return None
        return follow(child, most)
    finally:
        end(child)


def begin(command, given, room):
    """Becomes the command, traced and stopped before it begins."""
    try:
        os.chdir(room)
        os.dup2(os.open(given, os.O_RDONLY), 0)
        for handle in 1, 2:
            os.dup2(os.open(os.devnull, os.O_WRONLY), handle)
        if LIBRARY.ptrace(TRACE_ME, 0, None, None) == 0:
            os.kill(os.getpid(), signal.SIGSTOP)
            os.execv(command[0], command)
    finally:
        os._exit(127)


def end(child):
    """Kills a child, and waits for its end. A thread that has ended and was not told of yet would hold it back."""
    try:
        os.kill(child, signal.SIGKILL)
        thread, status = os.waitpid(-1, ALL_THREADS)
        while thread != child or os.WIFSTOPPED(status):
            thread, status = os.waitpid(-1, ALL_THREADS)
    except (ProcessLookupError, ChildProcessError):
        pass


def follow(child, most):
    """Follows a child through its calls until it has changed files so often, or has ended; how often it did."""
    thread, passed, changes, open_calls = child, 0, 0, {}
    while changes != most:
        LIBRARY.ptrace(NEXT_CALL, thread, None, passed)
        thread, status = os.waitpid(-1, ALL_THREADS)
        while not os.WIFSTOPPED(status):
            if thread == child:
                return changes
            thread, status = os.waitpid(-1, ALL_THREADS)
        passed = os.WSTOPSIG(status)
        if passed == CALL_STOP:
            call = Call()
            LIBRARY.ptrace(GET_CALL, thread, ctypes.sizeof(call), ctypes.addressof(call))
            if call.stop == AT_ENTRY:
                open_calls[thread] = is_change(call)
            elif call.stop == AT_EXIT:
                changes += open_calls.pop(thread, False)
        # A stop of the tracing itself is no signal of the program.
        if passed in (CALL_STOP, signal.SIGTRAP, signal.SIGSTOP):
            passed = 0
    return changes


def is_change(call):
    """Whether a call changes a file, standard output and standard error left out."""
    kind = CHANGES.get(call.number)
    if kind == 'write':
        return call.words[0] > 2
    if kind in ('open', 'plain open'):
        return bool(call.words[2 if kind == 'open' else 1] & (os.O_CREAT | os.O_TRUNC))
    return kind is not None
