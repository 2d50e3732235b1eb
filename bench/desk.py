#!/usr/bin/env python3
"""desk.py PROGRAM [REPEATS [BEFORE]]

Times turns at a desk, by the built program of the crate `desk_trial`, and beside it the same work in C under a mutex of the C
library, and under a lock of tickets that waits as the desk does. Each call is two turns: in the first it is begun, in the second
it is noted. One thread alone, two that want it all the time, and sixteen. Nanoseconds of the clock for each turn, of all turns of
a run together; by turns, medians with the least and the greatest. Beside them looks at how long the journal is: while a thread
has the state, and while none has. Then sixteen threads make a thousand calls each, a hundred times. The C program is compiled
by `cc`. With BEFORE, the program of `desk_trial` as it was once, which has its turns too, also what a turn takes of its time then:
the ratio in the same turn, and that of the least of all turns.
"""
import os
import statistics
import subprocess
import sys
import tempfile
import time

# How many calls each of so many threads makes.
CALLS = {1: 4_000_000, 2: 2_000_000, 16: 200_000}

# How many looks one thread takes.
LOOKS = 200_000_000

LOCKS = r'''
#define _GNU_SOURCE
#include <pthread.h>
#include <stdatomic.h>
#include <stdio.h>
#include <stdlib.h>
#include <string.h>
#include <time.h>
#include <unistd.h>
#include <linux/futex.h>
#include <sys/syscall.h>

typedef struct { unsigned long stream, value; } note;
static pthread_mutex_t mutex = PTHREAD_MUTEX_INITIALIZER;
static _Atomic unsigned long drawn, served;
static note *notes;
static unsigned long noted, room, begun[16], calls;
static int tickets;

static _Atomic unsigned long looking, asleep, woken;

static void enter(void) {
    if (!tickets) { pthread_mutex_lock(&mutex); return; }
    struct timespec pause = {0, 1000000};
    for (int looks = 0, waits = 0;;) {
        unsigned long ended = atomic_load(&served), seen = atomic_load(&drawn);
        if (seen == ended && atomic_compare_exchange_strong(&drawn, &seen, seen + 1)) {
            if (waits) atomic_fetch_sub(&looking, 1);
            return;
        }
        if (!waits) { waits = 1; atomic_fetch_add(&looking, 1); }
        if (looks < 4000) { looks++; continue; }
        looks = 0;
        atomic_fetch_add(&asleep, 1), atomic_fetch_sub(&looking, 1);
        syscall(SYS_futex, &served, FUTEX_WAIT_PRIVATE, (int)ended, &pause, 0, 0);
        atomic_fetch_add(&looking, 1), atomic_fetch_sub(&asleep, 1), atomic_store(&woken, 0);
    }
}

static void leave(void) {
    if (!tickets) { pthread_mutex_unlock(&mutex); return; }
    atomic_fetch_add(&served, 1);
    if (atomic_load(&asleep) && !atomic_load(&looking) && !atomic_exchange(&woken, 1))
        syscall(SYS_futex, &served, FUTEX_WAKE_PRIVATE, 1, 0, 0, 0);
}

static void *serve(void *given) {
    unsigned long stream = (unsigned long)given;
    for (unsigned long value = 0; value < calls; value++) {
        enter();
        begun[stream] = value + 1;
        leave();
        enter();
        if (noted == room) { room = room ? 2 * room : 4; notes = realloc(notes, room * sizeof(note)); }
        notes[noted++] = (note){stream, begun[stream] - 1};
        begun[stream] = 0;
        leave();
    }
    return 0;
}

int main(int count, char **words) {
    pthread_t threads[16];
    unsigned long streams = strtoul(words[2], 0, 10);
    tickets = !strcmp(words[1], "tickets");
    calls = strtoul(words[3], 0, 10);
    for (unsigned long i = 0; i < streams; i++) pthread_create(&threads[i], 0, serve, (void *)i);
    for (unsigned long i = 0; i < streams; i++) pthread_join(threads[i], 0);
    printf("%lu notes\n", noted);
    return 0;
}
'''


def compiled(folder):
    """The C program."""
    program = os.path.join(folder, 'locks')
    subprocess.run(['cc', '-O2', '-pthread', '-x', 'c', '-', '-o', program], input=LOCKS.encode(), check=True)
    return program


def seconds(words, threads, calls):
    """The seconds that a run takes, which has to note each call."""
    start = time.perf_counter()
    told = subprocess.run([*words, str(threads), str(calls)], stdout=subprocess.PIPE, check=True).stdout
    taken = time.perf_counter() - start
    assert told == b'%d notes\n' % (threads * calls), told
    return taken


def turn(words, threads):
    """The nanoseconds of a turn. A run is so long that its start does not count."""
    return seconds(words, threads, CALLS[threads]) * 1e9 / (threads * CALLS[threads] * 2)


def look(program, beside):
    """The nanoseconds of a look beside a thread that has the state, or waits."""
    start = time.perf_counter()
    told = subprocess.run([program, beside, str(LOOKS)], stdout=subprocess.PIPE, check=True).stdout
    taken = time.perf_counter() - start
    assert told == b'%d looks\n' % LOOKS, told
    return taken * 1e9 / LOOKS


def told(times):
    return '%6.0f (%.0f to %.0f)' % (statistics.median(times), min(times), max(times))


def compared(now, before):
    """How turns compare with those of before."""
    ratios = [one / other for one, other in zip(now, before)]
    return '%.3f (%.3f to %.3f), of the least %.3f' % (statistics.median(ratios), min(ratios), max(ratios), min(now) / min(before))


def main():
    program, repeats = sys.argv[1], int(sys.argv[2]) if len(sys.argv) > 2 else 7
    with tempfile.TemporaryDirectory() as folder:
        locks = compiled(folder)
        forms = {'desk': [program], **{'desk before': [path] for path in sys.argv[3:]}}
        forms |= {'mutex in C': [locks, 'mutex'], 'tickets in C': [locks, 'tickets']}
        for threads in CALLS:
            taken = {name: [] for name in forms}
            for number in range(repeats):
                for name in list(forms)[::1 if number % 2 else -1]:
                    taken[name].append(turn(forms[name], threads))
            for name in forms:
                print('%2d threads, %-12s ns a turn %s' % (threads, name, told(taken[name])), flush=True)
            if 'desk before' in taken:
                ratio = compared(taken['desk'], taken['desk before'])
                print('%2d threads, a turn takes of its time before %s' % (threads, ratio), flush=True)
    looks = {'hold': [], 'wait': []}
    for _ in range(repeats):
        for beside in looks:
            looks[beside].append(look(program, beside))
    for beside, times in looks.items():
        print('a look beside a thread that %ss: ns %.2f (%.2f to %.2f)' % (beside, statistics.median(times), min(times), max(times)))
    start = time.perf_counter()
    for _ in range(100):
        seconds([program], 16, 1000)
    print('16 threads with 1000 calls each, a hundred times: %.1f s' % (time.perf_counter() - start))


if __name__ == '__main__':
    main()
