#!/usr/bin/env python3
"""serve.py PROGRAM [REPEATS]

Times calls of 4 KiB to a built longhorn that serves sessions, and to the memory plugin of nbdkit, over TCP on this machine: reads
and writes at random, the same for all, on 64 MiB that were written before. One session, one call at a time, beside one connection of
nbdkit; and sixteen sessions with a call each, beside nbdkit at depth 16: by sixteen connections with a request each, which is the
same form, and by one with sixteen. One replica, and two. The client is one thread of plain Python, the same but for the headers; and
beside it one of plain C, compiled by `cc`, in which the servers show more. Sixteen calls are sent one after another, and then their
replies awaited. A session answers 4,096 calls, so each measure starts both servers anew. By turns, of which each begins with another
one: microseconds a call, as medians with the least and the greatest, and the ratio to nbdkit in the same turn. Then the most memory
of longhorn with sixteen sessions of 4,096 reads. What the two servers read is compared first.
"""
import contextlib
import os
import random
import shutil
import socket
import statistics
import struct
import subprocess
import sys
import tempfile
import time

sys.dont_write_bytecode = True
sys.path.insert(0, os.path.join(os.path.dirname(os.path.dirname(os.path.abspath(__file__))), 'tools'))

from nbd_client import NbdClient  # noqa: E402
from served_sessions import connect, free_port  # noqa: E402

MIB = 1 << 20
SIZE = 64 * MIB
BLOCK = 4096
SESSIONS = 16
READ, WRITE, CLOSE = 0, 1, 5
KINDS = {'reads': READ, 'writes': WRITE}
# A session that writes all before has made 64 calls, and of sixteen each 4. So many more are not counted, and so many are.
WARM = {1: 32, SESSIONS: 16 * SESSIONS}
CALLS = {1: 4000, SESSIONS: 1024 * SESSIONS}
# Whoever has not begun after so many seconds does not begin.
LIMIT = 30

CLIENT = r'''
#include <endian.h>
#include <stdint.h>
#include <stdio.h>
#include <stdlib.h>
#include <string.h>
#include <sys/socket.h>
#include <time.h>

enum { BLOCK = 4096, MOST = 1 << 20 };
static char sent[32 + BLOCK], got[32 + BLOCK];
static uint64_t offsets[MOST];

static void put(int link, size_t length) {
    for (size_t done = 0; done < length;) {
        ssize_t count = send(link, sent + done, length - done, MSG_NOSIGNAL);
        if (count <= 0) exit(1);
        done += count;
    }
}

static void take(int link, size_t length) {
    for (size_t done = 0; done < length;) {
        ssize_t count = recv(link, got + done, length - done, 0);
        if (count <= 0) exit(1);
        done += count;
    }
}

static void ask_frame(int link, uint32_t number, uint32_t kind, uint64_t offset) {
    uint16_t magic = 0x1b01;
    uint32_t size = BLOCK, length = kind ? BLOCK : 0;
    memcpy(sent, &magic, 2), memcpy(sent + 2, &number, 4), memcpy(sent + 6, &kind, 4);
    memcpy(sent + 10, &offset, 8), memcpy(sent + 18, &size, 4), memcpy(sent + 22, &length, 4);
    put(link, 26 + length);
}

static void ask_nbd(int link, uint32_t number, uint32_t kind, uint64_t offset) {
    uint32_t magic = htobe32(0x25609513), length = htobe32(BLOCK);
    uint64_t cookie = htobe64(number), place = htobe64(offset);
    uint16_t flags = 0, type = htobe16(kind);
    memcpy(sent, &magic, 4), memcpy(sent + 4, &flags, 2), memcpy(sent + 6, &type, 2), memcpy(sent + 8, &cookie, 8);
    memcpy(sent + 16, &place, 8), memcpy(sent + 24, &length, 4);
    put(link, 28 + (kind ? BLOCK : 0));
}

int main(int count, char **words) {
    int is_nbd = !strcmp(words[1], "nbd"), depth = atoi(words[3]), warm = atoi(words[4]), links = count - 5;
    uint32_t kind = atoi(words[2]);
    size_t header = is_nbd ? 16 : 26, length = header + (kind ? 0 : BLOCK);
    int calls = fread(offsets, 8, MOST, stdin), link[16];
    struct timespec start, end;
    for (int i = 0; i < links; i++) link[i] = atoi(words[5 + i]);
    memset(sent, 'x', sizeof sent);
    for (int call = 0; call < calls; call += depth) {
        if (call == warm) clock_gettime(CLOCK_MONOTONIC, &start);
        for (int i = 0; i < depth; i++) (is_nbd ? ask_nbd : ask_frame)(link[i % links], call + i, kind, offsets[call + i]);
        for (int i = 0; i < depth; i++) {
            take(link[i % links], length);
            if (is_nbd ? memcmp(got + 4, "\0\0\0\0", 4) : got[6] != 2) return 1;
        }
    }
    clock_gettime(CLOCK_MONOTONIC, &end);
    printf("%.0f\n", (end.tv_sec - start.tv_sec) * 1e9 + (end.tv_nsec - start.tv_nsec));
    return 0;
}
'''


class Frames:
    """Frames of longhorn: how a call is asked, and its reply heard."""
    name, head = 'frames', struct.Struct('<HIIqII')
    reply = head.size

    @classmethod
    def ask(cls, link, number, kind, offset, size, data):
        link.sendall(cls.head.pack(0x1b01, number, kind, offset, size, len(data)) + data)

    @staticmethod
    def hear(link, room):
        take(link, room)
        if room[6] != 2:
            sys.exit('longhorn refuses a call')


class Nbd:
    """Requests of NBD."""
    name, head, reply = 'nbd', struct.Struct('>IHHQQI'), 16

    @classmethod
    def ask(cls, link, number, kind, offset, size, data):
        link.sendall(cls.head.pack(0x25609513, 0, kind, number, offset, size) + data)

    @staticmethod
    def hear(link, room):
        take(link, room)
        if room[7]:
            sys.exit('nbdkit refuses a request')


def take(link, room):
    """Fills a room with what comes."""
    done = 0
    while done < len(room):
        count = link.recv_into(room[done:])
        if not count:
            sys.exit('a server has ended')
        done += count


class Longhorn:
    """A longhorn with so many replicas."""
    protocol = Frames

    def __init__(self, program, replicas):
        self.program, self.replicas = program, replicas

    def start(self, links, port):
        words = [self.program, 'serve', '127.0.0.1:%d' % port, str(SIZE), str(self.replicas), str(links)]
        return subprocess.Popen(words, stdin=subprocess.DEVNULL, stdout=subprocess.DEVNULL)

    def connect(self, port):
        return connect(('127.0.0.1', port), LIMIT)


class Nbdkit:
    """The memory plugin of nbdkit."""
    protocol = Nbd

    def start(self, links, port):
        return subprocess.Popen(['nbdkit', '-f', '-p', str(port), '-i', '127.0.0.1', 'memory', str(SIZE)], stdin=subprocess.DEVNULL)

    def connect(self, port):
        end = time.monotonic() + LIMIT
        while True:
            try:
                return NbdClient(port, LIMIT).go().link
            except ConnectionRefusedError:
                if time.monotonic() > end:
                    raise
                time.sleep(0.05)


@contextlib.contextmanager
def serving(server, links):
    """A server that is started, and so many connections to it. It is ended at once behind what is done with them."""
    port = free_port()
    run = server.start(links, port)
    opened = []
    try:
        for _ in range(links):
            link = server.connect(port)
            link.setsockopt(socket.IPPROTO_TCP, socket.TCP_NODELAY, 1)
            link.settimeout(None)
            opened.append(link)
        yield run, opened
    finally:
        for link in opened:
            link.close()
        if run.returncode is None:
            run.kill()
            run.wait()


def fill(protocol, links):
    """Writes all of the volume, each connection its share."""
    chance, room = random.Random(1), memoryview(bytearray(protocol.reply))
    for number in range(SIZE // MIB):
        link = links[number % len(links)]
        protocol.ask(link, number, WRITE, number * MIB, MIB, chance.randbytes(MIB))
        protocol.hear(link, room)


def offsets(count):
    """The places of the calls."""
    chance = random.Random(2)
    return [chance.randrange(SIZE // BLOCK) * BLOCK for _ in range(count)]


def by_python(protocol, links, kind, depth):
    """The nanoseconds of a call by Python."""
    data = b'x' * BLOCK if kind == WRITE else b''
    room = memoryview(bytearray(protocol.reply + (0 if kind == WRITE else BLOCK)))
    places, ask, hear = offsets(WARM[depth] + CALLS[depth]), protocol.ask, protocol.hear
    turns = [links[number % len(links)] for number in range(depth)]
    for call in range(0, len(places), depth):
        if call == WARM[depth]:
            start = time.perf_counter_ns()
        for number, link in enumerate(turns, call):
            ask(link, number, kind, places[number], BLOCK, data)
        for link in turns:
            hear(link, room)
    return (time.perf_counter_ns() - start) / CALLS[depth]


def compiled(folder):
    """The client in C: the nanoseconds of a call by it."""
    program = os.path.join(folder, 'client')
    subprocess.run(['cc', '-O2', '-x', 'c', '-', '-o', program], input=CLIENT.encode(), check=True)

    def by_c(protocol, links, kind, depth):
        places, handles = offsets(WARM[depth] + CALLS[depth]), [link.fileno() for link in links]
        words = [program, protocol.name, str(kind), str(depth), str(WARM[depth]), *map(str, handles)]
        ran = subprocess.run(words, input=struct.pack('=%dQ' % len(places), *places), stdout=subprocess.PIPE, pass_fds=handles, check=True)
        return int(ran.stdout) / CALLS[depth]
    return by_c


def measured(server, links, depth, kind, client):
    """The microseconds of a call to a server that was just started and written."""
    with serving(server, links) as (_, opened):
        fill(server.protocol, opened)
        return client(server.protocol, opened, kind, depth) / 1000


def read_back(server):
    """What a server reads of what was written, once some blocks were written anew."""
    protocol, found = server.protocol, []
    with serving(server, 1) as (_, links):
        fill(protocol, links)
        chance = random.Random(3)
        for kind in (WRITE, READ):
            room = memoryview(bytearray(protocol.reply + (0 if kind == WRITE else BLOCK)))
            for number, place in enumerate(offsets(500)):
                protocol.ask(links[0], number, kind, place, BLOCK, chance.randbytes(BLOCK) if kind == WRITE else b'')
                protocol.hear(links[0], room)
                found.append(bytes(room[protocol.reply:]))
    return found


def most_memory(program, is_filled):
    """The most memory of longhorn with sixteen sessions that make all their calls, in MiB."""
    server = Longhorn(program, 1)
    room = memoryview(bytearray(Frames.reply + BLOCK))
    with serving(server, SESSIONS) as (run, links):
        if is_filled:
            fill(Frames, links)
        left = 4096 - (SIZE // MIB // SESSIONS if is_filled else 0)
        places = offsets(left)
        for number in range(left):
            for link in links:
                Frames.ask(link, number, READ, places[number], BLOCK, b'')
            for link in links:
                Frames.hear(link, room)
        for link in links:
            Frames.ask(link, 0, CLOSE, 0, 0, b'')
        _, status, used = os.wait4(run.pid, 0)
        run.returncode = os.waitstatus_to_exitcode(status)
        if status:
            sys.exit('longhorn ended with status %d' % run.returncode)
        return used.ru_maxrss / 1024


def spread(values, form):
    return '%s (%s to %s)' % tuple(form % value for value in (statistics.median(values), min(values), max(values)))


def race(name, own, rivals, measure, repeats):
    """Prints what each takes, and how the own ones compare with each of their rivals in the same turn."""
    taken = {run: [] for run in (*own, *rivals)}
    order = list(taken)
    for turn in range(repeats):
        for run in order[turn % len(order):] + order[:turn % len(order)]:
            taken[run].append(measure(*(own.get(run) or rivals[run])))
    print(name)
    for run, times in taken.items():
        ratios = [spread([a / b for a, b in zip(times, taken[rival])], '%.2f') for rival in rivals if run in own]
        print(('  %-24s %-24s %s' % (run, spread(times, '%.1f'), '  '.join(ratios))).rstrip(), flush=True)


def main():
    program, repeats = os.path.abspath(sys.argv[1]), int(sys.argv[2]) if len(sys.argv) > 2 else 11
    if not shutil.which('nbdkit'):
        sys.exit('there is no nbdkit here')
    longhorn = {'one replica': Longhorn(program, 1), 'two replicas': Longhorn(program, 2)}
    nbdkit = Nbdkit()
    if not read_back(nbdkit) == read_back(longhorn['one replica']) == read_back(longhorn['two replicas']):
        sys.exit('the two do not read the same')
    shapes = [('one session', 1, {'nbdkit': (nbdkit, 1)}),
              ('sixteen sessions', SESSIONS, {'nbdkit, 16 connections': (nbdkit, SESSIONS), 'nbdkit, one connection': (nbdkit, 1)})]
    with tempfile.TemporaryDirectory() as folder:
        for client_name, client in (('Python', by_python), ('C', compiled(folder))):
            for shape, depth, rivals in shapes:
                for kind_name, kind in KINDS.items():
                    own = {name: (server, depth) for name, server in longhorn.items()}
                    race('%s, %s, a client in %s: us a call, and the ratio to %s' % (kind_name, shape, client_name, '; to '.join(rivals)),
                         own, rivals, lambda server, links: measured(server, links, depth, kind, client), repeats)
    for name, is_filled in (('zeros', False), ('random bytes', True)):
        print('sixteen sessions with 4096 calls each, reads of %s: at most %.0f MiB' % (name, most_memory(program, is_filled)), flush=True)


if __name__ == '__main__':
    main()
