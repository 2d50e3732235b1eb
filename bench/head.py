#!/usr/bin/env python3
"""head.py PROGRAM [REPEATS]

Races a built longhorn on a volume of 1 GiB, of which one block was written, against OpenSSL's SHA-512 of as many bytes, by
turns, and prints the ratio; and beside it the time of a run on 2 MiB. Medians, with the least and the greatest ratio.
"""
import hashlib
import statistics
import struct
import subprocess
import sys
import time

GIB = 1 << 30
PAGE = 2 << 20


def script(size):
    write = struct.pack('<HIIqII', 0x1b01, 1, 1, size - 4096, 4096, 4096) + b'a' * 4096
    return b'{"volume":"v","size":%d,"replicas":1,"streams":[{"frames":%d}]}\n' % (size, len(write)) + write


def timed(program, size):
    start = time.perf_counter()
    subprocess.run([program, 'run'], input=script(size), stdout=subprocess.DEVNULL, check=True)
    return time.perf_counter() - start


def openssl():
    page = bytes(PAGE)
    start = time.perf_counter()
    digest = hashlib.sha512()
    for _ in range(GIB // PAGE):
        digest.update(page)
    digest.hexdigest()
    return time.perf_counter() - start


def main():
    program, repeats = sys.argv[1], int(sys.argv[2]) if len(sys.argv) > 2 else 5
    small = [timed(program, PAGE) for _ in range(repeats)]
    pairs = [(timed(program, GIB), openssl()) for _ in range(repeats)]
    ratios = sorted(run / other for run, other in pairs)
    print('2 MiB: %.4f s' % statistics.median(small))
    print('1 GiB: %.3f s' % statistics.median(run for run, _ in pairs))
    print('against OpenSSL, time: %.2f (%.2f to %.2f)' % (statistics.median(ratios), ratios[0], ratios[-1]))


main()
