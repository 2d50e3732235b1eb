#!/usr/bin/env python3
"""served.py PROGRAM [PEER] [REPEATS]

Times a replica that a built longhorn serves against plain Rust, which this script compiles by `rustc`. Of 64 MiB: 20,000 writes
of 4 KiB at random through a pipe, from the start of the program to its end, against a program that does the same; both have to
send the same replies. Then a lone call there and back, a Ping of 26 bytes, sent again once its reply came, against a program that
sends back as many bytes. The client of both is the plain program too. With a PEER, a fast plain Rust program of all words, a
generated load besides, `gen 7 15 1024`, of which both have to print the same. By turns: medians with the least and the greatest,
and the ratio of neighbours.
"""
import hashlib
import os
import random
import statistics
import struct
import subprocess
import sys
import tempfile
import time

SIZE = 64 << 20
BLOCK = 4096
WRITES = 20_000
PINGS = 20_000
SERVE = ['replica', str(SIZE)]
LOAD = ['gen', '7', '15', '1024']

PLAIN = r'''
use std::io::{Read, Write};
use std::process::{Command, Stdio};
use std::time::Instant;

const BLOCK: usize = 4096;
const PIECE: usize = 65536;

type Block = Box<[u8; BLOCK]>;

/// Reads and writes blocks of a volume, of which those that were never written are not there.
struct Volume {
    blocks: Vec<Option<Block>>,
}

impl Volume {
    fn good(&self, offset: i64, count: usize) -> bool {
        offset >= 0 && (offset as u64).checked_add(count as u64).is_some_and(|end| end <= (self.blocks.len() * BLOCK) as u64)
    }

    fn read(&self, offset: usize, count: usize, into: &mut Vec<u8>) {
        let mut done = 0;
        while done < count {
            let (block, start) = ((offset + done) / BLOCK, (offset + done) % BLOCK);
            let piece = (BLOCK - start).min(count - done);
            match &self.blocks[block] {
                Some(bytes) => into.extend_from_slice(&bytes[start..start + piece]),
                None => into.resize(into.len() + piece, 0),
            }
            done += piece;
        }
    }

    fn write(&mut self, offset: usize, bytes: &[u8]) {
        let mut done = 0;
        while done < bytes.len() {
            let (block, start) = ((offset + done) / BLOCK, (offset + done) % BLOCK);
            let piece = (BLOCK - start).min(bytes.len() - done);
            let to = self.blocks[block].get_or_insert_with(|| Box::new([0; BLOCK]));
            to[start..start + piece].copy_from_slice(&bytes[done..done + piece]);
            done += piece;
        }
    }
}

fn number(bytes: &[u8]) -> u32 {
    u32::from_le_bytes(bytes.try_into().unwrap())
}

/// The header of the reply to one with this header, and then its data.
fn reply(asked: &[u8], kind: u32, size: u32, len: u32, into: &mut Vec<u8>) {
    into.extend_from_slice(&asked[..6]);
    into.extend_from_slice(&kind.to_le_bytes());
    into.extend_from_slice(&asked[10..18]);
    into.extend_from_slice(&size.to_le_bytes());
    into.extend_from_slice(&len.to_le_bytes());
}

fn answer(volume: &mut Volume, head: &[u8], body: &[u8], into: &mut Vec<u8>) {
    let (kind, offset, size) = (number(&head[6..10]), i64::from_le_bytes(head[10..18].try_into().unwrap()), number(&head[18..22]));
    let refusal = match kind {
        0 if size > 1 << 20 => "too long",
        0 if !volume.good(offset, size as usize) => "out of range",
        1 if !volume.good(offset, body.len()) => "out of range",
        0 => {
            reply(head, 2, size, size, into);
            return volume.read(offset as usize, size as usize, into);
        }
        1 => {
            volume.write(offset as usize, body);
            return reply(head, 2, body.len() as u32, 0, into);
        }
        6 => return reply(head, 2, 0, 0, into),
        _ => "unsupported",
    };
    reply(head, 3, refusal.len() as u32, refusal.len() as u32, into);
    into.extend_from_slice(refusal.as_bytes());
}

/// Serves frames until a Close, the end, or what is no frame.
fn replica(size: usize) {
    let mut volume = Volume { blocks: (0..size / BLOCK).map(|_| None).collect() };
    let (mut input, mut output) = (std::io::stdin().lock(), std::io::stdout().lock());
    let (mut held, mut replies) = (Vec::with_capacity(2 * PIECE), Vec::new());
    let mut piece = vec![0; PIECE];
    loop {
        let mut at = 0;
        while held.len() - at >= 26 {
            let head = &held[at..at + 26];
            let len = number(&head[22..26]) as usize;
            assert!(head[..2] == [1, 0x1b] && len <= 1 << 20);
            if held.len() - at < 26 + len || number(&head[6..10]) == 5 {
                break;
            }
            answer(&mut volume, head, &held[at + 26..at + 26 + len], &mut replies);
            at += 26 + len;
            if replies.len() >= PIECE {
                output.write_all(&replies).unwrap();
                replies.clear();
            }
        }
        output.write_all(&replies).unwrap();
        output.flush().unwrap();
        replies.clear();
        held.drain(..at);
        match input.read(&mut piece).unwrap() {
            0 => return assert!(held.is_empty()),
            count => held.extend_from_slice(&piece[..count]),
        }
    }
}

/// Sends back what comes, so many bytes at a time.
fn echo(length: usize) {
    let (mut input, mut output) = (std::io::stdin().lock(), std::io::stdout().lock());
    let mut bytes = vec![0; length];
    while input.read_exact(&mut bytes).is_ok() {
        output.write_all(&bytes).unwrap();
        output.flush().unwrap();
    }
}

/// Sends a Ping to a program and waits for as many bytes, so often, and prints the nanoseconds of one.
fn calls(count: u32, words: &[String]) {
    let mut child = Command::new(&words[0]).args(&words[1..]).stdin(Stdio::piped()).stdout(Stdio::piped()).spawn().unwrap();
    let (mut to, mut from) = (child.stdin.take().unwrap(), child.stdout.take().unwrap());
    let mut ping = [0; 26];
    ping[..7].copy_from_slice(&[1, 0x1b, 0, 0, 0, 0, 6]);
    let mut start = Instant::now();
    for call in 0..count + 1000 {
        // The first ones are not counted.
        if call == 1000 {
            start = Instant::now();
        }
        ping[2..6].copy_from_slice(&call.to_le_bytes());
        to.write_all(&ping).unwrap();
        let mut got = [0; 26];
        from.read_exact(&mut got).unwrap();
        assert!(got[..6] == ping[..6]);
    }
    println!("{}", start.elapsed().as_nanos() / count as u128);
    drop(to);
    assert!(child.wait().unwrap().success());
}

/// Sends a file to a program through a pipe, and prints the nanoseconds from its start to its end.
fn feed(path: &str, words: &[String]) {
    let bytes = std::fs::read(path).unwrap();
    let start = Instant::now();
    let mut child = Command::new(&words[0]).args(&words[1..]).stdin(Stdio::piped()).stdout(Stdio::null()).spawn().unwrap();
    child.stdin.take().unwrap().write_all(&bytes).unwrap();
    assert!(child.wait().unwrap().success());
    println!("{}", start.elapsed().as_nanos());
}

fn main() {
    let words: Vec<String> = std::env::args().skip(1).collect();
    match words[0].as_str() {
        "replica" => replica(words[1].parse().unwrap()),
        "echo" => echo(words[1].parse().unwrap()),
        "calls" => calls(words[1].parse().unwrap(), &words[2..]),
        _ => feed(&words[1], &words[2..]),
    }
}
'''


def compiled(folder):
    """The plain program."""
    program = os.path.join(folder, 'plain')
    subprocess.run(['rustc', '--edition', '2021', '-O', '-', '-o', program], input=PLAIN.encode(), check=True)
    return program


def keep_writes(path):
    """Keeps the frames of writes of a block at random."""
    chance = random.Random(1)
    with open(path, 'wb') as file:
        for seq in range(1, WRITES + 1):
            place = chance.randrange(SIZE // BLOCK) * BLOCK
            file.write(struct.pack('<HIIqII', 0x1b01, seq, 1, place, BLOCK, BLOCK) + chance.randbytes(BLOCK))
    return path


def written(words, given=os.devnull):
    """A digest of what a run writes."""
    with open(given, 'rb') as source:
        return hashlib.sha256(subprocess.run(words, stdin=source, stdout=subprocess.PIPE, check=True).stdout).hexdigest()


def nanoseconds(words):
    """What the plain program prints of a run of another."""
    return int(subprocess.run(words, stdout=subprocess.PIPE, check=True).stdout)


def elapsed(words):
    """The nanoseconds that a run takes."""
    start = time.perf_counter_ns()
    subprocess.run(words, stdin=subprocess.DEVNULL, stdout=subprocess.DEVNULL, check=True)
    return time.perf_counter_ns() - start


def spread(values, form):
    return '%s (%s to %s)' % tuple(form % value for value in (statistics.median(values), min(values), max(values)))


def race(name, takes, both, unit, repeats):
    """Prints what each of two takes, by turns in which one and then the other goes first, and how they compare."""
    turns = []
    for number in range(repeats):
        turn = [None, None]
        for which in (0, 1)[::1 if number % 2 else -1]:
            turn[which] = takes(both[which]) / unit[0]
        turns.append(turn)
    own, other = zip(*turns)
    print('%s: %s %s, plain: %s; ratio %s' % (name, spread(own, '%.4g'), unit[1], spread(other, '%.4g'),
                                              spread([a / b for a, b in turns], '%.2f')), flush=True)


def main():
    words = sys.argv[1:]
    repeats = int(words.pop()) if len(words) > 1 and words[-1].isdecimal() else 15
    program, *peer = map(os.path.abspath, words)
    with tempfile.TemporaryDirectory(dir='/dev/shm' if os.access('/dev/shm', os.W_OK) else None) as folder:
        plain, path = compiled(folder), keep_writes(os.path.join(folder, 'writes'))
        if written([program, *SERVE], path) != written([plain, *SERVE], path):
            sys.exit('the two do not send the same replies')
        race('%d writes' % WRITES, lambda served: nanoseconds([plain, 'feed', path, *served]),
             [[program, *SERVE], [plain, *SERVE]], (1e6, 'ms'), repeats)
        race('a call', lambda served: nanoseconds([plain, 'calls', str(PINGS), *served]),
             [[program, *SERVE], [plain, 'echo', '26']], (1e3, 'us'), repeats)
        if peer:
            if written([program, *LOAD]) != written([*peer, *LOAD]):
                sys.exit('the two do not print the same summary')
            race(' '.join(LOAD), elapsed, [[program, *LOAD], [*peer, *LOAD]], (1e6, 'ms'), repeats)


if __name__ == '__main__':
    main()
