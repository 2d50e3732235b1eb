"""Texts of scripts whose streams have to do with each other, made at random."""

PAGE = 1 << 21
# Where frames read and write: few places, so that ranges of different streams overlap, also over a block's and a page's end.
PLACES = (0, 1, 4000, 4095, 4096, 8192, PAGE - 4096, PAGE - 1)
LENGTHS = (1, 2, 97, 4095, 4096, 4097, 8192, 12288)
NAMES = ('a', 'b', 'c', 'd', 'e', 'f', 'g', 'h')


def run_text(random, streams=None, most_calls=12):
    """One text of so many streams, or of 2 to 16: of frames, and of commands that take, fail and rebuild."""
    streams = streams or random.choice([2, 2, 3, 4, 5, 6, 8, 12, 16])
    replicas, pages = random.choice([1, 2, 2, 3, 3, 4]), random.choice([1, 1, 2, 3])
    of_commands = set(random.sample(range(streams), max(1, streams // 3)))
    lines = ['volume v %dM' % (2 * pages), 'replicas %d' % replicas]
    pairs = [(worker, replica) for worker in range(streams) for replica in range(replicas)]
    for pair in random.sample(pairs, min(len(pairs), random.choice([0, 2, 4, 6]))):
        carries = sorted(random.sample(range(1, 12), random.randint(1, 3)))
        lines.append(' '.join(['fault worker %d replica %d carries' % pair, *map(str, carries)]))
    for stream in range(streams):
        if stream in of_commands:
            lines += ['stream %d commands' % stream, *('  ' + text for text in commands(random, replicas, most_calls))]
        else:
            lines += ['stream %d frames' % stream, *('  ' + text for text in frames(random, stream, pages, most_calls))]
    return '\n'.join(lines) + '\n'


def saved_text(random, number, modes, pages):
    """One text of a run that saves and, from the second on, opens what one has saved that ended with these modes."""
    kept = random.choice([replica for replica, mode in enumerate(modes) if mode == 'RW'])
    begin = ['open'] * (number > 0) + ['save', 'now "run %d"' % number]
    return rebuild_text(random, len(modes), pages, begin, kept, 0 if random.randrange(8) else 1)


def rebuild_text(random, replicas=None, pages=None, begin=(), kept=0, falls=0.2):
    """One text of four streams in which replicas fall and are rebuilt again and again, while others write all pages.

    Mostly no line to one replica fails, so that the others can be rebuilt from it; of each worker the one to it does so often.
    """
    replicas, pages = replicas or random.choice([2, 2, 3, 4]), pages or random.choice([2, 3, 4])
    others = [replica for replica in range(replicas) if replica != kept]
    lines = ['volume v %dM' % (2 * pages), 'replicas %d' % replicas, *begin]
    for worker in range(4):
        for replica in range(replicas) if random.random() < falls else others:
            carries = sorted(random.sample(range(1, 80), random.randint(1, 5)))
            lines.append(' '.join(['fault worker %d replica %d carries' % (worker, replica), *map(str, carries)]))
    for stream in 0, 2:
        lines += ['stream %d frames' % stream, *('  ' + text for text in frames(random, stream, pages, 60))]
        lines += ['stream %d commands' % (stream + 1), *('  ' + text for text in additions(random, replicas, others))]
    return '\n'.join(lines) + '\n'


def additions(random, replicas, others):
    """The lines of a stream of commands that rebuilds replicas, and has others fail and layers made and taken away between."""
    for name in random.sample(NAMES, len(NAMES)):
        make, revert = 'snapshot ' + name, 'revert ' + name
        yield from random.choice([['fail r%d' % random.choice(others)], [make], [revert], [make, revert],
                                  [make, 'remove ' + name, 'purge'], ['status']])
        yield from ('add r%d' % replica for replica in random.sample(range(replicas), random.randint(1, replicas)))


def backed_text(random):
    """One text of four streams: two write all pages, one takes snapshots away and rebuilds, and one takes snapshots and backs them up."""
    replicas, pages = random.choice([1, 2, 3]), random.choice([1, 2, 3, 4])
    lines = ['volume v %dM' % (2 * pages), 'replicas %d' % replicas, 'now "a run"']
    for replica in range(1, replicas):
        carries = sorted(random.sample(range(1, 60), random.randint(1, 4)))
        lines.append(' '.join(['fault worker 3 replica %d carries' % replica, *map(str, carries)]))
    for stream in 0, 1:
        lines += ['stream %d frames' % stream, *('  ' + text for text in frames(random, stream, pages, 60))]
    lines += ['stream 2 commands', *('  ' + text for text in additions(random, replicas, list(range(1, replicas)) or [0]) if text != 'fail r0')]
    return '\n'.join(lines + ['stream 3 commands', *('  ' + text for text in backups(random, replicas))]) + '\n'


def backups(random, replicas):
    """The lines of a stream of commands that backs snapshots up, mostly its own, and has replicas rebuilt between."""
    for number in range(random.randint(4, 8)):
        own, other = 'x%d' % number, random.choice([*NAMES, 'sys-0', 'sys-1', 'x%d' % random.randrange(8)])
        yield 'snapshot ' + own
        yield from random.choice([['backup b%d %s' % (number, own)], ['backup b%d %s' % (number, other)],
                                  ['backup b%d %s' % (number, own), 'backup c%d %s' % (number, other)],
                                  ['backup b%d %s' % (number, own), 'backup b%d %s' % (number, own)],
                                  ['backup b%d %s' % (number, own), 'remove ' + own, 'purge']])
        yield from random.choice([[], [], ['add r%d' % random.randrange(replicas)], ['revert ' + own]])


def frames(random, stream, pages, most_calls):
    """The lines of a stream of frames. Its number is in each byte that it writes, so that what a read gives tells who wrote."""
    for number in range(random.randint(min(4, most_calls), most_calls)):
        offset, length = random.choice(PLACES) + PAGE * random.randrange(pages), random.choice(LENGTHS)
        kind = random.random()
        if kind < 0.5:
            yield 'write %d fill %02x %d' % (offset, 16 * (stream + 1) + number % 16 & 255, length)
        elif kind < 0.9:
            yield 'read %d %d' % (offset, length)
        else:
            yield random.choice(['ping', 'read %d 2' % (pages * PAGE - 1), 'frame 4 0 1', 'read 0 1048577', 'write %d "no"' % -1])


def commands(random, replicas, most_calls):
    """The lines of a stream of commands: what is taken away was mostly taken before, and who fails is mostly rebuilt."""
    lines, snapshots = [], list(NAMES)
    random.shuffle(snapshots)
    while len(lines) < most_calls:
        name, other, replica = snapshots[0], snapshots[1], random.randrange(replicas)
        lines += random.choice([['snapshot ' + name], ['snapshot ' + name, 'remove ' + name, 'purge'],
                                ['snapshot ' + name, 'snapshot ' + other, 'remove ' + name, 'purge'],
                                ['snapshot ' + name, 'snapshot ' + other, 'revert ' + name, 'remove ' + other, 'purge'],
                                ['revert ' + name], ['purge', 'status'], ['add r%d' % replica], ['add r0', 'add r1'][:replicas],
                                ['fail r%d' % replica, 'add r%d' % replica], ['remove sys-%d' % random.randrange(4), 'purge']])
        snapshots = snapshots[1:] + snapshots[:1]
    return lines[:random.randint(most_calls // 2, most_calls)]
