"""Tests of the built program's words `restore` and `backups`: on stores that are whole, lenient or damaged, it does what a second
reading of the same files does."""
import json
import os
import random
import re
import shutil
import subprocess
import tempfile
import unittest
from collections import Counter

import store
from built_program import LAUNCHER, TOP, ProgramTest
from saved_runs import MEMORY
from store import PAGE, Refused
from test_store import AWAY, LENIENT, REFUSED, SUM, changed

SEEDS = 100
# How often each outcome comes up at least in generated stores.
LEAST = {'restored': 80, 'listed': 40, 'missing cfg': 5, 'missing volume.cfg': 2, 'missing block': 3, 'damaged block': 15, 'syntax cfg': 30,
         'syntax volume.cfg': 5, 'compressed cfg': 5, 'backing volume.cfg': 5}
A, B = b'a' * 4096 + bytes(PAGE - 4096), b'b' * PAGE
DISK = A + bytes(PAGE) + B
SUMS = [store.checksum(page) for page in (A, B)]
BLOCKS = [store.block_name('abc', digits) for digits in SUMS]
CFG, VOLUME = store.cfg_name('abc', 'b'), store.volume_name('abc')
# Members of the volume's cfg in place of those of the store, and how it is refused where it is needed.
VOLUMES = [
    ({}, None), ({'Size': 4 * PAGE}, None), ({'Name': 'x', 'CompressionMethod': 'lz4'}, None), ({'BackingImageName': ''}, None),
    ({'Size': AWAY}, 'syntax'), ({'Size': 4096}, 'syntax'), ({'BackingImageName': 'x'}, 'backing'),
    ({'BackingImageName': 'x', 'Size': AWAY}, 'syntax'), ({'BackingImageName': 'x', 'Size': '1'}, 'syntax'),
]


def with_own_blocks(members):
    """The members of a row of test_store, whose blocks are those of the store here."""
    text = json.dumps({name: value for name, value in members.items() if value is not AWAY})
    own = json.loads(text.replace(SUM, SUMS[0]).replace('f' * 64, SUMS[1]))
    return {name: own.get(name, AWAY) for name in members}


class Backups(ProgramTest):
    def setUp(self):
        self.room = tempfile.mkdtemp(dir=MEMORY if os.access(MEMORY, os.W_OK) else None)
        self.addCleanup(shutil.rmtree, self.room)
        self.store = store.Store(self.room)

    def anew(self):
        """An empty room with the backup of DISK."""
        shutil.rmtree(self.room)
        os.mkdir(self.room)
        return self.store.back_up('abc', 'b', 's', DISK)

    def change(self, name, members):
        """Changes members of a cfg."""
        self.store.put(name, changed(self.store.get(name, 2 * store.MOST_CFG), members))

    def run_in(self, *words, stdout=subprocess.PIPE):
        """The status of a run, what it printed, and its note."""
        ended = subprocess.run([LAUNCHER, *words], cwd=self.room, stdin=subprocess.DEVNULL, stdout=stdout, stderr=subprocess.PIPE,
                               timeout=60)
        return ended.returncode, ended.stdout, ended.stderr.decode()

    def compare(self, *words):
        """Runs the program, which has to end as the second reading does. What it printed, or its note where it refused an object."""
        word, *backup, volume = words
        try:
            read = self.store.disk(volume, *backup) if word == 'restore' else self.store.listed(volume)
            wanted = 0, read, ''
        except Refused as why:
            wanted = 10, b'', '%s\n' % why
        code, printed, note = self.run_in(*words)
        # A disk is too long to be shown.
        self.assertEqual((code, len(printed), note), (wanted[0], len(wanted[1]), wanted[2]), words)
        self.assertTrue(printed == wanted[1], words)
        return printed if code == 0 else note.rstrip('\n')

    def test_a_backup_is_restored_and_listed(self):
        self.anew()
        self.store.back_up('abc', 'zeros', 't', bytes(2 * PAGE))
        self.assertTrue(self.compare('restore', 'b', 'abc') == DISK)
        self.assertTrue(self.compare('restore', 'zeros', 'abc') == bytes(2 * PAGE))
        self.assertEqual(self.compare('backups', 'abc'), b'backup b s 2\nbackup zeros t 0\n')

    def test_a_store_is_left_as_it_is(self):
        self.anew()
        self.store.put(BLOCKS[1], b'damaged')
        before = self.files()
        for words in (('restore', 'b', 'abc'), ('restore', 'c', 'abc'), ('backups', 'abc'), ('backups', 'other')):
            self.compare(*words)
        self.assertEqual(self.files(), before)

    def files(self):
        """All files of the room, with what they hold."""
        found = {}
        for folder, _, names in os.walk(self.room):
            for name in names:
                with open(os.path.join(folder, name), 'rb') as file:
                    found[os.path.relpath(file.name, self.room)] = store.checksum(file.read())
        return found

    def test_where_there_is_no_backup(self):
        self.assertEqual(self.compare('backups', 'abc'), b'')
        self.assertEqual(self.compare('restore', 'b', 'abc'), 'refused missing ' + CFG)
        self.assertEqual(os.listdir(self.room), [])
        self.anew()
        self.assertEqual(self.compare('backups', 'ab'), b'')
        self.assertEqual(self.compare('restore', 'b9', 'abc'), 'refused missing ' + store.cfg_name('abc', 'b9'))
        self.assertEqual(self.compare('restore', 'b', 'ABC'), 'refused missing ' + store.cfg_name('ABC', 'b'))

    def test_blocks_are_looked_at_in_the_order_of_their_pages(self):
        self.anew()
        # The cfg may list them in another order.
        self.change(CFG, {'Blocks': [{'BlockChecksum': SUMS[1], 'Offset': 2 * PAGE}, {'BlockChecksum': SUMS[0], 'Offset': 0}]})
        for content, kind in ((None, 'missing'), (b'', 'damaged'), (B[1:], 'damaged'), (B + B, 'damaged'), (B[1:] + b'c', 'damaged')):
            self.store.put(BLOCKS[1], content)
            self.assertEqual(self.compare('restore', 'b', 'abc'), 'refused %s %s' % (kind, BLOCKS[1]))
        for place in (0, 4095, 4096, PAGE - 1):
            self.store.put(BLOCKS[0], A[:place] + b'x' + A[place + 1:])
            self.assertEqual(self.compare('restore', 'b', 'abc'), 'refused damaged ' + BLOCKS[0])
        self.assertEqual(self.compare('backups', 'abc'), b'backup b s 2\n')

    def test_a_block_may_be_listed_more_than_once(self):
        self.store.back_up('abc', 'b', 's', 3 * A + bytes(PAGE) + A)
        self.assertTrue(self.compare('restore', 'b', 'abc') == 3 * A + bytes(PAGE) + A)
        self.assertEqual(self.compare('backups', 'abc'), b'backup b s 4\n')

    def test_cfgs_in_other_texts_are_read(self):
        for number, (members, _) in enumerate(LENIENT):
            with self.subTest(number=number):
                self.anew()
                self.change(VOLUME, {'Size': 4 * PAGE})
                self.change(CFG, {'CreatedTime': '', **with_own_blocks(members)})
                listed = self.compare('backups', 'abc')
                self.assertTrue(listed.startswith(b'backup b '), members)
                # The largest disk has a test of its own.
                if members.get('DiskSize') in (None, AWAY):
                    self.assertIsInstance(self.compare('restore', 'b', 'abc'), bytes, members)

    def test_cfgs_are_refused_for_what_is_wrong_first(self):
        for number, (members, why) in enumerate(REFUSED):
            with self.subTest(number=number, why=why):
                self.anew()
                self.change(CFG, with_own_blocks(members))
                note = 'refused %s %s' % ('compressed' if why == 'compressed' else 'syntax', CFG)
                self.assertEqual(self.compare('restore', 'b', 'abc'), note, members)
                self.assertEqual(self.compare('backups', 'abc'), note, members)

    def test_texts_that_are_no_json(self):
        self.anew()
        text = self.store.get(CFG, store.MOST_CFG)
        rows = [b'', b'[]', b'{}', text[:-1], text + b'x', text.replace(b'"s"', b'"\xff"'), text.replace(b'"s"', b'"\\ud800"'),
                text.replace(b'"s"', b'"s","More":1e400'), text.replace(b'"s"', b'"s","More":' + b'[' * 127 + b']' * 127),
                text.replace(b':0}', b':-0}'), text.replace(b':0}', b':0.0}'), text + b' ' * (store.MOST_CFG + 1 - len(text))]
        for content in rows:
            self.store.put(CFG, content)
            self.assertEqual(self.compare('restore', 'b', 'abc'), 'refused syntax ' + CFG, content[:999])
            self.assertEqual(self.compare('backups', 'abc'), 'refused syntax ' + CFG, content[:999])
        for content in (text.replace(b'"s"', b'"x","More":%s,"SnapshotName":"\\u0073"' % (b'[' * 126 + b']' * 126)),
                        text + b' ' * (store.MOST_CFG - len(text))):
            self.store.put(CFG, content)
            self.assertTrue(self.compare('restore', 'b', 'abc') == DISK)
            self.assertEqual(self.compare('backups', 'abc'), b'backup b s 2\n')

    def test_the_cfg_of_the_volume_is_read_where_it_is_needed(self):
        for members, kind in VOLUMES:
            self.anew()
            self.change(VOLUME, members)
            self.assertTrue(self.compare('restore', 'b', 'abc') == DISK, members)
            self.change(CFG, {'DiskSize': AWAY})
            for words in (('restore', 'b', 'abc'), ('backups', 'abc')):
                came = what_came(words, self.compare(*words))
                self.assertEqual(came, '%s volume.cfg' % kind if kind else 'listed' if words == ('backups', 'abc') else 'restored', members)

    def test_the_cfg_of_the_volume_comes_between_the_cfg_and_the_blocks(self):
        self.anew()
        self.change(CFG, {'DiskSize': AWAY, 'CompressionMethod': 'lz4'})
        self.change(VOLUME, {'Size': 2 * PAGE, 'BackingImageName': 'x'})
        self.store.put(BLOCKS[0], b'')
        self.assertEqual(self.compare('restore', 'b', 'abc'), 'refused compressed ' + CFG)
        self.change(CFG, {'CompressionMethod': 'none'})
        self.assertEqual(self.compare('restore', 'b', 'abc'), 'refused backing ' + VOLUME)
        self.change(VOLUME, {'BackingImageName': ''})
        # The disk of that size ends before the second block.
        self.assertEqual(self.compare('restore', 'b', 'abc'), 'refused syntax ' + CFG)
        self.change(VOLUME, {'Size': '6291456'})
        self.assertEqual(self.compare('restore', 'b', 'abc'), 'refused damaged ' + BLOCKS[0])
        self.store.put(VOLUME, None)
        self.assertEqual(self.compare('restore', 'b', 'abc'), 'refused missing ' + VOLUME)

    def test_backups_come_in_the_order_of_their_names(self):
        names = ['b', 'a-b', 'a', 'B', '9', 'a.b', 'a_b', 'n' * 64]
        for number, name in enumerate(names):
            self.store.back_up('abc', name, 's%d' % number, bytes(PAGE))
        for name in ('backup_.cfg', 'backup_-a.cfg', 'backup_a.cfg.tmp', 'backup_%s.cfg' % ('n' * 65), 'x/backup_c.cfg', 'a.cfg'):
            self.store.put('%sbackups/%s' % (store.volume_folder('abc'), name), b'{')
        self.store.put(store.volume_folder('abc') + 'backup_d.cfg', b'{')
        lines = self.compare('backups', 'abc').decode().splitlines()
        self.assertEqual([line.split(' ')[1] for line in lines], sorted(names))
        # The first that is refused is told, and nothing is printed.
        for name, note in (('b', 'refused syntax'), ('a-b', 'refused compressed'), ('9', 'refused syntax')):
            self.change(store.cfg_name('abc', name), {'CompressionMethod': 'lz4'} if 'compressed' in note else {'Name': 'x'})
            self.assertEqual(self.compare('backups', 'abc'), '%s %s' % (note, store.cfg_name('abc', name)))

    def test_generated_stores(self):
        counts = Counter()
        for seed in range(SEEDS):
            with self.subTest(seed=seed):
                shutil.rmtree(self.room)
                os.mkdir(self.room)
                names = generate(random.Random(seed), self.store)
                for words in [('backups', 'v'), *(('restore', name, 'v') for name in names)]:
                    counts[what_came(words, self.compare(*words))] += 1
        for outcome, count in LEAST.items():
            with self.subTest(outcome):
                self.assertGreaterEqual(counts[outcome], count, counts)

    def test_the_largest_disk(self):
        self.anew()
        self.change(CFG, {'DiskSize': '1073741824', 'Blocks': [{'BlockChecksum': SUMS[1], 'Offset': (1 << 30) - PAGE}]})
        with subprocess.Popen([LAUNCHER, 'restore', 'b', 'abc'], cwd=self.room, stdout=subprocess.PIPE) as run:
            zeros = 0
            while zeros < (1 << 30) - PAGE and run.stdout.read(PAGE) == bytes(PAGE):
                zeros += PAGE
            self.assertTrue((zeros, run.stdout.read()) == ((1 << 30) - PAGE, B))
        self.assertEqual(run.returncode, 0)

    def test_a_store_of_512_blocks(self):
        blocks = {page: store.checksum(page_of(page)) for page in range(512)}
        for page, digits in blocks.items():
            name = store.block_name('abc', digits)
            self.store.put(name, b'%04d' % page)
            # The rest is a hole, which takes no room.
            os.truncate(self.store.path(name), PAGE)
        self.store.put(CFG, store.spell_backup(store.BackupCfg('abc', 'b', 's', 1 << 30, blocks)))
        self.assertEqual(self.run_in('backups', 'abc'), (0, b'backup b s 512\n', ''))
        with subprocess.Popen([LAUNCHER, 'restore', 'b', 'abc'], cwd=self.room, stdout=subprocess.PIPE) as run:
            good = sum(run.stdout.read(PAGE) == page_of(page) for page in range(512))
            self.assertEqual((good, run.stdout.read()), (512, b''))
        self.assertEqual(run.returncode, 0)

    def test_the_readme_shows_what_its_commands_print(self):
        with open(os.path.join(TOP, 'README.md'), encoding='utf-8') as file:
            text = file.read()
        commands = r'^    (\./longhorn (?:run --workers one|backups|restore) .*?) +# (.*)$'
        made, listed, restored = [found for found in re.findall(commands, text, re.MULTILINE) if 'saved' not in found[0]]
        words, _, given = made[0].partition(' < ')
        with open(os.path.join(TOP, given), 'rb') as file:
            subprocess.run([LAUNCHER, *words.split(' ')[1:]], cwd=self.room, stdin=file, stdout=subprocess.DEVNULL, check=True)
        self.assertEqual(re.findall('`(backup .*?)`', listed[1]), self.compare(*listed[0].split(' ')[1:]).decode().splitlines())
        disk = self.compare(*restored[0].partition(' >')[0].split(' ')[1:])
        self.assertIn('%d MiB' % (len(disk) >> 20), restored[1])

    def test_words_that_ask_for_nothing(self):
        self.anew()
        rows = ['restore', 'restore b', 'restore b abc x', 'restore .b abc', 'restore b _v', 'restore b ' + 'n' * 65, 'restore b ..',
                'restore b a/b', 'restore --help', 'restore -b abc', 'restore b abc --workers one', 'Restore b abc', 'backups',
                'backups abc x', 'backups \u00e9', 'backups -h', 'backup abc']
        rows = [['restore', '', 'abc'], ['restore', b'b\xff', 'abc'], ['backups', ''], ['backups', 'a b'], *(words.split(' ') for words in rows)]
        for words in rows:
            self.assertEqual(self.run_in(*words), (2, b'', 'usage\n'), words)

    def test_a_store_that_cannot_be_read_is_a_target_fault(self):
        self.anew()
        for name in (BLOCKS[1], VOLUME, CFG):
            os.remove(self.store.path(name))
            os.mkdir(self.store.path(name))
            self.change_size(name)
            self.assertEqual(self.run_in('restore', 'b', 'abc'), (7, b'', 'target fault\n'), name)
        shutil.rmtree(self.store.path('backupstore'))
        self.store.put('backupstore', b'')
        for words in (('restore', 'b', 'abc'), ('backups', 'abc')):
            self.assertEqual(self.run_in(*words), (7, b'', 'target fault\n'), words)

    def change_size(self, name):
        """Takes the size out of the backup's cfg, where it is there to be read, so that the volume's is needed."""
        if name == VOLUME:
            self.change(CFG, {'DiskSize': AWAY})

    @unittest.skipUnless(os.path.exists('/dev/full'), 'no full device here')
    def test_a_full_device_is_a_write_fault(self):
        self.anew()
        for words in (('restore', 'b', 'abc'), ('backups', 'abc')):
            with open('/dev/full', 'wb') as full:
                self.assertEqual(self.run_in(*words, stdout=full), (5, None, 'write fault\n'), words)

    def test_a_refusal_comes_before_a_write_fault(self):
        self.anew()
        self.store.put(BLOCKS[1], b'')
        with open(os.devnull, 'rb') as closed:
            self.assertEqual(self.run_in('restore', 'b', 'abc', stdout=closed), (10, None, 'refused damaged %s\n' % BLOCKS[1]))


def page_of(number):
    """A page that begins with its number, and has zeros behind."""
    return b'%04d' % number + bytes(PAGE - 4)


def what_came(words, printed):
    """What came of a run, in short."""
    if isinstance(printed, bytes):
        return 'restored' if words[0] == 'restore' else 'listed'
    _, kind, name = printed.split(' ')
    return '%s %s' % (kind, 'volume.cfg' if name.endswith('/volume.cfg') else 'block' if name.endswith('.blk') else 'cfg')


def generate(chance, target):
    """Fills a store with some backups of a volume, and changes some of it. The names that may be asked for."""
    names = chance.sample(['b', 'a', 'a-b', 'B.1'], chance.randint(1, 3))
    for name in names:
        disk = b''.join(chance.choice([bytes(PAGE), A, B, chance.randbytes(64) + A[64:]]) for _ in range(chance.randint(1, 4)))
        target.back_up('v', name, chance.choice(['s', 'sys-7', 'n' * 64]), disk, chance.choice(['', '2026']))
    cfgs = [store.cfg_name('v', name) for name in names]
    if chance.random() < 0.5:
        for name in cfgs:
            target.put(name, changed(target.get(name, PAGE), {'DiskSize': AWAY}))
        cfgs.append(store.volume_name('v'))
    for name in chance.sample(cfgs, chance.choice([0, 1, len(cfgs) - 1])):
        spoil_cfg(chance, target, name)
    if chance.random() < 0.5:
        spoil_block(chance, target)
    return names


def spoil_cfg(chance, target, name):
    """Changes a cfg, or takes it away."""
    text = target.get(name, PAGE)
    members = {
        'Blocks': [AWAY, None, {}, [{}], [{'BlockChecksum': SUMS[0], 'Offset': PAGE}] * chance.randint(1, 2)],
        'CompressionMethod': [AWAY, None, 'lz4'], 'DiskSize': [AWAY, None, PAGE, '2097152', '4194304', '4194305'],
        'Name': [AWAY, None, '', 'b'], 'VolumeName': [AWAY, 'x'], 'SnapshotName': [AWAY, '', 7],
        'Size': [AWAY, PAGE, '2097152', 7], 'BackingImageName': ['', 'x', 7], 'CreatedTime': [AWAY, 7],
    }
    how = chance.random()
    if how < 0.15:
        target.put(name, None)
    elif how < 0.3:
        place = chance.randrange(len(text))
        target.put(name, text[:place] + chance.choice([b'', b'0', b' ', b'"', b'\xff', b'{', text]) + text[place + 1:])
    else:
        told = ['Size', 'BackingImageName'] if name == store.volume_name('v') else sorted(members)
        for member in chance.sample(told, chance.randint(1, 2)):
            text = changed(text, {member: chance.choice(members[member])})
        target.put(name, text)


def spoil_block(chance, target):
    """Changes a block, or takes it away, where there is one."""
    found = sorted(os.path.join(folder, name) for folder, _, names in os.walk(target.top) for name in names if name.endswith('.blk'))
    if found:
        name = os.path.relpath(chance.choice(found), target.top)
        content, place = target.get(name, PAGE), chance.randrange(PAGE)
        target.put(name, chance.choice([None, content[:place], content + b'x', content[:place] + b'x' + content[place + 1:]]))


if __name__ == '__main__':
    unittest.main()
