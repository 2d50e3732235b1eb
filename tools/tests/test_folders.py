"""Tests of the built program's runs that open and save: several on the same folders, folders that are refused, and faults."""
import hashlib
import json
import os
import random
import shutil
import subprocess
import unittest
from collections import Counter

import folder
import opening
import script
from generated_runs import saved_text
from saved_runs import SIZE, SavedTest, change, path_in, put, read_members
from tally import outcomes

BLOCK = 4096
SEEDS = 16
# How often each outcome comes up at least in the runs that open.
LEAST = {'read ok': 300, 'write ok': 300, 'add ok': 50, 'add aborted': 50, 'mark fault': 80, 'mark failed': 15, 'revert ok': 30,
         'left, once it was rebuilt': 12, 'snapshot ok': 25, 'snapshot name used': 40, 'mark folded': 15, 'no clean shelf': 1}

FIRST = '''volume v 2M
replicas %d
save
now "first"
stream frames
  write 0 fill 61 12288
stream commands
  snapshot s
stream frames
  write 4096 fill 62 4096
  write 20480 "c"
'''
NEXT = '''volume v 2M
replicas %d
open
%sstream frames
  read 0 24576
'''
READ = 'read 0 24576 ok 61*4096,62*4096,61*4096,00*8192,63*1,00*4095'
HEAD = 'volume-head-001.img'
SNAPSHOT = 'volume-snap-s.img'


def without(name):
    """A folder of which a file is taken out."""
    return lambda room: put(room, name, None)


def holding(name, content):
    """A folder with a file of these bytes."""
    return lambda room: put(room, name, content)


def told(name, **values):
    """A folder in which these members of metadata are others."""
    return lambda room: change(room, name, **values)


def cut(name, length):
    """A folder in which a file is as long as that."""
    return lambda room: os.truncate(path_in(room, name), length)


# What is done to a folder that FIRST has saved, and why it is refused then.
REFUSED = [
    (lambda room: shutil.rmtree(path_in(room, '')), 'damaged volume.meta 0'),
    (without('volume.meta'), 'damaged volume.meta 0'),
    (holding('volume.meta', b''), 'damaged volume.meta 0'),
    (holding('volume.meta', b'[]'), 'damaged volume.meta 0'),
    (told('volume.meta', Head='volume-head-01.img'), 'damaged volume.meta 0'),
    (told('volume.meta', Head='volume-head-1000000.img'), 'damaged volume.meta 0'),
    (told('volume.meta', BackingFilePath='x'), 'damaged volume.meta 0'),
    (told('volume.meta', More='x' * (1 << 20)), 'damaged volume.meta 0'),
    (told('volume.meta', Dirty=True, Rebuilding=True), 'unclean Dirty'),
    (told('volume.meta', Rebuilding=True, Error='x'), 'unclean Rebuilding'),
    (told('volume.meta', Error='ERR', Size=1), 'unclean Error'),
    (told('volume.meta', Size=2 * SIZE), 'unclean Size'),
    (told('volume.meta', Head='volume-head-002.img'), 'damaged volume-head-002.img.meta 0'),
    (told('volume.meta', Parent=''), 'damaged %s.meta 0' % HEAD),
    (told(HEAD + '.meta', Removed=True), 'damaged %s.meta 0' % HEAD),
    (told(HEAD + '.meta', Created='\x7f'), 'damaged %s.meta 0' % HEAD),
    (holding(HEAD + '.map', b'1 1\n2 1\n'), 'damaged %s.map 4' % HEAD),
    (holding(HEAD + '.map', b'1 1\n512 1\n'), 'damaged %s.map 4' % HEAD),
    (holding(HEAD + '.map', b'1 1'), 'damaged %s.map 0' % HEAD),
    (without(HEAD + '.map'), 'damaged %s.map 0' % HEAD),
    (without(HEAD), 'damaged %s 0' % HEAD),
    (cut(HEAD, 4096), 'damaged %s 4096' % HEAD),
    (cut(HEAD, SIZE + 1), 'damaged %s %d' % (HEAD, SIZE + 1)),
    (without(SNAPSHOT + '.meta'), 'damaged %s.meta 0' % HEAD),
    (told(SNAPSHOT + '.meta', Name=HEAD), 'damaged %s.meta 0' % SNAPSHOT),
    (told(SNAPSHOT + '.meta', Parent=SNAPSHOT), 'damaged %s.meta 0' % SNAPSHOT),
    (told(SNAPSHOT + '.meta', Parent=HEAD), 'damaged %s.meta 0' % SNAPSHOT),
    (without(SNAPSHOT), 'damaged %s 0' % SNAPSHOT),
    (holding('volume-snap-sys-0.img.meta', b'{}'), 'damaged volume-snap-sys-0.img.meta 0'),
]

# What is done to the first of two folders, and how the second, which is clean as well, then differs from it.
DIFFERING = [
    (told(SNAPSHOT + '.meta', Removed=True), 'shape s'),
    (lambda room: rename_head(room, 7), 'shape head'),
    (holding(HEAD + '.map', b'1 1\n'), 'differs head 5'),
    (holding(SNAPSHOT + '.map', b'1 2\n'), 'differs s 0'),
]


def rename_head(room, number):
    """Gives the head of a folder another number."""
    name = 'volume-head-%03d.img' % number
    change(room, 'volume.meta', Head=name)
    change(room, HEAD + '.meta', Name=name)
    for ending in '', '.map', '.meta':
        os.rename(path_in(room, HEAD + ending), path_in(room, name + ending))


class Folders(SavedTest):
    def anew(self, replicas=1):
        """A room in which FIRST has saved its replicas."""
        shutil.rmtree(os.path.join(self.room, 'replicas'), ignore_errors=True)
        self.run_text(self.room, FIRST % replicas)

    def three_runs(self, seed, words):
        """Three runs on the same folders, judged from the plain disk on that those before have left; and the outcomes of those that open."""
        shutil.rmtree(os.path.join(self.room, 'replicas'), ignore_errors=True)
        chance = random.Random(seed)
        begun, pages, counts = opening.blank(chance.choice([2, 3, 4])), chance.choice([2, 3]), Counter()
        for number in range(3):
            if begun.note:
                given = script.make(NEXT % (len(begun.modes), 'save\n'))
                self.assertEqual(self.run_in(self.room, given, words), (9, '', begun.note + '\n'), begun.note)
                counts['no clean shelf'] += 1
                break
            report, begun = self.judge(self.room, saved_text(chance, number, begun.modes, pages), begun, words)
            counts.update(outcomes(report) if number else ())
        return counts

    def test_three_runs_read_as_one_plain_disk(self):
        for words in (['--workers', 'one'], ['--workers', 'each']):
            counts = Counter()
            for seed in range(SEEDS):
                with self.subTest(seed=seed, words=words):
                    counts.update(self.three_runs(seed, words))
            for outcome, count in LEAST.items():
                with self.subTest(outcome, words=words):
                    self.assertGreaterEqual(counts[outcome], count)

    def test_times_and_users_stay_with_their_layers(self):
        self.anew()
        self.run_text(self.room, 'volume v 2M\nopen\nsave\nnow "second"\nstream commands\n  snapshot t\n')
        self.run_text(self.room, 'volume v 2M\nreplicas 2\nopen\nsave\nnow "third"\nstream commands\n  add r1\n')
        for replica in 0, 1:
            for name, time, is_user in (('snap-s', 'first', True), ('snap-t', 'second', True), ('snap-sys-2', 'third', False),
                                        ('head-003', 'third', False)):
                meta = read_members(self.room, 'volume-%s.img.meta' % name, replica)
                self.assertEqual((meta['Created'], meta['UserCreated']), (time, is_user), (replica, name))

    def test_what_is_told_of_a_head_stays_with_it(self):
        self.anew()
        change(self.room, HEAD + '.meta', Created='of another program', UserCreated=True, Labels={'a': 'b'})
        self.run_text(self.room, 'volume v 2M\nopen\nsave\nnow "second"\nstream frames\n  write 0 "d"\n')
        meta = read_members(self.room, HEAD + '.meta')
        self.assertEqual((meta['Created'], meta['UserCreated'], meta['Labels']), ('of another program', True, {}))
        self.run_text(self.room, 'volume v 2M\nopen\nsave\nnow "third"\nstream commands\n  snapshot t\n')
        for name in 'volume-head-002.img.meta', 'volume-snap-t.img.meta':
            meta = read_members(self.room, name)
            self.assertEqual((meta['Created'], meta['UserCreated']), ('third', 'snap' in name), name)

    def test_a_folder_that_is_not_clean_is_refused(self):
        for number, (spoil, reason) in enumerate(REFUSED):
            with self.subTest(number=number, reason=reason):
                self.anew()
                spoil(self.room)
                note = 'no clean shelf r0 %s\n' % reason
                self.assertEqual(self.run_in(self.room, script.make(NEXT % (1, 'save\n'))), (9, '', note))
                self.assertEqual(opening.of_folders(os.path.join(self.room, 'replicas'), SIZE, 1).note + '\n', note)

    def test_the_lowest_clean_folder_is_the_disk(self):
        for number, (spoil, reason) in enumerate(REFUSED):
            with self.subTest(number=number, reason=reason):
                self.anew(2)
                spoil(self.room)
                begun = opening.of_folders(os.path.join(self.room, 'replicas'), SIZE, 2)
                report, left = self.judge(self.room, NEXT % (2, 'save\n'), begun)
                self.assertEqual([line.value for line in report.lines[:2]], ['ERR ' + reason, 'RW'])
                self.assertEqual(' '.join(report.entries[0].call) + ' ' + report.entries[0].answer, READ)
                self.assertEqual(left.reasons, ('unclean Error', None))

    def test_each_folder_has_its_reason(self):
        self.anew(3)
        change(self.room, 'volume.meta', 0, Dirty=True)
        put(self.room, HEAD + '.map', b'x', 1)
        change(self.room, 'volume.meta', 2, Size=4096)
        note = 'no clean shelf r0 unclean Dirty r1 damaged %s.map 0 r2 unclean Size r3 damaged volume.meta 0\n' % HEAD
        self.assertEqual(self.run_in(self.room, script.make(NEXT % (4, ''))), (9, '', note))

    def test_a_clean_folder_that_differs_is_not_read(self):
        for number, (spoil, reason) in enumerate(DIFFERING):
            with self.subTest(number=number, reason=reason):
                self.anew(2)
                spoil(self.room)
                begun = opening.of_folders(os.path.join(self.room, 'replicas'), SIZE, 2)
                report, _ = self.judge(self.room, NEXT % (2, ''), begun)
                self.assertEqual([line.value for line in report.lines[:2]], ['RW', 'ERR ' + reason])

    def test_names_of_the_disk_alone_are_used(self):
        self.anew(2)
        # The second folder has a layer more.
        second = path_in(self.room, '', 1)
        os.rename(second, self.room + '/kept')
        self.run_text(self.room, 'volume v 2M\nopen\nsave\nstream commands\n  snapshot t\n')
        os.rename(path_in(self.room, ''), second)
        os.rename(self.room + '/kept', path_in(self.room, ''))
        begun = opening.of_folders(os.path.join(self.room, 'replicas'), SIZE, 2)
        self.assertEqual(begun.lines, ['RW', 'ERR shape t'])
        text = 'volume v 2M\nreplicas 2\nopen\nstream commands\n  remove t\n  snapshot s\n  snapshot t\n  add r1\n'
        report, left = self.judge(self.room, text, begun)
        self.assertEqual([entry.refusal for entry in report.entries], ['no such snapshot', 'name used', '', ''])
        self.assertEqual(left.reasons, (None, None))

    def test_a_run_that_does_not_save_leaves_the_folders(self):
        self.anew()
        before = self.texts()
        self.run_text(self.room, 'volume v 2M\nopen\nstream commands\n  snapshot t\nstream frames\n  write 0 "e"\n')
        self.assertEqual(self.texts(), before)

    def texts(self):
        """What each file of the first folder holds."""
        names = os.listdir(path_in(self.room, ''))
        held = {}
        for name in names:
            with open(path_in(self.room, name), 'rb') as file:
                held[name] = hashlib.sha256(file.read()).digest()
        return held

    def test_other_files_stay(self):
        self.anew()
        put(self.room, 'revision.counter', b'7')
        put(self.room, 'volume-head-000.img', b'old')
        self.run_text(self.room, NEXT % (1, 'save\n'))
        names = os.listdir(path_in(self.room, ''))
        self.assertEqual(sorted(names), sorted(['revision.counter', 'volume.meta', *(image + ending for image in (HEAD, SNAPSHOT)
                                                                                     for ending in ('', '.map', '.meta'))]))

    def test_a_folder_that_cannot_be_opened_is_a_shelf_fault(self):
        self.anew(2)
        shutil.rmtree(path_in(self.room, ''))
        with open(os.path.join(self.room, 'replicas', 'r0'), 'wb'):
            pass
        self.assertEqual(self.run_in(self.room, script.make(NEXT % (2, 'save\n'))), (6, '', 'shelf fault\n'))
        self.assertIsInstance(folder.open_folder(path_in(self.room, '', 1), SIZE), folder.Saved)

    def test_a_folder_that_cannot_be_written_is_a_shelf_fault(self):
        with open(os.path.join(self.room, 'replicas'), 'wb'):
            pass
        code, printed, note = self.run_in(self.room, script.make(FIRST % 2))
        self.assertEqual((code, note), (6, 'shelf fault\n'))
        self.assertIn('\nmode r1 RW\n', printed)

    def test_behind_a_folder_that_fails_none_is_saved(self):
        self.anew(3)
        os.remove(path_in(self.room, 'volume.meta', 1))
        os.mkdir(path_in(self.room, 'volume.meta', 1))
        before = folder.open_folder(path_in(self.room, '', 2), SIZE)
        code, printed, note = self.run_in(self.room, script.make('volume v 2M\nreplicas 3\nsave\nstream frames\n  write 0 "f"\n'))
        self.assertEqual((code, note), (6, 'shelf fault\n'))
        self.assertIn('\nmode r2 RW\n', printed)
        self.assertEqual(folder.open_folder(path_in(self.room, '', 0), SIZE).blocks_of(None)[0], b'f'.ljust(BLOCK, b'\0'))
        self.assertEqual(folder.open_folder(path_in(self.room, '', 2), SIZE), before)

    @unittest.skipUnless(os.path.exists('/dev/full'), 'no full device here')
    def test_behind_a_write_fault_all_is_saved(self):
        with open('/dev/full', 'wb') as full:
            self.assertEqual(self.run_in(self.room, script.make(FIRST % 2), stdout=full), (5, '', 'write fault\n'))
        for replica in 0, 1:
            self.assertIsInstance(folder.open_folder(path_in(self.room, '', replica), SIZE), folder.Saved)

    @unittest.skipUnless(shutil.which('qemu-img'), 'there is no qemu-img here')
    def test_a_head_without_parent_is_a_raw_image(self):
        writes = [(0, b'g' * 4096), (40960, b'h' * 12288), (1 << 20, b'j' * 1040384), (SIZE - 4096, b'i' * 4096)]
        lines = ['  write %d fill %s %d' % (place, content[:1].hex(), len(content)) for place, content in writes]
        self.run_text(self.room, 'volume v 2M\nsave\nstream frames\n%s\n' % '\n'.join(lines))
        disk = bytearray(SIZE)
        for place, content in writes:
            disk[place:place + len(content)] = content
        image, copied = path_in(self.room, 'volume-head-000.img'), os.path.join(self.room, 'copied')
        subprocess.run(['qemu-img', 'convert', '-f', 'raw', '-O', 'raw', image, copied], check=True)
        with open(copied, 'rb') as file:
            self.assertEqual(hashlib.sha256(file.read()).digest(), hashlib.sha256(disk).digest())
        self.assertEqual(self.mapped(image), [(0, 1), (10, 3), (256, 254), (511, 1)])
        with open(image + '.map', encoding='ascii') as file:
            self.assertEqual([tuple(map(int, line.split())) for line in file], self.mapped(image))

    def mapped(self, image):
        """The runs of blocks that are there, as qemu-img tells them of an image."""
        told = subprocess.run(['qemu-img', 'map', '-f', 'raw', '--output=json', image], check=True, capture_output=True).stdout
        return [(run['start'] // BLOCK, run['length'] // BLOCK) for run in json.loads(told) if run['data']]


if __name__ == '__main__':
    unittest.main()
