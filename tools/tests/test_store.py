"""Tests of how a backup store is read. No program is run."""
import json
import os
import shutil
import tempfile
import unittest

import store
from store import PAGE, BackupCfg, NoCfg, Refused

ABC = 'backupstore/volumes/dd/af/abc/'
SUM = '0123456789abcdef' * 4
CFG = BackupCfg('abc', 'b', 's', 3 * PAGE, {0: SUM, 2: 'f' * 64}, '2026-01-02')
TEXT = ('{"Blocks":[{"BlockChecksum":"%s","Offset":0},{"BlockChecksum":"%s","Offset":4194304}],"CompressionMethod":"none",'
        '"CreatedTime":"2026-01-02","DiskSize":"6291456","Name":"b","Size":"4194304","SnapshotName":"s","VolumeName":"abc"}'
        % (SUM, 'f' * 64)).encode()
VOLUME_TEXT = b'{"CompressionMethod":"none","CreatedTime":"2026-01-02","LastBackupName":"b","Name":"abc","Size":"6291456"}'
BLANK = ('{"Blocks":[],"CompressionMethod":"none","CreatedTime":"","DiskSize":"2097152","Name":"b0","Size":"0","SnapshotName":"s",'
         '"VolumeName":"abc"}')
AWAY = object()


def block(offset=0, digits=SUM):
    """A listed block."""
    return {'BlockChecksum': digits, 'Offset': offset}


# Members in place of those of TEXT, and what is read in place of CFG.
LENIENT = [
    ({}, {}),
    ({'Blocks': AWAY}, {'blocks': {}}),
    ({'Blocks': None}, {'blocks': {}}),
    ({'Blocks': [block(2 * PAGE), block()]}, {'blocks': {0: SUM, 2: SUM}}),
    ({'Blocks': [{**block(), 'More': 1}]}, {'blocks': {0: SUM}}),
    ({'CreatedTime': AWAY}, {'created': ''}),
    ({'CreatedTime': 7}, {'created': ''}),
    ({'CreatedTime': 'x' * 41}, {'created': ''}),
    ({'Size': AWAY}, {}),
    ({'Size': []}, {}),
    ({'SnapshotName': ''}, {'snapshot': ''}),
    ({'SnapshotName': 'no name: \u00e9'}, {'snapshot': 'no name: \u00e9'}),
    ({'BackingImageName': 'x', 'Labels': {'a': 'b'}}, {}),
    ({'DiskSize': AWAY}, {'size': 4 * PAGE}),
    ({'DiskSize': '1073741824'}, {'size': 1 << 30}),
]

# Members in place of those of TEXT, and why they are none of a cfg.
REFUSED = [
    ({'Blocks': {}}, 'syntax'), ({'Blocks': ''}, 'syntax'), ({'Blocks': [[]]}, 'syntax'), ({'Blocks': [block(), block()]}, 'syntax'),
    ({'Blocks': [{'Offset': 0}]}, 'syntax'), ({'Blocks': [{'BlockChecksum': SUM}]}, 'syntax'),
    ({'Blocks': [block(None)]}, 'syntax'), ({'Blocks': [block('0')]}, 'syntax'), ({'Blocks': [block(-PAGE)]}, 'syntax'),
    ({'Blocks': [block(0.0)]}, 'syntax'), ({'Blocks': [block(True)]}, 'syntax'), ({'Blocks': [block(4096)]}, 'syntax'),
    ({'Blocks': [block(3 * PAGE)]}, 'syntax'), ({'Blocks': [block(1 << 64)]}, 'syntax'),
    ({'Blocks': [block(0, SUM[1:])]}, 'syntax'), ({'Blocks': [block(0, SUM.upper())]}, 'syntax'), ({'Blocks': [block(0, 7)]}, 'syntax'),
    ({'Name': 'c'}, 'syntax'), ({'Name': None}, 'syntax'), ({'VolumeName': 'ABC'}, 'syntax'), ({'VolumeName': ['abc']}, 'syntax'),
    ({'SnapshotName': None}, 'syntax'), ({'SnapshotName': 7}, 'syntax'),
    ({'DiskSize': None}, 'syntax'), ({'DiskSize': 3 * PAGE}, 'syntax'), ({'DiskSize': ''}, 'syntax'), ({'DiskSize': '0'}, 'syntax'),
    ({'DiskSize': '06291456'}, 'syntax'), ({'DiskSize': '+6291456'}, 'syntax'), ({'DiskSize': '6291456\n'}, 'syntax'),
    ({'DiskSize': '6291457'}, 'syntax'), ({'DiskSize': '1075838976'}, 'syntax'),
    # What is missing comes behind all of these, and in its order.
    ({'Name': AWAY, 'VolumeName': 'x'}, 'syntax'), ({'Name': AWAY, 'Blocks': [block(1)]}, 'syntax'),
    ({'Name': AWAY, 'VolumeName': AWAY, 'SnapshotName': AWAY}, 'missing Name'),
    ({'VolumeName': AWAY, 'SnapshotName': AWAY}, 'missing VolumeName'),
    ({'SnapshotName': AWAY, 'CompressionMethod': 'lz4'}, 'missing SnapshotName'),
    ({'CompressionMethod': AWAY}, 'compressed'), ({'CompressionMethod': None}, 'compressed'), ({'CompressionMethod': 'gzip'}, 'compressed'),
    ({'CompressionMethod': ''}, 'compressed'), ({'CompressionMethod': 'None'}, 'compressed'), ({'CompressionMethod': ['none']}, 'compressed'),
    ({'CompressionMethod': 'lz4', 'DiskSize': AWAY}, 'compressed'),
    ({'DiskSize': AWAY, 'Blocks': [block(1)]}, 'syntax'),
]


def changed(text, members):
    """A cfg with other members."""
    members = {**json.loads(text), **members}
    return json.dumps({name: value for name, value in members.items() if value is not AWAY}).encode()


class Cfgs(unittest.TestCase):
    def refusal(self, content, told=None):
        """Why bytes are no cfg of the backup."""
        with self.assertRaises(NoCfg, msg=content) as caught:
            store.read_backup(content, 'abc', 'b', told)
        return str(caught.exception)

    def test_what_is_written_is_read(self):
        self.assertEqual(store.spell_backup(CFG), TEXT)
        self.assertEqual(store.read_backup(TEXT, 'abc', 'b'), CFG)
        self.assertEqual(store.spell_volume(CFG), VOLUME_TEXT)
        self.assertEqual(store.read_size(VOLUME_TEXT), CFG.size)

    def test_the_document_shows_a_store(self):
        digits = store.checksum((b'a' * 4096).ljust(PAGE, b'\0'))
        cfg = BackupCfg('abc', 'b1', 's1', 2 * PAGE, {1: digits})
        with open(os.path.join(os.path.dirname(store.__file__), '..', 'docs', 'FORMATS.md'), encoding='utf-8') as file:
            lines = file.read().splitlines()
        for text in (store.spell_backup(cfg), store.spell_volume(cfg), b'refused damaged ' + store.block_name('abc', digits).encode()):
            self.assertIn('    ' + text.decode(), lines)

    def test_other_texts_are_read_too(self):
        for members, other in LENIENT:
            cfg = store.read_backup(changed(TEXT, members), 'abc', 'b', 4 * PAGE)
            self.assertEqual(cfg, CFG._replace(**other), members)

    def test_what_is_wrong_first_is_told(self):
        for members, why in REFUSED:
            for told in None, 3 * PAGE:
                self.assertEqual(self.refusal(changed(TEXT, members), told), why, members)
        for content in (b'', b'[]', b'null', b'{}}', TEXT[:-1], TEXT.replace(b'"s"', b'"\xff"'), TEXT.replace(b'0}', b'-0}')):
            self.assertEqual(self.refusal(content), 'syntax', content)

    def test_a_size_that_is_told_elsewhere_counts_where_none_is_there(self):
        content = changed(TEXT, {'DiskSize': AWAY})
        self.assertEqual(self.refusal(content), 'missing DiskSize')
        self.assertEqual(self.refusal(content, 2 * PAGE), 'syntax')
        self.assertEqual(store.read_backup(content, 'abc', 'b', 3 * PAGE), CFG)
        self.assertEqual(store.read_backup(TEXT, 'abc', 'b', PAGE), CFG)
        # Without a size no block lies past the end.
        self.assertEqual(self.refusal(changed(content, {'Blocks': [block(1 << 40)]})), 'missing DiskSize')

    def test_a_cfg_has_a_limit(self):
        most = TEXT + b' ' * (store.MOST_CFG - len(TEXT))
        self.assertEqual(store.read_backup(most, 'abc', 'b'), CFG)
        self.assertEqual(self.refusal(most + b' '), 'syntax')

    def test_the_size_of_a_volume(self):
        rows = [
            ({}, 3 * PAGE), ({'Size': PAGE}, PAGE), ({'Size': '2097152'}, PAGE), ({'BackingImageName': ''}, 3 * PAGE),
            ({'BackingImageName': 7}, 3 * PAGE), ({'Name': 'x', 'LastBackupName': 7, 'CompressionMethod': 'lz4', 'CreatedTime': None}, 3 * PAGE),
            ({'Size': AWAY}, 'missing Size'), ({'Size': AWAY, 'BackingImageName': 'x'}, 'missing Size'), ({'BackingImageName': 'x'}, 'backing'),
            ({'Size': None}, 'syntax'), ({'Size': 2097152.0}, 'syntax'), ({'Size': 0, 'BackingImageName': 'x'}, 'syntax'),
            ({'Size': PAGE + 512}, 'syntax'), ({'Size': '02097152'}, 'syntax'), ({'Size': 1025 << 20}, 'syntax'),
        ]
        for members, wanted in rows:
            content = changed(VOLUME_TEXT, members)
            if isinstance(wanted, int):
                self.assertEqual(store.read_size(content), wanted, members)
            else:
                with self.assertRaises(NoCfg, msg=members) as caught:
                    store.read_size(content)
                self.assertEqual(str(caught.exception), wanted, members)


class Stores(unittest.TestCase):
    def setUp(self):
        self.top = tempfile.mkdtemp()
        self.addCleanup(shutil.rmtree, self.top)
        self.store = store.Store(self.top)

    def refused(self, backup='b'):
        """What is refused of a backup."""
        with self.assertRaises(Refused) as caught:
            self.store.disk('abc', backup)
        return str(caught.exception)

    def test_objects_have_their_names(self):
        self.assertEqual(store.volume_name('abc'), ABC + 'volume.cfg')
        self.assertEqual(store.cfg_name('abc', 'b1'), ABC + 'backups/backup_b1.cfg')
        self.assertEqual(store.block_name('abc', SUM), ABC + 'blocks/01/23/%s.blk' % SUM)

    def test_a_backup_of_zeros_has_no_block(self):
        self.store.back_up('abc', 'b0', 's', bytes(PAGE))
        self.assertEqual(self.store.get(ABC + 'backups/backup_b0.cfg', PAGE).decode(), BLANK)
        self.assertEqual(os.listdir(self.store.path(ABC)).count('blocks'), 0)
        self.assertEqual((self.store.disk('abc', 'b0'), self.store.listed('abc')), (bytes(PAGE), b'backup b0 s 0\n'))

    def test_a_disk_comes_back(self):
        disk = bytes(PAGE) + b'a' * PAGE + bytes(PAGE) + b'b' * PAGE + b'a' * PAGE
        cfg = self.store.back_up('abc', 'b', 's', disk)
        self.assertEqual((sorted(cfg.blocks), len(set(cfg.blocks.values()))), ([1, 3, 4], 2))
        self.assertEqual(self.store.disk('abc', 'b'), disk)
        self.store.back_up('abc', 'c', 't', disk[PAGE:] + disk[:PAGE])
        self.assertEqual((self.store.disk('abc', 'b'), self.store.listed('abc')), (disk, b'backup b s 3\nbackup c t 3\n'))

    def test_the_first_block_that_is_bad_is_told(self):
        cfg = self.store.back_up('abc', 'b', 's', b'a' * PAGE + b'b' * PAGE)
        first, second = (store.block_name('abc', digits) for digits in cfg.blocks.values())
        self.store.put(second, None)
        self.assertEqual(self.refused(), 'refused missing ' + second)
        for content in (b'', b'a' * (PAGE - 1), b'a' * (PAGE + 1), b'a' * (PAGE - 1) + b'b'):
            self.store.put(first, content)
            self.assertEqual(self.refused(), 'refused damaged ' + first)
        self.assertEqual(self.store.listed('abc'), b'backup b s 2\n')

    def test_the_cfg_of_the_volume_is_read_where_it_is_needed(self):
        self.store.back_up('abc', 'b', 's', b'a' * PAGE)
        volume, backup = store.volume_name('abc'), store.cfg_name('abc', 'b')
        self.store.put(volume, None)
        self.assertEqual(self.store.disk('abc', 'b'), b'a' * PAGE)
        content = changed(self.store.get(backup, PAGE), {'DiskSize': AWAY})
        self.store.put(backup, content)
        self.assertEqual(self.refused(), 'refused missing ' + volume)
        for members, note in (({}, 'syntax'), ({'Size': PAGE, 'BackingImageName': 'x'}, 'backing')):
            self.store.put(volume, json.dumps(members).encode())
            self.assertEqual(self.refused(), 'refused %s %s' % (note, volume))
            self.store.put(backup, changed(content, {'CompressionMethod': 'lz4'}))
            self.assertEqual(self.refused(), 'refused compressed ' + backup)
            self.store.put(backup, content)
        self.store.put(volume, b'{"Size":"4194304"}')
        self.assertEqual(self.store.disk('abc', 'b'), b'a' * PAGE + bytes(PAGE))

    def test_backups_come_in_the_order_of_their_names(self):
        for name in ('b', 'a-b', 'a', 'B', '9', 'a.b'):
            self.store.back_up('abc', name, 's', bytes(PAGE))
        for name in ('backup_.cfg', 'backup_-a.cfg', 'backup_a.cfg.tmp', 'backup_%s.cfg' % ('n' * 65), 'volume.cfg', 'Backup_c.cfg'):
            self.store.put(ABC + 'backups/' + name, b'{')
        self.assertEqual(self.store.backups('abc'), ['9', 'B', 'a', 'a-b', 'a.b', 'b'])
        self.assertEqual(self.store.listed('other'), b'')


if __name__ == '__main__':
    unittest.main()
