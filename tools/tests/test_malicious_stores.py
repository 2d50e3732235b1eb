"""Tests of the built program on backup stores that are meant to harm: objects that are no files, links, sparse files of 2^40 bytes, and
cfgs of 1 MiB. Each run ends in time and in little memory, with its own status and note, and leaves what stood."""
import os
import shutil
import unittest

import script
import store
from bad_inputs import DIGITS, MEMBERS, BadInputTest, deep, standing
from spoilers import FOLDERS, NO_FILES, moved, no_rights
from store import MOST_CFG, PAGE
from test_backups import AWAY, changed
from test_malicious_folders import HUGE

DISK = b'a' * 4096 + bytes(PAGE - 4096)
CFG, VOLUME = store.cfg_name('abc', 'b'), store.volume_name('abc')
BLOCK = store.block_name('abc', store.checksum(DISK))
RESTORE, LIST = ['restore', 'b', 'abc'], ['backups', 'abc']
LISTED = (0, b'backup b s 1\n', b'')
FAULT = (7, b'', b'target fault\n')
# A run that backs the same page up, under another name.
MAKE = 'volume abc 2M\nstream frames\n  write 0 fill 61 4096\nstream commands\n  snapshot t\n  backup c t\n'
# Each object; the words that come to it; and what its backup lists then.
OBJECTS = [(CFG, RESTORE), (VOLUME, RESTORE), (VOLUME, LIST), (BLOCK, RESTORE)]
# What is put between the braces of a cfg that is good else, and whether it is read then; beside what is so of all objects.
CFG_MEMBERS = [
    (b',"DiskSize":"%s"' % DIGITS, False), (b',"DiskSize":"%s2097152"' % (b'0' * 10000), False), (b',"DiskSize":' + DIGITS, False),
    (b',"Blocks":[{"Offset":%s}]' % DIGITS, False), (b',"Blocks":[{"BlockChecksum":"%s","Offset":0}]' % (b'0' * 65), False),
    (b',"Blocks":[{"BlockChecksum":"%s","Offset":0}]' % (b'0' * 900000), False), (b',"Blocks":%s' % deep(b'[', b']', 126), False),
    (b',"Blocks":[%s]' % b','.join([b'{"BlockChecksum":"%s","Offset":0}' % (b'0' * 64)] * 10000), False),
    (b',"Blocks":[%s]' % b','.join(b'{"BlockChecksum":"%s","Offset":%d}' % (b'0' * 64, PAGE * page) for page in range(10000)), False),
    (b',"Name":"%s"' % (b'b' * 65), False), (b',"VolumeName":"%s"' % (b'abc' * 300000), False),
    (b',"CreatedTime":"%s"' % (b'x' * 900000), True), (b',"Size":0.%s' % DIGITS, True), (b',"Size":' + DIGITS, False),
]
VOLUME_MEMBERS = [
    (b',"Size":"%s"' % DIGITS, False), (b',"Size":' + DIGITS, False), (b',"Size":"%s2097152"' % (b'0' * 10000), False),
    (b',"Size":2097152e%s' % (b'0' * 10000), False), (b',"LastBackupName":"%s"' % (b'x' * 900000), True),
    (b',"Name":%s' % deep(b'[', b']', 126), True),
]
# Texts of a snapshot's name, and what the list shows of them.
SHOWN = [(rb'\"\\\/\b\f\t\u0041\u0000\u007f', b'"\\/\b\f\tA\0\x7f'), (rb'\ud834\udd1e\u00e9\uffff', '\U0001d11e\u00e9\uffff'.encode()),
         (b'', b''), (b' ' * 900000, b' ' * 900000), (rb'\u0061' * 150000, b'a' * 150000)]


class Stores(BadInputTest):
    def setUp(self):
        super().setUp()
        self.store = store.Store(self.room)

    def anew(self, needs_volume=False):
        """A room with the backup of one page alone, whose cfg may need that of its volume."""
        shutil.rmtree(self.room)
        os.mkdir(self.room)
        self.store.back_up('abc', 'b', 's', DISK)
        if needs_volume:
            self.store.put(CFG, changed(self.store.get(CFG, MOST_CFG), {'DiskSize': AWAY}))

    def spoiled(self, spoil, name):
        """A room in which an object is spoiled, and all that stands there then. The cfg of the volume is needed where it is that."""
        self.anew(name == VOLUME)
        spoil(self.store.path(name))
        return standing(self.room)

    def assert_left(self, wanted, words, before):
        """A run of these words ends so, and leaves all as it was."""
        self.assert_ends(wanted, b'', words)
        self.assertEqual(standing(self.room), before)

    def test_what_is_no_file_is_a_target_fault(self):
        for spoil in [*NO_FILES, *[no_rights] * (os.geteuid() != 0)]:
            for name, words in OBJECTS:
                with self.subTest(spoil=spoil, name=name, words=words):
                    self.assert_left(FAULT, words, self.spoiled(spoil, name))
        for spoil in NO_FILES:
            with self.subTest(spoil=spoil):
                # What is no file is not listed.
                self.assert_left((0, b'', b''), LIST, self.spoiled(spoil, CFG))

    def test_what_is_no_folder_is_a_target_fault(self):
        parts = CFG.split('/')
        for number in range(1, len(parts)):
            path = '/'.join(parts[:number])
            for spoil in (empty_file, moved, elsewhere):
                with self.subTest(path=path, spoil=spoil):
                    before = self.spoiled(spoil, path)
                    self.assert_left(FAULT, RESTORE, before)
                    # Behind what is no folder nothing is listed, but the store itself has to be one.
                    self.assert_left(FAULT if path == 'backupstore' else (0, b'', b''), LIST, before)

    def test_a_backup_beside_what_is_no_file(self):
        given = script.make(MAKE)
        for spoil in NO_FILES:
            for name in CFG, VOLUME, BLOCK:
                with self.subTest(spoil=spoil, name=name):
                    is_folder = spoil in FOLDERS
                    before = self.spoiled(spoil, name)
                    status, printed, note = self.measure(['run', '--workers', 'one'], given)
                    if name == BLOCK or is_folder and name == VOLUME:
                        self.assertEqual((status, note), (7, b'target fault\n'))
                        self.assertIn(b' backup c t error target fault\n', printed)
                    else:
                        self.assertEqual((status, note), (0, b''))
                        self.assertEqual(self.measure(['restore', 'c', 'abc'])[1:], (DISK, b''))
                    self.assertEqual(standing(self.room).get('kept'), before.get('kept'))

    def test_files_of_many_bytes(self):
        for name, words in OBJECTS + [(CFG, LIST)]:
            with self.subTest(name=name, words=words):
                before = self.spoiled(lambda path: os.truncate(path, HUGE), name)
                kind = 'damaged' if name == BLOCK else 'syntax'
                self.assert_left((10, b'', b'refused %s %s\n' % (kind.encode(), name.encode())), words, before)
        for name in CFG, VOLUME, BLOCK:
            self.spoiled(lambda path: os.truncate(path, HUGE), name)
            self.assertEqual(self.measure(['run', '--workers', 'one'], script.make(MAKE))[::2], (0, b''))
            self.assertEqual(self.measure(['restore', 'c', 'abc'])[1:], (DISK, b''))

    def test_cfgs_with_long_members(self):
        for name, more in ((CFG, CFG_MEMBERS), (VOLUME, VOLUME_MEMBERS)):
            self.anew(name == VOLUME)
            text = self.store.get(name, MOST_CFG)
            for end, is_read in MEMBERS + more:
                self.store.put(name, text[:-1] + end + b'}')
                before = standing(self.room)
                note = b'refused syntax %s\n' % name.encode()
                with self.subTest(name=name, end=end[:80]):
                    self.assert_left((0, DISK, b'') if is_read else (10, b'', note), RESTORE, before)
                    self.assert_left(LISTED if is_read else (10, b'', note), LIST, before)

    def test_the_cfg_of_a_volume_ends_at_its_limit(self):
        self.anew(needs_volume=True)
        text = self.store.get(VOLUME, MOST_CFG)
        for fill in b' ', b'\n':
            self.store.put(VOLUME, text + fill * (MOST_CFG - len(text)))
            self.assert_ends((0, DISK, b''), b'', RESTORE)
            self.store.put(VOLUME, text + fill * (MOST_CFG + 1 - len(text)))
            self.assert_ends((10, b'', b'refused syntax %s\n' % VOLUME.encode()), b'', RESTORE)

    def test_cfgs_of_a_mebibyte_that_list_all_they_can(self):
        for value in b'[]', b'0', b'""':
            self.anew()
            text = self.store.get(CFG, MOST_CFG)[:-1] + b',"x":['
            text += b','.join([value] * ((MOST_CFG - len(text) - 2) // (len(value) + 1))) + b']}'
            self.store.put(CFG, text + b' ' * (MOST_CFG - len(text)))
            self.assert_ends((0, DISK, b''), b'', RESTORE)
            self.assert_ends(LISTED, b'', LIST)
        # Each page of the largest disk, of which the last is not there.
        checksum = store.checksum(DISK)
        blocks = {page: checksum for page in range(511)}
        self.store.put(CFG, store.spell_backup(store.BackupCfg('abc', 'b', 's', 1 << 30, {**blocks, 511: '0' * 64})))
        self.assert_ends((10, b'', b'refused missing %s\n' % store.block_name('abc', '0' * 64).encode()), b'', RESTORE)
        self.assert_ends((0, b'backup b s 512\n', b''), b'', LIST)

    def test_snapshots_with_every_escape(self):
        self.anew()
        text = self.store.get(CFG, MOST_CFG)
        for name, shown in SHOWN:
            self.store.put(CFG, text.replace(b'"SnapshotName":"s"', b'"SnapshotName":"%s"' % name))
            self.assert_ends((0, b'backup b %s 1\n' % shown, b''), b'', LIST)
            self.assert_ends((0, DISK, b''), b'', RESTORE)

    def test_names_end_at_their_limit(self):
        self.anew()
        name = 'n' * 64
        self.store.back_up(name, name, name, DISK)
        self.assert_ends((0, DISK, b''), b'', ['restore', name, name])
        self.assert_ends((0, b'backup %s %s 1\n' % (name.encode(), name.encode()), b''), b'', ['backups', name])
        self.store.put(store.cfg_name(name, name + 'n'), b'{')
        self.assert_ends((0, b'backup %s %s 1\n' % (name.encode(), name.encode()), b''), b'', ['backups', name])

    def test_many_backups(self):
        self.anew()
        text = self.store.get(CFG, MOST_CFG)
        names = ['%05d' % number for number in range(4000)]
        for name in names:
            self.store.put(store.cfg_name('abc', name), text.replace(b'"Name":"b"', b'"Name":"%s"' % name.encode()))
        lines = b''.join(b'backup %s s 1\n' % name.encode() for name in [*names, 'b'])
        self.assert_ends((0, lines, b''), b'', LIST)


def empty_file(path):
    """A file in place of a folder."""
    shutil.rmtree(path)
    with open(path, 'wb'):
        pass


def elsewhere(path):
    """A link to nothing in place of a folder."""
    shutil.rmtree(path)
    os.symlink('nowhere', path)


if __name__ == '__main__':
    unittest.main()
