"""Tests of the built program on replicas' folders that are meant to harm: files that are none, links, sparse files of 2^40 bytes, maps
and metadata that are long. Each run ends in time and in little memory, with its own status and note, and leaves what stood."""
import json
import os
import shutil
import unittest

import script
from bad_inputs import DIGITS, MEMBERS, SIZE, BadInputTest, standing
from folder import MOST_METADATA
from saved_runs import path_in, put, read_members
from spoilers import FOLDERS, NO_FILES, SOME_NO_FILES, moved, no_rights
from test_folders import FIRST, HEAD, NEXT, SNAPSHOT

HUGE = 1 << 40
FILES = ['volume.meta', *(image + ending for image in (HEAD, SNAPSHOT) for ending in ('.meta', '.map', ''))]
FAULT = (6, b'', b'shelf fault\n')
# Runs that only save: one whose head has another file than what stands there, and one whose files have the same names.
SAVE = 'volume v 2M\nsave\nstream commands\n  status\n'
SAVE_SAME = 'volume v 2M\nsave\nstream commands\n  snapshot s\n'
# Where a sparse file has no bytes it has zeros: the place is that of the first line that is none, or the length of an image.
HUGE_PLACES = {HEAD + '.map': 8, SNAPSHOT + '.map': 4, HEAD: HUGE, SNAPSHOT: HUGE}
# Lines of a map without end, each with a block that is not there before it; and maps that are none, with the place of the first bad line.
LINES = [b'%d 1\n' % (2 * number) for number in range(1000000)]
MAPS = [(b'0 1\n' * 1000000, 4), (b'0 1\n2 1\n' + b'3 1\n' * 1000000, 8), (b'0 1\n' + b'2' * 1000000, 4), (b'\n' * 1000000, 0),
        (b'0 ' + DIGITS + b'\n', 0), (DIGITS + b' 1\n', 0), (b'0 1\n' + b'0' * 1000000 + b'2 1\n', 4)]
# What is put between the braces of metadata that is good else, and whether it is read then; beside what is so of all objects.
PARENTS = [(b',"Parent":"volume-snap-%s.img"' % (b'n' * 65), False), (b',"Parent":"volume-head-%s.img"' % DIGITS, False)]
VOLUME_MEMBERS = [(b',"Size":' + DIGITS, False), (b',"Size":"%s"' % DIGITS, False), (b',"Size":2097152.%s' % (b'0' * 10000), False),
                  (b',"Size":"%s2097152"' % (b'0' * 10000), False), (b',"Head":"volume-head-%s.img"' % DIGITS, False),
                  (b',"BackingFilePath":"%s"' % (b'x' * 900000), False), (rb',"BackingFileName":"\u0000"', False)]
LAYER_MEMBERS = [(b',"Created":"%s"' % (b'x' * 41), False), (b',"Created":"%s"' % (rb'\u0041' * 40), True),
                 (rb',"Created":"\u0000"', False), (b',"Labels":[]', False),
                 (b',"Labels":{%s}' % b','.join(b'"%05d":{}' % number for number in range(80000)), True)]


class Folders(BadInputTest):
    def setUp(self):
        super().setUp()
        self.first, self.save = script.make(FIRST % 1), script.make(SAVE)
        self.next = script.make(NEXT % (1, 'save\n'))

    def anew(self):
        """A room in which one replica is saved, and nothing else stands."""
        shutil.rmtree(self.room)
        os.mkdir(self.room)
        self.assertEqual(self.measure(['run', '--workers', 'one'], self.first)[::2], (0, b''))

    def spoiled(self, spoil, name):
        """A room in which a file is spoiled, and all that stands there then."""
        self.anew()
        spoil(path_in(self.room, name))
        return standing(self.room)

    def assert_refused(self, wanted, before, given=None):
        """A run that opens ends so, and leaves all as it was."""
        self.assert_ends(wanted, given or self.next)
        self.assertEqual(standing(self.room), before)

    def assert_damaged(self, file, place, before):
        """A run that opens finds a file damaged."""
        self.assert_refused((9, b'', b'no clean shelf r0 damaged %s %d\n' % (file.encode(), place)), before)

    def test_what_is_no_file_is_a_shelf_fault(self):
        for spoil in NO_FILES:
            for name in FILES:
                with self.subTest(spoil=spoil, name=name):
                    before = self.spoiled(spoil, name)
                    if name == SNAPSHOT + '.meta':
                        # What is no file is not listed: there is no such layer, and the head stands on it.
                        self.assert_damaged(HEAD + '.meta', 0, before)
                    else:
                        self.assert_refused(FAULT, before)

    def test_what_is_no_file_is_replaced_by_a_save(self):
        for spoil in SOME_NO_FILES:
            for name in FILES:
                with self.subTest(spoil=spoil, name=name):
                    before = self.spoiled(spoil, name)
                    is_folder = spoil in FOLDERS
                    status, printed, note = self.measure(['run'], self.save)
                    self.assertIn(b'\nmode r0 RW\n', printed)
                    after = standing(self.room)
                    if is_folder and name == 'volume.meta':
                        self.assertEqual((status, note, after), (6, b'shelf fault\n', before))
                        continue
                    self.assertEqual((status, note), (0, b''))
                    # A folder stays, as nothing of the new replica has its name, and what a link led to stays.
                    own = os.path.join('replicas', 'r0', name)
                    for path, told in before.items():
                        if path == 'kept' or is_folder and (path + '/').startswith(own + '/'):
                            self.assertEqual(after.get(path), told, path)
                    self.assertEqual(self.measure(['run'], self.next)[::2], (0, b''))

    def test_a_folder_in_place_of_a_file_that_is_saved_is_a_shelf_fault(self):
        for spoil in SOME_NO_FILES:
            for name in FILES[1:]:
                with self.subTest(spoil=spoil, name=name):
                    before = self.spoiled(spoil, name)
                    status, printed, note = self.measure(['run'], script.make(SAVE_SAME))
                    self.assertIn(b'\nchain r0 head s\n', printed)
                    if spoil in FOLDERS:
                        self.assertEqual((status, note), (6, b'shelf fault\n'))
                        self.assert_ends((9, b'', b'no clean shelf r0 unclean Dirty\n'), self.next)
                    else:
                        self.assertEqual((status, note, standing(self.room).get('kept')), (0, b'', before.get('kept')))
                        self.assertEqual(self.measure(['run'], self.next)[::2], (0, b''))

    def test_a_file_in_place_of_a_folder(self):
        for path in 'replicas', 'replicas/r0':
            for end in b'', b'x' * 5000000:
                self.anew()
                shutil.rmtree(os.path.join(self.room, path))
                with open(os.path.join(self.room, path), 'wb') as file:
                    file.write(end)
                before = standing(self.room)
                self.assert_refused(FAULT, before)
                status, printed, note = self.measure(['run'], self.save)
                self.assertEqual((status, note, standing(self.room)), (6, b'shelf fault\n', before))
                self.assertIn(b'\nmode r0 RW\n', printed)

    def test_the_folder_of_a_replica_may_be_a_link(self):
        for path in 'replicas', 'replicas/r0':
            self.anew()
            moved(os.path.join(self.room, path))
            before = standing(self.room)
            self.assertEqual(self.measure(['run'], script.make(NEXT % (1, '')))[::2], (0, b''))
            self.assertEqual(standing(self.room), before)
            self.assertEqual(self.measure(['run'], self.save)[::2], (0, b''))
            self.assertEqual(os.readlink(os.path.join(self.room, path)), os.path.join(self.room, 'kept'))

    @unittest.skipIf(os.geteuid() == 0, 'the superuser may read and write files without rights')
    def test_what_has_no_rights_is_a_shelf_fault(self):
        for name in FILES:
            self.assert_refused(FAULT, self.spoiled(no_rights, name))
        for name in 'replicas', 'replicas/r0':
            path = os.path.join(self.room, name)
            for rights in (0, 0o400):
                self.anew()
                os.chmod(path, rights)
                try:
                    self.assert_ends(FAULT, self.next)
                    status, printed, note = self.measure(['run'], self.save)
                    self.assertEqual((status, note), (6, b'shelf fault\n'))
                    self.assertIn(b'\nmode r0 RW\n', printed)
                finally:
                    os.chmod(path, 0o700)

    def test_files_of_many_bytes(self):
        for name in FILES:
            with self.subTest(name):
                before = self.spoiled(lambda path: os.truncate(path, HUGE), name)
                self.assert_damaged(name, HUGE_PLACES.get(name, 0), before)
                # A save does not read what it takes away.
                self.assertEqual(self.measure(['run'], self.save)[::2], (0, b''))
                self.assertEqual(self.measure(['run'], self.next)[::2], (0, b''))
        for name in FILES[1:4]:
            # A map or an image from its first byte on.
            before = self.spoiled(lambda path: (os.truncate(path, 0), os.truncate(path, HUGE)), name)
            self.assert_damaged(name, HUGE if name == HEAD else 0, before)

    def test_maps_of_many_lines(self):
        for size in SIZE, 1 << 30:
            self.anew()
            self.grow(size)
            given = script.make((NEXT % (1, 'save\n')).replace('2M', '%dM' % (size >> 20)))
            # Each second block may be there.
            good = len(b''.join(LINES[:size // 8192]))
            for text, place in [(b''.join(LINES), good), (b''.join(LINES[:500000]) + b'x', good), *MAPS]:
                put(self.room, HEAD + '.map', text)
                note = b'no clean shelf r0 damaged %s.map %d\n' % (HEAD.encode(), place)
                self.assert_refused((9, b'', note), standing(self.room), given)

    def grow(self, size):
        """Gives the replica another size: its images get longer, and its maps stay."""
        for image in HEAD, SNAPSHOT:
            os.truncate(path_in(self.room, image), size)
        put(self.room, 'volume.meta', json.dumps({**read_members(self.room, 'volume.meta'), 'Size': size}).encode())

    def test_metadata_with_long_members(self):
        for name, more in (('volume.meta', VOLUME_MEMBERS), (HEAD + '.meta', LAYER_MEMBERS), (SNAPSHOT + '.meta', LAYER_MEMBERS)):
            self.anew()
            with open(path_in(self.room, name), 'rb') as file:
                text = file.read()
            for end, is_read in MEMBERS + PARENTS + more:
                put(self.room, name, text[:-1] + end + b'}')
                before = standing(self.room)
                if is_read:
                    self.assertEqual(self.measure(['run'], script.make(NEXT % (1, '')))[::2], (0, b''), end[:80])
                    self.assertEqual(standing(self.room), before)
                else:
                    self.assert_damaged(name, 0, before)

    def test_metadata_ends_at_its_limit(self):
        for name in FILES[:2] + FILES[4:5]:
            self.anew()
            with open(path_in(self.room, name), 'rb') as file:
                text = file.read()
            for fill in (b' ' * (MOST_METADATA - len(text)), b'\n' * (MOST_METADATA - len(text))):
                put(self.room, name, text + fill)
                self.assertEqual(self.measure(['run'], script.make(NEXT % (1, '')))[::2], (0, b''))
                put(self.room, name, text + fill + b' ')
                self.assert_damaged(name, 0, standing(self.room))

    def test_names_of_layers_end_at_their_limit(self):
        names = [('n' * 64, True), ('-' * 64, True), ('.' * 64, True), ('sys-' + '9' * 60, True)]
        names += [('n' * 65, False), ('n' * 63 + '~', False), ('\u00e9', False), ('', False)]
        for name, is_layer in names:
            with self.subTest(name):
                self.anew()
                image = 'volume-snap-%s.img' % name
                put(self.room, image + '.meta', b'{}')
                before = standing(self.room)
                if is_layer:
                    self.assert_damaged(image + '.meta', 0, before)
                else:
                    self.assertEqual(self.measure(['run'], script.make(NEXT % (1, '')))[::2], (0, b''))
                    self.assertEqual(standing(self.room), before)

    def test_many_files_of_other_names(self):
        self.anew()
        for number in range(20000):
            put(self.room, '%0200d' % number, b'')
        before = standing(self.room)
        self.assertEqual(self.measure(['run'], script.make(NEXT % (1, '')))[::2], (0, b''))
        self.assertEqual(standing(self.room), before)
        for number in range(5000):
            put(self.room, 'volume-snap-%064d.img.meta' % number, b'{}')
        # The head stands on none of these, and they come first.
        self.assert_damaged('volume-snap-%064d.img.meta' % 0, 0, standing(self.room))


if __name__ == '__main__':
    unittest.main()
