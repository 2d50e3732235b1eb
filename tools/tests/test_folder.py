"""Tests of how a replica's folder is read, and of the judge of runs that began with folders. No program is run."""
import json
import os
import shutil
import subprocess
import sys
import tempfile
import unittest

import asked
import folder
import journal
import opening
import script
from report import read_report

SIZE = 1 << 21
VOLUME = {'Dirty': False, 'Error': '', 'Head': 'volume-head-002.img', 'Parent': 'volume-snap-b.img', 'Rebuilding': False,
          'SectorSize': 512, 'Size': SIZE}
# Each layer of the folder: its image, the image on which it stands, its mark, and its run of blocks, each of one byte.
LAYERS = [('volume-head-002.img', 'volume-snap-b.img', False, {3: b'h'}), ('volume-snap-b.img', 'volume-snap-a.img', False, {1: b'b', 2: b'\0'}),
          ('volume-snap-a.img', '', True, {0: b'a', 1: b'a', 2: b'a'})]
TEXT = 'volume v 2M\nreplicas 2\nopen\nstream frames\n  read 0 16384\n  write 0 fill 77 4096\nstream commands\n  snapshot a\n  revert b\n'
# What a run of it prints on that folder alone, but for the digest.
REPORT = '''open r0 ERR damaged volume.meta 0
open r1 RW
0 0 0 0 read 0 16384 ok 61*4096,62*4096,00*4096,68*4096
1 1 0 1 write 0 4096 77*4096 ok
2 2 1 0 snapshot a error name used
3 3 1 1 revert b ok
reply 0 0 1 2 0 16384 61*4096,62*4096,00*4096,68*4096
reply 0 1 2 2 0 4096 -
mode r0 ERR
mode r1 RW
chain r1 head b a*
head r1 %s
'''


class Folder(unittest.TestCase):
    def setUp(self):
        self.top = tempfile.mkdtemp()
        self.addCleanup(shutil.rmtree, self.top)
        self.path = os.path.join(self.top, 'r1')
        os.mkdir(self.path)
        self.put('volume.meta', json.dumps(VOLUME).encode())
        for image, parent, marked, blocks in LAYERS:
            self.put(image + '.meta', json.dumps({'Name': image, 'Parent': parent, 'Removed': marked}).encode())
            self.put(image + '.map', b'%d %d\n' % (min(blocks), len(blocks)))
            self.put(image, b''.join(blocks.get(number, b'?') * 4096 for number in range(512)))

    def put(self, name, content):
        with open(os.path.join(self.path, name), 'wb') as file:
            file.write(content)

    def report(self):
        """What is printed on the folder."""
        begun = opening.of_folders(self.top, SIZE, 2)
        disk = journal.findings.PlainDisk(begun)
        disk.blocks = disk.copies['b']
        return REPORT % disk.digest(SIZE)

    def odd(self, printed):
        """What is odd in a report on the folder."""
        its = asked.read_script(script.make(TEXT))
        return journal.check(read_report(printed), its, opening.of_folders(self.top, SIZE, 2))

    def test_layers_read_by_their_maps_over_their_parents(self):
        saved = folder.open_folder(self.path, SIZE)
        self.assertEqual({name: {number: block[:1] for number, block in saved.blocks_of(name).items()} for name in ('a', 'b', None)},
                         {'a': {0: b'a', 1: b'a', 2: b'a'}, 'b': {0: b'a', 1: b'b'}, None: {0: b'a', 1: b'b', 3: b'h'}})
        self.assertEqual((saved.number, saved.head.parent, saved.layers['b'].parent, saved.layers['a'].parent), (2, 'b', 'a', None))

    def test_the_lowest_clean_folder_is_the_opening(self):
        begun = opening.of_folders(self.top, SIZE, 2)
        self.assertEqual((begun.lines, begun.marked, begun.used, sorted(begun.copies)),
                         (['ERR damaged volume.meta 0', 'RW'], {'a'}, {'a', 'b'}, ['b']))
        self.assertEqual(opening.of_folders(self.top, SIZE, 1).note, 'no clean shelf r0 damaged volume.meta 0')

    def test_two_differ_by_shape_before_bytes(self):
        one = folder.open_folder(self.path, SIZE)
        other = one._replace(layers={**one.layers, 'a': one.layers['a']._replace(marked=False)})
        self.assertEqual(folder.first_difference(one, other), 'shape a')
        other = one._replace(head=one.head._replace(blocks={}))
        self.assertEqual(folder.first_difference(one, other), 'differs head 3')
        # What a layer holds itself may differ where all read alike.
        other = one._replace(head=one.head._replace(blocks={**one.head.blocks, 0: b'a' * 4096}))
        self.assertIsNone(folder.first_difference(one, other))

    def test_what_a_run_prints_on_it_is_not_odd(self):
        self.assertEqual(self.odd(self.report()), '')

    def test_what_does_not_follow_from_it_is_odd(self):
        rows = [
            ('open r1 RW\n', '', 'tells the opening of r0, and r0, r1 were opened'),
            ('open r0 ERR damaged volume.meta 0\nopen r1 RW\n', '', 'tells the opening of none, and r0, r1 were opened'),
            ('damaged volume.meta 0', 'unclean Dirty', 'opens r0 as `ERR unclean Dirty`, and its folder is `ERR damaged volume.meta 0`'),
            ('ok 61*4096,62*4096,00*4096,68*4096', 'ok 61*8192,00*4096,68*4096', 'reads `61*8192,00*4096,68*4096`'),
            ('snapshot a error name used', 'snapshot a ok', 'was taken before'),
            ('revert b ok', 'revert b error no such snapshot', 'but there is a snapshot of the name'),
            ('chain r1 head b a*', 'chain r1 head b a', 'gives the chain'),
            ('head r1 ', 'head r1 0', 'is no line of a report'),
        ]
        for old, new, said in rows:
            printed = self.report().replace(old, new)
            self.assertIn(said, self.odd(printed), (old, new))

    def test_check_takes_the_folders_that_were_opened(self):
        paths = [os.path.join(self.top, name) for name in ('report', 'script')]
        for path, content in zip(paths, (self.report().replace('61*', '62*').encode(), script.make(TEXT))):
            with open(path, 'wb') as file:
                file.write(content)
        tool = [sys.executable, os.path.join(os.path.dirname(journal.__file__), 'journal.py'), 'check', '--script', paths[1]]
        ended = subprocess.run([*tool, '--opened', self.top, paths[0]], capture_output=True, text=True)
        self.assertIn('and a plain disk has `61*4096,62*4096', ended.stdout)
        self.assertEqual(subprocess.run([*tool, paths[0]], capture_output=True, text=True).stdout.count('plain disk'), 0)


if __name__ == '__main__':
    unittest.main()
