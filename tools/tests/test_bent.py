"""Tests of the built program on 2,000 bent inputs: scripts, frames of a served replica, replicas' folders and backup stores. Each ends
as a second reading of the same bytes says, and never otherwise than by its own statuses; what stood before a refusal stands behind it."""
import os
import random
import re
import resource
import shutil
import subprocess
import sys
import tempfile
import unittest
from collections import Counter

import asked
import bend
import journal
import opening
import script
import store
from built_program import PROGRAM
from frame_text import CLOSE, cut_frames
from generated_runs import backed_text, rebuild_text, run_text
from report import read_report
from saved_runs import SIZE, SavedTest
from store import PAGE, Refused
from test_served import frames
from test_store import AWAY, changed

SCRIPTS, SERVED, FOLDERS, STORES = 800, 200, 500, 500
# The most seconds of a processor that all runs of one kind may take, together a minute.
SECONDS = {'scripts': 25, 'served': 5, 'folders': 15, 'stores': 15}
# How often each outcome comes up at least.
LEAST = {
    'scripts': {'served': 120, 'rest': 120, 'member streams': 100, 'member lines': 70, 'json': 40, 'frame': 25, 'member size': 4, 'line': 1},
    'served': {'served': 30, 'cut off': 100},
    'folders': {'damaged and read': 200, 'clean and read': 50, 'damaged and none': 45, 'differs and read': 5, 'unclean and none': 1},
    'stores': {'restore': 90, 'backups': 60, 'syntax': 90, 'damaged': 60, 'missing': 10, 'compressed': 2},
}
NOTES = {
    0: b'', 3: rb'script \d+ (input|line|json|rest|calls|frame|member (volume|size|replicas|open|save|now|streams|lines))\n',
    9: rb'no clean shelf( r\d+ (unclean (Dirty|Rebuilding|Error|Size)|damaged \S+ \d+))+\n',
    10: rb'refused (missing|damaged|compressed|backing|syntax) \S+\n', 11: rb'frame \d+\n',
}
# What is bent of folders.
SAVED = '''volume v 2M
replicas 2
save
now "first"
stream frames
  write 0 fill 61 12288
stream commands
  snapshot s
stream frames
  write 4096 fill 62 4096
stream commands
  snapshot t
  remove t
stream frames
  write 20480 "c"
'''
OPENED = 'volume v 2M\nreplicas 2\nopen\n%sstream frames\n  read 0 24576\nstream commands\n  add r1\n  revert s\n  status\n'
DISK = b'a' * 4096 + bytes(PAGE - 4096)


def stamps(top):
    """All that stands below a folder, with when it was last written."""
    found = {}
    for folder, folders, names in os.walk(top):
        for name in folders + names:
            told = os.lstat(os.path.join(folder, name))
            found[os.path.join(folder, name)] = told.st_mode, told.st_ino, told.st_size, told.st_mtime_ns
    return found


class Bends(unittest.TestCase):
    def test_a_number_bends_in_one_way(self):
        given = script.make(SAVED)
        bent = [[bend.bend_script(random.Random(number), given) for number in range(300)] for _ in range(2)]
        self.assertEqual(bent[0], bent[1])
        self.assertGreater(len(set(bent[0]) - {given}), 150)

    def test_members_are_dropped_and_doubled_and_become_others(self):
        bent = {bend.bend_json(random.Random(number), b'{"a":1,"b":"x"}') for number in range(2000)}
        self.assertLessEqual({b'{"a":1}', b'{"b":"x"}', b'{"a":1,"b":"x","a":1}', b'{"a":null,"b":"x"}', b'{"a":1,"b":[]}', b'{"b":"x","a":1}',
                              b'{"a":"1","b":"x"}', b'{"b":1,"b":"x"}', b'{"a":2,"b":"x"}'}, bent)

    def test_bytes_are_turned_and_cut_and_doubled(self):
        bent = {bend.bend_bytes(random.Random(number), b'abc') for number in range(2000)}
        self.assertLessEqual({b'', b'a', b'ab', b'ac', b'abbc', b'bca', b'abcabc', b'`bc', b'abg'}, bent)

    def test_the_tool_bends_a_script_and_a_copy_of_a_folder(self):
        with tempfile.TemporaryDirectory() as room:
            top, given = os.path.join(room, 'top'), os.path.join(room, 'given')
            os.mkdir(top)
            for path in given, os.path.join(top, 'volume.meta'):
                with open(path, 'wb') as file:
                    file.write(b'{"a":1}\n')
            printed = [subprocess.run([sys.executable, bend.__file__, '7', given], check=True, capture_output=True).stdout for _ in range(2)]
            self.assertEqual(printed, [bend.bend_script(random.Random(7), b'{"a":1}\n')] * 2)
            into = os.path.join(room, 'into')
            told = subprocess.run([sys.executable, bend.__file__, '7', top, into], check=True, capture_output=True).stdout
            self.assertEqual((told, os.listdir(top)), (b'volume.meta\n', ['volume.meta']))
            self.assertNotEqual(subprocess.run([sys.executable, bend.__file__, '7', top], capture_output=True).returncode, 0)


class Bent(SavedTest):
    def run_bent(self, words, given, wanted):
        """The status, output and note of a run in the room, which is one of those wanted, and leaves all as it was where it is refused."""
        before = stamps(self.room)
        ended = subprocess.run([PROGRAM, *words], input=given, cwd=self.room, capture_output=True, timeout=60)
        code, note = ended.returncode, ended.stderr
        self.assertIn(code, wanted, note)
        self.assertTrue(re.fullmatch(NOTES[code], note), (code, note))
        if code not in (0, 11):
            self.assertEqual((ended.stdout, stamps(self.room)), (b'', before))
        return code, ended.stdout, note

    def walk(self, kind, count, bent):
        """So many runs of a kind, each from its own number; their outcomes come often enough, and they take little time."""
        counts, before = Counter(), resource.getrusage(resource.RUSAGE_CHILDREN)
        for number in range(count):
            with self.subTest(kind=kind, number=number):
                counts[bent(random.Random('%s %d' % (kind, number)))] += 1
        used = resource.getrusage(resource.RUSAGE_CHILDREN)
        self.assertLess(used.ru_utime + used.ru_stime - before.ru_utime - before.ru_stime, SECONDS[kind])
        for outcome, least in LEAST.get(kind, {}).items():
            with self.subTest(outcome):
                self.assertGreaterEqual(counts[outcome], least, counts)

    def clear(self):
        """Takes all out of the room."""
        for name in os.listdir(self.room):
            shutil.rmtree(os.path.join(self.room, name))

    def test_bent_scripts(self):
        self.walk('scripts', SCRIPTS, self.bent_script)

    def bent_script(self, chance):
        """Runs a bent script in an empty room. How it ended."""
        kind = chance.randrange(3)
        text = run_text(chance, chance.choice([1, 2, 3]), 6) if kind == 0 else rebuild_text(chance, 2, 1) if kind == 1 else backed_text(chance)
        given = script.make(text)
        for _ in range(chance.choice([1, 1, 1, 2])):
            given = bend.bend_script(chance, given)
        words = ['run', *chance.choice([[], ['--workers', 'one']])]
        code, printed, note = self.run_bent(words, given, (0, 3, 9))
        its = asked.read_script(given)
        self.assertEqual(its is not None, code != 3, (note, given[:2000]))
        if code == 3:
            place = int(note.split()[1])
            self.assertLessEqual(place, len(given))
        elif code == 0:
            self.assertEqual(journal.check(read_report(printed.decode()), its), '', given[:2000])
            self.clear()
        return ' '.join(note.decode().split()[2:]) if code == 3 else 'served' if code == 0 else 'no folder'

    def test_bent_frames_of_a_served_replica(self):
        self.walk('served', SERVED, self.bent_frames)

    def bent_frames(self, chance):
        """Serves bent frames. How it ended."""
        given, _ = frames(chance.randrange(1000), chance.randint(1, 20), 300)
        for _ in range(chance.choice([1, 1, 2])):
            given = bend.bend_bytes(chance, given)
        code, printed, note = self.run_bent(['replica', str(SIZE)], given, (0, 11))
        whole, left = cut_frames(given, len(given))
        closed = bool(whole) and whole[-1].kind == CLOSE
        self.assertEqual((code, note), (11, b'frame %d\n' % (len(given) - len(left))) if left and not closed else (0, b''))
        replies, rest = cut_frames(printed, len(printed))
        self.assertEqual((len(replies), [reply.seq for reply in replies], rest),
                         (len(whole) - closed, [each.seq for each in whole if each.kind != CLOSE], b''))
        return 'cut off' if code else 'served'

    def test_bent_folders(self):
        self.base = os.path.join(self.room, 'base')
        os.mkdir(self.base)
        self.run_text(self.base, SAVED)
        self.given = {save: script.make(OPENED % save) for save in ('', 'save\n')}
        self.room = os.path.join(self.room, 'room')
        os.mkdir(self.room)
        self.walk('folders', FOLDERS, self.bent_folder)

    def bent_folder(self, chance):
        """Opens bent folders. How the first of them was found."""
        shutil.copytree(os.path.join(self.base, 'replicas'), os.path.join(self.room, 'replicas'))
        bend.bend_folder(chance, os.path.join(self.room, 'replicas'))
        begun = opening.of_folders(os.path.join(self.room, 'replicas'), SIZE, 2)
        given = self.given[chance.choice(['', '', 'save\n'])]
        before = stamps(self.room)
        code, printed, note = self.run_bent(['run', '--workers', 'one'], given, (0, 9))
        self.assertEqual(note.decode(), begun.note + '\n' if begun.note else '')
        if code == 0:
            self.assertEqual(journal.check(read_report(printed.decode()), asked.read_script(given), begun), '')
            if b'"save"' not in given:
                self.assertEqual(stamps(self.room), before)
        self.clear()
        reason = next((reason for reason in begun.reasons if reason), 'clean')
        return ' '.join(reason.split(' ')[:1]) + (' and read' if code == 0 else ' and none')

    def test_bent_stores(self):
        self.store = store.Store(self.room)
        self.walk('stores', STORES, self.bent_store)

    def bent_store(self, chance):
        """Restores and lists a bent store. How it ended."""
        for name, page in (('b', DISK), ('c', b'b' * PAGE)):
            self.store.back_up('abc', name, 's', page)
            if chance.random() < 0.3:
                # The size is that of the volume's cfg.
                cfg = store.cfg_name('abc', name)
                self.store.put(cfg, changed(self.store.get(cfg, PAGE), {'DiskSize': AWAY}))
        bend.bend_folder(chance, self.room)
        words = chance.choice([['restore', 'b', 'abc'], ['restore', 'c', 'abc'], ['backups', 'abc']])
        try:
            wanted = 0, self.store.listed('abc') if words[0] == 'backups' else self.store.disk('abc', words[1]), b''
        except Refused as why:
            wanted = 10, b'', b'%s\n' % str(why).encode()
        before = stamps(self.room)
        code, printed, note = self.run_bent(words, b'', (0, 10))
        self.assertEqual((code, note, stamps(self.room)), (wanted[0], wanted[2], before))
        self.assertTrue(printed == wanted[1], words)
        self.clear()
        return note.decode().split(' ')[1] if note else words[0]


if __name__ == '__main__':
    unittest.main()
