"""What tests of runs that open and save have in common: a room with the folders of replicas, and runs there."""
import json
import os
import shutil
import subprocess
import tempfile

import asked
import folder
import journal
import opening
import script
from built_program import LAUNCHER, ProgramTest
from report import read_report

SIZE = 1 << 21
MEMORY = '/dev/shm'


class SavedTest(ProgramTest):
    """Tests whose runs have a folder of their own, the room, below which replicas are saved."""

    def setUp(self):
        # In memory where that can be: what is flushed there takes no time.
        self.room = tempfile.mkdtemp(dir=MEMORY if os.access(MEMORY, os.W_OK) else None)
        self.addCleanup(shutil.rmtree, self.room)

    def run_in(self, room, given, words=('--workers', 'one'), stdout=subprocess.PIPE):
        """The status of a run, what it printed, and its note."""
        ended = subprocess.run([LAUNCHER, 'run', *words], input=given, cwd=room, stdout=stdout, stderr=subprocess.PIPE, timeout=60)
        return ended.returncode, (ended.stdout or b'').decode(), ended.stderr.decode()

    def run_text(self, room, text, words=('--workers', 'one')):
        """What a run prints that is done."""
        code, printed, note = self.run_in(room, script.make(text), words)
        self.assertEqual((code, note), (0, ''), text)
        return printed

    def judge(self, room, text, begun, words=('--workers', 'one')):
        """The report of a run that began so, and the opening that it leaves. All that it prints and saves is judged."""
        given = script.make(text)
        its = asked.read_script(given)
        report = read_report(self.run_text(room, text, words))
        self.assertEqual(journal.check(report, its, begun), '', text)
        left = opening.behind(report, begun)
        if its.head.save:
            self.assertEqual(self.odd_folders(room, its.head, report, left), [], text)
        return report, left

    def odd_folders(self, room, head, report, left):
        """What is odd in the folders that a run has saved, beside its report."""
        wrong = []
        found, _ = folder.open_all(os.path.join(room, 'replicas'), head.size, head.replicas)
        for replica, (saved, mode) in enumerate(zip(found, report.of_replicas('mode').values())):
            if mode != 'RW':
                told = saved.reason if isinstance(saved, folder.Refused) else 'clean'
                wrong += [] if told == 'unclean Error' else ['r%d failed, and its folder is %s' % (replica, told)]
            elif isinstance(saved, folder.Refused):
                wrong.append('r%d is left, and its folder is %s' % (replica, saved.reason))
            elif opening.of_saved(saved).volume != left.volume:
                wrong.append('the folder of r%d is not what the journal makes' % replica)
        return wrong


def path_in(room, name, replica=0):
    """The path of a file of a replica's folder."""
    return os.path.join(room, 'replicas', 'r%d' % replica, name)


def put(room, name, content, replica=0):
    """Puts a file into a replica's folder, or takes it out for None."""
    path = path_in(room, name, replica)
    if content is None:
        os.remove(path)
    else:
        with open(path, 'wb') as file:
            file.write(content)


def read_members(room, name, replica=0):
    """The members of a file of metadata."""
    with open(path_in(room, name, replica), 'rb') as file:
        return json.loads(file.read())


def change(room, name, replica=0, **values):
    """Changes some members of a file of metadata."""
    members = {**read_members(room, name, replica), **values}
    put(room, name, json.dumps(members, sort_keys=True, separators=(',', ':')).encode(), replica)
