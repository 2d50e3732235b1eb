"""Tests of the launcher `longhorn`, with a command that stands for `rt`, and a program that stands for volume_cli."""
import os
import shutil
import subprocess
import tempfile
import unittest

import script

TOP = os.path.dirname(os.path.dirname(os.path.abspath(script.__file__)))
RT = '''#!/bin/sh
[ "$*" = run ] || exit 1
cat <<END
logic /kit/logic.json: libraries=16 files=2756
rt: chose --jobs 2 for vol_units
fn vol_units::range::is_good: proved
so far: 8 of 72 functions checked
statements std: modules loaded=1 checked=0
crate vol_units: modules loaded=0 checked=40
logic=proved functions=1 native=nat
%s
END
%s
echo usage >&2
'''
BUILD = '''mkdir -p out && printf '#!/bin/sh\\necho "ran $*"\\n' > out/volume_cli && chmod +x out/volume_cli'''
BEGIN = ('longhorn: proving and building the program first: README.md says how long that takes\n'
         'longhorn: vol_units: 8 of 72 functions checked\nlonghorn: vol_units is proved\n')


class Launcher(unittest.TestCase):
    def launched(self, said, build, may_build=('',)):
        """The code, the output and the note of the last run of a copy, where `rt` says and builds that.

        It is run once for each value of LONGHORN_BUILD.
        """
        with tempfile.TemporaryDirectory() as folder:
            os.makedirs(os.path.join(folder, 'crates', 'volume_cli'))
            os.makedirs(os.path.join(folder, 'bin'))
            shutil.copy(os.path.join(TOP, 'longhorn'), folder)
            shutil.copy(os.path.join(TOP, 'crates.txt'), folder)
            rt = os.path.join(folder, 'bin', 'rt')
            with open(rt, 'w') as file:
                file.write(RT % (said, build))
            os.chmod(rt, 0o755)
            path = os.path.join(folder, 'bin') + os.pathsep + os.environ['PATH']
            for value in may_build:
                ended = subprocess.run([os.path.join(folder, 'longhorn'), 'run', 'x'],
                                       env=dict(os.environ, PATH=path, LONGHORN_BUILD=value),
                                       stdin=subprocess.DEVNULL, capture_output=True, text=True)
            return ended.returncode, ended.stdout, ended.stderr

    def test_it_names_each_crate_that_is_proved_and_then_runs(self):
        note = BEGIN + 'longhorn: volume_cli is proved\n'
        said = 'crate volume_cli: modules loaded=0 checked=40\nlogic=proved functions=1 native=nat'
        self.assertEqual(self.launched(said, BUILD), (0, 'ran run x\n', note))

    def test_what_is_built_is_only_run(self):
        for value in ('', 'no'):
            self.assertEqual(self.launched('', BUILD, ('', value)), (0, 'ran run x\n', ''))

    def test_it_builds_nothing_where_it_is_told_so(self):
        note = 'longhorn: the program is not built, or older than its sources: ./longhorn proves and builds it\n'
        self.assertEqual(self.launched('', BUILD, ('no',)), (1, '', note))

    def test_what_goes_wrong_is_shown(self):
        note = BEGIN + 'error: a goal is open\nlonghorn: the program could not be built\n'
        self.assertEqual(self.launched('error: a goal is open', ''), (1, '', note))


if __name__ == '__main__':
    unittest.main()
