"""What tests of the built program have in common."""
import os
import subprocess
import unittest

import script

TOP = os.path.dirname(os.path.dirname(os.path.abspath(script.__file__)))
# Another program of the same words may be named by this variable, and is tested in its place.
LAUNCHER = os.environ.get('LONGHORN_TESTED') or os.path.join(TOP, 'longhorn')
# The program that is built, by its own path, without the launcher before it.
PROGRAM = os.environ.get('LONGHORN_TESTED') or os.path.join(TOP, 'crates', 'volume_cli', 'out', 'volume_cli')


class ProgramTest(unittest.TestCase):
    """Tests of the built program: they are left out where it is not built, or older than its sources, if it need not be there."""
    must_be_built = False

    @classmethod
    def setUpClass(cls):
        # A program that is there ends with the code of a usage error.
        ended = subprocess.run([LAUNCHER], stdin=subprocess.DEVNULL, capture_output=True, text=True)
        if ended.returncode == 1:
            raise (AssertionError if cls.must_be_built else unittest.SkipTest)(ended.stderr.strip())
