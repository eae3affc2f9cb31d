"""Calls with arguments of every kind, here and in a process of their own, where a crash shows as a failure.

STORMHLAW_FUZZ_CALLS is how many.
"""

import os
import subprocess
import sys
import unittest

from tests import fuzzing
from tests.reports import HERE

CALLS = int(os.environ.get("STORMHLAW_FUZZ_CALLS", "20000"))


class Fuzz(unittest.TestCase):
    def test_here(self):
        # Enough of them get as far as the library.
        self.assertGreater(fuzzing.run(1, CALLS // 4), CALLS // 20)

    def test_in_a_process(self):
        command = [sys.executable, "-X", "faulthandler", "-m", "tests.fuzzing", "2", str(CALLS)]
        done = subprocess.run(command, cwd=HERE, capture_output=True, text=True)
        self.assertEqual(done.returncode, 0, done.stderr)
        self.assertRegex(done.stdout, r"^\d+ calls had arguments that fit\n$")


if __name__ == "__main__":
    unittest.main()
