"""What other tests use, made before they start: the library and the wheel of Python, and the programs of the machines whose compiler and
emulator are here. The two proofs of a machine, if there are none of these sources, take some three minutes."""

import subprocess
import sys
import unittest

from runner import TESTS, TOP, need

sys.path.insert(0, str(TESTS / "machines"))
from machines import MACHINES, make, take_over  # noqa: E402


class Build(unittest.TestCase):
    def setUp(self):
        need("rt", "make", "gcc")

    def test_python(self):
        done = subprocess.run(["make", "--no-print-directory", "python"], cwd=TOP, capture_output=True, text=True)
        self.assertEqual(done.returncode, 0, done.stdout[-1000:] + done.stderr[-1000:])

    def test_machines(self):
        there = [machine for machine in MACHINES if not machine.lacking()]
        take_over(there)
        self.assertEqual(make(there), [])
