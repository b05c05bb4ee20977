"""The programs and libraries of a release's machines, beside the program that make built: the machines whose compiler and emulator are
here, as test_build.py made them. With SLOW=1 also the release in roots of other systems (roots.py). In the environment: FILES names standard
files, of whose units random files are made, in place of the sample."""

import os
import re
import shutil
import subprocess
import sys
import tempfile
import unittest
from pathlib import Path

import roots
from libraries import check_library
from machines import MACHINES, emulator, script
from runner import PROGRAM, SAMPLE, TESTS, TOP, need, slow

TEXTS = 60  # random files
LOST = 3  # runs that may lose their messages under Wine, of some thousand
# A batch file that runs the loop of docs/USE.md, and calls the program by its other names, as users of RNXCMP have them: it goes on after
# each call.
LOOP = re.search(r"^    (for %%f .*)$", (TOP / "docs/USE.md").read_text(), re.M)[1]
BATCH = f"""@echo off
RNX2CRX a.24o
for %%f in (b.24o c.24o) do RNX2CRX -e 2 %%f
for %%f in (a b c) do CRX2RNX - %%f.24d > %%f.out
del *.24d
{LOOP}
for %%f in (a b c) do if not exist %%f.24d exit /b 9
"""


class Machine:
    """The tests of a machine whose program is made."""

    machine = None

    @classmethod
    def setUpClass(cls):
        need("rt")
        it = cls.machine
        if it.lacking():
            raise unittest.SkipTest(it.lacking())
        if not (it.built / it.program).exists():
            raise AssertionError("nothing was made for it")
        kept = tempfile.TemporaryDirectory()
        cls.addClassCleanup(kept.cleanup)
        cls.folder = Path(kept.name)
        cls.words = cls.enterClassContext(emulator(it))
        cls.program = script(cls.folder / "program", [*cls.words, it.built / it.program])
        cls.lost = cls.folder / "lost"

    def test_library(self):
        self.assertEqual(check_library(self.machine, self.machine.built / "library", self.words, PROGRAM), [])


class OfProgram:
    """Those of a program that no other machine has."""

    def assert_pass(self, *files):
        """Test files pass over the machine's program. What an emulator can't do isn't asked; under Wine some runs may lose their messages."""
        own = {"PROGRAM": str(self.program), "TEXTS": str(TEXTS), "FILES": os.environ.get("FILES") or str(SAMPLE)}
        own |= {"EMULATED": "1" if self.machine.emulator else "", "STRICT": ""}
        own |= {"PIECES": "0", "WINE_LOST": str(self.lost)} if self.machine.is_windows else {}
        words = [sys.executable, *(TESTS / name for name in ("runner.py", *files))]
        done = subprocess.run(words, env={**os.environ, **own}, capture_output=True, text=True, errors="replace")
        lines = [line for line in done.stdout.splitlines() if not line.endswith(" s)") or "FAILED" in line]
        self.assertEqual(done.returncode, 0, "\n".join([*lines[:60], done.stderr[-300:]]))
        self.assertLessEqual(self.lost.stat().st_size if self.lost.exists() else 0, LOST, "runs lost their messages")

    def test_arguments(self):
        self.assert_pass("test_arguments.py")

    def test_cases_and_random_files(self):
        self.assert_pass("test_cases.py", "test_writers.py")


class OfWindows:
    def test_names_in_a_batch_file(self):
        """The program under the names RNX2CRX.exe and CRX2RNX.exe, called by a batch file without `call`, also in a loop."""
        sample = SAMPLE.read_bytes()
        for known in ("rnxcmp", "RNX2CRX", "CRX2RNX"):
            shutil.copy(self.machine.built / self.machine.program, self.folder / f"{known}.exe")
        for letter in "abc":
            (self.folder / f"{letter}.24o").write_bytes(sample)
        (self.folder / "archive.bat").write_bytes(BATCH.replace("\n", "\r\n").encode())
        words = [*self.words, "cmd", "/d", "/c", "archive.bat"]
        run = subprocess.run(words, cwd=self.folder, stdin=subprocess.DEVNULL, capture_output=True, timeout=120)
        outputs = [path.read_bytes() if path.exists() else None for path in (self.folder / f"{letter}.out" for letter in "abc")]
        self.assertEqual((run.returncode, outputs == [sample] * 3), (0, True), run.stderr[-300:])


for it in MACHINES:
    kinds = (Machine, *([] if it.target else [OfProgram]), *([OfWindows] if it.is_windows else []), unittest.TestCase)
    globals()[it.name] = type(it.name, kinds, {"machine": it, "__module__": __name__})


@slow
class Roots(unittest.TestCase):
    def test_roots_of_other_systems(self):
        dist = TOP / "out/dist"
        if not any(dist.glob("*.zip")):
            self.skipTest("there is no release for all machines: make dist")
        if os.geteuid():
            self.skipTest("only root may make a root of another system")
        with tempfile.TemporaryDirectory(prefix="roots-") as name:
            for title, check in roots.checks(dist, TOP / "out/roots", Path(name)):
                with self.subTest(title):
                    wrong = check()
                    if isinstance(wrong, str):
                        self.skipTest(wrong)
                    self.assertEqual(wrong, [])
