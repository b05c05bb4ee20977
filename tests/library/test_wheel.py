"""The wheel of the Python package, as `make python` leaves it in out/python, and as pip installs it."""

import os
import re
import subprocess
import sys
import tempfile
import unittest
import zipfile
from pathlib import Path

from runner import LIBRARY, SAMPLE, TESTS, TOP, VERSION, need_library, wrong_run
from test_library import assert_example

STATIC = TOP / "out/machines/x86-64-v2/built/rnxcmp"  # the program that is in it
PIP = ("-m", "pip", "install", "--no-index", "--quiet", "--disable-pip-version-check")
SECONDS = 300


class Made(unittest.TestCase):
    @classmethod
    def setUpClass(cls):
        need_library()
        kept = tempfile.TemporaryDirectory()
        cls.addClassCleanup(kept.cleanup)
        cls.folder = Path(kept.name)
        cls.wheel = cls.made("one")

    @classmethod
    def made(cls, name):
        """The path of a wheel that is made anew, as `make python` makes it."""
        program = ["--program", STATIC] if STATIC.exists() else []
        command = [sys.executable, TOP / "python/build_wheel.py", LIBRARY, cls.folder / name, *program]
        return Path(subprocess.run(command, capture_output=True, text=True, timeout=SECONDS, check=True).stdout.strip())


class Wheel(Made):
    def test_the_same_bytes_twice(self):
        """And those that `make python` left."""
        left = [path.read_bytes() for path in (TOP / "out/python").glob("*.whl")]
        self.assertTrue([self.wheel.read_bytes(), self.made("two").read_bytes()] == left * 2, "the wheels differ")

    def test_licence_and_readme(self):
        """The wheel names its licence, and has the texts of it, and README without links to files that an index doesn't have."""
        with zipfile.ZipFile(self.wheel) as wheel:
            names = {name.partition(".dist-info/")[2]: wheel.read(name) for name in wheel.namelist()}
        fields, readme = names["METADATA"].decode().split("\n\n", 1)
        self.assertIn("\nLicense-Expression: MIT OR Apache-2.0\n", fields)
        files = re.findall("^License-File: (.*)$", fields, re.M)
        self.assertLessEqual({"LICENSE-MIT", "LICENSE-APACHE"}, {*files})
        for name in files:
            self.assertEqual(names.get(f"licenses/{name}"), (TOP / name).read_bytes())
        self.assertEqual(re.findall(r"\]\((?!https?:)", readme), [])
        words = (re.findall(r"[\w`]+", re.sub(r"\]\([^)]*\)", "", text)) for text in (readme, (TOP / "README.md").read_text()))
        self.assertEqual(*words)


class Installed(Made):
    """In a fresh environment, without a network."""

    @classmethod
    def setUpClass(cls):
        super().setUpClass()
        cls.python = cls.folder / "environment/bin/python"
        if wrong_run([sys.executable, "-m", "venv", cls.python.parents[1]]):
            raise unittest.SkipTest("there is no venv with pip")
        subprocess.run([cls.python, *PIP, cls.wheel], check=True, timeout=SECONDS)

    def test_calls(self):
        """test_python.py over the package as it is installed."""
        environment = {name: value for name, value in os.environ.items() if name != "RNXCMP_LIBRARY"}
        environment |= {"INSTALLED": "1", "PYTHONPATH": os.pathsep.join(map(str, (Path(__file__).parent, TESTS))), "PYTHONDONTWRITEBYTECODE": "1"}
        self.assertEqual(wrong_run([self.python, "-m", "unittest", "-q", "test_python"], SECONDS, env=environment), [])

    def test_from_sources(self):
        """`pip install ./python`, and the package as a command: that of the wheel and that of the sources."""
        target = self.folder / "from_sources"
        self.assertEqual(wrong_run([self.python, *PIP, "--target", target, TOP / "python"]), [])
        for words, folder in ((["-I"], self.folder), ([], target)):
            done = subprocess.run([self.python, *words, "-m", "rnxcmp", "--version"], cwd=folder, capture_output=True, text=True, timeout=SECONDS)
            self.assertEqual((done.returncode, done.stdout, done.stderr), (0, f"rnxcmp-file {VERSION}\n", ""))
        own = {**os.environ, "RNXCMP_LIBRARY": "/none"}
        done = subprocess.run([self.python, "-m", "rnxcmp", "--version"], env=own, capture_output=True, text=True, timeout=SECONDS)
        self.assertIn("/none", done.stderr)

    def test_example(self):
        assert_example(self, [self.python, TOP / "examples/compact.py"])

    def test_tool(self):
        """The command for whole files, and the same as a module: an output that is verified."""
        for number, command in enumerate(([self.python.parent / "rnxcmp-file"], [self.python, "-I", "-m", "rnxcmp.files"])):
            (self.folder / f"{number}.rnx").write_bytes(SAMPLE.read_bytes())
            words = [*command, "rnx2crx", "--verify", f"{number}.rnx"]
            done = subprocess.run(words, cwd=self.folder, capture_output=True, text=True, timeout=SECONDS)
            self.assertEqual((done.returncode, done.stdout, done.stderr), (0, f"{number}.rnx: made {number}.crx, verified exact\n", ""))
