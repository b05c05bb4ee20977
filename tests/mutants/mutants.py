"""Planted bugs, each of which a test is to see: with SLOW=1 each is a test of its own, and `make test T=tests/mutants/files/names SLOW=1`
tries those of a folder.

A folder has folders of edits, one for each file that is changed, or for a part of it. An edit's name says what is wrong then. Each edit is
made in a copy of the repository's files, and taken back after `check.py FOLDER PROGRAM COPY MADE FILE` has been run over the copy: MADE is
the repository where `make` left what it built, FILE is the one that was edited. It is to end with status 1 and to print as its last line
what has seen the bug; over files as they are it is to end with status 0, and with 2 if they can't be built, which isn't seeing a bug.
Whatever else it ends with, or that it doesn't end in time, says nothing of the bug, and is a failure too.

An edit is lines that begin with a word: `file:` names the file, if it isn't the one that FILE in the folder names; `after:` a text after
which the change is, if there is one; `old:` is what stands there, and `new:` what takes its place. More than one `old:` or `new:` are
lines of one text. It stands there once, or once after that text.
"""

import re
import shutil
import subprocess
import sys
import unittest
from dataclasses import dataclass
from pathlib import Path

from runner import PROGRAM, TESTS, TOP, kept_folder

HERE = TESTS / "mutants"
SECONDS = 900  # in which a check is to end


@dataclass
class Edit:
    """A change of a file."""

    name: str
    file: str
    after: str
    old: str
    new: str

    def apply(self, text):
        """The text with the change."""
        start = text.index(self.after) if self.after else 0
        count = text[start:].count(self.old)
        if count != 1 and not (self.after and count > 1):
            raise ValueError(f"{self.name}: the old text stands {count} times in {self.file}")
        return text[:start] + text[start:].replace(self.old, self.new, 1)


def read_edit(path):
    found = {"file": [], "after": [], "old": [], "new": []}
    for line in path.read_text().splitlines():
        word, value = re.fullmatch(r"(file|after|old|new): ?(.*)", line).groups()
        found[word].append(value)
    file = "\n".join(found["file"]) or (path.parent / "FILE").read_text().strip()
    return Edit(path.stem, file, *("\n".join(found[word]) for word in ("after", "old", "new")))


def copy_to(folder):
    """Copies the files that git knows, or all but what was made where there is no git."""
    run = subprocess.run(["git", "ls-files", "-z"], cwd=TOP, capture_output=True)
    if run.returncode:
        shutil.copytree(TOP, folder, dirs_exist_ok=True, ignore=shutil.ignore_patterns("out", ".git"))
        return
    for name in run.stdout.decode().split("\0"):
        if name and (TOP / name).is_file():
            (folder / name).parent.mkdir(parents=True, exist_ok=True)
            shutil.copy2(TOP / name, folder / name, follow_symlinks=False)


class Planted(unittest.TestCase):
    """The bugs of a folder: one copy of the files serves all."""

    @classmethod
    def setUpClass(cls):
        cls.copy = kept_folder(cls)
        cls.copy.chmod(0o755)
        copy_to(cls.copy)
        cls.clean = None

    def check(self, file):
        """The status of a check, its last line, and what else may say why it failed."""
        command = [sys.executable, HERE / "check.py", self.folder, PROGRAM, self.copy, TOP, file]
        done = subprocess.run([str(word) for word in command], capture_output=True, text=True, errors="replace", timeout=SECONDS)
        return done.returncode, (done.stdout.splitlines() or [""])[-1], done.stderr[-600:]


class Mutant(Planted):
    """A bug as a test."""

    is_slow = True

    def __init__(self, folder, path):
        super().__init__("runTest")
        self.folder, self.path = folder, path

    def id(self):
        return str(self.path.relative_to(TOP))

    def runTest(self):
        cls = type(self)
        if cls.clean is None:
            cls.clean = self.check("")
        self.assertEqual(cls.clean[:2], (0, ""), f"without a bug: {cls.clean}")
        edit = read_edit(self.path)
        file = self.copy / edit.file
        as_it_is = file.read_text()
        file.write_text(edit.apply(as_it_is))
        try:
            status, last, said = self.check(edit.file)
        finally:
            file.write_text(as_it_is)
        self.assertEqual((status, bool(last)), (1, True), f"{'not seen' if status in (0, 2) else 'not known'}: status {status}, {last} {said}")
        print(f"    seen by {last}")


def load(folder):
    """The `load_tests` of a folder's bugs."""
    paths = sorted((HERE / folder).rglob("*.edit"))

    class Edits(unittest.TestCase):
        def test_each_can_be_planted(self):
            self.assertTrue(paths)
            for path in paths:
                with self.subTest(path.stem):
                    edit = read_edit(path)
                    edit.apply((TOP / edit.file).read_text())

    def load_tests(loader, tests, pattern):
        tests.addTest(Edits("test_each_can_be_planted"))
        tests.addTests(Mutant(folder, path) for path in paths)
        return tests

    return load_tests
