"""What the scripts of a release print of names with control characters: a line in which no terminal finds a command."""

import os
import subprocess
import tempfile
import unittest
from pathlib import Path

from runner import TOP

SECONDS = 60  # in which each run is to end
ODD = "odd\x1b[31m\n"  # a name that would turn a terminal red, and goes on in a second line
ITS_LINE = r"'odd'$'\033''[31m'$'\n'"  # as ls writes it
NAMES = ["plain", "a b", "it's", "$HOME `x`", ODD, "größer — 観測", "-n", "a\\nb", "\x7f\x01", "*", "~"]


def rows(folder):
    """Of each script that prints a name: the words of a run, its status and its message."""
    packaging, odd, line = TOP / "packaging", folder / ODD, f"'{folder}/{ITS_LINE[1:]}"
    left_out = f"rnxcmp-file is left out: there is no library {line}'/librnxcmp.so.2' (make library)\n"
    unmade = f"nothing was made for {ITS_LINE} in {line}: make dist TARGETS={ITS_LINE}\n"
    unknown = f"machine.sh: there is no machine {ITS_LINE}\n"
    yield [packaging / "install.sh", folder / "root", odd / "lost", folder], 1, f"no program {line}'/lost': run make first\n"
    yield [packaging / "install.sh", folder / "root", "/bin/sh", odd], 0, left_out
    yield [packaging / "uninstall.sh", odd], 0, f"{line}'/lib/rnxcmp' has other files, and stays\n"
    yield [packaging / "machine.sh", ODD, "object", "archive", folder / "made"], 1, unknown
    yield [packaging / "dist.sh", folder / "dist", odd, ODD], 1, unmade


def output_of(command, path=os.environ["PATH"]):
    """What a command prints, with this search path."""
    return subprocess.run(command, env={**os.environ, "PATH": path}, capture_output=True, text=True, timeout=SECONDS).stdout


class Names(unittest.TestCase):
    def test_in_messages_of_scripts(self):
        with tempfile.TemporaryDirectory() as name:
            folder = Path(name)
            (folder / ODD / "lib/rnxcmp/other").mkdir(parents=True)
            for words, status, message in rows(folder):
                with self.subTest(Path(words[0]).name):
                    run = subprocess.run(words, capture_output=True, text=True, timeout=SECONDS)
                    self.assertEqual((run.returncode, run.stderr), (status, message))

    def test_as_a_shell_reads_them(self):
        """A shell reads from what quoted.sh prints the name that it was given. By a lesser printf no control character is printed."""
        with tempfile.TemporaryDirectory() as other:
            (Path(other) / "env").write_text("#!/bin/sh\nprintf begun; exit 1\n")
            (Path(other) / "env").chmod(0o755)
            for name in NAMES:
                with self.subTest(name):
                    line = output_of([TOP / "packaging/quoted.sh", name])
                    self.assertEqual((output_of(["bash", "-c", f"printf %s {line}"]), line.count("\n")), (name, 1))
                    plain = "".join("?" if letter < " " or letter == "\x7f" else letter for letter in name) + "\n"
                    self.assertEqual(output_of([TOP / "packaging/quoted.sh", name], f"{other}:{os.environ['PATH']}"), plain)
