"""Runs of sizes that other tests don't reach: many arguments, long names, long inputs."""

import hashlib
import os
import subprocess
import tempfile
import threading
import unittest
from pathlib import Path

from runner import PROGRAM, run
from texts import COMPACT_FIVE, DATED, FIVE, H, epoch, text

PIECE = text(*[line for second in range(4000) for line in (epoch(second % 10, 1), f"G01  {20000000 + 7 * second}.000")])
GIGABYTE, EPOCHS = 1_000_000_000, 2_000_000
PATH, STEP = 4000, 180  # bytes of a long path, and of each folder's name in it
TWICE = text("error: the argument '-s' cannot be used multiple times", "", "Usage: rnxcmp rnx2crx [OPTIONS] [FILE]...", "",
             "For more information, try '--help'.")  # fmt: skip


class Words(unittest.TestCase):
    def test_forty_arguments(self):
        """Forty names are more than one, and forty hyphens more than one; forty options that are the same are refused as such. The last
        of forty arguments decides as the first does: it asks for help."""
        for words, message in (
            (["rnx2crx", *[f"{place}.rnx" for place in range(40)]], text("ERROR: more than one file name")),
            (["crx2rnx", *["-"] * 40], text("ERROR: - given twice")),
            (["check", *["a.rnx"] * 40], text("ERROR: more than one file name")),
            (["rnx2crx", *["-s"] * 40], TWICE),
        ):
            with self.subTest(words[:3]):
                self.assertEqual(run(*words), (b"", message, 1))
        self.assertEqual(run("rnx2crx", *["a.rnx"] * 38, "--help"), run("rnx2crx", "--help"))

    def test_names_with_blanks(self):
        """A name is taken as it is: with blanks at both ends, beside the file of the name without them, and with an LF in it."""
        for name, beside in ((" a.rnx", "a.rnx"), ("b .rnx", "b.rnx"), ("c\n.rnx", "c.rnx"), ("D.rnx", "d.rnx")):
            with self.subTest(name), tempfile.TemporaryDirectory() as top:
                folder = Path(top)
                (folder / name).write_bytes(FIVE)
                (folder / beside).write_bytes(FIVE.replace(b"20000000.000", b"30000000.000"))
                self.assertEqual(run(*DATED, name, cwd=folder), (b"", b"", 0))
                made = {path.name: path.read_bytes() for path in folder.iterdir() if path.suffix == ".crx"}
                self.assertEqual(made, {name.replace(".rnx", ".crx"): COMPACT_FIVE})
                self.assertEqual(run("check", name + " ", cwd=folder), (b"", text(f"ERROR: cannot read {name} "), 1))

    def test_a_long_path(self):
        """A path of 4,000 bytes is read and its output is written."""
        with tempfile.TemporaryDirectory() as top:
            path, folder = top, os.open(top, os.O_RDONLY)
            while left := PATH - len(path) - len("/a.rnx"):
                name = "f" * (STEP if left > 2 * STEP else left // 2 if left > STEP else left - 1)
                os.mkdir(name, dir_fd=folder)
                inner = os.open(name, os.O_RDONLY, dir_fd=folder)
                os.close(folder)
                path, folder = f"{path}/{name}", inner
            with open(os.open("a.rnx", os.O_WRONLY | os.O_CREAT, dir_fd=folder), "wb") as file:
                file.write(FIVE)
            self.assertEqual(run(*DATED, f"{path}/a.rnx"), (b"", b"", 0))
            with open(os.open("a.crx", os.O_RDONLY, dir_fd=folder), "rb") as file:
                self.assertEqual((len(path) + len("/a.rnx"), file.read()), (PATH, COMPACT_FIVE))
            os.close(folder)

    def test_long_names(self):
        """A name is named whole if it is refused or can't be read, and so is a refused argument of 4,000 bytes."""
        name, below = "n" * 300, "d/" * 100 + "n" * 300
        for words, message in (
            (["rnx2crx", name], f"ERROR: no output name for {name}"),
            (["check", name], f"ERROR: cannot read {name}"),
            (["rnx2crx", below + ".rnx"], f"ERROR: cannot read {below}.rnx"),
            (["check", "n" * 5000], f"ERROR: cannot read {'n' * 5000}"),
        ):
            with self.subTest(message[:30]):
                self.assertEqual(run(*words), (b"", text(message), 1))
        for words in (["rnx2crx"], []):
            short = run(*words, "--zz")[1]
            self.assertIn(b"--zz", short)
            self.assertEqual(run(*words, "--" + "z" * 4000), (b"", short.replace(b"--zz", b"--" + b"z" * 4000), 1))


def fed(stream, pieces):
    """Writes all pieces into a stream, in a thread of its own: what was written, as a digest and a length, once that has ended."""
    found = {"digest": hashlib.sha256(), "length": 0}

    def feed():
        with stream:
            for piece in pieces:
                found["digest"].update(piece)
                found["length"] += len(piece)
                stream.write(piece)

    thread = threading.Thread(target=feed)
    thread.start()
    return thread, found


class Inputs(unittest.TestCase):
    def assert_comes_back(self, pieces):
        """An input through a compaction and an expansion, by standard streams: the same bytes, and their number."""
        with subprocess.Popen([PROGRAM, *DATED], stdin=subprocess.PIPE, stdout=subprocess.PIPE) as first, \
                subprocess.Popen([PROGRAM, "crx2rnx"], stdin=first.stdout, stdout=subprocess.PIPE) as second:  # fmt: skip
            first.stdout.close()
            thread, found = fed(first.stdin, pieces)
            digest, length = hashlib.sha256(), 0
            while piece := second.stdout.read(1 << 20):
                digest.update(piece)
                length += len(piece)
            thread.join()
        self.assertEqual((first.returncode, second.returncode), (0, 0))
        self.assertEqual((length, digest.digest()), (found["length"], found["digest"].digest()))

    def test_a_gigabyte(self):
        """It comes back whole by standard streams, and its check counts all of it."""
        times = GIGABYTE // len(PIECE) + 1
        self.assert_comes_back([text(*H), *[PIECE] * times])
        with subprocess.Popen([PROGRAM, "check"], stdin=subprocess.PIPE, stdout=subprocess.PIPE) as process:
            thread, _ = fed(process.stdin, [text(*H), *[PIECE] * times])
            report = process.stdout.read()
            thread.join()
        wanted = text("format 3.04", "systems G 1", f"epochs {4000 * times}", "events 0", f"observations {4000 * times}", "standard yes")
        self.assertEqual((report, process.returncode), (wanted, 0))

    def test_two_million_epochs(self):
        """More epochs than any file has come back, each without a satellite."""
        self.assert_comes_back([text(*H), *[text(*[epoch(0, 0)] * 10000)] * (EPOCHS // 10000)])

    def test_long_files_by_name(self):
        """Files by name of more than a megabyte: compact text comes back whole, as over standard streams."""
        long = text(*H) + PIECE * 6
        self.assertGreater(len(long), 1_000_000)
        with tempfile.TemporaryDirectory() as folder:
            path = Path(folder) / "a.rnx"
            path.write_bytes(long)
            for words in ([*DATED, "a.rnx"], ["crx2rnx", "-f", "a.crx"]):
                self.assertEqual(run(*words, cwd=folder), (b"", b"", 0))
            self.assertEqual(path.with_suffix(".crx").read_bytes(), run(*DATED, given=long)[0])
            self.assertEqual(path.read_bytes(), long)
            self.assertRegex(run("check", "a.rnx", cwd=folder)[0], rb"\nepochs 24000\n")
