"""`examples/availability.py` over the sample and a longer file; `examples/archive_page.py` over names and a few files; and `examples/parallel.py`,
which cuts a file of compact text into pieces and expands them apart: the same output, messages and status as one run of the program, for pieces of
each size. Its speed on a large file is measured by hand:

    bench/generate.py --megabytes 1000 -o big.rnx && PROGRAM rnx2crx -e 100 big.rnx && time examples/parallel.py --program PROGRAM big.crx back.rnx
"""

import os
import subprocess
import sys
import unittest
from datetime import date

from runner import LIBRARY, PROGRAM, SAMPLE, TOP, kept_folder, need_library, run
from texts import H, header, text

sys.path.insert(0, str(TOP / "examples"))
import archive_page  # noqa: E402

SIZES = (1, 300, 2000, 1 << 24)  # of pieces


def at(second):
    return f"> 2024 01 01 00 {second // 60:02d}{second % 60:11.7f}"


def with_events():
    """A file in which the types of two systems change, with events of each kind, whose records begin with `>` as epochs do, and one without a count."""
    lines, comment, changes = header("GR", 1), f"{at(0)}  0  1", {60: "G", 150: "R"}
    for second in range(0, 240, 2):
        if second in changes:
            lines += [f"{at(second)}  4  2", comment, header(changes[second], 2)[1]]
        if second % 40 == 20:
            lines += [f"{at(second)}  {second // 40 % 5 + 2}  2", comment, " " * 60 + "COMMENT"]
        if second == 34:
            lines += [f"{at(second)}  3"]
        lines += [f"{at(second)}  0  2"]
        for begin, system in changes.items():
            lines += [f"{system}01" + "".join(f"{20000000 + 7.125 * second * k:14.3f}  " for k in range(1 + (second >= begin))).rstrip()]
    return text(*lines)


class Parallel(unittest.TestCase):
    def setUp(self):
        self.folder = kept_folder(self)

    def expanded(self, compact, output, size=1 << 24):
        (self.folder / "a.crx").write_bytes(compact)
        words = [sys.executable, TOP / "examples/parallel.py", "-j", "3", "--size", str(size), "--program", PROGRAM, self.folder / "a.crx", output]
        return subprocess.run(words, capture_output=True, timeout=120)

    def test_pieces(self):
        sample, events = (run("rnx2crx", "-e", str(every), "--date", "D", given=given)[0] for given, every in ((SAMPLE.read_bytes(), 2), (with_events(), 5)))
        lines = events.splitlines(keepends=True)
        self.assertGreater(len(lines), 300)
        for name, compact in {
            "the sample": sample,
            "types that change": events,
            "CR at line ends": events.replace(b"\n", b"\r\n"),
            "up to a bad line": b"".join([*lines[:-120], b"x" + lines[-120], *lines[-119:]]),
            "a bad line before many": b"".join([*lines[:5], b"x\n" * 100000]),
            "cut off": events[:-40],
            **{f"{count} lines of a header": b"".join(lines[:count]) for count in (5, 4, 1, 0)},
        }.items():
            one = run("crx2rnx", given=compact)
            for size in SIZES if compact in (sample, events) else SIZES[1:3]:
                with self.subTest(name, size=size):
                    output = self.folder / f"{name}.{size}"
                    done = self.expanded(compact, output, size)
                    self.assertEqual((output.read_bytes(), done.stderr, done.returncode), one)

    def test_output_that_exists(self):
        """It is left as it is."""
        (self.folder / "a.rnx").write_bytes(b"old")
        self.assertNotEqual(self.expanded(b"", self.folder / "a.rnx").returncode, 0)
        self.assertEqual((self.folder / "a.rnx").read_bytes(), b"old")


class Availability(unittest.TestCase):
    def shown(self, path):
        need_library()
        own = {**os.environ, "PYTHONPATH": str(TOP / "python"), "RNXCMP_LIBRARY": str(LIBRARY / "librnxcmp.so.2")}
        done = subprocess.run([sys.executable, TOP / "examples/availability.py", path], env=own, capture_output=True, text=True, timeout=60)
        self.assertEqual(done.stderr, "")
        return done.stdout

    def test_sample(self):
        """By samples/README.md: E17 sets after the ninth of 20 epochs, and G24 rises in the tenth."""
        there = {"E17": "*" * 9, "G24": " " * 9 + "*" * 11}
        self.assertEqual(self.shown(SAMPLE), "".join(f"{name} {there.get(name, '*' * 20)}\n" for name in ("C10", "E17", "G02", "G13", "G14", "G24", "G29", "R01")))

    def test_columns(self):
        """So many epochs share a column that there are at most 72: three of 146. A satellite of each second one is there in most of a column, or in some."""
        path = kept_folder(self) / "a.rnx"
        path.write_bytes(text(*H))
        self.assertEqual(self.shown(path), "")
        lines = (f"{at(second)}  0{2 - second % 2:3}\nG01     1.000" + "\nG02     1.000" * (1 - second % 2) for second in range(146))
        path.write_bytes(text(*H, f"{at(0)}  4  1", " " * 60 + "COMMENT", *lines))
        self.assertEqual(self.shown(path), f"G01 {'*' * 49}\nG02 {'*.' * 24}.\n")


# Names of files, and the station and the day that they say.
NAMES = (
    ("a/abcd0600.24o", "ABCD", date(2024, 2, 29)),
    ("abcd3660.24d.gz", "ABCD", date(2024, 12, 31)),
    ("abcd001x.79O", "ABCD", date(2079, 1, 1)),
    ("abcd0010.80o", "ABCD", date(1980, 1, 1)),
    ("ABCD00DEU_R_20233650000_01D_30S_MO.crx.gz", "ABCD00DEU", date(2023, 12, 31)),
    ("abcd0000.24o", "ABCD", None),
    ("abcd3670.24o", "ABCD", None),
    ("b/abcd0010.24n", "b", None),
    ("other", ".", None),
)
# Files of two stations in three days, as `rnxcmp-file --json` prints them, and the page of them.
ARCHIVE = """{"input": "a/abcd0300.24d.gz", "error": null, "may_be_cut_off": false}
{"input": "a\\udcff/abcd0310.24d.gz", "error": "ERROR line 9 code 13: bad satellite <x>", "may_be_cut_off": false}
{"input": "b/abcd0310.24d", "error": null, "may_be_cut_off": false, "skipped": 2}

{"input": "b/abcd0310.24o", "output": "b/abcd0310.24d", "verified": "exact", "error": null}
{"input": "b/WXYZ00DEU_R_20240320000_01D_30S_MO.crx.gz", "error": null, "may_be_cut_off": true, "skipped": 1}
{"input": "b/WXYZ00DEU_R_20240310000_01D_30S_MO.crx.gz", "error": null, "skipped": 1}
{"input": "b/WXYZ00DEU_R_20240300000_01D_30S_MO.rnx", "output": "o.crx", "verified": null, "error": null, "may_be_cut_off": false}
{"input": "b/other.crx", "error": null, "may_be_cut_off": true}
"""
PAGE = """            |  2024-01-30 to 2024-02-01
ABCD      #X   2 of 3
WXYZ00DEU .sc  3 of 3
ERROR line 9 code 13: bad satellite <x>: a?/abcd0310.24d.gz
epochs skipped: b/abcd0310.24d
epochs skipped: b/WXYZ00DEU_R_20240310000_01D_30S_MO.crx.gz
may be cut off: b/WXYZ00DEU_R_20240320000_01D_30S_MO.crx.gz
may be cut off: b/other.crx
1 error; 2 may be cut off; 2 epochs skipped; 1 not verified; 2 good
X error  c may be cut off  s epochs skipped  . not verified  # good  blank: no file
"""


class ArchivePage(unittest.TestCase):
    def shown(self, given, *words):
        done = subprocess.run([sys.executable, TOP / "examples/archive_page.py", *words], input=given, capture_output=True, text=True, timeout=60)
        self.assertEqual((done.returncode, done.stderr), (0, ""))
        return done.stdout

    def test_names(self):
        for name, station, day in NAMES:
            with self.subTest(name):
                self.assertEqual(archive_page.station_and_day(name), (station, day))

    def test_text(self):
        self.assertEqual(self.shown(ARCHIVE, "--text"), PAGE)
        self.assertEqual(self.shown("", "--text"), " " * 12 + f"\n\n{PAGE.splitlines()[-1]}\n")

    def test_page(self):
        """Names and messages are quoted, nothing is loaded from elsewhere, and a square of a file to look at leads to its row."""
        page = self.shown(ARCHIVE)
        self.assertIn("<h1>Archive: 2 stations, 3 days, 8 files</h1>", page)
        self.assertIn("<h2>5 files to look at</h2>", page)
        self.assertIn("bad satellite &lt;x&gt;", page)
        self.assertEqual([word for word in ("<script", "src=", "<x>", "@import") if word in page], [])
        self.assertEqual([page.count(f"{it}</title>") for it in ("no file", "abcd0300.24d.gz: good")], [1, 1])
        for place, colour in (("ABCD-2024-01-31", "d62728"), ("WXYZ00DEU-2024-01-31", "ffbb33"), ("WXYZ00DEU-2024-02-01", "ff7f0e")):
            self.assertRegex(page, rf'<a href="#{place}"><rect [^>]*fill="#{colour}">')
            self.assertIn(f'<tr id="{place}">', page)
