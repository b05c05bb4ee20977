"""The command line: what arguments ask for, which of them are refused, the names of output files, and the default date. The tables are
typed; each plan is seen by what a run reads, writes, reports and answers, where its output file isn't there and where it is."""

import os
import subprocess
import tempfile
import unittest
from dataclasses import dataclass
from datetime import datetime, timezone
from pathlib import Path

from runner import PROGRAM, files_in, preloaded, with_messages
from texts import FIVE, H, K, epoch, full, text


@dataclass
class Plan:
    """What is run: which tool, from where to where, and by which choices. No name stands for standard input and standard output."""

    tool: str
    source: str = ""
    target: str = ""
    every: int = 0
    skip: bool = False
    force: bool = False
    date: str = "D"


# Arguments with `|` between them, and what is run.
PLANS = [
    # Names and hyphens.
    ("rnx2crx|--date|D", Plan("rnx2crx")),
    ("rnx2crx|-|--date|D", Plan("rnx2crx")),
    ("crx2rnx", Plan("crx2rnx")),
    ("crx2rnx|x.crx|-", Plan("crx2rnx", "x.crx")),
    ("crx2rnx|abcd0010.24d", Plan("crx2rnx", "abcd0010.24d", "abcd0010.24o")),
    ("check", Plan("check")),
    ("check|-|a.rnx", Plan("check", "a.rnx")),
    ("check|a.txt", Plan("check", "a.txt")),
    ("check|-", Plan("check")),
    ("rnx2crx|--date|D|--|-s.rnx", Plan("rnx2crx", "-s.rnx", "-s.crx")),
    ("rnx2crx|--date|D|--|-|a.rnx", Plan("rnx2crx", "a.rnx")),
    ("rnx2crx|--date|D|a.rnx|--", Plan("rnx2crx", "a.rnx", "a.crx")),
    # Options in any order.
    ("rnx2crx|-e|1|--date|D", Plan("rnx2crx", every=1)),
    ("rnx2crx|--date=D|-e1", Plan("rnx2crx", every=1)),
    ("rnx2crx|-e|2|a.rnx|--date|D", Plan("rnx2crx", "a.rnx", "a.crx", every=2)),
    ("rnx2crx|a.rnx|-s|-f|-e|1000000|--date|D", Plan("rnx2crx", "a.rnx", "a.crx", every=1000000, skip=True, force=True)),
    ("rnx2crx|-sf|--date|D|a.rnx", Plan("rnx2crx", "a.rnx", "a.crx", skip=True, force=True)),
    ("rnx2crx|-|--date|D|-s|a.rnx", Plan("rnx2crx", "a.rnx", skip=True)),
    ("crx2rnx|-f|-s|a.crx", Plan("crx2rnx", "a.crx", "a.rnx", skip=True, force=True)),
    ("rnx2crx|--date|", Plan("rnx2crx", date="")),
    ("rnx2crx|--date|12345678901234567890", Plan("rnx2crx", date="12345678901234567890")),
]

# Arguments with `|` between them, and why they are refused: the first reason that fits; cases/refusals has those that aren't of the command line.
REFUSED = [
    ("rnx2crx|-|-|a|b", "- given twice"),
    ("rnx2crx|a|b|--date|123456789012345678901", "more than one file name"),
    ("rnx2crx|--date|a\tb", "bad date"),
    ("rnx2crx|--date|ä", "bad date"),
    ("rnx2crx|a.txt|--date|123456789012345678901", "bad date"),
    ("rnx2crx|a.txt", "no output name for a.txt"),
]

# The names of an observation file and of its compact form, each made from the other.
RENAMED = [
    ("a.rnx", "a.crx"),
    ("A.RNX", "A.CRX"),
    (".rnx", ".crx"),
    ("dir.rnx/a.rnx", "dir.rnx/a.crx"),
    ("abcd0010.24o", "abcd0010.24d"),
    ("ABCD0010.99O", "ABCD0010.99D"),
    (".24o", ".24d"),
    ("é.rnx", "é.crx"),
    ("ein Name, größer — 観測.rnx", "ein Name, größer — 観測.crx"),
    ("[a].rnx", "[a].crx"),
]

# Names from which no output's name is made.
NOT_RENAMED = {
    "rnx2crx": [
        "", "rnx", ".Rnx", "a.rnx ", "a.txt", "a.crx", "a.24d", "24o", "a24o", "a.4o", "a.2xo", "a.x2o", "o", ".o", "a.rnx.gz",
    ],
    "crx2rnx": ["", "crx", ".cRX", "a.rnx", "a.24o", "24d", "a.d"],
}

# The days after 1970 began on which the 16th of each month is.
MONTHS = zip((15, 46, 74, 105, 135, 166, 196, 227, 258, 288, 319, 349), "Jan Feb Mar Apr May Jun Jul Aug Sep Oct Nov Dec".split())

# Moments of the clock, in seconds and nanoseconds after 1970 began in UTC, and their dates. Where the clock gives no moment, or one
# before that, there is no date.
MOMENTS = [
    (0, 0, "01-Jan-70 00:00"),
    (1_704_067_199, 0, "31-Dec-23 23:59"),
    (1_704_067_199, 999_999_999, "31-Dec-23 23:59"),
    (1_704_067_200, 0, "01-Jan-24 00:00"),
    (951_782_400, 0, "29-Feb-00 00:00"),
    *((day * 86_400, 0, f"16-{month}-70 00:00") for day, month in MONTHS),
    (2_147_483_647, 0, "19-Jan-38 03:14"),
    (2_147_483_648, 0, "19-Jan-38 03:14"),
    (4_102_444_800, 0, "01-Jan-00 00:00"),
    (4_107_542_400, 0, "01-Mar-00 00:00"),
    (7_258_118_399, 0, "31-Dec-99 23:59"),
    (253_370_764_800, 0, "01-Jan-99 00:00"),
    (-60, 0, ""),
    (None, 0, ""),
]


def rinex(name):
    """Five epochs of a satellite; the fourth one has a bad indicator in line 11."""
    return FIVE.replace(b"20000304.500", b"20000304.500&").replace(b"G01  ", name.encode() + b"  ")


def without_fourth(name, skip):
    """What comes back of them: the epochs before the fourth one, and where it is skipped the one after it."""
    values = {0: "20000000.000", 1: "20000100.500", 2: "20000202.000", **({4: "20000408.000"} if skip else {})}
    return text(*H, *[line for second, value in values.items() for line in (epoch(second, 1), f"{name}  {value}")])


def compact(name, every, skip, date):
    """The compact text of these: at every so many epochs a full one, or just the first one, and after one that was skipped."""
    values = ("3&20000000000", "3&20000100500", "3&20000202000") if every == 1 else ("3&20000000000", "100500", "1000")
    if every == 2:
        values = ("3&20000000000", "100500", "3&20000202000")
    lines = [K[0], K[1][:40] + date.ljust(20) + K[1][60:], *H]
    for second, value in enumerate(values):
        lines += [full(second, name) if "&" in value else " " * 20 + str(second), "", value]
    return text(*lines, *([full(4, name), "", "3&20000408000"] if skip else []))


def compact_input(name):
    """The compact text of five epochs, of which the fourth has a bad field in line 17."""
    return compact(name, 0, False, "D") + text(" " * 20 + "3", "", "x", full(4, name), "", "3&20000408000")


def report(epochs):
    """The report on a standard file of one type with so many values."""
    return text("format 3.04", "systems G 1", f"epochs {epochs}", "events 0", f"observations {epochs}", "standard yes")


def input_of(tool, is_file):
    """What a run reads: the satellite is another one in a file than in standard input."""
    name = "G01" if is_file else "G02"
    if tool == "check":
        return FIVE if is_file else text(*H)
    return rinex(name) if tool == "rnx2crx" else compact_input(name)


def wanted(plan):
    """What a run of a plan is to write, report and answer."""
    name = "G01" if plan.source else "G02"
    if plan.tool == "check":
        return report(5 if plan.source else 0), b"", 0
    fault = "line 11 code 18: bad indicator" if plan.tool == "rnx2crx" else "line 17 code 15: bad field"
    made = compact(name, plan.every, plan.skip, plan.date) if plan.tool == "rnx2crx" else without_fourth(name, plan.skip)
    return made, text(("WARNING " if plan.skip else "ERROR ") + fault), 2 if plan.skip else 1


def run(words, given=b"", before=None, **more):
    """Runs the program in a folder with these files: its output, messages and status, and the files that are there then."""
    left, *answer = with_messages(words, lambda: run_once(words, given, before, **more))
    return *answer, left


def run_once(words, given, before, **more):
    with tempfile.TemporaryDirectory() as name:
        folder = Path(name)
        for path, content in (before or {}).items():
            (folder / path).parent.mkdir(parents=True, exist_ok=True)
            (folder / path).write_bytes(content)
        done = subprocess.run([PROGRAM, *words], input=given, capture_output=True, cwd=folder, timeout=60, **more)
        return files_in(folder), done.stdout, done.stderr, done.returncode


class Arguments(unittest.TestCase):
    def check_plan(self, line, plan, old):
        made, messages, status = wanted(plan)
        before = {plan.source: input_of(plan.tool, True)} if plan.source else {}
        before |= {plan.target: old} if old else {}
        found = run(line.split("|"), input_of(plan.tool, False), before)
        if old and not plan.force:
            want = (b"", text(f"ERROR: file exists: {plan.target}"), 1, before)
        else:
            want = (b"" if plan.target else made, messages, status, {**before, **({plan.target: made} if plan.target else {})})
        self.assertEqual(found, want)

    def test_plans(self):
        for line, plan in PLANS:
            for old in (None, b"old" * 1000) if plan.target else (None,):
                with self.subTest(line, old=old):
                    self.check_plan(line, plan, old)

    @unittest.skipIf(os.environ.get("EMULATED"), "the emulator's words are text")
    def test_words_that_are_no_text(self):
        for words in (["check", b"\xff.rnx"], ["rnx2crx", "--date", b"\xff"], [b"\xff"]):
            with self.subTest(words=words):
                self.assertEqual(run(words), (b"", b"error: invalid UTF-8 was detected in one or more arguments\n", 1, {}))

    def test_refused(self):
        for line, reason in REFUSED:
            with self.subTest(line):
                self.assertEqual(run(line.split("|")), (b"", text(f"ERROR: {reason}"), 1, {}))

    def test_names_of_outputs(self):
        """Each name is made from the other, and neither by a check."""
        values = enumerate(("3&20000000000", "100500", "1000", "0", "0"))
        small = text(*K, *H, *[line for second, value in values for line in (" " * 20 + str(second) if second else full(0, "G01"), "", value)])
        for observation, packed in RENAMED:
            with self.subTest(observation):
                both = {observation: FIVE, packed: small}
                self.assertEqual(run(["rnx2crx", "--date", "D", observation], b"", {observation: FIVE}), (b"", b"", 0, both))
                self.assertEqual(run(["crx2rnx", packed], b"", {packed: small}), (b"", b"", 0, both))
                self.assertEqual(run(["check", observation], b"", {observation: FIVE}), (report(5), b"", 0, {observation: FIVE}))

    def test_no_names_of_outputs(self):
        for tool, name in [(tool, name) for tool, names in NOT_RENAMED.items() for name in names]:
            with self.subTest(tool, name=name):
                before = {name: input_of(tool, True)} if name else {}
                self.assertEqual(run([tool, name], b"", before), (b"", text(f"ERROR: no output name for {name}"), 1, before))

    def test_the_date_of_the_moment(self):
        """Without a date among the arguments the second line has the moment of the run, in UTC."""
        moments = [datetime.now(timezone.utc)]
        output, messages, status, _ = run(["rnx2crx"], text(*H))
        moments.append(datetime.now(timezone.utc))
        dated = [text(K[0], K[1][:40] + f"{moment:%d-%b-%y %H:%M}".ljust(20) + K[1][60:], *H) for moment in moments]
        self.assertEqual((messages, status), (b"", 0))
        self.assertIn(output, dated)

    def test_default_date(self):
        for seconds, nanoseconds, date in MOMENTS:
            with self.subTest(seconds=seconds):
                moment = preloaded(CLOCK="none" if seconds is None else str(seconds), CLOCK_NANOSECONDS=str(nanoseconds))
                want = text(K[0], K[1][:40] + date.ljust(20) + K[1][60:], *H)
                self.assertEqual(run(["rnx2crx"], text(*H), env=moment), (want, b"", 0, {}))
