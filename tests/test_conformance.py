"""conformance/, the suite for other programs: nothing differs over the program itself, each answer that differs is named by its kind and line,
and the page has the choices of the runner. PEER='COMPACT;EXPAND' runs it over another program too; out/conformance has the report."""

import json
import os
import re
import subprocess
import sys
import unittest
from types import SimpleNamespace
from unittest.mock import patch

from runner import AT_ONCE, PROGRAM, SEED, TESTS, TOP, files_in, kept_folder
from texts import COMPACT_FIVE, FIVE, H, text

SUITE = TOP / "conformance"
sys.path.insert(0, str(SUITE))
import conform  # noqa: E402
from conform import Difference, Run  # noqa: E402

RANDOM = 80  # random cases

# A file with a clock offset, an event with a record, and two satellites.
FILE = text(
    *H,
    "> 2024 01 01 00 00  0.0000000  0  2      -0.000000000007", "G01  20000000.000 7", "G02        -1.500",
    "> 2024 01 01 00 00  1.0000000  4  1", "a record".ljust(60) + "COMMENT",
    "> 2024 01 01 00 00  2.0000000  0  1", "G01  20000100.500",
).decode()  # fmt: skip
# What stands in the file, what an expansion writes in its place, and the kinds and lines of the differences.
WRITTEN = (
    ("C1C ", "L1C ", [("text", 2)]),
    (" 0.0000000  0", " 0.0000001  0", [("text", 4)]),
    ("007\n", "008\n", [("clock", 4)]),
    ("  0.0000000  0  2      -0.", "  1.0000000  0  2       0.", [("text", 4), ("clock", 4)]),
    ("007\n", "007 \n", [("text", 4)]),
    ("20000000.000 7", "20000000.001 7", [("values", 5)]),
    ("20000000.000 7", "20000000.001", [("values", 5), ("text", 5)]),
    ("20000000.000 7", "20000000.00047", [("text", 5)]),
    ("G02        -1.500", "G12        -1.500", [("text", 6)]),
    ("G02        -1.500", "G02         1.500", [("values", 6)]),
    ("G02        -1.500", "G02        -1.500   ", [("text", 6)]),
    ("1.0000000  4  1", "1.5000000  4  1", [("events", 7)]),
    ("a record", "A record", [("events", 8)]),
    (f"{'a record':60}COMMENT\n", "", [("events", 8)]),
    ("G01  20000100.500\n", "", [("text", 10)]),
    ("100.500\n", "100.500\nG02         1.000\n", [("text", 11)]),
    ("\n", "\r\n", [("text", 0)]),
    ("100.500\n", "100.500\n" + "x\n" * 30, [("text", line) for line in range(11, 31)]),
)
BAD = {"faults": [[6, 17]], "status": 1}  # of a case that is to be refused
SKIPPED = {"faults": [[6, 17]], "status": 2}
THERE = FILE.encode()
SAID = b"ERROR line 6 code 17: bad field\n"
# What a case has beside its texts, what a program answers, and what differs: kind, what is wanted, what it got.
ANSWERS = (
    ({}, Run(THERE, b"words of another program\n", 0), []),
    ({}, Run(b"", b"", 0), [("text", "10 lines", "no output")]),
    ({}, Run(THERE, b"words of another program\n", 1), [("statuses", "status 0", "status 1")]),
    ({}, Run(b"", b"no\n", 1), [("refusals", "accepted", "refused: no\n, status 1")]),
    ({}, Run(THERE, SAID, 1), [("refusals", "line and code []", "[[6, 17]]")]),
    (BAD, Run(THERE, SAID, 1), []),
    (BAD, Run(THERE, b"words of another program\n", 3), []),
    (BAD, Run(THERE, SAID, 3), [("statuses", "status 1", "status 3")]),
    (BAD, Run(THERE, SAID, 0), [("statuses", "status 1", "status 0")]),
    (BAD, Run(THERE, b"", 0), [("refusals", "refused: line and code [[6, 17]]", "accepted")]),
    (BAD, Run(THERE, SAID.replace(b"6", b"5"), 1), [("refusals", "line and code [[6, 17]]", "[[5, 17]]")]),
    (BAD, Run(b"", SAID, 1), [("text", "10 lines", "no output")]),
    (SKIPPED, Run(THERE, SAID.replace(b"ERROR", b"WARNING"), 2), []),
    (SKIPPED, Run(THERE, b"", 1), [("statuses", "status 2", "status 1")]),
    (SKIPPED, Run(THERE, SAID.replace(b"ERROR", b"WARNING") * 2, 2), [("refusals", "line and code [[6, 17]]", "[[6, 17], [6, 17]]")]),
)
# Statuses, and how a run ended then.
ENDED = {0: "", 1: "", 3: "", 125: "", 126: "not run to its end: status 126", 127: "not run to its end: status 127", 128: "", 139: "ended by signal 11",
         -11: "ended by signal 11", 160: "", 255: "", 0xC0000005: "not run to its end: status 3221225477"}  # fmt: skip
# What a compaction answers of five epochs, and what differs: it is judged by what its text stands for.
COMPACTED = (
    (COMPACT_FIVE, []),
    (COMPACT_FIVE.replace(b"\n", b"\r\n"), []),
    (COMPACT_FIVE.replace(b"100500", b"100501"), [("values", 7), ("values", 9), ("values", 11), ("values", 13)]),
    (COMPACT_FIVE.replace(b"3&2", b"3&-2"), [("values", line) for line in range(5, 14, 2)]),
    (COMPACT_FIVE.replace(b"3&2", b"x"), [("text", 0)]),
    (FIVE, [("text", 0)]),
)
REPORT = """Conformance of programs for Compact RINEX 3.0
compact: c
expand: e

3 cases, 1 differ; 1 more differ in a choice of this profile
by kind: text 0, values 0, clock 1, events 0, refusals 0, statuses 0, failures 0

Differences

one, expand: what it shows
  clock line 4
    wanted: a
    got:    b

Differences in a choice of this profile, which aren't counted

two, compact (arcs)
  statuses
    wanted: c
    got:    d
"""


# ---- the suite


def conformed(compact, expand, *words):
    command = [sys.executable, SUITE / "conform.py", "--compact", compact, "--expand", expand, "-j", str(AT_ONCE), *words]
    return subprocess.run(command, capture_output=True, text=True, timeout=600)


def kinds_in(report):
    """The kinds of which a report counts a difference."""
    counts = re.search(r"^by kind: (.*)$", report, re.M)
    return {kind for kind, count in (part.split() for part in counts[1].split(", ")) if count != "0"} if counts else {"no report"}


def commands(*before):
    words = " ".join([*map(str, before), str(PROGRAM)])
    return f"{words} rnx2crx", f"{words} crx2rnx"


class Suite(unittest.TestCase):
    @classmethod
    def setUpClass(cls):
        folder = kept_folder(cls)
        cls.cases, cls.random = folder / "cases.json", folder / "random.json"
        for path, command in ((cls.cases, ["collect.py"]), (cls.random, ["texts.py", "--seed", str(SEED), "--count", str(RANDOM)])):
            path.write_bytes(subprocess.run([sys.executable, TESTS / command[0], *command[1:]], capture_output=True, check=True, timeout=60).stdout)
        cls.collected = json.loads(cls.cases.read_text())

    def test_the_program(self):
        """Nothing differs over the program itself, its own files among the cases."""
        done = conformed(*commands(), self.cases, self.random, "--files", TOP / "samples", "--profile")
        self.assertEqual(done.returncode, 0, done.stdout[:3000] + done.stderr)
        self.assertRegex(done.stdout, rf"\n{len(self.collected) + RANDOM + 1} cases, 0 differ; 0 more")
        self.assertGreater(len(self.collected), 90)

    def test_odd_names(self):
        """A name with control characters is printed quoted: of a file that is left out, and of one that differs. Compact text is a case too."""
        folder = kept_folder(self)
        (folder / "no\x1b[31m\nrinex").write_bytes(b"neither\n")
        (folder / "odd\x1b[31m\udcff").write_bytes(FIVE)
        (folder / "sub").mkdir()
        (folder / "sub/a.crx").write_bytes(COMPACT_FIVE.replace(b"\n", b"\r\n"))
        (folder / "five").write_bytes(FIVE)
        done = conformed("true", f"cat '{folder}/five'", "--files", folder)
        self.assertEqual(done.stderr, f"'{folder}/no\\x1b[31m\\nrinex' is left out: neither RINEX nor Compact RINEX\n")
        self.assertIn(f"\n'{folder}/odd\\x1b[31m\\udcff', compact\n", done.stdout)
        self.assertIn("\n3 cases, 2 differ; 0 more", done.stdout)

    def judged(self, case, answer):
        """What differs of a case over a program that gives an answer."""
        with patch.object(conform, "run", lambda *_: answer):
            return conform.judged(case, {"compact": [], "expand": []}, 60)

    def test_texts(self):
        for old, new, wanted in WRITTEN:
            with self.subTest(old, new=new):
                found = self.judged({"do": "expand", "input": "", "expands_to": FILE}, Run(FILE.replace(old, new).encode(), b"", 0))
                self.assertEqual([(it.kind, it.line) for it in found], wanted)

    def test_answers(self):
        for more, answer, wanted in ANSWERS:
            with self.subTest(answer=answer, **more):
                found = self.judged({"do": "expand", "input": "", "expands_to": FILE, **more}, answer)
                self.assertEqual([(it.kind, it.wanted, it.got) for it in found], wanted)

    def test_compact_texts(self):
        for output, wanted in COMPACTED:
            with self.subTest(output):
                found = self.judged({"do": "compact", "input": "", "expands_to": FIVE.decode()}, Run(output, b"", 0))
                self.assertEqual([(it.kind, it.line) for it in found], wanted)

    def test_ends(self):
        self.assertEqual({status: conform._crash(status) for status in ENDED}, ENDED)

    def test_report(self):
        cases = ({"name": "one", "do": "expand", "about": "what it shows"}, {"name": "two", "do": "compact", "choices": ["arcs"]}, {"name": "same"})
        results = [*zip(cases, ([Difference("clock", 4, "a", "b")], [Difference("statuses", 0, "c", "d")], []))]
        words = SimpleNamespace(compact="c", expand="e", profile=False)
        self.assertEqual(conform.report(words, results), (REPORT, 1))
        words.profile = True
        self.assertRegex(conform.report(words, results)[0], "\n3 cases, 2 differ; 0 more ")

    def test_saved(self):
        """Of each difference the input, the text that is expected, and the command; the status says whether one counts."""
        case = {"name": "an odd/name", "do": "expand", "input": "a\xff", "expands_to": "b", "options": ["-u"]}
        for choices, count in (({}, 1), ({"choices": ["arcs"]}, 0)):
            folder = kept_folder(self)
            (folder / "cases.json").write_text(json.dumps([{**case, "name": "same", "expands_to": "a\xff"}, {**case, **choices}]))
            done = conformed("false", "cat", folder / "cases.json", "--report", folder / "report", "--save", folder / "saved")
            self.assertEqual((done.returncode, done.stdout, done.stderr), (count, "", ""))
            self.assertIn(f"\n2 cases, {count} differ; {1 - count} more ", (folder / "report").read_text())
            self.assertEqual(files_in(folder / "saved"), {f"0001-an_odd_name/{name}": data for name, data in (("input", b"a\xff"), ("expected", b"b"), ("command", b"cat -u < input\n"))})

    def test_status_that_is_always_0(self):
        done = conformed(*commands("sh", "-c", "'\"$@\"; exit 0'", "sh"), self.cases, "--profile")
        self.assertEqual((done.returncode, kinds_in(done.stdout)), (1, {"statuses"}), done.stdout[:1500] + done.stderr[:500])

    def test_commands_that_fail(self):
        """A command that fails is a difference in each case, also in those that have to be refused."""
        count = len(self.collected)
        failing = {"sleep 1000": "no end within 0.3 s", "sh -c 'kill -SEGV $$'": "ended by signal 11", "/no/such/command": "not started"}
        for command, failure in failing.items():
            with self.subTest(command):
                done = conformed(command, command, self.cases, "--seconds", "0.3")
                self.assertIn(f"{count} cases, {count} differ; 0 more", done.stdout)
                self.assertEqual(done.stdout.count(f"got:    {failure}"), count)

    def test_seeds(self):
        """The maker makes the same cases of the same seed, and others of another."""
        made = [subprocess.run([TESTS / "texts.py", "--seed", seed, "--count", "20"], capture_output=True, check=True).stdout for seed in "778"]
        self.assertTrue(made[0] == made[1] != made[2])

    def test_choices(self):
        """The table of choices in the page is that of the runner, and each case's choices are of it."""
        rows = dict(re.findall(r"^\| ([\w ]+) \| (.*) \|$", (SUITE / "README.md").read_text(encoding="utf-8").partition("| Choice |")[2], re.M))
        self.assertEqual(rows, conform.CHOICES)
        self.assertLessEqual({choice for case in [*self.collected, *json.loads(self.random.read_text())] for choice in case.get("choices", [])}, {*rows})

    def test_another_program(self):
        """By its two commands: its report is written, and shown by its first lines; a difference is no fault of this program."""
        if not os.environ.get("PEER"):
            return
        done = conformed(*(word.strip() for word in os.environ["PEER"].split(";")), self.cases, self.random)
        (TOP / "out/conformance").mkdir(parents=True, exist_ok=True)
        (TOP / "out/conformance/report.txt").write_text(done.stdout, encoding="utf-8")
        print("\n".join(done.stdout.splitlines()[:7]))
        self.assertIn(" cases, ", done.stdout, done.stderr)
