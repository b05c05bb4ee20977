#!/usr/bin/env python3
"""The instructions that the program takes over three inputs, as callgrind (valgrind) counts them: each count is within a tenth of the one
in counts.txt. If a change has made the program slower or faster, or another compiler has built it, this stores the counts anew:

    tests/test_speed.py

One input has satellites that mostly stay, one has 60 in another order in each epoch, and one all 770 that there are. Each is compacted,
expanded from its compact text, and checked. Counts don't change with the machine's load, and hardly from one machine to another.
"""

import random
import subprocess
import sys
import tempfile
import unittest
from pathlib import Path

from runner import PROGRAM, TOP, need, run
from texts import DATED, turning

STORED = Path(__file__).with_name("counts.txt")
PART = 0.1  # of a stored count, by which a count may differ from it
TOOLS = {"rnx2crx": DATED, "crx2rnx": ["crx2rnx"], "check": ["check"]}


def made(name):
    """The file of an input."""
    if name == "steady":
        return subprocess.run([sys.executable, TOP / "bench/generate.py", "--megabytes", "0.3"], capture_output=True, check=True, timeout=60).stdout
    if name == "moving":
        rng, order = random.Random(1), list(range(60))
        return turning([rng.sample(order, 60) for _ in range(60)], 4)
    return turning([range(770)[:: -1 if second % 2 else 1] for second in range(8)], 2)


def counted(tool, rinex):
    """How many instructions the program takes over a file of RINEX, or over its compact text."""
    given = rinex if tool != "crx2rnx" else run(*DATED, given=rinex)[0]
    with tempfile.NamedTemporaryFile() as counts:
        command = ["valgrind", "--tool=callgrind", f"--callgrind-out-file={counts.name}", PROGRAM, *TOOLS[tool]]
        subprocess.run(command, input=given, stdout=subprocess.DEVNULL, stderr=subprocess.DEVNULL, check=True, timeout=120)
        return next(int(line.split()[1]) for line in Path(counts.name).read_text().splitlines() if line.startswith(("summary:", "totals:")))


class Instructions(unittest.TestCase):
    def test_counts(self):
        need("valgrind")
        stored = dict(line.rsplit(" ", 1) for line in STORED.read_text().splitlines() if not line.startswith("#"))
        self.assertEqual(len(stored), 9)
        for name in ("steady", "moving", "770"):
            rinex = made(name)
            for tool in TOOLS:
                with self.subTest(name, tool=tool):
                    count, wanted = counted(tool, rinex), int(stored[f"{name} {tool}"])
                    self.assertLessEqual(abs(count - wanted), PART * wanted, f"{count} instructions, {count / wanted:.2f} times the {wanted} that are stored")


if __name__ == "__main__":
    lines = [f"{name} {tool} {counted(tool, made(name))}" for name in ("steady", "moving", "770") for tool in TOOLS]
    STORED.write_text("\n".join(["# Instructions, as tests/test_speed.py counts them: an input, a tool and the count.", *lines]) + "\n")
