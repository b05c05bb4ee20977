"""rnxcmp-file and the calls from Python: system calls that fail, and signals; with SLOW=1 each call of the tool, more signals, disks of each kind, whose
power is cut, and many files in several processes. Disks and power cuts need root."""

import tempfile
from pathlib import Path

import at_once
import disks
import faults
import signals
from place import Texts, checked, lacking
from runner import own_mounts

checks = checked("faults", "signals")


def slow_checks(program):
    if lacking():
        yield "rnxcmp-file, at length", lacking
        return
    own_mounts()
    texts = Texts(program)
    with tempfile.TemporaryDirectory() as name:
        yield from disks.checks(texts, Path(name), 300)
        yield from signals.checks(texts, 200)
        yield from at_once.checks(texts, 10000)
        yield from faults.checks(texts, faults.CALLS, tuple(faults.JOBS))
