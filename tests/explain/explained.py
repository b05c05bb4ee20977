"""What the tests of `explain` share: the package over the library that make library made, the program, the sample, and its compact text."""

import os
import re
import subprocess
import sys
from pathlib import Path

TOP = Path(__file__).resolve().parents[2]
LIBRARY = Path(os.environ.get("RNXCMP_LIBRARY", TOP / "out/library/librnxcmp.so.2"))
ENVIRONMENT = {**os.environ, "PYTHONPATH": str(TOP / "python"), "RNXCMP_LIBRARY": str(LIBRARY), "PYTHONDONTWRITEBYTECODE": "1", "LC_ALL": "C.UTF-8"}
TOOL = (sys.executable, "-S", "-m", "rnxcmp.files")
ENDINGS = {"rnx2crx": ".rnx", "crx2rnx": ".crx"}


def package():
    """The package, which is loaded when it is first needed."""
    os.environ.setdefault("RNXCMP_LIBRARY", str(LIBRARY))
    if str(TOP / "python") not in sys.path:
        sys.path.insert(0, str(TOP / "python"))
    import rnxcmp

    return rnxcmp


def run_tool(folder, *words):
    return subprocess.run([*TOOL, *words], cwd=folder, env=ENVIRONMENT, capture_output=True, text=True, errors="surrogateescape", timeout=60)


def named_by(program, data, direction):
    """The line and the code that the program names, or None for a file that it accepts."""
    run = subprocess.run([program, direction], input=data, capture_output=True, timeout=60)
    named = re.match(rb"ERROR line (\d+) code (\d+): ", run.stderr)
    return (int(named[1]), int(named[2])) if named else None


def sample():
    return (TOP / "samples/station.rnx").read_bytes()


def compacted(program, text):
    return subprocess.run([program, "rnx2crx", "--date", "01-Jan-24 00:00"], input=text, capture_output=True, check=True, timeout=60).stdout
