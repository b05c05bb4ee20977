#!/usr/bin/env python3
"""A file of a few sizes through the library, whole and in pieces, from C and from Python, and through the program as a process.

    bench/library.py PROGRAM        after make library: a table of the least microseconds of 15 rounds
"""

import os
import subprocess
import sys
import tempfile
import timeit
from pathlib import Path

TOP = Path(__file__).resolve().parents[1]
LIBRARY = TOP / "out/library"
MAKE = [sys.executable, TOP / "bench/generate.py", "--systems", "GR", "--bands", "2", "--epochs"]
EPOCHS = (5, 15, 420)  # of files of 14 KB, 38 KB and 1 MB


def from_python(call, data):
    """The least microseconds of a call from Python."""
    return 1e6 * min(timeit.repeat(lambda: call(data), number=20, repeat=15)) / 20


def main():
    program = Path(sys.argv[1]).resolve()
    os.environ["RNXCMP_LIBRARY"] = str(LIBRARY / "librnxcmp.so.2")
    sys.path.insert(0, str(TOP / "python"))
    import rnxcmp

    print("| | input | output | one call | the same from Python | handle, 4 KiB at a time | process |")
    print("|---|---:|---:|---:|---:|---:|---:|")
    with tempfile.TemporaryDirectory() as name:
        work = Path(name)
        command = ["gcc", "-O2", "-I", str(LIBRARY), str(TOP / "bench/library.c"), str(LIBRARY / "librnxcmp.a"), "-o", str(work / "library")]
        subprocess.run(command, check=True)
        for epochs in EPOCHS:
            data = subprocess.run([*MAKE, str(epochs)], capture_output=True, check=True).stdout
            compact = subprocess.run([program, "rnx2crx"], input=data, capture_output=True, check=True).stdout
            (work / "rinex").write_bytes(data)
            (work / "compact").write_bytes(compact)
            run = subprocess.run([work / "library", program, work / "rinex", work / "compact"], capture_output=True, text=True, check=True)
            python = (from_python(rnxcmp.rnx2crx, data), from_python(rnxcmp.crx2rnx, compact))
            for line, over in zip(run.stdout.splitlines(), python):
                task, given, made, whole, *others = line.split()
                times = " | ".join(f"{float(time):,.0f} µs" for time in (whole, over, *others))
                print(f"| {task} | {int(given):,} B | {int(made):,} B | {times} |")


if __name__ == "__main__":
    main()
