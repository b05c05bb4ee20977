#!/usr/bin/env python3
"""Makes of a module of LLVM for Linux on x86-64, as text, one for Windows on x86-64:

    packaging/retarget.py < linux.ll > windows.ll

The triple and the layout of data are Windows', the stack grows by Windows' own probe, and what the program calls of Linux gets the name of
a function of packaging/windows.c. All else stays as it is. This step isn't proved.
"""

import re
import sys

LAYOUT = "e-m:w-p270:32:32-p271:32:32-p272:64:64-i64:64-i128:128-f80:128-n8:16:32:64-S128"
TRIPLE = "x86_64-w64-windows-gnu"
NAMES = {"__sysv_signal": "sysv_signal", **{name: name for name in ("clock_gettime", "close", "main", "open", "read", "statx", "write")}}


def retargeted(text):
    """The text for Windows; it has to have one layout and one triple, those of Linux."""
    for what, value in (("datalayout", LAYOUT), ("triple", TRIPLE)):
        text, count = re.subn(rf'^target {what} = "[^"]*"$', f'target {what} = "{value}"', text, flags=re.M)
        if count != 1:
            sys.exit(f"retarget.py: the module has {count} lines of its {what}")
    text = re.sub(r' "(?:probe-stack|stack-probe-size)"="[^"]*"', "", text)
    return re.sub(rf"@({'|'.join(NAMES)})(?![\w.$-])", lambda found: f"@rnxcmp_{NAMES[found[1]]}", text)


if __name__ == "__main__":
    sys.stdin.reconfigure(encoding="latin-1", newline="")
    sys.stdout.reconfigure(encoding="latin-1", newline="")
    sys.stdout.write(retargeted(sys.stdin.read()))
