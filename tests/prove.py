#!/usr/bin/env python3
"""The prover at work, a line a crate; where a proof failed, its errors: each with its file, its line and the goal.

    tests/prove.py toolchain          says what is missing of the toolchain
    tests/prove.py proof NAME WORDS   runs WORDS, which prove a crate, in its folder (crates.mk); the name may go on with `@` and a machine
    tests/prove.py made WORDS         runs WORDS, a `make` of crates, and then shows again what failed

What the prover prints goes into out/logs. tests/runner.py uses the same for the gate, whose prints go into out/logs/gate.
"""

import hashlib
import os
import re
import shutil
import signal
import subprocess
import sys
import tempfile
import time
from pathlib import Path

TOP = Path(__file__).resolve().parent.parent
CRATES = TOP / "crates"
LOGS = TOP / "out/logs"
FAILED = TOP / "out/failed"  # of each crate whose proof failed, its errors
PROVED = TOP / "out/proved"  # the libraries that crates.mk makes
OBJECTS = {"rnxcmp": CRATES / "rnxcmp/out/rnxcmp.o", "rnxcmp_c": CRATES / "rnxcmp_c/out/librnxcmp_c.a"}  # what it makes of the others
SHOWN = 14  # lines of errors that are shown of a crate
WIDTH = 400  # characters that are shown of a line
SHARED_MEMORY = 4_000_000_000  # bytes that are to be free in memory before the prover's own files go there: a crate has some 300 MB of them


def version():
    """The toolchain's name and the sum of its logic."""
    return subprocess.run(["rt", "version"], capture_output=True, text=True, stdin=subprocess.DEVNULL).stdout.strip()


def lacking():
    """What is missing of the toolchain, in a line that is printed, and whether nothing can be done without it."""
    wanted = re.search(r"`(logic [0-9a-f]+)`", (TOP / "README.md").read_text())[1]
    if not shutil.which("rt"):
        return f"there is no command rt on the path: README.md names the Rattle toolchain that it belongs to ({wanted})", True
    if not version().endswith(f" {wanted}"):
        return f"rt version prints {version()}, and README.md names {wanted}: proofs may fail", False
    return "", False


def toolchain():
    """Says what is missing of the toolchain; the exit status."""
    line, ends = lacking()
    if line:
        print(line, flush=True)
    return 1 if ends else 0


def errors(lines):
    """Of what the prover printed the lines that say where a proof failed, and what the goal was: at most so many as are shown."""
    found, inside = [], False
    for line in lines:
        begins = re.match(r"(note: )?\S+:\d+:\d+: (error|it is not proved)|error|(fn|enum|struct|trait|impl) .*?: (not proved|no proof|could not tell)", line)
        inside = bool(begins) or (inside and line.startswith(" "))
        if inside and line not in found:
            found.append(line[:WIDTH])
    return found[:SHOWN] or [line[:WIDTH] for line in lines if line.strip()][-SHOWN:]


def tell(minutes, crate, what):
    """Prints a line of progress."""
    print(f"{minutes:5.1f} min  {crate:20} {what}", flush=True)


def tell_failure(minutes, crate, what, lines):
    """Prints that a crate failed, with its errors, and keeps both for the end."""
    FAILED.mkdir(parents=True, exist_ok=True)
    text = "".join(f"    {line}\n" for line in errors(lines))
    (FAILED / crate).write_text(f"{crate}: {what}\n{text}")
    tell(minutes, crate, what)
    print(text, end="", flush=True)


def failed():
    """What failed, as it was told."""
    return [path.read_text() for path in sorted(FAILED.iterdir())] if FAILED.exists() else []


def made(command):
    """Runs a `make` of crates, and then shows again what failed: the exit status."""
    shutil.rmtree(FAILED, ignore_errors=True)
    with subprocess.Popen(command, close_fds=False) as process:  # make hands its jobs on by open files
        try:
            status = process.wait()
        except BaseException:
            process.terminate()
            raise
    print("".join(failed()), end="", flush=True)
    return status


def end_by_signals():
    """Has a signal end this process as an exception does, so that temporary folders are removed; a second signal doesn't disturb that."""
    ends = [it for it in (signal.SIGHUP, signal.SIGINT, signal.SIGTERM) if signal.getsignal(it) != signal.SIG_IGN]

    def end(number, _):
        for it in ends:
            signal.signal(it, signal.SIG_IGN)
        sys.exit(128 + number)

    for it in ends:
        signal.signal(it, end)


def followed(command, folder, log, each, temporary=None):
    """Runs a command, with what it prints into a log and line by line to a call: the exit status."""
    log.parent.mkdir(parents=True, exist_ok=True)
    streams = {"stdin": subprocess.DEVNULL, "stdout": subprocess.PIPE, "stderr": subprocess.STDOUT}
    environment = {**os.environ, "TMPDIR": temporary} if temporary else None
    how = {"cwd": folder, "env": environment, "text": True, "errors": "replace", "start_new_session": True, **streams}
    with log.open("w") as out, subprocess.Popen(command, **how) as process:
        try:
            for line in process.stdout:
                out.write(line)
                out.flush()
                each(line.rstrip("\n"))
        except BaseException:
            os.killpg(process.pid, signal.SIGTERM)
            process.stdout.read()  # until all that it started have ended too
            raise
    return process.returncode


def temporary():
    """A folder for the prover's own files, some thousands a crate: in memory, where there is room."""
    memory = Path("/dev/shm")
    has_room = os.access(memory, os.W_OK) and shutil.disk_usage(memory).free > SHARED_MEMORY
    return tempfile.TemporaryDirectory(prefix="rnxcmp-", dir=memory if has_room else None)


def sum_of_sources():
    """A sum of all that a program is proved of: the crates' files, and which toolchain there is."""
    found = hashlib.sha256(version().encode())
    files = [path for part in ("src", "specs", "proofs") for path in sorted(CRATES.glob(f"*/{part}/**/*")) if path.is_file()]
    for path in (TOP / "crates.txt", *files):
        found.update(f"{path.relative_to(TOP)} {hashlib.sha256(path.read_bytes()).hexdigest()}\n".encode())
    return found.hexdigest()


def proved_of(crate):
    """The sum of the sources of which a program or a static library was proved last. The name may go on with `@` and a machine."""
    path = PROVED / f"{crate}.sum"
    return path.read_text() if path.exists() else ""


def proof(crate, command):
    """Runs a command that proves and builds a crate, in its folder: the exit status. The name may go on with `@` and a machine."""
    (FAILED / crate).unlink(missing_ok=True)
    PROVED.mkdir(parents=True, exist_ok=True)
    place = CRATES / crate.partition("@")[0]
    (place / "out").mkdir(exist_ok=True)
    lines, began, sources = [], time.monotonic(), sum_of_sources() if place.name in OBJECTS else ""
    with temporary() as folder:
        status = followed(command, place, LOGS / crate, lines.append, folder)
    minutes = (time.monotonic() - began) / 60
    functions = next((found[1] for line in lines if (found := re.match(r"logic=proved functions=(\d+)", line))), "")
    if status:
        tell_failure(minutes, crate, "NOT PROVED", lines)
    else:
        if sources:
            (PROVED / f"{crate}.sum").write_text(sources)
        tell(minutes, crate, f"proved, {functions} functions")
    return status


class Gate:
    """Reads what `rt ci` prints, and says it in a line a crate, with the minutes so far."""

    def __init__(self):
        self.began = time.monotonic()
        self.section = []  # what was printed since the last title of a crate
        self.functions = ""
        self.refused = {}  # edits that the prover refused, by crate
        self.tests = ""

    def say(self, crate, what):
        tell((time.monotonic() - self.began) / 60, crate, what)

    def say_failure(self, crate, what):
        tell_failure((time.monotonic() - self.began) / 60, crate, what, self.section)

    def read(self, line):
        if line.startswith("== "):
            self.section = []
        self.section.append(line)
        if found := re.match(r"logic=proved functions=(\d+)", line):
            self.functions = found[1]
        if found := re.match(r"rt: (\S+?)(: its tests are)? (proved|NOT PROVED)", line):
            good = found[3] == "proved"
            tests = "its tests are " if found[2] else ""
            count = f", {self.functions} functions" if good and not tests and self.functions else ""
            (self.say if good else self.say_failure)(found[1], f"{tests}{found[3]}{count}")
            self.functions = ""
        elif found := re.match(r"rt: (\S+): trying its must-fail edits \((\d+)\)", line):
            self.say(found[1], f"wrong bodies that are being tried: {found[2]}")
        elif found := re.match(r"rt: must-fail ([^/]+)/\S+ refused", line):
            self.refused[found[1]] = self.refused.get(found[1], 0) + 1
        elif line.startswith("rt: must-fail "):
            self.section = [line]
            self.say_failure(line.split()[2].partition("/")[0], "a wrong body isn't refused")
        elif found := re.match(r"test result: (.*)", line):
            self.tests = found[1]
        elif found := re.match(r"rt: (\S+): its tests (passed|FAILED)", line):
            self.say_edits()
            (self.say if found[2] == "passed" else self.say_failure)(found[1], f"tests: {self.tests or found[2]}")
            self.section, self.tests = [], ""
        elif found := re.match(r"rt: (\S+?) (ran\b.*)", line):
            self.say_edits()
            self.say(found[1], found[2])
        elif line.startswith(("rt: FAILED", "rt: ok;")):
            self.say_edits()
            self.say("all crates", line.removeprefix("rt: "))

    def say_edits(self):
        """The wrong bodies that were refused: the prover says it of all crates at once, before it runs the tests."""
        for crate, count in self.refused.items():
            self.say(crate, f"wrong bodies refused: {count}")
        self.refused = {}


def ci(program):
    """Runs `rt ci`, which builds the program: how many things passed and how many failed, of its last line."""
    shutil.rmtree(FAILED, ignore_errors=True)
    program.unlink(missing_ok=True)
    sources = sum_of_sources()
    objects = {path: path.read_bytes() for crate, path in OBJECTS.items() if path.exists() and proved_of(crate) == sources}  # `rt ci` removes them
    began = time.time()
    log = LOGS / "gate"
    status = followed(["rt", "ci"], TOP, log, Gate().read)
    lines = log.read_text(errors="replace").splitlines()
    found = [it for line in lines if (it := re.fullmatch(r"(\d+) passed, (\d+) failed", line))]
    passed, failed = (int(found[-1][1]), int(found[-1][2])) if found else (0, 1)
    failed = failed or (1 if status else 0)
    if not failed:
        take_over(began, objects)
    elif not FAILED.exists():
        tell_failure((time.time() - began) / 60, "gate", "rt ci failed", lines)
    return passed, failed


def take_over(began, objects):
    """Has `make`, which goes by time, take what `rt ci` passed for what it would make: a library that was proved since then is as old as it is,
    and one that is kept from an earlier run as old as this run. It takes all libraries, or none if one is missing. The program's object is that of
    `rt ci`, if it was proved now; else that object, and the archive, are those that an earlier `make` proved of the same sources."""
    made = {path.parents[2].name: path for path in CRATES.glob("*/out/rlib/*.rlib")}
    if "crx_filter" not in made:
        return
    for crate, path in made.items():
        shutil.rmtree(PROVED / path.name, ignore_errors=True)
        shutil.copytree(path, PROVED / path.name, copy_function=os.link)
        stamp, made_at = PROVED / f"{crate}.made", max((path / "format").stat().st_mtime, began)
        stamp.touch()
        os.utime(stamp, (made_at, made_at))
    for path, content in objects.items():
        if not path.exists():
            path.write_bytes(content)
    sources = sum_of_sources()
    for crate, path in OBJECTS.items():
        if path.exists():
            path.touch()
            (PROVED / f"{crate}.sum").write_text(sources)


def main():
    end_by_signals()
    word, *words = sys.argv[1:] or [""]
    if word == "toolchain":
        return toolchain()
    if word == "proof" and words:
        return proof(words[0], words[1:])
    if word == "made" and words:
        return made(words)
    print(__doc__, file=sys.stderr)
    return 2


if __name__ == "__main__":
    sys.exit(main())
