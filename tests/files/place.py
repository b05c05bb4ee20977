"""What the tests of rnxcmp-file share: inputs, a folder to work in, runs of the tool, and its promise as one function."""

import gzip
import importlib
import os
import re
import shutil
import signal
import subprocess
import sys
import tempfile
from pathlib import Path

TOP = Path(__file__).resolve().parents[2]
PACKAGE = Path(os.environ.get("RNXCMP_FILES_TESTED", TOP / "python")).resolve()
CACHE = tempfile.TemporaryDirectory()  # of what Python compiles, which no run is to leave beside the sources
os.chmod(CACHE.name, 0o777)  # some runs are another user's
LIBRARY = Path(os.environ.get("RNXCMP_LIBRARY", TOP / "out/library/librnxcmp.so.2"))
OLD = 1704067200  # the time of all files, in 2024
SECONDS = 60  # in which each run is to end
DATE = "01-Jan-24 00:00"
GOOD = (TOP / "samples/station.rnx").read_bytes()
ENVIRONMENT = {**os.environ, "PYTHONPATH": str(PACKAGE), "RNXCMP_LIBRARY": str(LIBRARY), "PYTHONPYCACHEPREFIX": CACHE.name, "LC_ALL": "C.UTF-8"}
TOOL = (sys.executable, "-S", "-m", "rnxcmp.files")  # without what a machine adds to each start of Python
for number in (signal.SIGHUP, signal.SIGINT, signal.SIGQUIT, signal.SIGTERM):  # a shell has what it starts in the background ignore some
    if signal.getsignal(number) == signal.SIG_IGN:
        signal.signal(number, signal.SIG_DFL)
ANOTHER_USER = ("setpriv", "--reuid=65534", "--regid=65534", "--clear-groups")
DIRECTIONS = {"rnx2crx": (".rnx", ".crx"), "crx2rnx": (".crx", ".rnx")}
KINDS = ("standard", "not standard", "packed", "damaged")


def changed_epoch(text, number=0):
    """The text, with something else in place of a satellite's first number, in an epoch."""
    header, *epochs = text.split(b"\n>")
    lines = epochs[number].split(b"\n")
    lines[1] = lines[1][:3] + b"x" * 14 + lines[1][17:]
    epochs[number] = b"\n".join(lines)
    return b"\n>".join([header, *epochs])


def padded(text):
    """Two blanks at the ends of all lines after the header."""
    header, end, rest = text.partition(b"\n>")
    return header + end + rest.replace(b"\n", b"  \n")


def marked(text, number):
    """The text with a marker name of its own: another valid file."""
    return re.sub(rb"(?m)^.{9}(.{51})MARKER NAME", b"MADE%05d\\1MARKER NAME" % number, text)


CHANGED = """
import os, sys
import rnxcmp._parts, rnxcmp._whole
from rnxcmp.files import main
{}
sys.exit(main(sys.argv[1:]))
"""


def differs(run, status, out=None, errors=None):
    """What is wrong with a run: another status, or texts that lack one of these."""
    wrong = [] if run.returncode == status else [f"status {run.returncode}, not {status}"]
    wrong += [f"not on standard output: {text!r}" for text in out or () if text not in run.stdout]
    wrong += [f"not on standard error: {text!r}" for text in errors or () if text not in run.stderr]
    return wrong + ([f"said: {run.stdout!r}, {run.stderr!r}"] if wrong or (run.stderr and not errors) else [])


class Texts:
    """The inputs of each direction and kind, and what each comes to, by the program."""

    def __init__(self, program):
        self.program = program
        self.known = {}
        self.strange = changed_epoch(GOOD)
        self.compact = self.filtered(GOOD, "rnx2crx", "-e", "2", "--date", DATE)
        self.plain_compact = self.filtered(GOOD, "rnx2crx", "--date", DATE)
        first, second, rest = self.plain_compact.split(b"\n", 2)
        self.foreign = b"\n".join([first, b"OTHER PROGRAM".ljust(20) + second[20:], rest])

    def filtered(self, text, *words):
        """What the program makes of a text; the same is asked for often."""
        key = (hash(text), len(text), words)
        if key not in self.known:
            self.known[key] = self.run_program(text, words)
        return self.known[key]

    def run_program(self, text, words):
        return subprocess.run([self.program, *words], input=text, capture_output=True, timeout=SECONDS).stdout

    def input(self, direction, kind):
        """The content of an input, unpacked."""
        if direction == "rnx2crx":
            return {"standard": GOOD, "not standard": padded(GOOD), "packed": GOOD, "damaged": self.strange}[kind]
        damaged = self.compact.replace(b"\n3&", b"\n3?", 1)
        return {"standard": self.plain_compact, "not standard": self.foreign, "packed": self.plain_compact, "damaged": damaged}[kind]

    def meant(self, direction, text, skip=False):
        """The RINEX that an input of a direction holds: its normal form."""
        if direction == "rnx2crx":
            text = self.filtered(text, "rnx2crx", *(["-s"] if skip else []))
            return self.filtered(text, "crx2rnx")
        return self.filtered(text, "crx2rnx", *(["-s"] if skip else []))

    def held(self, direction, output):
        """The RINEX that an output of a direction holds, or nothing where it isn't whole."""
        if direction == "crx2rnx":
            return output
        key = ("held", hash(output), len(output))
        if key not in self.known:
            run = subprocess.run([self.program, "crx2rnx"], input=output, capture_output=True, timeout=SECONDS)
            self.known[key] = run.stdout if run.returncode == 0 else None
        return self.known[key]


def unpacked(content):
    try:
        return gzip.decompress(content) if content.startswith(b"\x1f\x8b") else content
    except (OSError, EOFError):
        return None


class Place:
    """A folder to work in, whose files are known as they were."""

    def __init__(self, folder=None):
        self.holder = tempfile.TemporaryDirectory(dir=folder)
        self.work = Path(self.holder.name)

    def __enter__(self):
        return self

    def __exit__(self, *_):
        self.holder.cleanup()

    def write(self, name, content, when=OLD):
        path = self.work / name
        path.write_bytes(content)
        os.utime(path, (when, when))
        return path

    def run(self, *words, through=(), environment=None, **more):
        command = [*through, *TOOL, *words]
        return subprocess.run(command, cwd=self.work, env={**ENVIRONMENT, **(environment or {})}, capture_output=True, text=True, stdin=subprocess.DEVNULL, timeout=SECONDS, **more)

    def changed(self, script, *words, through=()):
        """A run of the tool that a script changes first."""
        command = [*through, sys.executable, "-S", "-c", CHANGED.format(script), *words]
        return subprocess.run(command, cwd=self.work, env=ENVIRONMENT, capture_output=True, text=True, stdin=subprocess.DEVNULL, timeout=SECONDS)

    def names(self):
        """All that is there, except temporary files."""
        return {path.name for path in self.work.iterdir()} - set(self.parts())

    def parts(self):
        """The temporary files that are left, also under the names that network disks give to removed files."""
        return [str(path.relative_to(self.work)) for path in self.work.rglob("*") if re.match(r"part\.|\.fuse_hidden|\.nfs", path.name)]

    def listed(self, name="list"):
        """The names in a list, or nothing if there is none."""
        path = self.work / name
        return [os.fsdecode(one).removeprefix(f"{self.work}/") for one in path.read_bytes().split(b"\0")[:-1]] if path.exists() else None


def state_of(path):
    """What an input must keep: its content and what is known of it, but for the time it was read."""
    status = os.lstat(path)
    content = os.readlink(path) if path.is_symlink() else path.read_bytes() if path.is_file() else sorted(os.listdir(path)) if path.is_dir() else None
    return (status.st_ino, status.st_mode, status.st_uid, status.st_gid, status.st_mtime_ns, content)


class Promise:
    """The promise: what was there before a run, and what is wrong after it."""

    def __init__(self, texts, direction, place, name, output, skip=False):
        self.texts, self.direction, self.skip = texts, direction, skip
        self.source, self.output = place.work / name, place.work / output
        self.before = state_of(self.source)
        self.text = unpacked(self.source.read_bytes()) if self.source.is_file() else b""
        self.old = state_of(self.output) if os.path.lexists(self.output) else None

    def meant(self):
        return self.texts.meant(self.direction, self.text, self.skip)

    def is_old(self):
        return (state_of(self.output) if os.path.lexists(self.output) else None) == self.old

    def is_new(self):
        """Whether the output is a whole new one of this input."""
        if not self.output.is_file() or self.output.is_symlink():
            return False
        text = unpacked(self.output.read_bytes())
        return text is not None and self.texts.held(self.direction, text) == self.meant()

    def broken(self, said=""):
        """What is wrong after a run that said this, as lines."""
        wrong = []
        if not os.path.lexists(self.source) or state_of(self.source) != self.before:
            wrong.append("the input was changed")
        if not self.is_old() and not self.is_new():
            wrong.append("the output is neither the old one nor the whole new one")
        if "verified exact" in said or "verified normal form" in said:
            wrong += self._false_claims(said)
        return wrong

    def _false_claims(self, said):
        text = unpacked(self.output.read_bytes()) if self.output.is_file() else None
        if text is None or self.texts.held(self.direction, text) != self.meant():
            return ["verified, and it isn't so"]
        if "verified exact" not in said:
            return []
        if self.direction == "rnx2crx":
            return [] if self.meant() == self.text else ["verified exact, and it isn't so"]
        date = self.text.split(b"\n")[1][40:60].decode().rstrip()
        again = self.texts.filtered(text, "rnx2crx", "--date", date)
        return [] if again == self.text else ["verified exact, and the input doesn't come back"]


def lacking():
    """Why nothing can be tried here, or nothing."""
    return None if LIBRARY.exists() else f"there is no library {LIBRARY}: make library"


def is_traced():
    """Whether strace may be used here."""
    return shutil.which("strace") and subprocess.run(["strace", "-o", "/dev/null", "true"], capture_output=True).returncode == 0


def checked(*modules):
    """The checks of some modules, as a test file has them."""

    def checks(program):
        if lacking():
            yield "rnxcmp-file", lacking
            return
        for module in modules:
            yield from importlib.import_module(module).checks(Texts(program))

    return checks
