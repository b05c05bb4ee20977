#!/usr/bin/env python3
"""Runs tests, each file of them as a process of its own; tests/README.md has the commands that call it.

    tests/runner.py [PATH ..]     test files, folders, or cases such as tests/cases/codes/nineteen_digits.case; without a path all
    tests/runner.py -k WORDS      tests with these words in their names: `and`, `or`, `not` and brackets join words
    tests/runner.py --gate        all, after the proofs (`rt ci`), which build the program, and the wrong bodies

A test file is a module of unittest, tests/test_*.py or tests/*/test_*.py. As many run at once as there are processors, each with a folder
of its own for temporary files; test_build.py makes the library and the other machines' programs before the files start that need them. In
the environment: PROGRAM is the program under test; SLOW=1 runs the slow tests too; with STRICT=1 a test that is skipped because this
machine lacks something has failed; SEED is the number that random tests begin with, today's date if it isn't given.

The output repeats what failed and what was skipped. Its last line is `N passed, M failed`, and the exit status is 0 if nothing failed.
"""

import argparse
import ctypes
import json
import os
import re
import resource
import shutil
import signal
import subprocess
import sys
import tempfile
import threading
import time
import traceback
import unittest
from contextlib import suppress
from datetime import date
from importlib import util
from pathlib import Path

TESTS = Path(__file__).resolve().parent
TOP = TESTS.parent
PROGRAM = Path(os.environ.get("PROGRAM") or TOP / "crates/rnxcmp/out/rnxcmp").resolve()
LIBRARY = TOP / "out/library"  # which make library made
SAMPLE = TOP / "samples/station.rnx"
VERSION = (TOP / "VERSION").read_text().strip()
SLOW, STRICT = (os.environ.get(name, "0") not in ("", "0") for name in ("SLOW", "STRICT"))
SEED = int(os.environ.get("SEED") or f"{date.today():%Y%m%d}")
AT_ONCE = len(os.sched_getaffinity(0))
BUILDING = threading.Lock()
SHOWN, WIDTH = 40, 400  # lines that are shown of a failure, and characters of a line
LIMITS = {name: int(limit) for name, limit in re.findall(r"const (\w+): \w+ = ([\d_]+);", (TOP / "crates/crx_base/src/limits.rt").read_text())}
BUILD = TESTS / "test_build.py"
BUILT = ("archives", "commands", "examples", "explain", "files", "library", "machines", "release")  # folders whose tests need what it makes
LONGEST = ("library", "release", "archives", "files", "test_writers.py", "test_streams.py", "explain", "machines")  # they start first
# programs that a command may need and a machine may lack
TOOLS = ("awk", "bash", "cmp", "find", "fish", "groff", "gzip", "less", "make", "man", "mandoc", "nproc", "parallel", "sort", "xargs", "zsh")
# the packages of Debian that tests use, each with its programs (CONTRIBUTING.md has the command that installs all)
PACKAGES = {
    **{name: name for name in ("cmake", "fish", "g++", "gcc", "gfortran", "git", "groff", "less", "lintian", "make", "mandoc", "parallel", "sshfs")},
    **{name: name for name in ("pkg-config", "strace", "valgrind", "zsh")},
    **{"binutils": "nm readelf", "gnupg": "gpg", "man-db": "man", "rtklib": "rnx2rtkp", "libc6-dev": "", "openssh-sftp-server": "", "python3-venv": ""},
    **{"musl-tools": "musl-gcc", "gcc-aarch64-linux-gnu": "aarch64-linux-gnu-gcc", "libc6-dev-arm64-cross": "", "qemu-user": "qemu-x86_64 qemu-aarch64"},
    **{"bindfs": "bindfs", "exfat-fuse": "mount.exfat-fuse", "exfatprogs": "mkfs.exfat", "ntfs-3g": "ntfs-3g mkfs.ntfs"},
    **{"gcc-mingw-w64-x86-64": "x86_64-w64-mingw32-gcc", "wine": "wine wineserver", "wine64": ""},
}


# ---- what tests use


def slow(test):
    """Marks a test or a class of tests that runs only with SLOW=1."""
    test.is_slow = True
    return test


def need(*programs):
    """Skips the test, class or module that calls this if the machine lacks a program."""
    for name in programs:
        if not shutil.which(name):
            raise unittest.SkipTest(f"there is no {name}")
        if name == "strace" and subprocess.run(["strace", "-o", "/dev/null", "true"], capture_output=True).returncode:
            raise unittest.SkipTest("strace may not trace here")


def need_library():
    """Skips the test, class or module that calls this if the library isn't made."""
    if not (LIBRARY / "librnxcmp.so.2").exists():
        raise unittest.SkipTest("there is no library: make library")


def kept_folder(test):
    """A new folder, which is there until a test, or the tests of a class, have run."""
    kept = tempfile.TemporaryDirectory()
    (test.addClassCleanup if isinstance(test, type) else test.addCleanup)(kept.cleanup)
    return Path(kept.name)


def with_messages(words, call):
    """Calls a run with these arguments, whose answer ends with messages and status. Under Wine, which loses the messages of one run in some
    thousands, a run that should have said something and didn't is made once more, and noted in the file that WINE_LOST names, whose length
    is limited (machines). A check says nothing if it ends with 2."""
    answer = call()
    if os.environ.get("WINE_LOST") and answer[-1] in ((1,) if words[:1] in (["check"], ("check",)) else (1, 2)) and not answer[-2]:
        with open(os.environ["WINE_LOST"], "a") as lost:
            lost.write("x")
        answer = call()
    return answer


def run(*words, given=b"", seconds=120, **more):
    """Runs the program: its output, messages and status."""

    def call():
        done = subprocess.run([PROGRAM, *words], input=given, capture_output=True, timeout=seconds, **more)
        return done.stdout, done.stderr, done.returncode

    return with_messages(words, call)


def wrong_run(command, seconds=600, **more):
    """What is wrong with a run of a command that is to end with status 0: its last lines."""
    command = [str(word) for word in command]
    done = subprocess.run(command, stdout=subprocess.PIPE, stderr=subprocess.STDOUT, text=True, errors="replace", timeout=seconds, **more)
    return [] if done.returncode == 0 else [f"{command[0]}: status {done.returncode}", *done.stdout.splitlines()[-20:]]


def files_in(folder):
    """The files below a folder, each with its content."""
    return {str(path.relative_to(folder)): path.read_bytes() for path in Path(folder).rglob("*") if path.is_file()}


def files_below(folder):
    """The files below a folder in which other processes are at work: a folder that goes meanwhile is passed over."""
    return [Path(top) / name for top, _, names in os.walk(folder) for name in names]


def install(program, prefix):
    """Installs the program and the tool for whole files below a folder, as make install does: what failed, as lines, or why it can't be."""
    if not (LIBRARY / "librnxcmp.so.2").exists():
        return "there is no library: make library"
    done = subprocess.run([TOP / "packaging/install.sh", prefix, program, LIBRARY], capture_output=True, text=True, timeout=60)
    return [] if done.returncode == 0 and not done.stderr else [f"status {done.returncode}, {done.stderr!r}"]


def missing_tools(command):
    """The programs that a command names and this machine lacks."""
    return [tool for tool in TOOLS if re.search(rf"(?<![\w./-]){tool}(?![\w./-])", command) and not shutil.which(tool)]


def not_here():
    """The programs that some tests use and this machine lacks."""
    return [tool for tools in PACKAGES.values() for tool in tools.split() if not shutil.which(tool)]


def own_mounts():
    """Lets this process, if it is root's, see disks alone that it mounts."""
    if os.geteuid() == 0 and ctypes.CDLL(None).unshare(0x00020000) == 0:  # CLONE_NEWNS
        subprocess.run(["mount", "--make-rprivate", "/"], check=True)


def clang():
    """A command that compiles C for this machine without its C library: CC, or the toolchain's."""
    if os.environ.get("CC"):
        return [os.environ["CC"]]
    if not shutil.which("rt"):
        raise unittest.SkipTest("there is neither rt nor CC")
    return [str(Path(shutil.which("rt")).resolve().parents[1] / "toolchain/bin/clang"), "-fuse-ld=lld"]


def preload():
    """The library that stands before the C library, made of preload.c."""
    built = Path(tempfile.gettempdir()) / "preload.so"
    with BUILDING:
        if not built.exists():
            subprocess.run([*clang(), "-O1", "-shared", "-fPIC", "-nostdlib", "-o", built, TESTS / "preload.c"], check=True)
    return str(built)


def preloaded(**environment):
    """An environment in which preload.c stands before the C library of the program and is told what to do."""
    if b"/ld-" not in PROGRAM.open("rb").read(4096):
        raise unittest.SkipTest("the program isn't linked with a shared C library")
    return {**os.environ, "LD_PRELOAD": preload(), **environment}


# ---- a file of tests, in a process of its own


class Check(unittest.TestCase):
    """A test with a name, of a call: it returns what is wrong, as lines, or a text that says why it can't be tried."""

    def __init__(self, name, call):
        super().__init__("runTest")
        self.name, self.call = name, call

    def runTest(self):
        wrong = self.call()
        if isinstance(wrong, str):
            self.skipTest(wrong)
        if wrong:
            self.fail("\n".join(wrong))

    def id(self):
        return self.name


class Loader(unittest.TestLoader):
    """Makes tests of the methods that begin with `test`; a class that has just `runTest` is made by `load_tests` of its module."""

    def loadTestsFromTestCase(self, kind):
        return self.suiteClass(map(kind, self.getTestCaseNames(kind)))


class Result(unittest.TestResult):
    """Prints a line for each test, and counts them."""

    def __init__(self, file):
        super().__init__()
        self.file, self.passed, self.failed, self.wrong, self.skips = file, 0, 0, [], []
        self.lines, self.reason, self.begun = None, "", 0

    def name_of(self, test):
        """A test's name: as it says itself, or its file, class and method."""
        name = test.id()
        if getattr(test, "_testMethodName", "runTest") != "runTest":
            name = ".".join(name.split(".")[-2:])
        return name if name.startswith("tests/") else f"{self.file} {name}"

    def startTest(self, test):
        self.lines, self.reason, self.begun = [], "", time.monotonic()

    def told(self, error):
        """A failure in lines: where it is, unless a call said it, and what is wrong."""
        kind, value, trace = error
        if isinstance(value, subprocess.TimeoutExpired):
            return [f"it didn't end within {value.timeout:.0f} seconds: {value.cmd}"[:WIDTH]]
        frames = [frame for frame in traceback.extract_tb(trace) if "/unittest/" not in frame.filename]
        where = [f"{Path(frame.filename).name}:{frame.lineno}: {frame.line}" for frame in frames if frame.name != "runTest"]
        text = str(value) if kind is AssertionError else f"{kind.__name__}: {value}"
        return [line[:WIDTH] for line in [*where[-3:], *text.splitlines()]][:SHOWN]

    def addError(self, test, error):
        if self.lines is None:  # of a class or a module, before its tests
            self.startTest(test)
            self.lines += self.told(error)
            self.stopTest(test)
        else:
            self.lines += self.told(error)

    addFailure = addError

    def addSubTest(self, test, subtest, error):
        if error:
            self.lines += [f"{subtest._subDescription()}:"[:WIDTH], *self.told(error)]

    def addSkip(self, test, reason):
        if self.lines is None:
            self.startTest(test)
            self.reason = reason
            self.stopTest(test)
        else:
            self.reason = reason

    def stopTest(self, test):
        name, seconds = self.name_of(test), time.monotonic() - self.begun
        if self.reason and not self.lines:
            self.skips.append((self.reason, name))
            print(f"{name} ... skipped: {self.reason}", flush=True)
        else:
            self.failed, self.passed = self.failed + bool(self.lines), self.passed + (not self.lines)
            lines = [f"{name} ... {'FAILED' if self.lines else 'ok'} ({seconds:.1f} s)", *(f"    {line}" for line in self.lines)]
            print(*lines, sep="\n", flush=True)
            self.wrong += lines if self.lines else []
        self.lines = None


def fits(name, words):
    """Whether a test's name has the words: phrases with `and`, `or`, `not` and brackets between them."""
    name, parts = name.lower().replace("_", " "), re.split(r"([()]|\band\b|\bor\b|\bnot\b)", words.lower().replace("_", " "))
    found = [part if at % 2 else str(part.strip() in name) if part.strip() else "" for at, part in enumerate(parts)]
    return not words or bool(eval(" ".join(found), {"__builtins__": {}}))


def flat(suite):
    for test in suite:
        yield from flat(test) if isinstance(test, unittest.TestSuite) else [test]


def run_here(path, prefixes, words, result_path):
    """Runs a file's tests in this process, and writes their counts."""
    file = str(path.relative_to(TOP))
    result = Result(file)
    sys.path[:0] = [str(path.parent), str(TESTS)]
    spec = util.spec_from_file_location(path.stem, path)
    module = sys.modules[path.stem] = util.module_from_spec(spec)
    left = 0
    try:
        spec.loader.exec_module(module)
        if hasattr(module, "checks"):
            slow_ones = getattr(module, "slow_checks", None)
            left = 1 if slow_ones and not SLOW else 0
            for checks in (module.checks, *([slow_ones] if slow_ones and SLOW else [])):
                for name, call in checks(PROGRAM):
                    if fits(f"{file} {name}", words):
                        Check(name, call).run(result)
        else:
            loader = Loader()
            found = [test for test in flat(loader.loadTestsFromModule(module)) if fits(result.name_of(test), words)]
            found = [test for test in found if not prefixes or result.name_of(test).startswith(tuple(prefixes))]
            is_slow = lambda test: getattr(test, "is_slow", False) or getattr(getattr(test, test._testMethodName), "is_slow", False)
            chosen = [test for test in found if SLOW or not is_slow(test)]
            left = len(found) - len(chosen)
            unittest.TestSuite(chosen).run(result)
    except BaseException as error:
        if isinstance(error, (SystemExit, KeyboardInterrupt)):
            raise
        result.addError(unittest.FunctionTestCase(lambda: None, description=file), sys.exc_info())
    result_path.write_text(json.dumps((result.passed, result.failed, result.wrong, result.skips, left)))


# ---- all files


def files_of(paths):
    """The test files that paths name, each with the cases of it that are named."""
    every = sorted({*TESTS.glob("test_*.py"), *TESTS.glob("*/test_*.py"), *TESTS.glob("*/checks.py")})
    if not paths:
        return {path: [] for path in every}
    found = {}
    for path in (Path(name).resolve() for name in paths):
        some = [it for it in every if it == path or path in it.parents]
        owner = next((it for it in (TESTS / "test_cases.py", *every) if path.is_relative_to(it.parent / it.stem.removeprefix("test_"))), None)
        if not path.exists() or not (some or owner):
            raise SystemExit(f"no tests in {path}")
        for it in some or [owner]:
            found.setdefault(it, []).extend([] if some else [str(path.relative_to(TOP))])
    return found


def needs_build(path):
    return path.parent.name in BUILT


def order(path):
    names = [path.name, path.parent.name]
    return path != BUILD, min((place for place, name in enumerate(LONGEST) if name in names), default=len(LONGEST)), str(path)


def side_by_side(files, words):
    """Runs files in processes, as many at once as there are processors: the outcome of each."""
    if any(needs_build(path) for path in files) and not words:  # tests by name take what is there
        machines = any(path.parent.name in ("machines", "release") for path in files)
        files = {**files, BUILD: [] if machines else ["tests/test_build.py Build.test_python"]}
    outcomes, waiting, running = [], sorted(files, key=order), {}
    with tempfile.TemporaryDirectory(prefix="rnxcmp-tests-") as name:
        top = Path(name)
        top.chmod(0o755)  # some runs are another user's
        try:
            while waiting or running:
                while len(running) < AT_ONCE:
                    building = BUILD in waiting or BUILD in running
                    path = next((it for it in waiting if not (building and needs_build(it))), None)
                    if not path:
                        break
                    waiting.remove(path)
                    folder = top / str(path.relative_to(TESTS)).replace("/", "-")
                    (folder / "temporary").mkdir(parents=True)
                    command = [sys.executable, __file__, "--one", path, "--result", folder / "result", *files[path]]
                    command += ["-k", words] if words else []
                    with (folder / "printed").open("wb") as printed:
                        own = {**os.environ, "TMPDIR": str(folder / "temporary"), "SEED": str(SEED), "PROGRAM": str(PROGRAM)}
                        streams = {"stdin": subprocess.DEVNULL, "stdout": printed, "stderr": subprocess.STDOUT}
                        running[path] = subprocess.Popen(command, env=own, start_new_session=True, **streams), time.monotonic(), folder
                for path, (process, begun, folder) in [*running.items()]:
                    if process.poll() is not None:
                        del running[path]
                        file = path.relative_to(TOP)
                        found = json.loads((folder / "result").read_text()) if (folder / "result").exists() else None
                        found = found or (0, 1, [f"{file} ... FAILED", f"    its process ended with status {process.returncode}"], [], 0)
                        outcomes.append(found)
                        printed = (folder / "printed").read_text(errors="replace")
                        if printed or not words:
                            print(f"{printed}== {file}: {found[0]} passed, {found[1]} failed, {time.monotonic() - begun:.0f} s", flush=True)
                time.sleep(0.05)
        finally:
            for process, *_ in running.values():
                os.killpg(process.pid, signal.SIGTERM)
            for process, *_ in running.values():
                with suppress(subprocess.TimeoutExpired):
                    process.wait(timeout=20)
                with suppress(ProcessLookupError):
                    os.killpg(process.pid, signal.SIGKILL)
    return outcomes


def timed(part, call):
    """Runs a part of the gate, and prints how many minutes it took."""
    begun, before = time.monotonic(), resource.getrusage(resource.RUSAGE_CHILDREN)
    found = call()
    after = resource.getrusage(resource.RUSAGE_CHILDREN)
    used = after.ru_utime + after.ru_stime - before.ru_utime - before.ru_stime
    print(f"== {part}: {(time.monotonic() - begun) / 60:.1f} minutes, {used / 60:.1f} of a processor", flush=True)
    return found


def gate():
    """The proofs and the wrong bodies: outcomes as of a file."""
    import prove
    import wrong_bodies

    proofs = (*timed("rt ci", lambda: prove.ci(PROGRAM)), [text.rstrip() for text in prove.failed()], [], 0)
    return [proofs] if proofs[1] else [proofs, (*timed("wrong bodies", lambda: wrong_bodies.main([])), [], [], 0)]


def all_parts(arguments, files):
    """The gate, if it is asked for, and the tests: their outcomes."""
    outcomes = gate() if arguments.gate else []
    if not PROGRAM.exists():
        return [*outcomes, (0, 1, [f"there is no program {PROGRAM}: make"], [], 0)]
    print(f"seed {SEED} (SEED= gives another)", flush=True)
    return outcomes + timed("tests", lambda: side_by_side(files, arguments.words))


def main():
    parser = argparse.ArgumentParser(description=__doc__, formatter_class=argparse.RawDescriptionHelpFormatter)
    parser.add_argument("paths", nargs="*")
    parser.add_argument("-k", default="", metavar="WORDS", dest="words")
    parser.add_argument("--gate", action="store_true")
    parser.add_argument("--one", type=Path, help=argparse.SUPPRESS)  # in this process
    parser.add_argument("--result", type=Path, help=argparse.SUPPRESS)
    arguments = parser.parse_args()
    sys.path.insert(0, str(TESTS))
    import prove

    prove.end_by_signals()
    if arguments.one:
        return run_here(arguments.one, arguments.paths, arguments.words, arguments.result)
    try:
        fits("", arguments.words)
    except SyntaxError:
        parser.error(f"-k {arguments.words}: phrases with and, or, not and brackets between them")
    files, missing = files_of(arguments.paths), not_here()
    without = f"not found here: {', '.join(missing)}; CONTRIBUTING.md has the command that installs all"
    if arguments.gate and ((STRICT and missing) or prove.toolchain()):
        print(f"STRICT, and {without}" if STRICT and missing else "the gate can't start", "0 passed, 1 failed", sep="\n")
        return 1
    outcomes = timed("all", lambda: all_parts(arguments, files))
    passed, failed, slow_ones = (sum(it[place] for it in outcomes) for place in (0, 1, 4))
    wrong, skips = ([line for it in outcomes for line in it[place]] for place in (2, 3))
    print(*wrong, *(["skipped:"] if skips else []), sep="\n", end="\n" if wrong or skips else "")
    for reason in dict.fromkeys(reason for reason, _ in skips):
        names = [name for why, name in skips if why == reason]
        print(f"    {reason}, {len(names)}: {', '.join(names)}")
    for line in (without if missing else "", f"slow tests that didn't run: {slow_ones} (SLOW=1)" if slow_ones else ""):
        print(line, end="\n" if line else "")
    failed += len(skips) if STRICT else 0
    if passed + failed == 0:
        print("no test has such a name")
    print(f"{passed} passed, {failed} failed")
    return 1 if failed or passed == 0 else 0


if __name__ == "__main__":
    sys.exit(main())
