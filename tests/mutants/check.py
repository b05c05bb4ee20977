#!/usr/bin/env python3
"""What sees a planted bug: check.py FOLDER PROGRAM COPY MADE FILE (mutants.py). The tests in COPY that are about the bugs of a folder
run up to the first that fails: those that are about FILE first, and those over many files last. What has seen the bug is printed, with
status 1."""

import os
import resource
import subprocess
import sys
import tempfile
import unittest
from contextlib import redirect_stdout
from pathlib import Path

FOLDER = sys.argv[1]
PROGRAM, COPY, MADE = (Path(word).resolve() for word in sys.argv[2:5])
FILE = Path(sys.argv[5])
sys.dont_write_bytecode = True
NOT_KNOWN = 3  # the status if a check didn't end in time or lacks something, and no other has seen anything
SECONDS = 300  # in which a test is to end
OF_A_PROCESSOR = 15  # seconds in which each program over the library is to end, however busy the machine is: one that doesn't never ends
ABOUT = {  # words in the names of the checks that are about a file
    "_explain.py": ("the command", "never raises", "far lines", "one too", "CR", "cut"),
    "_columns.py": ("in a number", "indicator", "flag", "text after", "in a code"),
    "_causes.py": (".crx", "the command"),
    "_parts.py": ("order", "modes", "access", "disks", "outputs that", "signals"),
    "_whole.py": ("ways back", "cut files", "lists of", "inputs that", "bytes that", "links", "no epoch", "order", "refusals", "archives", "from python"),
    "_names.py": ("names",),
    "_on_disk.py": ("from python",),
    "_packed.py": ("packs", "archives"),
    "_workers.py": ("processes", "archives"),
    "files.py": ("lists", "signals", "choices", "processes", "cut files", "lines", "refusals"),
}
OF_LANGUAGE = {".py": ("test_python",), ".f90": ("test_library.Library.test_fortran", "test_library.Library.test_sizes")}
# The files that are looked at by each check, beside all, without a bug.
SCRIPTS = ("quoted.sh", "install.sh", "uninstall.sh", "machine.sh", "dist.sh")
PACKED = ("dist.sh", "deb.sh", "parts.py", "zipped.py", "install_library.sh", "install_pages.sh", "machine.sh", "build_windows.sh")
OF_WINDOWS = ("zipped.py", "build_windows.sh")  # of those
LINKED = {"aarch64": ("os.c", "archive.sh", "build.sh"), "windows": ("windows.c", "archive.sh", "build_windows.sh")}


class NotBuilt(Exception):
    """The files can't be built, which isn't seeing a bug."""


class Lacks(Exception):
    """The machine lacks something, which isn't seeing a bug either."""


def of_explain(work):
    import checks

    return sorted(checks.checks(PROGRAM), key=lambda check: check[0] in checks.OVER_MANY)


def of_files(work):
    os.environ["RNXCMP_FILES_TESTED"] = str(COPY / "python")
    import faults
    import matrix
    import options
    import promises
    import signals
    import table
    from place import Texts

    texts = Texts(PROGRAM)
    return [check for module in (table, promises, options, matrix, faults, signals) for check in module.checks(texts)]


def tests_in(*names):
    """The tests of modules or classes as checks, each of which runs in a process of its own."""
    from runner import flat

    for test in flat(unittest.defaultTestLoader.loadTestsFromNames(names)):
        yield test.id(), lambda name=test.id(): found_by(name)


def found_by(name):
    """What is wrong in a test: the last line that says so, or none."""
    own = {**os.environ, "PYTHONPATH": os.pathsep.join(str(COPY / "tests" / folder) for folder in ("", FOLDER, "machines"))}
    run = subprocess.run([sys.executable, "-m", "unittest", "-q", name], env=own, capture_output=True, text=True, errors="replace", timeout=SECONDS)
    lines = run.stderr.splitlines() or [f"status {run.returncode}"]
    return [] if run.returncode == 0 else [next((line for line in reversed(lines) if ": " in line), lines[-1])]


def of_library(work):
    """Builds the library of the copy over the proved archive."""
    os.environ["PYTHONDONTWRITEBYTECODE"] = "1"
    os.environ["PROVED"] = str(MADE / "crates/rnxcmp_c/out/librnxcmp_c.a")
    resource.setrlimit(resource.RLIMIT_CPU, (OF_A_PROCESSOR, resource.getrlimit(resource.RLIMIT_CPU)[1]))
    run = subprocess.run([COPY / "library/build.sh", os.environ["PROVED"], COPY / "out/library"], capture_output=True, text=True)
    if run.returncode:
        raise NotBuilt(run.stderr)
    return tests_in("test_library.Library", "test_python")


def made_twice(release, work):
    """A release is the same twice, each time made anew, and what is in it is whole."""
    one, two = work / "one", work / "two"
    for place in (one, two):
        wrong = release.made(PROGRAM, place, top=COPY, again=("windows",) if not FILE.name or FILE.name in OF_WINDOWS else (), KEY="")
        if wrong:
            return wrong
    wrong = [f"{path.name} differs" for path in sorted(one.iterdir()) if path.read_bytes() != (two / path.name).read_bytes()]
    if wrong:
        return wrong
    prefix = release.unpacked(one, work / "archive")
    return release.check_archive(prefix) or release.check_package(one, work / "package") or release.check_found(prefix, work / "usr")


def of_release(work):
    """The scripts of the copy make a release of what is proved for all machines, and the checks that are about the file look at it."""
    sys.path[:0] = [str(COPY / "tests/release"), str(COPY / "tests/machines")]
    import machines
    import test_release as release

    release.PROVED, release.MACHINES = MADE / "crates/rnxcmp_c/out/librnxcmp_c.a", MADE / "out/machines"
    lacking = {it.lacking() for it in machines.MACHINES} - {""}
    if lacking or not (MADE / "out/machines/windows/made").exists():
        raise Lacks(f"not here: {', '.join(sorted(lacking)) or 'what make dist makes for all machines'}")
    about = [not FILE.name or FILE.name in some for some in (SCRIPTS, ("retarget.py",), PACKED)]
    if about[0]:
        yield from tests_in("test_names")
    if about[1]:
        yield from tests_in("test_retargeting")
    if about[2]:
        yield "made twice", lambda: made_twice(release, work)
    for machine in machines.MACHINES:
        if machine.name in LINKED and (not FILE.name or FILE.name in LINKED[machine.name]):
            place = work / "one-machines"  # where release.made makes them too
            objects = [MADE / "out/machines" / path for path in release.OBJECTS[machine.name]]
            if not (place / machine.name).exists():
                run = subprocess.run([COPY / "packaging/machine.sh", machine.name, *objects, place / machine.name / "built"], capture_output=True, text=True)
                if run.returncode:
                    raise NotBuilt(run.stderr)
            os.environ["MACHINES"] = str(place)
            yield from (it for it in tests_in(f"test_machines.{machine.name}") if "cases" not in it[0])


def is_other(check):
    """Whether a check isn't about the file."""
    return not (any(word in check[0] for word in ABOUT.get(FILE.name, ())) or check[0].startswith(OF_LANGUAGE.get(FILE.suffix, "-")))


def main(work):
    late = ""
    os.environ.setdefault("RNXCMP_LIBRARY", str(MADE / "out/library/librnxcmp.so.2"))
    os.environ["PROGRAM"] = str(PROGRAM)
    sys.path[:0] = [str(COPY / "tests" / FOLDER), str(COPY / "tests")]
    COPY.chmod(0o755)  # some runs are another user's
    try:
        found = {"files": of_files, "explain": of_explain, "library": of_library, "release": of_release}[FOLDER](work)
        for name, check in found if FOLDER == "release" else sorted(found, key=is_other):
            try:
                with redirect_stdout(sys.stderr):  # a check may print how often it tried
                    wrong = check()
            except subprocess.TimeoutExpired as error:  # which may be the machine's fault
                late, wrong = f"{name}: {error}", []
            except Exception as error:  # what can't go on has seen it too
                wrong = [repr(error)]
            if wrong and not isinstance(wrong, str):
                print(f"{name}: {wrong[0][:150]}".replace("\n", " "))
                return 1
    except NotBuilt as failed:
        print(f"{failed}"[-300:])
        return 2
    except Lacks as lacking:
        late = str(lacking)
    print(late, end="")
    return NOT_KNOWN if late else 0


if __name__ == "__main__":
    with tempfile.TemporaryDirectory() as name:
        status = main(Path(name))
    sys.exit(status)
