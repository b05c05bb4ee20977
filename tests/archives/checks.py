"""Each recipe of docs/ARCHIVES.md as it stands there, on files that are made up here, and the script that they call.

The blocks are run one after another in one folder. A block that names a program which the machine lacks is left out.
"""

import gzip
import os
import re
import runpy
import shutil
import subprocess
import sys
import tempfile
from pathlib import Path

from runner import install, missing_tools, own_mounts

sys.path.insert(0, str(Path(__file__).parent))
import hostile  # noqa: E402
import many  # noqa: E402
from many import recipes  # noqa: E402

TOP = Path(__file__).resolve().parents[2]
SAMPLE = TOP / "samples/station.rnx"
OLD = 1704067200  # the time of all files, in 2024
# what a recipe prints, among other things
WANTED = {
    "find and xargs": ["see messages.txt", "archive/bad_MO.rnx: ERROR line 1 code 3", "archive/strange_MO.rnx: WARNING line"],
    "GNU parallel, with a job log": ["0\trnxcmp-file rnx2crx --gzip archive/abcd0010.24o", "1\trnxcmp-file rnx2crx --gzip archive/faulty.24o"],
    "make": ["some files failed"],
    "An array job of a batch system": ["job 0: status", "job 1: status", "status 123"],
    "RINEX 2 and 4 beside RINEX 3": ["archive/two.24o\n", "some files failed"],
    "A compaction every night": ["the messages say which files aren't verified", "files: 2 made, 0 replaced, 0 there already, 3 errors; verified: 2 exact, 0 normal form"],
    "A nightly check of observation files": [
        "archive/bad_MO.rnx: ERROR line",
        "archive/faulty.24o: ERROR line",
        "archive/padded.24o: standard no",
        "reports/archive/padded.24o.txt:standard no 32, blanks at its end\n",
        " 2  blanks at its end\n",
    ],
    "A page of the archive": ["see archive.html"],
    "Checksums before and after": ["the same sums"],
    "Do the files come back?": ["the messages say which"],
    "Other programs that read the files": ["the same"],
    "Damaged compact files": ["\n"],
}
ELSEWHERE = ("GNU parallel over several machines",)  # recipes that need other machines
# what stands after a recipe, and what doesn't
LEFT = {
    "find and xargs": (["a_MO.crx", "sub/b_MO.crx", "packed_MO.crx.gz", "strange_MO.crx"], ["bad_MO.crx"]),
    "GNU parallel, with a job log": (["abcd0010.24d.gz", "padded.24d.gz"], ["faulty.24d.gz"]),
    "make": (["abcd0010.24d", "abcd0020.24d", "padded.24d"], ["faulty.24d", "two.24d"]),
    "A page of the archive": (["../archive.html"], []),
    "A compaction every night": (["a_MO.crx.gz", "sub/b_MO.crx.gz"], ["bad_MO.crx.gz", "strange_MO.crx.gz"]),
}


def of_epochs(count):
    """A text of so many epochs of one satellite, one each 30 seconds."""
    texts = (b"> 2024 01 01 %02d %02d %2d.0000000  0  1\nG02  %d.000\n" % (k // 120, k // 2 % 60, k % 2 * 30, 20000000 + k) for k in range(count))
    return SAMPLE.read_bytes().partition(b"\n>")[0] + b"\n" + b"".join(texts)


def make_files(program, folder):
    """Good files, one of them packed; one with a strange epoch, and one that is no observation file; one that is delivered again, with
    blanks at the ends of lines, beside the packed compact file of its first half; and with a year's ending two good ones, one with blanks at
    the ends of all epochs' lines, one with a blank line at its end, and one of RINEX 2. All are hours old."""
    good = SAMPLE.read_bytes()
    lines = good.split(b"\n")
    first = next(k for k, line in enumerate(lines) if line.startswith(b">"))
    strange = list(lines)
    strange[first + 1] = strange[first + 1][:3] + b"x" * 14 + strange[first + 1][17:]
    archive = folder / "archive"
    (archive / "sub").mkdir(parents=True)
    for name in ("a_MO.rnx", "sub/b_MO.rnx", "abcd0010.24o", "abcd0020.24o"):
        (archive / name).write_bytes(good)
    (archive / "packed_MO.rnx.gz").write_bytes(gzip.compress(good))
    (archive / "strange_MO.rnx").write_bytes(b"\n".join(strange))
    (archive / "bad_MO.rnx").write_bytes(b"not RINEX\n")
    (archive / "again_MO.rnx").write_bytes(of_epochs(130).replace(b".000\n", b".000  \n"))
    compact = subprocess.run([program, "rnx2crx"], input=of_epochs(65), capture_output=True, check=True, timeout=60).stdout
    (archive / "again_MO.crx.gz").write_bytes(gzip.compress(compact))
    packed = gzip.compress(subprocess.run([program, "rnx2crx"], input=good, capture_output=True, check=True, timeout=60).stdout)
    (archive / "damaged.crx.gz").write_bytes(packed[: len(packed) // 2])
    (archive / "padded.24o").write_bytes(b"\n".join(lines[:first] + [line + b"  " for line in lines[first:-1]] + [b""]))
    (archive / "faulty.24o").write_bytes(good + b"\n")
    (archive / "two.24o").write_bytes(good.replace(b"     3.05", b"     2.11", 1))
    for path in archive.rglob("*.*"):
        os.utime(path, (OLD, OLD))


def inputs_of(work):
    """The observation files, packed or not, and the compact file of a former delivery."""
    paths = [path for pattern in ("*.rnx", "*.rnx.gz", "*.24o", "again_MO.crx.gz") for path in (work / "archive").rglob(pattern)]
    return {path: path.read_bytes() for path in paths}


def run_block(heading, block, work, environment):
    """What is wrong, as lines, or why the block is left out."""
    lacking = missing_tools(block)
    if lacking:
        return f"there is no {lacking[0]}"
    before = inputs_of(work)
    run = subprocess.run(["sh", "-c", block], cwd=work, env=environment, capture_output=True, text=True, timeout=300)
    there, absent = LEFT.get(heading, ([], []))
    missing = [line for line in WANTED[heading] if line not in run.stdout] + [name for name in there if not (work / "archive" / name).exists()]
    surplus = [name for name in absent if (work / "archive" / name).exists()] + [str(path) for path in work.rglob("*.part*")]
    wrong = [f"not there: {missing}"] * bool(missing) + [f"there: {surplus}"] * bool(surplus)
    wrong += [] if inputs_of(work) == before else ["an input was changed or removed"]
    return [*wrong, f"output: {run.stdout!r}", f"messages: {run.stderr!r}"] if wrong else []


# names of files, and the station and day that the page of an archive has for them
DAYS = {
    "abcd0010.24o": ("ABCD", "2024-01-01"), "a/abcd366x.24D.Z": ("ABCD", "2024-12-31"), "abcd001a.80o": ("ABCD", "1980-01-01"), "abcd0010.79o": ("ABCD", "2079-01-01"), "abcd3670.24o": ("ABCD", "None"),
    "abcd0000.24o": ("ABCD", "None"), "WXYZ00DEU_R_20243660000_01D_30S_MO.crx.gz": ("WXYZ00DEU", "2024-12-31"), "a/notes.txt": ("a", "None"), "abcd0010.24n": (".", "None"),
}  # fmt: skip


def check_days():
    station_and_day = runpy.run_path(str(TOP / "examples/archive_page.py"))["station_and_day"]
    found = {name: tuple(map(str, station_and_day(name))) for name in DAYS}
    return [f"{name}: {found[name]}, not {wanted}" for name, wanted in DAYS.items() if found[name] != wanted]


def check_lists(work):
    """The files that a nightly compaction lists as verified: two, with their absolute names."""
    listed = sorted((work / "verified.txt").read_text().split("\0")[:-1])
    return [] if listed == [f"{work}/archive/{name}" for name in ("a_MO.rnx", "sub/b_MO.rnx")] else [f"listed: {listed}"]


def check_rest(work):
    """The epochs before a cut of a packed file are expanded exactly, and `rnxcmp-file` makes nothing of the file."""
    rest = (work / "rest.rnx").read_bytes()
    wrong = [] if len(rest) > 4000 and SAMPLE.read_bytes().startswith(rest) else [f"{len(rest)} bytes, or not the beginning"]
    return wrong + ["something is made of it"] * (work / "archive/damaged.rnx.gz").exists()


def check_next_nights(work, environment):
    """What stands as it was isn't said again, but for what isn't accepted; where the first line that isn't standard is another one,
    that is said."""
    padded = work / "archive/padded.24o"
    wrong = []
    lines = padded.read_bytes().split(b"\n")
    first = next(k for k, line in enumerate(lines) if line.startswith(b">"))
    changed = b"\n".join([*lines[:first], lines[first].rstrip(), *lines[first + 1 :]])
    for content, more in ((padded.read_bytes(), []), (changed, ["padded.24o"])):
        padded.write_bytes(content)
        run = subprocess.run(["sh", "nightly.sh"], cwd=work, env=environment, capture_output=True, text=True, timeout=300)
        said = [line.partition(": ")[0] for line in run.stdout.splitlines()]
        wanted = [f"archive/{name}" for name in sorted(["bad_MO.rnx", "faulty.24o", "strange_MO.rnx", "two.24o", *more])]
        wrong += [] if said == wanted and not run.stderr else [f"said: {run.stdout!r}", f"messages: {run.stderr!r}"]
    return wrong


def check_reasons(work, environment):
    """The report of the night says why a file isn't standard, and says nothing of one that is."""
    good = SAMPLE.read_bytes()
    lines = good.split(b"\n")
    first = next(k for k, line in enumerate(lines) if line.startswith(b">"))
    row = lines[first + 1]
    contents = {
        "a_MO.rnx": (good.replace(b"\n", b"\r\n"), "1, CR before LF"),
        "b_MO.rnx": (good.replace(lines[first], lines[first] + b" "), f"{first + 1}, blanks at its end"),
        "c_MO.rnx": (good.replace(row, re.sub(rb" (\d)", rb"0\1", row, count=1)), f"{first + 2}, a number written otherwise"),
        "d_MO.rnx": (good[:-1], f"{len(lines) - 1}, the last line has no line end: the file may be cut off"),
        "e_MO.rnx": (good, ""),
    }
    folder = work / "reasons"
    (folder / "archive").mkdir(parents=True)
    for name, (content, _) in contents.items():
        (folder / "archive" / name).write_bytes(content)
    run = subprocess.run(["sh", str(work / "nightly.sh")], cwd=folder, env=environment, capture_output=True, text=True, timeout=60)
    wanted = [f"archive/{name}: standard no {reason}" for name, (_, reason) in contents.items() if reason]
    return [] if run.stdout.splitlines() == wanted and not run.stderr else [f"said: {run.stdout!r}, {run.stderr!r}"]


def read_by_rtklib(work, environment, name):
    """What RTKLIB says that it reads of a file: epochs, satellites, and how many observations."""
    subprocess.run(["rnx2rtkp", "-x", "4", "-o", f"{name}.pos", name], cwd=work, env=environment, capture_output=True, timeout=60)
    trace = (work / f"{name}.pos.trace").read_text(errors="replace")
    return re.findall(r"^4 (?:decode_obsepoch|decode_obsdata|readrnxobs): ((?:time|nobs)=.*)", trace, re.M)


def check_rtklib(work, environment):
    """RTKLIB runs crx2rnx on its own, and reads what it reads of the observation file."""
    if not shutil.which("rnx2rtkp"):
        return "there is no rnx2rtkp"
    folder = work / "rtklib"
    folder.mkdir()
    shutil.copy(SAMPLE, folder / "abcd0010.24o")
    wanted = read_by_rtklib(folder, environment, "abcd0010.24o")
    subprocess.run(["rnxcmp", "rnx2crx", "abcd0010.24o"], cwd=folder, env=environment, check=True, timeout=60)
    (folder / "abcd0010.24o").unlink()
    read = read_by_rtklib(folder, environment, "abcd0010.24d")
    return [] if len(wanted) > 100 and read == wanted else [f"{len(read)} lines about epochs, satellites and observations, not {len(wanted)}"]


def checks(program):
    with tempfile.TemporaryDirectory() as name:
        folder = Path(name)
        failed = install(program, folder)
        yield "installed", lambda: failed
        if failed:
            return
        tools = folder / "bin"
        work = folder / "work"
        work.mkdir()
        make_files(program, work)
        environment = {**os.environ, "PATH": f"{tools}:{os.environ['PATH']}"}
        for heading, block in recipes():
            if heading in ELSEWHERE:
                continue
            yield heading, lambda: run_block(heading, block, work, environment)
            if heading == "A compaction every night":
                yield f"{heading}: its lists", lambda: check_lists(work)
            if heading == "Damaged compact files":
                yield f"{heading}: the rest", lambda: check_rest(work)
        yield from hostile.checks(environment)
        before = "" if (work / "nightly.sh").exists() else "its recipe, A nightly check of observation files, wasn't chosen"
        yield "the next nights", lambda: before or check_next_nights(work, environment)
        yield "reasons of the night", lambda: before or check_reasons(work, environment)
        yield "days of the page", check_days
        yield "RTKLIB", lambda: check_rtklib(work, environment)


def slow_checks(program):
    own_mounts()
    with tempfile.TemporaryDirectory() as name:
        yield from many.checks(program, Path(name))
