"""Each recipe of docs/ARCHIVES.md over 200 files that are made up here, ten of them bad and one unreadable.

Each recipe is killed in the middle, with all that it started, and begun again, and then once more; it runs on a disk that is too small
for all outputs, and again on a greater one; and without the bad files. After each run every input is there as it was; each output holds all
of its input; no half output has an output's name; each bad file is named, the recipe says that files failed exactly where some did, and a
further run leaves what is done as it is. The recipes run as a user that may not read all files, and what is mounted goes with the test: so only root
can run all of it.
"""

import gzip
import os
import re
import signal
import stat
import subprocess
import tempfile
import time
from dataclasses import dataclass
from pathlib import Path

import runner
from runner import files_below, install, missing_tools

SAMPLE = runner.SAMPLE.read_bytes()
FILES, OLD, SECONDS = 200, 1704067200, 600
NOBODY = 65534
SOON = 25  # outputs that are there when a run is killed
ROOM = 150 * 4096  # bytes of a small disk beside what stands there at the start


def recipes():
    """Each recipe of docs/ARCHIVES.md, as it stands there: its heading and its block. One heading may have several."""
    heading = ""
    for part in re.finditer(r"^## ([^\n]+)$|^```sh\n(.*?)^```$", (runner.TOP / "docs/ARCHIVES.md").read_text(), re.M | re.S):
        if part[1]:
            heading = part[1]
        else:
            yield heading, part[2]


@dataclass
class Recipe:
    """What a recipe takes and makes: the endings; whether it skips epochs, takes unusual names and takes packed files; and what it prints
    exactly where a file failed."""

    taken: str
    made: str
    failed: str
    skips: bool = False
    unusual: bool = True
    packed: bool = False


RECIPES = {
    "find and xargs": Recipe("_MO.rnx", "_MO.crx", r"see messages\.txt", skips=True, packed=True),
    "GNU parallel, with a job log": Recipe(".24o", ".24d.gz", r"^[1-9][0-9]*\t"),
    "make": Recipe(".24o", ".24d", "some files failed", unusual=False),
    "An array job of a batch system": Recipe(".24o", ".24d.gz", "status [1-9]"),
    "RINEX 2 and 4 beside RINEX 3": Recipe(".24o", ".24d.gz", "some files failed|^archive/"),
    "A compaction every night": Recipe("_MO.rnx", "_MO.crx.gz", "the messages say which files aren't verified"),
    "A nightly check of observation files": Recipe(".24o", "", "^archive/"),
    "Do the files come back?": Recipe(".24o", ".24d.gz", "the messages say which"),
}


# ---- the files


def good(number):
    """The first epochs of the sample, more or fewer of them, and a name of its own."""
    header, *epochs = SAMPLE.split(b"\n>")
    text = b"\n>".join([header, *epochs[: 2 + number % (len(epochs) - 2)]])
    return re.sub(rb"(?m)^.{9}(.{51})MARKER NAME", b"MADE%05d\\1MARKER NAME" % number, text).rstrip(b"\n") + b"\n"


def bad_files():
    """Ten files of which each is bad in its own way; the last five are so in one epoch, or where one may begin."""
    text = good(7)
    lines = text.split(b"\n")
    first = next(k for k, line in enumerate(lines) if line.startswith(b">"))

    def with_line(place, line):
        return b"\n".join([*lines[:place], line, *lines[place + 1 :]])

    return [
        b"",
        b"<html>not found</html>\n",
        text.replace(b"     3.05", b"     2.11", 1),
        text.replace(b"     3.05", b"     4.01", 1),
        bytes(range(256)) * 40,
        text[: len(text) // 2 + 7],
        text + b"\n",
        with_line(first + 1, lines[first + 1][:3] + b"x" * 14 + lines[first + 1][17:]),
        with_line(first + 2, lines[first + 1]),
        with_line(first + 1, lines[first + 1] + b"0" * 9000),
    ]


class Files:
    """What stands in `archive` at the start: the contents of good and bad files by name, and the one that can't be read."""

    def __init__(self, recipe, count=FILES):
        self.recipe = recipe
        kinds = bad_files()
        self.good, self.bad = {}, {}
        for number in range(count - 1):
            place = f"{number % 7}/"
            name = f"{place}made{number:03}0{recipe.taken}"
            if number in (30, 31) and recipe.unusual:
                name = f"{place}it's {number} \u00fc0{recipe.taken}"
            if number % (count // 11) == 3 and len(self.bad) < len(kinds):
                self.bad[name] = kinds[len(self.bad)]
            else:
                self.good[name] = good(number)
        if recipe.packed:
            for name in sorted(self.good)[:20]:
                self.good[f"{name}.gz"] = self.good.pop(name)
        self.unreadable = f"secret0{recipe.taken}"
        self.strange = [name for name, content in self.bad.items() if recipe.skips and content in kinds[5:]]  # of which an output is made

    def write(self, work):
        for name, content in {**self.good, **self.bad, self.unreadable: good(1)}.items():
            path = work / "archive" / name
            path.parent.mkdir(parents=True, exist_ok=True)
            path.write_bytes(gzip.compress(content) if name.endswith(".gz") else content)
            os.utime(path, (OLD, OLD))
            os.chmod(path, 0 if name == self.unreadable else 0o644)
        for path in [work, *work.rglob("*")]:
            if path.name != self.unreadable and os.geteuid() == 0:
                os.chown(path, NOBODY, NOBODY)

    def output_of(self, name):
        packed = ".gz" if name.endswith(".gz") else ""
        return name.removesuffix(".gz").removesuffix(self.recipe.taken) + self.recipe.made + packed if self.recipe.made else None


# ---- what is there after a run


def content_of(path):
    content = path.read_bytes()
    return gzip.decompress(content) if path.name.endswith(".gz") else content


def is_there(path, content):
    return path.exists() and content_of(path) == content


def expansion(program, path):
    """What a compact file holds, or nothing where it isn't whole."""
    try:
        content = content_of(path)
    except (OSError, EOFError):
        return None
    run = subprocess.run([program, "crx2rnx"], input=content, capture_output=True, timeout=SECONDS)
    return run.stdout if run.returncode == 0 else None


def judge(program, work, files, done, bad=True):
    """What is wrong: an input isn't as it was, an output isn't whole, or, where the run went to its end, isn't there. The test may have
    removed the bad files."""
    wrong = []
    archive = work / "archive"
    for name, content in files.good.items():
        output = files.output_of(name)
        there = output is not None and (archive / output).exists()
        whole = there and expansion(program, archive / output) == content
        wrong += [] if is_there(archive / name, content) else [f"not as it was: {name}"]
        wrong += [f"a half output: {output}"] if there and not whole else []
        wrong += [f"no output: {output}"] if done and output and not there else []
    for name, content in files.bad.items() if bad else ():
        wrong += [] if is_there(archive / name, content) else [f"not as it was: {name}"]
        output = files.output_of(name)
        if output and (archive / output).exists() and name not in files.strange:
            wrong.append(f"an output of a bad file: {output}")
    wrong += [] if not bad or (archive / files.unreadable).exists() else [f"removed: {files.unreadable}"]
    return wrong[:6] + ([f"and {len(wrong) - 6} more"] if len(wrong) > 6 else [])


def standing(work):
    """The outputs as they are: what must not change any more."""
    return {str(path): (path.stat().st_ino, path.stat().st_mtime) for path in (work / "archive").rglob("*") if path.is_file()}


# ---- runs


class Run:
    """A recipe that has been started, as another user where root starts it and no home is given; what it prints goes into a file beside
    the folder."""

    def __init__(self, block, work, tools, home=None):
        self.said = work.parent / "said"
        self.work = work
        own = {"PATH": f"{tools}:{os.environ['PATH']}", "HOME": str(home or work), "TMPDIR": str(home or work), "LC_ALL": "C.UTF-8"}
        command = ["sh", "-c", block]
        if os.geteuid() == 0 and not home:
            command = ["setpriv", f"--reuid={NOBODY}", f"--regid={NOBODY}", "--clear-groups", *command]
        with self.said.open("wb") as said:
            streams = {"stdout": said, "stderr": subprocess.STDOUT, "stdin": subprocess.DEVNULL}
            self.process = subprocess.Popen(command, cwd=work, env={**os.environ, **own}, start_new_session=True, **streams)

    def members(self):
        """The processes of its session."""
        for folder in Path("/proc").glob("[0-9]*"):
            try:
                fields = (folder / "stat").read_text().rpartition(")")[2].split()
            except OSError:
                continue
            if fields[0] != "Z" and int(fields[3]) == self.process.pid:
                yield int(folder.name)

    def kill_at(self, outputs):
        """Kills all of it once so many outputs are there; whether it was still at work then."""
        pattern = re.compile(r"\.(crx|24d)(\.gz)?$|\.txt$")
        while self.process.poll() is None:
            if sum(1 for path in files_below(self.work) if pattern.search(path.name)) >= outputs:
                break
            time.sleep(0.02)
        at_work = self.process.poll() is None
        while members := list(self.members()):
            for pid in members:
                try:
                    os.kill(pid, signal.SIGKILL)
                except ProcessLookupError:
                    pass
        self.process.wait()
        return at_work

    def end(self):
        """Waits: what was printed, and what the recipe's own files of messages hold."""
        self.process.wait(timeout=SECONDS)
        paths = [path for path in (self.said, self.work / "messages.txt") if path.exists()]
        return "".join(path.read_text(errors="replace") for path in paths)


def says(printed, files, failing):
    """What is wrong with what a run printed: each of these files is named, and a failure is reported exactly where there is one."""
    wrong = [f"not named: {name}" for name in failing if f"archive/{name}" not in printed]
    reported = re.search(files.recipe.failed, printed, re.M) is not None
    if reported != bool(failing):
        wrong.append("no failure is reported" if failing else "a failure is reported")
    return wrong[:5] + ([f"printed: {printed[-600:]!r}"] if wrong else [])


class Disk:
    """A folder with a disk of its own, so many bytes large, where the test may mount one."""

    def __init__(self, folder, size):
        self.folder = folder
        folder.mkdir()
        subprocess.run(["mount", "-t", "tmpfs", "-o", f"size={size},mode=755", "tmpfs", folder], check=True)

    def grow(self, size):
        subprocess.run(["mount", "-o", f"remount,size={size}", self.folder], check=True)

    def remove(self):
        subprocess.run(["umount", self.folder], check=True)
        self.folder.rmdir()


def check_killed(program, tools, files, block, work):
    """Killed in the middle, started again, once more, and at last without the bad files."""
    files.write(work)
    failing = [*files.bad, files.unreadable]
    wrong = [] if Run(block, work, tools).kill_at(SOON) else ["it was at its end before it was killed"]
    wrong += [f"after the kill: {line}" for line in judge(program, work, files, False)]
    printed = Run(block, work, tools).end()
    wrong += [f"second run: {line}" for line in judge(program, work, files, True) + says(printed, files, failing)]
    before = standing(work)
    printed = Run(block, work, tools).end()
    wrong += [f"third run: {line}" for line in says(printed, files, failing)]
    strange = {str(work / "archive" / files.output_of(name)) for name in files.strange}
    changed = [name for name, state in standing(work).items() if before.get(name) != state and ".part." not in name and name not in strange]
    wrong += [f"third run: changed {changed[:3]}"] if changed else []
    for name in failing:
        (work / "archive" / name).unlink()
    for name in ("jobs.log", "messages.txt"):
        (work / name).unlink(missing_ok=True)
    printed = Run(block, work, tools).end()
    return wrong + [f"without bad files: {line}" for line in judge(program, work, files, True, bad=False) + says(printed, files, [])]


def check_full(program, tools, files, block, work):
    """A disk that fills up, and grows before the second run: the archive's, or that of the reports."""
    disk = Disk(work / ("archive" if files.recipe.made else "reports"), "64m")
    try:
        files.write(work)
        used = sum(path.stat().st_blocks * 512 for path in disk.folder.rglob("*") if path.is_file())
        disk.grow(used + ROOM)
        printed = Run(block, work, tools).end()
        wrong = [f"full: {line}" for line in judge(program, work, files, False)]
        left = [name for name in files.good if files.output_of(name) and not (work / "archive" / files.output_of(name)).exists()]
        wrong += [] if left or not files.recipe.made else ["the disk wasn't full"]
        wrong += [f"full: {line}" for line in says(printed, files, [*left, *files.bad, files.unreadable])]
        disk.grow("64m")
        printed = Run(block, work, tools).end()
        return wrong + [f"greater: {line}" for line in judge(program, work, files, True) + says(printed, files, [*files.bad, files.unreadable])]
    finally:
        disk.remove()


def checks(program, folder):
    failed = install(program, folder)
    yield "installed", lambda: failed
    if failed:
        return
    tools = folder / "bin"
    folder.chmod(folder.stat().st_mode | stat.S_IRGRP | stat.S_IXGRP | stat.S_IROTH | stat.S_IXOTH)
    found = {heading: block for heading, block in recipes() if heading in RECIPES}
    yield "all are there", lambda: [] if found.keys() == RECIPES.keys() else [f"recipes: {sorted(found)}"]
    for heading, block in found.items():
        files = Files(RECIPES[heading])
        lacking = missing_tools(block)
        reason = f"there is no {lacking[0]}" if lacking else None
        for title, check, root in (("killed", check_killed, False), ("a full disk", check_full, True)):
            if root and os.geteuid():
                reason = "only root may mount a disk"
            with tempfile.TemporaryDirectory(dir=folder) as work:
                yield f"{heading}: {title}", lambda: reason or check(program, tools, files, block, Path(work))

