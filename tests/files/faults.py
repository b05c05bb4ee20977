"""Each system call of rnxcmp-file fails in turn, by strace: each kind with the errors that it may have, at its first, second, .. call, in each job.

What is asked for is the promise, that a run that says nothing of an error made the outputs, that no temporary file is left unless its removal is
what failed, and that the same, begun again, makes them all. A failure that hits Python itself before the tool is at work only ends it.
"""

import gzip
import re
import subprocess
from concurrent.futures import ThreadPoolExecutor
from dataclasses import dataclass

from place import DATE, DIRECTIONS, ENVIRONMENT, GOOD, SECONDS, TOOL, Place, Promise, is_traced, marked

CALLS = {  # kinds of calls, and the errors that are tried
    "openat": ("EACCES", "EMFILE", "EIO"), "read": ("EIO",), "pread64": ("EIO",), "write": ("ENOSPC", "EIO", "EDQUOT"), "fsync": ("EIO", "ENOSPC"), "close": ("EIO", "ENOSPC"),
    "linkat": ("EPERM", "EIO", "EEXIST", "EOPNOTSUPP", "ENOSPC"), "renameat": ("EIO", "EACCES", "ENOSPC"), "renameat2": ("EIO", "EINVAL"), "unlinkat": ("EIO",), "fchmod": ("EPERM", "EIO"),
    "fchown": ("EPERM", "EIO"), "utimensat": ("EPERM", "EIO"), "newfstatat": ("EIO", "EACCES"), "fstat": ("EIO",), "fgetxattr": ("EIO",), "fadvise64": ("EINVAL",), "lseek": ("EIO",), "mmap": ("ENOMEM",),
}  # fmt: skip
SOME = {"write": ("ENOSPC",), "fsync": ("EIO",), "close": ("EIO",), "linkat": ("EIO", "EEXIST"), "renameat": ("EIO",), "fchmod": ("EPERM",), "fchown": ("EIO",), "utimensat": ("EPERM",), "unlinkat": ("EIO",), "fgetxattr": ("EIO",)}  # in the gate
FINAL = {("fsync", error) for error in ("EIO", "ENOSPC")}  # if one such call fails there is no success


@dataclass(frozen=True)
class Job:
    """What a run does: its options, its files, whether they are packed, and what is under the outputs' names."""

    words: tuple = ("--verify",)
    direction: str = "rnx2crx"
    names: tuple = ("a",)
    packed: bool = False
    there: str = ""

    def files(self):
        """Each input with its output."""
        one, other = DIRECTIONS[self.direction]
        return {f"{name}{one}{'.gz' * self.packed}": f"{name}{other}{'.gz' * self.packed}" for name in self.names}

    def command(self):
        return [*TOOL, self.direction, *self.words, *self.files()]


JOBS = {
    "new": Job(),
    "replaced": Job(("--verify", "-f"), there="other"),
    "there": Job(there="same"),
    "expanded": Job(direction="crx2rnx"),
    "expanded, packed, replaced": Job(("--verify", "-f"), "crx2rnx", packed=True, there="other"),
    "expanded, there": Job(("--verified-to", "list"), "crx2rnx", there="same"),
    "two files and a list": Job(("--verified-to", "list"), names=("a", "b"), packed=True),
}
IN_THE_GATE = ("new", "replaced", "there")


def prepared(texts, place, job):
    """The files of a job, and the promises about them."""
    promises, pack = [], gzip.compress if job.packed else bytes
    for number, (name, output) in enumerate(job.files().items()):
        sound, other = (texts.filtered(marked(GOOD, n), "rnx2crx", "--date", DATE) for n in (number, 5))
        forms = {"rnx2crx": (marked(GOOD, number), sound, other), "crx2rnx": (sound, marked(GOOD, number), marked(GOOD, 5))}
        source, same, another = forms[job.direction]
        place.write(name, pack(source))
        if job.there:
            place.write(output, pack(same if job.there == "same" else another))
        promises.append(Promise(texts, job.direction, place, name, output))
    return promises


def run_of(place, job, call=None, more=()):
    through = ("strace", "-f", "-qq", "-y", "-o", str(place.work / "trace"), "-e", f"trace={call}", *more) if call else ()
    return subprocess.run([*through, *job.command()], cwd=place.work, env=ENVIRONMENT, capture_output=True, text=True, stdin=subprocess.DEVNULL, timeout=SECONDS)


def numbers_of(texts, call, job):
    """Which calls of a kind are the tool's own: those from the first that is about the job's files."""
    with Place() as place:
        prepared(texts, place, job)
        run_of(place, job, call)
        lines = [line for line in (place.work / "trace").read_text().splitlines() if re.match(r"\d+ +\w+\(", line)]
        names = ("part.rnxcmp-file", "/list", *job.files(), *job.files().values())
        at_work = [k for k, line in enumerate(lines, 1) if any(name in line for name in names)]
        return range(min(at_work), len(lines) + 1) if at_work else ()


def false_claims(place, run, promises):
    """What is wrong with the lines of a run, and with its list."""
    failed = [promise.source.name for promise in promises if f"{promise.source.name}: ERROR" in run.stderr]
    wrong = [f"it said verified, and failed: {name}" for name in failed if re.search(rf"(?m)^{re.escape(name)}: .*verified", run.stdout)]
    sound = {promise.source.name for promise in promises if promise.is_new()}
    return wrong + [f"listed, and it isn't so: {name}" for name in place.listed() or () if name not in sound]


def one_fault(texts, name, call, error, number):
    job = JOBS[name]
    with Place() as place:
        promises = prepared(texts, place, job)
        try:
            run = run_of(place, job, call, ("-e", f"inject={call}:error={error}:when={number}"))
        except subprocess.TimeoutExpired:
            return [f"{name}: {call} {number} {error}: it waits for ever"]
        was_injected = "(INJECTED)" in (place.work / "trace").read_text()
        wrong = [line for promise in promises for line in promise.broken("\n".join(re.findall(rf"(?m)^{re.escape(promise.source.name)}: .*", run.stdout)))]
        wrong += ["status 0 without the output"] if run.returncode == 0 and not all(promise.is_new() for promise in promises) else []
        wrong += ["no success, and no message"] if run.returncode not in (0, -6, -11) and not run.stderr else []
        wrong += ["status 0, and it failed"] if run.returncode == 0 and was_injected and (call, error) in FINAL else []
        wrong += ["a traceback of the tool"] if "Traceback" in run.stderr and "rnxcmp/files.py" in run.stderr and "in main" in run.stderr else []
        wrong += [f"left: {place.parts()}"] if place.parts() and call != "unlinkat" else []
        wrong += false_claims(place, run, promises)
        said = f"status {run.returncode}, said {run.stdout!r}, {run.stderr!r}"
        (place.work / "list").unlink(missing_ok=True)
        run = run_of(place, job)
        wrong += [] if run.returncode == 0 and all(promise.is_new() for promise in promises) else [f"begun again: status {run.returncode}, {run.stderr!r}"]
        return [f"{name}: {call} {number} {error}: {line}" for line in wrong + [said] * bool(wrong)]


def check_call(texts, call, errors, names):
    """Each call of a kind fails with each of its errors, in each of these jobs: what is wrong."""
    with ThreadPoolExecutor(4) as pool:
        numbers = pool.map(lambda name: numbers_of(texts, call, JOBS[name]), names)
        faults = [(name, call, error, number) for name, found in zip(names, numbers) for number in found for error in errors]
        found = list(pool.map(lambda fault: one_fault(texts, *fault), faults))
    if len(names) == len(JOBS):
        print(f"    {call}: {len(faults)} failures", flush=True)
    return [line for lines in found for line in lines][:8]


def checks(texts, calls=SOME, names=IN_THE_GATE):
    left_out = None if is_traced() else "strace may not trace here"
    for call, errors in calls.items():
        yield f"{call} fails", lambda call=call, errors=errors: left_out or check_call(texts, call, errors, names)
