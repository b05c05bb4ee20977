"""An archive of many files, one in fifty bad: a check, a run in several processes that is killed in the middle, and the same again."""

import os
import re
import signal
import subprocess
import time

from place import ENVIRONMENT, GOOD, SECONDS, TOOL, Place


def call(place, *words):
    """A run over all files."""
    return subprocess.run([*TOOL, *words, "--inputs", "names"], cwd=place.work, env=ENVIRONMENT, capture_output=True, text=True, timeout=60 * SECONDS)


def killed(place, *words):
    """The same, killed with all its processes in the middle: how many outputs there were then."""
    run = subprocess.Popen([*TOOL, *words, "--inputs", "names"], cwd=place.work, env=ENVIRONMENT, stdout=subprocess.DEVNULL, stderr=subprocess.DEVNULL, start_new_session=True)
    names = (place.work / "names").read_bytes().count(b"\0")
    while (made := len(list((place.work / "out").rglob("*.gz")))) < names // 3 and run.poll() is None:
        time.sleep(0.1)
    os.killpg(run.pid, signal.SIGKILL)
    run.wait()
    return made


def whole_archive(texts, count):
    """Each good file has its output, each bad one is named, the lists are right, and each call has one summary."""
    with Place() as place:
        names = [f"in/{number % 100}/{number}.rnx" for number in range(count)]
        bad = set(names[7::50])
        for name in names:
            (place.work / name).parent.mkdir(parents=True, exist_ok=True)
            place.write(name, GOOD[:9000] if name in bad else GOOD)
        place.write("names", b"".join(name.encode() + b"\0" for name in names))
        (place.work / "out").mkdir()
        words = ("rnx2crx", "-q", "--gzip", "--verify", "-j", "4", "--to", "out")
        run = call(place, "check", "-j", "4")
        wrong = [] if run.stdout == f"{count} files: {count - len(bad)} valid, 0 of them may be cut off, {len(bad)} errors\n" else [run.stdout]
        made = killed(place, *words, "--verified-to", "first")
        run = call(place, *words, "--verified-to", "list", "--new")
        wrong += [] if re.fullmatch(rf"{count} files: [^\n]* {len(bad)} errors; [^\n]*\n", run.stdout) and "Traceback" not in run.stderr else [run.stdout, run.stderr[-900:]]
        wrong += [] if {line.split(": ")[0] for line in run.stderr.splitlines()} == bad else ["other files are named"]
        outputs = {str(path.relative_to(place.work / "out")).replace("crx.gz", "rnx") for path in place.work.joinpath("out").rglob("*.gz")}
        wrong += [] if outputs == {*names} - bad else ["other outputs"]
        wrong += [] if made < len(place.listed()) + made <= count and set(place.listed()) <= outputs else ["another list"]
        run = call(place, *words, "--verified-to", "all")
        return wrong + ([] if set(place.listed("all")) == outputs and len(place.listed("all")) == len(outputs) else ["not all are verified"])


def checks(texts, count):
    yield f"{count} files at once", lambda: whole_archive(texts, count)
