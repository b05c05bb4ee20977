"""The recipes of docs/ARCHIVES.md over files whose names hold blanks, quotes, line ends, and commands in every form that a shell, `make` or
GNU parallel may take for one: no command runs, no file that was there is changed or removed, and a usual name beside them is done."""

import os
import subprocess
import tempfile
from concurrent.futures import ThreadPoolExecutor
from pathlib import Path

from many import recipes
from runner import SAMPLE, missing_tools

GOOD, OLD = SAMPLE.read_bytes(), 1704067200  # the time of all files, in 2024
RAN = "ran"  # what each command in a name makes
COMMANDS = (
    *("$(>ran)", "`>ran`", "x;>ran;", "x|>ran|", "x&>ran&", "x\n>ran\n", "x';>ran;'", 'x";>ran;"', "$(shell >ran)", "${shell >ran}", "x$(>ran)'y"),
    *("$(touch ran)", "`touch ran`", "x;touch ran;", "x; touch ran #", "x'; touch ran; '", 'x"; touch ran; "', "x\ttouch ran", "x\ntouch ran\n"),
    *("all: ; touch ran", "x:=$(shell touch ran)", "$(eval x: ; touch ran)", "{= system('touch ran') =}", "x && touch ran", "\\$(>ran)", "\\`>ran\\`"),
)
ODD = ("a b", " c ", "d'e", 'f"g', "h$$i", "j%k", "l#m", "n:o", "p=q", "r\\", "s\\\\", "*", "?", "[u]", "~", "{}", "{.}", "v,w", "@x", "!y", "(z", ")z", "\u00e4")
USUAL = "abcd0010"
LIKE_AN_OPTION = "-t"
# Files by which the own rules of `make` would write or remove USUAL.24o
RULED = {f"{USUAL}.24o.sh": b"touch ran\n", f"{USUAL}.24o.c": b"int main(void) { return 0; }\n", f"{USUAL}.24o,v": b"head;\n"}
NOT_HERE = ("GNU parallel over several machines", "Other programs that read the files", "Damaged compact files")  # of other machines, of one file


def make_files(archive, names):
    archive.mkdir(parents=True)
    contents = {f"{name}{ending}": GOOD for name in (*names, USUAL, LIKE_AN_OPTION) for ending in (".24o", "_MO.rnx")}
    for name, content in {**contents, **RULED}.items():
        (archive / name).write_bytes(content)
        os.utime(archive / name, (OLD + (name in RULED), OLD + (name in RULED)))


def contents_of(archive):
    return {path.name: path.read_bytes() for path in archive.iterdir()}


def run_recipe(heading, block, environment, names=(*COMMANDS, *ODD)):
    """What is wrong over files of these names, as lines, or why the recipe is left out."""
    lacking = missing_tools(block)
    if lacking:
        return f"there is no {lacking[0]}"
    with tempfile.TemporaryDirectory() as folder:
        work = Path(folder)
        archive = work / "archive"
        make_files(archive, names)
        before = contents_of(archive)
        run = subprocess.run(["sh", "-c", block], cwd=work, env=environment, capture_output=True, stdin=subprocess.DEVNULL, timeout=300)
        after = contents_of(archive)
        wrong = [f"a command ran: {path.relative_to(work)}" for path in work.rglob("*") if path.name == RAN]
        wrong += [f"not as it was: {name!r}" for name, content in before.items() if after.get(name) != content]
        if heading not in ("A nightly check of observation files", "A page of the archive"):
            made = [name for name in after if name.startswith(f"{USUAL}_MO.crx") or name.startswith(f"{USUAL}.24d")]
            wrong += [] if made else [f"nothing is made of {USUAL}"]
        if heading == "make":
            listed = run.stdout.decode(errors="replace")
            wrong += [f"not listed: {name!r}" for name in names if f"not a name for make: archive/{name.splitlines()[0]}" not in listed]
            wrong += [] if listed.endswith("some files failed\n") else ["no failure is reported"]
        return wrong[:8] + ([f"messages: {run.stderr[-300:]!r}"] if wrong else [])


def run_each(heading, block, environment):
    """The same with each name alone, since `make` may stop at one before it meets another."""
    lacking = missing_tools(block)
    if lacking:
        return f"there is no {lacking[0]}"
    with ThreadPoolExecutor() as workers:
        found = list(workers.map(lambda name: run_recipe(heading, block, environment, (name,)), COMMANDS))
    return [f"{name!r}: {line}" for name, wrong in zip(COMMANDS, found) for line in wrong]


def checks(environment):
    for heading, block in recipes():
        if heading not in NOT_HERE:
            yield f"{heading}, over hostile names", lambda heading=heading, block=block: run_recipe(heading, block, environment)
        if heading == "make":
            yield "make, over each hostile name", lambda block=block: run_each("make", block, environment)
