#!/usr/bin/env python3
"""Wrong bodies: edits of the code that the prover has to refuse. Edits of different functions are tried together.

    tests/wrong_bodies.py                  all crates
    tests/wrong_bodies.py CRATE [NAME ..]  one crate, or these edits of it, each with the line that refuses it

A contract is proved for each function by itself, from the contracts of the functions that it calls and not from their bodies. So edits of
different functions don't meet, and one check of a copy of the crate tries them all. But the prover leaves a proof open that cites the proof of a
function that is called and isn't proved: an edit of which nothing more is known is tried again, without those that were refused. An edit that
changes something outside functions, such as a constant, is tried alone.

An edit passes if a clause refuses a function that it changes. It fails if these functions are still proved, if the compiler refuses the text
(then it is no edit), if it changes a definition, or if a function is refused only because its proof names something that the edit took away.

The edits are the files of crates/*/must-fail and crates/*/wrong: a line `file:`, then pairs of lines `old:` and `new:`. The libraries are those
that `make` or the gate left in out/proved. The prover's output goes into out/logs/wrong.
"""

import os
import re
import shutil
import signal
import subprocess
import sys
import tempfile
import threading
import time
from collections import namedtuple
from concurrent.futures import ThreadPoolExecutor
from pathlib import Path

sys.path.insert(0, str(Path(__file__).resolve().parent))
import prove  # noqa: E402

PROVED = Path(os.environ.get("PROVED", prove.PROVED))
KIT = Path(shutil.which("rt") or "rt").resolve().parent.parent
MEMORY = 2e9  # bytes that a check may need
FUNCTION = re.compile(r"( *)(?:pub(?:\([^)]*\))? )?(?:const )?(?:unsafe )?(?:extern \"C\" )?fn (\w+)")
IMPL = re.compile(r"impl(?:<[^>]*>)? (?:(?:\w+::)*(\w+)(?:<.*>)? for )?(?:\w+::)*(\w+)")
ANSWER = re.compile(r"^(?:fn|struct|enum|impl|trait) \w+?::(\S+): (?:(not proved|no proof: (?!it calls)).*|.*)", re.M)
PLACE = re.compile(r"^(?:note: )?(?:\./)?((?:src|specs|proofs)/\S+?):(\d+):\d+: .*(?:\n  .*)*", re.M)  # with the lines that go on
UNREAD = re.compile(r"^(?:\./)?((?:src|specs)/\S+?):(\d+):\d+: error(?:\[|: (?!`)).*", re.M)  # by the compiler
NAMES = re.compile(r"has no (?:field|`)|is not in scope")  # a proof names what isn't there
FALSE = "allow values at which this goal is false"
WAITS = "was not admitted"  # a proof that it cites
Edit = namedtuple("Edit", "name pairs functions alone")  # of each pair its file, old and new text
running, stopping = set(), threading.Event()


class Function(namedtuple("Function", "name file first last")):
    """A function by the prover's name for it, its file, and the numbers of its first and last line."""

    def has(self, file, line):
        """Returns whether a place is in its body or its proof."""
        return file.startswith(f"proofs/{self.name.replace('::', '/')}/") or (file == self.file and self.first <= int(line) <= self.last)


def function_at(text, old, file):
    """Returns the function whose lines contain the text `old`, or None if they are outside functions."""
    lines, at = text.split("\n"), text[: text.index(old)].count("\n")
    first = next((i for i in range(at, -1, -1) if FUNCTION.match(lines[i]) or lines[i].startswith("}")), 0)
    if not (match := FUNCTION.match(lines[first])):
        return None
    indent, name = match.groups()
    body = next(i for i in range(first, len(lines)) if lines[i] == indent + "{" or re.match(indent + r"\S.* \{$", lines[i]))
    last = next(i for i in range(body, len(lines)) if lines[i] == indent + "}")
    if first <= at < body:
        raise ValueError(f"it changes the contract of {name}")
    while lines[first - 1].lstrip().startswith(("#[", "//")):
        first -= 1
    if indent:
        owner = next(found for i in range(first, -1, -1) if (found := IMPL.match(lines[i])))
        name = f"{owner[2]}{owner[1] or ''}::{name}"
    module = file.removeprefix("src/").removesuffix(".rt").replace("/", "::")
    return Function(name if module in ("lib", "main") else f"{module}::{name}", file, first + 1, last + 1) if at <= last else None


def read(path, crate):
    """Reads an edit; a ValueError or OSError says why it is none."""
    file, old, pairs, places = "", "", [], []
    for line in path.read_text().splitlines():
        word, value = line.partition(":")[0], line.partition(":")[2].removeprefix(" ")
        file, old = value if word == "file" else file, value if word == "old" else old
        if word == "new":
            text = (crate / file).read_text()
            if not file.startswith("src/"):
                raise ValueError(f"it changes {file}, and not code")
            if text.count(old) != 1:
                raise ValueError(f"its old text is in {file} {text.count(old)} times")
            pairs.append((file, old, value))
            places.append(function_at(text, old, file))
    if not pairs:
        raise ValueError("it changes nothing")
    return Edit(path.stem, pairs, {place for place in places if place}, None in places)


def rounds(edits):
    """Yields lists of edits that can be tried together."""
    yield from ([edit] for edit in edits if edit.alone)
    left = [edit for edit in edits if not edit.alone]
    while left:
        now, later, taken = [], [], set()
        for edit in left:
            (later if edit.functions & taken else now).append(edit)
            taken |= set() if edit.functions & taken else edit.functions
        yield now
        left = later


def words_of(crate, edits, kept):
    """Returns the command that checks the functions that edits change, or the whole crate, over the proofs that a folder keeps."""
    crates = {name: (kind, uses) for name, kind, uses in re.findall(r"^(\w+) ?(\w*): *(.*)$", (prove.TOP / "crates.txt").read_text(), re.M)}
    kind, uses = crates[crate.name]
    root = next(path for path in ("src/main.rt", "src/lib.rt") if (crate / path).exists())
    words = [KIT / "bin/rattle", "check", "--crate-name", crate.name, root, "--links", f"{crate.name}=", "--jobs", "1"]
    words += ["--crate-type", kind] if kind else []
    for name in ("std", *uses.split()):
        words += ["--extern", f"{name}={(PROVED if name in crates else KIT / 'rlibs') / name}.rlib"]
    words += ["-L", f"dependency={KIT}/rlibs", "-L", f"dependency={PROVED}", "--logic-built", KIT / "logic_built"]
    words += ["--antt-project", KIT / "rattle/logic/antt-project.json", "--incremental", kept]
    for name in sorted({place.name for edit in edits for place in edit.functions if not edit.alone}):
        words += ["--only", name]
    return [str(word) for word in words]


def verdict(edit, crate, said):
    """Returns an edit's name, what is wrong with it or nothing, and a line of the prover's output that shows it; None if its proof waits."""
    if unread := UNREAD.search(said):
        is_its = edit.alone or any(place.has(*unread.groups()) for place in edit.functions)
        return edit.name, "NO EDIT" if is_its else "NOT TRIED: the compiler refuses another edit", unread[0]
    last, names = said.rstrip().split("\n")[-1], {place.name for place in edit.functions}
    answers = [found for found in ANSWER.finditer(said) if edit.alone or found[1] in names]
    if not re.match(r"only=\d+ proved=\d+|logic=", last) or names - {found[1] for found in answers}:
        return edit.name, "NOT TRIED", last
    refused = [found[0] for found in answers if found[2]]
    errors = [found[0] for found in PLACE.finditer(said) if edit.alone or any(place.has(*found.groups()) for place in edit.functions)]
    if any("it calls" in found[0] for found in answers) and all(WAITS in line for line in errors):
        return None
    gone = [line for line in errors if NAMES.search(line)]
    if gone and not any(FALSE in line for line in errors):
        return edit.name, "refused only because a proof names what the edit took away", gone[0]
    return edit.name, "" if refused else "NOT REFUSED", (refused or [last])[0]


def tried(crate, edits, room, kept):
    """Tries edits together, in a copy of the crate, and then those again whose proof waits; returns their verdicts."""
    with tempfile.TemporaryDirectory(dir=room) as copy:
        for part in ("src", "specs", "proofs"):
            if (crate / part).is_dir():
                shutil.copytree(crate / part, Path(copy) / part)
        for file, old, new in (pair for edit in edits for pair in edit.pairs):
            place = Path(copy) / file
            place.write_text(place.read_text().replace(old, new))
        how = {"stdin": subprocess.DEVNULL, "stdout": subprocess.PIPE, "stderr": subprocess.STDOUT, "text": True, "errors": "replace"}
        with subprocess.Popen(words_of(crate, edits, kept), cwd=copy, env={**os.environ, "TMPDIR": copy}, **how) as process:
            running.add(process)
            if stopping.is_set():
                process.kill()
            said = process.communicate()[0]
    log = prove.LOGS / "wrong" / f"{crate.name}-{edits[0].name}"
    log.parent.mkdir(parents=True, exist_ok=True)
    log.write_text("".join(f"{edit.name}: {', '.join(place.name for place in edit.functions)}\n" for edit in edits) + said)
    found = [verdict(edit, crate, said) for edit in edits]
    again = [edit for edit, known in zip(edits, found) if not known]
    if again == edits:
        return [(edit.name, "NOT TRIED: what it calls isn't proved", said.rstrip().split("\n")[-1]) for edit in edits]
    return [known for known in found if known] + (tried(crate, again, room, kept) if again else [])


def tried_in_rounds(crate, edits, room):
    """Tries a crate's edits, each round over the proofs of unchanged functions that the rounds before it kept; returns their verdicts."""
    prove.LOGS.mkdir(parents=True, exist_ok=True)
    with tempfile.TemporaryDirectory(dir=prove.LOGS.parent) as kept:
        return [found for some in rounds(edits) for found in tried(crate, some, room, kept)]


def main(words):
    """Tries edits and prints a line for each crate; returns how many passed and how many failed."""
    begun, passed, failed, work = time.monotonic(), 0, 0, []
    memory = os.sysconf("SC_PAGE_SIZE") * os.sysconf("SC_PHYS_PAGES")
    jobs = int(os.environ.get("JOBS", 0)) or max(1, min(len(os.sched_getaffinity(0)), int(memory / MEMORY)))
    with prove.temporary() as room, ThreadPoolExecutor(jobs) as pool:
        try:
            for crate in sorted(prove.CRATES.iterdir(), key=lambda crate: -len([*crate.glob("*/*.edit")])):
                edits, found = [], []
                for path in sorted(path for part in ("must-fail", "wrong") for path in (crate / part).glob("*.edit")):
                    if not words or (words[0] == crate.name and path.stem in (words[1:] or [path.stem])):
                        try:
                            edits.append(read(path, crate))
                        except (ValueError, OSError) as error:
                            found.append((path.stem, "NO EDIT", str(error)))
                work.append((crate.name, found, pool.submit(tried_in_rounds, crate, edits, room)))
            for crate, found, job in work:
                found += job.result()
                good = sum(not what for _, what, _ in found)
                passed, failed = passed + good, failed + len(found) - good
                if found:
                    prove.tell((time.monotonic() - begun) / 60, crate, f"wrong bodies refused: {good} of {len(found)}")
                for name, what, line in found:
                    if what or words[1:]:
                        print(f"    {name}: {what or 'refused'}\n        {line[: prove.WIDTH]}", flush=True)
        except BaseException:
            stopping.set()
            pool.shutdown(wait=False, cancel_futures=True)
            for process in list(running):
                process.kill()
            raise
    return passed, failed


if __name__ == "__main__":
    signal.signal(signal.SIGTERM, lambda *_: sys.exit(143))
    passed, failed = main(sys.argv[1:])
    print(f"{passed} passed, {failed} failed" if passed + failed else "there is no such edit")
    sys.exit(0 if passed and not failed else 1)
