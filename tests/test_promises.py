"""The promises of README.md and the answers of docs/GUARANTEES.md as sentences over random, damaged and other writers' files; and of each
the tests that ask it. What is right is known without the program: the units that a file was made of, their text, the normal form, each
line's fate."""

import os
import re
import resource
import socket
import subprocess
import tempfile
import unittest
from contextlib import suppress
from pathlib import Path

import test_writers
from relation import NoSuchText, contents, normal_form, normal_line, rinex_lines
from runner import LIMITS, PROGRAM, SLOW, TOP, files_in, preloaded, run
from test_streams import read_for
from test_writers import asked, spelled
from texts import Copied, Epoch, Plain, Writer, damaged, rinex, types_line, units

FILES, LEAST = (2500, 2000) if SLOW else (150, 1)  # random files, and of how many each sentence is asked at least
MOST = 3 + 16 * LIMITS["TYPES_LIMIT"] + 1  # bytes of the longest row, for which one byte of compact text can stand
NOISE = bytes({*range(256)} - {*range(32, 127), *b"\n\r"})
ENDS_A_RUN = {*range(1, 10), 19}  # the codes that end a run with `-s` too, if the line is of a header or an event
STREAMS, CASES, PLANS = "tests/test_streams.py::", "tests/cases/", "tests/test_arguments.py::test_plans"
PASSES = ("what passes a check comes back", "what a check has status 2 for doesn't come back")
CONTENT, READ = ("a valid file keeps its content",), ("any writer's text is read", "no other text is accepted")
LOST = ("a compaction loses no line without a warning", "an expansion loses no line without a warning")
FULL = ("status 0 or 2 says that all is written", "a failed run wrote a beginning", "the first failure is named", "a lost warning ends the run")
FAILURES = *FULL, *(STREAMS + f"test_each_{name}_fails" for name in ("write", "read", "message")), STREAMS + "test_full_devices"
BY_NAMES = ("a run by names writes one file, though its reads are interrupted",)
SHOWN = {"damage that isn't noticed", "a line of a stretch reads as an event's first one"}  # these needn't come often
# tests (sentences of this file or of test_writers.py, tests, files, folders), and the words in bold before each sentence that they ask
ASKED_BY = (
    (PASSES, ["What passes `check` comes back.", "Does a file that passes `check` come back?"]),
    (CONTENT, ["Any other valid file keeps its content.", "Does any other file without faults?"]),
    (READ, ["Other programs' compact text is read by the rules, or refused.", "Is compact text of other programs read?"]),
    ((*LOST, *FAILURES), ["Nothing is lost silently."]),
    (("what damage costs",), ["Damage stays local.", "What do I get out of a damaged file?"]),
    (("another spelling is compacted alike",), ["Which files have the same compact text?"]),
    (("compacting again changes nothing", "expanding again changes nothing"), ["What changes when it is done again?"]),
    (("compact text is as defined", *READ, CASES), ["May a filter write other text that reads back?"]),
    (("a file in normal form is standard, and no other",), ["When is a file standard?"]),
    (("a file in normal form is standard, and no other", *PASSES, CASES + "check"), ["Is `standard yes` right?"]),
    (("what is expanded is standard",), ["Is the output of `crx2rnx` standard?"]),
    (("the first fault is reported", CASES + "codes"), ["Which fault is reported?"]),
    ((*LOST, "to skip is to leave out", CASES + "skipping"), ["What does `-s` skip?"]),
    (("no other fault ends a run that skips",), ["What does `-s` not skip?"]),
    (LOST, ["Is a line lost silently?"]),
    (("a check tells of a compaction",), ["Does `check` find what `rnx2crx` finds?"]),
    (("a cut is noticed",), ["Is a cut noticed?", "What do I get out of a file that was cut off?"]),
    (("noise is noticed",), ["Is noise noticed?"]),
    (("damage that isn't noticed",), ["Is other damage noticed?"]),
    (FAILURES, ["What does the message name?", "What does status 0 or 2 mean?", "And after a failure?"]),
    (("output is in time", STREAMS + "test_each_epoch", STREAMS + "test_warnings_in_order"), ["Is output in time?"]),
    (("crates/crx_tests/src/failures.rt",), ["How often is the output flushed?"]),
    ((*BY_NAMES, STREAMS + "test_interrupted_reads", STREAMS + "test_interrupted_calls_are_made_again"), ["Can a signal cut a run?"]),
    ((STREAMS + "test_a_close_that_fails_is_not_seen",), ["Is a close that fails seen?"]),
    (("what damage costs", "blocks are short"), ["What does a flipped bit cost?"]),
    (("a line of a stretch reads as an event's first one",), ["When is nothing promised?"]),
    (("a line of a stretch reads as an event's first one", CASES + "damage"), ["What if an event is hit?"]),
    (("a block is expanded alone", "examples/parallel.py"), ["Can I expand a block on its own?"]),
    (("hours make a day",), ["Can I join hours into a day?"]),
    (("tests/test_memory.py::test_no_growth_after_the_first_epochs",), ["What bounds a run's memory?"]),
    (("bench/README.md",), ["How much is that?"]),
    (("tests/test_memory.py::test_lines_that_code_22_names",), ["When may memory run out?"]),
    (("an expansion is bounded",), ["How much can an expansion write?"]),
    ((PLANS,), ["What do they mean?"]),
    ((*BY_NAMES, PLANS, CASES + "files"), ["What is done then?"]),
    ((*FAILURES, *BY_NAMES, *PASSES, *CONTENT, *READ, *LOST), ["Is the output exact?"]),
    ((*BY_NAMES, STREAMS + "test_files_that_a_run_opens"), ["Which files are opened?"]),
    (("refused arguments touch no file", STREAMS + "test_files_that_a_run_opens", CASES + "refusals"), ["What do refused arguments touch?"]),
)  # those about the library are asked by tests/library
ASKED = {title: names for names, titles in ASKED_BY for title in titles}
NAMES = {name for names in ASKED.values() for name in names if "/" not in name} - {*test_writers.NAMES}


def told(messages, kind):
    """The lines and the codes of messages."""
    return [(int(line), int(code)) for line, code in re.findall(kind + rb" line (\d+) code (\d+): ", messages)]


def parts_of(output):
    """The units of a RINEX text that was written: a copied line, or an epoch's lines; each with what it is, and its number of types."""
    found = []
    for line in rinex_lines(output.split(b"\n")[:-1]):
        found += [] if line[0] == "satellite" else [[]]
        found[-1].append(line)
    return found


def is_told(part, own, compact):
    """Whether a unit is what lines of an input say: the same line, an epoch's lines in another spelling, or compact lines of one."""
    if compact:
        is_clean = all(32 <= byte <= 126 for line in own for byte in line)
        return own == [part[0][1]] if part[0][0] != "epoch" else len(own) == len(part) + 1 and is_clean
    try:
        return len(own) == len(part) and all(normal_line(what, given, count) == line for (what, line, count), given in zip(part, own))
    except NoSuchText:
        return False


def left_of(given, output, messages, compact):
    """The lines of an input without the stretches that warnings tell of; None if these lines aren't, in order, those of the units of the
    output, and a stretch for each warning, which ends before the next line that begins with `>`."""
    first = 2 if compact else 0
    lines, parts, warnings = contents(given)[first:], parts_of(output), [line - 1 - first for line, _ in told(messages, b"WARNING")]
    begins = [at for at, line in enumerate(lines) if line[:1] == b">" and len(line) <= LIMITS["LINE_LIMIT"]]
    stack, seen = [(0, 0, 0, ())], set()
    while stack:
        at, part, warned, left = stack.pop()
        if (at, part, warned) == (len(lines), len(parts), len(warnings)):
            return [line for start, end in left for line in lines[start:end]]
        if (at, part, warned) in seen:
            continue
        seen.add((at, part, warned))
        if warned < len(warnings) and at <= warnings[warned] and at < len(lines):
            stack.append((next((it for it in begins if it >= max(at + 1, warnings[warned])), len(lines)), part, warned + 1, left))
        if part < len(parts):
            end = at + len(parts[part]) + (compact and parts[part][0][0] == "epoch")
            stack += [(end, part + 1, warned, (*left, (at, end)))] if is_told(parts[part], lines[at:end], compact) else []
    return None


def of_files(rng, file):
    """Sentences about a file of any bytes: of each its name, whether it is right, and what was given."""
    words = ["rnx2crx", "-e", str(rng.randint(1, 4)), "--date", "D", *["-s"] * (rng.random() < 0.8)]
    status, made = run("check", given=file)[2], run(*words, given=file)
    back, two_returns = run("crx2rnx", given=made[0]), b"\r\r\n" in file or file.endswith(b"\r\r")
    if status == 0:
        yield "what passes a check comes back", made[2] == 0 and back == (file, b"", 0), file
    if status == 2:
        yield "what a check has status 2 for doesn't come back", back[0] != file, file
    if status != 1 and not two_returns:
        yield "a valid file keeps its content", made[1:] == (b"", 0) and back == (normal_form(file), b"", 0), file
        yield "compacting again changes nothing", run(*words, given=back[0]) == made, file
    if "-s" in words:
        yield "no other fault ends a run that skips", {code for _, code in told(made[1], b"ERROR")} <= ENDS_A_RUN, file
    if made[2] == 1:
        return
    written = run("crx2rnx", given=made[0].replace(b"\r\n", b"\r\r\n"))[0]  # so no line loses a CR
    left = left_of(file, written, made[1], False)
    yield "a compaction loses no line without a warning", left is not None and made[2] == (2 if made[1] else 0), file
    if made[1] and left is not None:
        kept = b"".join(line + (b"\r\n" if line.endswith(b"\r") else b"\n") for line in left)
        yield "to skip is to leave out", run("check", given=kept)[2] != 1 and normal_form(kept) == written, file


def of_compact(rng, text):
    """Sentences about compact text of any bytes."""
    words = ["crx2rnx", *["-s"] * (rng.random() < 0.8)]
    output, messages, status = run(*words, given=text)
    yield "an expansion is bounded", len(output) <= MOST * len(text), text
    if "-s" in words:
        yield "no other fault ends a run that skips", {code for _, code in told(messages, b"ERROR")} <= ENDS_A_RUN, text
    if status == 1:
        return
    is_told_of = left_of(text, output, messages, True) is not None
    yield "an expansion loses no line without a warning", is_told_of and status == (2 if messages else 0), text
    if b"\r\n" not in output:
        yield "what is expanded is standard", run("check", given=output)[2] == 0, text
        yield "expanding again changes nothing", run("crx2rnx", given=run("rnx2crx", given=output)[0]) == (output, b"", 0), text


def parts_by(writer, made):
    """Compact text of some units: what stands before them, and the lines of each."""
    return [b"".join(writer.ended(line, False) for line in part) for part in (writer.first_lines(), *writer.parts(made))]


def parts_written(rng, made):
    """The same, of any writer, or of the program with the number of epochs of its blocks."""
    if rng.random() < 0.5:
        return parts_by(Writer(rng), made), None
    every = rng.randint(1, 4)
    lines = run("rnx2crx", "-e", str(every), "--date", "D", given=rinex(made))[0].splitlines(keepends=True)
    sizes = [2, *(len(unit.lines) if isinstance(unit, Copied) else 2 + len(unit.rows) for unit in made)]
    return [b"".join(lines[sum(sizes[:k]) : sum(sizes[: k + 1])]) for k in range(len(sizes))], every


def of_damage(rng, made):
    """Sentences about compact text in which epochs are damaged, or that is cut off."""
    (first, *parts), every = parts_written(rng, made)
    epochs = [at for at, unit in enumerate(made) if isinstance(unit, Epoch)]
    full = [at for at in epochs if parts[at].startswith(b">")]
    if every:
        runs = (epochs[k : k + every] for k in range(len(epochs) - every + 1))
        yield "blocks are short", all(any(at in full for at in run_of) for run_of in runs), rinex(made)
    one = rng.choice(epochs)
    lines, at = parts[one], rng.randrange(len(parts[one]) - 1)
    text = first + b"".join((*parts[:one], lines[:at], bytes([rng.choice(NOISE)]), lines[at + 1 :], *parts[one + 1 :]))
    yield "noise is noticed", run("crx2rnx", "-s", given=text)[2] == 2, text
    begin, end = sorted(rng.choices(epochs, k=2)) if rng.random() < 0.3 else [rng.choice(epochs)] * 2
    if any(isinstance(unit, Copied) and unit.ends_block for unit in made[begin:end]):
        end = begin  # nothing is promised if an event that changes types is lost
    stretch, kind = b"".join(parts[begin : end + 1])[:-1], rng.randrange(3)
    at = rng.randrange(len(stretch))
    byte = bytes([stretch[at] ^ 1 << rng.randrange(8) if rng.random() < 0.5 else rng.choice(b"&> 0123456789\n\r\x7f\xff")])
    bad = stretch[:at] + byte * (kind < 2) + stretch[at + (kind != 1) :]
    text = first + b"".join(parts[:begin]) + bad + b"\n" + b"".join(parts[end + 1 :])
    output, messages, status = run("crx2rnx", "-s", given=text)
    if status == 0 and bad != stretch:
        yield "damage that isn't noticed", True, text
    if any(line[:1] == b">" and line[31:32] in (b"2", b"3", b"4", b"5", b"6") for line in bad.split(b"\n")):
        yield "a line of a stretch reads as an event's first one", True, text
        return
    after = next((it for it in full if it > end), len(made))
    head, tail, between = rinex(made[:begin]), rinex(made[after:]), [unit for unit in made[end + 1 : after] if isinstance(unit, Copied)]
    middle, place = output[len(head) : len(output) - len(tail)], 0
    for unit in between:  # in order
        place = middle.find(rinex([unit]), place) + 1 or len(middle) + 1
    right = output == head + middle + tail and place <= len(middle) and middle[:1] in (b"", b">") and status in (0, 2)
    yield "what damage costs", right, text
    cut = rng.randrange(1, len(parts) + 1)
    whole, lines = first + b"".join(parts[:cut]), parts[cut].splitlines(keepends=True) if cut < len(parts) else [b""]
    more = b"".join(lines[: rng.randrange(len(lines))])  # up to the end of a line
    front, (output, _, status) = rinex(made[:cut]), run("crx2rnx", given=whole + more)
    yield "a cut is noticed", output.startswith(front) and (more or output == front) and status == bool(more), whole + more
    at = rng.choice(full)
    if not any(isinstance(unit, Copied) and unit.ends_block for unit in made[1:at]):
        piece = first + parts[0] + b"".join(parts[at:])
        yield "a block is expanded alone", run("crx2rnx", given=piece) == (rinex([made[0], *made[at:]]), b"", 0), piece


def of_hours(rng, made):
    """The compact text of the second of two files, without its first lines and header, behind that of the first."""
    types = next(unit.types for unit in reversed(made) if isinstance(unit, Copied))
    one = Copied([made[0].lines[0], *(types_line(*each) for each in types.items()), b" " * 60 + b"END OF HEADER"], types, True)
    epochs = (unit for unit in units(rng) if isinstance(unit, Epoch))
    second = [one, *(it for it in epochs if all(len(values) == types.get(name[0]) for name, values, _ in it.rows))]
    (before, after) = (run("rnx2crx", given=rinex(each))[0].splitlines(keepends=True) for each in (made, second))
    text = b"".join(before + after[2 + len(one.lines) :])
    yield "hours make a day", run("crx2rnx", given=text) == (rinex(made) + rinex(second[1:]), b"", 0), text


def run_full(rng, words, given, room, full):
    """A run whose output (1 in `full`) and messages (2) are taken up to so many bytes, and that waits for each piece of its input: what was
    taken of both, and the status."""
    here, there = socket.socketpair(socket.AF_UNIX, socket.SOCK_SEQPACKET)  # a read gives one piece
    size = rng.randint(20, 4000)
    disks = [(tempfile.TemporaryFile() if room else open("/dev/full", "wb")) if place in full else None for place in (1, 2)]
    streams = dict(zip(("stdin", "stdout", "stderr"), (there, *(disk or subprocess.PIPE for disk in disks))))
    limit = lambda: resource.setrlimit(resource.RLIMIT_FSIZE, (room, room))
    process = subprocess.Popen([PROGRAM, *words], **streams, preexec_fn=limit, restore_signals=False)  # so no signal tells of the limit
    there.close()
    with here, suppress(ConnectionError):  # of a run that has ended
        for at in range(0, len(given), size):
            here.send(given[at : at + size])
    taken = [*process.communicate(timeout=120)]
    for place, disk in enumerate(disks):
        if disk:
            with disk:
                taken[place] = disk.read() if room and disk.seek(0) == 0 else b""
    return *taken, process.returncode


def is_named(taken, given, messages, status):
    """Whether messages name a write that failed, behind the warnings of the lines before; or the fault that came before it."""
    lines, warned = taken.splitlines(keepends=True), [line for line, _ in told(messages, b"WARNING")]
    found = re.fullmatch(rb"ERROR line (\d+) code 21: write failed\n", lines[-1]) if lines else None
    if not found:
        return status == 1 and taken == messages
    at, count = int(found[1]), len(lines) - 1
    in_order = all(line <= at + 1 for line in warned[:count]) and all(line >= at for line in warned[count:])
    return in_order and lines[:-1] == messages.splitlines(keepends=True)[:count] and 1 <= at <= len(contents(given))


def of_full(rng, words, given, whole):
    """Sentences about a run whose disks are full after some bytes. `whole`: what the run writes if they aren't."""
    (output, messages, status), full = whole, rng.choice(((1,), (2,), (1, 2)))
    room = rng.choice((0, rng.randrange(max(len(whole[place - 1]) for place in full) + 1)))
    wrote, taken, ended = run_full(rng, words, given, room, full)
    lost = [place for place in full if room < len(whole[place - 1])]
    yield FULL[0], ended == 1 if lost else (wrote, taken, ended) == whole, given
    if 1 in lost:
        yield FULL[1], output.startswith(wrote) and (2 in lost or wrote == output[:room]), given
    if lost == [1] == [*full]:
        yield FULL[2], is_named(taken, given, messages, status), given
    if lost == [2]:
        line = messages[messages.rfind(b"\n", 0, room) + 1 :]  # the first one that isn't whole
        cut = [] if line.startswith(b"ERROR") else told(line, b"WARNING")[:1]
        before = run(*words, given=b"".join(re.findall(rb".*\n|.+", given)[: cut[0][0] - 1]))[0] if cut else output
        yield FULL[3], (wrote, taken) == (before, messages[:room]), given


def of_names(words, given, whole):
    """Sentences about runs over a file with a name: with a word too much, and if each read is interrupted. `whole`: what is written then."""
    source, target = ("a.crx", "a.rnx") if words[0] == "crx2rnx" else ("a.rnx", "a.crx")
    with tempfile.TemporaryDirectory() as folder:
        (Path(folder) / source).write_bytes(given)
        refused = run(*words, "-x", source, cwd=folder)
        yield "refused arguments touch no file", (refused[0], refused[2], files_in(folder)) == (b"", 1, {source: given}) and refused[1], given
        answer = run(*words, source, cwd=folder, env=interrupted())
        yield BY_NAMES[0], (answer, files_in(folder)) == ((b"", *whole[1:]), {source: given, target: whole[0]}), given


def interrupted():
    """An environment in which each read is interrupted, if the program's C library can be replaced."""
    with suppress(unittest.SkipTest):
        return preloaded(INTERRUPTIONS="2")


def is_in_time(words, fed, wanted):
    """Whether a run that is fed parts of its input writes what each makes before it is fed the next, and nothing else."""
    with subprocess.Popen([PROGRAM, *words], stdin=subprocess.PIPE, stdout=subprocess.PIPE, stderr=subprocess.DEVNULL) as process:
        with suppress(BrokenPipeError):
            for given, made in zip(fed, wanted):
                os.write(process.stdin.fileno(), given)
                if read_for(process.stdout, len(made)) != made:
                    process.kill()
                    return False
            process.stdin.close()
        return process.stdout.read() == b"" and process.wait() == 0


def of_devices(rng, made):
    """Sentences about full disks, files by name and time, over a file, another spelling of it, compact text of two writers, and damage to
    each. What is written of a file without faults is known without the program."""
    every = rng.randint(1, 4)
    (first, *plain), (start, *parts) = parts_by(Plain(rng, every, b"D"), made), parts_by(Writer(rng), made)
    units_of = [rinex([unit]) for unit in made]
    plain[0], parts[0] = first + plain[0], start + parts[0]
    file, own, text, words = b"".join(units_of), b"".join(plain), b"".join(parts), ["rnx2crx", "-e", str(every), "--date", "D"]
    yield "output is in time", is_in_time(words, units_of, plain), file
    yield "output is in time", is_in_time(["crx2rnx"], parts, units_of), text
    skip = ["-s"] * rng.randrange(2)
    for given, answer, tool in ((file, own, words), (spelled(rng, file), own, words), (own, file, ["crx2rnx"]), (text, file, ["crx2rnx"])):
        bad = damaged(rng, given)
        for one, whole in ((given, (answer, b"", 0)), (bad, run(*tool, *skip, given=bad))):
            yield from of_full(rng, [*tool, *skip], one, whole)
            yield from of_names([*tool, *skip], one, whole)


def of_any(rng, _):
    """All sentences about a random file."""
    made = units(rng)
    while b"\r" in rinex(made):
        made = units(rng)
    file, text = rinex(made), Writer(rng).text(made)
    own, other = run("rnx2crx", given=file)[0], spelled(rng, file)
    for one in (file, other, damaged(rng, file), damaged(rng, other)):
        yield from of_files(rng, one)
    for one in (text, own, damaged(rng, text), damaged(rng, own)):
        yield from of_compact(rng, one)
    for ask in (of_damage, of_damage, of_hours, of_devices):
        yield from ask(rng, made)


class Promises(unittest.TestCase):
    def test_random_files(self):
        interrupted()  # what it makes is there before processes need it
        counts, wrong = asked(of_any, FILES)
        if SLOW:
            print(*(f"{counts[name]:8} {name}" for name in sorted(counts)), sep="\n")
        self.assertEqual(wrong, [])
        self.assertEqual({*counts} - NAMES, set(), "of no promise")
        self.assertEqual({name for name in NAMES if counts[name] < (1 if name in SHOWN else LEAST)}, set(), "not asked of so many files")

    def test_each_promise_is_asked(self):
        """Each sentence of both pages has tests, each of which is there."""
        readme, guarantees = ((TOP / page).read_text(encoding="utf-8") for page in ("README.md", "docs/GUARANTEES.md"))
        titles = re.findall(r"^\d+\. \*\*(.*?)\*\*", readme, re.M)
        titles += re.findall(r"^- \*\*(.*?)\*\*", guarantees.partition("## Library")[0], re.M)
        self.assertEqual({*titles}, {*ASKED})
        for name in {name for names in ASKED.values() for name in names if "/" in name}:
            path, _, test = name.partition("::")
            self.assertTrue((TOP / path).exists() and (not test or f"    def {test}(" in (TOP / path).read_text(encoding="utf-8")), name)
