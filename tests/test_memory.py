"""Memory that runs out: each growth refused in turn (preload.c), over short files, words, help and random files, with SLOW=1 over longer
ones and many more; the lines that code 22 names; a limit of the process; and memory that doesn't grow with the input.

A growth that is refused ends the run at once: by code 22 at the line for which there was no memory, after the warnings before it and the
output of the lines before it, with status 1. One growth of a run may be refused without harm: the list of words asks for its room
beforehand, and once more if that is refused (docs/DECISIONS.md).
"""

import os
import random
import re
import resource
import shutil
import subprocess
import tempfile
import unittest
from concurrent.futures import ThreadPoolExecutor
from dataclasses import dataclass, field, replace
from pathlib import Path

from runner import AT_ONCE, PROGRAM, SEED, SLOW, preloaded, run, slow
from texts import BAD_INDICATOR, DATED, EVENT, FIVE, H, K, NAMES, SYSTEMS, Copied, damaged, epoch, file_of, header, rinex, text, types_lines, units

NO_MEMORY = rb"ERROR line ([0-9]+) code 22: out of memory\n"
BUFFER = 65536  # bytes of a buffer that output goes through
FILES, PLACED = (500, 80) if SLOW else (20, 4)  # random files over which each growth is refused, and over which the lines are looked at


@dataclass
class Run:
    name: str
    words: list
    stdin: bytes = b""
    before: dict = field(default_factory=dict)  # files of the folder that it runs in
    written: str = ""  # the file that it writes, in place of standard output
    filters: bool = True  # whether a filter or the check goes over lines


@dataclass
class Answer:
    output: bytes
    messages: bytes
    status: int
    refused: int = 0
    after: int = 0  # growths that were asked for after the one that was refused

    def is_same(self, other):
        return (self.output, self.messages, self.status) == (other.output, other.messages, other.status)


@dataclass
class Counts:
    """What a run took of memory."""

    growths: int
    most: int  # bytes that were held at once
    at_end: int  # bytes that were held when the input's end was read


def error_at(line):
    return text(f"ERROR line {line} code 22: out of memory")


def without_date(output):
    """An output whose date is blank, so that it is the same at another moment."""
    lines = output.split(b"\n", 2)
    if len(lines) == 3 and lines[1].endswith(b"CRINEX PROG / DATE"):
        lines[1] = lines[1][:40] + b" " * 20 + lines[1][60:]
    return b"\n".join(lines)


class Refusing:
    """Runs of the program with preload.c in front."""

    def __init__(self, folder):
        self.folder = Path(folder)
        self.mark = (self.folder / "mark").open("wb", buffering=0)
        self.told = (self.folder / "told").open("w+b", buffering=0)

    def counted(self, words, given, settings, **more):
        """A run, and what it took of memory."""
        self.told.seek(0)
        self.told.truncate()
        environment, files = preloaded(COUNT_TO=str(self.told.fileno()), **settings), [self.mark.fileno(), self.told.fileno()]
        done = subprocess.run([PROGRAM, *words], input=given, env=environment, pass_fds=files, timeout=60, **more)
        self.told.seek(0)
        return done, Counts(*(map(int, self.told.read().split()) if done.returncode >= 0 else (0, 0, 0)))

    def answer(self, it, growth=0, on=False, least=0):
        """A run, with this growth refused (0: none), of those that ask for so many bytes at least."""
        here = self.folder / "here"
        shutil.rmtree(here, ignore_errors=True)
        here.mkdir()
        for name, content in it.before.items():
            (here / name).write_bytes(content)
        self.mark.truncate(0)
        settings = {"REFUSE": str(growth), "REFUSE_ON": str(int(on)), "REFUSE_FROM": str(least), "REFUSE_TO": str(self.mark.fileno())}
        done, counts = self.counted(it.words, it.stdin, settings, cwd=here, capture_output=True)
        output = done.stdout
        if it.written:
            output = (here / it.written).read_bytes() if (here / it.written).exists() else b""
        refused = os.fstat(self.mark.fileno()).st_size
        return Answer(without_date(output), done.stderr, done.returncode, refused, counts.growths - growth if refused else 0)

    def counts(self, words, given, status):
        """What a run takes of memory that is to end with this status."""
        done, found = self.counted(words, given, {}, stdout=subprocess.DEVNULL, stderr=subprocess.DEVNULL)
        if done.returncode != status or not found.at_end:
            raise ValueError(f"{words}: status {done.returncode}, not {status}; {found}")
        return found


class OutputsByLine:
    """What is written once none, one, two .. lines were read: of a check nothing before the end. Each is made when it is asked for."""

    def __init__(self, refusing, it):
        self.refusing, self.run, self.known = refusing, it, {0: b""}
        self.lines = [] if not it.filters or it.words[0] == "check" else re.findall(rb"[^\n]*\n|[^\n]+", it.stdin)

    def __len__(self):
        return len(self.lines) + 1

    def __getitem__(self, count):
        if count not in self.known:
            start = b"".join(self.lines[:count])
            self.known[count] = self.refusing.answer(replace(self.run, stdin=start, before=dict.fromkeys(self.run.before, start))).output
        return self.known[count]


def wrong_with(it, good, outputs, got):
    """What is wrong with a run of which a growth was refused, or nothing."""
    *warnings, error = got.messages.splitlines(keepends=True) or [b""]
    found = re.fullmatch(NO_MEMORY, error)
    if found is None or got.status != 1:
        return f"status {got.status}, messages {got.messages!r}"
    line = int(found[1])
    due = [one for one in good.messages.splitlines(keepends=True) if one.startswith(b"WARNING")]
    line_of = lambda message: int(message.split()[2])
    if warnings != due[: len(warnings)] or [one for one in due if line_of(one) < line] != [one for one in warnings if line_of(one) < line]:
        return f"messages {got.messages!r}"
    if any(line_of(one) > line for one in warnings):
        return f"a warning after line {line}: {got.messages!r}"
    wanted = outputs[max(line - 1, 0)] if len(outputs) > 1 else b""
    if not it.filters and line > 0 or line >= len(outputs) > 1:
        return f"line {line}, after the last one"
    if not good.output.startswith(got.output):
        return f"at line {line}: the output isn't a beginning of the good one"
    return "" if got.output == wanted else f"at line {line}: output of {len(got.output)} bytes, not {len(wanted)}"


def tried(refusing, it, ways=(False, True)):
    """Refuses each growth of a run in turn, alone and with all later ones; how many there are, and what went wrong, as lines."""
    good, wrong, points, spared = refusing.answer(it), [], 0, 0
    outputs = OutputsByLine(refusing, it)
    for on in ways:
        growth = 1
        while (got := refusing.answer(it, growth, on)).refused:
            points += 1
            what = wrong_with(it, good, outputs, got)
            if what and not on and not spared and got.is_same(good):
                spared, what = growth, ""  # its room is asked for once more
            elif it.filters and got.after and growth != spared:
                what = what or f"{got.after} growths were asked for after it"
            wrong += [f"{it.name}, growth {growth}{' and later ones' if on else ''}: {what}"] if what else []
            growth += 1
        wrong += [] if got.is_same(good) else [f"{it.name}: a run that met no refusal differs from the good one"]
    return points, wrong


# ---- runs over short files

INPUTS = {"a header": text(*H), "five epochs": FIVE, "types that change": EVENT, "a bad indicator": BAD_INDICATOR}
FOURTEEN = [letter + number for letter in SYSTEMS for number in ("01", " 2")]
LONGER = {
    "seven systems": file_of(FOURTEEN, 5, 3),
    "satellites that move": file_of(FOURTEEN, 2, 5, turned=True),
    "100 satellites": file_of([f"G{number:02}" for number in range(1, 100)] + ["E01"], 100, 1),
}
WORDS = (["--help"], ["rnx2crx", "-h"], ["crx2rnx", "-h"], ["check", "--help"], [], ["check", "-", "-"], ["check", "a", "b"], ["rnx2crx", "a.txt"],
         ["rnx2crx", "--date", "\t"], ["check", "a.rnx"])  # fmt: skip
# what is made of the lines of a full epoch of compact text: a fault in the epoch's line, or in the first satellite's line
FAULTS = {
    "columns": lambda lines: [lines[0][:33] + b"x" + lines[0][34:], *lines[1:]],
    "a satellite": lambda lines: [lines[0].replace(b"G01", b"X01"), *lines[1:]],
    "a repeated satellite": lambda lines: [lines[0].replace(b"R01", b"G01"), *lines[1:]],
    "a field": lambda lines: [*lines[:2], lines[2].replace(b"3&", b"3x", 1), *lines[3:]],
    "a difference without an arc": lambda lines: [*lines[:2], lines[2].replace(b"3&", b"", 1), *lines[3:]],
    "a value out of range": lambda lines: [*lines[:2], lines[2].replace(b"3&", b"3&9999999", 1), *lines[3:]],
    "an indicator": lambda lines: [*lines[:2], lines[2].replace(b"\n", b"\x1f\n"), *lines[3:]],
}


def runs_over(inputs):
    for name, content in inputs.items():
        yield Run(f"compaction, {name}", DATED, content)
        yield Run(f"compaction with -s, {name}", [*DATED, "-s"], content)
        yield Run(f"check, {name}", ["check"], content)
        made = run(*DATED, "-s", given=content)[0]
        yield Run(f"expansion, {name}", ["crx2rnx"], made)
        yield Run(f"expansion with -s, {name}", ["crx2rnx", "-s"], made)


def with_words():
    yield Run("the date of the moment", ["rnx2crx"], text(*H))
    yield Run("a file to a file", [*DATED, "a.rnx"], FIVE, {"a.rnx": FIVE}, "a.crx")
    yield from (Run("words: " + " ".join(words), words, filters=False) for words in WORDS)


def over_faults():
    """Expansions of a file with a fault. No growth is asked for at a line with one: each that is refused ends the run, though faults are
    skipped."""
    lines = run(*DATED, "-e", "1", given=LONGER["seven systems"])[0].splitlines(keepends=True)
    first, second = [at for at, line in enumerate(lines) if line.startswith(b">")][:2]
    for name, fault in FAULTS.items():
        given = b"".join([*lines[:first], *fault(lines[first:second]), *lines[second:]])
        yield Run(f"expansion, a fault: {name}", ["crx2rnx"], given)
        yield Run(f"expansion with -s, a fault: {name}", ["crx2rnx", "-s"], given)


class OfRuns(unittest.TestCase):
    def setUp(self):
        kept = tempfile.TemporaryDirectory()
        self.addCleanup(kept.cleanup)
        self.refusing = Refusing(kept.name)

    def assert_each_refused(self, runs):
        for it in runs:
            with self.subTest(it.name):
                points, wrong = tried(self.refusing, it)
                self.assertEqual(wrong, [])
                self.assertGreater(points, 0)


class Refused(OfRuns):
    def test_a_header(self):
        """What is written is typed: at line 0, before the first one was read, nothing."""
        written = {0: b"", 1: b"", 2: without_date(text(*K, H[0])), 3: without_date(text(*K, H[0], H[1]))}
        whole, growth, unharmed, lines = Answer(without_date(text(*K, *H)), b"", 0), 1, [], []
        while (got := self.refusing.answer(Run("a header", DATED, text(*H)), growth)).refused:
            line = next((line for line in written if got.is_same(Answer(written[line], error_at(line), 1))), None)
            unharmed += [growth] if got.is_same(whole) else []
            lines += [line] if not got.is_same(whole) else []
            growth += 1
        self.assertTrue(got.is_same(whole))
        self.assertEqual(lines[0], 0)
        self.assertNotIn(None, lines)
        self.assertLessEqual(len(unharmed), 1)

    def test_the_memory_of_a_buffer(self):
        """If it is refused for the buffer of standard output or of the file, which come first, no file is made, and one that is there
        isn't emptied."""
        for words, there in ((DATED, None), ([*DATED, "-f"], b"as it was")):
            before = {"a.rnx": FIVE} | ({} if there is None else {"a.crx": there})
            for growth in (1, 2):
                with self.subTest(words=words, growth=growth):
                    got = self.refusing.answer(Run("a file", [*words, "a.rnx"], before=before), growth, least=BUFFER)
                    made = self.refusing.folder / "here/a.crx"
                    left = made.read_bytes() if made.exists() else None
                    self.assertEqual((bool(got.refused), got.output, got.messages, got.status, left), (True, b"", error_at(0), 1, there))

    def test_short_files(self):
        self.assert_each_refused(runs_over(INPUTS))

    def test_words_and_help(self):
        self.assert_each_refused(with_words())

    @slow
    def test_longer_files(self):
        self.assert_each_refused(runs_over(LONGER))

    @slow
    def test_files_with_faults(self):
        self.assert_each_refused(over_faults())


# ---- random files


def at_random(ask, count):
    """Asks of so many random files, in a thread for each processor: how many growths were refused, and what went wrong, as lines."""
    with ThreadPoolExecutor(AT_ONCE) as pool:
        found = list(pool.map(ask, range(SEED, SEED + count)))
    return sum(points for points, _ in found), [line for _, lines in found for line in lines]


def of_seed(seed):
    """What is wrong with the runs over the file of a seed, whose text and whose compact text may be damaged."""
    rng = random.Random(seed)
    every, skip = rng.choice([[], [], ["-e", "1"], ["-e", "2"]]), rng.choice([[], ["-s"]])
    given = rinex(units(rng))
    compact = run(*DATED, *every, "-s", given=given)[0]
    given, compact = (damaged(rng, it) if rng.random() < 0.5 else it for it in (given, compact))
    words = ([*DATED, *every, *skip], given), (["crx2rnx", *skip], compact), (["check"], given)
    runs = [Run(f"seed {seed}, {it[0][0]}", *it) for it in words]
    with tempfile.TemporaryDirectory() as folder:
        found = [tried(Refusing(folder), it, ways=(False,)) for it in runs]
    return sum(points for points, _ in found), [line for _, lines in found for line in lines]


def places(all_units):
    """The lines at which memory may run out in a file, and in its compact text."""
    rows, heads, room, at, shift, has_types = {0}, {0}, {}, 0, 2, False  # compact text has two lines before the header
    for unit in all_units:
        if isinstance(unit, Copied):
            for number, line in enumerate(unit.lines, at + 1):
                if line[60:79] == b"SYS / # / OBS TYPES" and not has_types:
                    has_types = bool(rows.add(number)) or bool(heads.add(number + shift)) or True
            at += len(unit.lines)
            continue
        for number, (name, values, _) in enumerate(unit.rows, at + 2):
            if room.get(name, -1) < len(values):
                room[name] = len(values)
                rows.add(number)
                heads.add(at + 1 + shift)
        at, shift = at + 1 + len(unit.rows), shift + 1  # compact text has a clock line more
    return rows, heads


def lines_of_seed(seed):
    """Over an undamaged file, without -s, code 22 may name line 0 and the first types line; in compaction also the line of a satellite
    that no line before it had with as many types; in expansion also the first line of an epoch that has such a satellite. If no growth
    was refused, it doesn't come at all: a program that gives up without asking for memory is seen."""
    named = lambda messages: [int(line) for line in re.findall(rb"ERROR line ([0-9]+) code 22", messages)]
    made = units(random.Random(seed))
    given, (rows, heads), points, wrong = rinex(made), places(made), 0, []
    compact = run(*DATED, given=given)[0]
    with tempfile.TemporaryDirectory() as folder:
        refusing = Refusing(folder)
        for words, data, may in ((DATED, given, rows), (["crx2rnx"], compact, heads), (["check"], given, {0, min(rows - {0})})):
            growth, it = 1, Run(str(seed), words, data)
            while (got := refusing.answer(it, growth)).refused:
                growth, points = growth + 1, points + 1
                wrong += [f"seed {seed}, {words[0]}: line {line}, none of {sorted(may)}" for line in named(got.messages) if line not in may]
            wrong += [f"seed {seed}, {words[0]}: line {line}, and no growth was refused" for line in named(got.messages)]
    return points, wrong


class Random(unittest.TestCase):
    def test_each_growth(self):
        points, wrong = at_random(of_seed, FILES)
        self.assertEqual(wrong, [])
        self.assertGreater(points, 50 * FILES)

    def test_lines_that_code_22_names(self):
        points, wrong = at_random(lines_of_seed, PLACED)
        self.assertEqual(wrong, [])
        self.assertGreater(points, 50 * PLACED)


# ---- without a refusal


def one_more_each(most, satellites):
    """A file whose epochs have one type more each, or, of one type, one satellite more each."""
    lines = list(H)
    for count in range(1, most + 1):
        time = f"> 2024 01 01 {count // 60:2} {count % 60:2}  0.0000000"
        names = [f"{SYSTEMS[n // 99]}{n % 99 + 1:02}" for n in range(count if satellites else 1)]
        types = [line for system in SYSTEMS for line in types_lines(system, 1)] if satellites else types_lines("G", count)
        if count == 1 or not satellites:
            lines += [f"{time}  4{len(types):3}", *types]
        lines += [f"{time}  0{len(names):3}", *[(name + f"{count:14.3f}  " * (1 if satellites else count)).rstrip() for name in names]]
    return text(*lines)


# Runs whose memory is to be the same however many epochs there are; of the last two each epoch has a line with a fault, which is skipped.
STEADY = {
    "compacting": (DATED, b""),
    "compacting, every second epoch full": ([*DATED, "-e", "2"], b""),
    "expanding": (["crx2rnx"], b""),
    "checking": (["check"], b""),
    "compacting with -s, a fault an epoch": ([*DATED, "-s"], b"x\n"),
    "expanding with -s, a fault an epoch": (["crx2rnx", "-s"], b"x\n"),
}
GROWN, KEPT = (20, 400), (100, 1000)  # epochs between which the growths are the same, and the bytes that are held
THIRTY = [f"{letter}{number:02}" for letter in "GRE" for number in range(1, 11)]


def coming_and_going(epochs):
    """A file with 30 satellites of 30 types: in each epoch nine others of them are absent, and they are in another order. After ten epochs
    it all comes again, so that a run has met each by then."""
    made = []
    for phase in range(10):
        there = [place for place in range(30) if (7 * place + 3 * phase) % 10 >= 3]
        turned = (there[5 * phase % 21 :] + there[: 5 * phase % 21])[:: -1 if phase % 2 else 1]
        cells = [f"{20000000 + place + phase**3:10}.00117" for place in range(30)]
        made.append(text(epoch(phase, len(there)), *[THIRTY[place] + "".join(cells) for place in turned]))
    return text(*header(SYSTEMS, 30)) + b"".join(made[number % 10] for number in range(epochs))


class AtHand(OfRuns):
    def assert_comes_back(self, given):
        output, messages, status = run(*DATED, given=given)
        self.assertEqual((messages, status), (b"", 0))
        self.assertEqual(run("crx2rnx", given=output), (given, b"", 0))
        self.assertEqual(run("check", given=given)[1:], (b"", 0))

    def test_each_count_of_types(self):
        """With memory at hand code 22 comes at no count from 1 to 400 types, and of 1 to 693 satellites, one more in each epoch."""
        self.assert_comes_back(one_more_each(400, False))

    def test_each_count_of_satellites(self):
        self.assert_comes_back(one_more_each(693, True))

    def test_no_growth_after_the_first_epochs(self):
        for over in (lambda epochs: file_of(FOURTEEN, 5, epochs), coming_and_going):
            for name, (words, fault) in STEADY.items():
                with self.subTest(name, over=over.__name__):
                    found = []
                    for epochs in GROWN + KEPT:
                        content = over(epochs)
                        if words[0] == "crx2rnx":
                            content = run(*DATED, *(["-e", "1"] if fault else []), given=content)[0]
                        found.append(self.refusing.counts(words, content.replace(b"\n>", b"\n" + fault + b">"), 2 if fault else 0))
                    few, many, early, late = found
                    self.assertEqual(few.growths, many.growths)
                    self.assertEqual((early.most, early.at_end), (late.most, late.at_end))


class Limited(unittest.TestCase):
    """A process that may have no more memory than it has once it wrote the header, or a little more: each run ends well, or says that
    memory ran out. A crash is a failure, since the program has started."""

    def ended(self, words, start, rest, extra):
        with subprocess.Popen([PROGRAM, *words], stdin=subprocess.PIPE, stdout=subprocess.PIPE, stderr=subprocess.PIPE) as process:
            process.stdin.write(start)
            process.stdin.flush()
            first = b""
            while b"END OF HEADER\n" not in first:
                first += os.read(process.stdout.fileno(), 1 << 16)
            has = int(re.search(r"VmSize:\s+(\d+) kB", Path(f"/proc/{process.pid}/status").read_text())[1]) * 1024
            resource.prlimit(process.pid, resource.RLIMIT_AS, (has + extra, has + extra))
            output, messages = process.communicate(rest, timeout=60)
        return first + output, messages, process.returncode

    def test_each_limit(self):
        standard = file_of(NAMES[:100], 100, 2)
        compact = run(*DATED, given=standard)[0]
        for words, given in ((DATED, standard), (["crx2rnx"], compact)):
            whole, short, good = run(*words, given=given), 0, 0
            at = given.index(b"END OF HEADER\n") + len(b"END OF HEADER\n")
            for extra in (*range(0, 2_000_000, 40_000), 64_000_000):
                with self.subTest(words=words, extra=extra):
                    output, messages, status = self.ended(words, given[:at], given[at:], extra)
                    if status:
                        short += 1
                        self.assertEqual((status, whole[0].startswith(output)), (1, True))
                        self.assertRegex(messages, rb"\A" + NO_MEMORY + rb"\Z")
                    else:
                        good += 1
                        self.assertEqual((output, messages, status), whole)
            self.assertTrue(short and good, f"{words[0]}: {short} runs were short of memory, {good} weren't")
