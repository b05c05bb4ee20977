"""The program beside a reader of the format (relation.py), over random files: compact text of any writer is read as what it means, and
nothing else is accepted; the program's own compact text is as defined; and a check says what is standard.

The writer of texts.py draws each freedom of the format at random: which epochs are full; where arcs start, and by which order; how a
number is spelt; marks where nothing changes; blanks and CR at line ends; the first two lines. Then one bit of each text is flipped, or
it is damaged, or written with a rule broken: status 0 has to come if and only if the relation finds units, and the output has to be
theirs. Each of some readers with a bug has to differ on one of all these texts. What the program promises is proved; this finds what a
compiler or a machine would add to it, so it runs over each machine's program. In the environment: TEXTS is the number of files; FILES
names standard files, of whose units half of the texts are.
"""

import os
import random
import re
import unittest
from collections import Counter
from concurrent.futures import ProcessPoolExecutor
from dataclasses import replace
from functools import lru_cache
from pathlib import Path

import texts
from relation import Arc, NoSuchText, Relation, Row, Written, normal_form
from runner import AT_ONCE, LIMITS, SEED, SLOW, run
from texts import BREAKABLE, DATED, Copied, Epoch, Plain, Writer, damaged, damaged_case, rinex, units

TEXTS = int(os.environ.get("TEXTS") or (100_000 if SLOW else 2000))
FILES = os.environ.get("FILES", "").split()


# ---- units


def other_flags(rng, all_units):
    """Units, some of whose epochs have flag 1, a power failure."""
    flags = (rng.random() < 0.1 for _ in all_units)
    with_flag = lambda unit: replace(unit, head=unit.head[:31] + "1" + unit.head[32:])
    return [with_flag(unit) if isinstance(unit, Epoch) and flag else unit for unit, flag in zip(all_units, flags)]


def lengthened(rng, all_units):
    """Units with so many comments in the header that later lines are near the end of what the program's reader holds at once, in one of
    ten."""
    size, header = rng.randrange(17_000, 19_000) if rng.random() < 0.1 else 0, all_units[0]
    lengths = (8192, 8192, size - 16_386) if size else ()
    comments = [(b" " * 60 + b"COMMENT").ljust(length, b"x") for length in lengths]
    return [replace(header, lines=[*header.lines[:-1], *comments, header.lines[-1]]), *all_units[1:]]


@lru_cache(maxsize=None)
def units_of(path):
    """The units of a standard file, which its compact text has."""
    file = Path(path).read_bytes()
    found = Relation().units(run(*DATED, given=file)[0])
    if rinex(found) != file:
        raise ValueError(f"{path} isn't standard, or doesn't come back")
    return found


def cut_units(rng, found):
    """A header and some units of a file, one after another, where types are those of the header."""
    first = next((at for at, unit in enumerate(found) if at and isinstance(unit, Copied) and unit.ends_block), len(found))
    start = rng.randint(1, max(1, first - 1))
    return [found[0], *found[start : min(first, start + rng.randint(1, 8))]]


# ---- readers with a bug


class OrderOneLower(Relation):
    def order_of(self, order):
        return max(0, order - 1)


class OrderAtMostThree(Relation):
    def order_of(self, order):
        return min(3, order)


class StartInMidRunIgnored(Relation):
    def started(self, before, order, value):
        return Arc(before.order, value, (before.newest, *before.older)) if before else Arc(order, value)


class AndSignKept(Relation):
    def patched(self, old, marks):
        return super().patched(old, marks.replace(b"&", b"*"))


class EventEmptiesTheState(Relation):
    def after_event(self, before, changes_types):
        return None


class TypesKeepTheState(Relation):
    def after_event(self, before, changes_types):
        return before


class FullEpochKeepsArcs(Relation):
    def base(self, before, line):
        return Written(b"", before.clock, {}) if before and line.startswith(b">") else super().base(before, line)

    def started(self, before, order, value):
        return Arc(before.order, value, (before.newest,)) if before and before.older else super().started(before, order, value)


class MissingValueKeepsTheArc(Relation):
    def arc_now(self, before, code):
        return before if code is None else super().arc_now(before, code)


class IndicatorsStartAnew(Relation):
    def row(self, base, name, count, line):
        before = base.rows.get(name)
        return super().row(Written(base.head, base.clock, {name: Row(before.name, before.arcs, b"")} if before else {}), name, count, line)


class FifteenDigits(Relation):
    def row(self, base, name, count, line):
        if any(len(text.split(b"&")[-1].lstrip(b"-")) > 15 for text in line.split(b" ")[:count]):
            raise NoSuchText
        return super().row(base, name, count, line)


READERS = (OrderOneLower, OrderAtMostThree, StartInMidRunIgnored, AndSignKept, EventEmptiesTheState, TypesKeepTheState)
READERS += (FullEpochKeepsArcs, MissingValueKeepsTheArc, IndicatorsStartAnew, FifteenDigits)


# ---- questions


def meaning(relation, text):
    """The RINEX text of the units of a text, or None."""
    try:
        return rinex(relation.units(text))
    except NoSuchText:
        return None


def flipped(rng, made, text):
    """A text that may not be compact text of a file: of a writer that breaks a rule; damaged anywhere; or with one bit flipped, mostly
    behind its header."""
    kind = rng.random()
    if kind < 0.2:
        return Writer(rng, rng.choice(BREAKABLE)).text(made)
    if kind < 0.5:
        return damaged(rng, text)
    header = text.find(b"END OF HEADER")
    at = rng.randrange(header if header > 0 and rng.random() < 0.9 else 0, len(text))
    return text[:at] + bytes([text[at] ^ 1 << rng.randrange(8)]) + text[at + 1 :]


def spelled(rng, file):
    """A file that says the same in another way: what compacting gives up is written differently."""
    lines, body = file.split(b"\n"), False
    for at, line in enumerate(lines[:-1]):
        is_value = body and line[:1].isalpha() and line[1:3].isdigit()
        if is_value and rng.random() < 0.5:
            line = line.replace(b" 0.", b"  .").replace(b" -0.", b"  -.")
        if is_value and rng.random() < 0.3 and len(line) < 2000:
            line += b" " * rng.randint(1, 3)
        if rng.random() < 0.3 and not line.endswith(b"\r"):
            line += b"\r"
        body = body or line[60:73] == b"END OF HEADER"
        lines[at] = line
    whole = b"\n".join(lines)
    return whole[:-1] if rng.random() < 0.2 and not whole.endswith((b"\n\n", b"\r\n")) else whole


def of_texts(rng, made):
    """Of each question about texts of some units its name, whether the answer is right, and the text."""
    file, text = rinex(made), Writer(rng).text(made)
    words = ["crx2rnx"] + ["-s"] * rng.randrange(2)
    yield "any writer's text is read", run(*words, given=text) == (file, b"", 0) and meaning(Relation(), text) == file, text
    bad = flipped(rng, made, text)
    (output, _, status), wanted = run(*words, given=bad), meaning(Relation(), bad)
    is_right = (status == 0) == (wanted is not None) and (wanted is None or output == wanted)
    yield "other text that is compact text of a file is read" if wanted is not None else "no other text is accepted", is_right, bad
    for reader in READERS:
        if meaning(reader(), text) != file or meaning(reader(), bad) != wanted:
            yield f"{reader.__name__} is found", True, text


def of_files(rng, made):
    """The same of questions about RINEX."""
    file, every, date = rinex(made), rng.randint(1, 4), rng.choice((b"D", b"01-Jan-24 00:00", b""))
    words = ["rnx2crx", "-e", str(every), "--date", date.decode(), *["-s"] * rng.randrange(2)]
    other = spelled(rng, file)
    if b"\r" not in file:
        plain = Plain(rng, every, date).text(made)
        yield "compact text is as defined", run(*words, given=file) == (plain, b"", 0), file
        if b"\r\r" not in other:
            yield "another spelling is compacted alike", run(*words, given=other) == (plain, b"", 0) and normal_form(other) == file, other
        if case := damaged_case(rng, file):
            bad = case["input"].encode("latin-1")
            output, messages, status = run("rnx2crx", given=bad)
            told = [[int(line), int(code)] for line, code in re.findall(rb"ERROR line (\d+) code (\d+): ", messages)]
            is_right = (told, status, run("crx2rnx", given=output)[0]) == (case["faults"], 1, case["expands_to"].encode("latin-1"))
            yield "the first fault is reported", is_right, bad
    for one in (file, other, damaged(rng, other)):
        report, messages, status = run("check", given=one)
        if status == 1:
            output, told, ended = run("rnx2crx", given=one)
            yield "a check tells of a compaction", (told, ended) == (messages, 1), one
        else:
            is_standard = one == normal_form(one)
            yield "a file in normal form is standard, and no other", (status == 0) == is_standard == report.endswith(b"\nstandard yes\n"), one


def of_any(rng, at):
    """All questions about a random file."""
    made = cut_units(rng, units_of(rng.choice(FILES))) if FILES and at % 2 else lengthened(rng, other_flags(rng, units(rng)))
    yield from of_texts(rng, made)
    yield from of_files(rng, made) if at % 4 == 0 else ()


def part(job):
    """What was asked of some files, and what is wrong."""
    ask, seed, count = job
    rng, counts, wrong = random.Random(seed), Counter(), []
    for name, is_right, text in (it for at in range(count) for it in ask(rng, at)):
        counts[name] += 1
        wrong += [] if is_right else [f"seed {seed}, {name}: {text!r}"]
    return counts, wrong


def asked(ask, count):
    """What was asked of so many files, and what is wrong, in a process for each processor."""
    jobs = [(ask, SEED * 1000 + number, -(-count // (4 * AT_ONCE))) for number in range(4 * AT_ONCE)]
    with ProcessPoolExecutor(AT_ONCE) as pool:
        found = [*pool.map(part, jobs)]
    return sum((counts for counts, _ in found), Counter()), [line for _, wrong in found for line in wrong][:20]


NAMES = ["any writer's text is read", "other text that is compact text of a file is read", "no other text is accepted", "compact text is as defined",
         "another spelling is compacted alike", "the first fault is reported", "a check tells of a compaction",
         "a file in normal form is standard, and no other", *(f"{reader.__name__} is found" for reader in READERS)]  # fmt: skip


class Writers(unittest.TestCase):
    def test_limits(self):
        """The maker of texts has the limits of the formats."""
        for name in ("LINE_LIMIT", "TYPES_LIMIT", "SATELLITES_LIMIT", "DIGITS_LIMIT", "ORDER_LIMIT"):
            self.assertEqual(getattr(texts, name), LIMITS[name])

    def test_random_files(self):
        counts, wrong = asked(of_any, TEXTS)
        self.assertEqual(wrong, [])
        if TEXTS >= 1000:
            self.assertEqual([name for name in NAMES if not counts[name]], [], "never asked")
