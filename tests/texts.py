#!/usr/bin/env python3
"""RINEX and compact text: short texts that are typed; random files, as units, RINEX and compact text of any writer; and damage.

    texts.py --seed 1 --count 300 > random.json

writes random cases for conform.py: good files and odd ones (numbers in other forms, blanks and CR at line ends) to be compacted, compact
text to be expanded, and damaged files of which the fault's line and code are known, since the damage is one that is chosen. The same
seed gives the same cases. docs/FORMATS.md has the rules that all of this keeps to. This file needs Python 3.8 and nothing else.
"""

from __future__ import annotations

import argparse
import json
import random
import sys
from dataclasses import dataclass, field
from math import comb

LINE_LIMIT, TYPES_LIMIT, SATELLITES_LIMIT, DIGITS_LIMIT, ORDER_LIMIT = 8192, 400, 999, 18, 9

# the header of one system and one type, and the two lines that compact text has before it
H = [
    "     3.04           OBSERVATION DATA    G                   RINEX VERSION / TYPE",
    "G    1 C1C                                                  SYS / # / OBS TYPES",
    "                                                            END OF HEADER",
]
K = [
    "3.0                 COMPACT RINEX FORMAT                    CRINEX VERS   / TYPE",
    "RNX2CRX profile 1.0                     D                   CRINEX PROG / DATE",
]
SYSTEMS = "GRECJIS"
NAMES = [letter + tens + ones for letter in SYSTEMS for tens in " 0123456789" for ones in "0123456789"]  # all that there are
EACH = ["rnx2crx", "-e", "1", "--date", "D"]
DATED = ["rnx2crx", "--date", "D"]


def text(*lines):
    return "".join(line + "\n" for line in lines).encode("latin-1")


def epoch(second, count):
    return f"> 2024 01 01 00 00  {second}.0000000  0{count:3}"


def full(second, names):
    """The first line of a full epoch of compact text."""
    return epoch(second, len(names) // 3) + "      " + names


def types_lines(system, count):
    """The types lines of a system that has so many types, thirteen of them a line."""
    parts = [min(13, count - start) for start in range(0, count, 13)]
    return [((" " * 6 if place else f"{system}  {count:3}") + " C1C" * n).ljust(60) + "SYS / # / OBS TYPES" for place, n in enumerate(parts)]


def header(systems, types):
    """The lines of a header that gives each of these systems so many types, in one line each."""
    return [H[0], *(f"{letter}  {types:3} C1C".ljust(60) + "SYS / # / OBS TYPES" for letter in systems), H[2]]


def file_of(names, types, seconds, turned=False):
    """A file with epochs of these satellites, with all values and indicators; if it is turned, every second epoch has them from the last
    to the first."""
    lines = header(SYSTEMS, types)
    for second in range(seconds):
        cells = "".join(f"{20000000 + place + second**3:10}.00117" for place in range(types))
        lines += [epoch(second % 10, len(names)), *(name + cells for name in (names[::-1] if turned and second % 2 else names))]
    return text(*lines)


def turning(orders, types):
    """A file whose epochs have these satellites; their values are quadratic in time, with some noise."""
    lines = header(SYSTEMS, types)
    for second, order in enumerate(orders):
        lines.append(epoch(second % 10, len(order)))
        for place in order:
            noise = random.Random(place * 100003 + second)
            row, start = NAMES[place], 20000000000 + 13000007 * place + (90001 + 17 * place) * second + 37 * second**2
            for kind in range(types):
                value = start + 4000037 * kind + noise.randrange(-400, 400)
                row += f"{value // 1000:10}.{value % 1000:03} {5 + (place + kind) % 4}"
            lines.append(row)
    return text(*lines)


VALUES = ["20000000.000", "20000100.500", "20000202.000", "20000304.500", "20000408.000"]
FIVE = text(*H, *[line for k, value in enumerate(VALUES) for line in (epoch(k, 1), "G01  " + value)])
COMPACT_FIVE = text(
    *K, *H, full(0, "G01"), "", "3&20000000000",
    " " * 20 + "1", "", "100500",
    " " * 20 + "2", "", "1000",
    " " * 20 + "3", "", "0",
    " " * 20 + "4", "", "0",
)  # fmt: skip
BAD_INDICATOR = FIVE.replace(b"20000100.500", b"20000100.500&")
# the five epochs, and then so many more without a change that no pipe holds their text
COMPACT_LONG = COMPACT_FIVE + text(*[line for _ in range(20000) for line in ("", "", "0")])
# so many epochs that neither a buffer of the output nor one read holds them
MANY = text(*H) + b"".join(text(epoch(k % 10, 1), f"G01{20000000 + k * k:10}.{k % 1000:03}") for k in range(9000))
EVENT = text(
    *H,
    epoch(0, 1), "G01         1.000",
    "> 2024 01 01 00 00  1.0000000  4  1",
    "G    2 C1C L1C                                              SYS / # / OBS TYPES",
    epoch(2, 1), "G01         3.000          12.500",
)  # fmt: skip


# ---- random files, as units

OBSERVATION_WIDTH, CLOCK_WIDTH = 14, 15
MARKS = "123456789AS"
LIKE_EPOCHS = tuple(b"> 2024 01 01 00 00  0.0000000  " + end for end in (b"0  2", b"4  1", b"6999"))
COPIED = (b"", b"some words", b"> no event here", *LIKE_EPOCHS, b"\x80\xff\t", b"&", b"G    9" + b" " * 54 + b"COMMENT", b"ends in CR\r", b"ends in two\r\r")



@dataclass
class Epoch:
    """An observation epoch: columns 1 to 41, the clock offset or None, and for each satellite its name, values and indicators."""

    head: str
    clock: int | None
    rows: list


@dataclass
class Copied:
    """Lines that are copied; an event's first line and its records, or header lines. `types` are those in force after them."""

    lines: list
    types: dict
    ends_block: bool = False


def types_line(letter, count):
    """A types line; names of types aren't read."""
    return f"{letter}  {count:3d} C1C".ljust(60).encode() + b"SYS / # / OBS TYPES"


def any_header(rng):
    """A header of one to three systems with one to four types each."""
    types = {letter: rng.randint(1, 4) for letter in rng.sample(SYSTEMS, rng.randint(1, 3))}
    lines = [b"     3.04           OBSERVATION DATA    M".ljust(60) + b"RINEX VERSION / TYPE"]
    lines += [types_line(letter, count) for letter, count in types.items()]
    lines += [rng.choice(COPIED[:-2]) for _ in range(rng.randint(0, 2))] + [b" " * 60 + b"END OF HEADER"]
    return Copied(lines, types, True)


def any_event(rng, types, second):
    """An event of any flag, in one of four with a line that gives a system another count of types."""
    flag = rng.randint(2, 6)
    lines = [rng.choice(COPIED) for _ in range(rng.randint(0, 2))]
    changes = rng.random() < 0.25 and flag < 6
    if changes:
        types = {**types, rng.choice(list(types)): rng.randint(1, 4)}
        lines += [types_line(letter, count) for letter, count in types.items()]
    return Copied([f"> 2024 01 01 00 00 {second:2d}.0000000  {flag}{len(lines):3d}".encode(), *lines], types, changes)


def any_value(rng, before, width):
    """A value near the one before it, or any, or none."""
    kind = rng.random()
    if kind < 0.08:
        return None
    if before is not None and kind < 0.9:
        near = before + rng.randint(-2000, 2000)
        return near if -(10 ** (width - 2)) < near < 10 ** (width - 1) else 0
    return rng.choice((0, 1, -1, 10 ** (width - 1) - 1, 1 - 10 ** (width - 2), rng.randint(-(10**9), 10**11)))


def any_epoch(rng, types, second, before):
    """An epoch after another one, whose satellites and values it mostly keeps."""
    known = {name: (values, flags) for name, values, flags in before.rows} if before else {}
    names = [name for name in known if name[0] in types and rng.random() < 0.9]
    for _ in range(rng.choice((0, 0, 1, 2))):
        name = f"{rng.choice(list(types))}{rng.randint(1, 12):02d}"
        names += [] if name in names else [name]
    if rng.random() < 0.1:
        rng.shuffle(names)
    rows = []
    for name in names:
        count = types[name[0]]
        old, marks = known.get(name, ([], ""))
        old, marks = (list(old) + [None] * count)[:count], marks.ljust(2 * count)[: 2 * count]
        marks = "".join(rng.choice(" " + MARKS) if rng.random() < 0.1 else mark for mark in marks)
        rows.append((name, [any_value(rng, each, OBSERVATION_WIDTH) for each in old], marks))
    clock = any_value(rng, before and before.clock, CLOCK_WIDTH) if rng.random() < 0.4 else None
    return Epoch(f"> 2024 01 01 00 00 {second:2d}.0000000  0{len(rows):3d}      ", clock, rows)


def units(rng):
    """A header and up to twelve epochs, with events between them."""
    all_units, before = [any_header(rng)], None
    types = all_units[0].types
    for second in range(rng.randint(1, 12)):
        if rng.random() < 0.15:
            all_units.append(any_event(rng, types, second))
            types = all_units[-1].types
        before = any_epoch(rng, types, second, before)
        all_units.append(before)
    return all_units


# ---- RINEX


def printed(number, decimals, width):
    """A number in its columns, and stars if it is too wide for them; a missing one is blanks."""
    if number is None:
        return " " * width
    whole, part = divmod(abs(number), 10**decimals)
    text = f"{'-' if number < 0 else ''}{whole}.{part:0{decimals}d}".rjust(width)
    return text if len(text) == width else "*" * width


def rinex(all_units):
    """The RINEX text of some units."""
    lines = []
    for unit in all_units:
        if isinstance(unit, Copied):
            lines += unit.lines
            continue
        lines.append((unit.head + printed(unit.clock, 12, CLOCK_WIDTH)).rstrip(" ").encode())
        for name, values, marks in unit.rows:
            cells = (printed(each, 3, OBSERVATION_WIDTH) + marks[2 * at : 2 * at + 2] for at, each in enumerate(values))
            lines.append((name + "".join(cells)).rstrip(" ").encode())
    return b"".join(line + b"\n" for line in lines)


# ---- compact text of any writer


@dataclass(frozen=True)
class Arc:
    """Its order, its newest value, and the values before it, back to its start or to its order."""

    order: int
    newest: int
    older: tuple = ()


@dataclass
class Written:
    """What later lines go on from: an epoch's columns 1 to 41, its clock's arc, and of each satellite its arcs and its indicators."""

    head: bytes = b""
    clock: Arc | None = None
    rows: dict = field(default_factory=dict)

    def text(self):
        return self.head + b"".join(self.rows)


BREAKABLE = ("digits", "plus", "order", "start", "full", "mark", "types")


class Writer:
    """Writes the compact text of some units; how often it makes each choice differs from text to text. One that is to break a rule of the
    format does so now and then: 19 digits, a plus, an order 10, a start that is left out, a first epoch that isn't in full, a mark past the
    indicators, or an epoch that goes on over a types line."""

    def __init__(self, rng, broken=None):
        self.rng, self.broken = rng, broken
        self.often = {choice: rng.choice((0, 0.02, 0.2, 0.6)) for choice in ("full", "start", "zeros", "mark", "blanks", "return")}
        self.orders = rng.choice((range(10), range(4), (rng.randint(0, 9),)))
        self.before = None

    def does(self, choice):
        return self.rng.random() < self.often[choice]

    def breaks(self, rule):
        return rule == self.broken and self.rng.random() < (0.9 if rule == "types" else 0.3)

    def spaces(self):
        return b" " * self.rng.randint(1, 5) if self.does("blanks") else b""

    def marks(self, old, new, most):
        """Marks that make a text of another, in so many columns at most."""
        width = min(most, max(len(old), len(new)) + (self.rng.randint(0, 6) if self.does("mark") else 0))
        made = bytearray()
        for a, b in zip(old.ljust(width), new.ljust(width)):
            mark = ord("&") if b == 32 else b
            made.append(32 if a == b and not self.does("mark") else mark)
        return bytes(made)

    def number(self, number):
        """A number with any zeros in front, up to the most digits."""
        digits = str(abs(number))
        if self.does("zeros"):
            digits = digits.rjust(self.rng.randint(len(digits), DIGITS_LIMIT), "0")
        if self.breaks("digits"):
            digits = digits.rjust(DIGITS_LIMIT + 1, "0")
        minus = number < 0 or (number == 0 and self.does("zeros"))
        return (b"-" if minus else b"+" if self.breaks("plus") else b"") + digits.encode()

    def code(self, before, value):
        """A value's arc after the one that is there or none, and its code."""
        if value is None:
            return None, b""
        if before is None or self.does("start"):
            order = 10 if self.breaks("order") else self.rng.choice(self.orders)
            return Arc(order, value), (b"" if self.breaks("start") else b"%d&" % order) + self.number(value)
        values = (value, before.newest, *before.older)
        order = min(len(values) - 1, before.order)
        return Arc(before.order, value, values[1:]), self.number(sum((-1) ** k * comb(order, k) * values[k] for k in range(order + 1)))

    def epoch(self, epoch):
        rows = {name.encode(): ([], marks.encode()) for name, _, marks in epoch.rows}
        text = epoch.head.encode() + b"".join(rows)
        in_full = (self.before is None and not self.breaks("full")) or self.does("full")
        base = Written() if in_full or self.before is None else self.before
        first = b">" if in_full else b" "
        lines = [first + self.marks(base.text()[1:], text[1:], LINE_LIMIT)]
        clock, code = self.code(base.clock, epoch.clock)
        lines.append(code + self.spaces())
        for name, values, marks in epoch.rows:
            name, (arcs, flags), old = name.encode(), rows[name.encode()], base.rows.get(name.encode())
            line = b""
            for place, value in enumerate(values):
                arc, code = self.code(old[0][place] if old and place < len(old[0]) else None, value)
                arcs.append(arc)
                line += code + b" "
            marks = self.marks(old[1] if old else b"", flags, 2 * len(values))
            lines.append(line + (marks.ljust(2 * len(values)) + self.rng.choice((b"&", b"1")) if self.breaks("mark") else marks))
        self.before = Written(text[:41], clock, rows)
        return [line + self.spaces() if self.does("blanks") else line.rstrip(b" ") + self.spaces() for line in lines]

    def ended(self, content, is_last):
        """A line with its end; a CR at the end of what it holds is kept by one more."""
        if is_last and content and self.rng.random() < 0.2:
            return content + (b"\r" if content.endswith(b"\r") else b"")
        return content + (b"\r\n" if content.endswith(b"\r") or self.does("return") else b"\n")

    def first_lines(self):
        words = [bytes(self.rng.choices(b"any words", k=40)) for _ in range(2)]
        after = [bytes(self.rng.choices(b" and more", k=self.rng.choice((0, 0, 9)))) for _ in range(2)]
        version = self.rng.choice((b"3.0", b" 3.0", b"      3.0")).ljust(20)
        program = bytes(self.rng.choices(b"ANOTHER PROGRAM", k=20))
        return [version + words[0] + b"CRINEX VERS   / TYPE" + after[0], program + words[1] + b"CRINEX PROG / DATE  " + after[1]]

    def parts(self, all_units):
        """The lines of each unit."""
        for unit in all_units:
            if isinstance(unit, Copied):
                self.before = None if unit.ends_block and not self.breaks("types") else self.before
                yield unit.lines
            else:
                yield self.epoch(unit)

    def text(self, all_units):
        lines = self.first_lines() + [line for part in self.parts(all_units) for line in part]
        return b"".join(self.ended(line, at == len(lines) - 1) for at, line in enumerate(lines))


def compact(rng, all_units):
    """Compact text of any writer whose lines end in LF alone, without blanks before it."""
    writer = Writer(rng)
    writer.often.update({"blanks": 0, "return": 0})
    text = writer.text(all_units)
    return text if text.endswith(b"\n") else text + b"\n"


class Plain(Writer):
    """Writes compact text without a choice, as the program does: by order 3, in full each time `every` epochs were written and after an
    event."""

    def __init__(self, rng, every, date):
        super().__init__(rng)
        self.orders, self.every, self.date, self.count = (3,), every, date, 0

    def does(self, choice):
        return choice == "full" and self.count % self.every == 0

    def first_lines(self):
        words = ((b"3.0", 20), (b"COMPACT RINEX FORMAT", 40), (b"CRINEX VERS   / TYPE", 0)), ((b"RNX2CRX profile 1.0", 40), (self.date, 20), (b"CRINEX PROG / DATE", 0))
        return [b"".join(word.ljust(width) for word, width in line) for line in words]

    def parts(self, all_units):
        for unit in all_units:
            self.before = None if isinstance(unit, Copied) else self.before
            yield unit.lines if isinstance(unit, Copied) else self.epoch(unit)
            self.count += isinstance(unit, Epoch)

    def ended(self, content, is_last):
        return content + b"\n"


# ---- damage


def damaged_line(rng, line):
    """A line with one byte changed, lost or more."""
    at = rng.randint(0, len(line))
    kind = rng.randrange(4)
    if kind == 0 and at < len(line):
        return line[:at] + bytes([line[at] ^ 1 << rng.randrange(8)]) + line[at + 1 :]
    if kind == 1:
        return line[:at] + line[at + 1 :]
    byte = bytes([rng.choice(b"&> 0123456789-.\r\n\x7fGR")])
    return line[:at] + byte + line[at + (kind == 2) :]


def damaged(rng, text):
    """A text with up to six damages, most of them after its header."""
    lines = text.split(b"\n")
    header = next((at for at, line in enumerate(lines) if b"END OF HEADER" in line), 0)
    for _ in range(rng.choice((0, 1, 1, 1, 2, 2, 3, 4, 5, 6))):
        first = 0 if rng.random() < 0.02 else min(header + 1, len(lines) - 1)
        at, other = rng.randrange(first, len(lines)), rng.randrange(first, len(lines))
        kind = rng.randrange(8)
        if kind < 4:
            lines[at] = damaged_line(rng, lines[at])
        elif kind == 4:
            del lines[at : at + rng.randint(1, 3)]
            lines = lines or [b""]
        elif kind == 5:
            lines.insert(at, lines[other])
        elif kind == 6:
            lines[at], lines[other] = lines[other], lines[at]
        else:
            lines[at] = lines[at][: rng.randint(0, len(lines[at]))] if rng.random() < 0.5 else lines[at] + b"\r"
        header = min(header, len(lines) - 1)
    whole = b"\n".join(lines)
    return whole[: rng.randint(0, len(whole))] if rng.random() < 0.05 else whole


# ---- cases for conform.py


def oddly(rng, text):
    """A RINEX text with numbers in other forms, and blanks and CR at line ends; what it stands for stays the same."""
    lines, in_header, copied = [], True, 0
    for line in text.split(b"\n")[:-1]:
        if in_header:
            in_header = line[60:80].rstrip() != b"END OF HEADER"
        elif copied:
            copied -= 1
        elif line[:1] == b">" and line[31:32] > b"1":
            copied = int(line[32:35])
        else:
            line = odd_line(rng, line)
        lines.append(line + (b"\r" if rng.random() < 0.1 and not line.endswith(b"\r") else b""))
    return b"".join(line + b"\n" for line in lines)


def odd_line(rng, line):
    """A line of an epoch, with a number in another form, or blanks at its end."""
    begin = 41 if line[:1] == b">" else 3 + 16 * rng.randrange(max(1, len(line) // 16))
    width = 15 if begin == 41 else 14
    number = line[begin : begin + width]
    kind = rng.random()
    if kind < 0.2 and number.startswith(b"  ") and number.strip() and b"-" not in number:
        zeros = len(number) - len(number.lstrip())
        line = line[:begin] + b" " * (zeros - 1) + b"0" + number[zeros:] + line[begin + width :]
    elif kind < 0.3 and b" 0." in number:
        line = line[:begin] + number.replace(b" 0.", b"  .") + line[begin + width :]
    elif kind < 0.4:
        line += b" " * rng.randint(1, 3)
    return line


def first_epoch(lines):
    """The place of the first epoch line that has a satellite with a value; nothing where there is none."""
    at, in_header = 0, True
    while at < len(lines):
        line = lines[at]
        at += 1
        if in_header:
            in_header = line[60:80].rstrip() != b"END OF HEADER"
        elif line[31:32] > b"1":
            at += int(line[32:35])
        else:
            count = int(line[32:35])
            if count and len(lines[at]) > 17 and lines[at][3:17].strip():
                return at - 1
            at += count
    return None


# Damages of a satellite line, an epoch line or the file: what becomes of the lines, from the epoch on; the line after the epoch's, and the code.
DAMAGES = (
    ("a letter in a value", lambda lines, at: lines[at + 1][:10] + b"x" + lines[at + 1][11:], 1, 15),
    ("an unknown system", lambda lines, at: b"X" + lines[at + 1][1:], 1, 13),
    ("an indicator &", lambda lines, at: lines[at + 1][:17].ljust(17) + b"&" + lines[at + 1][18:], 1, 18),
    ("a blank line in an epoch", lambda lines, at: b"", 1, 13),
    ("an unknown flag", lambda lines, at: lines[at][:31] + b"7" + lines[at][32:], 0, 11),
    ("a count of letters", lambda lines, at: lines[at][:32] + b" x " + lines[at][35:], 0, 11),
    ("an epoch that doesn't begin with >", lambda lines, at: b"<" + lines[at][1:], 0, 10),
    ("a clock offset of letters", lambda lines, at: lines[at][:41].ljust(41) + b" 0.00000000000x", 0, 12),
    ("an epoch line in an epoch", lambda lines, at: b"> 2024 01 01 00 00  0.0000000  0  1", 1, 19),
)


def damaged_case(rng, text):
    """A RINEX text with one damage, and the line and the code of its fault; nothing where the text has no epoch that it can be made in."""
    lines = text.split(b"\n")[:-1]
    at = first_epoch(lines)
    if at is None:
        return None
    about, change, more, code = rng.choice(DAMAGES)
    before = lines[:at]
    wrong = change(lines, at)
    if code == 18 and len(lines[at + 1]) < 17:
        return None
    lines[at + more] = wrong
    case = {"about": about, "do": "compact", "input": "", "expands_to": "", "faults": [[at + more + 1, code]], "status": 1}
    case = {**case, "choices": ["characters"]} if code == 18 else case
    return {**case, "input": shown(lines), "expands_to": shown(before)}


def shown(lines):
    return "".join(line.decode("latin-1") + "\n" for line in lines)


def random_cases(seed, count):
    """So many cases of each of four kinds in turn."""
    rng = random.Random(seed)
    made = []
    while len(made) < count:
        all_units = units(rng)
        text, kind = rinex(all_units), len(made) % 4
        if b"\r\n" in text:  # such lines don't come back
            continue
        plain = text.decode("latin-1")
        if kind == 0:
            case = {"about": "a good file", "do": "compact", "input": plain, "expands_to": plain}
        elif kind == 1:
            case = {"about": "an odd file", "do": "compact", "input": oddly(rng, text).decode("latin-1"), "expands_to": plain, "choices": ["line ends", "numbers"]}
        elif kind == 2:
            written, choices = Writer(rng).text(all_units).decode("latin-1"), ["arcs", "events", "limits", "line ends"]
            case = {"about": "another writer's text", "do": "expand", "input": written, "expands_to": plain, "choices": choices}
        else:
            case = damaged_case(rng, text)
        if case:
            made.append({"name": f"random_{seed}_{len(made) + 1}", **case})
    return made


def main():
    parser = argparse.ArgumentParser(description=__doc__, formatter_class=argparse.RawDescriptionHelpFormatter)
    parser.add_argument("--seed", type=int, default=1)
    parser.add_argument("--count", type=int, default=300)
    words = parser.parse_args()
    json.dump(random_cases(words.seed, words.count), sys.stdout, indent=0)
    print()


if __name__ == "__main__":
    main()
