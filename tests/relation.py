"""A reader of both formats, written by docs/FORMATS.md and the definitions in meaning/AnyWriter (crx_compact) and meaning/CompactText
(crx_filter), and by no code of the program: it says what each line of RINEX is and what it comes back as, and which units a text is compact
text of.

The relation follows the two files of definitions, in their order and in their words. A relation has no direction; here the arcs and the
epochs are found from the lines: a start gives its arc, and a difference leaves one value that an arc may go on with. A subclass may
change a method: that is a reader with a bug, which texts of any writer have to find (test_writers.py). This file needs Python 3.8,
texts.py and nothing else.
"""

from __future__ import annotations

import re
from math import comb

from texts import CLOCK_WIDTH, DIGITS_LIMIT, LINE_LIMIT, OBSERVATION_WIDTH, SATELLITES_LIMIT, TYPES_LIMIT, Arc, Copied, Epoch, Written, printed

HEAD_WIDTH = 41
SYSTEMS, DIGITS = b"GREJCIS", b"0123456789"


class NoSuchText(Exception):
    """A text breaks the rules of its format."""


def need(is_so, why="a rule is broken"):
    if not is_so:
        raise NoSuchText(why)


# ---- columns and lines


def contents(text):
    """The contents of a text's lines, each without its LF and one CR before that."""
    pieces = text.split(b"\n")
    pieces = pieces if pieces[-1] else pieces[:-1]
    return [piece[:-1] if piece.endswith(b"\r") else piece for piece in pieces]


def columns(line, first, width):
    return line[first - 1 : first - 1 + width].ljust(width)


def number_in(columns):
    digits = columns.strip(b" ")
    return int(digits) if digits and all(c in DIGITS for c in digits) else None


def is_kept(c):
    return 32 <= c <= 126 and c != ord("&")


# ---- RINEX


def label(line):
    return columns(line, 61, 20).rstrip(b" ")


def is_event(line):
    return line[:1] == b">" and columns(line, 32, 1) in b"23456"


def announced(line):
    """The count of records or satellites that an epoch line announces; a count of blanks is 0."""
    count = columns(line, 33, 3).strip(b" ")
    return int(count) if count.isdigit() else 0


def number_of(text, decimals):
    """A number in its columns, without its point; nothing for blanks."""
    if not text.strip(b" "):
        return None
    found = re.fullmatch(rb" *(-?)([0-9]*)\.([0-9]{%d})" % decimals, text)
    need(found, f"no number: {text!r}")
    return int(found[1] + (found[2] or b"0") + found[3])


def rinex_lines(lines):
    """What each line of RINEX is (`header`, `event`, `record`, `epoch`, `satellite`), its content, and its number of types."""
    at, in_header, types = 0, True, {}

    def declare_loosely(line):
        if label(line) == b"SYS / # / OBS TYPES" and line[:1] != b" ":
            types[line[:1]] = int(line[3:6])

    while at < len(lines):
        line, at = lines[at], at + 1
        if in_header:
            declare_loosely(line)
            in_header = label(line) != b"END OF HEADER"
            yield "header", line, 0
            continue
        yield "event" if is_event(line) else "epoch", line, 0
        for row in lines[at : at + announced(line)]:
            if is_event(line) and line[31:32] != b"6":
                declare_loosely(row)
            yield ("record", row, 0) if is_event(line) else ("satellite", row, types.get(row[:1], 0))
        at += announced(line)


def normal_line(what, line, count):
    """A line as it comes back: numbers in one form, and no blanks at the end of an epoch's lines."""
    if what == "epoch":
        return (line[:41].ljust(41) + printed(number_of(line[41:56].ljust(15), 12), 12, 15).encode()).rstrip(b" ")
    if what == "satellite":
        cells = [line[3 + 16 * k : 19 + 16 * k].ljust(16) for k in range(count)]
        return (line[:3] + b"".join(printed(number_of(cell[:14], 3), 3, 14).encode() + cell[14:] for cell in cells)).rstrip(b" ")
    return line


def normal_form(text):
    """A RINEX text as it comes back."""
    return b"".join(normal_line(*line) + b"\n" for line in rinex_lines(contents(text)))


# ---- what AnyWriter has


def code_of(text):
    """What a text spells: nothing, an order with a value, or a difference; or that it spells none."""
    if not text:
        return None
    start = text[1:2] == b"&"
    digits = text[2:] if start else text
    below, digits = digits.startswith(b"-"), digits[1:] if digits.startswith(b"-") else digits
    need(0 < len(digits) <= DIGITS_LIMIT and all(c in DIGITS for c in digits))
    need(not start or text[0] in DIGITS)
    number = -int(digits) if below else int(digits)
    return (text[0] - 48, number) if start else (number,)


class Row:
    """A satellite of an epoch."""

    def __init__(self, name, arcs, flags):
        self.name, self.arcs, self.flags = name, arcs, flags


class Relation:
    """The relation. Each method is a definition, or what a definition says of a part of the lines."""

    def order_of(self, order):
        return order

    def arc_now(self, before, code):
        """The arc that may follow one, or none, with this code."""
        if code is None:
            return None
        if len(code) == 2:
            return self.started(before, *code)
        need(before is not None)
        values = (before.newest, *before.older)
        order = min(len(values), before.order)
        return Arc(before.order, code[0] - sum((-1) ** i * comb(order, i) * values[i - 1] for i in range(1, order + 1)), values[: before.order])

    def started(self, before, order, value):
        return Arc(self.order_of(order), value)

    def fits(self, value, width):
        return -(10 ** (width - 2)) < value < 10 ** (width - 1)

    def patched(self, old, marks):
        width = max(len(old), len(marks))
        pairs = zip(old.ljust(width), marks.ljust(width))
        return bytes(a if b == 32 else 32 if b == ord("&") else b for a, b in pairs).rstrip(b" ")

    def base(self, before, line):
        """What an epoch line goes on from."""
        if line.startswith(b">"):
            return Written()
        need(before is not None)
        return before

    def row(self, base, name, count, line):
        before = base.rows.get(name)
        arcs, rest = [], line
        for place in range(count):
            text, _, rest = rest.partition(b" ")
            old = before.arcs[place] if before and place < len(before.arcs) else None
            arcs.append(self.arc_now(old, code_of(text)))
        need(not rest[2 * count :].strip(b" "))
        flags = self.patched(before.flags if before else b"", rest)
        need(len(flags) <= 2 * count and all(is_kept(c) for c in flags))
        need(all(arc is None or self.fits(arc.newest, OBSERVATION_WIDTH) for arc in arcs))
        return Row(name, arcs, flags.ljust(2 * count))

    def epoch(self, before, types, lines):
        """An epoch, and how many lines it has."""
        line = lines[0]
        base = self.base(before, line)
        text = self.patched(base.text(), line)
        head = columns(text, 1, HEAD_WIDTH)
        need(head[:1] == b">" and head[31] in b"01" and all(is_kept(c) for c in text))
        count = number_in(columns(head, 33, 3))
        need(count is not None and count <= SATELLITES_LIMIT and len(text) <= HEAD_WIDTH + 3 * count)
        names = [columns(text, HEAD_WIDTH + 1 + 3 * k, 3) for k in range(count)]
        need(len(set(names)) == count and len(lines) >= 2 + count)
        need(all(name[1] in b" " + DIGITS and name[2] in DIGITS and name[:1] in types for name in names))
        clock = self.arc_now(base.clock, code_of(lines[1].rstrip(b" ")))
        need(clock is None or self.fits(clock.newest, CLOCK_WIDTH))
        rows = {name: self.row(base, name, types[name[:1]], lines[2 + k]) for k, name in enumerate(names)}
        return Written(head, clock, rows), 2 + count

    def after_event(self, before, changes_types):
        """The epoch that later lines may go on from."""
        return None if changes_types else before

    # ---- what CompactText has

    def units(self, text, is_beginning=False):
        """The units that a text is compact text of; NoSuchText if there are none. A beginning may end inside its header or an event."""
        lines = contents(text)
        need(len(lines) >= 2 and all(len(line) <= LINE_LIMIT for line in lines), "a line is too long, or there are less than two")
        is_first = columns(lines[0], 1, 20).strip(b" ") == b"3.0" and label(lines[0]) == b"CRINEX VERS   / TYPE"
        need(is_first, "the first line isn't that of Compact RINEX 3.0")
        need(label(lines[1]) == b"CRINEX PROG / DATE", "the second line isn't that of Compact RINEX 3.0")
        types, header = {}, []
        for line in lines[2:]:
            header.append(line)
            need(len(header) > 1 or is_first_header_line(line), "the header doesn't begin with a version that is read")
            declare(types, line)
            if label(line) == b"END OF HEADER":
                break
        need(is_beginning or (header and label(header[-1]) == b"END OF HEADER"), "the header doesn't end")
        return [Copied(header, {}, True), *self.body(lines[2 + len(header) :], types, is_beginning)]

    def body(self, lines, types, is_beginning):
        units, before, at = [], None, 0
        while at < len(lines):
            line = lines[at]
            if is_event(line):
                count = number_in(columns(line, 33, 3)) if columns(line, 33, 3).strip(b" ") else 0
                need(count is not None and (is_beginning or at + 1 + count <= len(lines)), "the text ends inside an event")
                records, counts = lines[at + 1 : at + 1 + count], line[31] != ord("6")
                changes = [declare(types, record) for record in records if counts]
                before = self.after_event(before, any(changes))
                units.append(Copied([line, *records], {}, any(changes)))
                at += 1 + count
            else:
                before, count = self.epoch(before, types, lines[at : at + 2 + SATELLITES_LIMIT])
                rows = [(row.name.decode(), [arc and arc.newest for arc in row.arcs], row.flags.decode()) for row in before.rows.values()]
                units.append(Epoch(before.head.decode(), before.clock and before.clock.newest, rows))
                at += count
        return units


def is_first_header_line(line):
    version = columns(line, 1, 9).strip(b" ")
    supported = version in (b"3", b"3.0") or (len(version) == 4 and version[:3] == b"3.0" and version[3] in DIGITS)
    return label(line) == b"RINEX VERSION / TYPE" and supported and columns(line, 21, 1) == b"O"


def declare(types, line):
    """Takes a types line into those in force; whether it is one."""
    letter = columns(line, 1, 1)
    if label(line) != b"SYS / # / OBS TYPES" or letter == b" ":
        return False
    count = number_in(columns(line, 4, 3))
    need(letter in SYSTEMS and count is not None and 1 <= count <= TYPES_LIMIT)
    types[letter] = count
    return True
