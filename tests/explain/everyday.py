"""Everyday damage: each kind is made of the sample by a line of script. Beside it is typed, by docs/FORMATS.md, the explanation that it is to get.

The sample has 31 header lines and 20 epochs: the first epoch, of 7 satellites, is lines 32 to 39, the second lines 40 to 47. In its
compact text two lines are before the header, and an epoch has a clock line: the first is lines 34 to 42, the second lines 43 to 51.
"""

import bz2
import gzip
from typing import Callable, NamedTuple, Optional, Tuple


class Kind(NamedTuple):
    """A kind of damage: the call that makes it, and the line, the code, words of the explanation, and the columns of its field, from and to. Without a
    line the file is accepted, and there is nothing to explain."""

    name: str
    make: Callable[[bytes], bytes]
    line: int = 0
    code: Optional[int] = None
    words: Tuple[str, ...] = ()
    columns: Optional[Tuple[int, int]] = None


def lines(change):
    """A change of the list of lines, each with its end."""

    def make(text):
        found = text.splitlines(keepends=True)
        changed = change(found)
        return b"".join(found if changed is None else changed)

    return make


def without(*numbers):
    return lines(lambda found: [line for number, line in enumerate(found, 1) if number not in numbers])


def doubled(number):
    return lines(lambda found: found.insert(number, found[number - 1]))


def before(number, new):
    return lines(lambda found: found.insert(number - 1, new))


def swapped(number):
    return lines(lambda found: found[: number - 1] + [found[number], found[number - 1]] + found[number + 1 :])


def with_text(number, column, new):
    def change(found):
        line = found[number - 1]
        found[number - 1] = line[: column - 1] + new + line[column - 1 + len(new) :]

    return lines(change)


def inserted(number, column, new):
    def change(found):
        line = found[number - 1]
        found[number - 1] = line[: column - 1] + new + line[column - 1 :]

    return lines(change)


def with_nuls(number):
    return lines(lambda found: found[: number - 1] + [b"\0" * (len(found[number - 1]) - 1) + b"\n"] + found[number:])


def cut(number, column):
    """Cut off inside a line, so many columns of which stay."""
    return lines(lambda found: found[: number - 1] + [found[number - 1][:column]])


COMPACT = b"3.0                 COMPACT RINEX FORMAT                    CRINEX VERS   / TYPE\n" + b" " * 60 + b"CRINEX PROG / DATE\n"
WEB = b"<!DOCTYPE html>\n<html><head><title>401 Unauthorized</title></head><body>Please log in.</body></html>\n"
TYPES = b"G    1 C5Q".ljust(60) + b"SYS / # / OBS TYPES\n"
EVENT = b"> 2024 01 01 00 10  0.0000000  %d%3d\n"
MARKS = "\n       |    %s%s\ncolumns "  # under a line whose beginning isn't shown


def first_line(start, kind):
    return with_text(1, 1, f"{start:<20}{kind:<40}".encode())


# as .rnx
OF_RINEX = (
    Kind("gzip in gzip", lambda text: gzip.compress(gzip.compress(text, mtime=0), mtime=0), 1, 3, ("likely: this is gzip",), (61, 80)),
    Kind("a damaged bzip2", lambda text: b"BZh91AY&SY" + text[:100], 0, None, ("refused: the packed text is damaged",)),
    Kind("bzip2 in gzip", lambda text: gzip.compress(bz2.compress(text), mtime=0), 1, 3, ("likely: this is zip, bzip2, xz or zstd", "to do: unpack it"), (61, 80)),
    Kind("a packed file in gzip", lambda text: gzip.compress(b"\x1f\x9d\x90" + text[:100], mtime=0), 1, 3, ("likely: this is a packed file (.Z)",), (61, 80)),
    Kind("zstd", lambda text: b"\x28\xb5\x2f\xfd" + text[:100], 0, None, ("refused: compression not supported: zstd",)),
    Kind("Compact RINEX", lambda text: COMPACT + text, 1, 3, ("likely: this is Compact RINEX", "to do: expand it"), (61, 80)),
    Kind("a byte order mark", lambda text: b"\xef\xbb\xbf" + text, 1, 3, ("likely: a byte order mark is before the text",), (61, 80)),
    Kind("UTF-16", lambda text: text.decode("ascii").encode("utf-16"), 1, 3, ("likely: this is UTF-16",), (61, 80)),
    Kind("UTF-16 without a mark", lambda text: text.decode("ascii").encode("utf-16-be"), 1, 3, ("likely: this is UTF-16",), (61, 80)),
    Kind("a web page", lambda text: WEB, 1, 3, ("likely: this is a web page",), (61, 80)),
    Kind("a web page of another form", lambda text: b"\n <HTML>\n" + WEB, 1, 3, ("likely: this is a web page",)),
    Kind("an empty file", lambda text: b"", 1, 3, ("likely: the file is empty",)),
    Kind("bytes 0 at the beginning", lambda text: b"\0" * 80 + text[80:], 1, 3, ("likely: the file begins with bytes 0",), (61, 80)),
    Kind("a lost beginning", without(*range(1, 32)), 1, 3, ("likely: the file's beginning is lost",), (61, 80)),
    Kind("RINEX 2", first_line("     2.11", "OBSERVATION DATA    M (MIXED)"), 1, 4, ("likely: this is RINEX 2.11",), (1, 9)),
    Kind("RINEX 4", first_line("     4.01", "OBSERVATION DATA    M"), 1, 4, ("likely: this is RINEX 4.01",), (1, 9)),
    Kind("navigation data", first_line("     3.05", "N: GNSS NAV DATA    M: MIXED"), 1, 5, ("likely: this is navigation or meteorological data",), (21, 21)),
    Kind("meteorological data", first_line("     3.05", "METEOROLOGICAL DATA"), 1, 5, ("likely: this is navigation or meteorological data",), (21, 21)),
    Kind("CR alone as line ends", lambda text: text.replace(b"\n", b"\r"), 1, 1, ("likely: the lines end in CR alone",)),
    Kind("CR alone in a short file", lambda text: text[:2000].replace(b"\n", b"\r"), 2, 7, ("likely: the lines end in CR alone",)),
    Kind("a count one too great", with_text(32, 33, b"  8"), 40, 19, ("likely: the epoch of line 32 announces 8 satellites and has 7 lines, as gpsrinex",)),
    Kind("a count one too great after a power failure", with_text(32, 32, b"1  8"), 40, 19, ("the epoch of line 32 announces 8 satellites and has 7 lines",)),
    Kind("a count too great in the last epoch", with_text(184, 33, b"  9"), 192, 19, ("likely: the file is cut off here", "line 184 announces 9 satellites and has 7")),
    Kind("a count one too small", with_text(40, 33, b"  6"), 47, 10, ("likely: the epoch of line 40 announces 6 satellites, and more lines follow",), (1, 1)),
    Kind("a count of records one too great", lambda text: text + EVENT % (6, 2) + b"a record\n", 194, 19, ("likely: the file is cut off here",)),
    Kind("a count of records one too small", before(40, EVENT % (4, 0) + b"a record\n"), 41, 10, ("likely: the count of the last epoch or event is too small",), (1, 1)),
    Kind("a record that looks like an epoch line", lambda text: text + EVENT % (4, 3) + text.splitlines(True)[31] + b"G01\n", 195, 19, ("likely: the file is cut off here",)),
    Kind("a satellite's line lost", without(35), 39, 19, ("line 32 announces 7 satellites and has 6 lines", "likely: a line is lost")),
    Kind("an epoch's line lost", without(40), 40, 10, ("an epoch line is lost",), (1, 1)),
    Kind("a satellite's line doubled", doubled(35), 36, 14, ("likely: a line is in the epoch twice",), (1, 3)),
    Kind("two satellites' lines swapped", swapped(35)),
    Kind("a blank line between epochs", before(40, b"\n"), 40, 10, ("a line is too many, such as a blank line",)),
    Kind("a blank line in an epoch", before(36, b"\n"), 36, 13, ("a line is lost or too many",)),
    Kind("a second header", lambda text: text + text, 192, 10, ("a line is too many",), (1, 1)),
    Kind("bytes 0 in a satellite's line", with_nuls(43), 43, 13, (r"43 | ????????",), (1, 3)),
    Kind("bytes 0 in a value", with_text(43, 20, b"\0" * 14), 43, 15, ("observation L1C of G14",), (20, 33)),
    Kind("a cut inside a value", cut(43, 26), 43, 15, ("likely: the file is cut off here", "to do: fetch the file again"), (20, 33)),
    Kind("a cut in an epoch's line", cut(40, 20), 40, 11, ("likely: the file is cut off here", "column 32: flag"), (32, 32)),
    Kind("a cut after a value", cut(191, 33), 191, None, ("cut off, line 191: the last line has no line end",)),
    Kind("a cut after CR", lambda text: text.replace(b"\n", b"\r\n")[:-1], 1, None, ("not standard, line 1: the line ends in CR LF", "also: the last line has no line end"), (81, 81)),
    Kind("a cut between lines", without(*range(44, 192)), 44, 19, ("likely: the file is cut off here",)),
    Kind("a cut between epochs", without(*range(40, 192))),
    Kind("a cut in the header", without(*range(20, 192)), 20, 7, ("columns 61 to 80\nlikely: the file is cut off in its header\n",)),
    Kind("no END OF HEADER", without(31), 191, 7, ("the line `END OF HEADER` is lost or damaged",)),
    Kind("a letter in a number", with_text(33, 10, b"O"), 33, 15, ("columns 4 to 17: observation C1C of G02", "number is wrong\nlikely: a character of this line is lost or too many\nto do"), (4, 17)),
    Kind("a digit lost", lines(lambda found: found.__setitem__(32, found[32][:8] + found[32][9:])), 33, 15, ("a character of this line is lost",), (4, 17)),
    Kind("a letter in the clock offset", with_text(32, 50, b"x"), 32, 12, ("receiver clock offset",), (42, 56)),
    Kind("a count of types too small", with_text(11, 4, b"  7"), 33, 15, ("text after the last cell", "the header counts too few types"), (116, 129)),
    Kind("a count of types of letters", with_text(11, 4, b"  x"), 11, 6, ("likely: a character of columns 1 to 6",), (1, 6)),
    Kind("a types line lost", without(11), 32, 13, ("the header has no types line for this system",), (1, 3)),
    Kind("an epoch twice", lines(lambda found: found[:39] + found[31:])),
    Kind("text after a satellite's last column", inserted(33, 130, b"    x"), 33, 15, ("text after the last cell\nexpected", "cell\nlikely: a character of this line is lost or too many\nlikely: a line end", MARKS % (97 * " ", 3 * "^")), (132, 134)),
    Kind("text after an epoch's last column", inserted(32, 57, b"  x"), 32, 11, ("text after the clock offset", "likely: a line end is lost\nto do"), (57, 59)),
    Kind("an unknown flag", with_text(32, 32, b"7"), 32, 11, ("column 32: flag",), (32, 32)),
    Kind("a count of letters", with_text(32, 33, b" x7"), 32, 11, ("columns 33 to 35: count",), (33, 35)),
    Kind("a mark in the date", with_text(32, 5, b"&"), 32, 11, ("date and reserved columns",), (1, 41)),
    Kind("an unknown system", with_text(33, 1, b"X"), 33, 13, ("likely: the header has no types line for this system",), (1, 3)),
    Kind("an identifier of letters", with_text(33, 2, b"O1"), 33, 13, ("identifier is wrong\nlikely: a line is lost or too many\nto do",), (1, 3)),
    Kind("an indicator that is none", with_text(33, 18, b"&"), 33, 18, ("column 18: loss of lock indicator C1C of G02",), (18, 18)),
    Kind("two lines in one", lines(lambda found: found.__setitem__(32, found[32][:-1])), 33, 15, ("text after the last cell", "a line end is lost", MARKS % (49 * " ", 51 * "^")), (132, 258)),
    Kind("types of an event", before(40, EVENT % (4, 1) + TYPES + EVENT % (0, 1) + b"G07       x1.000\n"), 43, 15, ("observation C5Q of G07",), (4, 17)),
    Kind("CR LF", lambda text: text.replace(b"\n", b"\r\n"), 1, None, ("the line ends in CR LF", "expected: a line that ends in LF alone"), (81, 81)),
    Kind("blanks at the end", inserted(33, 130, b"  "), 33, None, ("blanks are at the line's end",), (130, 131)),
    Kind("no digit before the point", with_text(32, 43, b" "), 32, None, ("the number has no digit before its point",), (42, 56)),
    Kind("a leading zero", with_text(33, 5, b"0"), 33, None, ("the number has a leading zero",), (4, 17)),
    Kind("a leading zero after a minus", with_text(33, 4, b"      -012.345"), 33, None, ("the number has a leading zero",), (4, 17)),
    Kind("minus zero", with_text(32, 42, b"-0.000000000000"), 32, None, ("the number is zero with a sign",), (42, 56)),
)

# as .crx, of the compact text of the sample, of which only the first epoch is in full
OF_COMPACT = (
    Kind("RINEX", lambda text: text.split(b"\n", 2)[2], 1, 8, ("likely: this is RINEX", "to do: compact it")),
    Kind("Compact RINEX 1.0", with_text(1, 1, b"1.0"), 1, 8, ("likely: this is Compact RINEX 1.0, for RINEX 2",)),
    Kind("Compact RINEX 3.1", with_text(1, 1, b"3.1"), 1, 8, ("this isn't Compact RINEX 3.0",)),
    Kind("a web page", lambda text: WEB, 1, 8, ("likely: this is a web page",)),
    Kind("a byte order mark", lambda text: b"\xef\xbb\xbf" + text, 1, 8, ("likely: a byte order mark is before the text",)),
    Kind("UTF-16", lambda text: text.decode("ascii").encode("utf-16"), 1, 8, ("likely: this is UTF-16",)),
    Kind("an empty file", lambda text: b"", 1, 8, ("likely: the file is empty",)),
    Kind("a lost beginning", without(*range(1, 41)), 1, 8, ("likely: the file's beginning is lost",)),
    Kind("CR alone as line ends", lambda text: text.replace(b"\n", b"\r"), 1, 1, ("likely: the lines end in CR alone",)),
    Kind("the program's line lost", without(2), 2, 9, ("likely: the second line is lost",), (61, 80)),
    Kind("the RINEX version's line lost", without(3), 3, 3, ("likely: the file's beginning is lost",), (61, 80)),
    Kind("RINEX 2 inside", with_text(3, 1, b"     2.11"), 3, 4, ("likely: this is the compact form of RINEX 2.11",), (1, 9)),
    Kind("no END OF HEADER", without(33), 213, 7, ("the line `END OF HEADER` is lost or damaged",)),
    Kind("a cut inside a line", cut(46, 3), 47, 19, ("likely: the file is cut off here",)),
    Kind("a cut before the last line end", lambda text: text[:-1], 213, None, ("cut off, line 213: the last line has no line end",)),
    Kind("a cut between lines", without(*range(48, 214)), 48, 19, ("likely: the file is cut off here",)),
    Kind("a cut between epochs", without(*range(43, 214))),
    Kind("a satellite's line lost", without(39), 43, 11, ("likely: an earlier line of this block is lost",)),
    Kind("a clock's line lost", without(35), 35, 12, ("likely: an earlier line of this block is lost", "columns 1 to 105: clock"), (1, 105)),
    Kind("the epoch in full lost", without(*range(34, 43)), 34, 10, ("the epoch line that begins with `>` is lost",), (1, 1)),
    Kind("a block twice", lines(lambda found: found + found[33:])),
    Kind("a letter in a code", with_text(36, 5, b"x"), 36, 15, ("columns 1 to 13: code", "likely: a character of this line is wrong"), (1, 13)),
    Kind("a blank in a code", with_text(37, 2, b" "), 37, 16, ("likely: an earlier line of this block", "a blank of this line is lost or too many")),
    Kind("an unknown system", with_text(34, 42, b"X"), 34, 13, ("a character of this line is wrong",)),
    Kind("a satellite twice", with_text(34, 45, b"G02"), 34, 14, ("a character of this line is wrong",)),
    Kind("a letter in the clock's code", with_text(35, 4, b"x"), 35, 12, ("clock",), (1, 10)),
    Kind("a byte of 200 in an epoch line", with_text(43, 21, b"\xc8"), 43, 11, ("column 21: byte",), (21, 21)),
    Kind("an epoch's line in an epoch", before(37, b"> 2024 01 01 00 00  0.0000000  0  1      G02\n"), 37, 19, ("likely: a line is lost",)),
    Kind("a value that is too long", lambda text: text.replace(b"3&23876708878", b"3&99999999999999"), 36, 17, ("a coded value of this cell is damaged",)),
    Kind("a mark of another byte", lines(lambda found: found.__setitem__(35, found[35][:-1] + b"\xc8\n")), 36, 18, ("a blank of this line is lost or too many",), (106, 106)),
    Kind("bytes 0 in a line", with_nuls(37), 37, 15, ("columns 1 to 105: code",), (1, 105)),
)
