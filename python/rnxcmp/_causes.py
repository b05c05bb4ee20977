"""The tables of `explain`: the likely causes of each error, and those that a file's first bytes tell.

They are plain data, from which docs/ERRORS.md is made (`make numbers`). An error's words are in crates/crx_base/src/fault.rt.
"""

import re
from typing import Dict, NamedTuple, Optional, Tuple


class Entry(NamedTuple):
    """The text that an error's place should have, the likely causes, the likeliest first, and the remedy."""

    expected: str
    causes: Tuple[str, ...]
    remedy: str


_FETCH = "fetch the file again"
_CORRECT = "correct the line, or fetch the file again; -s drops the epoch"
_SHIFTED = "a character of this line is lost or too many"
_START = "the file's beginning is lost or damaged"

ERRORS: Dict[int, Entry] = {
    1: Entry("a shorter line: docs/FORMATS.md has the limit", ("line ends are lost", "this isn't a text file"), _FETCH),
    2: Entry("a shorter file: docs/FORMATS.md has the limit", ("this isn't an observation file",), "check the file's name"),
    3: Entry("the first line of RINEX, with `RINEX VERSION / TYPE` in columns 61 to 80", (_START, "the file is packed or empty, or isn't RINEX"), _FETCH),
    4: Entry("`3`, `3.0`, or `3.0` and one digit in columns 1 to 9", ("this is another version of RINEX", "a character of the version is wrong"),
             "use a program for that version, or correct the character"),
    5: Entry("`O` in column 21, for observation data", ("this is another type of file, such as navigation data", "column 21 is wrong"),
             "pack another type of file by gzip, because it has no compact form"),
    6: Entry("a system's letter in column 1, and its number of types in columns 4 to 6", ("a character of columns 1 to 6 is wrong", _SHIFTED),
             "correct the line, or fetch the file again"),
    7: Entry("a line with `END OF HEADER` in columns 61 to 80", ("the file is cut off in its header", "the line `END OF HEADER` is lost or damaged"),
             "fetch the file again, or put that line before the first epoch"),
    8: Entry("the first line of compact text: `3.0` in columns 1 to 20, and `CRINEX VERS   / TYPE` in columns 61 to 80",
             (_START, "this isn't Compact RINEX 3.0"), _FETCH),
    9: Entry("the second line of compact text, with `CRINEX PROG / DATE` in columns 61 to 80",
             ("the second line is lost or damaged", "the file is cut off after its first line"), _FETCH),
    10: Entry("an epoch line, which begins with `>`",
              ("the count of the last epoch or event is too small", "an epoch line is lost or damaged", "a line is too many, such as a blank line"),
              "correct the count or remove the line; -s drops the lines up to the next epoch"),
    11: Entry("a flag in column 32, a count in columns 33 to 35, no `&` up to column 41, and blanks from column 57 on",
              ("a character of the flag or the count is wrong", _SHIFTED, "a line end is lost"), _CORRECT),
    12: Entry("in columns 42 to 56 blanks, or a number with 12 digits after its point", ("a character of the number is wrong", _SHIFTED), _CORRECT),
    13: Entry("in columns 1 to 3 the letter of a system that has types, and a number of two digits",
              ("a character of the identifier is wrong", "the header has no types line for this system", "a line is lost or too many"), _CORRECT),
    14: Entry("a satellite that the epoch doesn't have yet", ("a line is in the epoch twice", "a character of an identifier is wrong"),
              "correct the identifier, or remove the line and correct the count; -s drops the epoch"),
    15: Entry("in each cell blanks, or a number with 3 digits after its point, and blanks after the last cell",
              ("a character of a number is wrong", _SHIFTED, "a line end is lost, or the header counts too few types"), _CORRECT),
    18: Entry("as an indicator a printable ASCII character other than `&`", ("a byte of this line is damaged", _SHIFTED),
              "make the indicator blank; -s drops the epoch"),
    19: Entry("the next line of this epoch or event", ("the count of the epoch or event is too great, as gpsrinex writes it", "a line is lost"),
              "correct the count, which keeps the epoch; -s drops it"),
    20: Entry("the next bytes of the file", ("a disk or a network failed",), "read the file again"),
    21: Entry("room for the output", ("the disk is full", "the program that reads the output has ended"), "make room, and run the program again"),
    22: Entry("memory", ("the machine, or a limit of the process, has too little memory",), "raise the limit, or use another machine"),
}  # fmt: skip

_CONTINUE = "fetch the file again; -s continues at the next line that begins with `>`"
_EARLIER, _WRONG = "an earlier line of this block is lost or damaged", "a character of this line is wrong"
_BLANK = "a blank of this line is lost or too many"
COMPACT_ERRORS: Dict[int, Entry] = {
    10: Entry("an epoch line that begins with `>`", ("the epoch line that begins with `>` is lost or damaged", "a line is too many"), _CONTINUE),
    11: Entry("an epoch line, or its difference from the last one", (_EARLIER, _WRONG), _CONTINUE),
    12: Entry("a coded clock offset, such as `3&123` or `-45`, or an empty line", (_EARLIER, _WRONG), _CONTINUE),
    13: Entry("identifiers: the letter of a system that has types, and a number of two digits", (_EARLIER, _WRONG), _CONTINUE),
    14: Entry("identifiers that differ from each other", (_EARLIER, _WRONG), _CONTINUE),
    15: Entry("in each cell a coded value, such as `3&123` or `-45`, or none", (_WRONG, _EARLIER), _CONTINUE),
    16: Entry("a coded value that begins an arc, such as `3&123`, because the cell has no earlier value", (_EARLIER, _BLANK), _CONTINUE),
    17: Entry("a coded value that fits its columns", ("a coded value of this cell is damaged, here or earlier", _EARLIER), _CONTINUE),
    18: Entry("after the last coded value a mark for each indicator that changes", (_BLANK, _EARLIER), _CONTINUE),
    19: Entry("the next line of this epoch or event", ("a line is lost", "the count of the epoch line is damaged"), _CONTINUE),
}


class Sign(NamedTuple):
    """A pattern of first bytes, the direction for which it tells something (an empty text: both), the cause, and the remedy."""

    pattern: bytes
    direction: str
    cause: str
    remedy: str


_RINEX, _CRINEX = rb"(?=.{60}RINEX VERSION / TYPE)", rb"(?=.{60}CRINEX VERS   / TYPE)"

SIGNS: Tuple[Sign, ...] = (
    Sign(rb"\Z", "", "the file is empty", _FETCH),
    Sign(rb"\x1f\x8b", "", "this is gzip", "unpack it"),
    Sign(rb"\x1f[\x9d\xa0]", "", "this is a packed file (.Z)", "unpack it"),
    Sign(rb"PK\x03\x04|BZh|\xfd7zXZ|\x28\xb5\x2f\xfd", "", "this is zip, bzip2, xz or zstd", "unpack it"),
    Sign(rb"\xef\xbb\xbf", "", "a byte order mark is before the text", "remove the first 3 bytes"),
    Sign(rb"\xff\xfe|\xfe\xff|(?s:(?:\0[^\0]){9}|(?:[^\0]\0){9})", "", "this is UTF-16", "convert it: iconv -f UTF-16 -t ASCII"),
    Sign(rb"(?i)\s*<(?:!doctype|html|\?xml|head|body)", "", "this is a web page, which a server sent instead of the file", _FETCH),
    Sign(rb"\0{9}", "", "the file begins with bytes 0, as after a crash", _FETCH),
    Sign(rb"(?:[^\r\n]*\r){3}[^\n]*\Z", "", "the lines end in CR alone", r"convert it: tr '\r' '\n'"),
    Sign(_CRINEX, "rnx2crx", "this is Compact RINEX", "expand it, or give it the extension of compact files"),
    Sign(_CRINEX + rb" *(1\.[0-9])", "crx2rnx", "this is Compact RINEX {}, for RINEX 2", "use CRX2RNX of the package RNXCMP"),
    Sign(_RINEX, "crx2rnx", "this is RINEX", "compact it, or give it the extension of RINEX files"),
    Sign(_RINEX + rb" *([124]\.[0-9]+)", "rnx2crx", "this is RINEX {}", "use a program for that version"),
    Sign(_CRINEX + rb".*\n.*\n" + _RINEX + rb" *([124]\.[0-9]+)", "crx2rnx", "this is the compact form of RINEX {}", "use a program for that version"),
    Sign(_RINEX + rb".{20}[NM]", "rnx2crx", "this is navigation or meteorological data", "pack it by gzip, because it has no compact form"),
)

# Why a line isn't standard: a pattern of a number, or of the line's end, the reason, and the standard form.
REASONS: Tuple[Tuple[bytes, str, str], ...] = (
    (rb"[ \r]*\r", "the line ends in CR LF", "a line that ends in LF alone"),
    (rb" +", "blanks are at the line's end", "a line that ends with its last character that isn't blank"),
    (rb" *-[0.]+", "the number is zero with a sign", "zero without a sign"),
    (rb" *-?\..*", "the number has no digit before its point", "the number with a 0 there"),
    (rb" *-?0[0-9].*", "the number has a leading zero", "the number without it"),
)
OTHER_REASON = ("the line has another form than crx2rnx writes", "the line as crx2rnx writes it")
STANDARD = "nothing if the values are enough: compact text keeps them, and crx2rnx writes the standard form"
WITH_LF = ("a line that ends in LF", "fetch the file again, or add a line end if the last line is whole")


def entry_of(code: int, direction: str) -> Entry:
    """Returns the row of an error."""
    return (direction == "crx2rnx" and COMPACT_ERRORS.get(code)) or ERRORS.get(code) or Entry("", (), "")


def sign_of(start: bytes, direction: str) -> Optional[Tuple[str, str]]:
    """Returns the cause that a text's first bytes tell and its remedy, or None."""
    for sign in SIGNS:
        found = re.match(sign.pattern, start[:4096]) if sign.direction in ("", direction) else None
        if found:
            return sign.cause.format(*map(bytes.decode, found.groups())), sign.remedy
    return None
