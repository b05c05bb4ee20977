"""Why a file is refused, isn't standard, or may be cut off: `rnxcmp.explain`, and `rnxcmp-file explain`.

Line and code are the library's. The field is read from that line, and the causes are the likely ones of a table: nothing is tried.
"""

from __future__ import annotations

import errno
import os
import re
import stat
from itertools import chain, islice
from typing import TYPE_CHECKING, Callable, Iterable, Iterator, List, NamedTuple, Optional, Tuple

from ._calls import CUT_OFF, RnxcmpError, Stream, content_of
from ._causes import OTHER_REASON, REASONS, STANDARD, WITH_LF, entry_of, sign_of
from ._columns import TYPES_LABEL, Field, Types, add_types, announced, field_of, fields_of, shown
from ._files import is_compact
from ._names import is_named_as_input, quoted
from ._packed import PackError, UnsupportedError, pieces_in, text_of

if TYPE_CHECKING:
    from ._calls import Content

RINEX, COMPACT = "rnx2crx", "crx2rnx"
REFUSED, NOT_STANDARD, CUT = "refused", "not standard", "cut off"
_LONGEST, _SHOWN = 10000, 100  # bytes of a line that are kept, more than a line may have, and columns that are shown


class Explanation(NamedTuple):
    """The reason why a file is refused, isn't standard, or may be cut off.

    :ivar state: ``refused``, ``not standard`` or ``cut off``.
    :ivar line: the line of the error, or the first one that isn't standard; 0 for a packed file that can't be unpacked.
    :ivar code: the error's code, or None; ``words`` says it in words.
    :ivar text: the text of that line; ``expected`` says which text belongs there.
    :ivar field: the field of the error, if the line tells it, and ``columns`` the field's first and last column.
    :ivar causes: the likely causes, the likeliest first; ``remedy`` is the next step.
    :ivar may_be_cut_off: whether the file is accepted, and its last line has no line end.
    """

    state: str
    line: int
    code: Optional[int]
    words: str
    text: bytes = b""
    field: Optional[str] = None
    columns: Optional[Tuple[int, int]] = None
    expected: str = ""
    causes: Tuple[str, ...] = ()
    remedy: str = ""
    may_be_cut_off: bool = False

    def at(self, field: Optional[Field]) -> Explanation:
        """Returns the same with a field."""
        return self._replace(field=field.name, columns=(field.first, field.last)) if field else self

    def __str__(self) -> str:
        lines = [self.state + (f", line {self.line}" if self.line else "") + (f" code {self.code}" if self.code else "") + f": {self.words}"]
        if self.columns:
            first, last = self.columns
            begin = max(0, min(first - _SHOWN // 2, len(self.text) - _SHOWN))
            lines += [f"{self.line:6} | {'.. ' if begin else ''}{shown(self.text[begin : begin + _SHOWN])}", "       | " + "   " * (begin > 0)]
            lines[-1] += " " * (first - 1 - begin) + "^" * (min(last, begin + _SHOWN) - first + 1)
            lines += [f"column{f' {first}' if first == last else f's {first} to {last}'}: {self.field}"]
        lines += [f"expected: {self.expected}"] if self.expected else []
        lines += [f"likely: {cause}" for cause in self.causes] + ([f"to do: {self.remedy}"] if self.remedy else [])
        return "\n".join(lines + ([f"also: {CUT_OFF}"] if self.may_be_cut_off and self.state != CUT else []))


class _Kept:
    """The parts that are kept of a text: the first piece, the last line, the last line that begins with `>`, and the types in force."""

    def __init__(self) -> None:
        self.first = self.last = self.epoch = b""
        self.number, self.epoch_number = 1, 0  # of the last line, and of the one that begins with `>`
        self.types: Types = {}

    def add(self, piece: bytes) -> None:
        """Adds the next piece of the text."""
        self.first, text = self.first or piece, self.last + piece
        self._add_lines(text, text.rfind(b"\n") + 1)

    def line_of(self, piece: bytes, number: int) -> bytes:
        """Adds the next piece up to a line, and returns that line without its LF; after the end of the text it is empty."""
        self.first, text = self.first or piece, self.last + piece + b"\n"
        *before, line = text.split(b"\n", number - self.number + 1)[: number - self.number + 1]
        self._add_lines(text, sum(map(len, before)) + len(before))
        return line

    def _add_lines(self, text: bytes, end: int) -> None:
        self.last, at = text[end : end + _LONGEST], text.rfind(b"\n>", 0, end) + 1
        before = self.number + text.count(b"\n", 0, at)
        if end and text[at : at + 1] == b">":
            self.epoch, self.epoch_number = text[at : text.index(b"\n", at)], before
        self.number = before + text.count(b"\n", at, end)
        if b"#" in text and TYPES_LABEL in text:
            add_types(self.types, text[:end].split(b"\n"))


def _causes_of(kept: _Kept, line: bytes, number: int, code: int, field: Optional[Field]) -> List[str]:
    """Returns the likely causes of an error in RINEX: those of the table that this line doesn't exclude, with the numbers of this file."""
    causes, count, lines = list(entry_of(code, RINEX).causes), announced(kept.epoch), number - kept.epoch_number - 1
    epoch = f"the epoch of line {kept.epoch_number} announces {count} satellites"
    if code == 19 and count is not None and lines < count:
        causes[0] = f"{epoch} and has {lines} lines, as gpsrinex writes it"
    elif code == 10 and count == lines and line[:1] in kept.types:
        causes[0] = f"{epoch}, and more lines follow"
    elif code == 13 and line[:1] in kept.types:
        del causes[1]
    elif field and code in (11, 15):
        del causes[0 if field.name.startswith("text after") else 2]
    return causes


def _refused(kept: _Kept, piece: bytes, error: RnxcmpError, direction: str, is_at_end: bool) -> Explanation:
    """Returns the explanation of an error at a line of the next piece, or at the end."""
    found = Explanation(REFUSED, error.line, error.code, str(error).partition(": ")[2])
    try:
        line = kept.line_of(piece, error.line)
        line = line[:-1] if line.endswith(b"\r") else line
        field = field_of(line, error.code, direction == COMPACT, kept.types) if line else None
        entry, sign = entry_of(error.code, direction), sign_of(kept.first, direction) if error.code < 10 else None
        causes = _causes_of(kept, line, error.line, error.code, field) if direction == RINEX else list(entry.causes)
        if is_at_end and error.code != 7:
            causes, entry = ["the file is cut off here", *causes], entry._replace(remedy="fetch the file again")
        found = found._replace(text=line, expected=entry.expected, causes=tuple(causes[:3]), remedy=entry.remedy).at(field)
        return found._replace(causes=(sign[0],), remedy=sign[1]) if sign else found
    except Exception:  # the error is certain, and its explanation is only a help
        return found


def _line(pieces: Iterable[bytes], number: int) -> Tuple[bytes, Types]:
    """Returns a line of a text without its LF, and the types that are in force there."""
    kept = _Kept()
    for piece in pieces:
        if kept.number + piece.count(b"\n") > number:
            return kept.line_of(piece, number), kept.types
        kept.add(piece)
    return b"", {}


def _not_standard(line: bytes, types: Types, number: int, is_cut: bool) -> Explanation:
    """Returns the explanation of the first line that isn't standard, which has an LF at its end."""
    end = len(line.rstrip(b" \r"))
    texts = [(Field("end of the line", end + 1, len(line)), line[end:])]
    if not line.endswith(b"\r"):  # otherwise the line may be one of the header
        numbers = [(field, field.text(line)) for field in fields_of(line, types) if field.code in (12, 15)]
        texts = [(field, text) for field, text in numbers if text.strip(b" ")] + texts
    found = [(field, reason) for field, text in texts for pattern, *reason in REASONS if re.fullmatch(pattern, text)]
    words, expected = found[0][1] if found else OTHER_REASON
    return Explanation(NOT_STANDARD, number, None, words, line, None, None, expected, (), STANDARD, is_cut).at(found[0][0] if found else None)


def _text_of(name: str) -> Iterator[bytes]:
    """Returns the text of a file in pieces, unpacked as a conversion does it."""
    if not stat.S_ISREG(os.stat(name).st_mode):
        raise OSError(errno.EINVAL, "this is a folder, not a file" if os.path.isdir(name) else "this is no regular file")
    with open(name, "rb") as file:
        yield from text_of(file.fileno())


def _explained(read: Callable[[], Iterator[bytes]], name: str, direction: Optional[str]) -> Optional[Explanation]:
    """Returns the explanation of the text that `read` returns in pieces."""
    kept, pieces, is_at_end = _Kept(), read(), False
    piece = next(pieces, b"")
    named = [one for one in (RINEX, COMPACT) if is_named_as_input(name, one)]
    direction = direction or (named[0] if named else COMPACT if is_compact(piece) else RINEX)
    with Stream.checking() if direction == RINEX else Stream.expanding() as stream:
        try:
            for piece in chain((piece,), pieces):
                for _ in stream.outputs(piece):
                    pass
                kept.add(piece)
            piece, is_at_end = b"", True
            report = b"".join(stream.last_outputs())
        except RnxcmpError as error:
            if not error.code:
                raise
            return _refused(kept, piece, error, direction, is_at_end)
    is_cut, number = kept.last != b"", kept.number
    if direction == RINEX and b"standard no " in report:
        number = int(report.rpartition(b" ")[2])
        if not (is_cut and number == kept.number):
            return _not_standard(*_line(chain((kept.first,), islice(read(), 1, None)), number), number, is_cut)
    return Explanation(CUT, number, None, CUT_OFF, kept.last, None, None, WITH_LF[0], (), WITH_LF[1], True) if is_cut else None


def explain(content: Content, *, direction: Optional[str] = None) -> Optional[Explanation]:
    """Explains why a file is refused, isn't standard, or may be cut off; returns None for any other file.

    It reads a file once, in memory that doesn't grow, and once more up to the first line that isn't standard if that is neither among the
    first 256 KiB nor the last line.

    :param content: a path, bytes, an open file, or a text: a ``str`` with a line end in it. A file that a path names may be packed.
    :param direction: ``"rnx2crx"`` or ``"crx2rnx"``, if neither the file's name nor its first line is to tell it.
    :raises OSError: if the file can't be read, as a folder or a pipe.
    """
    if direction not in (None, RINEX, COMPACT):
        raise ValueError("direction is rnx2crx or crx2rnx")
    is_path = isinstance(content, os.PathLike) or (isinstance(content, str) and "\n" not in content)
    name, data = (os.fspath(content), b"") if is_path else ("", content_of(content))
    try:
        return _explained(lambda: _text_of(name) if is_path else pieces_in(data), os.fsdecode(name), direction)
    except (PackError, UnsupportedError) as error:
        return Explanation(REFUSED, 0, None, str(error))


def likely(code: int, direction: str, name: str) -> str:
    """Returns the likely causes of an error in a file as one line: the one that its first bytes tell, otherwise two of the table."""
    try:
        sign = sign_of(next(_text_of(name), b""), direction) if code < 10 else None
    except Exception:  # as above
        sign = None
    return sign[0] if sign else "; or ".join(entry_of(code, direction).causes[:2])


def explain_files(names: List[str], as_json: bool, line: Callable[[str], None], say: Callable[[str, str], None]) -> int:
    """Explains one file after another: status 1 if one is refused or can't be read, otherwise 2 if one isn't standard or may be cut off."""
    statuses = {0}
    for name in names:
        try:
            found = explain(name)
        except Exception as error:  # the next file is explained all the same
            found = Explanation("error", 0, None, getattr(error, "strerror", None) or str(error) or "out of memory")
            say(name, f"ERROR: {found.words}")
        statuses.add(0 if not found else 2 if found.state in (NOT_STANDARD, CUT) else 1)
        if as_json:
            import json

            fields = found._asdict() if found else {"state": "good"}
            line(json.dumps({"input": name, **{key: value for key, value in fields.items() if key != "text"}}))
        elif not found or found.state != "error":
            line(f"{quoted(name)}: {found or 'nothing to explain'}")
    return 1 if 1 in statuses else max(statuses)
