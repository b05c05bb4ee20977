"""A file as a stream of the text of RINEX, whether it is compact or packed."""

from __future__ import annotations

import io
import os

from ._calls import CUT_OFF, Stream, warn
from ._files import ensure_known, is_compact
from ._packed import text_of

TYPE_CHECKING = False
if TYPE_CHECKING:
    from typing import Any, Generator, Iterator, Optional

    from ._calls import Path

_LABEL = 82  # bytes in which the first line tells the format


def _rinex_of(descriptor: int, skip: bool) -> Generator[bytes, None, None]:
    """Returns the RINEX text of an open file in parts, and closes the file at the end."""
    try:
        pieces, start = text_of(descriptor), b""
        while len(start) < _LABEL and (piece := next(pieces, b"")):
            start += piece
        if not is_compact(start):
            yield start
            yield from pieces
            return
        ensure_known(start)
        with Stream.expanding(skip_strange_epochs=skip) as stream:
            while start:
                yield from stream.outputs(start)
                last, start = start, next(pieces, b"")
            if not last.endswith(b"\n"):
                warn(CUT_OFF)
            yield from stream.last_outputs()
    finally:
        os.close(descriptor)


class _Parts(io.RawIOBase):
    """The parts of a text as a file that is read once. An error ends the text; the next read raises the error, and so does each later one."""

    def __init__(self, parts: Generator[bytes, None, None]) -> None:
        self._parts, self._part = parts, memoryview(next(parts, b""))  # the first part at once, so that opening a bad file raises
        self.error: Optional[Exception] = None
        self.is_raised = False

    def readable(self) -> bool:
        return True

    def readinto(self, room: Any) -> int:
        if self.error:
            self.is_raised = True
            raise self.error
        if not self._part:
            try:
                self._part = memoryview(next(self._parts, b""))
            except Exception as error:
                self.error = error
        count = min(len(room), len(self._part))
        room[:count] = self._part[:count]
        self._part = self._part[count:]
        return count

    def close(self) -> None:
        self._parts.close()
        super().close()


class _Text(io.TextIOWrapper):
    """A text that ends at an error: a read returns the text before it, and the next one raises it. If there is no next one, `read` has
    warned, and `close` raises it."""

    def __init__(self, parts: _Parts) -> None:
        super().__init__(io.BufferedReader(parts, 1 << 16), encoding="latin-1", newline="\n")
        self._ended = parts

    def read(self, size: Optional[int] = -1) -> str:
        text = super().read(size) or super().read(size)
        if self._ended.error and (size is None or size < 0):
            warn(f"the text ends before an error: {self._ended.error}")
        return text

    def readline(self, size: int = -1) -> str:
        return super().readline(size) or super().readline(size)

    def __iter__(self) -> Iterator[str]:
        for _ in range(2):  # after the last line, the second turn raises an error if one ended the text
            yield from iter(super().readline, "")

    def close(self) -> None:
        super().close()
        if self._ended.error and not self._ended.is_raised:
            self._ended.is_raised = True
            raise self._ended.error


def open(path: Path, *, skip_strange_epochs: bool = False) -> io.TextIOWrapper:
    """Opens a file for reading as the text of RINEX: ``.rnx`` or ``.crx``, as it is or packed, by its first bytes.

    The text is read in memory that doesn't grow with the file, each byte as one character (Latin-1), and line ends as they are. If a file
    is neither RINEX nor Compact RINEX 3.0, it is read as it is.

    An error of the file ends its text: reads return the text before the error, and then raise :class:`RnxcmpError`. If no read raised it,
    closing the file does.

    :param skip_strange_epochs: warn about epochs with an error, and skip them.
    """
    return _Text(_Parts(_rinex_of(os.open(path, os.O_RDONLY | os.O_CLOEXEC), skip_strange_epochs)))
