"""Both filters over bytes, at once and in pieces."""

from __future__ import annotations

import ctypes
import os
import sys
import time
from io import BytesIO

from ._library import (
    BAD_DATE, BAD_PROCESSOR, FAULT, GOOD, LIBRARY, MISUSED, OUT_OF_MEMORY, OUTPUT_LIMIT, READY, WARNINGS, Answer, Handle, Options,
)  # fmt: skip

TYPE_CHECKING = False
if TYPE_CHECKING:  # these imports take time at each start
    from typing import IO, Any, Callable, Iterator, List, Optional, Tuple, Union

    BytesLike = Union[bytes, bytearray, memoryview]
    Path = Union[str, "os.PathLike[str]"]
    Content = Union[BytesLike, Path, "IO[bytes]", "IO[str]"]

_MONTHS = "Jan Feb Mar Apr May Jun Jul Aug Sep Oct Nov Dec".split()

_LINES = 4096  # bytes of the first buffer for messages: an error and some warnings
_ROOM = 65536  # bytes that the first buffer for compact text has for header and events, at most the input's, in addition to half of the input's

CUT_OFF = "the last line has no line end: the file may be cut off"

USUAL: Any = object()  # the limit of an output if no limit is given:
_USUAL_TIMES, _USUAL_LEAST = 1000, 64_000_000  # this many times the input, and at least this many bytes


class RnxcmpError(Exception):
    """An error ended a run.

    :ivar line: the line of the error, from 1; 0 if no line was read.
    :ivar code: the error's code; 0 if it isn't an error of the input.
    :ivar output: the output before the error.
    """

    def __init__(self, message: str, line: int = 0, code: int = 0, output: bytes = b"") -> None:
        super().__init__(message)
        self.line, self.code, self.output = line, code, output


class OutputLimitError(RnxcmpError):
    """The output would have more bytes than ``max_length``. A run in pieces has returned the output of the lines before that."""


class RnxcmpWarning(UserWarning):
    """An epoch was skipped, or a file may have been cut off."""


def bytes_of(data: BytesLike) -> bytes:
    """Returns the bytes of an input."""
    if not isinstance(data, (bytes, bytearray, memoryview)):
        raise TypeError(f"bytes, a bytearray or a memoryview is needed, not {type(data).__name__}")
    return bytes(data)


def bytes_of_file(path: Path) -> bytes:
    """Returns the bytes of the file that a path names."""
    with open(path, "rb") as file:
        return file.read()


def content_of(content: Content) -> bytes:
    """Returns the bytes of an input: bytes, an open file from its position on, a text (a ``str`` with a line end in it), or a path."""
    if hasattr(content, "read"):
        content = content.read()
    elif isinstance(content, os.PathLike) or (isinstance(content, str) and "\n" not in content):
        return bytes_of_file(content)
    return content.encode("utf-8", "surrogateescape") if isinstance(content, str) else bytes_of(content)


def _view_of(data: BytesLike) -> memoryview:
    """Returns a view of the bytes of an input, without a copy if they are contiguous."""
    if isinstance(data, memoryview) and not (data.format == "B" and data.ndim == 1 and data.c_contiguous):
        return memoryview(bytes(data))
    return memoryview(data if isinstance(data, (bytearray, memoryview)) else bytes_of(data))


def _place_of(room: bytearray) -> object:
    """Returns the address of a buffer. (Another type for each length of buffers would take longer to make than a call takes.)"""
    return ctypes.byref(ctypes.c_char.from_buffer(room)) if room else None


class _Rooms:
    """The buffers of a call for output and messages, and its answer."""

    def __init__(self, output: int, messages: int) -> None:
        self.output, self.messages, self.answer = bytearray(output), bytearray(messages), Answer()
        self._places = (_place_of(self.output), output, _place_of(self.messages), messages)

    def arguments(self) -> Tuple[object, ...]:
        """Returns the last arguments of each call."""
        return (*self._places, self.answer)

    def fit(self) -> bool:
        """Returns whether both buffers were long enough."""
        return bool(self.answer.output_length <= len(self.output) and self.answer.messages_length <= len(self.messages))

    def texts(self, output: int, messages: int) -> Tuple[memoryview, bytes]:
        """Returns this many bytes of both texts; the output is valid until the next call."""
        return memoryview(self.output)[:output], bytes(memoryview(self.messages)[:messages])


def filled(call: Callable[..., int], arguments: List[object], output: int) -> _Rooms:
    """Calls with a buffer for this many bytes of output, and again if a buffer was too short."""
    rooms = _Rooms(output, _LINES)
    call(*arguments, *rooms.arguments())
    if not rooms.fit():
        rooms = _Rooms(rooms.answer.output_length, rooms.answer.messages_length)
        call(*arguments, *rooms.arguments())
    return rooms


def warn(text: str) -> None:
    """Issues a warning, which names the first caller outside this package."""
    import warnings

    level, frame = 1, sys._getframe()
    while frame.f_back is not None and frame.f_globals.get("__package__") == __package__:
        level, frame = level + 1, frame.f_back
    warnings.warn(text, RnxcmpWarning, stacklevel=level)


def _warn_of(lines: bytes, tell: Callable[[str], None] = warn) -> None:
    """Calls `tell` with each warning among whole lines of messages."""
    for line in lines.decode("ascii").splitlines() if lines else ():
        if line.startswith("WARNING "):
            tell(line[len("WARNING ") :])


def _error_of(answer: Answer, output: bytes) -> Optional[Exception]:
    """Returns the error that an answer means, with the output before it, or None."""
    if answer.status in (GOOD, WARNINGS):
        return None
    if answer.status == FAULT:
        words = f"line {answer.line} code {answer.code}: {LIBRARY.rnxcmp_words(answer.code).decode('ascii')}"
        return MemoryError(words) if answer.code == OUT_OF_MEMORY else RnxcmpError(words, answer.line, answer.code, output)
    if answer.status == OUTPUT_LIMIT:
        return OutputLimitError("the output is longer than max_length", output=output)
    if answer.status == BAD_DATE:
        return ValueError("bad date: at most 20 characters, each printable ASCII")
    if answer.status == BAD_PROCESSOR:
        return RnxcmpError("this processor is older than x86-64-v2")
    if answer.status == MISUSED:
        return ValueError("the run has ended, or is closed")
    return RnxcmpError("the output changed between two calls")


def output_of(rooms: _Rooms) -> bytes:
    """Returns the output of a call, issues its warnings, and raises its error."""
    view, lines = rooms.texts(rooms.answer.output_length, rooms.answer.messages_length)
    output = bytes(view)
    _warn_of(lines)
    error = _error_of(rooms.answer, output)
    if error is not None:
        raise error
    return output


def _dated(date: Optional[str]) -> bytes:
    """Returns the bytes of a date, or of the present moment, in any locale; other texts become a date that the library refuses."""
    if date is not None and not isinstance(date, str):
        raise TypeError(f"a date is a str, not {type(date).__name__}")
    now = time.gmtime()
    text = f"{now.tm_mday:02}-{_MONTHS[now.tm_mon - 1]}-{now.tm_year % 100:02} {now.tm_hour:02}:{now.tm_min:02}" if date is None else date
    return b"\n" if not text.isascii() or "\0" in text else text.encode("ascii")


def _within(name: str, value: Optional[int], least: int, bits: int) -> int:
    """Returns a number if it is in range, and 0 for None."""
    if value is not None and not least <= value < 2**bits:
        raise ValueError(f"{name} is out of range")
    return 0 if value is None else value


def limit_of(max_length: Optional[int]) -> int:
    """Returns the most bytes that an output may have; 0 for None, which is no limit."""
    return _within("max_length", max_length, 1, 64)


def limit_for(length: int, max_length: Optional[int]) -> Optional[int]:
    """Returns the limit of an output for the length of the input."""
    return max(_USUAL_TIMES * length, _USUAL_LEAST) if max_length is USUAL else max_length


def _options_of(
    skip_strange_epochs: bool, max_length: Optional[int], reinit_every_nth: Optional[int] = None, date: Optional[bytes] = None
) -> Options:
    """Returns the library's options."""
    return Options(
        size=ctypes.sizeof(Options),
        every=_within("reinit_every_nth", reinit_every_nth, 0, 32), skip=int(bool(skip_strange_epochs)), date=date, max_output=limit_of(max_length),
    )  # fmt: skip


def rnx2crx(
    data: Content, *, skip_strange_epochs: bool = False, reinit_every_nth: Optional[int] = None, date: Optional[str] = None,
    max_length: Optional[int] = None,
) -> bytes:  # fmt: skip
    """Compacts RINEX 3.0x into Compact RINEX 3.0.

    :param data: bytes, a path, an open file, or a text: a ``str`` with a line end in it.
    :param skip_strange_epochs: warn about epochs with an error, and skip them.
    :param reinit_every_nth: write every N-th epoch in full.
    :param date: the date of the second line, at most 20 printable ASCII characters; otherwise the present moment, in UTC.
    :param max_length: the most bytes that the output may have.
    :raises RnxcmpError: if an error ended the run.
    :raises OutputLimitError: if the output is longer than ``max_length``.
    """
    content = content_of(data)
    arguments = [content, len(content), _options_of(skip_strange_epochs, max_length, reinit_every_nth, _dated(date))]
    guess = min(_ROOM, len(content)) + len(content) // 2
    return output_of(filled(LIBRARY.rnxcmp_compact, arguments, guess if max_length is None else min(guess, max_length)))


def crx2rnx(data: Content, *, skip_strange_epochs: bool = False, max_length: Optional[int] = USUAL) -> bytes:
    """Expands Compact RINEX 3.0 into RINEX 3.0x.

    Arguments and errors are those of :func:`rnx2crx`.

    :param max_length: if it isn't given, the output has at most a thousand times the input's bytes, and at least 64 MB. None is no limit.
    """
    content = content_of(data)
    options = _options_of(skip_strange_epochs, limit_for(len(content), max_length))
    if len(content) <= READY // 4:  # the output usually fits, and one call takes less time than a stream
        rooms = _Rooms(READY, _LINES)
        LIBRARY.rnxcmp_expand(content, len(content), options, *rooms.arguments())
        if rooms.fit():
            return output_of(rooms)
    with Stream(LIBRARY.rnxcmp_open_expand, [options]) as stream:
        try:
            return _joined(stream._made_in_all(content))
        except OutputLimitError as error:
            error.output = b""
            raise


class Stream:
    """A run over an input that arrives in pieces.

        with rnxcmp.Stream.expanding() as stream:
            for piece in pieces:
                write(stream.feed(piece))
            write(stream.end())

    The output of one piece may be many times as long as the piece: :meth:`outputs` and :meth:`last_outputs` return it in parts, and read more
    only when all parts before were taken. The output in all is that of :func:`rnx2crx`, :func:`crx2rnx`, or the text of :func:`check`. An
    error raises :class:`RnxcmpError`, whose ``output`` has the output that wasn't returned yet. One thread at a time may use a stream.
    """

    def __init__(self, opening: Callable[..., int], arguments: List[object]) -> None:
        self._handle = Handle()
        self._rooms = _Rooms(READY, _LINES)
        self._line = b""  # the first part of a message whose rest isn't taken yet
        self._is_given = True  # whether the caller has taken all outputs
        self.on_warning: Callable[[str], None] = warn  # is called with each warning
        answer = Answer()
        opening(self._handle, *arguments, answer)
        error = _error_of(answer, b"")
        if error is not None:
            raise error

    @classmethod
    def compacting(
        cls, *, skip_strange_epochs: bool = False, reinit_every_nth: Optional[int] = None, date: Optional[str] = None,
        max_length: Optional[int] = None,
    ) -> "Stream":  # fmt: skip
        """Compacts, with the arguments of :func:`rnx2crx`."""
        return cls(LIBRARY.rnxcmp_open_compact, [_options_of(skip_strange_epochs, max_length, reinit_every_nth, _dated(date))])

    @classmethod
    def expanding(cls, *, skip_strange_epochs: bool = False, max_length: Optional[int] = None) -> "Stream":
        """Expands, with the arguments of :func:`crx2rnx`, but without a limit unless one is given."""
        return cls(LIBRARY.rnxcmp_open_expand, [_options_of(skip_strange_epochs, max_length)])

    @classmethod
    def checking(cls) -> "Stream":
        """Checks: the output is the text of the report, which :meth:`end` returns."""
        return cls(LIBRARY.rnxcmp_open_check, [])

    def _fed(self, piece: Optional[Union[bytes, int]], length: int) -> Tuple[int, Answer]:
        """Feeds `length` bytes (`piece`: the bytes or their address); returns how many were taken, and the answer."""
        used, answer = ctypes.c_size_t(), Answer()
        LIBRARY.rnxcmp_feed(self._handle, piece, length, used, answer)
        return used.value, answer

    def _demand_open(self) -> None:
        """Raises an error if no more can be fed."""
        error = _error_of(self._fed(None, 0)[1], b"")
        if error is not None:
            raise error
        if not self._is_given:
            raise ValueError("the outputs of an earlier call weren't taken to their end")

    def _taken(self, answer: Answer) -> Iterator[memoryview]:
        """Returns the ready output in parts, each valid until the next, issues the warnings, and then raises the answer's error."""
        rooms, ready = self._rooms, answer
        while ready.output_length or ready.messages_length:
            rooms.answer = Answer()
            LIBRARY.rnxcmp_take(self._handle, *rooms.arguments())
            if rooms.answer.status == MISUSED:
                raise ValueError("the run was closed before all outputs were taken")
            output, lines = rooms.texts(
                ready.output_length - rooms.answer.output_length, ready.messages_length - rooms.answer.messages_length
            )
            ready = rooms.answer
            if lines:
                whole, end, self._line = (self._line + lines).rpartition(b"\n")
                _warn_of(whole + end, self.on_warning)
            if output:
                yield output
        error = _error_of(answer, b"")
        if error is not None:
            raise error

    def _made(self, view: memoryview) -> Iterator[memoryview]:
        """Feeds bytes, and returns their output in parts, each valid until the next."""
        at, length, source = 0, len(view), view.obj
        # bytes that can't change are fed without a copy
        held = ctypes.c_char_p(source) if isinstance(source, bytes) and len(source) == length else None
        place = ctypes.cast(held, ctypes.c_void_p).value
        while at < length:
            if place is None:
                piece = bytes(view[at : at + READY])
                used, answer = self._fed(piece, len(piece))
            else:
                used, answer = self._fed(place + at, length - at)
            at += used
            yield from self._taken(answer)
        self._is_given = True

    def _ended(self) -> Answer:
        """Ends the input, and returns the answer."""
        answer = Answer()
        LIBRARY.rnxcmp_end(self._handle, answer)
        return answer

    def _made_in_all(self, content: bytes) -> Iterator[memoryview]:
        """Feeds a whole input, and returns its output in parts, each valid until the next."""
        yield from self._made(memoryview(content))
        yield from self._taken(self._ended())

    def _begun(self, data: BytesLike) -> Iterator[memoryview]:
        """Returns the parts of :meth:`outputs`, each valid until the next."""
        view = _view_of(data)
        self._demand_open()
        self._is_given = False
        return self._made(view)

    def _begun_last(self) -> Iterator[memoryview]:
        """Returns the parts of :meth:`last_outputs`, each valid until the next."""
        self._demand_open()
        return self._taken(self._ended())

    def outputs(self, data: BytesLike) -> Iterator[bytes]:
        """Takes bytes of the input, which may end anywhere, and returns the output so far in parts of at most 65536 bytes.

        Take all parts before the next call, otherwise that call raises a ``ValueError``; don't change the bytes until then.
        """
        return map(bytes, self._begun(data))

    def last_outputs(self) -> Iterator[bytes]:
        """Ends the input, and returns the rest of the output in parts of at most 65536 bytes."""
        return map(bytes, self._begun_last())

    def feed(self, data: BytesLike) -> bytes:
        """Takes bytes of the input, which may end anywhere, and returns the output so far."""
        return _joined(self._begun(data))

    def end(self) -> bytes:
        """Ends the input, and returns the rest of the output."""
        return _joined(self._begun_last())

    def close(self) -> None:
        """Ends the run, and frees its memory."""
        if self._handle.is_open:
            LIBRARY.rnxcmp_close(self._handle)

    def __enter__(self) -> "Stream":
        return self

    def __exit__(self, *_: object) -> None:
        self.close()

    def __del__(self) -> None:
        if hasattr(self, "_handle"):
            self.close()


def _joined(parts: Iterator[memoryview]) -> bytes:
    """Returns all parts of an output; an error has the parts before it."""
    output = BytesIO()  # `getvalue` makes no second copy
    try:
        for part in parts:
            output.write(part)
    except RnxcmpError as error:
        error.output = output.getvalue()
        raise
    return output.getvalue()


def version() -> str:
    """Returns the version of the library."""
    return str(LIBRARY.rnxcmp_version(), "ascii")
