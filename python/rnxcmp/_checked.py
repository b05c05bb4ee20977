"""`rnxcmp-file check`: whether a file is valid and whole, RINEX or compact text, packed or not, in memory that doesn't grow with it."""

from __future__ import annotations

from ._calls import CUT_OFF, RnxcmpError, Stream
from ._whole import COMPACTION, EXPANSION, Input, start_of

TYPE_CHECKING = False
if TYPE_CHECKING:
    from typing import Callable, Dict, Iterator


class Checked:
    """The report on a valid file."""

    def __init__(self, is_compact: bool, may_be_cut_off: bool, report: str) -> None:
        self.is_compact, self.may_be_cut_off = is_compact, may_be_cut_off
        self._report: Dict[str, str] = dict(line.split(" ", 1) for line in report.splitlines())

    def fields(self) -> Dict[str, object]:
        """Returns the report for `--json`. For compact text it is on the RINEX that the text expands to."""
        counts = {name: int(self._report[name]) for name in ("epochs", "events", "observations")}
        more = {"compact": self.is_compact, "format": self._report["format"], **counts, "standard": self._report["standard"] == "yes"}
        return {"state": "cut off" if self.may_be_cut_off else "good", **more}


def _rinex(text: Iterator[bytes], start: bytes) -> Iterator[bytes]:
    """Returns the RINEX of compact text, whose first piece is `start`."""
    with Stream.expanding() as stream:
        yield from stream.outputs(start)
        for piece in text:
            yield from stream.outputs(piece)
        yield from stream.last_outputs()


def _plain(text: Iterator[bytes], start: bytes) -> Iterator[bytes]:
    yield start
    yield from text


def _is_compact(start: bytes) -> bool:
    return start[60:80] == b"CRINEX VERS   / TYPE"


def direction_of(name: str) -> str:
    """Returns the direction whose input a file is, by its first bytes."""
    try:
        return EXPANSION if _is_compact(start_of(name, 80)) else COMPACTION
    except RnxcmpError:
        return COMPACTION


def checked(name: str, tell: Callable[[str], None]) -> Checked:
    """Checks a file; raises its error, and calls `tell` with a warning if it may be cut off."""
    source = Input(name)
    try:
        text, start = source.text(), b""
        while len(start) < 80 and (piece := next(text, b"")):
            start += piece
        is_compact = _is_compact(start)
        with Stream.checking() as stream:
            for piece in _rinex(text, start) if is_compact else _plain(text, start):
                for _ in stream.outputs(piece):
                    pass
            report = b"".join(stream.last_outputs())
        source.ensure_unchanged()
    finally:
        source.close()
    if source.may_be_cut_off:
        tell(CUT_OFF)
    return Checked(is_compact, source.may_be_cut_off, report.decode("latin-1"))
