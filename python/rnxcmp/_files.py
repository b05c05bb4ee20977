"""The content of files, packed or not, as users of the package ``hatanaka`` know the calls."""

from __future__ import annotations

from ._calls import CUT_OFF, USUAL, OutputLimitError, bytes_of_file, content_of, crx2rnx, limit_for, limit_of, rnx2crx, warn
from ._packed import (
    BZIP2, COMPRESS, GZIP, XZ, ZIP,
    UnsupportedError, other_packing, out_of_archive, out_of_compress, out_of_gzip, packed_by_gzip, pieces_in,
)  # fmt: skip

TYPE_CHECKING = False
if TYPE_CHECKING:
    from typing import Iterable, Optional

    from ._calls import Content


def _bytes_of(content: Content) -> bytes:
    """Returns the bytes of an input as `content_of` does, but a ``str`` is always a path."""
    return bytes_of_file(content) if isinstance(content, str) else content_of(content)


def _within(pieces: Iterable[bytes], packing: str, max_length: Optional[int]) -> bytes:
    """Returns all of an unpacked text; raises an error when it is longer than `max_length`."""
    parts, length = [], 0
    for part in pieces:
        length += len(part)
        if max_length is not None and length > max_length:
            raise OutputLimitError(f"the text in {packing} is longer than max_length")
        parts.append(part)
    return b"".join(parts)


def _unpacked(data: bytes, max_length: Optional[int] = None) -> bytes:
    """Returns the bytes, unpacked if they are packed."""
    limit_of(max_length)
    if other_packing(data):
        raise UnsupportedError(f"compression not supported: {other_packing(data)}")
    if data.startswith(COMPRESS):
        return _within(out_of_compress(data), ".Z", max_length)
    if data.startswith((BZIP2, XZ, ZIP)):
        from io import BytesIO

        return _within(out_of_archive(BytesIO(data), data[:4]), "an archive", max_length)
    return _within(out_of_gzip(pieces_in(data)), "gzip", max_length) if data.startswith(GZIP) else data


def _label(data: bytes) -> bytes:
    """Returns the first line's label, in columns 61 to 80."""
    return data[:82].split(b"\n")[0][60:80].rstrip()


def is_compact(data: bytes) -> bool:
    """Returns whether it is Compact RINEX, of any version."""
    return _label(data) == b"CRINEX VERS   / TYPE"


def is_observation(data: bytes) -> bool:
    """Returns whether it is RINEX observation data, of any version."""
    return _label(data) == b"RINEX VERSION / TYPE" and data[20:21] == b"O"


def _version(data: bytes) -> str:
    """Returns the version in the first line."""
    return data[:20].split(b"\n")[0].decode("latin-1").strip()


def ensure_known(data: bytes) -> None:
    """Refuses compact text and observation data of another version, by the first line."""
    version = _version(data)
    if is_compact(data) and version.startswith("1"):
        raise UnsupportedError(f"format not supported: Compact RINEX {version}, which is RINEX 2")
    if is_observation(data) and not version.startswith("3"):
        raise UnsupportedError(f"format not supported: RINEX {version}")


def _warn_if_cut(data: bytes) -> None:
    """Warns if the last line has no line end."""
    if not data.endswith(b"\n"):
        warn(CUT_OFF)


def decompress(content: Content, *, skip_strange_epochs: bool = False, max_length: Optional[int] = USUAL) -> bytes:
    """Returns the content of a file, or bytes, as RINEX: unpacked, and expanded if it is Compact RINEX 3.0. Other data is only unpacked.

    :param max_length: the most bytes that may be unpacked, and that the expansion may have; more raise :class:`OutputLimitError`.
        If it isn't given, that is a thousand times the content, and at least 64 MB; None is no limit.
    :raises UnsupportedError: if the compression is another one, or the content is Compact RINEX 1.0.
    """
    packed = _bytes_of(content)
    limit = limit_for(len(packed), max_length)
    data = _unpacked(packed, limit)
    if not is_compact(data):
        return data
    ensure_known(data)
    _warn_if_cut(data)
    return crx2rnx(data, skip_strange_epochs=skip_strange_epochs, max_length=limit)


def compress(
    content: Content,
    *,
    compression: str = "gz",
    skip_strange_epochs: bool = False,
    reinit_every_nth: Optional[int] = None,
    max_length: Optional[int] = None,
) -> bytes:
    """Returns the content of a file, or bytes, in gzip, and compacted if it is observation data.

    :param compression: ``"gz"``, or ``"none"`` for none; others raise :class:`UnsupportedError`.
    :param max_length: the most bytes that may be unpacked, and that compact text may have; more raise :class:`OutputLimitError`.
    """
    if compression not in ("gz", "none"):
        raise UnsupportedError(f"compression not supported: {compression}")
    data = _unpacked(_bytes_of(content), max_length)
    if is_observation(data):
        ensure_known(data)
        _warn_if_cut(data)
        data = rnx2crx(
            data, skip_strange_epochs=skip_strange_epochs, reinit_every_nth=reinit_every_nth, max_length=max_length
        )
    return packed_by_gzip(data) if compression == "gz" else data
