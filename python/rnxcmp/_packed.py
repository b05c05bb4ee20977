"""The text of a file in pieces: as it is, or out of gzip, compress (`.Z`), bzip2, xz or zip; and into gzip."""

from __future__ import annotations

import errno
import os
import zlib
from itertools import chain

from ._calls import RnxcmpError

TYPE_CHECKING = False
if TYPE_CHECKING:
    from typing import BinaryIO, Callable, Iterable, Iterator

_PIECE = 1 << 18
GZIP, COMPRESS = b"\x1f\x8b", b"\x1f\x9d"
BZIP2, ZIP, XZ = b"BZh", b"PK\x03\x04", b"\xfd7zXZ\x00"
_OTHERS = ((b"\x1f\xa0", ".Z (LZH)"), (b"\x28\xb5\x2f\xfd", "zstd"))
_SIGN = 6  # bytes that say how a file is packed
_GZIP_FORM = 31  # zlib's number for gzip


class UnsupportedError(RnxcmpError):
    """The error for a compression or a format that this package doesn't know; the message names it."""


class PackError(RnxcmpError):
    """The error for a packed file that is damaged or cut off."""


def other_packing(start: bytes) -> str:
    """Returns the name of a compression that isn't read here, by a file's first bytes, or an empty text."""
    return next((name for sign, name in _OTHERS if start.startswith(sign)), "")


def pieces_of(descriptor: int) -> Iterator[bytes]:
    """Returns the bytes of an open file from its position on, in pieces."""
    return iter(lambda: os.read(descriptor, _PIECE), b"")


def pieces_in(data: bytes) -> Iterator[bytes]:
    """Returns bytes in pieces, as a file is read."""
    return (data[at : at + _PIECE] for at in range(0, len(data), _PIECE))


def out_of_gzip(pieces: Iterable[bytes]) -> Iterator[bytes]:
    """Returns the text of all members; zeros between and after them are no text."""
    member, first = None, True
    for piece in pieces:
        while True:
            if member is None:
                piece = piece if first else piece.lstrip(b"\0")
                if not piece:
                    break
                member, first = zlib.decompressobj(_GZIP_FORM), False
            try:
                text = member.decompress(piece, _PIECE)
            except zlib.error as error:
                raise PackError(f"the packed text is damaged: {error}") from error
            if text:
                yield text
            if member.eof:
                piece, member = member.unused_data, None
                continue
            piece = member.unconsumed_tail
            if not piece and len(text) < _PIECE:
                break
    if member is not None:
        raise PackError("the packed text is cut off")


def packed_by_gzip(data: bytes) -> bytes:
    """Returns the bytes in gzip, at its best compression. The same bytes are packed the same."""
    packer = zlib.compressobj(9, zlib.DEFLATED, _GZIP_FORM)
    return packer.compress(data) + packer.flush()


def out_of_compress(data: bytes) -> Iterator[bytes]:
    """Returns the text of bytes that compress packed (`.Z`)."""
    import tempfile

    with tempfile.TemporaryFile() as file:
        file.write(data)
        file.flush()
        yield from _out_of_compress(file.fileno())


def _out_of_compress(descriptor: int) -> Iterator[bytes]:
    """Returns the text of a `.Z` file, by `gzip -dc`."""
    import subprocess

    os.lseek(descriptor, 0, os.SEEK_SET)
    try:
        run = subprocess.Popen(["gzip", "-dc"], stdin=descriptor, stdout=subprocess.PIPE, stderr=subprocess.PIPE)
    except OSError as error:
        raise UnsupportedError(f".Z is unpacked by gzip -dc, which can't be started: {error.strerror}") from error
    assert run.stdout is not None and run.stderr is not None
    try:
        while True:
            piece = os.read(run.stdout.fileno(), _PIECE)
            if not piece:
                break
            yield piece
        said = run.stderr.read(1000).decode("utf-8", "replace").strip().replace("\n", " ")
        if run.wait() != 0:
            raise PackError(f"gzip -dc failed: {said or run.returncode}")
    finally:
        run.stdout.close()
        run.stderr.close()
        run.kill()
        run.wait()


def _only_file_in(file: BinaryIO) -> BinaryIO:
    """Opens the file in a zip; raises an error unless there is exactly one."""
    from zipfile import ZipFile

    found = ZipFile(file)
    names = [one for one in found.infolist() if not one.is_dir()]
    if len(names) != 1:
        raise UnsupportedError(f"a zip with {len(names)} files, not one")
    return found.open(names[0])  # type: ignore[return-value]


def out_of_archive(file: BinaryIO, start: bytes) -> Iterator[bytes]:
    """Returns the text of an open file that begins with `start`, unpacked from bzip2, xz or zip."""
    from bz2 import BZ2File
    from lzma import LZMAError, LZMAFile
    from zipfile import BadZipFile

    try:
        opened = _only_file_in(file) if start.startswith(ZIP) else BZ2File(file) if start.startswith(BZIP2) else LZMAFile(file)
        yield from iter(lambda: opened.read(_PIECE), b"")
    except EOFError:
        raise PackError("the packed text is cut off") from None
    except (LZMAError, BadZipFile, zlib.error, OSError, NotImplementedError, RuntimeError, ValueError, IndexError) as error:
        if isinstance(error, OSError) and error.errno not in (None, errno.EINVAL):  # a place before the beginning, which a damaged zip may name
            raise
        raise PackError(f"the packed text is damaged: {error}") from error


def _out_of_archive(descriptor: int, start: bytes) -> Iterator[bytes]:
    with os.fdopen(os.dup(descriptor), "rb") as file:
        file.seek(0)
        yield from out_of_archive(file, start)


def text_of(descriptor: int) -> Iterator[bytes]:
    """Returns the text of an open file that is at its beginning, unpacked if its first bytes say that it is packed."""
    pieces, start = pieces_of(descriptor), b""
    while len(start) < _SIGN and (piece := next(pieces, b"")):
        start += piece
    if other_packing(start):
        raise UnsupportedError(f"compression not supported: {other_packing(start)}")
    if start.startswith(COMPRESS):
        yield from _out_of_compress(descriptor)
    elif start.startswith((BZIP2, ZIP, XZ)):
        yield from _out_of_archive(descriptor, start)
    else:
        yield from out_of_gzip(chain((start,), pieces)) if start.startswith(GZIP) else chain((start,), pieces)


def text_again(descriptor: int) -> Iterator[bytes]:
    """Returns the text of an open file from its beginning, as `text_of` does."""
    os.lseek(descriptor, 0, os.SEEK_SET)
    return text_of(descriptor)


class Packing:
    """Writes a text by `write`, in gzip if `pack` says so. The same text is packed the same."""

    def __init__(self, write: Callable[[bytes], None], pack: bool) -> None:
        self._write = write
        self._packer = zlib.compressobj(6, zlib.DEFLATED, _GZIP_FORM) if pack else None

    def write(self, text: bytes) -> None:
        self._write(self._packer.compress(text) if self._packer else text)

    def end(self) -> None:
        if self._packer:
            self._write(self._packer.flush())
