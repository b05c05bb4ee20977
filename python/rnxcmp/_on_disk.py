"""One file in the folder of another, by calls that users of the package ``hatanaka`` know."""

import os
from pathlib import Path
from typing import Optional, Union

if os.name == "nt":
    raise ImportError("whole files need POSIX, which Windows isn't: compress and decompress give bytes")

from ._calls import warn
from ._files import ensure_known, is_compact, is_observation
from ._names import is_named_as_input, other_name, unpacked_name
from ._packed import UnsupportedError
from ._whole import COMPACTION, COPY, EXPANSION, Choices, Whole, start_of

PathLike = Union[str, "os.PathLike[str]"]

_FIRST_LINE = 82  # bytes of a file that tell its format


def _other_name_of(path: str, direction: str) -> str:
    """Returns the name without the extension of packed files, and with the other form's extension if it has one of this form."""
    plain = unpacked_name(path)
    return plain if direction == COPY else other_name(plain, direction) or plain


def _refuse(delete: bool) -> None:
    if delete:
        raise ValueError("delete is no longer an option: no input is ever removed; removing is the caller's decision")


def _ensure_name(source: str, target: str, is_compact_text: bool, is_rinex: bool) -> None:
    """Refuses the input's name, and a name under which compact text would be taken for RINEX, or RINEX for compact text."""
    misleading = (is_compact_text and is_named_as_input(target, COMPACTION)) or (is_rinex and is_named_as_input(target, EXPANSION))
    if misleading or target == str(Path(source)):
        raise UnsupportedError(f"no name for the converted file: {source}")


def _do(path: str, target: str, choices: Choices) -> Path:
    return Path(Whole(path, choices, target, warn).run().output)


def get_decompressed_path(path: PathLike) -> Path:
    """Returns the name that :func:`decompress_on_disk` writes: without ``.gz``, and ``.crx`` as ``.rnx``, ``.24d`` as ``.24o``."""
    return Path(_other_name_of(os.fspath(path), EXPANSION))


def decompress_on_disk(
    path: PathLike, *, delete: bool = False, skip_strange_epochs: bool = False, verify: bool = False, force: bool = False
) -> Path:
    """Decompresses a file into the file that :func:`get_decompressed_path` names, and returns that path.

    The file appears whole, or not at all, and the input stays as it is. If there is nothing to decompress, the input's path is returned.

    :param verify: read the file back from the disk and compare before it gets its name.
    :param force: replace a file that exists. Otherwise it is left as it is, and is an error unless it holds this input.
    :param delete: must be false: no input is removed.
    :raises RnxcmpError: if nothing was made.
    """
    _refuse(delete)
    source = os.fspath(path)
    target = str(get_decompressed_path(source))
    start = start_of(source, _FIRST_LINE)
    direction = EXPANSION if is_compact(start) else COPY
    if direction == EXPANSION:
        ensure_known(start)
    if direction == COPY and target == str(Path(source)):
        return Path(source)
    _ensure_name(source, target, False, direction == EXPANSION or is_observation(start))
    return _do(source, target, Choices(direction, False, verify, force, skip_strange_epochs))


def compress_on_disk(
    path: PathLike,
    *,
    compression: str = "gz",
    delete: bool = False,
    skip_strange_epochs: bool = False,
    reinit_every_nth: Optional[int] = None,
    verify: bool = False,
    force: bool = False,
) -> Path:
    """Compresses a file into one in the same folder, such as ``abcd0010.24o`` into ``abcd0010.24d.gz``, and returns that path.

    The file appears whole, or not at all, and the input stays as it is.

    :param verify: read the file back from the disk and compare before it gets its name.
    :param force: replace a file that exists. Otherwise it is left as it is, and is an error unless it holds this input.
    :param delete: must be false: no input is removed.
    :raises RnxcmpError: if nothing was made.
    """
    _refuse(delete)
    if compression not in ("gz", "none"):
        raise UnsupportedError(f"compression not supported: {compression}")
    source = os.fspath(path)
    start = start_of(source, _FIRST_LINE)
    direction = COMPACTION if is_observation(start) else COPY
    if direction == COMPACTION:
        ensure_known(start)
    target = str(Path(_other_name_of(source, direction) + (".gz" if compression == "gz" else "")))
    if direction == COPY and target == str(Path(source)):
        return Path(source)
    _ensure_name(source, target, direction == COMPACTION or is_compact(start), is_observation(start) and direction == COPY)
    return _do(source, target, Choices(direction, compression == "gz", verify, force, skip_strange_epochs, reinit_every_nth))
