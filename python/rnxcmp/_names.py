"""Names of files: the names of outputs, and names as messages write them."""

from __future__ import annotations

import os
import re
from itertools import groupby

TYPE_CHECKING = False
if TYPE_CHECKING:
    from typing import Optional

_PACKED = re.compile(r"\.(?:gz|GZ|z|Z|(bz2|BZ2|xz|XZ|zip|ZIP))\Z")
_FORMS = {"rnx2crx": (("rnx", "crx"), ("o", "d")), "crx2rnx": (("crx", "rnx"), ("d", "o"))}


def is_packed(name: str) -> bool:
    """Returns whether a name is that of a packed file."""
    return _PACKED.search(name) is not None


def is_only_read(name: str) -> bool:
    """Returns whether a name is that of a file in a packing that is read but not written."""
    found = _PACKED.search(name)
    return bool(found and found[1])


def unpacked_name(name: str) -> str:
    """Returns a name without the extension of packed files."""
    return _PACKED.sub("", name)


def other_name(name: str, direction: str) -> Optional[str]:
    """Returns the name of an unpacked file with the extension of the other form (`.rnx`, or two digits and `o`, in either case), or None if
    it has neither."""
    (word, other_word), (letter, other_letter) = _FORMS[direction]
    found = re.fullmatch(rf"(.*[^/]\.)({word}|{word.upper()})|(.*[^/]\.[0-9][0-9])([{letter}{letter.upper()}])", name, re.S)
    if not found:
        return None
    before, old, new = (found[1], found[2], other_word) if found[1] else (found[3], found[4], other_letter)
    return before + (new.upper() if old.isupper() else new)


def is_named_as_input(name: str, direction: str) -> bool:
    """Returns whether a file is named as the inputs of a direction are. If an output were, it could be taken for an input."""
    return other_name("_" + unpacked_name(os.path.basename(name).lower()), direction) is not None


def _escaped(name: str) -> str:
    """Returns characters that can't be printed, with three octal digits or a letter for each byte."""
    letters = {7: "\\a", 8: "\\b", 9: "\\t", 10: "\\n", 11: "\\v", 12: "\\f", 13: "\\r"}
    return "".join(letters.get(byte, f"\\{byte:03o}") for byte in os.fsencode(name))


def _is_plain(name: str) -> bool:
    """Returns whether a shell reads a name as it is."""
    return name.isprintable() and not re.search(r"^$|^[#~]|^[{}]$|[\s!\"$&'()*;<=>?\[\\^`|]", name)


def quoted(name: str) -> str:
    """Returns a name as ``ls`` writes it on a terminal: as it is, or if need be quoted, in one line that a shell reads as the name."""
    if _is_plain(name):
        return name
    if "'" in name and _is_plain(re.sub("[' ]", "_", name)) and not re.search("[{}]", name):
        return f'"{name}"'
    text = "'"
    for printable, run in groupby(name, str.isprintable):
        piece = "".join(run)
        text += piece.replace("'", "'\\''") if printable else f"'$'{_escaped(piece)}''"
    return text[:-1] if name and not name[-1].isprintable() else text + "'"
