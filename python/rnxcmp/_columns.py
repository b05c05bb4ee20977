"""The fields of an epoch line and of a satellite line by docs/FORMATS.md."""

import re
from typing import Dict, Iterable, Iterator, List, NamedTuple, Optional, Tuple

TYPES_LABEL = b"SYS / # / OBS TYPES"
Types = Dict[bytes, Tuple[int, List[str]]]  # of a system's letter: the number of its types, and their names


class Field(NamedTuple):
    """A field with its columns, which count from 1, a pattern of good texts, and the code of the error for any other text."""

    name: str
    first: int
    last: int
    good: bytes = b"(?!)"
    code: int = 0

    def text(self, line: bytes) -> bytes:
        """Returns the field's text in a line, as if blanks were after the line's end."""
        return line[self.first - 1 : self.last].ljust(self.last - self.first + 1)


_KEPT = rb"[ -%'-~]*"  # printable ASCII other than `&`
_EPOCH_FIELDS = (
    Field("flag", 32, 32, rb"[0-6]", 11), Field("count", 33, 35, rb" *[0-9]+ *", 11), Field("date and reserved columns", 1, 41, _KEPT, 11),
    Field("receiver clock offset", 42, 56, rb" *|(?: *-?[0-9]*\.[0-9]{12})", 12),
)  # fmt: skip
_FIXED = {
    3: Field("label", 61, 80), 4: Field("version", 1, 9), 5: Field("file type", 21, 21), 6: Field("letter and number of types", 1, 6),
    9: Field("label", 61, 80), 10: Field("first column", 1, 1), 13: Field("identifier", 1, 3), 14: Field("identifier", 1, 3),
}  # fmt: skip
_CODE = rb"(?:[0-9]&)?-?[0-9]{1,18}"
_COMPACT = {11: ("byte", rb"[^ -~]"), 12: ("clock", rb".+"), 15: ("code", rb"(?<![^ ])(?!%s(?![^ ]))[^ ]+" % _CODE), 18: ("byte", rb"[^ -~]")}


def shown(text: bytes) -> str:
    """Returns a text with `?` for each byte that isn't printable ASCII."""
    return "".join(chr(byte) if 32 <= byte <= 126 else "?" for byte in text)


def add_types(types: Types, lines: Iterable[bytes]) -> None:
    """Adds the types that the types lines among `lines` declare."""
    letter = b""
    for line in lines:
        if line[60:80].rstrip(b" ") == TYPES_LABEL:
            if line[:1] != b" ":
                letter, digits = line[:1], line[3:6].strip(b" ")
                types[letter] = (int(digits) if digits.isdigit() else 0, [])
            if letter:
                types[letter][1].extend(map(shown, line[6:58].split()))


def announced(line: bytes) -> Optional[int]:
    """Returns how many satellites an epoch line announces, or None if the line isn't an observation epoch's."""
    count = re.fullmatch(rb">.{30}[01] *([0-9]+) *", line[:35], re.S)
    return int(count[1]) if count else None


def fields_of(line: bytes, types: Types) -> Iterator[Field]:
    """Returns the fields of an epoch line or a satellite line."""
    if line[:1] == b">":
        yield from (*_EPOCH_FIELDS, Field("text after the clock offset", 57, max(57, len(line)), rb" *", 11))
        return
    count, names = types.get(line[:1], (0, []))
    for k in range(count):
        of = f"{names[k] if k < len(names) else k + 1} of {shown(line[:3])}"
        yield Field(f"observation {of}", 16 * k + 4, 16 * k + 17, rb" *|(?: *-?[0-9]*\.[0-9]{3})", 15)
        yield Field(f"loss of lock indicator {of}", 16 * k + 18, 16 * k + 18, _KEPT, 18)
        yield Field(f"signal strength indicator {of}", 16 * k + 19, 16 * k + 19, _KEPT, 18)
    yield Field("text after the last cell", 16 * count + 4, max(16 * count + 4, len(line)), rb" *", 15)


def field_of(line: bytes, code: int, is_compact: bool, types: Types) -> Optional[Field]:
    """Returns the field of an error in its line, or None if the line alone doesn't tell it."""
    if code in _FIXED and (code < 11 or not is_compact):
        return _FIXED[code]
    if not is_compact:
        return next((field for field in fields_of(line, types) if field.code == code and not re.fullmatch(field.good, field.text(line))), None)
    name, pattern = _COMPACT.get(code, ("", b"(?!)"))
    found = re.search(pattern, line, re.S)
    return Field(name, found.start() + 1, found.end()) if found else None
