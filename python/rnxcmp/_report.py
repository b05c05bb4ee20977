"""The check of RINEX."""

from __future__ import annotations

import re
from dataclasses import dataclass
from typing import TYPE_CHECKING, Dict, Optional

from ._calls import content_of, filled, output_of
from ._library import LIBRARY

if TYPE_CHECKING:
    from ._calls import Content


@dataclass(frozen=True)
class Report:
    """The report of a check.

    :ivar text: the report as the program writes it.
    :ivar is_standard: whether the file is restored byte for byte from its compact form.
    :ivar format: the version of the file's header.
    :ivar systems: the letters of its systems, each with its number of observation types.
    :ivar first_not_standard: the number of the first line that isn't standard, or None.
    """

    text: str
    is_standard: bool
    format: str
    systems: Dict[str, int]
    epochs: int
    events: int
    observations: int
    first_not_standard: Optional[int]


def check(data: Content) -> Report:
    """Checks RINEX 3.0x, and returns a report on its content and whether it is standard.

    :param data: bytes, a path, an open file, or a text: a ``str`` with a line end in it.
    :raises RnxcmpError: if the file isn't accepted.
    """
    content = content_of(data)
    text = output_of(filled(LIBRARY.rnxcmp_check, [content, len(content)], 4096)).decode("latin-1")
    found = dict(re.findall(r"^(\w+) ?(.*)$", text, re.M))
    systems = [] if found["systems"] == "none" else found["systems"].split()
    standard = found["standard"].split()
    return Report(
        text=text,
        is_standard=standard == ["yes"],
        format=found["format"],
        systems=dict(zip(systems[::2], map(int, systems[1::2]))),
        epochs=int(found["epochs"]),
        events=int(found["events"]),
        observations=int(found["observations"]),
        first_not_standard=int(standard[1]) if len(standard) == 2 else None,
    )
