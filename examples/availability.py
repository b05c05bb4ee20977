#!/usr/bin/env python3
"""Prints which satellites a file has over time, a line a satellite, `*` where it is there in most epochs of a column and `.` in some:
availability.py FILE (RINEX or Compact RINEX, in gzip or not)"""

import sys

import rnxcmp

COLUMNS = 72


def satellites(text: bytes) -> "list[set[str]]":
    """The satellites of each epoch."""
    epochs: "list[set[str]]" = []
    lines = iter(text[text.index(b"END OF HEADER") :].splitlines()[1:])
    for line in lines:
        rows = [next(lines) for _ in range(int(line[32:35].strip() or 0))]
        if line[31:32] in (b"0", b"1"):
            epochs.append({row[:3].decode("ascii") for row in rows})
    return epochs


def main(name: str) -> None:
    epochs = satellites(rnxcmp.decompress(name))
    size = max(1, -(-len(epochs) // COLUMNS))
    columns = [epochs[at : at + size] for at in range(0, len(epochs), size)]
    for satellite in sorted(set().union(*epochs)):
        shares = [sum(satellite in epoch for epoch in column) / len(column) for column in columns]
        print(satellite, "".join("*" if share > 0.5 else "." if share else " " for share in shares).rstrip())


if __name__ == "__main__":
    main(sys.argv[1])
