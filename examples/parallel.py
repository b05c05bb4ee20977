#!/usr/bin/env python3
"""Expands one large file of compact text on many cores, to the same bytes as `rnxcmp crx2rnx` alone.

    parallel.py FILE.crx FILE.rnx               # by `rnxcmp` on the path, on all cores
    parallel.py -j 4 --program ./rnxcmp FILE.crx FILE.rnx

The file is cut where epochs in full begin: each such line begins with `>`, and so do an event's first line, after which its records are
counted off, and perhaps a record. A piece is expanded after the first two lines, the header, and the events so far that declare observation
types; what is written for these lines is left out again. That blocks stand alone so is proved (`blocks_stand_alone` in
crates/crx_laws/src/blocks.rt). A fault ends the output where it ends that of one run, with the same message; but faults can't be skipped (`-s`).
Pieces at work are kept in temporary files, in $TMPDIR, and each is copied to its place once it is known how long those before it are.
"""

import argparse
import mmap
import os
import re
import subprocess
import sys
import tempfile
from collections.abc import Iterator
from concurrent.futures import Future, ThreadPoolExecutor
from dataclasses import dataclass, field
from typing import Optional, Union

Text = Union[mmap.mmap, bytes]
END_OF_HEADER, TYPES = b"END OF HEADER", b"SYS / # / OBS TYPES"


@dataclass
class Piece:
    """A part of the file, from where to where, and the lines that it is expanded after, which are left out again but of the first."""

    start: int
    end: int
    front: bytes
    is_first: bool
    begins: Future  # where its text begins in the output; None where one before it failed
    ends: Future = field(default_factory=Future)


def label(line: bytes) -> bytes:
    """Columns 61 to 80 of a line, without the blanks at their end."""
    return line.removesuffix(b"\n").removesuffix(b"\r")[60:80].rstrip(b" ")


def lines_from(text: Text, at: int, count: int) -> int:
    """Where the line after so many lines begins."""
    for _ in range(count):
        at = text.find(b"\n", at) + 1 or len(text)
    return at


def header_end(text: Text) -> int:
    """Where the line after the header begins; where there is none, the text's end."""
    at = lines_from(text, 0, 2)
    while at < len(text):
        following = lines_from(text, at, 1)
        if label(text[at:following]) == END_OF_HEADER:
            return following
        at = following
    return at


def records_of(line: bytes) -> Optional[int]:
    """How many records an event's first line announces; nothing where a line begins no event."""
    if line[31:32] not in (b"2", b"3", b"4", b"5", b"6"):
        return None
    count = line[32:35].strip()
    return int(count) if count.isdigit() else 0


def pieces(text: Text, size: int) -> Iterator[Piece]:
    """The file in pieces of this size or more, but for the last."""
    start = at = header_end(text)
    front = text[:start]
    piece = Piece(start, start, front, True, Future())
    piece.begins.set_result(0)
    declared = []
    while at < len(text):
        if text[at : at + 1] == b">":
            following = lines_from(text, at, 1)
            records = records_of(text[at:following])
            if records is not None:
                end = lines_from(text, following, records)
                event = text[at:end]
                if any(label(line) == TYPES for line in event.split(b"\n")):
                    declared.append(event)
                at = end
                continue
            if at - piece.start >= size:
                piece.end = at
                yield piece
                piece = Piece(at, at, front + b"".join(declared), False, piece.ends)
        at = text.find(b"\n>", at) + 1 or len(text)
    piece.end = len(text)
    yield piece


def copy(source: int, first: int, output: int, at: int) -> None:
    """Copies a file from a place on into another."""
    size = os.fstat(source).st_size
    if size > first:
        with mmap.mmap(source, size, access=mmap.ACCESS_READ) as made, memoryview(made) as bytes_made:
            while first < size:
                count = os.pwrite(output, bytes_made[first:], at)
                first, at = first + count, at + count


def expand(program: str, text: Text, piece: Piece, output: int) -> tuple[int, bytes]:
    """Expands a piece to its place in the output, if all before it were expanded, and gives the exit status and the messages."""
    if piece.begins.done() and piece.begins.result() is None:
        return 1, b""
    words = [program, "crx2rnx"]
    with tempfile.TemporaryFile() as made, subprocess.Popen(words, stdin=subprocess.PIPE, stdout=made, stderr=subprocess.PIPE) as process:
        try:
            process.stdin.write(piece.front)
            with memoryview(text) as whole, whole[piece.start : piece.end] as part:
                process.stdin.write(part)
            process.stdin.close()
        except BrokenPipeError:
            pass  # a fault ended the run before its input's end
        messages = process.stderr.read()
        status = process.wait()
        made.seek(0)
        for _ in range(0 if piece.is_first else piece.front.count(b"\n") - 2):
            made.readline()
        first = made.tell()
        at = piece.begins.result()
        if at is None:
            return 1, b""
        piece.ends.set_result(at + os.fstat(made.fileno()).st_size - first if status == 0 else None)
        copy(made.fileno(), first, output, at)
    return status, messages


def work(program: str, text: Text, piece: Piece, output: int) -> tuple[int, bytes]:
    """The same; the pieces after it aren't written where anything went wrong."""
    try:
        return expand(program, text, piece, output)
    finally:
        if not piece.ends.done():
            piece.ends.set_result(None)


def renumbered(messages: bytes, added: int) -> bytes:
    """Messages with the numbers that their lines have in the whole file."""
    return re.sub(rb"(?m)^(\w+ line )(\d+)", lambda found: found[1] + str(int(found[2]) + added).encode(), messages)


def main() -> int:
    words = argparse.ArgumentParser(description=__doc__, formatter_class=argparse.RawDescriptionHelpFormatter)
    words.add_argument("file")
    words.add_argument("output", help="a file that isn't there yet")
    words.add_argument("-j", type=int, default=os.cpu_count(), metavar="JOBS", help="how many pieces are expanded at a time (all cores)")
    words.add_argument("--program", default="rnxcmp", help="the program (rnxcmp on the path)")
    words.add_argument("--size", type=int, default=1 << 22, help="bytes of compact text in a piece (4 MiB)")
    given = words.parse_args()
    with open(given.file, "rb") as file, open(given.output, "xb") as output, ThreadPoolExecutor(given.j) as jobs:
        size = os.fstat(file.fileno()).st_size
        text = mmap.mmap(file.fileno(), 0, access=mmap.ACCESS_READ) if size else b""
        parts = list(pieces(text, given.size))
        for piece, done in zip(parts, jobs.map(lambda piece: work(given.program, text, piece, output.fileno()), parts)):
            status, messages = done
            if status:
                lines_before = text[: piece.start].count(b"\n") - piece.front.count(b"\n")
                sys.stderr.buffer.write(messages if piece.is_first else renumbered(messages, lines_before))
                return status
    return 0


if __name__ == "__main__":
    sys.exit(main())
