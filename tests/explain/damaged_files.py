"""Damage that is planted into good files, so that its place is known, and what `explain` says of it."""

import random
import sys
import time

from explained import TOP, compacted, named_by, package, sample

sys.path.insert(0, str(TOP / "tests"))
import texts as generate  # noqa: E402

SECONDS = 0.5  # of processor that an explanation may take
NEAR = b"0123456789 .-&>GRECx\t\x00\xc8"


def good_files(program, seed):
    """Good files with their directions: the sample, and small random ones, both as RINEX and as compact text."""
    rng = random.Random(seed)
    files = [("rnx2crx", sample()), ("crx2rnx", compacted(program, sample()))]
    for _ in range(20):
        made = generate.units(rng)
        files += [("rnx2crx", generate.rinex(made)), ("crx2rnx", generate.compact(rng, made))]
    return files


def with_other_byte(rng, text):
    """A text with one byte changed, no line end among them: the text, the line and the column."""
    while True:
        at, new = rng.randrange(len(text)), rng.choice(NEAR)
        if new != text[at] and text[at] not in b"\r\n":
            return text[:at] + bytes([new]) + text[at + 1 :], text.count(b"\n", 0, at) + 1, at - text.rfind(b"\n", 0, at)


def without_line_end(rng, text):
    """A text that is cut off so that its last byte is no LF."""
    while True:
        cut = text[: rng.randrange(1, len(text))]
        if not cut.endswith(b"\n"):
            return cut


def damaged(rng, text):
    """A damaged text, and the line and column of the damage where that is one byte: bytes, lines, cuts, several at once, damaged and cut."""
    kind = rng.randrange(10)
    if kind < 4:
        new, line, column = with_other_byte(rng, text)
        return new, (line, column)
    if kind == 4:
        return without_line_end(rng, text), None
    if kind < 8:
        return generate.damaged(rng, text), None
    other = with_other_byte(rng, text)[0]
    return (with_other_byte(rng, other)[0] if kind == 8 else without_line_end(rng, other)), None


def field_is_known(direction, found, place, data):
    """Whether the field of a single changed byte is to be named: the error is in its line, and it made that field bad by itself."""
    if place is None or not found or found.line != place[0] or not found.code:
        return False
    if direction == "crx2rnx":
        return found.code == 15 and data.split(b"\n")[place[0] - 1][place[1] - 1 : place[1]] != b" "
    return found.code in (4, 5, 11, 12, 13, 15, 18) and not (found.code == 15 and place[1] == 1)


def one(program, direction, data, place):
    """Explains one damaged file, and compares with the program and with the place of the damage: what is wrong."""
    begun = time.process_time()
    found = package().explain(data, direction=direction)
    seconds = time.process_time() - begun
    wrong = [f"it took {seconds:.2f} seconds of processor"] if seconds > SECONDS else []
    said, named = (found.line, found.code) if found and found.code else None, named_by(program, data, direction)
    if said != named:
        wrong.append(f"{said} is explained, and the program names {named}")
    if named is None:
        is_said = found is not None and found.may_be_cut_off and "the file may be cut off" in str(found)
        if is_said == data.endswith(b"\n"):
            wrong.append(f"that it is cut off is said: {is_said}")
    line = (data.split(b"\n") + [b""])[found.line - 1] if found else b""
    if found and found.text not in (line, line[:-1] if line.endswith(b"\r") else line):
        wrong.append(f"line {found.line} is {line!r}, not {found.text!r}")
    if field_is_known(direction, found, place, data) and not (found.columns and found.columns[0] <= place[1] <= found.columns[1]):
        wrong.append(f"{place} is damaged, and {found.columns} {found.field} of line {found.line} code {found.code} is named")
    return wrong


def run(program, count, cuts, seed):
    """Explains so many damaged files, and so many that are cut off: what is wrong."""
    rng, wrong, files = random.Random(seed), [], good_files(program, seed)
    for number in range(count + cuts):
        direction, text = files[rng.randrange(2) if number % 2 else rng.randrange(len(files))]
        data, place = damaged(rng, text) if number < count else (without_line_end(rng, text), None)
        try:
            found = one(program, direction, data, place)
        except Exception as error:
            found = [repr(error)]
        wrong += [f"seed {seed} file {number}: {line}" for line in found]
    return wrong
