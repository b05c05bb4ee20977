"""Calls of rnxcmp-file, each a row: the files at the start, the words, the status, texts on standard output and standard error, the files that
are made, the names in `list`, and a script that changes the tool first. Every file of the start that isn't to be replaced or gone stays as it
is, and no temporary file is left."""

import bz2
import gzip
import io
import lzma
import os
import shlex
import signal
import zipfile
from functools import reduce

from place import DATE, GOOD, TOP, Place, changed_epoch, differs, marked, padded, state_of, unpacked

FOLDER, PIPE = object(), object()
PACKED, STRANGE = gzip.compress(GOOD), changed_epoch(GOOD)
HEADER, EPOCHS = GOOD[: GOOD.index(b"\n>") + 1], GOOD[GOOD.index(b"\n>") + 1 :]
EVENT = b">%30s6  1\n>%30s0  1\n" % (b"", b"")  # its record looks like an epoch
A, B, P, S, BAD = ({name: content} for name, content in (("a.rnx", GOOD), ("b.rnx", GOOD), ("p.rnx", padded(GOOD)), ("s.rnx", STRANGE), ("bad.rnx", b"x\n")))
LONG = "\u00e9" * 125 + "x"  # 251 bytes


def compressed(text, *more):
    """A text in the form of `compress`, by codes of nine bits for its bytes, and some codes more. Each 248th code makes the table empty."""
    codes = [code for at in range(0, len(text), 247) for code in (*text[at : at + 247], 256)]
    bits = sum(code << 9 * k for k, code in enumerate([*codes, *more]))
    return b"\x1f\x9d\x90" + bits.to_bytes(-(-9 * (len(codes) + len(more)) // 8), "little")


def zipped(**files):
    """A zip with these files."""
    held = io.BytesIO()
    with zipfile.ZipFile(held, "w", zipfile.ZIP_DEFLATED) as file:
        for name, content in files.items():
            file.writestr(name, content)
    return held.getvalue()


def row(files, words, status=0, out=(), err=(), made=(), listed=None, replaced=(), gone=(), script=""):
    return files, shlex.split(words), status, (out,) if isinstance(out, str) else out, (err,) if isinstance(err, str) else err, made, listed, replaced, gone, script


def names_of_outputs(texts):
    for name, words, output, packed in (
        ("a.rnx", "", "a.crx", 0), ("a.RNX", "", "a.CRX", 0), ("a.24o", "", "a.24d", 0), ("a.24O", "", "a.24D", 0), ("a.rnx.gz", "", "a.crx.gz", 1), ("a.24o.GZ", "", "a.24d.gz", 1), ("a.rnx", "--gzip", "a.crx.gz", 1),
        ("a.rnx.gz", "--no-gzip", "a.crx", 0), ("a.rnx", "-o 'b c.gz'", "b c.gz", 1), ("a.rnx.gz", "-o b", "b", 0), ("a.rnx", "-o b --gzip", "b", 1), ("a.rnx", "-o b.gz --no-gzip", "b.gz", 0), ("x", "-oy.crx", "y.crx", 0),
    ):  # fmt: skip
        quoted = f"'{output}'" if " " in output else output
        content = PACKED if name.lower().endswith(".gz") else GOOD
        yield row({name: content}, f"rnx2crx {name} {words} --date '{DATE}'", 0, f"made {quoted}", (), {output: (texts.plain_compact, bool(packed))})
    for name, quoted in (("{", "'{'"), ("x\n", r"'x'$'\n'")):
        yield row(A, f"rnx2crx a.rnx -o '{name}'", 0, f"made {quoted}\n", (), (name,))


def choices(texts):
    for words, given in (("-e 2 --date x", ("-e", "2", "--date", "x")), ("-e2 --date=", ("-e", "2", "--date", "")), (f"--date {'x' * 20}", ("--date", "x" * 20))):
        yield row(A, f"rnx2crx {words} a.rnx --verify", 0, "verified exact", (), {"a.crx": (texts.filtered(GOOD, "rnx2crx", *given), False)})
    yield row(A, "--version", 0, f"rnxcmp-file {(TOP / 'VERSION').read_text()}")
    yield row(A, "rnx2crx -h a.rnx", 0, "usage: rnxcmp-file rnx2crx [options] INPUT..\n")
    yield row({**A, **B}, "rnx2crx -j 256 -e 1000000 a.rnx b.rnx", 0, "2 files: 2 made", (), ("a.crx", "b.crx"))
    yield row(A, "rnx2crx -q a.rnx", 0, "7 8000 9000000 10000000000\n", (), ("a.crx",), script="import rnxcmp.files\nprint(*map(rnxcmp.files._size_of, ('7', '8k', '9M', '10G')))")
    length = len(texts.filtered(GOOD, "rnx2crx", "--date", ""))
    too_long = "a.rnx: ERROR: the output is longer than it may be"
    for size, status in ((length, 0), (length - 1, 1), ("1k", 1), ("1M", 0), ("1G", 0)):
        yield row(A, f"rnx2crx --verify --date '' --max-output {size} a.rnx", status, (), too_long if status else (), () if status else ("a.crx",))
    for size, status in ((len(GOOD), 0), (len(GOOD) - 1, 1)):
        yield row({"a.crx": texts.plain_compact}, f"crx2rnx --max-output {size} a.crx", status, (), too_long.replace("rnx:", "crx:") if status else (), () if status else ("a.rnx",))
    for words, count, lines, more in (("", 8, 3, ["a.rnx: WARNING: 5 more; -v prints all\n"]), ("-v", 8, 8, []), ("", 3, 3, [])):
        text, said = reduce(changed_epoch, range(count), GOOD), ["a.rnx: WARNING line "] * lines + more
        yield row({"a.rnx": text}, f"rnx2crx -s {words} a.rnx", 2, f"made a.crx, not verified: {count} warnings", said, ("a.crx",))


REFUSED = (
    ("", "rnx2crx or crx2rnx is missing"), ("pack a.rnx", "neither rnx2crx nor crx2rnx"), ("'pa\nck' a.rnx", r"explain: 'pa'$'\n''ck'"), ("rnx2crx", "the input is missing"), ("rnx2crx ''", "an empty name"),
    ("rnx2crx a.rnx -o ''", "an empty name"), ("rnx2crx a.rnx -o -", "only crx2rnx -o - writes to standard output"), ("rnx2crx a.rnx --verified-to -", "only crx2rnx -o - writes to standard output"),
    *((f"crx2rnx a.crx -o - {more}", "-o - makes no file") for more in ("--verify", "--verified-to l", "-f", "--new", "--json")), ("rnx2crx a.rnx -o c --to d", "-o names one output"),
    *((f"rnx2crx a.rnx {more}", "an empty name") for more in ("--verified-to ''", "--to ''", "--to d --from ''")), *((f"rnx2crx {name}", "no output name") for name in (".rnx", "folder.rnx/.24o", "a.4o")),
    ("rnx2crx lzh.rnx", "compression not supported: .Z (LZH)"), ("rnx2crx --to /proc/x a.rnx", "cannot make the folder of /proc/x/a.crx: No such file"),
    ("rnx2crx -j 2 a.rnx -o c", "goes without -j"), ("rnx2crx -j 0 a.rnx", "from 1 to 256"), ("rnx2crx -j 257 a.rnx", "from 1 to 256"), ("rnx2crx --new -f a.rnx", "--new passes over"),
    ("rnx2crx --from . a.rnx", "--from belongs to --to"), ("rnx2crx --to out /a.rnx", "--to needs --from FOLDER"), ("rnx2crx --to out ../a.rnx", "--to needs --from FOLDER"), ("rnx2crx --to out --from folder.rnx a.rnx", "a.rnx isn't below"),
    ("rnx2crx -j 2 a.rnx ./a.rnx", "these have one output: a.rnx and ./a.rnx"), ("check -f a.rnx", "check takes only -j, --json, -q and --inputs"), ("rnx2crx a.rnx -o b.crx.bz2", "an output is packed by gzip only"),
    ("rnx2crx a.rnx b.rnx -o c", "-o names one output"), ("crx2rnx a.rnx -e 2", "belong to rnx2crx"), ("crx2rnx a.rnx --date x", "belong to rnx2crx"), ("rnx2crx a.rnx -e 0", "from 1 to 1000000"),
    ("rnx2crx a.rnx -e 1000001", "from 1 to 1000000"), ("rnx2crx a.rnx -e x", "from 1"), (f"rnx2crx a.rnx -e {'9' * 5000}", "from 1 to 1000000"), (f"rnx2crx a.rnx --date {'x' * 21}", "bad date"),
    ("rnx2crx a.rnx --date \u00e9", "bad date"), ("rnx2crx a.rnx --date 'a\tb'", "bad date"), ("rnx2crx a.rnx --gzip --no-gzip", "not allowed"), ("rnx2crx a.rnx --ver", "unrecognized arguments: --ver;"),
    ("rnx2crx a.rnx '--\x1b[31m' \"--x'y\"", r"""unrecognized arguments: '--'$'\033''[31m' "--x'y";"""), ("rnx2crx a.rnx --normal-form", "belongs to --verified-to"), ("rnx2crx a.rnx --accept-cut", "belongs to --verified-to"),
    *((f"rnx2crx a.rnx --max-output {size}", "the size of --max-output") for size in ("0", "x", "1m", "-1", "9" * 20)), ("rnx2crx a.rnx --delete", "--delete is no longer an option: no input is ever removed"),
    ("rnx2crx -d a.rnx", "-d is no longer an option: no input is ever removed"), ("rnx2crx .", "this is a folder, not a file"), ("rnx2crx folder.rnx", "this is a folder, not a file"), ("rnx2crx a.txt", "no output name"),
    ("rnx2crx . -o b", "this is a folder"), ("rnx2crx a.rnx -o b.24o.gz", "named as an input"), ("crx2rnx a.crx -o folder.rnx/.CRX", "named as an input"), ("rnx2crx pipe.rnx", "no regular file"),
    ("rnx2crx none.rnx", "none.rnx: ERROR: cannot read this file: No such file"), ("rnx2crx a.rnx -o no/b", "cannot write next to no/b: No such file"), ("rnx2crx a.rnx -o a.rnx/b", "cannot look at a.rnx/b: Not a directory"),
    ("rnx2crx a.rnx -o pipe", "the output is no regular file: pipe"), ("rnx2crx -f a.rnx -o pipe", "the output is no regular file: pipe"), ("rnx2crx a.rnx -o dangling", "a link to nothing"), ("rnx2crx empty.rnx", "ERROR line 1 code 3"),
    ("rnx2crx a.bz2.rnx", "the packed text is "), ("rnx2crx zstd.rnx", "zstd"), ("rnx2crx round", "no output name"), ("rnx2crx a.rnx -o round", "cannot look at round: Too many levels of symbolic links"), ("rnx2crx --inputs half", "doesn't end in a NUL: half"),
    ("rnx2crx --inputs none", "cannot read the list of inputs none: No such file"), ("rnx2crx --inputs .", "cannot read the list of inputs .: Is a directory"), ("explain -f a.rnx", "explain takes only --json and --inputs"),
)  # fmt: skip
AT_START = {
    **A, "empty.rnx": b"", "a.bz2.rnx": b"BZh91AY", "zstd.rnx": b"\x28\xb5\x2f\xfd", "lzh.rnx": b"\x1f\xa0 a file", "folder.rnx": FOLDER, "pipe.rnx": PIPE, "pipe": PIPE, "dangling": "nothing", "round": "round", "half": b"a b.rnx\0c\nd.rnx",
}  # fmt: skip


def refusals(texts):
    for words, said in REFUSED:
        yield row(AT_START, words, 1, (), said)


def lists(texts):
    four = {**A, **P, **S, **BAD}
    for more, listed in (("", ["a.rnx"]), ("--normal-form", ["a.rnx", "p.rnx"])):
        said = ["4 files: 3 made, 0 replaced, 0 there already, 1 errors", "verified: 1 exact, 1 normal form", "with skipped epochs: 1"]
        yield row(four, f"rnx2crx -s --verified-to list {more} {' '.join(four)}", 1, said, ["bad.rnx: ERROR line 1 code 3", "s.rnx: WARNING line", "s.rnx: WARNING: not verified"], ("a.crx", "p.crx", "s.crx", "list"), listed)
    there = {**S, "s.crx": texts.filtered(STRANGE, "rnx2crx", "-s")}
    yield row(there, "rnx2crx -s --verified-to list --normal-form s.rnx", 2, "s.crx is there already, not verified: 1 warnings", ("s.rnx: WARNING: not verified, because epochs were skipped\n", "s.rnx: WARNING line"), ("list",), [])
    yield row({**A, "sub": FOLDER}, "rnx2crx a.rnx --verified-to sub/l -osub/b", 0, "made sub/b, verified exact", (), ("sub/b", "sub/l"))
    for name in ("taken", "pipe", "folder.rnx", "dangling", "a.rnx"):
        yield row({**AT_START, "taken": b""}, f"rnx2crx -f --verified-to {name} a.rnx", 1, (), f"{name}: ERROR: file exists\n")
    yield row(A, "rnx2crx -f --verified-to a.crx a.rnx", 1, "made a.crx, verified exact", "a.crx: ERROR: another file has got its name\n", ("a.crx",))
    names = {"a b.rnx": GOOD, "c\nd.rnx": GOOD, "one": b"a b.rnx\0", "two": b"c\nd.rnx\0a b.rnx\0", "none": b""}
    yield row(names, "rnx2crx -q --inputs one --inputs two --verified-to list", 0, "3 files: 2 made, 0 replaced, 1 there already", (), ("a b.crx", "c\nd.crx", "list"), ["a b.rnx", "c\nd.rnx"])
    yield row(names, "rnx2crx --inputs none", 0, "0 files: 0 made")
    yield row({"\udcff.rnx": GOOD, "one": b"\xff.rnx\0"}, "rnx2crx --verified-to list --inputs one", 0, "verified exact", (), ("\udcff.crx", "list"), ["\udcff.rnx"])
    yield row({f"{LONG}.rnx": GOOD}, f"rnx2crx --verified-to {LONG}list {LONG}.rnx", 0, "verified exact", (), (f"{LONG}.crx", f"{LONG}list"))
    yield row({f"{LONG}.rnx": GOOD}, f"rnx2crx --gzip {LONG}.rnx", 1, (), f"cannot look at {LONG}.crx.gz: File name too long\n")
    yield row({f"{LONG}.rnx": GOOD}, f"rnx2crx --verified-to {LONG}listlist {LONG}.rnx", 1, (), "File name too long\n", (f"{LONG}.crx",))
    three = {"a.rnx": marked(GOOD, 1), "a.rnx.gz": gzip.compress(marked(GOOD, 2)), "a.rnx.GZ": gzip.compress(marked(GOOD, 3))}  # with one output
    yield row(three, "rnx2crx -f --no-gzip --verified-to list a.rnx a.rnx.gz a.rnx.GZ", 1, (), "list: ERROR: 2 files changed after they were verified", ("a.crx", "list"), ["a.rnx.GZ"])


def cut_files(texts):
    """An input whose last line has no LF is named, also if it ends in CR; the list has it only with --accept-cut."""
    compact = texts.plain_compact
    for direction, name, content in (
        *(("rnx2crx", "a.rnx", text) for text in (GOOD[:-9], GOOD.replace(b"\n", b"\r\n")[:-1], GOOD[:-1] + b"\r")), ("rnx2crx", "a.rnx.gz", gzip.compress(GOOD[:-9])),
        *(("crx2rnx", "a.crx", text) for text in (compact[:-1], compact.replace(b"\n", b"\r\n")[:-1])), ("crx2rnx", "a.crx.gz", gzip.compress(compact[:-1])),
    ):  # fmt: skip
        output = name.replace("rnx", "c_x").replace("crx", "rnx").replace("c_x", "crx")
        said = f"{name}: WARNING: the last line has no line end: the file may be cut off\n"
        for more, listed in (("", []), ("--accept-cut", [name])):
            yield row({name: content}, f"{direction} --normal-form --verified-to list {more} {name}", 0, ("made", "verified "), said, (output, "list"), listed)
        yield row({name: content}, f"{direction} --json {name}", 0, '"may_be_cut_off": true', said, (output,))


def ways_back(texts):
    """A copied line that ends in two CRs isn't verified, though it is converted. A date that can't be written again isn't *exact*."""
    event = b">%30s4  1\nA COMMENT%51sCOMMENT\r\r\n" % (b"", b"")
    for direction, name, output, text in (
        *(("rnx2crx", "a.rnx", "a.crx", text) for text in (GOOD.replace(b"END OF HEADER\n", b"END OF HEADER       \r\r\n"), GOOD + event, GOOD + event[:-1])),
        ("crx2rnx", "a.crx", "a.rnx", texts.plain_compact + event),
    ):  # fmt: skip
        said = f"{output}: a line of the input ends in two CRs"
        yield row({name: text}, f"{direction} --verify {name}", 1, (), f"ERROR: not verified, so nothing was made: {said}")
        yield row({name: text, output: texts.filtered(text, direction)}, f"{direction} --verify {name}", 1, (), f"ERROR: not verified: {said}")
        if text.endswith(b"\n"):
            yield row({name: text, output: texts.filtered(text, direction)}, f"{direction} {name}", 0, f"{output} is there already")
            yield row({name: text}, f"{direction} {name}", 0, f"made {output}", (), (output,))
    first, second, rest = texts.plain_compact.split(b"\n", 2)
    for date in (b"01-Jan-24 00:00\xe9", b"\t1-Jan-24", b"\x7f" * 20):
        text = b"\n".join([first, second[:40] + date.ljust(20) + second[60:], rest])
        yield row({"a.crx": text}, "crx2rnx --verified-to list a.crx", 0, "made a.rnx, verified normal form", (), ("a.rnx", "list"), [])
        yield row({"a.crx": text, "a.rnx": GOOD}, "crx2rnx --verify a.crx", 0, "a.rnx is there already, verified normal form")
    for date in (b"x" * 20, b" 1-Jan-24 00:00"):
        yield row({"a.crx": b"\n".join([first, second[:40] + date.ljust(20) + second[60:], rest])}, "crx2rnx --verify a.crx", 0, "made a.rnx, verified exact", (), ("a.rnx",))
    base = HEADER + EPOCHS * ((1 << 18) // len(EPOCHS) - 1)
    for before in (1, 2):  # that many of the bytes are in one piece of 256 KiB, the others in the next
        count, last = divmod((1 << 18) - before - len(base) - 36, 61)
        text = base + b">%30s4%3d\n" % (b"", count + 1) + (b"x" * 60 + b"\n") * count + b"x" * last + b"\r\r\n"
        yield row({"a.rnx": text}, "rnx2crx --verify a.rnx", 1, (), "a line of the input ends in two CRs")


def links(texts):
    """An input may be a link; an output that is a link is followed to be compared, and is itself replaced by -f."""
    far = {"far": FOLDER, "far/a.rnx": GOOD, "far/a.crx": texts.plain_compact, "far/b.crx": texts.filtered(marked(GOOD, 5), "rnx2crx"), "soft.rnx": "far/a.rnx"}
    yield row(far, "rnx2crx --verified-to list soft.rnx", 0, "made soft.crx, verified exact", (), ("soft.crx", "list"), ["soft.rnx"])
    deep = {"far": FOLDER, "far/in": FOLDER, "far/a.rnx": GOOD, "link": "far/in"}
    yield row(deep, "rnx2crx --verified-to list -o b.crx link/../a.rnx", 0, "made b.crx, verified exact", (), ("b.crx", "list"), ["link/../a.rnx"])
    yield row({**far, "soft.crx": "far/a.crx"}, "rnx2crx --verify soft.rnx", 0, "soft.crx is there already, verified exact")
    yield row({**far, "soft.crx": "nothing"}, "rnx2crx --new soft.rnx", 0, "soft.crx is there already, passed over")
    for target, status in (("far/b.crx", 0), ("far/a.rnx", 1), ("nothing", 0)):
        out, err = ((), "the output is the input: soft.crx") if status else ("soft.crx, verified exact", ())
        yield row({**far, "soft.crx": target}, "rnx2crx -f --verify soft.rnx", status, out, err, replaced=() if status else ("soft.crx",))


def texts_that_end_elsewhere(texts):
    """An output with an epoch less than the input, or one more, or with a header alone, holds something else."""
    header, *epochs = GOOD.split(b"\n>")
    three, four = (b"\n>".join([header, *epochs[:count]]) + b"\n" for count in (3, 4))
    for source, there in ((three, four), (four, three), (three, HEADER), (HEADER, three)):
        for words in ("", "--verify"):
            yield row({"a.rnx": source, "a.crx": texts.filtered(there, "rnx2crx")}, f"rnx2crx {words} a.rnx", 1, (), "holds something else: a.crx")
            yield row({"a.crx": texts.filtered(source, "rnx2crx"), "a.rnx": there}, f"crx2rnx {words} a.crx", 1, (), "holds something else: a.rnx")


def packs(texts):
    """gzip of several members with zeros between and after them, `.Z`; packs that are cut off, damaged, or followed by other bytes."""
    half = len(GOOD) // 2
    members, squeezed = gzip.compress(GOOD[:half]) + gzip.compress(b"") + bytes(9) + gzip.compress(GOOD[half:]), compressed(GOOD)
    for content in (members, members + bytes(300000), gzip.compress(GOOD + EPOCHS * 600)):
        yield row({"a.rnx.gz": content}, "rnx2crx --verify a.rnx.gz", 0, "verified ", (), ("a.crx.gz",))
    for content in (PACKED[:-9], PACKED[:-1], PACKED[:3000] + b"\0\0\0" + PACKED[3003:], PACKED + b"more", PACKED + PACKED[:40], PACKED[:-8] + b"abcd" + PACKED[-4:]):
        yield row({"a.rnx.gz": content}, "rnx2crx --verify a.rnx.gz", 1, (), "a.rnx.gz: ERROR: the packed text is ")
    yield row({"a.rnx.Z": squeezed}, "rnx2crx --verify a.rnx.Z", 0, "a.crx.gz, verified exact", (), ("a.crx.gz",))
    yield row({"a.crx": texts.plain_compact, "a.rnx.Z": squeezed}, "crx2rnx --verify a.crx -o a.rnx.Z", 0, "a.rnx.Z is there already, verified exact")
    for content in (squeezed[: len(squeezed) // 2], compressed(GOOD, 500, 500)):
        yield row({"a.rnx.Z": content}, "rnx2crx --verify a.rnx.Z", 1, (), "a.rnx.Z: ERROR")


def archives(texts):
    """check, several files at once, a folder for the outputs, --new, standard output, and other packings."""
    bad = {**A, **P, **BAD, "c.rnx": GOOD[:-1], "a.crx": texts.plain_compact, "z.crx.gz": gzip.compress(texts.plain_compact[:-400])}
    for words in ("", "-j 3"):
        said = ["bad.rnx: ERROR line 1 code 3", "c.rnx: WARNING: the last line has no line end", "z.crx.gz: ERROR line"]
        yield row(bad, f"check {words} {' '.join(bad)}", 1, "6 files: 4 valid, 1 of them may be cut off, 2 errors\n", said)
        yield row(bad, f"check {words} -q a.rnx c.rnx", 2, (), said[1])
        yield row(bad, f"check {words} -q a.rnx p.rnx a.crx")
        json = ['"input": "a.crx", "state": "good", ', '"compact": true, "format": "3.05", "epochs": 20, "events": 0,', '"standard": true', '"input": "bad.rnx", "state": "error", ', '"line": 1, "code": 3', '"input": "p.rnx"', '"standard": false']
        yield row(bad, f"check {words} --json a.crx bad.rnx p.rnx", 1, json, said[0])
        yield row(bad, f"check {words} --json c.rnx", 2, ['"state": "cut off"', '"may_be_cut_off": true'], said[1])
    members = gzip.compress(texts.plain_compact[:40]) + gzip.compress(texts.plain_compact[40:])
    yield row({"a.crx.gz": members}, "check -q a.crx.gz")
    deep = {"in": FOLDER, "in/d": FOLDER, "in/d/a.rnx": GOOD, "in/b.rnx": marked(GOOD, 2), "in/s.rnx": STRANGE, "in/bad.rnx": b"x\n"}
    made = ("out", "out/d", "out/d/a.crx.gz", "out/b.crx.gz", "list")
    for words in ("", "-j 2", "-j"):
        said = ["in/s.rnx: ERROR line", "in/bad.rnx: ERROR line 1 code 3"]
        yield row(deep, f"rnx2crx --gzip {words} --to out --from in --verified-to list in/d/a.rnx in/b.rnx in/s.rnx in/bad.rnx", 1, "4 files: 2 made", said, made, ["in/d/a.rnx", "in/b.rnx"])
        there = {**deep, "in/d/a.crx": b"anything"}
        yield row(there, f"rnx2crx --new {words} --verified-to list in/d/a.rnx in/b.rnx", 0, ["in/d/a.crx is there already, passed over", "0 there already, 1 passed over, 0 errors"], (), ("in/b.crx", "list"), ["in/b.rnx"])
    yield row(deep, "rnx2crx --to out/in in/d/a.rnx", 0, "made out/in/in/d/a.crx", (), ("out", "out/in", "out/in/in", "out/in/in/d", "out/in/in/d/a.crx"))
    yield row({"a.crx": gzip.compress(texts.plain_compact)}, "crx2rnx a.crx -o -", 0, GOOD.decode())
    for ending, packed in (("bz2", bz2.compress(GOOD[:900]) + bz2.compress(GOOD[900:])), ("xz", lzma.compress(GOOD)), ("zip", zipped(**{"d/": b"", "d/a": GOOD}))):
        yield row({f"a.rnx.{ending}": packed}, f"rnx2crx --verify a.rnx.{ending}", 0, "made a.crx.gz, verified exact", (), ("a.crx.gz",))
        for cut in (packed[:-30], packed[:400], packed[:300] + b"abcd" + packed[304:], packed[:300] + packed[305:]):
            yield row({f"a.rnx.{ending}": cut}, f"rnx2crx a.rnx.{ending}", 1, (), f"a.rnx.{ending}: ERROR: the packed text is ")
    for name in (b"\xc3\xff", b"\0\0"):  # in place of the name in a zip
        packed = zipped(**{"\u00e9": GOOD}).replace("\u00e9".encode(), name)
        yield row({"a.rnx.zip": packed, **B}, "rnx2crx a.rnx.zip b.rnx", 1, "made b.crx", "a.rnx.zip: ERROR: the packed text is damaged: ", ("b.crx",))
    for content, count in ((zipped(a=GOOD, b=GOOD), 2), (zipped(**{"a/": b""}), 0)):
        yield row({"a.rnx.zip": content}, "rnx2crx a.rnx.zip", 1, (), f"a zip with {count} files, not one")
    for ending, packed in (("bz2", bz2.compress(GOOD)), ("xz", lzma.compress(GOOD))):  # a disk that can't be read, and a Python without a module
        for script, said in (("os.dup = lambda _: os.open('/proc/self/mem', 0)", "cannot read this file: Input/output error"), ("sys.modules['bz2'] = None", "import of bz2 halted")):
            yield row({f"a.rnx.{ending}": packed, **B}, f"rnx2crx a.rnx.{ending} b.rnx", 1, "made b.crx", f"a.rnx.{ending}: ERROR: {said}", ("b.crx",), script=script)


def no_epoch(texts):
    """With -s it is an error if no epoch is accepted; a header alone has no fault."""
    none, one = "ERROR: no epoch is left, so nothing is written; line ", EPOCHS[: EPOCHS.index(b"\n>") + 1]
    yield row({"a.rnx": HEADER + b"> x\n> y\n"}, "rnx2crx -s a.rnx", 1, (), (f"{none}32 code 11: ", "WARNING line 32", "WARNING line 33"))
    yield row({"a.rnx": HEADER + b"> x\n"}, "rnx2crx -s --json a.rnx", 1, '"line": 32, "code": 11', (none, "WARNING"))
    yield row({"a.crx": texts.filtered(HEADER, "rnx2crx") + b"> x\n"}, "crx2rnx -s a.crx", 1, (), (none, "WARNING"))
    yield row({"a.rnx": HEADER + b"> x\n" + one[:31] + b"1" + one[32:]}, "rnx2crx -s a.rnx", 2, "made a.crx", "WARNING line 32", ("a.crx",))
    yield row({"a.rnx": HEADER}, "rnx2crx -s a.rnx", 0, "made a.crx", (), ("a.crx",))
    yield row({"a.rnx": HEADER + b"> x\n" + EVENT}, "rnx2crx -s a.rnx", 1, (), (none, "WARNING"))
    yield row({"a.rnx": HEADER + b"> x\n" + EVENT + EPOCHS}, "rnx2crx -s a.rnx", 2, "made a.crx, not verified: 1 warnings", "WARNING line ", ("a.crx",))


# ---- what happens while a run is at work: before and after its first flush to the disk, or right after its line

AT_THE_FLUSH = """
sync, temporary = os.fsync, lambda: next(name for name in os.listdir() if name.startswith('part.'))
def synced(file):
    os.fsync = sync
    {}
    sync(file)
    {}
os.fsync = synced
"""
AFTER_ITS_LINE = """
write = os.write
def written(file, text):
    count = write(file, text)
    if file == 1 and bytes(text).startswith(b"a.rnx: "):
        {}
    return count
os.write = written
def change(name):
    status = os.stat(name)
    with open(name, "r+b") as file:
        file.seek(200)
        file.write(b"~")
    os.utime(name, ns=(status.st_atime_ns, status.st_mtime_ns))
"""
WHILE_IT_READS = """
def reading(file, size, read=os.read):
    {}
    return read(file, size)
os.read = reading
"""
CLOSE_FAILS = """
def closing(part, close=rnxcmp._parts.Part._close_file):
    close(part)
    raise OSError(5, os.strerror(5))
rnxcmp._parts.Part._close_file = closing
"""


BOTH_BEGUN = """
import rnxcmp.files, rnxcmp._workers, time
os.setsid()
run, (ready, begun), answer, handle = os.getpid(), os.pipe(), rnxcmp._workers.Workers._answer, rnxcmp.files._handle_signals
def answering(self, writer, work, inputs):
    def late(name):
        os.write(begun, b"x")
        until = time.monotonic() + 9
        while not self._ends[0] and os.getppid() == run and time.monotonic() < until:
            time.sleep(0.01)
        return work(name)
    answer(self, writer, late, inputs)
def handled(*handlers):
    handle(*handlers)
    if handlers:
        os.read(ready, 1), os.read(ready, 1)
        {}
rnxcmp._workers.Workers._answer, rnxcmp.files._handle_signals = answering, handled
"""
DIES = """
import rnxcmp.files, signal
def running(whole, run=rnxcmp.files.Whole.run):
    if whole.name == "d.rnx":
        os.kill(os.getpid(), signal.SIGTERM)
    return run(whole)
rnxcmp.files.Whole.run = running
"""


def inputs_that_change(texts):
    """An input that is written to, replaced or removed is an error, and nothing is made of it."""
    for act, gone in (("os.utime('a.rnx', (1704067200, 1704067200))", ()), ("open('a.rnx', 'r+').write('x')", ()), ("os.rename('b.rnx', 'a.rnx')", ("b.rnx",)), ("os.remove('a.rnx')", ("a.rnx",))):
        for words in ("", "--verify", "-f"):
            yield row({**A, **B}, f"rnx2crx {words} a.rnx", 1, (), "a.rnx: ERROR", replaced=("a.rnx",), gone=gone, script=AT_THE_FLUSH.format(act, ""))


    for words, files in (("check a.rnx", A), ("crx2rnx a.crx -o -", {"a.crx": texts.plain_compact}), *((f"rnx2crx {more} a.rnx", {**A, "a.crx": texts.plain_compact}) for more in ("", "--verify"))):
        name = next(word for word in words.split() if word.startswith("a."))
        yield row(files, words, 1, GOOD.decode() if "-o" in words else (), f"{name}: ERROR: this file changed meanwhile", replaced=(name,), script=WHILE_IT_READS.format(f"os.utime('{name}', (1, 1))"))


def outputs_that_come(texts):
    """A file that gets the output's name meanwhile stays, without -f, and a folder with -f too; this input's own is as good."""
    another, same, start = {"a.crx": (b"another", False)}, {"a.crx": (texts.plain_compact, False)}, {**A, "same": texts.plain_compact}
    for words, act, status, said, made, gone in (
        ("", "open('a.crx', 'w').write('another')", 1, "file exists, and is damaged", another, ()), ("", "os.rename('same', 'a.crx')", 0, (), same, ("same",)), ("--verify", "os.rename('same', 'a.crx')", 0, (), same, ("same",)),
        ("", "os.mkfifo('a.crx')", 1, "no regular file", ("a.crx",), ()), ("-f", "os.mkdir('a.crx')", 1, "the output is a folder", ("a.crx",), ()), ("-f", "os.rename('a.rnx', 'a.crx')", 1, "this file changed meanwhile", {"a.crx": (GOOD, False)}, ("a.rnx",)),
    ):  # fmt: skip
        yield row(start, f"rnx2crx {words} a.rnx", status, () if status else "a.crx is there already", said, made, gone=gone, script=AT_THE_FLUSH.format(act, ""))
    yield row(A, "rnx2crx a.rnx", 1, (), "cannot put a.crx into place: Input/output error", script=CLOSE_FAILS)
    script = AFTER_ITS_LINE.format("open('list', 'x').write('another')")
    made = {"a.crx": (texts.plain_compact, False), "list": (b"another", False)}
    for disk, said in (("", "another file has got its name\n"), (NO_RENAMES, "cannot put list into place: ")):
        yield row(A, f"rnx2crx -f a.rnx --date '{DATE}' --verified-to list", 1, "verified exact", f"list: ERROR: {said}", made, script=f"{disk}\n{script}")


def bytes_that_change_on_the_disk(texts):
    """If the bytes that are read back aren't those that were written, or are cut off, nothing is made, and nothing is called verified."""
    for direction, name, content in (("rnx2crx", "a.rnx", GOOD), ("crx2rnx", "a.crx", texts.plain_compact), ("rnx2crx", "a.rnx.gz", PACKED)):
        for change in ("text[:-3] + bytes([text[-3] ^ 1]) + text[-2:]", "text[:len(text) // 2]", "text + b'more'"):
            script = AT_THE_FLUSH.format("", f"text = open(temporary(), 'rb').read(); open(temporary(), 'wb').write({change})")
            yield row({name: content}, f"{direction} --verify {name}", 1, (), "not verified, so nothing was made", script=script)


def signals(texts):
    """A run that is asked to end ends by that signal; nothing is made."""
    for name in ("TERM", "INT", "HUP", "QUIT", "USR1", "USR2", "ALRM", "XCPU"):
        number = getattr(signal, f"SIG{name}")
        yield row(A, "rnx2crx a.rnx --verified-to list", -number, script=AT_THE_FLUSH.format("", f"os.kill(os.getpid(), {int(number)})"))
    nohup = "import signal\nsignal.signal(signal.SIGHUP, signal.SIG_IGN)" + AT_THE_FLUSH.format("", "os.kill(os.getpid(), signal.SIGHUP)")
    yield row(A, "rnx2crx a.rnx", 0, "made a.crx", (), ("a.crx",), script=nohup)


def processes(texts):
    """With -j, a signal, or a kill of the run, has each process finish the file that it has begun; a process that dies loses its file alone. Files that
    are done are closed."""
    files = {f"{name}.rnx": GOOD for name in "abcd"}
    words = f"rnx2crx -j 2 --verified-to list {' '.join(files)}"
    for name, whom in (("TERM", "os.getpid()"), ("INT", "0"), ("HUP", "0"), ("QUIT", "0")):  # a terminal sends its signals to all processes
        said = "rnxcmp-file: ERROR: a signal asked to end, and 2 files aren't done: c.rnx is the first\n"
        script = BOTH_BEGUN.format(f"os.kill({whom}, {int(getattr(signal, f'SIG{name}'))})")
        yield row(files, words, 1, "2 files: 2 made", said, ("a.crx", "b.crx", "list"), ["a.rnx", "b.rnx"], script=script)
    yield row(files, "rnx2crx -j 2 a.rnx b.rnx c.rnx d.rnx", -signal.SIGKILL, made=("a.crx", "b.crx"), script=BOTH_BEGUN.format("os.kill(run, 9)"))
    said = "rnxcmp-file: ERROR: a process died, and 1 files aren't done: d.rnx is the first\n"
    yield row(files, words, 1, "3 files: 3 made", said, ("a.crx", "b.crx", "c.crx", "list"), ["a.rnx", "b.rnx", "c.rnx"], script=DIES)
    small = HEADER + EPOCHS[: EPOCHS.index(b"\n>") + 1]
    many = {f"{number}.rnx{'.bz2' * (number % 2)}": bz2.compress(small) if number % 2 else small for number in range(40)}
    there = {f"{number}.crx": texts.filtered(small, "rnx2crx") for number in range(0, 40, 4)}
    made = (*(f"{number}.crx{'.gz' * (number % 2)}" for number in range(40) if number % 4), "list")
    few = "import resource\nresource.setrlimit(resource.RLIMIT_NOFILE, (os.dup(0) + 16,) * 2)"  # open files
    yield row({**many, **there}, f"rnx2crx -q --verified-to list {' '.join(many)}", 0, "40 files: 30 made, 0 replaced, 10 there already, 0 errors; verified: 40 exact", (), made, [*many], script=few)
    for call in ("check -q", "explain"):
        yield row(many, f"{call} {' '.join(many)}", script=few)


def lists_of_changed_files(texts):
    """The list has no input that changed after it was verified, and none whose output changed, was replaced or removed, whatever its times."""
    for act, gone in (
        ("change('a.rnx')", ()), ("change('a.crx')", ()), ("os.rename('p.rnx', 'a.crx')", ("p.rnx",)), ("os.rename('p.rnx', 'a.rnx')", ("p.rnx",)), ("os.remove('a.crx')", ("a.crx",)), ("os.remove('a.crx'); os.mkfifo('a.crx')", ()),
    ):  # fmt: skip
        said, script = "list: ERROR: 1 files changed after they were verified, and aren't in it\n", AFTER_ITS_LINE.format(act)
        for there in ({}, {"a.crx": texts.plain_compact}):
            yield row({**A, **B, **P, **there}, "rnx2crx --verified-to list a.rnx b.rnx", 1, "verified exact", said, ("a.crx", "b.crx", "list"), ["b.rnx"], ("a.rnx", "a.crx"), gone, script)


NO_LINKS = "def refuse(*_, **__):\n    raise OSError(1, 'x')\nos.link = refuse\n"
NO_FOLDERS = """
import stat
def synced(file, sync=os.fsync):
    if stat.S_ISDIR(os.fstat(file).st_mode):
        raise OSError({0}, os.strerror({0}))
    sync(file)
os.fsync = synced
"""
NO_RENAMES = NO_LINKS + "rnxcmp._parts._NOREPLACE = 1 << 20"  # a flag that no disk has
NO_MODES = "os.umask(0)\nos.fchmod = lambda *_: None\nos.open = lambda name, flags, mode=0o777, *, open=os.open, **more: open(name, flags, 0o644 if mode == 0o600 else mode, **more)\n"


def disks(texts):
    """Without links an output is renamed where nothing is; without that call too it is refused, with the way out, which works. A disk without
    modes is as good, but a warning says if more users may read an output there than its input."""
    refused = "cannot put a.crx into place: this disk can't name a file without replacing; -f renames over the old file"
    for number in (1, 31, 38, 95):  # EPERM, EMLINK, ENOSYS, EOPNOTSUPP
        yield row(A, "rnx2crx --verified-to list a.rnx", 0, "made a.crx, verified exact", (), ("a.crx", "list"), ["a.rnx"], script=NO_LINKS.replace("1", f"{number}", 1))
    another = NO_LINKS.replace("    raise", "    open('a.crx', 'w').write('another')\n    raise")
    yield row(A, "rnx2crx a.rnx", 1, (), "file exists, and is damaged", {"a.crx": (b"another", False)}, script=another)
    for number, said in ((22, refused), (38, refused), (95, refused), (5, "cannot put a.crx into place: Input/output error")):
        yield row(A, "rnx2crx a.rnx", 1, (), said, script=f"{NO_RENAMES}\nrnxcmp._parts.ctypes.get_errno = lambda: {number}")
    yield row(A, "rnx2crx -f --verified-to list a.rnx", 0, "made a.crx, verified exact", (), ("a.crx", "list"), ["a.rnx"], script=NO_RENAMES)
    warning = "a.rnx: WARNING: more users may read the output than the input: this disk doesn't keep modes\n"
    for mode, said in ((0o644, ()), (0o640, warning), (0o604, warning)):
        yield row(A, "rnx2crx --verify a.rnx", 0, "verified exact", said, ("a.crx",), replaced=("a.rnx",), script=NO_MODES + f"os.chmod('a.rnx', {mode})")
    for number, status, out, err in ((22, 0, "made a.crx", ()), (5, 1, (), "cannot flush the name a.crx to the disk: Input/output error")):  # of the flush of a folder
        yield row(A, "rnx2crx a.rnx", status, out, err, ("a.crx",), script=NO_FOLDERS.format(number))
    yield row({**A, "out": FOLDER}, "rnx2crx --to out a.rnx", 0, "made out/a.crx", (), ("out/a.crx",), script="os.path.isdir = lambda _: False")  # another process has made it
    short = "os.write = lambda file, text, write=os.write: write(file, text[:999])"
    yield row(A, f"rnx2crx --date '{DATE}' a.rnx", 0, "made a.crx\n", (), {"a.crx": (texts.plain_compact, False)}, script=short)
    yield row({"a.crx": texts.plain_compact}, "crx2rnx a.crx -o -", 0, GOOD.decode(), script=short)
    yield row(A, "rnx2crx a.rnx", 1, (), "a.rnx: ERROR: out of memory\n", script="import rnxcmp.files\ndef none(*_): raise MemoryError\nrnxcmp.files.Whole = none")
    yield row({"a.rnx.Z": compressed(GOOD)}, "rnx2crx a.rnx.Z", 1, (), ".Z is unpacked by gzip -dc, which can't be started: No such file", script="os.environ['PATH'] = '/nowhere'")


# ---- how a row is run


def put(place, name, content):
    path = place.work / name
    if isinstance(content, str):
        path.symlink_to(content)
    elif content in (FOLDER, PIPE):
        (path.mkdir if content is FOLDER else lambda: os.mkfifo(path))()
    else:
        place.write(name, content)


def files_of(place):
    return {str(path.relative_to(place.work)) for path in place.work.rglob("*")}


def run_row(files, words, status, out, err, made, listed, replaced, gone, script):
    """What is wrong with a row, as lines."""
    with Place() as place:
        for name, content in files.items():
            put(place, name, content)
        kept = {name: state_of(place.work / name) for name, content in files.items() if name not in {*replaced, *gone} and content is not FOLDER}
        run = place.changed(script, *words) if script else place.run(*words)
        wrong = differs(run, status, out, err)
        wrong += [f"said: {run.stderr!r}"] if len(run.stderr.splitlines()) > max(1, len(err)) else []
        wrong += [f"said: {run.stdout[:300]!r}"] if run.stdout != "".join(out) and ("-" in words or "-q" in words and not out) else []
        wrong += [f"{text!r} isn't said {err.count(text)} times" for text in err if err.count(text) > 1 and run.stderr.count(text) != err.count(text)]
        wrong += [f"{name} was changed" for name, state in kept.items() if state_of(place.work / name) != state]
        wrong += [] if files_of(place) == {*files, *made} - {*gone} else [f"files {files_of(place)}"]
        for name, (text, packed) in made.items() if isinstance(made, dict) else ():
            found = (place.work / name).read_bytes() if (place.work / name).exists() else b""
            wrong += [] if unpacked(found) == text and (found != text) == packed else [f"{name} has another content"]
        wrong += [] if listed is None or place.listed() == listed else [f"listed: {place.listed()}"]
        return [f"{' '.join(words)[:80]} {script[-80:]!r}: {line}" for line in wrong]


def checks(texts):
    for group in (
        names_of_outputs, choices, refusals, lists, cut_files, ways_back, texts_that_end_elsewhere, links, packs, archives, no_epoch, inputs_that_change, outputs_that_come, bytes_that_change_on_the_disk, signals,
        processes, lists_of_changed_files, disks,
    ):  # fmt: skip
        yield group.__name__.replace("_", " "), lambda group=group: [line for one in group(texts) for line in run_row(*one)]
