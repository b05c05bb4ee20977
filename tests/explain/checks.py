"""`rnxcmp-file explain`, `rnxcmp.explain`, `rnxcmp.open`, and the cause in the messages of rnxcmp-file: everyday damage, good
files, damage at random, speed, and files that can't be read. `SLOW=1` does it for 20,000 damaged files.
"""

import gzip
import io
import json
import os
import re
import subprocess
import sys
import tempfile
from pathlib import Path

HERE = Path(__file__).resolve().parent
sys.path.insert(0, str(HERE))
import damaged_files  # noqa: E402
from everyday import OF_COMPACT, OF_RINEX  # noqa: E402
from explained import ENDINGS, ENVIRONMENT, LIBRARY, TOOL, TOP, compacted, named_by, package, run_tool, sample  # noqa: E402

sys.path.append(str(HERE.parent))
from runner import SEED  # noqa: E402


def of_kind(program, kind, direction, text):
    """A kind of everyday damage: the explanation of its file, the program's line and code, the cause in a conversion's message, the file's bytes."""
    data = kind.make(text)
    with tempfile.TemporaryDirectory() as folder:
        path = Path(folder) / f"a{ENDINGS[direction]}"
        path.write_bytes(data)
        found, message = package().explain(path), run_tool(folder, direction, path.name).stderr
        wrong = [] if path.read_bytes() == data else ["the file was changed"]
    if not kind.line and not kind.words:
        return wrong + ([] if found is None else [f"{found} is said of a good file"])
    if found is None:
        return [*wrong, "nothing is said"]
    said, wanted = (found.line, found.code, found.columns), (kind.line, kind.code, kind.columns)
    wrong += [] if said == wanted else [f"line, code and columns are {said}, not {wanted}"]
    wrong += [f"it doesn't say {words!r}: {found}" for words in kind.words if words not in str(found)]
    if kind.code:
        named = named_by(program, data, direction)
        wrong += [] if named == (kind.line, kind.code) else [f"the program names {named}"]
        wrong += of_message(message, path.name, direction, kind)
    return wrong


def of_message(message, name, direction, kind):
    """A conversion's message: one line, which ends with what the first bytes tell, or with the first two causes of the table."""
    from rnxcmp._causes import entry_of

    said = [words[8:] for words in kind.words if words.startswith("likely: ")] if kind.code < 10 else entry_of(kind.code, direction).causes[:2]
    right = message.startswith(f"{name}: ERROR line {kind.line} code {kind.code}: ") and message.endswith(")\n") and message.count("\n") == 1
    return [] if right and all(words in message for words in said) else [f"rnxcmp-file says {message!r}"]


def good_files(program):
    """There is nothing to explain in good files of both forms, by another writer too."""
    files = [(direction, text) for seed in range(8) for direction, text in damaged_files.good_files(program, seed)]
    found = [(direction, package().explain(text, direction=direction)) for direction, text in files]
    return [f"{direction}: {one}" for direction, one in found if one and not (one.state == "not standard" and b"\r" in one.text)]


BAD = """bad.rnx: refused, line 33 code 13: bad satellite
    33 | X02  2{rest}
       | ^^^
columns 1 to 3: identifier
expected: in columns 1 to 3 the letter of a system that has types, and a number of two digits
likely: a character of the identifier is wrong
likely: the header has no types line for this system
likely: a line is lost or too many
to do: correct the line, or fetch the file again; -s drops the epoch
"""
MESSAGE = """bad.rnx: ERROR line 33 code 13: bad satellite (a character of the identifier is wrong; or the header has no types line for this system)
"""


def command(program):
    """The command: its text, its JSON, its statuses; each file that can't be read gets one line, and the next file is explained."""
    text = sample()
    bad, packed = text.replace(b"\nG02", b"\nX02", 1), gzip.compress(text, mtime=0)
    with tempfile.TemporaryDirectory() as folder:
        files = {"good.rnx": text, "bad.rnx": bad, "crlf.rnx": text.replace(b"\n", b"\r\n"), "cut.rnx": text[:-9], "noname": compacted(program, text), "good.rnx.gz": packed,
                 "cut.rnx.gz": packed[:-900], "damaged.rnx.gz": packed[:2000] + b"\0" + packed[2001:], "bad.24o.gz": gzip.compress(bad)}  # fmt: skip
        for name, data in files.items():
            (Path(folder) / name).write_bytes(data)
        os.mkdir(f"{folder}/folder.rnx")
        os.mkfifo(f"{folder}/pipe.rnx")
        names = ("none.rnx", "folder.rnx", "pipe.rnx", "/proc/self/mem", "damaged.rnx.gz", "cut.rnx.gz", "good.rnx", "crlf.rnx", "cut.rnx", "noname", "good.rnx.gz", "bad.24o.gz", "bad.rnx")
        run, as_json = run_tool(folder, "explain", *names), run_tool(folder, "explain", "--json", *names)
        statuses = [run_tool(folder, "explain", name).returncode for name in names]
        message = run_tool(folder, "rnx2crx", "-o", "out.crx", "bad.rnx").stderr
    wrong = [] if statuses == [1, 1, 1, 1, 1, 1, 0, 2, 2, 0, 0, 1, 1] and run.returncode == as_json.returncode == 1 else [f"{statuses}, {run.returncode}"]
    said = ("none.rnx: ERROR: No such file or directory\nfolder.rnx: ERROR: this is a folder, not a file\npipe.rnx: ERROR: this is no regular file\n"
            "/proc/self/mem: ERROR: Input/output error\n")  # fmt: skip
    wrong += [] if run.stderr == said == as_json.stderr else [f"standard error has {run.stderr!r}"]
    wrong += [] if message == MESSAGE else [f"a conversion says {message!r}"]
    begin = ("damaged.rnx.gz: refused: the packed text is damaged", "cut.rnx.gz: refused: the packed text is cut off\n", "good.rnx: nothing to explain\n",
             "crlf.rnx: not standard, line 1: the line ends in CR LF\n", "cut.rnx: cut off, line 191: the last line has no line end", "noname: nothing to explain\n", "good.rnx.gz: nothing to explain\n", "bad.24o.gz: refused, line 33")  # fmt: skip
    wrong += [f"it doesn't say {words!r}: {run.stdout}" for words in begin if f"\n{words}" not in f"\n{run.stdout}"]
    wrong += [] if run.stdout.endswith(BAD.format(rest=bad.splitlines()[32].decode()[6:100])) else [run.stdout]
    objects = [json.loads(line) for line in as_json.stdout.splitlines()]
    wrong += [] if [one["input"] for one in objects] == list(names) else [f"{objects}"]
    last = {"state": "refused", "line": 33, "code": 13, "columns": [1, 3], "field": "identifier", "words": "bad satellite"}
    wrong += [f"--json has {name}: {objects[-1].get(name)!r}" for name, value in last.items() if objects[-1].get(name) != value]
    explain = package().explain  # of bytes, a text and an open file
    wrong += [] if not any(map(explain, (text, text.decode(), io.BytesIO(text)))) and explain(text, direction="crx2rnx").code == 8 else ["explain takes another text or direction"]
    wrong += [] if objects[-1]["causes"][0] == "a character of the identifier is wrong" and "two digits" in objects[-1]["expected"] else [f"{objects[-1]}"]
    return wrong


SAY_MEMORY = "import re, sys, rnxcmp.files as f; f.main(sys.argv[1:]); print(re.search('VmHWM:[^0-9]*([0-9]+)', open('/proc/self/status').read())[1])"


def measured(words, folder):
    """The processor time of a process in its least of seven runs, and what it prints."""
    seconds, environment = [], {**ENVIRONMENT, "PYTHONPYCACHEPREFIX": folder, "PYTHONDONTWRITEBYTECODE": ""}
    for _ in range(7):
        run = subprocess.Popen(words, cwd=folder, env=environment, stdout=subprocess.PIPE, stderr=subprocess.DEVNULL)
        said, usage = run.stdout.read(), os.wait4(run.pid, 0)[2]
        run.stdout.close()
        run.returncode = 0
        seconds.append(usage.ru_utime + usage.ru_stime)
    return min(seconds), said


def speed(program, slack=2):
    """Large files, and a small one with a line too many, take at most twice the time of the conversion and 50 ms more than Python's start, on a
    busy machine `slack` times that; and 64 MB."""
    text, wrong = sample(), []
    header, epochs = text[: text.index(b"\n>") + 1], text[text.index(b"\n>") + 1 :]
    large = header + epochs * 600
    constant = compacted(program, header + b"".join(b"> 2024 01 01 00 %02d  0.0000000  0  1\nG01         1.000\n" % minute for minute in range(60))).splitlines(True)
    with tempfile.TemporaryDirectory() as folder:
        files = {"large.rnx": large, "bad.rnx": large[:-60] + b"&" + large[-59:], "large.crx": compacted(program, large),
                 "constant.crx": b"".join([*constant[:80], b"\n", *constant[80:]]), "cr.rnx": large.replace(b"\n", b"\r")}  # fmt: skip
        for name, data in files.items():
            (Path(folder) / name).write_bytes(data)
        for name in files:
            for _ in range(5):  # other programs slow down some runs
                start = measured([sys.executable, "-S", "-c", "pass"], folder)[0]
                conversion = measured([program, "rnx2crx" if name.endswith(".rnx") else "crx2rnx", "-", name], folder)[0]
                seconds, said = measured([sys.executable, "-S", "-c", SAY_MEMORY, "explain", name], folder)
                late = seconds - start - slack * (2 * conversion + 0.05)
                if late <= 0:
                    break
            wrong += [] if late <= 0 else [f"{name} takes {seconds - start:.3f} s, and a conversion {conversion:.3f} s"]
            *lines, memory = said.decode().splitlines()
            wrong += [] if int(memory) < 64000 else [f"{name} takes {memory} kB"]
            wrong += [] if ("nothing to explain" if name.startswith("large") else "refused") in lines[0] else [f"{name}: {lines}"]
    return wrong


def far_and_once(program):
    """A file is read once; the first line that isn't standard is found where it is far from both ends, with the types that are in force there."""
    explain, text, wrong, counts = package().explain, sample(), [], []
    header, epochs = text[: text.index(b"\n>") + 1], text[text.index(b"\n>") + 1 :]
    event = b"> 2024 01 01 00 00  0.0000000  4  1\n" + b"G    1 C9X".ljust(60) + b"SYS / # / OBS TYPES\n"
    odd = epochs.replace(b"G02  2", b"G02 02", 1)
    import rnxcmp._packed as packed

    read = os.read
    with tempfile.TemporaryDirectory() as folder:
        path = Path(folder) / "a.rnx"
        for middle, once, line in ((odd, False, 4833), (epochs[:-60] + b"&" + epochs[-59:], True, 4991), (epochs, True, 0), (b"CR", True, 1)):
            whole = header + epochs * 30 + middle + epochs * 30 + event
            path.write_bytes((header + epochs * 30).replace(b"\n", b"\r\n") if middle == b"CR" else whole)
            counts.clear()
            packed.os.read = lambda file, most: [piece := read(file, most), counts.append(len(piece))][0]
            try:
                found = explain(path)
            finally:
                packed.os.read = read
            wrong += [] if (found.line if found else 0) == line else [f"{found}, not line {line}"]
            wrong += [] if (sum(counts) <= path.stat().st_size) == once else [f"{sum(counts)} bytes were read of {path.stat().st_size}"]
            wrong += [] if line != 4833 or (found.field, found.columns) == ("observation C1C of G02", (4, 17)) else [f"{found}"]
    whole = header + epochs * 30
    end = whole.index(b"\n", 1 << 18)  # of the line across the border of two pieces
    found = explain(whole[:end] + b" " + whole[end:])
    wrong += [] if found.field == "end of the line" and found.text.endswith(b" ") else [f"{found}"]
    return wrong


def never_raises(program):
    """Whatever happens in the explanation, the program's message is said, and the next file is explained."""
    words = "import sys, rnxcmp._explain as e, rnxcmp.files\ndef none(*_): raise MemoryError\nsetattr(e, sys.argv.pop(1), none)\nsys.exit(rnxcmp.files.main())"
    with tempfile.TemporaryDirectory() as folder:
        (Path(folder) / "a.rnx").write_bytes(sample().replace(b"\nG02", b"\nX02", 1))
        (Path(folder) / "b.rnx").write_bytes(sample()[:-1])
        said = {}
        for name in ("field_of", "sign_of", "explain"):
            run = subprocess.run([*TOOL[:2], "-c", words, name, "explain", "a.rnx", "b.rnx"], cwd=folder, env=ENVIRONMENT, capture_output=True, text=True, timeout=60)
            said[name] = run.stdout + run.stderr
    right = [said[name].startswith("a.rnx: refused, line 33 code 13: bad satellite\n") and "\nb.rnx: cut off" in said[name] for name in ("field_of", "sign_of")]
    return [] if all(right) and said["explain"] == "a.rnx: ERROR: out of memory\nb.rnx: ERROR: out of memory\n" else [f"{said}"]


def opened(program):
    """`open` gives each byte as one character, whatever ends or breaks lines elsewhere."""
    rnxcmp, wrong = package(), []
    odd = b"".join(b"a" + line + b"\n" for line in (b"\r", b" \r", b"a\rb", b"\r\r", b"\xe9\x85\x0b\x0c\x1c"))
    with tempfile.TemporaryDirectory() as folder:
        path = Path(folder) / "a.crx"
        for text in (sample(), compacted(program, sample())):
            path.write_bytes(re.sub(rb"(?m)^.{60}END OF HEADER", lambda end: odd + end[0], text))
            text = rnxcmp.open(path).read()
            wrong += [] if text.encode("latin-1") == rnxcmp.decompress(path) and "\naa\rb\n" in text and "\na\xe9\x85\x0b\x0c\x1c\n" in text else [f"{text[:3000]!r}"]
    return wrong


def tables(program):
    """Each code has its row, with two or three causes if it is one of a line; docs/ERRORS.md names the damage that gives a valid file."""
    package()
    from rnxcmp._causes import COMPACT_ERRORS, ERRORS

    page = " ".join((TOP / "docs/ERRORS.md").read_text(encoding="utf-8").split())
    said = ("two satellite lines", "count of types", "an epoch twice", "a block twice", "between epochs")
    wrong = [f"docs/ERRORS.md doesn't name: {one}" for one in said if one not in page.partition("Damage that can't be seen")[2]]
    wrong += [] if {*ERRORS, *COMPACT_ERRORS} == {*range(1, 23)} and {*COMPACT_ERRORS} == {*range(10, 20)} else ["a code has no row, or one too many"]
    rows = [(code, row) for table in (ERRORS, COMPACT_ERRORS) for code, row in table.items() if code < 20 and code != 2]
    return wrong + [f"code {code} has {len(row.causes)} causes" for code, row in rows if not 2 <= len(row.causes) <= 3 or not row.expected or not row.remedy]


OVER_MANY = ("good files", "damage at random", "speed")


def checks(program):
    if not LIBRARY.exists():
        yield "all", lambda: "there is no library: make library"
        return
    text = sample()
    for direction, kinds, whole in (("rnx2crx", OF_RINEX, text), ("crx2rnx", OF_COMPACT, compacted(program, text))):
        for kind in kinds:
            yield f"{ENDINGS[direction]}: {kind.name}", lambda kind=kind, direction=direction, whole=whole: of_kind(program, kind, direction, whole)
    yield "good files", lambda: good_files(program)
    yield "damage at random", lambda: damaged_files.run(program, 600, 200, SEED)[:20]
    yield "speed", lambda: speed(program)
    for name, check in (("the command", command), ("far lines", far_and_once), ("never raises", never_raises), ("open", opened), ("the tables", tables)):
        yield name, lambda check=check: check(program)


def slow_checks(program):
    yield "20,000 damaged files", lambda: damaged_files.run(program, 20_000, 2000, SEED)[:20]
    yield "speed, once more", lambda: speed(program, 1)
