"""What rnxcmp-file prints and needs, and the calls from Python."""

import gzip
import json
import os
import pty
import re
import resource
import select
import shutil
import subprocess
import sys

from place import ENVIRONMENT, GOOD, PACKAGE, SECONDS, TOOL, TOP, Place, changed_epoch, differs, marked, padded, unpacked

STRANGE = [b"a b", b"it's", b"$(touch x)", b'"q"', b"new\nline", b"tab\t`id`", b"\xff\xfe", "\u00e9t\u00e9".encode(), b"-f", b"a;b&c", b"#a", b"\x1b[2J"]
STRANGE += [b"\x07\x08\x0b\x0c\r\x7f", b"it's {x}", b"it's a b", b"it's\n\"q\"", b"~a", b"a\n", *(b"a%cb" % mark for mark in b"!*<=>?[\\^|{}~]#")]


def started(place, *words, **more):
    """A run whose streams or whose environment are others."""
    return subprocess.run([*TOOL, *words], cwd=place.work, **{"env": ENVIRONMENT, "capture_output": not {"stdout", "stderr"} & {*more}, "timeout": SECONDS, **more})


# ---- what is printed


def names(texts):
    """Names with everything in them: each is done, is quoted as `ls` does, and is listed as it is, for xargs."""
    with Place() as place:
        sources = [os.fsencode(place.work) + b"/" + name + b".rnx" for name in STRANGE]
        for source in sources:
            with open(source, "wb") as file:
                file.write(GOOD)
        run = started(place, "rnx2crx", "--verified-to", "list", "--", *(os.path.basename(source) for source in sources))
        both = [name + ending for name in STRANGE for ending in (b".rnx", b".crx")]
        listed = subprocess.run(["ls", "-d", "--quoting-style=shell-escape", "--", *both], cwd=place.work, env=ENVIRONMENT, capture_output=True).stdout.splitlines()
        wrong = [] if run.returncode == 0 and not run.stderr else [f"{run}"]
        for line in run.stdout.splitlines()[:-1]:
            parts = line.removesuffix(b", verified exact").partition(b": made ")
            wrong += [f"not as ls has it: {part!r}" for part in parts[::2] if part not in listed]
        wrong += [] if (place.work / "list").read_bytes() == b"".join(source + b"\0" for source in sources) else ["another list"]
        found = subprocess.run(["xargs", "-0", "rm", "--"], stdin=(place.work / "list").open(), capture_output=True)
        return wrong + ([] if found.returncode == 0 and not any(map(os.path.exists, sources)) else [f"xargs: {found}"])


def lines(texts):
    """--json, -q and the summary; streams that are full, closed, or that nobody reads any more."""
    wrong = []
    with Place() as place:
        for name, content in (("a.rnx", GOOD), ("p.rnx", padded(GOOD)), ("s.rnx", changed_epoch(GOOD)), ("b.rnx", b"x\n")):
            place.write(name, content)
        run = place.run("rnx2crx", "-s", "--verify", "--json", "a.rnx", "p.rnx", "s.rnx", "b.rnx")
        wrong += differs(run, 1, errors=["b.rnx: ERROR", "s.rnx: WARNING"])
        keys = ("input", "output", "state", "verified", "skipped", "line", "code")
        found = [(*map(one.get, keys), bool(one["error"]), one["may_be_cut_off"]) for one in map(json.loads, run.stdout.splitlines())]
        wanted = [("a.rnx", "a.crx", "made", "exact", 0), ("p.rnx", "p.crx", "made", "normal form", 0), ("s.rnx", "s.crx", "made", None, 1), ("b.rnx", None, "error", None, 0)]
        wrong += [] if found == [(*one, *((1, 3, True) if one[1] is None else (None, None, False)), False) for one in wanted] else [f"json: {run.stdout!r}"]
        run = place.run("rnx2crx", "-q", "-f", "a.rnx", "p.rnx")
        wrong += [] if run.stdout == "2 files: 0 made, 2 replaced, 0 there already, 0 errors; verified: 0 exact, 0 normal form; with skipped epochs: 0\n" else [f"-q: {run.stdout!r}"]
        wrong += differs(place.run("rnx2crx", "-q", "a.rnx"), 0)
        with open("/dev/full", "wb") as full:
            run = started(place, "rnx2crx", "-f", "a.rnx", "p.rnx", stdout=full, stderr=subprocess.PIPE)
        wrong += [] if run.returncode == 1 and b"cannot write to standard output: No space" in run.stderr else [f"full: {run}"]
        run = subprocess.run(["sh", "-c", '"$@" >&- 2>&- <&-', "sh", *TOOL, "rnx2crx", "-f", "a.rnx"], cwd=place.work, env=ENVIRONMENT, timeout=SECONDS)
        return wrong + ([] if run.returncode == 1 and texts.held("rnx2crx", (place.work / "a.crx").read_bytes()) == GOOD else [f"closed streams: {run}"])


def streams_that_end(texts):
    """If nobody reads standard output any more all files are done, and the status says it; and if nobody reads messages."""
    with Place() as place:
        names = ["a.rnx", "b.rnx"]
        for name in names:
            place.write(name, GOOD)
        reader, writer = os.pipe()
        os.close(reader)
        runs = [started(place, *words, stdout=writer, stderr=subprocess.PIPE) for words in (("rnx2crx", "--verified-to", "list", *names), ("-h",))]
        said = [b"rnxcmp-file: ERROR: cannot write to standard output: Broken pipe\n", b"rnxcmp-file: ERROR: Broken pipe\n"]
        wrong = [] if [(run.returncode, run.stderr) for run in runs] == [(1, text) for text in said] and place.listed() == names else [f"{runs}, {place.listed()}"]
        statuses = [started(place, "rnx2crx", name, stdout=subprocess.PIPE, stderr=writer).returncode for name in ("a.rnx", "none.rnx")]
        os.close(writer)
        return wrong + ([] if statuses == [0, 1] else [f"{statuses}"])


def progress(texts):
    """On a terminal a line says how far it is, and is gone at the end."""
    with Place() as place:
        for name in ("a.rnx", "b.rnx"):
            place.write(name, GOOD)
        outer, inner = pty.openpty()
        wrong = []
        for words, lines in ((("a.rnx", "b.rnx"), [b"1 of 2: a.rnx", b"2 of 2: b.rnx"]), (("-j", "2", "a.rnx", "b.rnx"), [b"1 of 2: a.rnx", b"2 of 2: b.rnx"]), (("a.rnx",), [])):
            run = started(place, "rnx2crx", "-q", *words, stdout=subprocess.DEVNULL, stderr=inner)
            said = os.read(outer, 10000) if select.select([outer], [], [], 1)[0] else b""  # nothing may have been said
            found = [line for line in said.split(b"\r\x1b[K") if line]
            wrong += [] if run.returncode == 0 and found == lines and (not lines or said.endswith(b"\r\x1b[K")) else [f"{words}: {said!r}"]
        os.close(inner)
        os.close(outer)
        return wrong


# ---- what it needs


def nothing_around(texts):
    """Neither an environment nor, where root can take it away, /proc is needed."""
    with Place() as place:
        place.write("a.rnx", GOOD)
        run = started(place, "rnx2crx", "--verified-to", "list", "a.rnx", env={name: ENVIRONMENT[name] for name in ("PYTHONPATH", "RNXCMP_LIBRARY", "PYTHONPYCACHEPREFIX")})
        wrong = [] if run.returncode == 0 and not run.stderr and place.listed() == ["a.rnx"] else [f"{run}"]
        if os.geteuid() == 0 and shutil.which("unshare"):
            without = ("unshare", "--mount", "sh", "-c", 'mount -t tmpfs tmpfs /proc && exec "$@"', "sh")
            wrong += differs(place.run("rnx2crx", "-f", "--verified-to", "second", "a.rnx", through=without), 0, ["replaced a.crx, verified exact"])
        return wrong


def little_memory(texts):
    """A text that is longer than all the memory that a run may have is made and verified, and one without a line end is refused."""
    header, end, epochs = GOOD.partition(b"END OF HEADER\n")
    long = gzip.compress(header + end + epochs * ((64 << 20) // len(epochs)), 1)
    wrong = []
    with Place() as place:
        for name, content, status, said in (("a.rnx.gz", long, 0, b"verified exact"), ("b.rnx.gz", gzip.compress(bytes(64 << 20), 1), 1, b"line 1 code 1")):
            place.write(name, content)
            run = started(place, "rnx2crx", "--verify", name, timeout=5 * SECONDS, preexec_fn=lambda: resource.setrlimit(resource.RLIMIT_AS, (60 << 20, 60 << 20)))
            wrong += [] if run.returncode == status and said in run.stdout + run.stderr else [f"{name}: status {run.returncode}, {run.stdout!r}, {run.stderr[-300:]!r}"]
    return wrong


LATER = "rnxcmp._explain rnxcmp._causes bz2 dataclasses datetime gzip hashlib inspect json lzma multiprocessing pathlib shutil subprocess tempfile typing".split()


def quick_start(texts):
    """A run over a file loads nothing that it doesn't use, since that takes longer than the file."""
    with Place() as place:
        place.write("a.rnx", GOOD)
        run = place.changed(f"main(['rnx2crx', 'a.rnx'])\nprint(*(set({LATER!r}) & set(sys.modules)))\nsys.exit()")
        return [] if run.stdout == "a.rnx: made a.crx\n\n" else [f"{run}"]


def modules_of_the_folder(texts):
    """Started as docs/LIBRARY.md says, it imports nothing that is in the current folder; so does the installed command."""
    with Place() as place:
        for name in ("json", "argparse", "re", "ctypes"):
            place.write(f"{name}.py", b"import os\nos.write(2, b'of this folder')\n")
        place.write("a.rnx", GOOD)
        script = f"import sys; sys.path.insert(0, {str(PACKAGE)!r}); sys.argv[0] = 'x'; import runpy; runpy.run_module(sys.argv.pop(1), run_name='__main__')"
        wrong = []
        for module in ("rnxcmp.files", "rnxcmp"):
            for name in ("a.rnx", "none.rnx"):
                words = [sys.executable, "-IB", "-c", script, module, "rnx2crx", "--json", name]
                run = subprocess.run(words, cwd=place.work, env=ENVIRONMENT, capture_output=True, text=True, timeout=SECONDS)
                wrong += differs(run, int(name != "a.rnx"), errors=["none.rnx: ERROR: "] if name != "a.rnx" else ())
    page, tool = (TOP / "docs/LIBRARY.md").read_text(), (TOP / "packaging/bin/rnxcmp-file").read_text()
    right = "`python3 -I -m rnxcmp.files`" in page and "-m rnxcmp.files" not in page.replace("-I -m", "") and tool.startswith("#!/usr/bin/env -S python3 -IS\n")
    return wrong + ([] if right else ["it is started otherwise"])


# ---- from Python

FROM_PYTHON = """
import sys, warnings, rnxcmp.files
call, path, more = sys.argv[1], sys.argv[2], eval(sys.argv[3])
with warnings.catch_warnings(record=True) as caught:
    warnings.simplefilter("always")
    try:
        print(getattr(rnxcmp.files if path == "a.24o" else rnxcmp, call)(path, **more))
    except Exception as error:
        print(type(error).__name__, error)
    print(len(caught), {w.filename for w in caught})
"""
NO_NAME = "UnsupportedError no name for the converted file: "
UNREADABLE = (("none.rnx", "cannot read this file: No such file or directory"), ("folder.rnx", "this is a folder, not a file"), ("pipe.rnx", "this is no regular file"))


def is_of(texts, call, content, more, output):
    """Whether an output is this input's, but for the date in its second line."""
    text = unpacked(content)
    if text.startswith(b"navigation") or (call == "decompress_on_disk" and text.startswith(b"     3")):
        return unpacked(output) == text
    words = (*(("-s",) if "skip_strange_epochs" in more else ()), *(("-e", f"{more['reinit_every_nth']}") if "reinit_every_nth" in more else ()))
    wanted = texts.filtered(text, "rnx2crx" if call == "compress_on_disk" else "crx2rnx", *words)
    return unpacked(output).split(b"\n", 2)[2] == wanted.split(b"\n", 2)[2] and output.startswith(b"\x1f\x8b") == (call == "compress_on_disk" and "compression" not in more)


def from_python(texts):
    """compress_on_disk and decompress_on_disk: an output that is there is compared, and replaced with force alone; no input is removed."""
    wrong, compact = [], texts.plain_compact
    other, packed = gzip.compress(texts.filtered(marked(GOOD, 4), "rnx2crx")), gzip.compress(compact)
    for call, name, content, there, more, wanted, output in (
        ("compress_on_disk", "a.24o", GOOD, None, {"verify": True}, "a.24d.gz", "a.24d.gz"),
        ("compress_on_disk", "a.rnx", GOOD, None, {"compression": "none"}, "a.crx", "a.crx"),
        ("compress_on_disk", "a.rnx", GOOD, None, {"compression": "none", "reinit_every_nth": 2}, "a.crx", "a.crx"),
        ("compress_on_disk", "a.rnx", GOOD, None, {"compression": "bz2"}, "UnsupportedError compression not supported: bz2", None),
        ("decompress_on_disk", "a.crx", texts.input("crx2rnx", "damaged"), None, {"skip_strange_epochs": True}, "a.rnx\n", "a.rnx"),
        ("decompress_on_disk", "a.24n.gz", gzip.compress(b"navigation\n"), None, {}, "a.24n", "a.24n"),
        ("compress_on_disk", "a.24n", b"navigation\n", None, {"verify": True}, "a.24n.gz", "a.24n.gz"),
        ("compress_on_disk", "a.24o", GOOD, other, {}, "FileError file exists, and holds something else", "a.24d.gz"),
        ("compress_on_disk", "a.24n", bytes(300000), gzip.compress(bytes(1 << 18)), {}, "FileError file exists, and holds something else", "a.24n.gz"),
        ("compress_on_disk", "a.24o", GOOD, other, {"force": True}, "a.24d.gz", "a.24d.gz"),
        ("compress_on_disk", "a.24o", GOOD, None, {"delete": True}, "ValueError delete is no longer an option: no input is ever removed", None),
        ("compress_on_disk", "a.rnx", changed_epoch(GOOD), None, {}, "RnxcmpError line 33 code", None),
        ("compress_on_disk", "a.rnx", changed_epoch(GOOD), None, {"skip_strange_epochs": True}, "a.crx.gz\n1 {'<string>'}", "a.crx.gz"),
        ("compress_on_disk", "a.rnx", GOOD.replace(b"     3.05", b"     2.11", 1), None, {}, "UnsupportedError format not supported: RINEX 2.11", None),
        ("compress_on_disk", "a.24o", GOOD[:-9], None, {}, "a.24d.gz\n1 {'<string>'}", "a.24d.gz"),
        ("decompress_on_disk", "a.crx", compact[:-1], None, {}, "a.rnx\n1 {'<string>'}", "a.rnx"),
        ("compress_on_disk", "a.24n", b"navigation", None, {}, "a.24n.gz\n0 set()", "a.24n.gz"),
        ("decompress_on_disk", "a.24d.gz", packed, None, {"verify": True}, "a.24o", "a.24o"),
        ("decompress_on_disk", "a.rnx.gz", gzip.compress(GOOD), None, {"verify": True}, "a.rnx", "a.rnx"),
        ("decompress_on_disk", "a.crx", compact, b"half", {}, "FileError file exists, and is damaged", "a.rnx"),
        ("decompress_on_disk", "a.rnx", GOOD, None, {}, "a.rnx", None),
        ("compress_on_disk", "a.rnx", compact, None, {}, f"{NO_NAME}a.rnx", None),
        ("compress_on_disk", "a.crx", GOOD, None, {"compression": "none"}, f"{NO_NAME}a.crx", None),
        ("compress_on_disk", "a.Rnx", GOOD, None, {}, f"{NO_NAME}a.Rnx", None),
        ("decompress_on_disk", "a.txt", compact, None, {}, f"{NO_NAME}a.txt", None),
        ("decompress_on_disk", "a.Crx.gz", packed, None, {}, f"{NO_NAME}a.Crx.gz", None),
        ("decompress_on_disk", "a.crx", compact.replace(b"3.0", b"1.0", 1), None, {}, "UnsupportedError format not supported: Compact RINEX 1.0", None),
        *((call, name, None, None, {}, f"FileError {said}\n", None) for call in ("compress_on_disk", "decompress_on_disk") for name, said in UNREADABLE),
    ):  # fmt: skip
        with Place() as place:
            if content is not None:
                place.write(name, content)
            elif name != "none.rnx":
                (os.mkfifo if name == "pipe.rnx" else os.mkdir)(place.work / name)
            if there:
                place.write(output, there)
            run = subprocess.run([sys.executable, "-S", "-c", FROM_PYTHON, call, name, repr(more)], cwd=place.work, env=ENVIRONMENT, capture_output=True, text=True, timeout=SECONDS)
            lines = [] if run.stdout.startswith(wanted) else [f"said: {run.stdout!r}, {run.stderr!r}"]
            lines += [] if content is None or (place.work / name).read_bytes() == content and place.names() == {name, output} - {None} and not place.parts() else [f"files {place.names()}"]
            lines += [] if not wanted.startswith(f"{output}") or output not in place.names() or is_of(texts, call, content, more, (place.work / output).read_bytes()) else ["another content"]
            lines += ["the old one was changed"] if there and "force" not in more and (place.work / output).read_bytes() != there else []
            wrong += [f"{call} {name} {more}: {line}" for line in lines]
    return wrong


CHECKS = (names, lines, streams_that_end, progress, nothing_around, little_memory, quick_start, modules_of_the_folder, from_python)


def checks(texts):
    for check in CHECKS:
        yield check.__name__.replace("_", " "), lambda check=check: check(texts)
