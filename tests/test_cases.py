"""Whole runs as texts: each cases/SUBJECT/NAME.case is a test of its own (cases/README.md explains the form), and so are runs whose texts
are too long for one.

A case with an input runs over standard input, at once, byte by byte and in small pieces, and over a file of that input. A case without
one runs in a folder that has its files. In the environment: EMULATED=1, the program runs in an emulator, whose own stack isn't limited;
PIECES=0, it can't read from sockets.
"""

import difflib
import os
import re
import resource
import shlex
import socket
import subprocess
import tempfile
import threading
import unittest
from dataclasses import dataclass, field
from pathlib import Path
from typing import Optional

from runner import LIMITS, PROGRAM, TESTS, TOP, files_in, with_messages
from texts import H, K, NAMES, SYSTEMS, epoch, full, header, text

SECONDS = 60  # in which each run is to end
STACK = 128 * 1024  # bytes of stack that each run has
PIECES = (1, 7)  # bytes that a read of standard input gives, beside all at once
SHORT = {"<header>": H, "<first two lines>": K}
SECTIONS = r"arguments|input|output|messages|status|expansion|file \S+|file \S+ afterwards"
# what a file is called that a filter or the check is to read, and what the filter calls the file that it writes
FILES = {"rnx2crx": ("given.rnx", "given.crx"), "crx2rnx": ("given.crx", "given.rnx"), "check": ("given.rnx", None)}


@dataclass
class Case:
    arguments: list  # one run a line
    input: Optional[bytes] = None
    output: bytes = b""
    messages: bytes = b""
    status: int = 0
    expansion: Optional[bytes] = None  # what crx2rnx makes of the output
    files: dict = field(default_factory=dict)  # that stand there before
    left: dict = field(default_factory=dict)  # that are new or others afterwards
    pieces: tuple = PIECES


@dataclass
class Answer:
    output: bytes
    messages: bytes
    status: int
    files: dict


def limit_of(words):
    """The number of a limit by its name, or the next one."""
    name, *more = words.split(" + ")
    return LIMITS[name] + sum(map(int, more))


def text_of(lines, ending):
    """The bytes of lines with their ends: a short name stands for its lines, `<to LIMIT>` at a line's end for blanks up to so many
    bytes, and `<LIMIT>` for its number; a limit is named as in limits.rt, and one more is `LIMIT + 1`."""
    whole = []
    for line in lines:
        named = re.sub(r"<(\w+_LIMIT(?: \+ 1)?)>", lambda m: str(limit_of(m[1])), line)
        filled = re.fullmatch(r"(.*)<to (.+)>", named)
        whole += SHORT.get(line, [filled[1].ljust(limit_of(filled[2])) if filled else named])
    return "".join(line + ending for line in whole).encode("latin-1")


def sections_of(path):
    """The sections of a case file, each its name, its remark and its lines; comments stand before the first."""
    sections = []
    for line in path.read_bytes().decode("latin-1").split("\n")[:-1]:
        title = re.fullmatch(rf"== ({SECTIONS})(, [a-zA-Z ]+)?", line)
        if title:
            sections.append((title[1], title[2] or "", []))
        elif sections:
            sections[-1][2].append(line)
        elif not line.startswith("#"):
            raise ValueError(f"{path.name}: neither a comment nor a section: {line}")
    return sections


def read_case(path):
    case = Case([])
    for name, remark, lines in sections_of(path):
        content = text_of(lines, "\r\n" if remark == ", lines end with CR LF" else "\n")
        if remark == ", the last line without an end":
            content = content[:-1]
        if name == "arguments":
            case.arguments = lines
        elif name == "status":
            case.status = int(lines[0])
        elif name == "expansion":
            case.expansion = case.input if lines == ["<input>"] else content
        elif name.startswith("file "):
            (case.left if name.endswith(" afterwards") else case.files)[name.split()[1]] = content
        else:
            setattr(case, name, content)
    if not case.arguments:
        raise ValueError(f"{path.name}: it has no arguments")
    return case


# ---- runs


def send(sender, data, piece):
    """Sends a text, so many bytes a message: a read gives one message."""
    with sender:
        try:
            for place in range(0, len(data), piece):
                sender.sendall(data[place : place + piece])
        except ConnectionError:
            pass  # the run ended before it read all


def small_stack():
    """Leaves the program that is started next so much stack."""
    if not os.environ.get("EMULATED"):
        resource.setrlimit(resource.RLIMIT_STACK, (STACK, resource.getrlimit(resource.RLIMIT_STACK)[1]))


def run(words, data=b"", files=None, piece=None):
    """Runs the program in a folder with these files, on a small stack: standard input at once, or so many bytes a read."""
    left, output, messages, status = with_messages(words, lambda: run_once(words, data, files, piece))
    return Answer(output, messages, status, left)


def run_once(words, data=b"", files=None, piece=None, program=PROGRAM):
    with tempfile.TemporaryDirectory() as name:
        folder = Path(name)
        for path, content in (files or {}).items():
            (folder / path).parent.mkdir(parents=True, exist_ok=True)
            (folder / path).write_bytes(content)
        how = {"capture_output": True, "cwd": folder, "timeout": SECONDS, "preexec_fn": small_stack}
        if piece is None:
            ended = subprocess.run([program, *words], input=data, **how)
        else:
            sender, receiver = socket.socketpair(socket.AF_UNIX, socket.SOCK_SEQPACKET)
            sending = threading.Thread(target=send, args=(sender, data, piece))
            sending.start()
            with receiver:
                ended = subprocess.run([program, *words], stdin=receiver, **how)
            sending.join()
        return files_in(folder), ended.stdout, ended.stderr, ended.returncode


def difference(what, got, wanted):
    """What differs in a text, as lines: those that it has are marked by -, those that were wanted by +."""
    if got == wanted:
        return []
    shown = [[repr(line)[2:-1] for line in content.split(b"\n")] for content in (got, wanted)]
    return list(difflib.unified_diff(*shown, f"{what} as it is", f"{what} as it is to be", lineterm="", n=1))


def compared(how, answer, wanted):
    """What is wrong in a run, as lines."""
    wrong = difference("output", answer.output, wanted.output) + difference("messages", answer.messages, wanted.messages)
    if answer.status != wanted.status:
        wrong.append(f"status {answer.status}, to be {wanted.status}")
    for path in sorted({*answer.files, *wanted.files}):
        wrong += difference(f"file {path}", answer.files.get(path, b"(none)"), wanted.files.get(path, b"(none)"))
    return [f"{how}:", *wrong] if wrong else []


def over_files(words, case):
    """A run over a file of the case's input, in place of standard input: the output is in the file that is named after it."""
    source, target = FILES[words[0]]
    files = {source: case.input}
    # (no file is made where the arguments themselves are refused)
    left = {target: case.output} if target and not case.messages.startswith(b"ERROR: ") else {}
    wanted = Answer(b"" if target else case.output, case.messages, case.status, {**files, **left})
    return compared(f"{shlex.join(words)} {source}", run([*words, source], files=files), wanted)


def in_all_ways(words, data, wanted, pieces):
    """Runs over standard input, at once and in pieces."""
    wrong = []
    for piece in (None, *(() if os.environ.get("PIECES") == "0" else pieces)):
        how = shlex.join(words) + (f", {piece} bytes a read" if piece else "")
        wrong += compared(how, run(words, data, piece=piece), wanted)
    return wrong


def wrong_in(case):
    """What is wrong in the runs of a case, as lines."""
    wrong = []
    for line in case.arguments:
        words = shlex.split(line)
        if case.input is None:
            wanted = Answer(case.output, case.messages, case.status, {**case.files, **case.left})
            wrong += compared(line, run(words, files=case.files), wanted)
        else:
            wrong += in_all_ways(words, case.input, Answer(case.output, case.messages, case.status, {}), case.pieces)
            wrong += over_files(words, case)
    if case.expansion is not None:
        for words in (["crx2rnx"], ["crx2rnx", "-s"]):
            wrong += in_all_ways(words, case.output, Answer(case.expansion, b"", 0, {}), case.pieces)
    return wrong


# ---- texts that are too long for a case file


def all_set(systems, types, names):
    """An epoch of these satellites, with all values and all indicators."""
    head = header(systems, types)
    standard = text(*head, f"> 2024 01 01 00 00  0.0000000  0{len(names):3}", *(name + "  20000000.00117" * types for name in names))
    compact = text(*K, *head, full(0, "".join(names)), "", *["3&20000000001 " * types + "17" * types] * len(names))
    return Case(["rnx2crx --date D"], standard, compact, expansion=standard, pieces=(1021,))


def a_thousand_epochs():
    """One satellite whose values are squares: a first difference of 1.000, a second one of 2.000, and third ones of 0."""
    epochs = [f"> 2024 01 01 {second // 3600:02} {second // 60 % 60:02} {second % 60:2}.0000000  0  1" for second in range(1000)]
    standard = text(*H, *(line for place, head in enumerate(epochs) for line in (head, f"G01{20000000 + place * place:10}.000")))
    compact = text(*K, *H, epochs[0] + "      G01", "", "3&20000000000")
    for place in range(1, 1000):
        marks = "".join(" " if old == new else "&" if new == " " else new for old, new in zip(epochs[place - 1], epochs[place])).rstrip()
        compact += text(marks, "", {1: "1000", 2: "2000"}.get(place, "0"))
    return Case(["rnx2crx --date D"], standard, compact, expansion=standard, pieces=(1021,))


def one_satellite_more_than_there_are():
    """A 771st satellite can't have an identifier of its own."""
    most = LIMITS["TYPES_LIMIT"]
    head = header(SYSTEMS, most)
    data = text(*head, epoch(0, len(NAMES) + 1), *(name + "  20000000.00117" * most for name in [*NAMES, "G 0"]))
    return Case(["rnx2crx --date D"], data, text(*K, *head), b"ERROR line 781 code 14: repeated satellite\n", 1, pieces=())


def long_cases():
    """The cases that have no file, by name."""
    return {
        "the_greatest_epoch": all_set(SYSTEMS, LIMITS["TYPES_LIMIT"], NAMES),  # all 770 identifiers, with as many types each as may be
        "a_hundred_satellites_of_a_hundred_types": all_set("GE", 100, [f"G{number:02}" for number in range(1, 100)] + ["E01"]),
        "one_satellite_more_than_there_are": one_satellite_more_than_there_are(),
        "a_thousand_epochs": a_thousand_epochs(),
    }


def cases():
    """The case files, by name."""
    return sorted(TESTS.glob("cases/*/*.case"), key=lambda path: path.stem)


class Whole(unittest.TestCase):
    """A case as a test."""

    def __init__(self, name, read):
        super().__init__("runTest")
        self.name, self.read = name, read

    def id(self):
        return self.name

    def runTest(self):
        wrong = wrong_in(self.read())
        if wrong:
            self.fail("\n".join(wrong))


@unittest.skipIf(os.environ.get("EMULATED"), "the emulator's own stack isn't limited")
class Stack(unittest.TestCase):
    def test_stack_of_runs(self):
        """As a shell says it that is run as the program is."""
        self.assertEqual(run_once(["-c", "ulimit -s"], program="/bin/sh")[1], b"%d\n" % (STACK // 1024))


def load_tests(loader, tests, pattern):
    tests.addTests(Whole(str(path.relative_to(TOP)), lambda path=path: read_case(path)) for path in cases())
    tests.addTests(Whole(f"tests/cases/long/{name}", lambda case=case: case) for name, case in long_cases().items())
    return tests
