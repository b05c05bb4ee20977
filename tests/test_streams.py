"""The program as a process: streams that are closed, full, cut off or without end, output in time, signals, and system calls that fail."""

import os
import re
import select
import shutil
import signal
import subprocess
import tempfile
import time
import unittest
from pathlib import Path

from runner import PROGRAM, SAMPLE, files_in, need, preloaded, run
from texts import BAD_INDICATOR, COMPACT_FIVE, COMPACT_LONG, DATED, EACH, FIVE, H, K, MANY, epoch, full, text

SECONDS = 60  # in which each of these runs is to end
WINDOW, LONGEST = 18_432, 8192  # bytes that the reader holds at once (crates/crx_lines/src/window.rt), and of a line's content
BUFFER = 65536  # bytes that a run over files writes at once
WRITE_FAILED = rb"ERROR line [0-9]+ code 21: write failed\n"
READ_FAILED = rb"ERROR line [0-9]+ code 20: read failed\n"
EPOCHS = [text(epoch(second % 10, 1), f"G01  {20000000 + 1000 * second}.000") for second in range(30)]
FIRST_EPOCH = text(*K, *H, full(0, "G01"), "", "3&20000000000")


class Folder(unittest.TestCase):
    def setUp(self):
        kept = tempfile.TemporaryDirectory()
        self.addCleanup(kept.cleanup)
        self.folder = Path(kept.name)

    def run_shell(self, script, words, given=b"", **more):
        """Runs a line of bash that calls the program as `"$@"`, in the test's folder."""
        command = ["bash", "-o", "pipefail", "-c", script, "bash", PROGRAM, *words]
        done = subprocess.run(command, input=given, cwd=self.folder, timeout=SECONDS, **{"stdout": subprocess.PIPE, "stderr": subprocess.PIPE, **more})
        return done.stdout, done.stderr, done.returncode


class Streams(Folder):
    def assert_write_failed(self, answer, output=b""):
        self.assertEqual((answer[0] or b"", answer[2]), (output, 1))
        self.assertRegex(answer[1], rb"\A" + WRITE_FAILED + rb"\Z")

    def test_full_devices(self):
        with open("/dev/full", "wb") as device:
            self.assert_write_failed(self.run_shell('"$@"', DATED, FIVE, stdout=device))
            self.assertEqual(self.run_shell('"$@"', ["--help"], stdout=device)[1:], (text("ERROR line 0 code 21: write failed"), 1))

    def test_a_full_device_by_name(self):
        for words, source, target, given, line in ((DATED, "a.rnx", "a.crx", FIVE, 13), (["crx2rnx"], "b.crx", "b.rnx", COMPACT_FIVE, 20)):
            with self.subTest(source):
                (self.folder / source).write_bytes(given)
                (self.folder / target).symlink_to("/dev/full")
                self.assertEqual(run(*words, "-f", source, cwd=self.folder), (b"", text(f"ERROR line {line} code 21: write failed"), 1))

    def test_pipes_that_nobody_reads(self):
        nobody, closed = os.pipe()
        os.close(nobody)
        self.assert_write_failed(self.run_shell('"$@"', DATED, FIVE, stdout=closed))
        os.close(closed)
        self.assert_write_failed(self.run_shell('"$@" | head -n 1', ["crx2rnx"], COMPACT_LONG), text(H[0]))

    def test_closed_streams(self):
        for script, words, given, wanted in (
            ('exec "$@" <&-', DATED, b"", (b"", text("ERROR line 1 code 20: read failed"), 1)),
            ('exec "$@" 2>&-', DATED, b"", (b"", b"", 1)),
            ('exec "$@" 2>&-', [*DATED, "-s"], BAD_INDICATOR, (FIRST_EPOCH, b"", 1)),
            ('exec "$@" 2>&-', EACH, text(*H), (text(*K, *H), b"", 0)),
            ('exec "$@" 2>&-', ["rnx2crx", "-e", "0"], b"", (b"", b"", 1)),
        ):
            with self.subTest(script, words=words):
                self.assertEqual(self.run_shell(script, words, given), wanted)
        self.assert_write_failed(self.run_shell('exec "$@" >&-', DATED, FIVE))

    def test_closed_streams_and_files(self):
        """No message goes into the output file, which is opened where a closed stream was."""
        (self.folder / "a.rnx").write_bytes(BAD_INDICATOR)
        for words, closed, status in ((["-s"], "2>&-", 1), (["-s"], "<&- 2>&-", 1), ([], "<&- >&- 2>&-", 1), (["-s"], "<&- >&-", 2)):
            with self.subTest(closed, words=words):
                _, messages, ended = self.run_shell(f'exec "$@" {closed}', [*DATED, "-f", *words, "a.rnx"])
                output = (self.folder / "a.crx").read_bytes()
                self.assertEqual((ended, output if status == 1 else output[: len(FIRST_EPOCH)]), (status, FIRST_EPOCH))
                self.assertNotRegex(output, b"WARNING|ERROR")
                self.assertEqual(messages, b"" if "2>&-" in closed else text("WARNING line 7 code 18: bad indicator"))

    def test_an_output_that_cannot_be_made(self):
        """The system lets the run have five files open: the streams, a place, and the input."""
        for words, source, target, given in ((DATED, "a.rnx", "a.crx", FIVE), (["crx2rnx"], "a.crx", "a.rnx", COMPACT_FIVE)):
            with self.subTest(source):
                (self.folder / source).write_bytes(given)
                self.assertEqual(self.run_shell('ulimit -n 5 && exec "$@"', [*words, source]), (b"", text(f"ERROR: cannot create {target}"), 1))
                self.assertEqual(files_in(self.folder), {source: given})
                (self.folder / source).unlink()

    def test_a_folder_in_place_of_an_input(self):
        for words, name in ((DATED, "a.rnx"), (["crx2rnx"], "a.crx"), (["check"], "b.rnx")):
            with self.subTest(name):
                (self.folder / name).mkdir()
                self.assertEqual(run(*words, name, cwd=self.folder), (b"", text(f"ERROR: cannot read {name}"), 1))
                self.assertEqual([path.name for path in self.folder.iterdir()], [name])
                (self.folder / name).rmdir()

    def test_a_file_that_shrinks(self):
        """A file that is cut off once its first part was read: the whole epochs before the cut are written, and no part of one."""
        path = self.folder / "a.rnx"
        path.write_bytes(MANY)
        whole = run(*DATED, "-", path)[0]
        with subprocess.Popen([PROGRAM, *DATED, "-", path], stdout=subprocess.PIPE, stderr=subprocess.PIPE) as process:
            first = os.read(process.stdout.fileno(), 1)
            time.sleep(0.5)  # it waits now, since nobody reads what it writes
            os.truncate(path, 1000)
            rest, messages = process.communicate(timeout=SECONDS)
        output = first + rest
        # A cut right after the identifier leaves the line of a missing value, which makes the last three lines another epoch's.
        front = output if whole.startswith(output) or not output.endswith(b"\n\n") else b"".join(output.splitlines(keepends=True)[:-3])
        self.assertTrue(whole.startswith(front) and output.endswith(b"\n") and len(output) < len(whole), output[-60:])
        if process.returncode == 0:
            self.assertEqual(messages, b"")
        else:
            self.assertEqual(process.returncode, 1)
            self.assertRegex(messages, rb"\AERROR line [0-9]+ code 1[01359]: [a-z ]+\n\Z")

    def test_a_signal(self):
        """A run that waits for input and is asked to end."""
        with subprocess.Popen([PROGRAM, *DATED], stdin=subprocess.PIPE, stdout=subprocess.PIPE, stderr=subprocess.PIPE) as process:
            process.stdin.write(FIVE)
            process.stdin.flush()
            time.sleep(0.2)
            self.assertIsNone(process.poll())
            process.send_signal(signal.SIGTERM)
            self.assertEqual(process.wait(timeout=SECONDS), -signal.SIGTERM)

    def endless(self, words, first, repeated, lines):
        """A run over an input without end, of whose output so many lines are read: these, the messages, the status."""
        (self.folder / "start").write_bytes(first)
        with subprocess.Popen(["sh", "-c", 'cat "$0"; exec yes "$1"', self.folder / "start", repeated], stdout=subprocess.PIPE) as feed:
            process = subprocess.Popen([PROGRAM, *words], stdin=feed.stdout, stdout=subprocess.PIPE, stderr=subprocess.PIPE)
            feed.stdout.close()
            read = b"".join(process.stdout.readline() for _ in range(lines))
            process.stdout.close()
            try:
                process.wait(timeout=SECONDS)
                return read, process.stderr.read(), process.returncode
            finally:
                process.kill()
                process.wait()
                process.stderr.close()
                feed.kill()

    def test_endless_noise(self):
        """Lines without end of which the first is wrong."""
        no_rinex, not_compact = "code 3: missing version line", "code 8: not compact RINEX 3.0"
        for words, message in ((DATED, no_rinex), (["check"], no_rinex), (["crx2rnx"], not_compact)):
            with self.subTest(words[0]):
                self.assertEqual(self.endless(words, b"", "y", 1), (b"", text(f"ERROR line 1 {message}"), 1))

    def test_endless_epochs(self):
        """Epochs without end, whose reader ends after some lines."""
        more = "\n".join([epoch(5, 1), "G01  20000408.000"])
        front = COMPACT_FIVE[: COMPACT_FIVE.index(b"0\n" + b" " * 20 + b"4")]
        for words, first, repeated, wanted in ((["crx2rnx"], COMPACT_FIVE, "\n\n0", FIVE), (DATED, FIVE, more, front)):
            with self.subTest(words[0]):
                count = wanted.count(b"\n") if words != DATED else 13
                self.assert_write_failed(self.endless(words, first, repeated, count), b"".join(wanted.splitlines(keepends=True)[:count]))

    def test_interrupted_reads(self):
        """An input whose every read is interrupted a thousand times: the same output, by standard input and by a name."""
        (self.folder / "a.rnx").write_bytes(FIVE)
        for words, given in ((DATED, FIVE), ([*DATED, "-", "a.rnx"], b"")):
            with self.subTest(words=words):
                self.assertEqual(run(*words, given=given, cwd=self.folder, env=preloaded(INTERRUPTIONS="1000")), (COMPACT_FIVE, b"", 0))

    def test_writes_of_one_byte(self):
        """Help, an output and the line of a refusal, where each write takes one byte: they are the same."""
        for words in (["--help"], ["rnx2crx", "--help"], ["crx2rnx", "--help"], ["check", "--help"], DATED, ["rnx2crx", "-x"], ["check", "missing"]):
            with self.subTest(words=words):
                whole = run(*words, given=FIVE)
                self.assertGreater(len(whole[0] + whole[1]), 20)
                self.assertEqual(run(*words, given=FIVE, env=preloaded(SHORT="1")), whole)


# ---- output in time


def whole_output(words, given):
    """What a run over a file writes, and the messages."""
    with tempfile.TemporaryFile() as file:
        file.write(given)
        file.seek(0)
        done = subprocess.run([PROGRAM, *words], stdin=file, capture_output=True, timeout=SECONDS)
        return done.stdout, done.stderr


def read_for(stream, count):
    """So many bytes of a pipe, or those that came in time."""
    got, until = b"", time.monotonic() + SECONDS
    while len(got) < count and (left := until - time.monotonic()) > 0:
        if not select.select([stream], [], [], left)[0]:
            break
        more = os.read(stream.fileno(), count - len(got))
        if not more:
            break
        got += more
    return got


class InTime(Folder):
    """Fed through a pipe that stays open, a run has written what each epoch makes before the next is fed, and warnings come after the
    output before them. Over files it makes no more calls for that."""

    def fed_one_at_a_time(self, words, parts, pieces, fifo):
        """Feeds parts one at a time, each in `pieces` pieces: the output of a part is read before the next one is fed. `fifo`: the name
        of a FIFO that is the input, instead of a pipe at standard input."""
        given, read = b"", b""
        with subprocess.Popen([PROGRAM, *words, *(["-", fifo] if fifo else [])], stdin=subprocess.PIPE, stdout=subprocess.PIPE, stderr=subprocess.PIPE) as process:
            self.addCleanup(process.kill)
            feed = open(os.open(fifo, os.O_RDWR), "wb") if fifo else process.stdin  # to open it so doesn't wait for its reader
            for part in parts:
                size = -(-len(part) // pieces)
                for start in range(0, len(part), size):
                    feed.write(part[start : start + size])
                    feed.flush()
                    time.sleep(0.005 if pieces > 1 else 0)
                given += part
                wanted = whole_output(words, given)[0]
                read += read_for(process.stdout, len(wanted) - len(read))
                if read != wanted:
                    process.kill()
                self.assertEqual(read, wanted)
            feed.close()
            answer = read + process.stdout.read(), process.stderr.read()
        self.assertEqual(answer, whole_output(words, given))

    def test_each_epoch(self):
        """Both ways, over the header and the first epochs of the sample: through a pipe, and through a FIFO that is given by its name."""
        lines = SAMPLE.read_bytes().splitlines(keepends=True)
        starts = [at for at, line in enumerate(lines) if line.startswith(b">")][:7]
        parts = [b"".join(lines[start:end]) for start, end in zip([0, *starts], starts)]
        os.mkfifo(fifo := str(self.folder / "fifo"))
        for words in (DATED, EACH):
            outputs = [b"", *(whole_output(words, b"".join(parts[: k + 1]))[0] for k in range(len(parts)))]
            compact = [after[len(before) :] for before, after in zip(outputs, outputs[1:])]
            for command, fed in ((words, parts), (["crx2rnx"], compact)):
                for pieces, name in ((1, None), (3, None), (1, fifo)):
                    with self.subTest(words=command, pieces=pieces, name=name):
                        self.fed_one_at_a_time(command, fed, pieces, name)

    def test_warnings_in_order(self):
        """If output and messages go to one pipe, each warning comes after the output of the lines before it, and before that of those
        after it."""
        before = BAD_INDICATOR[: BAD_INDICATOR.rindex(b">", 0, BAD_INDICATOR.index(b"20000100.500&"))]
        for given in (BAD_INDICATOR, BAD_INDICATOR + b"".join(EPOCHS)):
            output, messages = whole_output([*DATED, "-s"], given)
            front = whole_output([*DATED, "-s"], before)[0]
            self.assertEqual((messages.count(b"WARNING"), output[: len(front)]), (1, front))
            both = self.run_shell('"$@" 2>&1', [*DATED, "-s"], given)[0]
            self.assertEqual(both, front + messages + output[len(front) :])

    def test_an_error_in_order(self):
        self.assertEqual(self.run_shell('"$@" 2>&1', DATED, BAD_INDICATOR)[0], FIRST_EPOCH + text("ERROR line 7 code 18: bad indicator"))

    def test_an_output_that_nobody_reads(self):
        """A run whose output nobody reads any more ends with what is fed next, while its input stays open."""
        head, end, rest = COMPACT_FIVE.partition(b"END OF HEADER\n")
        rest = rest.splitlines(keepends=True)
        compact = [head + end, *[b"".join(rest[k : k + 3]) for k in range(0, 9, 3)]]
        for words, parts in ((DATED, [text(*H), *EPOCHS[:3]]), (["crx2rnx"], compact)):
            with self.subTest(words[0]), subprocess.Popen([PROGRAM, *words], stdin=subprocess.PIPE, stdout=subprocess.PIPE, stderr=subprocess.PIPE) as process:
                self.addCleanup(process.kill)
                process.stdin.write(parts[0] + parts[1])
                process.stdin.flush()
                wanted = whole_output(words, parts[0] + parts[1])[0]
                self.assertEqual(read_for(process.stdout, len(wanted)), wanted)
                process.stdout.close()
                process.stdin.write(parts[2])
                process.stdin.flush()
                self.assertEqual(process.wait(timeout=SECONDS), 1)
                last = (parts[0] + parts[1] + parts[2]).count(b"\n")
                self.assertEqual(process.stderr.read(), text(f"ERROR line {last} code 21: write failed"))

    def test_calls_over_files(self):
        """Over files the output is written a buffer at a time, and nothing is asked but once what kind of file the input is."""
        need("strace")
        compact = whole_output(DATED, MANY)[0]
        for words, given, source in ((DATED, MANY, "a.rnx"), (["crx2rnx"], compact, "a.crx"), (["check"], MANY, "a.rnx")):
            whole = whole_output(words, given)[0]
            for named in (False, True):
                with self.subTest(words=words, named=named), tempfile.TemporaryDirectory() as name:
                    folder = Path(name)
                    (folder / source).write_bytes(given)
                    with (folder / source).open("rb") as opened, (folder / "out").open("wb") as target:
                        command = ["strace", "-o", folder / "trace", PROGRAM, *words, *([source] if named else [])]
                        subprocess.run(command, cwd=folder, stdin=opened, stdout=target, timeout=SECONDS)
                    calls = re.findall(r"^(\w+)\((\d?)", (folder / "trace").read_text(), re.M)
                    writes, reads, asked = (sum(is_one(call) for call, _ in calls) for is_one in ("write".__eq__, "read".__eq__, lambda call: "stat" in call))
                    self.assertTrue(0 < writes <= -(-len(whole) // BUFFER) + 1, writes)
                    self.assertTrue(0 < reads <= len(given) // (WINDOW - LONGEST - 2) + 4, reads)
                    self.assertTrue(asked <= 4, asked)


# ---- system calls that fail

CALL = re.compile(r"(?P<name>read|write)\((?P<stream>\d+)<[^>]*>.*?\) += (?P<answer>.*)")
OPENING = "open,openat,openat2,creat,unlink,unlinkat,rename,renameat,renameat2,link,linkat,symlink,symlinkat,mkdir,mkdirat,truncate,chmod,fchmodat"
READ, MADE, EMPTIED = "O_RDONLY", "O_WRONLY|O_CREAT|O_EXCL", "O_WRONLY|O_CREAT|O_TRUNC"


class Traced:
    """A run below strace, whose input is a file, so that each run reads in the same pieces: its calls on open files in order, each a
    name, a stream and an answer; what it wrote, and how it ended."""

    def __init__(self, folder, words, given, fault=None):
        (folder / "a.crx").unlink(missing_ok=True)
        command = ["strace", "-y", "-o", folder / "trace", "-e", "trace=read,write", *(["-e", f"inject={fault}"] if fault else []), PROGRAM, *words]
        (folder / "a.rnx").write_bytes(given)
        with (folder / "a.rnx").open("rb") as source:
            done = subprocess.run(command, cwd=folder, stdin=source, capture_output=True, timeout=SECONDS)
        self.status, self.output, self.messages = done.returncode, done.stdout, done.stderr
        self.file = (folder / "a.crx").read_bytes() if (folder / "a.crx").exists() else None
        found = (CALL.match(line) for line in (folder / "trace").read_text().splitlines())
        self.calls = [(call["name"], int(call["stream"]), call["answer"]) for call in found if call]

    def places(self, name, stream):
        """Which of all calls of a name, from 1, are those of a stream."""
        return [k for k, call in enumerate([call for call in self.calls if call[0] == name], 1) if call[1] == stream]

    def writes_after_fault(self, stream):
        at = max(k for k, call in enumerate(self.calls) if "INJECTED" in call[2])
        return [call for call in self.calls[at + 1 :] if call[:2] == ("write", stream)]


class Faults(Folder):
    """A system call fails: a message, the status, the text that was written before, and nothing is written after a write that failed."""

    def setUp(self):
        need("strace")
        super().setUp()

    def traced(self, words, given, fault=None):
        return Traced(self.folder, words, given, fault)

    def assert_write_failed(self, failed, wrote, whole, stream=1):
        self.assertEqual(failed.status, 1)
        self.assertRegex(failed.messages, rb"\A" + WRITE_FAILED + rb"\Z")
        self.assertTrue(whole.startswith(wrote) and len(wrote) < len(whole), f"{len(wrote)} bytes of {len(whole)}")
        self.assertEqual(failed.writes_after_fault(stream), [])

    def test_each_write_fails(self):
        for words, given, least in ((DATED, MANY, 3), (["crx2rnx"], COMPACT_LONG, 3), (["check"], FIVE, 1), (["--help"], b"", 1)):
            good = self.traced(words, given)
            places = good.places("write", 1)
            self.assertEqual((good.status, len(places) >= least), (0, True), words)
            for place in places:
                for fault in ("error=EIO", "error=ENOSPC", "retval=0"):
                    with self.subTest(words=words, place=place, fault=fault):
                        failed = self.traced(words, given, f"write:{fault}:when={place}")
                        self.assert_write_failed(failed, failed.output, good.output)

    def test_each_write_to_a_file_fails(self):
        good = self.traced([*DATED, "a.rnx"], MANY)
        stream = max(call[1] for call in good.calls if call[0] == "write")
        places = good.places("write", stream)
        self.assertEqual((good.status, len(places) >= 3), (0, True))
        for place in places:
            with self.subTest(place=place):
                failed = self.traced([*DATED, "a.rnx"], MANY, f"write:error=EIO:when={place}")
                self.assert_write_failed(failed, failed.file or b"", good.file, stream)

    def test_each_read_fails(self):
        for words, given in ((DATED, MANY), (["crx2rnx"], COMPACT_FIVE), (["check"], FIVE)):
            good = self.traced(words, given)
            self.assertTrue(good.places("read", 0))
            for place in good.places("read", 0):
                with self.subTest(words=words, place=place):
                    failed = self.traced(words, given, f"read:error=EIO:when={place}")
                    self.assertEqual(failed.status, 1)
                    self.assertRegex(failed.messages, rb"\A" + READ_FAILED + rb"\Z")
                    self.assertTrue(good.output.startswith(failed.output))

    def test_each_message_fails(self):
        """The status is 1, no other message is tried, and what was written before it is all there."""
        for words in ([*DATED, "-s"], DATED):
            good = self.traced(words, BAD_INDICATOR)
            places = good.places("write", 2)
            self.assertTrue(places)
            for before, place in enumerate(places):
                with self.subTest(words=words, place=place):
                    failed = self.traced(words, BAD_INDICATOR, f"write:error=EIO:when={place}")
                    self.assertEqual((failed.status, failed.messages), (1, b"".join(good.messages.splitlines(keepends=True)[:before])))
                    self.assertTrue(failed.output and good.output.startswith(failed.output))
                    self.assertEqual(failed.writes_after_fault(2), [])

    def test_interrupted_calls_are_made_again(self):
        good = self.traced(DATED, MANY)
        for call, stream in (("write", 1), ("read", 0)):
            self.assertTrue(good.places(call, stream))
            for place in good.places(call, stream):
                with self.subTest(call, place=place):
                    again = self.traced(DATED, MANY, f"{call}:error=EINTR:when={place}")
                    self.assertEqual((again.status, again.output, again.messages), (0, good.output, b""))

    def test_files_that_a_run_opens(self):
        """After the root folder, once, if no standard stream is closed (docs/DECISIONS.md), a run opens the file that is read and then
        the one that is written, each once, by that very name and as the options say, and no other; it removes, renames and links none."""
        work = self.folder / "work"
        work.mkdir()
        for words, wanted in (
            ([*DATED, "a.rnx"], [("a.rnx", READ), ("a.crx", MADE)]),
            ([*DATED, "-f", "a.rnx"], [("a.rnx", READ), ("a.crx", EMPTIED)]),
            ([*DATED, "-", "a.rnx"], [("a.rnx", READ)]),
            (["check", "a.rnx"], [("a.rnx", READ)]),
            (["crx2rnx", "missing.crx"], [("missing.crx", READ)]),
            ([*DATED, " a.rnx"], [(" a.rnx", READ), (" a.crx", MADE)]),
            (["check", "missing "], [("missing ", READ)]),
            (DATED, []),
            (["rnx2crx", "--help"], []),
            (["rnx2crx", "-x", "a.rnx"], []),
        ):
            with self.subTest(words=words):
                for path in work.iterdir():
                    path.unlink()
                for given in ("a.rnx", " a.rnx"):
                    (work / given).write_bytes(FIVE)
                command = ["strace", "-f", "-o", self.folder / "trace", "-e", f"trace={OPENING}", PROGRAM, *words]
                subprocess.run(command, cwd=work, stdin=subprocess.DEVNULL, capture_output=True, timeout=SECONDS)
                lines = [line for line in (self.folder / "trace").read_text().splitlines() if "exited with" not in line]
                found = [re.search(r'"(.*?)"(?:, ([A-Z_|]+))?', line) for line in lines]
                opened = [(call[1], re.sub(r"\|O_(CLOEXEC|NOCTTY)", "", call[2] or "another call")) for call in found if call]
                self.assertEqual(opened[opened.index(("/", READ)) + 1 :], wanted)  # what is opened before is the loader's

    def test_a_close_that_fails_is_not_seen(self):
        """All is written, the status is 0, there is no message (docs/GUARANTEES.md)."""
        shutil.copy(SAMPLE, self.folder / "a.rnx")
        closing = ["strace", "-f", "-y", "-o", self.folder / "trace", "-P", self.folder / "a.crx", "-e", "trace=close", "-e", "inject=close:error=ENOSPC"]
        done = subprocess.run([*closing, PROGRAM, *DATED, "a.rnx"], cwd=self.folder, capture_output=True, timeout=SECONDS)
        self.assertEqual((done.returncode, done.stderr), (0, b""))
        self.assertEqual(run("crx2rnx", given=(self.folder / "a.crx").read_bytes())[0], SAMPLE.read_bytes())
        self.assertIn("INJECTED", (self.folder / "trace").read_text())
