"""The Python package beside the program: that of the sources over the library that `make library` made, or, with INSTALLED=1 in the
environment, the one that is installed."""

import array
import ctypes
import gc
import gzip
import io
import os
import random
import subprocess
import sys
import tempfile
import threading
import time
import tracemalloc
import unittest
import warnings
import zlib
from datetime import datetime, timezone
from pathlib import Path

from collect import collected
from runner import LIBRARY, SAMPLE, TESTS, TOP, VERSION, need_library, preloaded, run

DATE = "01-Jan-24 00:00"
DATA = SAMPLE.read_bytes()
HEADER, END, EPOCHS = DATA.partition(b"END OF HEADER\n")
HEADER += END
PARTS = [HEADER, *(b">" + epoch for epoch in EPOCHS.split(b">")[1:])]
STRANGE = HEADER + EPOCHS.replace(b"\nG", b"\nX", 1)  # the first epoch has a satellite of another system
CUT_OFF = "the last line has no line end: the file may be cut off"
PIECE = 3000  # bytes of a piece in which memory is refused


def setUpModule():
    global rnxcmp, COMPACT
    if "INSTALLED" not in os.environ:
        need_library()
        os.environ["RNXCMP_LIBRARY"] = str(LIBRARY / "librnxcmp.so.2")
        sys.path.insert(0, str(TOP / "python"))
    import rnxcmp

    sys.dont_write_bytecode = True
    COMPACT = run("rnx2crx", "--date", DATE, given=DATA)[0]


def told(call, *arguments, **more):
    """What a call returns, or its error, and the warnings before that."""
    with warnings.catch_warnings(record=True) as caught:
        warnings.simplefilter("always")
        try:
            found = call(*arguments, **more)
        except rnxcmp.RnxcmpError as error:
            found = error
    return found, caught


def messages_of(found, caught):
    """Warnings and an error as the program writes them."""
    lines = [f"WARNING {one.message}\n" for one in caught] + [f"ERROR {found}\n"] * isinstance(found, rnxcmp.RnxcmpError)
    return "".join(lines).encode()


def measured(call):
    """What a call returns, and the most bytes of memory that Python took for it."""
    tracemalloc.start()
    try:
        return call(), tracemalloc.get_traced_memory()[1]
    finally:
        tracemalloc.stop()


def compacted(content, **more):
    return rnxcmp.rnx2crx(content, date=DATE, **more)


def packed_by_compress(data):
    """A text as compress packs it (`.Z`), in codes of 9 bits: the table is cleared before it would need more."""
    packed, codes = b"\x1f\x9d\x90", 0
    for at in range(0, len(data), 200):
        codes = [*data[at : at + 200], 256]
        codes += [0] * (-len(codes) % 8)  # what stands behind a clearing up to the end of eight codes isn't read
        packed += sum(code << 9 * k for k, code in enumerate(codes)).to_bytes(len(codes) * 9 // 8, "little")
    return packed


def fed(stream, content, piece):
    """The output of a run over pieces of a text; an error of it has the output before."""
    made = b""
    try:
        with stream:
            for at in range(0, len(content), piece):
                made += stream.feed(content[at : at + piece])
            return made + stream.end()
    except rnxcmp.RnxcmpError as error:
        error.output = made + error.output
        raise


class Package(unittest.TestCase):
    def setUp(self):
        kept = tempfile.TemporaryDirectory()
        self.addCleanup(kept.cleanup)
        self.folder = Path(kept.name)

    def raised(self, error, call, *arguments, **more):
        with self.assertRaises(error) as caught:
            call(*arguments, **more)
        return caught.exception


class Filters(Package):
    def test_cases(self):
        """The cases of tests/cases, at once and in pieces."""
        for case in collected():
            data, options = case["input"].encode("latin-1"), case.get("options", [])
            choices = {"skip_strange_epochs": "-s" in options}
            if case["do"] == "compact":
                choices |= {"date": "D", "reinit_every_nth": int(options[options.index("-e") + 1]) if "-e" in options else 0}
            whole, begun = (rnxcmp.rnx2crx, rnxcmp.Stream.compacting) if "date" in choices else (rnxcmp.crx2rnx, rnxcmp.Stream.expanding)
            words = ["rnx2crx", "--date", "D"] if "date" in choices else ["crx2rnx"]
            wanted = run(*words, *options, given=data)[:2]
            for call in (lambda: whole(data, **choices), lambda: fed(begun(**choices), data, 50)):
                with self.subTest(case["name"]):
                    found, caught = told(call)
                    self.assertEqual((getattr(found, "output", found), messages_of(found, caught)), wanted)

    def test_filters(self):
        for content in (DATA, bytearray(DATA), memoryview(DATA)):
            self.assertEqual(compacted(content), COMPACT)
        self.assertEqual(compacted(DATA, reinit_every_nth=2), run("rnx2crx", "-e", "2", "--date", DATE, given=DATA)[0])
        self.assertEqual(rnxcmp.crx2rnx(COMPACT), DATA)
        self.assertEqual((rnxcmp.version(), rnxcmp.__version__), (VERSION, VERSION))
        self.assertLessEqual({*rnxcmp.__all__, "__version__"}, {*dir(rnxcmp)})

    def test_the_date_of_the_moment(self):
        """It is UTC's, wherever the clock is."""
        os.environ["TZ"] = "Asia/Tokyo"
        self.addCleanup(time.tzset)
        self.addCleanup(os.environ.pop, "TZ")
        time.tzset()
        _, second, *others = rnxcmp.rnx2crx(DATA).split(b"\n")
        written = datetime.strptime(second[40:60].decode().strip(), "%d-%b-%y %H:%M").replace(tzinfo=timezone.utc)
        self.assertLess(abs((datetime.now(timezone.utc) - written).total_seconds()), 180)
        self.assertEqual([second[k] for k in (42, 46, 49, 52)], [*b"-- :"])
        self.assertEqual(others, COMPACT.split(b"\n")[2:])

    def test_faults(self):
        bad = COMPACT.replace(b"3&", b"3?", 3)
        for words, call, other, text in (
            (["rnx2crx", "--date", DATE], compacted, rnxcmp.compress, STRANGE),
            (["crx2rnx"], rnxcmp.crx2rnx, rnxcmp.decompress, bad),
        ):
            with self.subTest(words[0]):
                output, messages, _ = run(*words, given=text)
                fault = self.raised(rnxcmp.RnxcmpError, call, text)
                self.assertEqual((f"ERROR {fault}\n".encode(), fault.output), (messages, output))
                self.assertIn(f"line {fault.line} code {fault.code}: ", f"{fault}")
                output, messages, _ = run(*words, "-s", given=text)
                with warnings.catch_warnings(record=True) as caught:
                    warnings.simplefilter("always")
                    self.assertEqual(call(text, skip_strange_epochs=True), output)
                    other(text, skip_strange_epochs=True)
                self.assertEqual(messages_of(None, caught), messages * 2)
                self.assertEqual({(one.category, one.filename) for one in caught}, {(rnxcmp.RnxcmpWarning, __file__)})
        self.assertEqual(self.raised(rnxcmp.RnxcmpError, rnxcmp.rnx2crx, b"").code, 3)
        fault = self.raised(rnxcmp.RnxcmpError, rnxcmp.crx2rnx, b"x\n")
        self.assertEqual((fault.line, fault.code, fault.output), (1, 8, b""))

    def test_many_warnings(self):
        """200 warnings, more than the first room for messages holds, and then a fault that ends the run though faults are skipped."""
        line = EPOCHS[: EPOCHS.index(b"\n") + 1]
        strange, event = line[:32] + b"  1\nX01\n", line[:31] + b"4  1\n" + b"G    0 C1C".ljust(60) + b"SYS / # / OBS TYPES\n"
        content = PARTS[0] + PARTS[1] + strange * 200 + event
        output, messages, _ = run("rnx2crx", "-s", "--date", DATE, given=content)
        self.assertEqual(messages.count(b"\n"), 201)
        for call in (
            lambda: compacted(content, skip_strange_epochs=True),
            lambda: rnxcmp.Stream.compacting(date=DATE, skip_strange_epochs=True).feed(content),
        ):
            fault, caught = told(call)
            self.assertEqual((messages_of(fault, caught), fault.output), (messages, output))
            self.assertEqual((fault.code, fault.line), (6, content.count(b"\n")))

    def test_arguments(self):
        """What is refused, and by which error."""
        for opened in (rnxcmp.rnx2crx, lambda _, **more: rnxcmp.Stream.compacting(**more)):
            for error, choices in (
                *((ValueError, {"date": date}) for date in ("x" * 21, "\u00e9", "a\0b", "a\tb", "\x7f")),
                *((TypeError, {"date": date}) for date in (b"01-Jan-24", 5, DATA)),
                *((ValueError, {"reinit_every_nth": every}) for every in (-1, 2**32)),
                (TypeError, {"reinit_every_nth": 1.5}),
            ):
                with self.subTest(choices):
                    self.raised(error, opened, DATA, **choices)
        for opened in (rnxcmp.rnx2crx, rnxcmp.crx2rnx, rnxcmp.decompress, rnxcmp.compress, lambda _, **more: rnxcmp.Stream.expanding(**more)):
            for length in (0, -1, 2**64):
                self.raised(ValueError, opened, COMPACT if opened is rnxcmp.crx2rnx else gzip.compress(DATA), max_length=length)
        feeds = rnxcmp.Stream.checking().feed, rnxcmp.Stream.checking().outputs
        no_bytes, no_pieces = (5, None, [66]), ("text", Path("text"), io.BytesIO(DATA))
        for calls, contents, error in (
            ((rnxcmp.rnx2crx, rnxcmp.crx2rnx, rnxcmp.check, *feeds), (*no_bytes, array.array("B", b"text")), TypeError),
            (feeds, no_pieces, TypeError),
            ((rnxcmp.decompress, rnxcmp.compress), no_bytes, TypeError),
            (
                (rnxcmp.rnx2crx, rnxcmp.crx2rnx, rnxcmp.check, rnxcmp.explain, rnxcmp.decompress, rnxcmp.compress, rnxcmp.open),
                ("no such file", Path("no such file"), ""),
                FileNotFoundError,
            ),
        ):
            for call, content in ((call, content) for call in calls for content in contents):
                with self.subTest(call, content=content):
                    self.raised(error, call, content)

    def test_views(self):
        """A memoryview is read as bytes() reads it, in whatever order and width its items are."""
        long = compacted(HEADER + EPOCHS * 40)
        wide = array.array("H", long + b"\n" * (len(long) % 2))
        square = memoryview(COMPACT[: len(COMPACT) // 4 * 4]).cast("B", (len(COMPACT) // 4, 4))
        backwards = memoryview(COMPACT[::-1])[::-1]
        for view in (backwards, memoryview(bytes(2 * len(COMPACT)))[::2], memoryview(wide), square, memoryview(bytearray(COMPACT)), memoryview(b"")):
            with self.subTest(view.format, shape=view.shape):
                wanted = told(rnxcmp.crx2rnx, bytes(view))[0]
                for call in (rnxcmp.crx2rnx, lambda view: fed(rnxcmp.Stream.expanding(), view, 2**30)):
                    found = told(call, view)[0]
                    self.assertEqual((f"{found}", getattr(found, "output", found)), (f"{wanted}", getattr(wanted, "output", wanted)))
        self.assertEqual(rnxcmp.crx2rnx(backwards), DATA)

    def test_inputs(self):
        """What the filters read: bytes, a text, a path, and open files, from where they are."""
        path = self.folder / "input"
        for content, other, call in ((DATA, COMPACT, compacted), (COMPACT, DATA, rnxcmp.crx2rnx)):
            path.write_bytes(content)
            for given in (path, str(path), content.decode(), io.BytesIO(content), io.StringIO(content.decode())):
                self.assertEqual(call(given), other, type(given))
            with open(path, "rb") as file:
                self.assertEqual(call(file), other)
                self.assertEqual((file.closed, file.read()), (False, b""))
        self.assertEqual(rnxcmp.decompress(io.BytesIO(gzip.compress(COMPACT))), DATA)
        self.assertEqual([rnxcmp.check(one) for one in (SAMPLE, str(SAMPLE), DATA.decode(), io.BytesIO(DATA))], [rnxcmp.check(DATA)] * 4)

    def test_threads(self):
        """Four at once; and another one goes on while a call is at work."""
        wrong = []

        def work():
            wrong.extend(1 for _ in range(20) if rnxcmp.crx2rnx(compacted(DATA)) != DATA)

        threads = [threading.Thread(target=work) for _ in range(4)]
        for thread in threads:
            thread.start()
        for thread in threads:
            thread.join()
        self.assertEqual(wrong, [])
        long, ticks, ended = HEADER + EPOCHS * 2000, 0, threading.Event()
        threading.Thread(target=lambda: (rnxcmp.check(long), ended.set())).start()
        while not ended.is_set():
            time.sleep(0.001)
            ticks += 1
        self.assertGreater(ticks, 10)


class Limits(Package):
    def test_limits(self):
        """``max_length`` is the most that may come, of a filter and out of what is packed."""
        plain = lambda content, **more: rnxcmp.compress(content, compression="none", **more)
        for call, content, length in (
            (compacted, DATA, len(COMPACT)),
            (rnxcmp.crx2rnx, COMPACT, len(DATA)),
            (rnxcmp.decompress, COMPACT, len(DATA)),
            (rnxcmp.decompress, gzip.compress(COMPACT), len(DATA)),
            (rnxcmp.decompress, gzip.compress(DATA), len(DATA)),
            (rnxcmp.compress, gzip.compress(DATA), len(DATA)),
            (plain, DATA, len(COMPACT)),
        ):
            self.assertEqual(call(content, max_length=length), call(content))
            fault = self.raised(rnxcmp.OutputLimitError, call, content, max_length=length - 1)
            self.assertEqual((isinstance(fault, rnxcmp.RnxcmpError), fault.line, fault.code, fault.output), (True, 0, 0, b""))
        fault = self.raised(rnxcmp.OutputLimitError, rnxcmp.decompress, packed_by_compress(DATA), max_length=len(DATA) - 1)
        self.assertIn(".Z", f"{fault}")

    def test_limits_of_streams(self):
        epochs = [k for k in range(len(DATA)) if DATA.startswith(b"\n>", k)]
        for length in (epochs[5], epochs[5] + 1, epochs[6], len(DATA) - 1):
            stream = rnxcmp.Stream.expanding(max_length=length)
            fault = self.raised(rnxcmp.OutputLimitError, stream.feed, COMPACT)
            self.assertEqual(fault.output, DATA[: max(k + 1 for k in epochs if k < length)])
            self.raised(ValueError, stream.feed, b"")
        whole = rnxcmp.Stream.compacting(date=DATE, max_length=len(COMPACT))
        self.assertEqual(whole.feed(DATA) + whole.end(), COMPACT)

    def test_memory_within_limits(self):
        """With a limit hardly more is asked for than that."""
        bomb = gzip.compress(DATA + b" " * 50_000_000)
        _, most = measured(lambda: self.raised(rnxcmp.OutputLimitError, rnxcmp.decompress, bomb, max_length=100_000))
        self.assertLess(most, 8_000_000)
        long = HEADER + EPOCHS * 2000
        packed = rnxcmp.rnx2crx(long)
        for call, content in ((rnxcmp.rnx2crx, long), (rnxcmp.crx2rnx, packed), (rnxcmp.decompress, packed)):
            _, most = measured(lambda: self.raised(rnxcmp.OutputLimitError, call, content, max_length=1000))
            self.assertLess(most, 300_000)

    def test_usual_limits(self):
        """Where no limit is given an expansion has one, which None lifts; it is made in steps."""
        long, short = HEADER + EPOCHS * 100, PARTS[0] + PARTS[1] * 100
        packed = compacted(long)
        expanded, most = measured(lambda: rnxcmp.crx2rnx(packed))
        self.assertEqual((expanded == long, most < 2.2 * len(long) + 1_000_000), (True, True))
        packed = compacted(short)
        self.assertEqual((len(packed) < 16384, len(short) > 65536, rnxcmp.crx2rnx(packed) == short), (True, True, True))
        bomb = gzip.compress(bytes(70_000_000), 9)
        fault, most = measured(lambda: self.raised(rnxcmp.OutputLimitError, rnxcmp.decompress, bomb))
        self.assertEqual((fault.output, most < 70_000_000), (b"", True))
        self.assertEqual(len(rnxcmp.decompress(bomb, max_length=None)), 70_000_000)


class Streams(Package):
    def test_outputs(self):
        """They come a part at a time, as they are asked for."""
        packed = compacted(HEADER + EPOCHS * 200)
        wanted = rnxcmp.crx2rnx(packed)
        for content in (packed, bytearray(packed), memoryview(packed)):
            stream, lengths = rnxcmp.Stream.expanding(), []

            def is_same():
                at = 0
                for part in (part for given in (lambda: stream.outputs(content), stream.last_outputs) for part in given()):
                    lengths.append(len(part))
                    if wanted[at : at + len(part)] != part:
                        return False
                    at += len(part)
                return at == len(wanted)

            same, most = measured(is_same)
            self.assertEqual((same, 0 < min(lengths), max(lengths) <= 65536, most < 1_000_000), (True, True, True, True))

    def test_parts_that_are_left(self):
        """No part is made before it is asked for, and until all are taken no other call is."""
        packed = compacted(HEADER + EPOCHS * 200)
        wanted, stream = rnxcmp.crx2rnx(packed), rnxcmp.Stream.expanding()
        parts = stream.outputs(packed)
        self.assertEqual(next(parts), wanted[:65536])
        for call in (lambda: stream.feed(b""), lambda: stream.outputs(b""), stream.end, stream.last_outputs):
            self.raised(ValueError, call)
        self.assertEqual(wanted[:65536] + b"".join(parts) + stream.end(), wanted)
        for call in (lambda: stream.feed(b"x"), stream.end, lambda: stream.outputs(b""), stream.last_outputs):
            self.raised(ValueError, call)
        stream = rnxcmp.Stream.expanding()
        parts = stream.outputs(packed)
        next(parts)
        stream.close()
        self.raised(ValueError, next, parts)
        stream.close()

    def test_ends(self):
        """After a fault, and after the block of a `with`, nothing more is taken."""
        with rnxcmp.Stream.expanding() as stream:
            begun = stream.feed(COMPACT[:-5])
            fault = self.raised(rnxcmp.RnxcmpError, stream.feed, COMPACT[-5:] + b"?\n")
            self.assertEqual((fault.code, fault.line, begun + fault.output), (11, COMPACT.count(b"\n") + 1, DATA))
            self.raised(ValueError, stream.feed, b"x")
        with rnxcmp.Stream.expanding() as stream:
            stream.feed(COMPACT[:1000])
        self.raised(ValueError, stream.feed, COMPACT[1000:])
        self.assertEqual(fed(rnxcmp.Stream.checking(), DATA, 1000), rnxcmp.check(DATA).text.encode())

    def test_each_epoch_in_time(self):
        """An epoch comes back from its compact text before the next one is fed, to either run."""
        with rnxcmp.Stream.compacting(date=DATE) as forth, rnxcmp.Stream.expanding() as back:
            self.assertEqual([back.feed(forth.feed(part)) for part in PARTS], PARTS)

    def test_runs_that_are_dropped(self):
        """Each is closed."""
        from rnxcmp import _calls as calls

        closes, library = [], calls.LIBRARY
        self.addCleanup(setattr, calls, "LIBRARY", library)
        closed = lambda self, *of: (closes.append(1), library.rnxcmp_close(*of))
        calls.LIBRARY = type("Counted", (), {"__getattr__": lambda self, name: getattr(library, name), "rnxcmp_close": closed})()
        for count, begin in enumerate((rnxcmp.Stream.compacting, rnxcmp.Stream.expanding, rnxcmp.Stream.checking), 1):
            stream = begin()
            stream.outputs(DATA[:100])
            del stream
            gc.collect()
            self.assertGreaterEqual(len(closes), count)


class Reports(Package):
    def test_report(self):
        """Each field, beside the program's text; of a file with two systems, an event and a line that isn't standard too."""
        event = EPOCHS[:31] + b"4  1\n" + b" " * 60 + b"COMMENT\n"
        padded = DATA.rstrip(b"\n") + b"  \n"
        no_types = b"".join(line for line in HEADER.splitlines(True) if b"OBS TYPES" not in line)
        for content, first in ((DATA, None), (padded, padded.count(b"\n")), (HEADER + event + EPOCHS, None), (no_types, None)):
            report = rnxcmp.check(content)
            self.assertEqual(report.text.encode(), run("check", given=content)[0])
            lines = dict(line.split(" ", 1) for line in report.text.splitlines())
            systems = " ".join(f"{letter} {count}" for letter, count in report.systems.items()) or "none"
            standard = "yes" if report.is_standard else f"no {report.first_not_standard}"
            counts = (report.epochs, report.events, report.observations)
            self.assertEqual((report.format, systems, *map(str, counts), standard), tuple(lines.values()))
            self.assertEqual(list(lines), ["format", "systems", "epochs", "events", "observations", "standard"])
            self.assertEqual((report.is_standard, report.first_not_standard), (first is None, first))
            self.assertEqual([type(it) for it in (*counts, report.is_standard, report.systems)], [int, int, int, bool, dict])
        self.assertEqual({type(count) for count in rnxcmp.check(DATA).systems.values()}, {int})
        self.assertEqual((rnxcmp.check(HEADER + event + EPOCHS).events, rnxcmp.check(no_types).systems), (1, {}))
        self.raised(rnxcmp.RnxcmpError, rnxcmp.check, b"x")
        self.raised(AttributeError, setattr, rnxcmp.check(DATA), "epochs", 5)


class Files(Package):
    def test_files(self):
        plain = lambda content: rnxcmp.compress(content, compression="none").split(b"\n")[2:]
        for name, made, content in (
            ("abcd0010.24d.gz", "abcd0010.24o", gzip.compress(COMPACT)),
            ("b.crx", "b.rnx", COMPACT),
            ("c.crx.gz", "c.rnx", gzip.compress(COMPACT)),
            ("d.rnx.gz", "d.rnx", gzip.compress(DATA)),
            ("e.crx.Z", "e.rnx", packed_by_compress(COMPACT)),
        ):
            with self.subTest(name):
                path = self.folder / name
                path.write_bytes(content)
                self.assertEqual((rnxcmp.decompress(path), rnxcmp.decompress(content)), (DATA, DATA))
                target = rnxcmp.decompress_on_disk(path)
                self.assertEqual((target.name, target.read_bytes(), path.read_bytes()), (made, DATA, content))
        self.assertEqual(rnxcmp.decompress(packed_by_compress(b"note\n")), b"note\n")
        for name, made in (("abcd0010.24o", "abcd0010.24d.gz"), ("b.rnx", "b.crx.gz")):
            target = rnxcmp.compress_on_disk(self.folder / name)
            self.assertEqual((target.name, rnxcmp.decompress(target)), (made, DATA))
        self.assertEqual(gzip.decompress(rnxcmp.compress(DATA)).split(b"\n")[2:], COMPACT.split(b"\n")[2:])
        self.assertEqual([plain(DATA), plain(packed_by_compress(DATA))], [COMPACT.split(b"\n")[2:]] * 2)
        self.assertEqual([path.name for path in self.folder.iterdir() if path.name.startswith(".")], [])

    def test_content_that_is_cut(self):
        """What has no line end at its end may have been cut off: the calls for files' contents warn."""
        for call, content, warned in ((rnxcmp.compress, DATA, [CUT_OFF]), (rnxcmp.decompress, COMPACT, [CUT_OFF]), (rnxcmp.decompress, DATA, [])):
            for cut, wanted in ((0, []), (1, warned)):
                for pack in (bytes, gzip.compress):
                    self.assertEqual([f"{one.message}" for one in told(call, pack(content[: len(content) - cut]))[1]], wanted)

    def test_damaged_gzip(self):
        """It is an RnxcmpError, with its cause; what the damage leaves as it was comes back."""
        packed, dice = gzip.compress(DATA, 6, mtime=0), random.Random(1)
        for _ in range(3000):
            content, at = bytearray(packed), dice.randrange(3, len(packed))
            if dice.random() < 0.2:
                del content[at:]
            else:
                content[at] ^= 1 << dice.randrange(8)
            try:
                self.assertEqual(rnxcmp.decompress(bytes(content)), DATA)
            except rnxcmp.RnxcmpError as fault:
                self.assertTrue(type(fault.__cause__) is zlib.error or "is cut off" in f"{fault}", fault)
        self.raised(rnxcmp.RnxcmpError, rnxcmp.decompress, b"\x1f\x9d\x90" + b"\xff" * 50)

    def test_refusals(self):
        two = b"     2.11" + DATA[9:]
        for call, content, words in (
            (rnxcmp.decompress, b"\x28\xb5\x2f\xfd", "zstd"),
            (rnxcmp.decompress, b"1.0" + COMPACT[3:], "RINEX 2"),
            (rnxcmp.compress, two, "RINEX 2.11"),
            (lambda content: rnxcmp.compress(content, compression="bz2"), DATA, "bz2"),
        ):
            self.assertIn(words, f"{self.raised(rnxcmp.UnsupportedError, call, content)}")


class Opened(Package):
    def test_each_form(self):
        gc.collect()  # an error of an earlier call may keep a file open
        descriptors = len(os.listdir("/proc/self/fd"))
        crlf = DATA.replace(b"\n", b"\r\n", 3)
        two = DATA.replace(b"\n", b"\r\r\n", 3)
        for form, content in (("rnx", DATA), ("crx", COMPACT), ("crlf", crlf), ("two CRs", two), ("note", b"no RINEX\n"), ("empty", b"")):
            for ending, pack in (("", bytes), (".gz", gzip.compress), (".Z", packed_by_compress)):
                with self.subTest(form, ending=ending):
                    path = self.folder / f"{form}{ending}"
                    path.write_bytes(pack(content))
                    text = (DATA if form == "crx" else content).decode()
                    with rnxcmp.open(path) as file:
                        self.assertEqual(file.read(), text)
                    with rnxcmp.open(str(path)) as file:
                        self.assertEqual(list(file), [line + "\n" for line in text.split("\n")[:-1]])
                    with rnxcmp.open(path) as file:
                        file.readline()
        self.assertEqual(len(os.listdir("/proc/self/fd")), descriptors)

    def test_a_long_file(self):
        """Memory doesn't grow with it."""
        long, path = HEADER + EPOCHS * 300, self.folder / "long.crx.gz"
        path.write_bytes(gzip.compress(compacted(long)))

        def length():
            with rnxcmp.open(path) as file:
                return sum(len(line) for line in file)

        found, most = measured(length)
        self.assertEqual((found, most < 3_000_000), (len(long), True))

    def test_refusals(self):
        path = self.folder / "file"
        for content, error in ((b"1.0" + COMPACT[3:], rnxcmp.UnsupportedError), (b"\x28\xb5\x2f\xfd", rnxcmp.UnsupportedError),
                               (b"BZh9", rnxcmp.RnxcmpError), (COMPACT[:85] + b"x\n", rnxcmp.RnxcmpError)):  # fmt: skip
            path.write_bytes(content)
            self.raised(error, rnxcmp.open, path)

    def test_a_file_that_is_cut(self):
        path = self.folder / "cut.crx"
        path.write_bytes(COMPACT.rstrip(b"\n"))
        with warnings.catch_warnings(record=True) as caught:
            warnings.simplefilter("always")
            with rnxcmp.open(path) as file:
                self.assertEqual(file.read(), DATA.decode())
        self.assertEqual([f"{one.message}" for one in caught if one.category is rnxcmp.RnxcmpWarning], [CUT_OFF])

    def read_by(self, path, read, wanted):
        """The text that some reads give before a fault, which each later read raises too."""
        parts = []
        with rnxcmp.open(path) as file:
            with self.assertRaises(rnxcmp.RnxcmpError) as caught:
                while not parts or parts[-1]:
                    parts.append(read(file))
            again = self.raised(rnxcmp.RnxcmpError, file.readline)
        self.assertEqual([(one.line, one.code) for one in (caught.exception, again)], [wanted] * 2)
        return "".join(parts)

    def test_faults(self):
        """Each way to read a file with a fault gives the text before it, and then raises it, at the latest when the file is closed."""
        path = self.folder / "bad.crx"
        path.write_bytes(COMPACT.replace(b"\n", b"\r\n", 20)[:-40] + b"x" + COMPACT[-39:])
        fault = self.raised(rnxcmp.RnxcmpError, rnxcmp.crx2rnx, path)
        text, found = fault.output.decode("latin-1"), (fault.line, fault.code)
        with warnings.catch_warnings(record=True) as caught:
            warnings.simplefilter("always")
            for read in (lambda file: file.read(), lambda file: file.read(5000), lambda file: file.readline(), next):
                self.assertEqual(self.read_by(path, read, found), text)
            lines = []
            with rnxcmp.open(path) as file:
                self.raised(rnxcmp.RnxcmpError, lambda: [lines.append(line) for line in file])
            self.assertEqual("".join(lines), text)
            file = rnxcmp.open(path)
            self.assertEqual(file.read(), text)
            self.assertEqual(self.raised(rnxcmp.RnxcmpError, file.close).line, fault.line)
        said = [f"{one.message}" for one in caught if one.category is rnxcmp.RnxcmpWarning and one.filename == __file__]
        self.assertEqual(said, [f"the text ends before an error: {fault}"] * 2)


class Memory(Package):
    def outcome(self, refusing, call, number=0, on=0):
        """What a call gives, or its error in words, with a growth refused, or with it all later ones; and how many growths there were."""
        refusing.refuse_growth(number, on)
        try:
            found = call()
        except (rnxcmp.RnxcmpError, MemoryError) as fault:
            found = type(fault), f"{fault}"
        growths = refusing.growths()
        refusing.refuse_growth(0, 0)
        return found, growths

    def test_each_growth_refused(self):
        """With each growth of the library's memory refused in turn, alone and with all later ones, a call raises MemoryError or gives what
        it always gives, and nothing that the library took stays."""
        if "REFUSE_OF" not in os.environ:  # once more, with preload.c before the C library
            command = [sys.executable, "-m", "unittest", "-q", "test_python.Memory"]
            path = os.pathsep.join(map(str, (Path(__file__).parent, TESTS)))
            done = subprocess.run(command, env=preloaded(REFUSE_OF="librnxcmp", PYTHONPATH=path), capture_output=True, text=True, timeout=300)
            self.assertEqual(done.returncode, 0, done.stderr[-3000:])
            return
        refusing, short = ctypes.CDLL(None), b"".join(PARTS[:4])
        compact, strange = compacted(short), b"\nX".join(short.rsplit(b"\nG", 1))
        for call in (
            lambda: compacted(short),
            lambda: rnxcmp.crx2rnx(compact),
            lambda: rnxcmp.check(short),
            lambda: compacted(strange),
            lambda: fed(rnxcmp.Stream.compacting(date=DATE), short, PIECE),
            lambda: fed(rnxcmp.Stream.expanding(), compact, PIECE),
            lambda: fed(rnxcmp.Stream.checking(), short, PIECE),
        ):
            (wanted, growths), refusals = self.outcome(refusing, call), 0
            for number, on in ((number, on) for on in (0, 1) for number in range(1, growths + 1)):
                found, _ = self.outcome(refusing, call, number, on)
                self.assertEqual(refusing.blocks(), 0)
                if found != wanted:
                    refusals += 1
                    self.assertIs(found[0], MemoryError)
                    self.assertIn(" code 22: out of memory", found[1])
            self.assertGreater(refusals, 5)
