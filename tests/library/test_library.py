"""The library for C, C++ and Fortran, as `make library` leaves it, beside the program. What its calls do is proved but for the C before them
(library/rnxcmp.c) and the memory below them (library/heap.c), which are asked here, with what is built of all of it."""

import os
import re
import resource
import shutil
import subprocess
import sys
import tempfile
import unittest
from pathlib import Path

sys.path.insert(0, str(Path(__file__).resolve().parents[1] / "machines"))
import layout  # noqa: E402
from collect import collected  # noqa: E402
from libraries import CALLS, COUNTED, check_library, compiled, differing, linked_ways  # noqa: E402
from machines import MACHINES  # noqa: E402
from runner import LIBRARY, LIMITS, PROGRAM, SAMPLE, TOP, VERSION, need, need_library, preloaded, run, wrong_run  # noqa: E402
from test_cases import all_set  # noqa: E402
from texts import DATED, NAMES, SYSTEMS  # noqa: E402

HERE = Path(__file__).resolve().parent
PROVED = Path(os.environ.get("PROVED") or TOP / "crates/rnxcmp_c/out/librnxcmp_c.a")
HERE_MACHINE = MACHINES[0]
SECONDS = 300  # in which each program is to end
OF_A_LIMIT = 4  # seconds of a processor in which a limit is to end a hostile input
# bytes that a handle holds at most over usual files, with the lines of the longest epoch, which it asks for at its start
HELD = 10_430_000 + 1_000_000
# what the library calls of the C library: it opens no file, prints nothing, and doesn't end the process, but where its stack was overwritten
CALLED = set("malloc realloc free memcpy memmove memset memcmp memchr bcmp strlen __stack_chk_fail".split())
# compilers of the last five years, where they are
COMPILERS = [*(f"gcc-{version}" for version in range(11, 17)), *(f"clang-{version}" for version in range(12, 23)), "gcc", "clang"]
LANGUAGES = {"c": "gcc", "cpp": "g++", "f90": "gfortran"}  # endings of sources, and their compilers


def header_and_epochs(data):
    """A header, with its last line, and the epochs after it."""
    end = data.index(b"\n", data.index(b"END OF HEADER")) + 1
    return data[:end], data[end:]


class Folder(unittest.TestCase):
    @classmethod
    def setUpClass(cls):
        need_library()
        need("gcc")
        kept = tempfile.TemporaryDirectory()
        cls.addClassCleanup(kept.cleanup)
        cls.folder = Path(kept.name)

    def assert_runs(self, command, **more):
        self.assertEqual(wrong_run(command, SECONDS, **more), [])

    def assert_compiled(self, source, target, linked):
        self.assertEqual(compiled(HERE_MACHINE, LIBRARY, source, target, linked), [])


class Library(Folder):
    def calls(self):
        """calls.c with the shared library."""
        target = self.folder / "calls"
        self.assert_compiled(CALLS, target, dict(linked_ways(HERE_MACHINE, LIBRARY))["shared"])
        return target

    def assert_with_sources(self, name, *flags, words=(), **more):
        """A program of this folder with the library's C, both compiled by these flags, ends with status 0."""
        if not PROVED.exists():
            self.skipTest("there is no proved archive")
        of_faults = subprocess.run([sys.executable, TOP / "library/words.py", TOP / "crates/crx_base/src/fault.rt"], capture_output=True)
        (self.folder / "words.inc").write_bytes(of_faults.stdout)
        sources = [HERE / f"{name}.c", TOP / "library/rnxcmp.c", TOP / "library/heap.c", PROVED]
        flags = [*flags, f'-DRNXCMP_VERSION="{VERSION}"', "-I", TOP / "include", "-I", self.folder]
        self.assert_runs(["gcc", "-g", "-pthread", *flags, *sources, "-o", self.folder / name])
        self.assert_runs([self.folder / name, *words], **more)

    def test_beside_the_program(self):
        """Names, the promises of the header one by one, and calls over damaged texts, with the archive and with the shared library."""
        self.assertEqual(check_library(HERE_MACHINE, LIBRARY, [], PROGRAM), [])

    def test_cases(self):
        """The cases of tests/cases, whole and in pieces."""
        calls = self.calls()
        for case in collected():
            with self.subTest(case["name"]):
                words = [*(DATED if case["do"] == "compact" else ["crx2rnx"]), *case.get("options", [])]
                self.assertEqual(differing(PROGRAM, [calls], words, case["input"].encode("latin-1")), [])

    def test_what_it_asks_of_others(self):
        """The shared library calls nothing but memory, there is no text relocation, and what is relocated can't be written later."""
        need("nm", "readelf")
        shared = LIBRARY / "librnxcmp.so.2"
        undefined = subprocess.run(["nm", "-D", "--undefined-only", shared], capture_output=True, text=True).stdout
        self.assertLessEqual({*re.findall(r" U (\w+)", undefined)}, CALLED)
        dynamic = subprocess.run(["readelf", "-dlVW", shared], capture_output=True, text=True).stdout
        for part in ("[librnxcmp.so.2]", "Name: RNXCMP_2", "GNU_RELRO", "BIND_NOW"):
            self.assertIn(part, dynamic)
        self.assertNotIn("TEXTREL", dynamic)

    def test_sizes_fields_numbers_and_words(self):
        """From C, Fortran and Python."""
        self.assertEqual(layout.wrong(LIBRARY, TOP / "python", self.folder), [])

    def test_an_old_processor(self):
        self.assert_with_sources("processor", "-DRNXCMP_PROCESSOR_IS_GOOD=0")

    def test_promises_with_sanitizers(self):
        self.assert_with_sources("promises", COUNTED, "-fsanitize=address,undefined", "-fno-sanitize-recover=all")

    def test_threads(self):
        """Four at once, under the compiler's sanitizer of threads, which sees the library's C, and under valgrind's, which sees all."""
        sample = SAMPLE.read_text()
        self.assert_with_sources("threads", "-fsanitize=thread", words=("4", "10"), input=sample)
        need("valgrind")
        self.assert_compiled(HERE / "threads.c", self.folder / "threads", [LIBRARY / "librnxcmp.a"])
        self.assert_runs(["valgrind", "-q", "--tool=helgrind", "--error-exitcode=9", self.folder / "threads", "3", "1"], input=sample)

    def test_fortran(self):
        need("gfortran")
        (self.folder / "station.crx").write_bytes(run("rnx2crx", "--date", "01-Jan-24 00:00", SAMPLE, "-")[0])
        sources = [LIBRARY / "rnxcmp.f90", HERE / "fortran.f90", LIBRARY / "librnxcmp.a"]
        self.assert_runs(["gfortran", "-Wall", "-Werror", "-g", "-fcheck=all", *sources, "-o", self.folder / "fortran"], cwd=self.folder)
        self.assert_runs([self.folder / "fortran", SAMPLE, self.folder / "station.crx"])

    def test_memory_that_does_not_grow(self):
        """A handle takes as much for 20,000 lines as for 5,000: of good epochs, of epochs of which each is skipped, and of a line without an
        end."""
        calls, sample = self.calls(), SAMPLE.read_bytes()
        header, epochs = header_and_epochs(sample)
        compact_header, compact_epochs = header_and_epochs(run(*DATED, given=sample)[0])
        strange = epochs.replace(b"\nG", b"\nX")

        def taken(words, data):
            with (self.folder / "told").open("w+b", buffering=0) as told:
                own = preloaded(COUNT_TO=str(told.fileno()))
                done = subprocess.run([calls, "4096", *words], input=data, env=own, pass_fds=[told.fileno()], capture_output=True, timeout=SECONDS)
                told.seek(0)
                return done.returncode, *map(int, told.read().split()[:2])  # growths, and the most bytes

        for words, head, part in (
            (DATED, header, epochs),
            (["crx2rnx"], compact_header, compact_epochs),
            (["check"], header, epochs),
            ([*DATED, "-s"], header, strange),
            (["crx2rnx", "-s"], compact_header, b"?" * 5000),
        ):
            with self.subTest(words=words, part=part[:5]):
                few, many = (taken(words, head + part * times) for times in (30, 120))
                self.assertEqual((few[0], few[2] < HELD), (2 if "-s" in words else 0, True))
                more = [later - before for before, later in zip(few, many)]
                self.assertTrue(more[0] == 0 and more[1] < 2 and more[2] < 200, more)  # a report is as long as its numbers

    def test_a_hostile_text(self):
        """Compact text of 6 MB that stands for 5 GB: a limit ends it at once, whole and in pieces, in 150 MB of addresses."""
        calls, limit = self.calls(), 10_000_000
        hostile = all_set(SYSTEMS, LIMITS["TYPES_LIMIT"], NAMES).output + b"\n" * 772 * 1000
        memory = lambda: resource.setrlimit(resource.RLIMIT_AS, (150_000_000, 150_000_000))
        for way in ("whole", "4096"):
            before = os.times().children_user
            done = subprocess.run([calls, way, "crx2rnx", "--most", str(limit)], input=hostile, capture_output=True, preexec_fn=memory)
            self.assertEqual((done.returncode, done.stderr, len(done.stdout) <= limit), (7, b"", True))
            self.assertLess(os.times().children_user - before, OF_A_LIMIT)


class Built(Folder):
    def test_header_by_standards(self):
        """The header alone, in C99 and C++98 on."""
        for compiler, language, standards in (("gcc", "c", ("c99", "c11", "c17")), ("g++", "c++", ("c++98", "c++11", "c++20"))):
            for standard in standards if shutil.which(compiler) else ():
                words = [f"-std={standard}", "-Wall", "-Wextra", "-Werror", "-pedantic", "-fsyntax-only", "-x", language]
                self.assert_runs([compiler, *words, LIBRARY / "rnxcmp.h"])

    def test_compilers(self):
        """The library as each compiler makes it, with the promises of the header."""
        for compiler in filter(shutil.which, COMPILERS if PROVED.exists() else ()):
            with self.subTest(compiler):
                library, target = self.folder / compiler, self.folder / "promises"
                self.assert_runs([TOP / "library/build.sh", PROVED, library], env={**os.environ, "CC": compiler})
                self.assert_compiled(HERE / "promises.c", target, [library / "librnxcmp.a", COUNTED])
                self.assert_runs([target])

    def test_tools(self):
        """The library is built by the linker, the archiver and the copier that the environment names."""
        if not PROVED.exists():
            self.skipTest("there is no proved archive")
        build, names = [TOP / "library/build.sh", PROVED, self.folder / "library_by_tools"], ("LD", "AR", "OBJCOPY")
        for name in names:
            self.assertNotEqual(wrong_run(build, env={**os.environ, name: "false"}), [], f"{name} isn't used")
        self.assert_runs(build, env={**os.environ, **{name: f"env {name.lower()}" for name in names}})

    def test_examples(self):
        """Each example, linked with the shared library and with the archive."""
        for name in ("compact.c", "compact.cpp", "compact.f90", "stream.c"):
            ending = name.partition(".")[2]
            for title, linked in (("shared", ["-L", LIBRARY, "-lrnxcmp", f"-Wl,-rpath,{LIBRARY}"]), ("static", [LIBRARY / "librnxcmp.a"])):
                with self.subTest(name, linked=title):
                    need(LANGUAGES[ending])
                    sources, target = [LIBRARY / "rnxcmp.f90"] * (ending == "f90") + [TOP / "examples" / name], self.folder / "example"
                    command = [LANGUAGES[ending], "-O1", "-Wall", "-Werror", "-I", LIBRARY, *sources, *linked, "-o", target]
                    self.assert_runs(command, cwd=self.folder)
                    assert_example(self, [target])


def assert_example(test, command):
    """What an example says of a standard file, of one that isn't, and of one with a fault."""
    sample = SAMPLE.read_bytes()
    header, epochs = header_and_epochs(sample)
    strange = header + epochs.replace(b"\nG", b"\nX", 1)
    for data, status, words in ((sample, 0, "the same again"), (sample.rstrip(b"\n") + b"  \n", 0, "its normal form"), (strange, 1, "bad satellite")):
        (test.folder / "example.rnx").write_bytes(data)
        done = subprocess.run([*command, test.folder / "example.rnx"], stdout=subprocess.PIPE, stderr=subprocess.STDOUT, text=True, timeout=SECONDS)
        test.assertEqual(done.returncode, status)
        test.assertIn(words, done.stdout)
