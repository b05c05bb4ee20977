"""The commands that README.md, the manual page and the help print, run as they are printed, on files that are made up here; and the
program as `make install` puts it in place: its other names, manual pages, completions, modes of files, and what removes it again."""

import gzip
import os
import re
import shlex
import shutil
import subprocess
import sys
import textwrap
import unittest
import zipfile
from pathlib import Path

from runner import LIBRARY, PROGRAM, SAMPLE, TOP, VERSION, install, kept_folder, missing_tools, need, need_library

HERE = Path(__file__).resolve().parent
MANUAL = TOP / "packaging/man/rnxcmp.1"
# the names under which the program is installed
NAMES = ("rnxcmp", "RNX2CRX", "CRX2RNX", "rnx2crx", "crx2rnx")
ALL_NAMES = (*NAMES, "rnxcmp-file")  # of which each has a manual page and completions
WIDTH = 80  # of a terminal, for help and manual
FILES = ("abcd0010.24o", "a.crx", "b c.rnx", "sub/a", "a.rnx.gz", "a.24d.gz", "a.24d.Z")  # among which completions choose
OF_FILE = "-o --to --from --new -j --inputs --gzip --no-gzip --verify --verified-to --normal-form --accept-cut -f -s -v --max-output --json -q -h --help"
# words so far, and the words that complete them in bash
COMPLETIONS = (
    ("rnxcmp ", "rnx2crx crx2rnx check -h --help"),
    ("rnxcmp rnx2crx -", "-e -s -f --date -h --help -"),
    ("rnxcmp rnx2crx --", "--date --help"),
    ("rnxcmp rnx2crx -e ", ""),
    ("rnxcmp rnx2crx --date ", ""),
    ("rnxcmp rnx2crx abc", "abcd0010.24o"),
    ("rnxcmp crx2rnx ", "a.crx sub"),
    ("rnxcmp check -", "-h --help -"),
    ("rnxcmp check b", "'b c.rnx'"),
    ("rnxcmp other a", ""),
    ("RNX2CRX abc", "abcd0010.24o"),
    ("RNX2CRX -s b", "'b c.rnx'"),
    ("CRX2RNX -f a", "a.crx"),
    ("rnx2crx b", "'b c.rnx'"),
    ("crx2rnx -", "-s -f -h --help -"),
    ("rnxcmp-file ", "rnx2crx crx2rnx check explain -h --help --version"),
    ("rnxcmp-file rnx2crx -", f"{OF_FILE} -e --date"),
    ("rnxcmp-file crx2rnx -", OF_FILE),
    ("rnxcmp-file crx2rnx -o b", "'b c.rnx'"),
    ("rnxcmp-file crx2rnx --to ", "sub"),
    ("rnxcmp-file crx2rnx --from s", "sub"),
    ("rnxcmp-file crx2rnx --inputs b", "'b c.rnx'"),
    ("rnxcmp-file crx2rnx --verified-to b", "'b c.rnx'"),
    ("rnxcmp-file crx2rnx --max-output ", ""),
    ("rnxcmp-file rnx2crx --gzip a", "abcd0010.24o a.rnx.gz"),
    ("rnxcmp-file rnx2crx -e 30 --verify abc", "abcd0010.24o"),
    ("rnxcmp-file rnx2crx -e ", ""),
    ("rnxcmp-file rnx2crx --date ", ""),
    ("rnxcmp-file crx2rnx a", "a.crx a.24d.gz a.24d.Z"),
    ("rnxcmp-file crx2rnx a.crx a", "a.crx a.24d.gz a.24d.Z"),
    ("rnxcmp-file check -", "-j --json -q --inputs -h --help"),
    ("rnxcmp-file check -j ", ""),
    ("rnxcmp-file check a", "a.crx a.24d.gz a.24d.Z a.rnx.gz abcd0010.24o"),
    ("rnxcmp-file explain -", "--json --inputs -h --help"),
    ("rnxcmp-file explain a.r", "a.rnx.gz"),
    ("rnxcmp-file other a", ""),
)
# what fish and zsh are to offer among other things, for words so far, and with a ! what not
OFFERED = (
    ("rnxcmp ", "rnx2crx crx2rnx check"),
    ("rnxcmp rnx2crx -", "-e -s -f --date --help"),
    ("rnxcmp rnx2crx -e ", "!abcd0010.24o"),
    ("rnxcmp crx2rnx -", "-s -f --help !-e !--date"),
    ("rnxcmp check -", "--help !-s !--date"),
    ("RNX2CRX -", "-e -s -f --date"),
    ("rnx2crx --d", "--date"),
    ("CRX2RNX -", "-s -f !-e !--date"),
    ("rnxcmp-file ", "rnx2crx crx2rnx check explain"),
    ("rnxcmp-file check -", "-j -q --json --inputs !-s !--gzip"),
    ("rnxcmp-file explain -", "--json --inputs !-q !-j"),
    ("rnxcmp-file rnx2crx -", "-e -s -f -o -j -q -v --date --to --from --new --inputs --verify --verified-to --json"),
    ("rnxcmp-file rnx2crx --", "--gzip --no-gzip --normal-form --accept-cut --max-output"),
    ("rnxcmp-file crx2rnx -", "-s -f -o -j --to --normal-form --inputs !-e !--date"),
    ("rnxcmp-file crx2rnx --max-output ", "!a.crx"),
    ("rnxcmp-file rnx2crx a", "abcd0010.24o a.rnx.gz"),
    ("rnxcmp-file crx2rnx a", "a.crx a.24d.gz a.24d.Z"),
)


class Installed(unittest.TestCase):
    """The program as it is installed, and a folder for each test."""

    @classmethod
    def setUpClass(cls):
        need_library()
        cls.prefix = kept_folder(cls) / "a place"
        failed = install(PROGRAM, cls.prefix)
        assert not failed, failed

    def setUp(self):
        self.folder = kept_folder(self)

    def run_in(self, words, tools=None, **more):
        """Runs a command in the folder; its programs are found in another folder first, where the program is installed if none is given."""
        own = {**os.environ, "PATH": f"{tools or self.prefix / 'bin'}:{os.environ['PATH']}"}
        how = {"cwd": self.folder, "env": own, "capture_output": True, "text": True, "stdin": subprocess.DEVNULL, "timeout": 120, **more}
        return subprocess.run(words, **how)

    def make_program(self, path, script):
        """A program that is a line of sh."""
        path.parent.mkdir(parents=True, exist_ok=True)
        path.write_text(f"#!/bin/sh\n{script}\n")
        path.chmod(0o755)

    def assert_well(self, done):
        self.assertEqual((done.returncode, done.stderr), (0, ""), done.args)


class Printed(Installed):
    """The commands of one place are run one after another in one folder, and each has to end well, with nothing on standard error."""

    def make_files(self, place):
        """The files that the commands name: one station's day under several names, compact text, and a pack of it. If the first command
        is to write the observation file, it isn't there; if a command reads a compact file that no other writes, that is there."""
        compact = subprocess.run([PROGRAM, "rnx2crx", SAMPLE.name, "-"], cwd=SAMPLE.parent, capture_output=True, check=True).stdout
        for name in ("samples/station.rnx", "abcd0010.24o", "a.rnx", "site.obs", "archive/efgh0010.24o", "archive/sub/efgh0020.24o"):
            (self.folder / name).parent.mkdir(parents=True, exist_ok=True)
            shutil.copy(SAMPLE, self.folder / name)
        (self.folder / "a.crx.gz").write_bytes(gzip.compress(compact))
        if place in ("crx2rnx", "check", "pages"):
            (self.folder / "abcd0010.24d").write_bytes(compact)
        if place == "crx2rnx":
            (self.folder / "abcd0010.24o").unlink()

    def assert_run(self, commands, place=""):
        self.assertTrue(commands)
        self.make_files(place)
        for command in commands:
            with self.subTest(command):
                if lacking := missing_tools(command):
                    self.skipTest(f"there is no {lacking[0]}")
                self.assert_well(self.run_in(["bash", "-o", "pipefail", "-c", command]))

    def test_readme(self):
        """The indented lines that begin with a program's name, but those of `make`; a `#` begins a comment for the shell too."""
        self.assert_run(re.findall(r"^    (?!make\b)((?:rnxcmp|gzip|find|set) .*)$", (TOP / "README.md").read_text(), re.M))

    def test_pages(self):
        """The pipes and redirections in sentences."""
        text = " ".join("".join((TOP / page).read_text() for page in ("README.md", "docs/USE.md")).split())
        self.assert_run(sorted(set(re.findall(r"`(rnxcmp [^`]*[>|][^`]*)`", text))), "pages")

    def test_check_of_a_folder(self):
        """The command of docs/USE.md prints the lines that the page shows, over files that are good, cut, damaged and of version 1.0."""
        text = (TOP / "docs/USE.md").read_text().partition("\n## Check many files\n")[2].partition("\n## ")[0]
        command, *shown = re.findall(r"^    (.*)$", text, re.M)
        compact = subprocess.run([PROGRAM, "rnx2crx"], input=SAMPLE.read_bytes(), capture_output=True, check=True).stdout
        lines = compact.split(b"\n")
        damaged = b"\n".join([*lines[:39], b"x" + lines[39], *lines[40:]])
        texts = {"abcd0010.24d": compact, "abcd0030.24d": damaged, "abcd0040.24d": compact[:-1], "efgh0010.96d": compact.replace(b"3.0 ", b"1.0 ", 1)}
        (self.folder / "archive").mkdir()
        for name, content in {**texts, "abcd0020.24d": compact}.items():
            packed = gzip.compress(content)
            (self.folder / f"archive/{name}.gz").write_bytes(packed if name in texts else packed[: len(packed) // 2])
        done = self.run_in(["bash", "-c", command])
        self.assertEqual((done.returncode, sorted(done.stderr.splitlines()), done.stdout.splitlines()), (1, shown[:-1], shown[-1:]))

    def test_python(self):
        """The lines of Python that begin with an import run, and print."""
        self.make_files("README")
        own = {**os.environ, "PYTHONPATH": str(self.prefix / "lib/rnxcmp")}
        for page in ("README.md", "docs/LIBRARY.md"):
            with self.subTest(page):
                blocks = re.findall(r"^    import rnxcmp\n(?:    .*\n)+", (TOP / page).read_text(), re.M)
                self.assertTrue(blocks)
                for block in blocks:
                    done = self.run_in([sys.executable, "-c", textwrap.dedent(block)], env=own)
                    self.assert_well(done)
                    self.assertTrue(done.stdout)

    def test_manual(self):
        examples = MANUAL.read_text().partition(".SH EXAMPLES")[2].partition(".SH COMING FROM")[0]
        lines = re.search(r"^\.nf\n(.*?)^\.fi", examples, re.M | re.S)[1].splitlines()
        self.assert_run([line.replace("\\-", "-").replace("\\(aq", "'") for line in lines])

    def assert_help(self, *words):
        """The lines after `Examples:`."""
        text = subprocess.run([PROGRAM, *words, "--help"], capture_output=True, text=True, check=True).stdout
        self.assert_run([line.strip() for line in text[text.index("Examples:") :].splitlines()[1:] if line.strip()], "".join(words))

    def test_help(self):
        self.assert_help()

    def test_help_of_rnx2crx(self):
        self.assert_help("rnx2crx")

    def test_help_of_crx2rnx(self):
        self.assert_help("crx2rnx")

    def test_help_of_check(self):
        self.assert_help("check")

    def test_help_fits_a_terminal(self):
        """That of the tool for whole files too."""
        for call in ([PROGRAM], [PROGRAM, "rnx2crx"], [PROGRAM, "crx2rnx"], [PROGRAM, "check"], [self.prefix / "bin/rnxcmp-file"]):
            with self.subTest(call):
                text = subprocess.run([*call, "--help"], capture_output=True, text=True, timeout=60).stdout
                self.assertTrue(text)
                self.assertEqual([line for line in text.splitlines() if len(line) > WIDTH], [])


class Names(Installed):
    def test_other_names(self):
        """They run, over the path and by their own, and what they write is right, of a name with a blank too."""
        shutil.copy(SAMPLE, self.folder / "a b.rnx")
        for compacting, expanding in (("RNX2CRX", "CRX2RNX"), ("rnx2crx", "crx2rnx")):
            for place in ("", f"{self.prefix}/bin/"):
                for name, file in ((compacting, "a b.rnx"), (expanding, "a b.crx")):
                    self.assert_well(self.run_in([place + name, "-f", file], "/usr/bin" if place else None))
        self.assertEqual((self.folder / "a b.rnx").read_bytes(), SAMPLE.read_bytes())

    def test_links(self):
        """A symbolic link in another folder, of which a command is called by its path and by its name, finds the program beside what it
        names, and not one beside the link; help has the other program's name, and each other word goes on to the program. A link to the
        tool for whole files finds its package, in which nothing is left, and no other module; its status is handed on."""
        links = self.folder / "links"
        self.make_program(links / "rnxcmp", "exit 9")
        (links / "rnxcmp-file").symlink_to(self.prefix / "bin/rnxcmp-file")
        (self.folder / "argparse.py").write_text("raise SystemExit(9)")
        for words, status, output in ((["--version"], 0, f"rnxcmp-file {VERSION}\n"), (["check", "other.rnx"], 1, "")):
            done = self.run_in([links / "rnxcmp-file", *words], env={**os.environ, "PYTHONPATH": str(self.folder)})
            self.assertEqual((done.returncode, done.stdout), (status, output))
        self.assertEqual([*self.prefix.rglob("__pycache__")], [])
        for name, word in (("RNX2CRX", "rnx2crx"), ("CRX2RNX", "crx2rnx")):
            link = links / name
            link.symlink_to(os.path.relpath(self.prefix / "bin" / name, links))
            plain = self.run_in([self.prefix / "bin/rnxcmp", word, "--help"]).stdout
            for tools, called in (("/usr/bin", str(link)), (links, name), ("/usr/bin", str(self.prefix / "bin" / name.lower()))):
                with self.subTest(called):
                    for option in ("-h", "--help"):
                        done = self.run_in([called, option], tools)
                        self.assert_well(done)
                        self.assertEqual(done.stdout, plain.replace(f"rnxcmp {word}", name))
                        self.assertIn(f"\nUsage: {name} [OPTIONS]", done.stdout)
                    done, wanted = (self.run_in([*words, "-h", "-x"], tools) for words in ([called], [self.prefix / "bin/rnxcmp", word]))
                    self.assertEqual((done.returncode, done.stdout, done.stderr), (wanted.returncode, wanted.stdout, wanted.stderr))

    def test_names_alone(self):
        """The other names, copied to a folder without the program, run the one on the path; without one there they say so. The tool for
        whole files says that it lacks its package."""
        shutil.copy(SAMPLE, self.folder / "b.rnx")
        for name, source, target in (("RNX2CRX", "b.rnx", "b.crx"), ("crx2rnx", "b.crx", "b.rnx")):
            shutil.copy(self.prefix / "bin" / name, self.folder)
            (self.folder / target).unlink(missing_ok=True)
            self.assert_well(self.run_in([self.folder / name, "-f", source]))
            self.assertTrue((self.folder / target).exists())
            for words in (["-f", source], ["-h"]):
                done = self.run_in([self.folder / name, *words], env={"PATH": "/usr/bin:/bin"})
                self.assertEqual((done.returncode, done.stdout, "rnxcmp" in done.stderr), (127, "", True), words)
        self.assertEqual((self.folder / "b.rnx").read_bytes(), SAMPLE.read_bytes())
        shutil.copy(self.prefix / "bin/rnxcmp-file", self.folder)
        done = self.run_in([self.folder / "rnxcmp-file", "-h"])
        self.assertEqual((done.returncode, done.stderr[:51]), (1, "rnxcmp-file: ERROR: No module named 'rnxcmp': it ne"))


# What is installed below a folder, as a shell writes it, but for the modules of Python: a list in which pictures and manual pages have several
# names. Programs are in bin, and examples that are run, too.
INSTALLED = """
bin/{rnxcmp,RNX2CRX,CRX2RNX,rnx2crx,crx2rnx,rnxcmp-file} include/rnxcmp.{h,f90} lib/librnxcmp.{a,so,so.2} lib/pkgconfig/rnxcmp.pc
lib/cmake/rnxcmp/rnxcmpConfig{,Version}.cmake lib/rnxcmp/rnxcmp/{librnxcmp.so.2,py.typed}
share/man/man1/{rnxcmp,RNX2CRX,CRX2RNX,rnx2crx,crx2rnx,rnxcmp-file}.1 share/zsh/site-functions/_rnxcmp
share/bash-completion/completions/{rnxcmp,RNX2CRX,CRX2RNX,rnx2crx,crx2rnx,rnxcmp-file}
share/fish/vendor_completions.d/{rnxcmp,RNX2CRX,CRX2RNX,rnx2crx,crx2rnx,rnxcmp-file}.fish
share/doc/rnxcmp/{{README,CHANGELOG,SECURITY,bench/README,conformance/README}.md,NOTICES,LICENSE-{MIT,APACHE}}
share/doc/rnxcmp/docs/{{USE,ERRORS,FILES,ARCHIVES,LIBRARY,FORMATS,GUARANTEES,READING}.md,archive.png}
share/doc/rnxcmp/docs/pictures/{damage,epoch,flow,layers,speed,trust}.svg
share/doc/rnxcmp/examples/{compact.{c,cpp,f90,py},stream.c,{archive_page,availability,parallel}.py}
"""
# The same in the package of Debian.
PACKAGED = INSTALLED.replace("}.1 ", "}.1.gz ").replace("site-", "vendor-").replace("functions", "completions").replace("README,CHANGELOG", "README").replace("NOTICES,LICENSE-{MIT,APACHE}", "copyright,changelog.gz,LICENSE-APACHE")
RUN = r"bin/.*|share/doc/rnxcmp/examples/(archive_page|availability|parallel)\.py"  # what may be run of it


class Places(Installed):
    """What is put where, and what is left behind."""

    def setUp(self):
        super().setUp()
        self.top, self.temporary = self.folder / "a place", self.folder / "temporary"
        self.temporary.mkdir()
        self.own = {"PATH": os.environ["PATH"], "TMPDIR": str(self.temporary), "SOURCE_DATE_EPOCH": "946684800"}

    def make(self, *words):
        """Runs `make`, which proves nothing, as somebody whose own files are closed to others."""
        done = self.run_in(["sh", "-c", 'umask 077 && exec make -s "$@"', "sh", "made=", *words], cwd=TOP, env=self.own)
        self.assert_well(done)
        self.assertEqual([*self.temporary.iterdir()], [])
        return done.stdout

    def files_in(self, listed):
        """The files of such a list, and the modules of Python."""
        done = self.run_in(["bash", "-c", f"printf '%s\n' {' '.join(listed.split())}"])
        return {*done.stdout.split(), *(f"lib/rnxcmp/rnxcmp/{path.name}" for path in (TOP / "python/rnxcmp").glob("*.py"))}

    def test_install(self):
        """Each file stands in its place, where all may read it and run what is a program, the second time as the first, below a folder whose name
        has a blank. `make uninstall` takes all of it away, and nothing else."""
        made = {f"lib/rnxcmp/rnxcmp/__pycache__/{path.stem}.{sys.implementation.cache_tag}.pyc" for path in (TOP / "python/rnxcmp").glob("*.py")}
        for _ in range(2):
            self.make("install", f"DESTDIR={self.top}", f"PROGRAM={PROGRAM}")
            paths = {str(path.relative_to(self.top / "usr/local")): path for path in self.top.glob("usr/local/**/*")}
            self.assertEqual(os.readlink(paths["lib/librnxcmp.so"]), "librnxcmp.so.2")
            modes = {name: path.stat().st_mode & 0o777 for name, path in paths.items()}
            self.assertEqual({name for name, path in paths.items() if path.is_file()} ^ self.files_in(INSTALLED) ^ made, set())
            wrong = {name: oct(modes[name]) for name in modes if modes[name] != (0o755 if paths[name].is_dir() or re.fullmatch(RUN, name) else 0o644)}
            self.assertEqual(wrong, {})
        (self.top / "usr/local/bin/other").touch()
        self.make("uninstall", f"DESTDIR={self.top}")
        left = [path for path in self.top.rglob("*") if not path.is_dir() or "rnxcmp" in path.name]
        self.assertEqual(left, [self.top / "usr/local/bin/other"])

    def test_package(self):
        """The Debian package has the same files, packed as Debian has them, of root, with the time that is given."""
        need("dpkg-deb")
        (self.folder / "documents").mkdir()
        package = self.folder / "a.deb"
        words = ["arm64", PROGRAM, LIBRARY, self.folder / "documents", package]
        self.assert_well(self.run_in([TOP / "packaging/deb.sh", *words], env={**self.own, "MAINTAINER": "A B <a@b>"}))
        self.assertEqual([*self.temporary.iterdir()], [])
        fields = self.run_in(["dpkg-deb", "-f", package, "Version", "Architecture", "Section", "Priority", "Maintainer"]).stdout
        version = VERSION.replace("-", "~")
        self.assertEqual(fields, f"Version: {version}\nArchitecture: arm64\nSection: science\nPriority: optional\nMaintainer: A B <a@b>\n")
        for name, text in (("shlibs", "librnxcmp 2 rnxcmp (>= 2.0.0~)\n"), ("triggers", "activate-noawait ldconfig\n")):
            self.assertEqual(self.run_in(["dpkg-deb", "-I", package, name]).stdout, text)
        listed = [line.split(maxsplit=5) for line in self.run_in(["dpkg-deb", "-c", package], env={**self.own, "TZ": "UTC"}).stdout.splitlines()]
        self.assertEqual({(owner, day, hour) for _, owner, _, day, hour, _ in listed}, {("root/root", "2000-01-01", "00:00")})
        self.assertEqual({mode for mode, *_ in listed}, {"drwxr-xr-x", "-rwxr-xr-x", "-rw-r--r--", "lrwxrwxrwx"})
        there = {name.removesuffix(" -> librnxcmp.so.2") for *_, name in listed if not name.endswith("/")}
        self.assertEqual(there ^ {f"./usr/{name}" for name in self.files_in(PACKAGED)}, {"./usr/lib/python3/dist-packages/rnxcmp -> ../../rnxcmp/rnxcmp"})

    def test_library_is_found(self):
        """By pkg-config beside its file, and by CMake for each version with the same first number that isn't newer."""
        need("pkg-config", "cmake")
        lib, number = self.prefix / "lib", VERSION.partition("-")[0]
        own = {**os.environ, "PKG_CONFIG_PATH": str(lib / "pkgconfig")}
        version, words = (self.run_in(["pkg-config", *choices, "rnxcmp"], env=own).stdout for choices in (["--modversion"], ["--cflags", "--libs"]))
        words = [word[:2] + os.path.normpath(word[2:]) for word in shlex.split(words)]
        self.assertEqual((version, words), (f"{VERSION}\n", [f"-I{self.prefix / 'include'}", f"-L{lib}", "-lrnxcmp"]))
        script = self.folder / "asked.cmake"
        script.write_text('include("${FILE}")\nmessage("${PACKAGE_VERSION} ${PACKAGE_VERSION_COMPATIBLE} ${PACKAGE_VERSION_EXACT}")\n')
        first = int(number.partition(".")[0])
        for asked, answer in (("", "TRUE "), (f"{first}", "TRUE .*"), (number, "TRUE TRUE"), (f"{first}.99", "FALSE "), (f"{first + 1}", "FALSE "), (f"{first - 1}", "FALSE ")):
            major = asked.partition(".")[0]
            words = [f"-DFILE={lib}/cmake/rnxcmp/rnxcmpConfigVersion.cmake", f"-DPACKAGE_FIND_VERSION={asked}", f"-DPACKAGE_FIND_VERSION_MAJOR={major}"]
            self.assertRegex(self.run_in(["cmake", *words, "-P", script]).stderr, rf"\A{number} {answer}\n\Z", asked)

    def test_wheel(self):
        """The page that an index shows of it has no link that leads nowhere there."""
        script = "import build_wheel; print(build_wheel.description())"
        for address in ("", "https://example.org/"):
            own = {**self.own, "ADDRESS": address, "PYTHONPATH": str(TOP / "python"), "PYTHONDONTWRITEBYTECODE": "1"}
            links = re.findall(r"\]\(([^)]*)\)", self.run_in([sys.executable, "-c", script], env=own).stdout)
            self.assertEqual([link for link in links if not re.match("https?:|mailto:", link)], [])
            self.assertEqual(f"{address}docs/USE.md" in links, bool(address))

    def test_zip(self):
        """A zip has a folder's files under its name, with the time that is given, and programs as programs."""
        self.make_program(self.top / "bin/b", "")
        (self.top / "a").write_text("text")
        self.assert_well(self.run_in([TOP / "packaging/zipped.py", self.top, self.folder / "a.zip"], env=self.own))
        with zipfile.ZipFile(self.folder / "a.zip") as packed:
            found = [(it.filename, it.date_time[:4], oct(it.external_attr >> 16), packed.read(it)) for it in packed.infolist()]
        self.assertEqual(found, [("a place/a", (2000, 1, 1, 0), "0o100644", b"text"), ("a place/bin/b", (2000, 1, 1, 0), "0o100755", b"#!/bin/sh\n\n")])

    def test_compilers(self):
        """What is missing to link programs is said of each machine, with the packages that have it."""
        tools = self.folder / "tools"
        self.make_program(tools / "gcc", "exit 1")
        self.make_program(tools / "musl-gcc", '[ "$1" = -static ]')
        for name in ("sh", "mktemp", "rm"):
            (tools / name).symlink_to(shutil.which(name))
        for machines, status, messages in (
            (["musl"], 0, ""),
            (["x86-64", "musl", "aarch64", "windows"], 1, "gcc links no program of C: apt-get install gcc libc6-dev\n"
             "there is no aarch64-linux-gnu-gcc: apt-get install gcc-aarch64-linux-gnu libc6-dev-arm64-cross\n"
             "there is no x86_64-w64-mingw32-gcc: apt-get install gcc-mingw-w64-x86-64\n"),
        ):  # fmt: skip
            done = self.run_in([TOP / "packaging/compilers.sh", *machines], env={**self.own, "PATH": str(tools)})
            self.assertEqual((done.returncode, done.stderr, [*self.temporary.iterdir()]), (status, messages, []))

    def test_make(self):
        """What `make` runs of a target, where nothing has to be proved, and what it shows of the sample."""
        for words, commands in (
            (["test"], ["tests/runner.py --gate"]),
            (["test", "T=tests/docs a", "K=x and y"], ["tests/runner.py tests/docs a -k 'x and y'"]),
            (["test", "K=x"], ["tests/runner.py  -k 'x'"]),
            (["quick"], ["tests/runner.py"]),
            (["docs"], ["docs/pages.py out/docs"]),
            (["cases"], ["tests/collect.py > conformance/cases.json"]),
            (["clean"], ["rm -rf out crates/*/out"]),
            (["library"], ["library/build.sh crates/rnxcmp_c/out/librnxcmp_c.a out/library"]),
            (["dist", "TARGETS=a b", "KEY=a b"], ["packaging/compilers.sh a b", "KEY='a b' packaging/dist.sh out/dist out/machines a b", "cat out/dist/SHA256SUMS"]),
        ):
            with self.subTest(words):
                self.assertEqual(self.make("-n", *words).splitlines(), commands)
        shown = self.make("all", f"PROGRAM={PROGRAM}", f"COMPACT={self.folder}/a.crx")
        self.assertIn("\nthe sample comes back byte for byte; the program is ", shown)
        self.assertRegex(shown, rf"\n *{SAMPLE.stat().st_size} samples/station.rnx\n")
        self.assertEqual(self.run_in([PROGRAM, "crx2rnx", "-"], stdin=(self.folder / "a.crx").open()).stdout, SAMPLE.read_text())
        self.assertNotEqual(self.run_in(["make", "made=", "all", "PROGRAM=true", f"COMPACT={self.folder}/b.crx"], cwd=TOP, env=self.own).returncode, 0)

    def test_make_help(self):
        """It names each target that the first lines of the Makefile describe, and those that it names are there."""
        done = self.run_in(["make", "--no-print-directory", "help"], cwd=TOP)
        targets = set(re.findall(r"^([a-z0-9-]+):", (TOP / "Makefile").read_text(), re.M)) - {"all"}
        self.assert_well(done)
        self.assertEqual(set(re.findall(r"^make ([a-z0-9-]+)", done.stdout, re.M)), targets)


class Pages(Installed):
    """Each name has a manual page with a date and the version."""

    def test_groff(self):
        need("groff")
        for name in ALL_NAMES:
            with self.subTest(name):
                done = self.run_in(["groff", "-t", "-man", "-Tascii", "-ww", "-P-cbou", self.prefix / f"share/man/man1/{name}.1"])
                self.assert_well(done)
                self.assertIn("EXIT STATUS", done.stdout)
                self.assertEqual([line for line in done.stdout.splitlines() if len(line) > WIDTH], [])

    def test_mandoc(self):
        need("mandoc")
        for name in ALL_NAMES:
            with self.subTest(name):
                page = self.prefix / f"share/man/man1/{name}.1"
                done = self.run_in(["mandoc", "-Tlint", page])
                self.assertEqual((done.returncode, done.stdout, done.stderr), (0, "", ""))
                self.assertRegex(page.read_text(), rf'(?m)^\.TH \S+ 1 \d{{4}}-\d\d-\d\d "rnxcmp {re.escape(VERSION)}"')


class Completions(Installed):
    def setUp(self):
        super().setUp()
        (self.folder / "sub").mkdir()
        for name in FILES:
            (self.folder / name).touch()

    def test_bash(self):
        """By the file that is installed for each name."""
        for line, wanted in COMPLETIONS:
            words = line.split(" ")
            ask = f"""
                . '{self.prefix}/share/bash-completion/completions/{words[0]}'
                COMP_WORDS=({' '.join(word or "''" for word in words)})
                COMP_CWORD={len(words) - 1}
                handler=$(complete -p {words[0]})
                handler=${{handler#*-F }}
                "${{handler%% *}}" {words[0]} "{words[-1]}" "{words[-2]}"
                [[ ${{#COMPREPLY[@]}} -eq 0 ]] || printf '%s\n' "${{COMPREPLY[@]}}"
                shopt -q extglob && echo "an option of the shell is left on"
            """
            with self.subTest(line):
                done = self.run_in(["bash", "--norc", "-c", ask])
                self.assertEqual((sorted(done.stdout.splitlines()), done.stderr), (sorted(shlex.split(wanted)), ""))

    def assert_offered(self, command):
        for line, wanted in OFFERED:
            with self.subTest(line):
                done = self.run_in(command(line))
                offered = [text.split("\t")[0] for text in done.stdout.splitlines()]
                wrong = [word for word in wanted.split() if (word.lstrip("!") in offered) == word.startswith("!")]
                self.assertEqual((done.returncode, wrong), (0, []), f"{offered} {done.stderr}")

    def test_fish(self):
        need("fish")
        pages = self.prefix / "share/fish/vendor_completions.d"
        self.assertEqual([name for name in ALL_NAMES if not (pages / f"{name}.fish").is_file()], [])
        self.assert_offered(lambda line: ["fish", "--no-config", "-c", f"source '{pages}/{line.split()[0]}.fish'; complete -C '{line}'"])

    def test_zsh(self):
        need("zsh")
        pages, kept = self.prefix / "share/zsh/site-functions", self.folder / "offered"
        self.assert_offered(lambda line: ["zsh", "-f", HERE / "offered.zsh", pages, line, kept])
