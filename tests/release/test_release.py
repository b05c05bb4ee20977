"""What `make dist` makes: the same bytes twice, packages that unpack into an empty folder, a static program that works there, a library that
compilers find; and the version, which stands in VERSION alone."""

import gzip
import json
import os
import re
import shutil
import subprocess
import sys
import tempfile
import unittest
from pathlib import Path

import prove
from found import check_archive_in_empty_root, check_found, check_in_empty_root, check_lintian, check_sums, check_wheel
from runner import PROGRAM, SAMPLE, TESTS, TOP, VERSION, need, wrong_run

sys.path.insert(0, str(TOP / "packaging"))
from parts import COMPILERS  # noqa: E402

PROVED = TOP / "crates/rnxcmp_c/out/librnxcmp_c.a"
MACHINES = TOP / "out/machines"  # what was made for others (packaging/machines.mk)
OBJECTS = {name: (f"{name}/rnxcmp.o", f"{name}/librnxcmp_c.a") for name in ("x86-64", "aarch64")}
OBJECTS["windows"] = ("x86-64/rnxcmp.bc", "x86-64/rnxcmp_c.bc")
DEBIAN = VERSION.replace("-", "~")  # as Debian writes it
ARCHIVE, PACKAGE = f"rnxcmp-{VERSION}-linux-x86_64", f"rnxcmp_{DEBIAN}_amd64.deb"
SECONDS = 600  # in which each step is to end, on a busy machine too
FILES = ("bin/rnxcmp", "bin/RNX2CRX", "bin/crx2rnx", "share/man/man1/rnxcmp.1")
DOCUMENTS = ["README.md", "docs/USE.md", "docs/pictures/epoch.svg", "examples/compact.c", "NOTICES", "LGPL-2.1.txt", "CHANGELOG.md"]
PAGES = ["docs/DEFINITIONS.html", "docs/CONTRACTS.html"]  # those of make docs


def lacking():
    """What the machine lacks for a release, or nothing."""
    need("gcc", "git", "dpkg-deb", "rt", "sha256sum", "readelf")
    if wrong_run(["git", "-C", TOP, "log", "-1"]):
        return "this is no checkout of git"
    if not Path(f"{PROGRAM}.o").exists():
        return f"there is no object file {PROGRAM.name}.o beside the program"
    if not PROVED.exists():
        return "there is no library: make library"
    static = wrong_run(["gcc", "-static", "-x", "c", "-o", "/dev/null", "-"], input="int main(void) { return 0; }")
    return "there is no static C library" if static else ""


def compiler_of(name):
    return COMPILERS.get(name, "gcc")


def others(with_compiler=True):
    """The machines beside x86-64-v2 for which a release was made here after its scripts and its C last changed, and whose compiler is there,
    or isn't."""
    patterns = ("packaging/*.sh", "packaging/*.c", "packaging/*.py", "library/*", "include/*", "VERSION")
    newest = max(path.stat().st_mtime for pattern in patterns for path in TOP.glob(pattern))
    stamps = {name: MACHINES / name / "made" for name in OBJECTS}
    return [name for name, stamp in stamps.items() if stamp.exists() and stamp.stat().st_mtime > newest and bool(shutil.which(compiler_of(name))) == with_compiler]


def made(program, folder, top=TOP, there=(), again=(), **environment):
    """Makes a release of the program, and of other machines, of what is there or made again for them: what went wrong, as lines."""
    built = folder.with_name(f"{folder.name}-machines")
    built.mkdir()
    for name in there:
        (built / name).symlink_to(MACHINES / name)
    objects = {"x86-64-v2": (f"{program}.o", PROVED), **{name: [MACHINES / path for path in OBJECTS[name]] for name in again}}
    runs = [[top / "packaging/machine.sh", name, *paths, built / name / "built"] for name, paths in objects.items()]
    for words in (*runs, [top / "packaging/dist.sh", folder, built, *objects, *there]):
        run = subprocess.run(words, env={**os.environ, **environment}, capture_output=True, text=True, timeout=SECONDS)
        if run.returncode or run.stderr:
            return [f"{words[0].name}: status {run.returncode}, {run.stderr[-600:]!r}"]
    return []


def wanted(more):
    """The names of a release's files."""
    archive, wheel = f"rnxcmp-{VERSION}", f"rnxcmp-{VERSION.replace('-dev', '.dev0')}-py3-none"
    names = {
        "x86-64-v2": [f"{archive}-linux-x86_64.tar.gz", f"rnxcmp_{DEBIAN}_amd64.deb", f"{wheel}-manylinux2014_x86_64.whl", f"{wheel}-musllinux_1_2_x86_64.whl"],
        "x86-64": [f"{archive}-linux-x86_64-v1.tar.gz"],
        "aarch64": [f"{archive}-linux-aarch64.tar.gz", f"rnxcmp_{DEBIAN}_arm64.deb", f"{wheel}-manylinux2014_aarch64.whl"],
        "windows": [f"{archive}-windows-x86_64.zip", f"{wheel}-win_amd64.whl"],
    }
    return sorted([f"{archive}.tar.gz", "SHA256SUMS", *(name for machine in ("x86-64-v2", *more) for name in names[machine])])


def key_in(folder):
    """The environment of gpg with a new key, or none where there is no gpg."""
    if not shutil.which("gpg"):
        return {}
    folder.mkdir(mode=0o700)
    own = {"GNUPGHOME": str(folder)}
    command = ["gpg", "--batch", "--quiet", "--pinentry-mode", "loopback", "--passphrase", "", "--quick-generate-key", "release@example.org", "ed25519", "sign", "never"]
    run = subprocess.run(command, env={**os.environ, **own}, capture_output=True, timeout=SECONDS)
    return {**own, "KEY": "release@example.org"} if run.returncode == 0 else {}


def check_tool(prefix):
    """The tool for whole files: its manual page, and a file that it compacts and verifies."""
    shutil.copy(SAMPLE, prefix / "a.rnx")
    environment = {name: value for name, value in os.environ.items() if not name.startswith(("PYTHON", "RNXCMP"))}
    command = [prefix / "bin/rnxcmp-file", "rnx2crx", "--verify", "--gzip", "a.rnx"]
    run = subprocess.run(command, cwd=prefix, env=environment, capture_output=True, text=True, timeout=SECONDS)
    right = run.stdout == "a.rnx: made a.crx.gz, verified exact\n" and (prefix / "a.crx.gz").exists() and (prefix / "a.rnx").read_bytes() == SAMPLE.read_bytes()
    page = prefix / "share/man/man1/rnxcmp-file.1"
    wrong = [] if page.exists() or page.with_suffix(".1.gz").exists() else ["no manual page of rnxcmp-file"]
    return wrong + ([] if right and not run.stderr else [f"rnxcmp-file: status {run.returncode}, {run.stdout!r}, {run.stderr!r}"])


def check_unpacked(prefix, doc):
    """What stands below a folder: the files, a static program, a round trip with it and with the tool, and the list of parts."""
    wrong = [f"{name} isn't there" for name in FILES if not (prefix / name).exists() and not (prefix / f"{name}.gz").exists()]
    wrong += [f"share/doc/rnxcmp/{name} isn't there" for name in doc if not (prefix / "share/doc/rnxcmp" / name).exists()]
    if wrong:
        return wrong
    program = prefix / "bin/rnxcmp"
    dynamic = subprocess.run(["readelf", "-hdlW", program], capture_output=True, text=True).stdout
    wrong += ["the program isn't static, or can't be moved"] if " INTERP " in dynamic or not re.search(r"Type: +DYN ", dynamic) else []
    wrong += [] if "GNU_RELRO" in dynamic and re.search(r"FLAGS.*\bNOW\b", dynamic) else ["what is relocated of the program stays writable"]
    compact = subprocess.run([program, "rnx2crx"], stdin=SAMPLE.open(), capture_output=True, timeout=SECONDS)
    back = subprocess.run([program, "crx2rnx"], input=compact.stdout, capture_output=True, timeout=SECONDS)
    if (compact.returncode, back.returncode, back.stdout) != (0, 0, SAMPLE.read_bytes()):
        wrong.append(f"the sample doesn't come back: {compact.stderr!r}, {back.stderr!r}")
    wrong += check_tool(prefix)
    parts = json.loads((prefix / "share/doc/rnxcmp/parts.spdx.json").read_text())
    found = {part["name"]: part["versionInfo"] for part in parts["packages"]}
    wrong += [] if found.get("rnxcmp") == VERSION and found.get("glibc") and found.get("rattle") == prove.version() else [f"parts {found}"]
    notices = next(path for name in ("NOTICES", "copyright") if (path := prefix / "share/doc/rnxcmp" / name).exists())
    return wrong + ([] if re.search(rf"^rattle +{prove.version()}  ", notices.read_text(), re.M) else [f"{notices.name} doesn't name the kit"])


def unpacked(made_in, folder):
    """The archive of a release, unpacked into a new folder."""
    folder.mkdir()
    subprocess.run(["tar", "-xzf", made_in / f"{ARCHIVE}.tar.gz", "-C", folder], check=True, timeout=SECONDS)
    return folder / ARCHIVE


def check_archive(prefix):
    """What is wrong with an archive that is unpacked; its suite of conformance is run, too."""
    wrong = check_sums(prefix) + check_unpacked(prefix, ["LICENSE-MIT", "LICENSE-APACHE", *DOCUMENTS, *PAGES])
    suite, program = prefix / "share/doc/rnxcmp/conformance", prefix / "bin/rnxcmp"
    words = ["--compact", f"{program} rnx2crx", "--expand", f"{program} crx2rnx", "--profile", "cases.json"]
    run = subprocess.run([suite / "conform.py", *words], cwd=suite, capture_output=True, text=True, timeout=SECONDS)
    return wrong + ([] if run.returncode == 0 and " 0 differ" in run.stdout else [f"the suite: status {run.returncode}, {run.stdout[-300:]}{run.stderr[-300:]}"])


def check_changes(text):
    """The package's list of changes has each item of CHANGELOG.md's newest version, whole."""
    newest = (TOP / "CHANGELOG.md").read_text().partition("\n## ")[2].partition("\n## ")[0]
    items = [" ".join(item.split()) for item in re.findall(r"^- (.*(?:\n  .*)*)", newest, re.M)]
    return [f"the package's changelog lacks: {item}" for item in items if item not in " ".join(text.split())] or ([] if items else ["no changes"])


def check_package(made_in, folder):
    package = made_in / PACKAGE
    subprocess.run(["dpkg-deb", "-x", package, folder], check=True, timeout=SECONDS)
    named = ["Package", "Version", "Depends", "Pre-Depends", "Recommends", "Suggests"]
    fields = subprocess.run(["dpkg-deb", "-f", package, *named], capture_output=True, text=True, timeout=SECONDS).stdout
    versions = subprocess.run(["readelf", "-VW", folder / "usr/lib/rnxcmp/rnxcmp/librnxcmp.so.2"], capture_output=True, text=True).stdout
    newest = max(re.findall(r"GLIBC_2\.(\d+)", versions), key=int)  # the C library that the shared library needs
    wanted = f"Package: rnxcmp\nVersion: {DEBIAN}\nRecommends: python3 (>= 3.8), libc6 (>= 2.{newest})\n"
    wrong = [] if fields == wanted else [f"fields {fields!r}, not {wanted!r}"]
    subprocess.run(["dpkg-deb", "-e", package, folder / "DEBIAN"], check=True, timeout=SECONDS)
    sums = subprocess.run(["md5sum", "--quiet", "-c", "DEBIAN/md5sums"], cwd=folder, capture_output=True, text=True, timeout=SECONDS)
    named = {line.split("  ", 1)[1] for line in (folder / "DEBIAN/md5sums").read_text().splitlines()}
    files = {str(path.relative_to(folder)) for path in (folder / "usr").rglob("*") if path.is_file() and not path.is_symlink()}
    wrong += [] if sums.returncode == 0 and named == files else [f"md5sums: {sums.stdout}{sums.stderr}, {sorted(named ^ files)}"]
    wrong += check_sums(folder, folder / "usr/share/doc/rnxcmp")
    wrong += check_changes(gzip.decompress((folder / "usr/share/doc/rnxcmp/changelog.gz").read_bytes()).decode())
    return wrong + check_unpacked(folder / "usr", ["copyright", "LICENSE-APACHE", *PAGES])


def wrong_changes(version, changes):
    """What is wrong with a list of changes beside a version. One that ends in `-dev` is above the newest that was released."""
    released = re.findall(r"^## ([0-9.]+)$", changes, re.M)
    unreleased = re.search(r"^## Unreleased\n(.*?)(?=^## |\Z)", changes, re.M | re.S)
    number, work, _ = version.partition("-dev")
    if not work:
        wrong = ["VERSION is a released one, and changes are unreleased"] if unreleased and unreleased[1].strip() else []
        return wrong + ([] if released[:1] == [version] else [f"CHANGELOG.md: {released[:1]}"])
    newest = max(([int(part) for part in one.split(".")] for one in released), default=[])
    return [] if [int(part) for part in number.split(".")] > newest else [f"VERSION: {version}, and {released[0]} is released"]


class Sources(unittest.TestCase):
    def test_version(self):
        """The help and the manual pages say the version that stands in VERSION, and the list of changes has its changes: those of a version
        that ends in `-dev` aren't released, and there are none such where it doesn't."""
        self.assertRegex(VERSION, r"\A[0-9]+\.[0-9]+\.[0-9]+(-dev)?\Z")
        text = subprocess.run([PROGRAM, "--help"], capture_output=True, text=True, timeout=SECONDS).stdout
        self.assertTrue(text.startswith(f"rnxcmp {VERSION}: "), text[:40])
        for page in sorted((TOP / "packaging/man").glob("*.1")):
            self.assertIn('"rnxcmp @VERSION@"', page.read_text())
            self.assertNotIn(VERSION, page.read_text())
        self.assertEqual(wrong_changes(VERSION, (TOP / "CHANGELOG.md").read_text()), [])

    def test_versions_that_fit_the_list_of_changes(self):
        empty, some = "# Changes\n\n## Unreleased\n\n", "# Changes\n\n## Unreleased\n\n- A change.\n\n"
        rows = (
            ("2.0.0-dev", some + "## 1.0.0\n", True), ("2.0.0-dev", empty + "## 1.0.0\n", True), ("1.0.0", some + "## 1.0.0\n", False),
            ("1.0.0", empty + "## 1.0.0\n", True), ("1.0.0", "# Changes\n\n## 1.0.0\n", True), ("2.0.0", empty + "## 1.0.0\n", False),
            ("1.0.0-dev", some + "## 1.0.0\n", False), ("1.10.0-dev", some + "## 1.9.0\n", True),
        )  # fmt: skip
        for version, changes, right in rows:
            with self.subTest(version, changes=changes):
                self.assertEqual(not wrong_changes(version, changes), right)

    def test_notices(self):
        """Each library of the kit that the crates stand on is named in NOTICES, in a row of its own or as part of the standard library."""
        lines = [line.split(":") for line in (TOP / "crates.txt").read_text().splitlines() if line and not line.startswith("#")]
        own = {line[0].split()[0] for line in lines}
        notices = (TOP / "NOTICES").read_text()
        for name in sorted({name for line in lines for name in line[1].split()} - own):
            self.assertRegex(notices, rf"(?m)^{name} |^rattle .*\b{name}\b")


class Release(unittest.TestCase):
    """A release that is made twice, of all machines that are made here; the second time signed, where there is gpg."""

    @classmethod
    def setUpClass(cls):
        if reason := lacking():
            raise unittest.SkipTest(reason)
        kept = tempfile.TemporaryDirectory()
        cls.addClassCleanup(kept.cleanup)
        cls.folder = Path(kept.name)
        cls.one, cls.two = cls.folder / "one", cls.folder / "two"
        cls.signing = key_in(cls.folder / "keys")
        wrong = made(PROGRAM, cls.one, there=others(), KEY="") + made(PROGRAM, cls.two, again=others(), **{"KEY": "", **cls.signing})
        if wrong:
            raise AssertionError("\n".join(wrong))
        cls.prefix = unpacked(cls.one, cls.folder / "archive")

    def assert_right(self, wrong):
        """What a call says is wrong is nothing, or why it can't be tried."""
        if isinstance(wrong, str):
            self.skipTest(wrong)
        self.assertEqual(wrong, [])

    def test_made_twice(self):
        names = sorted(path.name for path in self.one.iterdir())
        self.assertEqual(names, wanted(others()))
        self.assertEqual([name for name in names if (self.one / name).read_bytes() != (self.two / name).read_bytes()], [], "these differ")
        sums = (self.one / "SHA256SUMS").read_text().splitlines()
        self.assertEqual({line.split("  ", 1)[1] for line in sums}, {*names} - {"SHA256SUMS"})
        self.assertEqual(wrong_run(["sha256sum", "-c", "SHA256SUMS"], cwd=self.one), [])

    def test_compilers_of_all_machines(self):
        for name in others(with_compiler=False):
            need(compiler_of(name))

    def test_signature(self):
        need("gpg")
        own = {**os.environ, **self.signing}
        self.assertEqual(wrong_run(["gpg", "--verify", self.two / "SHA256SUMS.asc", self.two / "SHA256SUMS"], env=own), [])
        wrong_run(["gpgconf", "--kill", "all"], env=own)

    def test_archive(self):
        self.assertEqual(check_archive(self.prefix), [])

    def test_its_library_as_compilers_find_it(self):
        self.assert_right(check_found(self.prefix, self.folder / "usr"))

    def test_its_program(self):
        """The cases and the runs as a process."""
        words = [sys.executable, *(TESTS / name for name in ("runner.py", "test_cases.py", "test_streams.py", "test_sizes.py"))]
        own = {**os.environ, "PROGRAM": str(self.prefix / "bin/rnxcmp"), "STRICT": ""}
        run = subprocess.run(words, env=own, capture_output=True, text=True, timeout=SECONDS)
        lines = [line for line in run.stdout.splitlines() if not line.endswith(" s)") or "FAILED" in line]
        self.assertEqual(run.returncode, 0, "\n".join([*lines[:40], run.stderr[-300:]]))

    def test_in_an_empty_root(self):
        self.assert_right(check_archive_in_empty_root(self.one / f"{ARCHIVE}.tar.gz", self.folder / "empty"))

    def test_wheels(self):
        self.assert_right(check_wheel(self.one, self.folder / "environment"))

    def test_package(self):
        self.assertEqual(check_package(self.one, self.folder / "package"), [])

    def test_package_as_lintian_sees_it(self):
        self.assert_right(check_lintian(self.one / PACKAGE))

    def test_package_in_an_empty_root(self):
        self.assert_right(check_in_empty_root(self.one / PACKAGE, self.folder / "empty_too"))

    def test_printed_commands(self):
        """The commands of docs/USE.md that install a release, as they stand there, in a folder that holds it; the manual is then found too."""
        folder = self.folder / "printed"
        shutil.copytree(self.one, folder)
        page = (TOP / "docs/USE.md").read_text()
        lines = re.findall(r"^    (.*)$", page[page.index("## Install") : page.index("## Machines")], re.M)
        more = [f"command -v {name}" for name in ("rnxcmp", "rnxcmp-file", "RNX2CRX", "crx2rnx")]
        more += [f"man -w {name}" for name in ("rnxcmp", "rnxcmp-file", "CRX2RNX")] if shutil.which("man") else []
        run = subprocess.run(["sh", "-ec", "\n".join([*lines, *more])], cwd=folder, capture_output=True, text=True, timeout=SECONDS)
        found = [line for line in run.stdout.splitlines() if line.startswith(f"{folder}/{ARCHIVE}/")]
        self.assertEqual((run.returncode, run.stderr, len(lines), len(found)), (0, "", 4, len(more)), run.stdout)

    def test_source_archive(self):
        """It holds what the last commit does; unpacked in another folder and without git it makes the same archive and package."""
        folder = self.folder / "source"
        folder.mkdir()
        subprocess.run(["tar", "-xzf", self.one / f"rnxcmp-{VERSION}.tar.gz", "-C", folder], check=True, timeout=SECONDS)
        listed = subprocess.run(["git", "ls-tree", "-r", "--name-only", "-z", "HEAD"], cwd=TOP, capture_output=True, text=True, check=True).stdout
        top = folder / f"rnxcmp-{VERSION}"
        self.assertEqual({str(path.relative_to(top)) for path in top.rglob("*") if path.is_file()}, {*listed.split("\0")} - {""})
        if subprocess.run(["git", "status", "--porcelain"], cwd=TOP, capture_output=True, text=True, check=True).stdout:
            self.skipTest("there are changes that aren't committed")
        again = folder / "again"
        self.assertEqual(made(PROGRAM, again, top), [])
        for name in (f"{ARCHIVE}.tar.gz", PACKAGE):
            self.assertTrue((again / name).read_bytes() == (self.one / name).read_bytes(), f"{name} differs")
