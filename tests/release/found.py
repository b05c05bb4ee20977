"""What others find of a release: compilers its library, by pkg-config and CMake; pip the program in a wheel; lintian no error; and the list
of parts, which has each file's sum."""

import hashlib
import json
import os
import shutil
import subprocess
import sys

from runner import SAMPLE, wrong_run

SECONDS = 600  # in which each step is to end, on a busy machine too
# errors of lintian that are known: the program is to run without the system's C library
KNOWN = ("statically-linked-binary",)
LISTS = """cmake_minimum_required(VERSION 3.10)
project(examples C CXX)
find_package(rnxcmp 2 REQUIRED)
add_executable(shared compact.c)
target_link_libraries(shared rnxcmp::rnxcmp)
add_executable(static compact.cpp)
target_link_libraries(static rnxcmp::static)
"""


def check_sums(root, doc=None):
    """Each file below a folder stands in its list of parts with its sum, and nothing else does."""
    path = (doc or root / "share/doc/rnxcmp") / "parts.spdx.json"
    parts = json.loads(path.read_text())
    listed = {file["fileName"][2:]: file["checksums"][1]["checksumValue"] for file in parts["files"]}
    code = hashlib.sha1("".join(sorted(file["checksums"][0]["checksumValue"] for file in parts["files"])).encode()).hexdigest()
    if parts["packages"][0]["packageVerificationCode"]["packageVerificationCodeValue"] != code:
        return ["the list of parts has another verification code"]
    there = [it for it in root.rglob("*") if it.is_file() and not it.is_symlink() and it != path and "DEBIAN" not in it.parts]
    found = {str(it.relative_to(root)): hashlib.sha256(it.read_bytes()).hexdigest() for it in there}
    return [f"the list of parts: {name}" for name in sorted(set(listed) ^ set(found) | {name for name in listed if found.get(name) != listed[name]})][:10]


def by_pkg_config(prefix, folder, environment):
    """The examples in C, C++ and Fortran with the words that pkg-config gives, linked both ways."""
    wrong, examples = [], prefix / "share/doc/rnxcmp/examples"
    compilers = {"c": "gcc", "cpp": "g++", "f90": "gfortran"}
    for ending, compiler in compilers.items():
        if not shutil.which(compiler):
            continue
        for how in ([], ["--static"]):
            words = subprocess.run(["pkg-config", "--cflags", "--libs", *how, "rnxcmp"], env=environment, capture_output=True, text=True, timeout=SECONDS).stdout.split()
            interfaces = [prefix / "include/rnxcmp.f90"] if ending == "f90" else []
            static = ["-static"] if how else []
            wrong += wrong_run([compiler, *static, *interfaces, examples / f"compact.{ending}", *words, "-o", folder / "example"], cwd=folder)
            wrong += wrong or wrong_run([folder / "example", SAMPLE], env=environment)
    return wrong


def by_cmake(prefix, folder, environment):
    """The examples in C and C++ by find_package, one with the shared library, and one with the archive."""
    for name in ("compact.c", "compact.cpp"):
        shutil.copy(prefix / "share/doc/rnxcmp/examples" / name, folder)
    (folder / "CMakeLists.txt").write_text(LISTS)
    wrong = wrong_run(["cmake", "-S", folder, "-B", folder / "build", f"-DCMAKE_PREFIX_PATH={prefix}"]) or wrong_run(["cmake", "--build", folder / "build"])
    return wrong or [line for name in ("shared", "static") for line in wrong_run([folder / "build" / name, SAMPLE], env=environment)]


def check_found(archive, local):
    """After the archive's folders were copied, the examples are built out of the copy."""
    shutil.copytree(archive, local, symlinks=True)
    folder = local.with_name("examples")
    folder.mkdir()
    environment = {**os.environ, "PKG_CONFIG_PATH": str(local / "lib/pkgconfig"), "LD_LIBRARY_PATH": str(local / "lib")}
    tools = [tool for tool in ("gcc", "pkg-config") if not shutil.which(tool)]
    if tools:
        return f"there is no {', '.join(tools)}"
    return by_pkg_config(local, folder, environment) + (by_cmake(local, folder, environment) if shutil.which("cmake") else [])


def check_wheel(made_in, folder):
    """The wheel of this machine: pip installs it without a network, and the program, its other names and the tool run as it leaves them."""
    made = subprocess.run([sys.executable, "-m", "venv", folder], capture_output=True, text=True, timeout=SECONDS)
    if made.returncode:
        return "there is no venv with pip"
    wheel = next(made_in.glob("*-manylinux2014_x86_64.whl"))
    wrong = wrong_run([folder / "bin/python", "-m", "pip", "install", "--no-index", "--quiet", "--disable-pip-version-check", wheel])
    shutil.copy(SAMPLE, folder / "abcd0010.24o")
    for words in (["rnxcmp", "check", "abcd0010.24o"], ["RNX2CRX", "abcd0010.24o"], ["CRX2RNX", "-f", "abcd0010.24d"], ["rnxcmp-file", "rnx2crx", "-f", "--verify", "abcd0010.24o"]):
        wrong += wrong or wrong_run([folder / "bin" / words[0], *words[1:]], cwd=folder)
    calls = "import rnxcmp; assert rnxcmp.check(open('abcd0010.24o', 'rb').read()).is_standard"
    wrong += wrong or wrong_run([folder / "bin/python", "-I", "-c", calls], cwd=folder)
    return wrong + ([] if (folder / "abcd0010.24o").read_bytes() == SAMPLE.read_bytes() else ["the sample doesn't come back"])


def check_lintian(package):
    """What lintian calls an error of the package, but for what is known."""
    if not shutil.which("lintian"):
        return "there is no lintian"
    run = subprocess.run(["lintian", "--allow-root", "--fail-on", "none", package], capture_output=True, text=True, timeout=SECONDS)
    errors = [line for line in run.stdout.splitlines() if line.startswith("E: ")]
    return [line for line in errors if not any(known in line for known in KNOWN)] + ([] if run.returncode == 0 else [f"lintian: status {run.returncode}, {run.stderr[-300:]}"])


# ---- a root with nothing in it but dpkg's own records


def comes_back(root, program):
    """What is wrong with the sample there and back by a program of a root, which has no other file to use."""
    inside = ["chroot", root, program]
    compact = subprocess.run([*inside, "rnx2crx"], stdin=SAMPLE.open(), capture_output=True, timeout=SECONDS)
    back = subprocess.run([*inside, "crx2rnx"], input=compact.stdout, capture_output=True, timeout=SECONDS)
    return [] if back.stdout == SAMPLE.read_bytes() else [f"the sample doesn't come back: {compact.stderr!r}, {back.stderr!r}"]


def check_in_empty_root(package, folder):
    """What is wrong with the package there: dpkg installs it, and the program brings the sample back."""
    if os.geteuid():
        return "only root may install a package"
    if not shutil.which("dpkg"):
        return "there is no dpkg"
    for name in ("updates", "info", "triggers"):
        (folder / "var/lib/dpkg" / name).mkdir(parents=True)
    for name in ("status", "available"):
        (folder / "var/lib/dpkg" / name).touch()
    run = subprocess.run(["dpkg", f"--root={folder}", "--install", package], capture_output=True, text=True, timeout=SECONDS)
    return comes_back(folder, "/usr/bin/rnxcmp") if run.returncode == 0 else [f"dpkg: status {run.returncode}, {run.stderr[-300:]!r}"]


def check_archive_in_empty_root(archive, folder):
    """What is wrong with the archive there: its folders are copied to /usr/local, and the program brings the sample back."""
    if os.geteuid():
        return "only root may change its root"
    local = folder / "usr/local"
    local.mkdir(parents=True)
    subprocess.run(["tar", "-xzf", archive, "--strip-components=1", "-C", local], check=True, timeout=SECONDS)
    return comes_back(folder, "/usr/local/bin/rnxcmp")
