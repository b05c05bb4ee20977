"""The machines that a release is made for, and what runs their programs here: nothing, qemu's user emulation, or Wine."""

import os
import shutil
import subprocess
import tempfile
from contextlib import contextmanager
from dataclasses import dataclass
from pathlib import Path

import prove
from runner import TOP

MADE = Path(os.environ.get("MACHINES") or TOP / "out/machines")  # by packaging/machines.mk
STACK = 128 * 1024  # bytes of stack that each run has, where the emulator can limit them
SECONDS = 1800  # in which a machine's program and library are to be made


@dataclass(frozen=True)
class Machine:
    name: str  # as TARGETS has it
    what: str
    emulator: tuple = ()  # the command that runs a program of it, and its words
    compiler: str = "gcc"
    program: str = "rnxcmp"
    shared: str = "librnxcmp.so.2"
    target: str = ""  # what it is made by, where that has another name

    @property
    def made_by(self):
        return self.target or self.name

    @property
    def built(self):
        return MADE / self.made_by / "built"

    @property
    def proved(self):
        """The crates that are proved for this machine, as tests/prove.py names them, each with what is made of it."""
        by = "x86-64" if self.is_windows else self.made_by
        return {} if by == "x86-64-v2" else {f"rnxcmp@{by}": MADE / by / "rnxcmp.o", f"rnxcmp_c@{by}": MADE / by / "librnxcmp_c.a"}

    def lacking(self):
        """What is missing here to make and to run its programs, in a text that is empty if nothing is."""
        compilers = subprocess.run([TOP / "packaging/compilers.sh", self.name], capture_output=True, text=True).stderr.splitlines()
        return "; ".join([*compilers, *(f"there is no {tool}" for tool in self.emulator[:1] if not shutil.which(tool))])

    @property
    def is_windows(self):
        return self.program.endswith(".exe")


MACHINES = (
    Machine("x86-64-v2", "Linux on x86-64 of 2009 and later"),
    Machine("musl", "the same with the C library musl", compiler="musl-gcc", target="x86-64-v2"),
    Machine("x86-64", "Linux on any x86-64", ("qemu-x86_64", "-cpu", "Opteron_G1", "-s", str(STACK))),
    Machine("aarch64", "Linux on 64-bit ARM", ("qemu-aarch64", "-s", str(STACK)), "aarch64-linux-gnu-gcc"),
    Machine("windows", "Windows on x86-64", ("wine",), "x86_64-w64-mingw32-gcc", "rnxcmp.exe", "librnxcmp-2.dll"),
)


def take_over(machines):
    """Has make, which goes by time, take what is proved for machines if it is of these sources, by its sum."""
    sources = prove.sum_of_sources()
    for crate, path in ((crate, path) for machine in machines for crate, path in machine.proved.items()):
        if path.exists() and prove.proved_of(crate) == sources:
            path.touch()


def make(machines):
    """Makes the programs and the libraries of machines, or takes those that are newer than their sources: what went wrong, as lines."""
    command = ["make", "--no-print-directory", f"-j{len(os.sched_getaffinity(0))}", *sorted({f"machine-{it.made_by}" for it in machines})]
    run = subprocess.run(command, cwd=TOP, capture_output=True, text=True, timeout=SECONDS)
    return [] if run.returncode == 0 else [f"{' '.join(command)}: status {run.returncode}", *(run.stdout + run.stderr).splitlines()[-14:]]


def script(path, words):
    """A command of one word, which runs these and hands its own on."""
    path.write_text("#!/bin/sh\nexec " + " ".join(f"'{word}'" for word in words) + ' "$@"\n')
    path.chmod(0o755)
    return path


@contextmanager
def emulator(machine):
    """The words before a program of a machine that run it here. Wine has a folder of its own for its files, and its server ends with it."""
    if not machine.is_windows:
        yield list(machine.emulator)
        return
    folder = tempfile.mkdtemp(prefix="wine-")
    own = {"WINEPREFIX": folder, "WINEDEBUG": "-all", "WINEDLLOVERRIDES": "mscoree,mshtml="}
    words = ["env", *(f"{name}={value}" for name, value in own.items())]
    quiet = {"stdin": subprocess.DEVNULL, "stdout": subprocess.DEVNULL, "stderr": subprocess.DEVNULL}
    subprocess.run([*words, "wineserver", "-p"], **quiet, timeout=60, check=True)  # it stays from run to run, which takes less time
    subprocess.run([*words, "wineboot", "--init"], **quiet, timeout=300, check=True)
    try:
        yield [*words, *machine.emulator]
    finally:
        subprocess.run([*words, "wineserver", "-k"], **quiet, timeout=60)
        shutil.rmtree(folder, ignore_errors=True)
