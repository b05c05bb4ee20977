"""The library of a machine, linked both ways with calls.c, and run by its emulator beside the program; and what the header promises."""

import random
import re
import shutil
import subprocess
import tempfile
from pathlib import Path

from runner import SAMPLE, SEED, TOP, wrong_run
from texts import DATED, damaged

CALLS = Path(__file__).resolve().parent / "calls.c"
SECONDS = 100
DAMAGED = 7  # copies of the sample with damage, beside it
WAYS = ("whole", "777")  # of calls.c
COUNTED = "-Wl,--wrap=malloc,--wrap=realloc,--wrap=free"  # tests/library/counted.h


def compiled(machine, library, source, target, linked):
    """Compiles a program of C with a machine's compiler: what went wrong, as lines."""
    return wrong_run([machine.compiler, "-std=gnu11", "-O1", "-Wall", "-Werror", "-I", library, source, *linked, "-o", target, "-pthread"])


def linked_ways(machine, library):
    """How a program is linked with a library: with its archive, all in one file, and with the shared one."""
    yield "static", [library / "librnxcmp.a", "-static"]
    shared = [library / "librnxcmp.dll.a"] if machine.is_windows else ["-L", library, "-lrnxcmp", f"-Wl,-rpath,{library}"]
    yield "shared", shared


def finds_shared(machine, words):
    """The emulator's words by which a program finds the C library of its machine."""
    return [words[0], "-L", "/usr/aarch64-linux-gnu", *words[1:]] if machine.name == "aarch64" else words


def answer(command, words, data):
    run = subprocess.run([*command, *words], input=data, capture_output=True, timeout=SECONDS)
    return run.stdout, run.stderr, run.returncode


def differing(program, command, words, data):
    """What differs between the program and calls.c, whole and in pieces, as lines."""
    wanted = answer([program], words, data)
    found = ((way, answer([*command, way], words, data)) for way in WAYS)
    return [f"{way} {' '.join(words)}, {len(data)} bytes: {got!r:.400}, not {wanted!r:.400}" for way, got in found if got != wanted]


def over_texts(program, command):
    """The same over the sample, nothing, and damaged copies."""
    rng, sample, wrong = random.Random(SEED), SAMPLE.read_bytes(), []
    for text in (sample, b"", *(damaged(rng, sample) for _ in range(DAMAGED))):
        wrong += differing(program, command, ["check"], text)
        for skip in ([], ["-s"]):
            wrong += differing(program, command, [*DATED, *skip], text)
            compact = answer([program], [*DATED, *skip], text)[0]
            for given in (compact, damaged(rng, compact) if compact else b""):
                wrong += differing(program, command, ["crx2rnx", *skip], given)
    return wrong[:20]


def check_promises(machine, words, library, folder):
    """The promises of the header, by tests/library/promises.c, which counts memory as glibc does."""
    target = folder / "promises"
    linked = [library / "librnxcmp.a", "-static", COUNTED]
    return compiled(machine, library, TOP / "tests/library/promises.c", target, linked) or wrong_run([*words, target])


def check_names(machine, library):
    """The archive, and what programs are linked with for the shared library, have the header's names and no others."""
    header = re.sub(r"/\*.*?\*/", "", (TOP / "include/rnxcmp.h").read_text(), flags=re.S)
    wanted = set(re.findall(r"\b(rnxcmp_\w+)\(", header))
    tool = machine.compiler.removesuffix("gcc").removesuffix("musl-") + "nm"
    shared = ["librnxcmp.dll.a"] if machine.is_windows else ["--dynamic", machine.shared]
    wrong = []
    for words in (["librnxcmp.a"], shared):
        command = [tool, "--extern-only", "--defined-only", *words]
        run = subprocess.run(command, cwd=library, capture_output=True, text=True, timeout=SECONDS)
        found = set(re.findall(r"^[0-9a-f]+ [TDBR] ([^@\n]+)", run.stdout, re.M))
        wrong += [] if found == wanted else [f"{words[-1]}: {sorted(found ^ wanted)[:6]}"]
    return wrong


def check_library(machine, library, words, program):
    """What is wrong with a library of a machine."""
    wrong = check_names(machine, library)
    with tempfile.TemporaryDirectory() as name:
        folder = Path(name)
        if machine.is_windows:
            shutil.copy(library / machine.shared, folder)
        else:
            wrong += check_promises(machine, words, library, folder)
        for way, linked in linked_ways(machine, library):
            target = folder / (way + ".exe" if machine.is_windows else way)
            lines = compiled(machine, library, CALLS, target, linked) or over_texts(program, [*finds_shared(machine, words), target])
            wrong += [f"{way}: {line}" for line in lines]
    return wrong
