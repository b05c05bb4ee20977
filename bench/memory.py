#!/usr/bin/env python3
"""Measures the greatest resident size of the program: over a usual file, and over files at the limits, with all 770 satellites that there are,
of as many types as may be. It prints the table of bench/README.md, and on how small a stack each command runs.

    bench/memory.py PROGRAM
    bench/memory.py empty           writes a file of 693 satellites of as many types, without values, to standard output
    bench/memory.py same|shuffled   writes one of 693 satellites of two types, in the same order in each epoch, or in another
"""

import random
import subprocess
import sys
import tempfile
from pathlib import Path

from run import greatest_memory

sys.path.append(str(Path(__file__).resolve().parents[1] / "tests"))
from texts import H, NAMES, SYSTEMS, TYPES_LIMIT, text, turning, types_lines  # noqa: E402

HERE = Path(__file__).resolve().parent
TYPES = (TYPES_LIMIT,) * 4  # of each system, by epoch; where there are more an event says so
GROWING = (1, 130, 260, 300, TYPES_LIMIT, TYPES_LIMIT, TYPES_LIMIT)
STACKS = range(4, 132, 4)  # KiB


def declared(types):
    """The lines that declare so many types for each system."""
    return [line for letter in SYSTEMS for line in types_lines(letter, types)]


def at_the_limits(path, types):
    """Epochs of all satellites, with so many types in each epoch. The values have 14 characters and differ so that the codes are long; each has
    both indicators."""
    rng = random.Random(1)

    def cell():
        return f"{rng.choice('- ')}{rng.randrange(10**8, 10**9)}.{rng.randrange(1000):03}{rng.randrange(10)}{rng.randrange(10)}"

    with path.open("w", encoding="ascii") as file:
        file.write(text(H[0], *declared(types[0]), H[2]).decode())
        for epoch, count in enumerate(types):
            if epoch and count != types[epoch - 1]:
                lines = declared(count)
                file.write(text(f"> 2024 01 01 00 00 {epoch:2}.0000000  4{len(lines):3}", *lines).decode())
            file.write(f"> 2024 01 01 00 00 {epoch:2}.0000000  0{len(NAMES):3}\n")
            file.writelines(name + "".join(cell() for _ in range(count)) + "\n" for name in NAMES)


def without_values(types, epochs=20):
    """Epochs of 99 satellites of each system, of so many types, whose lines are their identifiers alone."""
    names = [name for name in NAMES if name[1:].isdigit() and name[1:] != "00"]
    epochs = (line for epoch in range(epochs) for line in (f"> 2024 01 01 00 00 {epoch:2}.0000000  0{len(names):3}", *names))
    return text(H[0], *declared(types), H[2], *epochs)


def resident(program, words, source, target):
    """Runs a command from a file to a file; the greatest resident size of another run of it, in kilobytes."""
    with source.open("rb") as given, target.open("wb") as made:
        subprocess.run([program, *words], stdin=given, stdout=made, check=True)
    return greatest_memory([program, *words], source)


def smallest_stack(program, words, source):
    """The smallest stack, in KiB, on which a command runs over a file with an environment of nothing but a path."""
    for size in STACKS:
        limited = ["sh", "-c", f'ulimit -s {size} && exec "$@"', "sh", str(program), *words]
        with source.open("rb") as given:
            run = subprocess.run(limited, stdin=given, stdout=subprocess.DEVNULL, stderr=subprocess.DEVNULL, env={"PATH": "/usr/bin:/bin"})
        if run.returncode == 0:
            return size
    return None


def main():
    if len(sys.argv) != 2:
        sys.exit(__doc__)
    if sys.argv[1] in ("empty", "same", "shuffled"):
        rng, order = random.Random(1), list(range(693))
        orders = [rng.sample(order, 693) if sys.argv[1] == "shuffled" else order for _ in range(20)]
        sys.stdout.buffer.write(without_values(TYPES_LIMIT) if sys.argv[1] == "empty" else turning(orders, 2))
        return
    program = Path(sys.argv[1]).resolve()
    with tempfile.TemporaryDirectory() as name:
        folder = Path(name)
        usual, limits, growing, packed, other = (folder / file for file in ("usual.rnx", "limits.rnx", "growing.rnx", "packed.crx", "other"))
        subprocess.run([HERE / "generate.py", "--megabytes", "10", "-o", usual], check=True, stdout=subprocess.DEVNULL)
        at_the_limits(growing, GROWING)
        at_the_limits(limits, TYPES)
        print("| Resident at most, kB | compacting | expanding | check |\n|---|---:|---:|---:|")
        rows = (("a usual file", usual), (f"770 satellites whose types become {TYPES_LIMIT}", growing), (f"770 satellites of {TYPES_LIMIT} types", limits))
        for what, source in rows:
            sizes = [resident(program, ["rnx2crx", "--date", "D"], source, packed), resident(program, ["crx2rnx"], packed, other)]
            if other.read_bytes() != source.read_bytes():
                sys.exit(f"{what}: another file came back")
            sizes.append(resident(program, ["check"], source, other))
            print(f"| {what}, {source.stat().st_size:,} bytes | " + " | ".join(f"{size:,}" for size in sizes) + " |")
        for words, source in ((["rnx2crx", "--date", "D"], limits), (["crx2rnx"], packed), (["check"], limits), (["--help"], limits)):
            print(f"{words[0]}: a stack of {smallest_stack(program, words, source)} KiB")


if __name__ == "__main__":
    main()
