#!/usr/bin/env python3
"""Measures the program beside other programs, over files of several forms, and prints a table of each thing that is measured.

    make dist && bench/run.py --peer OLD/rnxcmp --peer PLAIN/cbase
    bench/run.py --measures time --inputs "4 types" FILE.rnx

The program is the static one that `make dist` links, unless another is named. A peer is another program with the words rnx2crx, crx2rnx and,
if it has one, check. For times, all programs run one after the other in each round, each way, with their output to /dev/null: what is printed
is the least user and system time, on files of --megabytes where a form has a size. What is counted is counted by callgrind (valgrind) on a
megabyte, and doesn't change with the machine's load. All that is a rate is of the bytes of RINEX. The compact text is the program's own, and
has to expand to the file. A round has all inputs, so that each row meets the moments at which the machine is fast; the next one has them
the other way round, since the first program that reads a file may wait for memory.
"""

import argparse
import math
import os
import subprocess
import sys
import tempfile
from pathlib import Path

HERE = Path(__file__).resolve().parent
STATIC = HERE.parent / "out/machines/x86-64-v2/built/rnxcmp"
WAYS = {"compacting": ["rnx2crx"], "expanding": ["crx2rnx"], "check": ["check"]}
SMALL = 1e5  # bytes of a file below which each round times it ten times
FEW = ["--interval", "1", "--bands", "1"]
# Those of generate.py get a size; the others have their own.
INPUTS = {
    "16 to 20 types": ["generate.py"],
    "8 types": ["generate.py", "--interval", "1", "--bands", "2"],
    "4 types": ["generate.py", *FEW],
    "4 types, a tenth left out": ["generate.py", *FEW, "--left-out", "0.1"],
    "4 types, another order": ["generate.py", *FEW, "--shuffled"],
    "693 satellites": ["memory.py", "same"],
    "693, another order": ["memory.py", "shuffled"],
    "693 of 400 types, no values": ["memory.py", "empty"],
    "38 KB": ["generate.py", "--epochs", "15", "--systems", "GR", "--bands", "2"],
    "1.4 KB": ["generate.py", "--epochs", "3", "--systems", "G", "--bands", "1", "--satellites", "4"],
}


def made(folder, name, megabytes):
    """The file of an input, its compact file, and its bytes and lines."""
    words = INPUTS.get(name, ["cat", name])
    rinex, compact = folder / "made.rnx", folder / "made.crx"
    if words[0] == "generate.py" and "--epochs" not in words:
        words = [*words, "--megabytes", str(megabytes)]
    rinex.write_bytes(subprocess.run([HERE / words[0] if name in INPUTS else words[0], *words[1:]], stdout=subprocess.PIPE, check=True).stdout)
    return rinex, compact, rinex.stat().st_size, rinex.read_bytes().count(b"\n")


def compacted(program, rinex, compact):
    """Compacts a file, and expands that again, which has to give the file back."""
    with rinex.open("rb") as source, compact.open("wb") as out:
        subprocess.run([program, "rnx2crx", "--date", "D"], stdin=source, stdout=out, check=True)
    with compact.open("rb") as source:
        if subprocess.run([program, "crx2rnx"], stdin=source, stdout=subprocess.PIPE, check=True).stdout != rinex.read_bytes():
            sys.exit(f"{rinex}: expanding what was compacted gives another file")


def used(command, path):
    """What a run of a command over a file used, as the system counts it; None where its status isn't 0."""
    with open(path, "rb") as source, open(os.devnull, "wb") as nothing:
        files = [(os.POSIX_SPAWN_DUP2, source.fileno(), 0), *((os.POSIX_SPAWN_DUP2, nothing.fileno(), to) for to in (1, 2))]
        _, status, usage = os.wait4(os.posix_spawn(command[0], command, os.environ, file_actions=files), 0)
    return usage if status == 0 else None


def counts(command, path, words=()):
    """What callgrind counts in a run of a command over a file, by its short names: Ir are instructions."""
    with tempfile.NamedTemporaryFile() as found, open(path, "rb") as source:
        tool = ["valgrind", "--tool=callgrind", f"--callgrind-out-file={found.name}", *words]
        subprocess.run([*tool, *command], stdin=source, stdout=subprocess.DEVNULL, stderr=subprocess.DEVNULL)
        lines = dict(line.rstrip().split(": ", 1) for line in open(found.name) if line.startswith(("events:", "summary:")))
    if "summary" not in lines:
        sys.exit("callgrind gave no count")
    return dict(zip(lines["events"].split(), map(int, lines["summary"].split())))


def instructions(command, path):
    """How many instructions a command takes on a file."""
    return counts(command, path)["Ir"]


def greatest_memory(command, path):
    """The greatest resident size of a command on a file, in kilobytes, as it stands while it waits for the file's last byte."""
    data = Path(path).read_bytes()
    with subprocess.Popen(command, stdin=subprocess.PIPE, stdout=subprocess.DEVNULL) as child:
        child.stdin.write(data[:-1])
        child.stdin.flush()
        state = {"State": "R"}
        while not state["State"].startswith("S"):
            state = dict(line.split(":\t") for line in Path(f"/proc/{child.pid}/status").read_text().splitlines())
        child.stdin.write(data[-1:])
    return int(state["VmHWM"].split()[0])


def nanoseconds(command, path):
    """The user and system time of a run; over a small file, the least of ten."""
    usages = [used(command, path) for _ in range(10 if os.path.getsize(path) < SMALL else 1)]
    return min(1e9 * (usage.ru_utime + usage.ru_stime) for usage in usages)


def least(runs, rounds):
    """The least nanoseconds of each run, one after the other in each round, every second time backwards."""
    taken = [math.inf] * len(runs)
    for at in range(rounds):
        for number in range(len(runs)) if at % 2 else reversed(range(len(runs))):
            taken[number] = min(taken[number], nanoseconds(*runs[number]))
    return taken


def counted(runs, _):
    """Of each run its instructions, mispredicted branches, and loads and stores that the first cache doesn't have."""
    found = [counts(command, path, ("--branch-sim=yes", "--cache-sim=yes")) for command, path in runs]
    return [(run["Ir"], run["Bcm"] + run["Bim"], run["D1mr"] + run["D1mw"]) for run in found]


def faults(runs, rounds):
    return [min(used(command, path).ru_minflt for _ in range(rounds)) for command, path in runs]


def resident(runs, _):
    return [greatest_memory(command, path) for command, path in runs]


# What measures; whether over large files; and of each of its figures the table's title, a factor, and what it is divided by.
MEASURES = {
    "time": (least, True, [("Nanoseconds a byte", 1, "bytes")]),
    "counts": (counted, False, [("Instructions a byte", 1, "bytes"), ("Mispredicted branches a line", 1, "lines"), ("First-cache misses a MB", 1e6, "bytes")]),
    "faults": (faults, False, [("Page faults", 1, None)]),
    "memory": (resident, False, [("Resident, kB", 1, None)]),
}


def shown(figure):
    return "" if figure is None else f"{figure:,.0f}" if figure >= 1000 else f"{figure:.3g}" if figure < 100 else f"{figure:.0f}"


def measured(args, folder, measure):
    """Of each input its name, and its figures for each table of a measure: of each way those of the program and the peers, None where a
    peer lacks the way."""
    function, is_large, tables = MEASURES[measure]
    inputs = []
    for at, name in enumerate((*args.inputs, *args.files)):
        (folder / str(at)).mkdir()
        rinex, compact, size, lines = made(folder / str(at), name, args.megabytes if is_large else 1)
        compacted(args.programs[0], rinex, compact)
        runs = [([program, *words], compact if way == "expanding" else rinex) for way, words in WAYS.items() for program in args.programs]
        inputs.append((name, runs, {"bytes": size, "lines": lines, None: 1}))
    good = [run for _, runs, _ in inputs for run in runs if used(*run)]
    figures = iter(function(good, args.rounds))
    for name, runs, whole in inputs:
        found = [next(figures) if run in good else (None,) * len(tables) for run in runs]
        each = [[figure[at] if isinstance(figure, tuple) else figure for figure in found] for at in range(len(tables))]
        yield name, [[it if it is None else factor * it / whole[unit] for it in row] for row, (_, factor, unit) in zip(each, tables)]


def arguments():
    parser = argparse.ArgumentParser(description=__doc__, formatter_class=argparse.RawDescriptionHelpFormatter)
    parser.add_argument("files", nargs="*", help="standard files of RINEX, measured too")
    parser.add_argument("--program", default=STATIC)
    parser.add_argument("--peer", action="append", default=[], help="another program, measured beside")
    parser.add_argument("--inputs", nargs="*", default=list(INPUTS), choices=list(INPUTS), metavar="INPUT", help="these alone: " + ", ".join(INPUTS))
    parser.add_argument("--measures", nargs="+", default=list(MEASURES), choices=list(MEASURES), help="these alone")
    parser.add_argument("--megabytes", type=float, default=12, help="of the larger files that are timed (12)")
    parser.add_argument("--rounds", type=int, default=21, help="how often each is timed (21), the smaller files ten times as often")
    parser.add_argument("--readme", action="store_true", help="put the tables into README.md")
    args = parser.parse_args()
    args.programs = [str(Path(program).resolve()) for program in (args.program, *args.peer)]
    return args


def table(title, peers, rows):
    """A table of rows: a name, and the figures of each way, of the program and its peers. Columns without figures are left out."""
    heads = [title, *(head for way in WAYS for head in (way, *peers))]
    rows = [[name, *map(shown, figures)] for name, figures in rows]
    columns = [column for column in zip(heads, *rows) if any(column[1:])]
    lines = [f"| {' | '.join(row)} |" for row in zip(*columns)]
    return "\n".join([lines[0], "|---" + "|---:" * (len(columns) - 1) + "|", *lines[1:]])


def put(title, shown_table):
    """Puts a table into README.md in place of one that has the same title, if there is one."""
    page = HERE / "README.md"
    text = page.read_text(encoding="utf-8")
    begin = text.find(f"| {title} |")
    if begin >= 0:
        page.write_text(text[:begin] + shown_table + text[text.index("\n\n", begin):], encoding="utf-8")


def main():
    args = arguments()
    peers = ["peer"] if len(args.peer) == 1 else [Path(peer).resolve().parent.name for peer in args.peer]
    for measure in args.measures:
        with tempfile.TemporaryDirectory() as folder:
            rows = list(measured(args, Path(folder), measure))
        for at, (title, _, _) in enumerate(MEASURES[measure][2]):
            one = table(title, peers, [(name, figures[at]) for name, figures in rows])
            print(one, end="\n\n", flush=True)
            if args.readme:
                put(title, one)


if __name__ == "__main__":
    main()
