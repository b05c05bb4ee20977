#!/usr/bin/env python3
"""Runs any two programs that compact and expand RINEX 3 over cases, and writes what differs into a report that can be sent.

    conform.py --compact 'RNX2CRX -' --expand 'CRX2RNX -' cases.json
    texts.py --seed 1 --count 300 > random.json && conform.py --compact .. --expand .. cases.json random.json
    conform.py --compact .. --expand .. --files FOLDER       # somebody's own files, RINEX and Compact RINEX

Each command reads standard input and writes standard output. What is compacted is judged by what it expands to, by the reader in
relation.py, and by nothing else: two writers may write other compact text for the same file. A difference is of one of seven kinds:
`text` (copied text, identifiers, indicators), `values`, `clock`, `events`, `refusals` (what is refused, and where), `statuses` and
`failures` (the command didn't start, didn't end in time, or crashed). A case may rest on a choice of this project's profile of the
formats; another program's difference there is listed, and not counted (--profile counts it), unless it is a failure. docs/FORMATS.md has
the rules. This needs Python 3.8, relation.py and texts.py (beside this file, or in tests/) and nothing else. The status is 0 if nothing
differs, else 1.
"""

import argparse
import difflib
import json
import re
import shlex
import subprocess
import sys
from concurrent.futures import ThreadPoolExecutor
from pathlib import Path
from typing import Dict, Iterator, List, NamedTuple, Optional, Tuple

sys.path.insert(1, str(Path(__file__).resolve().parents[1] / "tests"))
from relation import NoSuchText, Relation, contents, label, normal_form, rinex_lines  # noqa: E402
from texts import rinex  # noqa: E402

KINDS = ("text", "values", "clock", "events", "refusals", "statuses", "failures")
# What this project's profile chooses where the formats leave a choice. README.md has the same table.
CHOICES = {
    "limits": "a line has at most 8192 bytes, a system at most 400 types, a number at most 18 digits",
    "versions": "`3`, `3.0`, or `3.0` and one digit are versions of RINEX 3",
    "types": "names of types aren't compared with their count; a later types line replaces an earlier one; a continuation line isn't checked",
    "line ends": "a CR before the LF is no part of a line, and is lost; a second one is part of it",
    "numbers": "a number needs no digit before its point, and may have leading zeros; it is printed in one form",
    "identifiers": "`G 1` and `G01` are two satellites",
    "characters": "an indicator is any printable character other than `&`",
    "epochs": "a line between two epochs that begins none is an error, an empty one too",
    "events": "cycle slip records are an event; a count of blanks is 0; what is wrong among records ends the run",
    "arcs": "the clock has arcs as cells have; orders from 0 to 9 are read, `-0` and leading zeros too; events don't end an arc",
    "in full": "with -e N every N-th epoch is in full, counted from the first one",
    "damage": "compact text that is damaged is refused where its rules are broken",
    "skipping": "with -s an epoch with a fault is dropped, and a warning says so; the status is 2",
}


# ---- what differs


class Difference(NamedTuple):
    """What differs: its kind, the line of the RINEX text where that is known, and both texts."""

    kind: str
    line: int
    wanted: str
    got: str


def _shown(line: Optional[bytes]) -> str:
    return "(nothing)" if line is None else line.decode("latin-1")[:200]


def kinds_of(what: str, wanted: bytes, got: bytes) -> List[str]:
    """The kinds of difference of two lines of RINEX."""
    if what in ("event", "record"):
        return ["events"]
    if what == "header":
        return ["text"]
    found = []
    if what == "epoch":
        found += ["text"] if wanted[:41].ljust(41) != got[:41].ljust(41) or got[56:] != wanted[56:] else []
        return found + (["clock"] if wanted[41:56] != got[41:56] else [])
    cells = range(3, max(len(wanted), len(got)), 16)
    if any(wanted[at : at + 14].ljust(14) != got[at : at + 14].ljust(14) for at in cells):
        found.append("values")
    rest = [line[:3] + b"".join(line[at + 14 : at + 16].ljust(2) for at in cells) for line in (wanted, got)]
    return found + (["text"] if rest[0] != rest[1] or not found else [])


def differences(wanted: bytes, got: bytes) -> List[Difference]:
    """What differs of two RINEX texts, the first 20 lines of it."""
    if wanted == got:
        return []
    lines = [contents(text) for text in (wanted, got)]
    roles = [[what for what, _, _ in rinex_lines(some)] for some in lines]
    found: List[Difference] = []
    for tag, i, i_end, j, j_end in difflib.SequenceMatcher(None, lines[0], lines[1], autojunk=False).get_opcodes():
        if tag == "equal":
            continue
        for k in range(max(i_end - i, j_end - j)):
            one = lines[0][i + k] if i + k < i_end else None
            other = lines[1][j + k] if j + k < j_end else None
            what = roles[0][i + k] if one is not None else roles[1][j + k]
            kinds = kinds_of(what, one, other) if one is not None and other is not None else ["events" if what in ("event", "record") else "text"]
            found += [Difference(kind, i + k + 1, _shown(one), _shown(other)) for kind in kinds]
    return (found or [Difference("text", 0, "other line ends", "")])[:20]


# ---- runs


class Run(NamedTuple):
    output: bytes
    messages: bytes
    status: int
    failure: str = ""  # why there is no answer: the command didn't start, didn't end in time, or crashed


def run(command: List[str], data: bytes, seconds: float) -> Run:
    """Runs a command over an input, for at most `seconds`."""
    try:
        ended = subprocess.run(command, input=data, capture_output=True, timeout=seconds)
    except subprocess.TimeoutExpired:
        return Run(b"", b"", -1, f"no end within {seconds:g} s")
    except OSError as error:
        return Run(b"", b"", -1, f"not started: {error.strerror}")
    return Run(ended.stdout, ended.stderr, ended.returncode, _crash(ended.returncode))


def _crash(status: int) -> str:
    """The words for a status that only a signal, a Windows exception or a shell that found no command gives; empty for any other status."""
    if status < 0 or 128 < status < 160:
        return f"ended by signal {abs(status) % 128}"
    if status in (126, 127) or status > 255:
        return f"not run to its end: status {status}"
    return ""


def _faults(messages: bytes) -> List[List[int]]:
    """The lines and codes of messages in this project's form."""
    return [[int(line), int(code)] for line, code in re.findall(rb"^(?:ERROR|WARNING) line (\d+) code (\d+)", messages, re.M)]


def _refusal(case: Dict, answer: Run) -> List[Difference]:
    """What differs in what is refused, and in the status."""
    wanted, said = case.get("faults", []), _faults(answer.messages)
    status = case.get("status", 0)
    if answer.failure:
        return [Difference("failures", 0, f"status {status}", answer.failure)]
    speaks = bool(said) or not answer.messages
    if said and said != wanted:
        return [Difference("refusals", 0, f"line and code {wanted}", f"{said}")]
    if wanted and not said and answer.status == 0:
        return [Difference("refusals", 0, f"refused: line and code {wanted}", "accepted")]
    if not wanted and (said or (answer.status != 0 and not answer.output)):
        return [Difference("refusals", 0, "accepted", f"refused: {_shown(answer.messages)}, status {answer.status}")]
    if answer.status != status and (speaks or (answer.status == 0) != (status == 0)):
        return [Difference("statuses", 0, f"status {status}", f"status {answer.status}")]
    return []


class Judge(Relation):
    """Reads values that are too wide for their columns too, and so tells which line has them."""

    def fits(self, value, width):
        return True


def _expanded(case: Dict, answer: Run) -> "Tuple[bytes, List[Difference]]":
    """What an output stands for, and why it can't be read."""
    if case["do"] == "expand":
        return answer.output, []
    if not answer.output and case.get("faults"):
        return b"", []
    try:
        return rinex(Judge().units(answer.output, is_beginning=bool(case.get("faults")))), []
    except NoSuchText as error:
        return b"", [Difference("text", 0, "Compact RINEX 3.0", str(error))]


def command_of(case: Dict, commands: Dict[str, List[str]]) -> List[str]:
    """The command that runs a case."""
    return [*commands[case["do"]], *case.get("options", [])]


def judged(case: Dict, commands: Dict[str, List[str]], seconds: float) -> List[Difference]:
    """The differences of a case."""
    answer = run(command_of(case, commands), case["input"].encode("latin-1"), seconds)
    found = _refusal(case, answer)
    if any(one.kind in ("refusals", "failures") for one in found):
        return found
    text, wrong = _expanded(case, answer)
    wanted = case["expands_to"].encode("latin-1")
    if wanted and not text and not wrong:
        return found + [Difference("text", 0, f"{len(contents(wanted))} lines", "no output")]
    return found + (wrong or differences(wanted, text))


def judge(cases: List[Dict], commands: Dict[str, List[str]], seconds: float, jobs: int) -> "List[Tuple[Dict, List[Difference]]]":
    """The cases with their differences. A command that fails at the first good case without options is run for no other case."""
    broken = {}
    for do in commands:
        first = next((case for case in cases if case["do"] == do and not case.get("options") and not case.get("faults")), None)
        broken[do] = [one for one in judged(first, commands, seconds) if one.kind == "failures"] if first else []
    with ThreadPoolExecutor(jobs) as pool:
        return list(zip(cases, pool.map(lambda case: broken[case["do"]] or judged(case, commands, seconds), cases)))


def save(folder: Path, number: int, case: Dict, command: List[str]) -> None:
    """Writes a case into a folder of its own: its input, the RINEX text that is expected, and the command."""
    place = folder / f"{number:04}-{re.sub(r'[^A-Za-z0-9._-]', '_', case['name'])[-100:]}"
    place.mkdir(parents=True, exist_ok=True)
    (place / "input").write_bytes(case["input"].encode("latin-1"))
    (place / "expected").write_bytes(case["expands_to"].encode("latin-1"))
    (place / "command").write_text(" ".join(shlex.quote(word) for word in command) + " < input\n", encoding="utf-8")


def shown(path: Path) -> str:
    """A name in one line: as it is, or quoted as in Python where it has control characters."""
    return str(path) if str(path).isprintable() else repr(str(path))


def cases_of_files(folder: Path) -> Iterator[Dict]:
    """Cases of somebody's own files: what they stand for is found by the reader."""
    for path in sorted(path for path in folder.rglob("*") if path.is_file()):
        data = path.read_bytes()
        first = label(data[:100].split(b"\n")[0].rstrip(b"\r"))
        is_compact = first == b"CRINEX VERS   / TYPE"
        try:
            if not is_compact and first != b"RINEX VERSION / TYPE":
                raise NoSuchText("neither RINEX nor Compact RINEX")
            wanted = rinex(Relation().units(data)) if is_compact else normal_form(data)
        except (NoSuchText, ValueError) as error:
            print(f"{shown(path)} is left out: {error}", file=sys.stderr)
            continue
        yield {"name": shown(path), "do": "expand" if is_compact else "compact", "input": data.decode("latin-1"), "expands_to": wanted.decode("latin-1")}


# ---- the report


def report(words: argparse.Namespace, results: "List[Tuple[Dict, List[Difference]]]") -> "Tuple[str, int]":
    """The report, and how many cases differ of those that are counted."""
    differing = [(case, found, words.profile or not case.get("choices") or found[0].kind == "failures") for case, found in results if found]
    counted = [(case, found) for case, found, counts in differing if counts]
    chosen = [(case, found) for case, found, counts in differing if not counts]
    kinds = {kind: sum(any(one.kind == kind for one in found) for _, found in counted) for kind in KINDS}
    lines = ["Conformance of programs for Compact RINEX 3.0", f"compact: {words.compact}", f"expand: {words.expand}", ""]
    lines += [f"{len(results)} cases, {len(counted)} differ; {len(chosen)} more differ in a choice of this profile"]
    lines += ["by kind: " + ", ".join(f"{kind} {count}" for kind, count in kinds.items()), ""]
    for title, some in (("Differences", counted), ("Differences in a choice of this profile, which aren't counted", chosen)):
        lines += [title, ""] if some else []
        for case, found in some:
            choices = f" ({', '.join(case['choices'])})" if case.get("choices") else ""
            lines.append(f"{case['name']}, {case['do']}{choices}: {case.get('about', '')}".rstrip(": "))
            for one in found:
                at = f" line {one.line}" if one.line else ""
                lines += [f"  {one.kind}{at}", f"    wanted: {one.wanted}", f"    got:    {one.got}"]
            lines.append("")
    return "\n".join(lines).rstrip() + "\n", len(counted)


def main() -> int:
    parser = argparse.ArgumentParser(description=__doc__, formatter_class=argparse.RawDescriptionHelpFormatter)
    parser.add_argument("cases", nargs="*", type=Path, help="files of cases")
    parser.add_argument("--compact", required=True, help="the command that compacts")
    parser.add_argument("--expand", required=True, help="the command that expands")
    parser.add_argument("--files", type=Path, help="a folder of RINEX and Compact RINEX files")
    parser.add_argument("--profile", action="store_true", help="count differences in the choices of this project's profile too")
    parser.add_argument("--report", type=Path, help="the report's file, in place of standard output")
    parser.add_argument("--save", type=Path, metavar="FOLDER", help="write input, expected text and command of each difference into a folder")
    parser.add_argument("--seconds", type=float, default=60, help="how long a run may take (60)")
    parser.add_argument("-j", type=int, default=2, help="how many runs at a time (2)")
    words = parser.parse_args()
    commands = {"compact": shlex.split(words.compact), "expand": shlex.split(words.expand)}
    cases = [case for path in words.cases for case in json.loads(path.read_text(encoding="utf-8"))]
    cases += list(cases_of_files(words.files)) if words.files else []
    results = judge(cases, commands, words.seconds, words.j)
    text, count = report(words, results)
    for number, (case, found) in enumerate(results if words.save else ()):
        if found:
            save(words.save, number, case, command_of(case, commands))
    if words.report:
        words.report.write_text(text, encoding="utf-8")
    else:
        sys.stdout.write(text)
    return 1 if count else 0


if __name__ == "__main__":
    sys.exit(main())
