#!/usr/bin/env python3
"""Writes the cases of tests/cases and the worked examples of docs/FORMATS.md as data for conformance/conform.py (make cases, make dist):

    tests/collect.py > cases.json
"""

import json
import re
import shlex
import sys

from relation import Relation
from runner import TOP
from test_cases import cases, read_case
from texts import H, K, rinex, text

# The choices of the profile that a case rests on, by its name, or by the folder of its subject.
CHOICES = {
    "characters": ["characters"], "damage": ["damage", "skipping"], "compact_text": ["damage"], "skipping": ["skipping"], "spellings": ["line ends", "numbers"],
    "limits": ["limits"], "early_ends": ["damage"], "first_lines": ["damage"],
    "longest_line": ["limits"], "header_line_that_is_too_long": ["limits"], "more_types_than_the_limit": ["limits"], "a_hundred_and_one_types": ["types"],
    "other_version": ["versions"], "cycle_slips_and_an_event_without_records": ["events"], "bad_types_line_in_an_event": ["events"],
    "bad_types_line_in_an_event_of_compact_text": ["events"], "event_that_is_cut": ["events"], "arc_that_goes_on_after_an_event": ["events", "arcs"],
    "types_line_in_an_event_empties_the_state": ["events", "damage"], "clock_of_order_nine": ["arcs"], "leading_zeros_of_a_code": ["arcs"],
    "first_differences_and_a_mark_that_gives_a_blank": ["arcs"], "second_differences": ["arcs"], "fourth_differences": ["arcs"], "nineteen_digits": ["limits"],
    "sixteen_digits_out_of_range": ["damage"], "values_in_place_of_differences": ["arcs"], "order_of_an_arc": ["arcs"], "order_of_two_digits": ["damage"],
    "bad_indicator": ["characters"], "bad_indicator_skipped": ["characters"], "header_alone": [], "empty_input": [], "unknown_flag": [],
}  # fmt: skip


def faults_of(messages):
    return [[int(line), int(code)] for line, code in re.findall(rb"line (\d+) code (\d+)", messages)]


def about(path):
    """What a case shows: its first comment."""
    return " ".join(line[1:].strip() for line in path.read_text(encoding="latin-1").partition("\n== ")[0].splitlines())


def expands_to(case, tool):
    """What the output stands for: of a compaction what the case says, or what its output has before a fault, by the format's reader."""
    if tool == "crx2rnx":
        return case.output
    if case.expansion is not None:
        return case.expansion
    return rinex(Relation().units(case.output, is_beginning=True)) if case.output.count(b"\n") > 2 else b""


def of_file(path):
    """The cases of a file, one for each of its lines of arguments that is a run of a filter."""
    case = read_case(path)
    for number, line in enumerate(case.arguments):
        tool, *words = shlex.split(line) or [""]
        if tool not in ("rnx2crx", "crx2rnx") or case.input is None or case.messages.startswith(b"ERROR: ") or path.parent.name == "dates":
            continue
        every = [word for at, word in enumerate(words) if word == "-e" or words[at - 1 : at] == ["-e"]]
        options = every + ["-s"] * ("-s" in words)
        made = {"name": path.stem + (f"_{number + 1}" if len(case.arguments) > 1 else ""), "about": about(path), "do": "compact" if tool == "rnx2crx" else "expand"}
        made |= {"input": case.input.decode("latin-1"), "expands_to": expands_to(case, tool).decode("latin-1")}
        made |= {"options": options} if options else {}
        made |= {"faults": faults_of(case.messages), "status": case.status} if case.status else {}
        choices = {*CHOICES.get(path.stem, CHOICES.get(path.parent.name, [])), *(["skipping"] if "-s" in words else []), *(["in full"] if every else [])}
        yield {**made, **({"choices": sorted(choices)} if choices else {})}


# ---- the worked examples of docs/FORMATS.md

HEADER, FIRST = text(*H).decode(), text(*K).decode()


def of_values(values, codes):
    """RINEX and compact text of one cell in consecutive epochs: the values as they are printed, or nothing; the codes, or nothing."""
    rinex, compact = HEADER, FIRST + HEADER
    for second, (value, code) in enumerate(zip(values, codes)):
        rinex += f"> 2024 01 01 00 00  {second}.0000000  0  1\n" + (f"G01{value:>14}".rstrip() + "\n")
        first = f"> 2024 01 01 00 00  {second}.0000000  0  1      G01" if second == 0 else " " * 20 + str(second)
        compact += f"{first}\n\n{code}\n"
    return rinex, compact


def tables():
    """The rows of the tables of codes: values and codes."""
    page = (TOP / "docs/FORMATS.md").read_text(encoding="utf-8")
    both = re.search(r"^\| Values \| Coded values \|\n\|---.*\n((?:\|.*\n)+)", page, re.M)[1]
    wanted = ["20000000.000, 20000100.500, 20000202.000, 20000304.500, 20000408.000", "the same values, the third missing", "9999999999.999 and -999999999.999 in turn, five times"]
    for row, name in zip(both.splitlines(), wanted):
        said, codes = (cell.strip() for cell in row.strip("|").split("|"))
        if said != name:
            raise ValueError(f"docs/FORMATS.md has another row: {said}")
        steady = wanted[0].split(", ")
        values = [steady, [*steady[:2], "", *steady[3:]], ["9999999999.999", "-999999999.999"] * 2 + ["9999999999.999"]][wanted.index(name)]
        yield said, values, ["" if code == "(nothing)" else code.strip("`") for code in codes.split(", ")]
    for row in re.search(r"^\| Coded values \| Values \|\n\|---.*\n((?:\|.*\n)+)", page, re.M)[1].splitlines():
        codes, values = (cell.strip() for cell in row.strip("|").split("|"))
        yield codes, re.split(r", (?:then )?", values), [code.strip("`") for code in re.sub(r" as the first one", "", codes).split(", ")]


def worked():
    """Cases of the worked examples."""
    for number, (about_it, values, codes) in enumerate(tables(), 1):
        fault = [int(one.split()[1]) for one in values if one.startswith("fault")]
        good = [one for one in values if not one.startswith("fault")]
        rinex, compact = of_values(good, codes[: len(good)])
        compact = of_values([*good, *([""] * len(fault))], codes)[1]
        case = {"name": f"worked_{number}", "about": f"docs/FORMATS.md: {about_it}", "do": "expand", "input": compact, "expands_to": rinex}
        if fault:
            yield {**case, "faults": [[compact.count("\n"), fault[0]]], "status": 1, "choices": ["damage"]}
            continue
        yield case
        if number <= 3:
            yield {**case, "name": f"worked_{number}_written", "do": "compact", "input": rinex}


def collected():
    return [*(case for path in cases() for case in of_file(path)), *worked()]


if __name__ == "__main__":
    json.dump(collected(), sys.stdout, indent=0)
    print()
