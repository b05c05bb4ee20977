#!/usr/bin/env python3
"""Puts the numbers of the sources into the texts that state them: the limits, and how many definitions one has to believe; and what is
listed: the faults in the manual page and in the page of formats, the table of `explain` in the page of errors, and the options in the manual
page and in the page of use. If you change a limit, or add a fault or an option, run `make numbers`; none of these texts needs a hand for it. A
page says a limit's number only if this script writes it; code and tests cite the limit by its name.
"""

import re
import sys
import textwrap
from functools import cache, partial
from importlib import util
from math import prod
from pathlib import Path

from chapters import Book, is_definition, lines_of
from sources import crates, fault_names

TOP = Path(__file__).resolve().parents[1]
sys.path.append(str(TOP / "packaging"))
from completions import HELP, options  # noqa: E402

SOURCES = TOP / "crates/crx_base/src"

# Texts that have one of these numbers: the file, and phrases with the name in place of the number.
STATED = {
    "README.md": (
        "In the library C_LINES lines of C", "the DEFINITIONS definitions of RINEX", "on FIRST_DEFINITIONS definitions",
        "takes about USUAL_MEMORY MB of memory", "at most INPUT_LIMIT bytes", "over which HAND_PROOFS proofs are written",
    ),
    "docs/FORMATS.md": (
        "content of more than LINE_LIMIT bytes is fault 1", "input of more than INPUT_LIMIT bytes", "1 to TYPES_LIMIT (bound: profile)",
        "(0 to SATELLITES_LIMIT)", "1 to DIGITS_LIMIT digits",
        "one digit from 0 to ORDER_LIMIT", "with the order WRITTEN_ORDER;", "orders from 0 to ORDER_LIMIT",
    ),
    "docs/DECISIONS.md": ("is fed while READY_LIMIT bytes wait",),
    "docs/GUARANTEES.md": (
        "stops after INPUT_LIMIT bytes", "has at most INPUT_LIMIT",
        "About USUAL_MEMORY MB over usual files, and about GREATEST_MEMORY MB at the limits", "At most PRINTED_ENDED times as many bytes",
        "row of PRINTED_ENDED bytes", "While READY_LIMIT bytes wait", "stops when READY_LIMIT wait", "At most WAITING_MEMORY MB of each",
    ),
    "docs/READING.md": ("first: FIRST_DEFINITIONS definitions in FIRST_LINES lines",),
    "docs/LIBRARY.md": (
        "at most PRINTED_ENDED times as long as its input", "program needs about GREATEST_MEMORY MB", "parts of at most READY_LIMIT bytes",
        "While READY_LIMIT bytes are ready", "all IDENTIFIERS satellites",
    ),
    "docs/USE.md": ("N is from 1 to EVERY", "at most DATE_LIMIT bytes"),
    "packaging/man/rnxcmp.1": (
        "at most DATE_LIMIT bytes", "Limits: LINE_LIMIT bytes a line", "INPUT_LIMIT bytes of input", "TYPES_LIMIT types of a system",
        "SATELLITES_LIMIT satellites of an epoch", "is from 1 to EVERY.", "N from 1 to EVERY",
    ),
    "packaging/completions/_rnxcmp": ("N from 1 to EVERY", "at most DATE_LIMIT bytes"),
    "include/rnxcmp.h": ("more than DATE_LIMIT bytes", "at most INPUT_LIMIT.", "at most WAITING_MEMORY MB", "RNXCMP_READY READY_LIMIT"),
    "include/rnxcmp.f90": ("RNXCMP_READY = READY_LIMIT",),
    "python/rnxcmp/_calls.py": (
        "bad date: at most DATE_LIMIT characters", "line, at most DATE_LIMIT printable", "output in parts of at most READY_LIMIT bytes",
    ),
    "python/rnxcmp/_library.py": ("INTERFACE, READY = 2, READY_LIMIT",),
    "python/rnxcmp/files.py": (
        "int(found.every) <= EVERY)", "of -e is from 1 to EVERY", "len(text) <= DATE_LIMIT and", "bad date: at most DATE_LIMIT characters",
    ),
    "crates/crx_laws/src/sizes.rt": ("at most PRINTED_ENDED times as long as its input", "most_for_a_byte ≡ PRINTED_ENDED }"),
    "crates/crx_compact/src/satellites.rt": ("The IDENTIFIERS possible identifiers",),
    "bench/README.md": ("all IDENTIFIERS satellites",),
    "tests/library/promises.c": ("rnxcmp_words(0)[0] == 0 && rnxcmp_words(NO_FAULT)[0]",),
    "crates/crx_command/src/command.rt": ("at most EVERY", "at most DATE_LIMIT bytes"),
}

# A space between two words of a phrase, which may be the end of a line of a comment.
SPACE = r"\s+(?://[/!] |\* )?"


def faults():
    """The words of the faults by their numbers."""
    return dict(fault_names().values())


@cache
def limits():
    """The limits of the formats and of a handle, by their names."""
    sources = [path.read_text(encoding="utf-8") for path in (SOURCES / "limits.rt", TOP / "crates/rnxcmp_c/src/limits.rt")]
    return {name: int(number) for name, number in re.findall(r"const (\w+): \w+ = ([\d_]+);", "".join(sources))}


@cache
def spelled():
    """The letters of the systems, by the definition, and the characters that the first and the second digit of an identifier may be."""
    letters = (TOP / "crates/crx_header/specs/meaning/ObservationTypes.antt").read_text(encoding="utf-8")
    return re.search(r'codes "([A-Z]+)"', letters)[1], "0123456789 ", "0123456789"


@cache
def numbers():
    """The limits by their names, and what follows from them: the longest line of an epoch with its LF, and the most MB of a text that a handle
    keeps. NO_FAULT is the first number that no fault has, EVERY the greatest N of -e. Then come how many definitions one has to believe, how
    many for the first promise and in how many lines; the proofs that are written by hand; the lines of C of the library; and the greatest memory
    of the program over a usual file and at the limits, in MB, by the table of bench/README.md."""
    found = limits()
    command = (TOP / "crates/crx_command/src/command.rt").read_text(encoding="utf-8")
    waiting = found["READY_LIMIT"] + 2 * (found["SATELLITES_LIMIT"] + 2) * (found["LINE_LIMIT"] + 1)
    book = Book()
    trusted = book.trusted()
    measured = (TOP / "bench/README.md").read_text(encoding="utf-8")
    usual, *at_the_limits = (max(int(size.replace(",", "")) for size in row.split(" | ")) for row in re.findall(r"^\| (?:a usual file|770 .*), [\d,]+ bytes \| (.*) \|$", measured, re.M))
    return {
        **found,
        "INPUT_LIMIT": f"2^{found['INPUT_LIMIT'].bit_length() - 1}",
        "PRINTED_ENDED": found["NAME_WIDTH"] + found["CELL_WIDTH"] * found["TYPES_LIMIT"] + 1,
        "WAITING_MEMORY": f"{waiting / 1e6:.1f}",
        "IDENTIFIERS": prod(map(len, spelled())),
        "NO_FAULT": len(faults()) + 1,
        "EVERY": int(re.search(r"range\(1\.\.=([\d_]+)\)", command)[1]),
        "DEFINITIONS": len(trusted),
        "FIRST_DEFINITIONS": sum(map(is_definition, book.contents[0].items)),
        "FIRST_LINES": lines_of(book.contents[0].items),
        "HAND_PROOFS": sum(1 for _ in (TOP / "crates").glob("*/proofs/**/Proof.antt")),
        "C_LINES": sum(len(path.read_text(encoding="utf-8").splitlines()) for path in (TOP / "library").glob("*.c")),
        "USUAL_MEMORY": round(usual / 1000),
        "GREATEST_MEMORY": round(max(at_the_limits) / 1000),
    }


def named(phrase):
    """A phrase in parts: words and the names of numbers by turns."""
    return re.split(f"({'|'.join(sorted(numbers(), key=len, reverse=True))})", phrase)


def with_numbers(phrase):
    return "".join(str(numbers().get(part, part)) for part in named(phrase))


def found_in(phrase, text, by_name=False):
    """A text with the numbers of a phrase as they are now, or with their names in place of them, and how often it has the phrase: with
    whatever numbers; a group for all between two numbers."""
    parts = named(phrase)
    words = [SPACE.join(map(re.escape, re.split(r"\s+", part))) for part in parts[::2]]
    names = parts[1::2]
    of_numbers = [r"\d+\^\d+" if "^" in str(numbers()[name]) else r"\d+(?:\.\d+)?(?![\^\d])" for name in names]
    pattern = "".join(f"({it}){number}" for it, number in zip(words, [*of_numbers, ""]))
    shown = [*(name if by_name else str(numbers()[name]) for name in names), ""]
    return re.subn(pattern, lambda m: "".join(group + number for group, number in zip(m.groups(), shown)), text)


def typed_in(file):
    """The limits whose numbers, or the next two, a page says where no phrase puts them: those of four digits and more, which are that alone."""
    text = (TOP / file).read_text(encoding="utf-8").replace(",", "")
    for phrase in STATED.get(file, ()):
        text, _ = found_in(phrase.replace(",", ""), text, by_name=True)
    known = {str(limit + more): name for name, limit in limits().items() for more in (0, 1, 2) if limit > 999}
    known |= {str(numbers()[name]): name for name in ("INPUT_LIMIT", "EVERY", "PRINTED_ENDED")}
    return [f"{file} says {number}, typed by hand: {known[number]}" for number in re.findall(r"(?<![\d.^])\d+(?:\^\d+)?(?![\d.^])", text) if number in known]


def with_codes(text):
    """The manual page with its list of codes as the table of faults has it."""
    codes = "Codes: " + ", ".join(f"{number} {words}" for number, words in faults().items()) + "."
    return re.sub(r"^Codes: .*?\.$", textwrap.fill(codes, 79, break_on_hyphens=False), text, flags=re.M | re.S)


@cache
def tools_with():
    """The subcommands that have an option, by the options; the help is left out."""
    found = {}
    for tool in HELP:
        for option in options(tool):
            if option.long != "--help":
                found.setdefault(option, []).append(tool)
    return found


@cache
def causes():
    """The module of the package that has the tables of `explain`."""
    spec = util.spec_from_file_location("causes", TOP / "python/rnxcmp/_causes.py")
    module = util.module_from_spec(spec)
    spec.loader.exec_module(module)
    return module


def is_skipped(code):
    """Whether `-s` skips a fault with this code."""
    one, first, last = re.search(r"code == (\d+) \|\| \((\d+) <= code && code <= (\d+)\)", (SOURCES / "fault.rt").read_text(encoding="utf-8")).groups()
    return code == int(one) or int(first) <= code <= int(last)


def linked(text):
    """A text of `explain` with a link in place of a page's name."""
    return re.sub(r"docs/(\w+)\.md", r"[\1](\1.md)", text)


def of_code(code):
    """The section of a code, as `explain` has it."""
    lines = [f"## Code {code}", "", f"`{faults()[code]}`" + (", skipped by `-s`" if is_skipped(code) else ""), ""]
    if entry := causes().ERRORS.get(code):
        remedy = entry.remedy.removesuffix("; -s drops the epoch")  # which the words above say
        lines += [f"- expected: {linked(entry.expected)}", f"- likely: {'; '.join(entry.causes)}", f"- to do: {remedy}"]
    if entry := causes().COMPACT_ERRORS.get(code):
        lines += [f"- in compact text: {entry.expected}", f"- likely there: {'; '.join(entry.causes)}"]
    return "\n".join([*lines, ""])


def for_errors(text):
    """The page of errors with a section for each code, and the tables of `explain`."""
    (again,) = {entry.remedy for entry in causes().COMPACT_ERRORS.values()}
    text = re.sub(r"(?<=In compact text )the remedy of codes .*", lambda m: f"the remedy of codes {min(causes().COMPACT_ERRORS)} to {max(causes().COMPACT_ERRORS)} is: {again}.", text)
    text = re.sub(r"(?:^## Code \d+\n(?:(?!## ).*\n)*)+", lambda m: "\n".join(map(of_code, faults())) + "\n", text, count=1, flags=re.M)
    tables = {
        "| The first bytes tell | To do |": [(sign.cause.format("V"), sign.remedy) for sign in causes().SIGNS],
        "| The line | Its standard form |": [*(row[1:] for row in causes().REASONS), causes().OTHER_REASON],
    }
    for title, rows in tables.items():
        table = "\n".join([title, "|---|---|", *("| " + " | ".join(row) + " |" for row in rows)])
        text = re.sub(rf"^{re.escape(title)}\n(?:\|.*\n)*", lambda m, table=table: f"{table}\n", text, flags=re.M)
    return text


def for_formats(text):
    """The page of formats with the words of each fault."""
    words = {str(number): it for number, it in faults().items()}
    before, title, table = text.partition("\n| Code | Text | Where")
    return before + title + re.sub(r"^\| (?:\[)?(\d+)\b([^|]*)\| `[^`]*` \|", lambda m: f"| {m[0][2:].split(' |')[0]} | `{words.get(m[1], '')}` |", table, flags=re.M)


def for_use(text):
    """The page of use with the options of each subcommand, and a row for an option that has none: the words of its help, which a hand may change."""
    for tool in HELP:
        words = "".join(f" [{option.with_value()}]" for option, tools in tools_with().items() if tool in tools)
        text = re.sub(rf"^(    rnxcmp {tool}).*(?= \[-\] \[FILE\]$)", lambda m, words=words: m[1] + words, text, flags=re.M)
    for option, tools in tools_with().items():
        if f"| `{option.with_value()}` |" not in text:
            named = ", ".join(f"`{tool}`" for tool in tools)
            row = f"| `{option.with_value()}` | {named} | {option.help[0].lower()}{option.help[1:]} |\n"
            text = re.sub(r"^(?=\| `-` \|)", lambda m, row=row: row, text, flags=re.M)
    return text


def subject_of(path):
    """The first words of the comment of a module, up to the first mark after them."""
    words = " ".join(line[3:].strip() for line in path.read_text(encoding="utf-8").split("\n") if line.startswith("//!"))
    return re.sub(r"\[(`[^`]*`)\]", r"\1", re.match(r"(?:[^.:;,(]|\.(?=\d))*", words)[0].strip())


def for_crate(crate, text):
    """The page of a crate with its modules."""
    paths = [path for path in sorted((TOP / f"crates/{crate}/src").glob("*.rt")) if path.stem not in ("lib", "main")]
    rows = [f"| `{path.stem}` | {subject_of(path)} |\n" for path in paths]
    return re.sub(r"^\| Module \| Subject \|\n\|---\|---\|\n(?:\|.*\n)*", lambda m: "| Module | Subject |\n|---|---|\n" + "".join(rows), text, flags=re.M)


def for_manual(text):
    """The manual page with the options of each subcommand, and a paragraph for an option that has none, as in the page of use."""
    for tool in HELP:
        given = [option.with_value().replace("-", r"\-").split() for option, tools in tools_with().items() if tool in tools]
        words = "".join(".RB [ " + "\n.IR ".join(parts) + " ]\n" for parts in given)
        pattern = rf"(?<=^\.B rnxcmp {tool}\n)(?:\.[RI][BR] .*\n)*?(?=\.RB \[ \\- \]$)"
        text = re.sub(pattern, lambda m, words=words: words, text, count=1, flags=re.M)
    for option in tools_with():
        name, *value = option.with_value().replace("-", r"\-").split()
        if not re.search(rf"^\.BI? {re.escape(name)}\b", text, re.M):
            title = f'.BI {name} " {value[0]}"' if value else f".B {name}"
            paragraph = f".TP\n{title}\n{option.help}.\n"
            text = re.sub(r"^(?=\.TP\n\.B \\-$)", lambda m, paragraph=paragraph: paragraph, text, count=1, flags=re.M)
    return with_codes(text)


# What else a script writes into a text.
LISTED = {
    **{f"crates/{crate}/README.md": partial(for_crate, crate) for crate in crates()},
    "docs/USE.md": for_use,
    "docs/ERRORS.md": for_errors,
    "docs/FORMATS.md": for_formats,
    "packaging/man/rnxcmp.1": for_manual,
}

# All texts into which a script writes.
WRITTEN = tuple(dict.fromkeys([*STATED, *LISTED]))


def written(file):
    """A text with its numbers and lists as they are now, and the phrases that it doesn't have."""
    text, missing = (TOP / file).read_text(encoding="utf-8"), []
    for phrase in STATED.get(file, ()):
        text, count = found_in(phrase, text)
        if not count:
            missing.append(f"{file} doesn't say: {with_numbers(phrase)}")
    return LISTED.get(file, str)(text), missing


def wrong_in(file):
    """What is wrong with the numbers and lists of a text."""
    text, missing = written(file)
    same = text == (TOP / file).read_text(encoding="utf-8")
    return missing + ([] if same else [f"{file} has other numbers, or another list: make numbers"])


def main():
    wrong = []
    for file in WRITTEN:
        text, missing = written(file)
        wrong += missing
        if text != (TOP / file).read_text(encoding="utf-8"):
            (TOP / file).write_text(text, encoding="utf-8")
            print(f"{file}: written")
    print("\n".join(wrong), end="\n" if wrong else "")
    sys.exit(1 if wrong else 0)


if __name__ == "__main__":
    main()
