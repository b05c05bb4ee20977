"""Which clauses each chapter of the page of definitions is about, and the definitions below them, from the top down."""

import shutil
from collections import namedtuple
from pathlib import Path

from sources import CRATES, Names, crate_of, crates, public_functions

# `about`: the functions with their clauses (`*`: all), or definitions and types of the code. `left`: the definitions whose meaning isn't
# needed there; another chapter has them. `most`: how many definitions it may have, which the tests of documents compare. `own`: whether its
# definitions stand outside the folders `meaning`, as those of an engine's state do.
Chapter = namedtuple("Chapter", "title words about left most own", defaults=((), None, False))
# what a chapter has: its clauses with their functions, what it stands on in order, what it leaves, and how many definitions of ported
# crates it stands on
Content = namedtuple("Content", "clauses items left ported")

RESULTS = ("compacted", "expanded", "checked")
FILTERS = ("compaction_filter", "expansion_filter", "check_filter")
DEVICES = ("Source", "Sink")
OF_CALLS = (
    *((f"open_{kind}", "opened running") for kind in ("compact", "expand", "check")),
    ("feed", "promise takes ended misused stands"),
    ("end", "promise ended misused stands"),
    ("take", "output messages output_left messages_left promise still stands"),
)
OF_HANDLES = (
    *("HandleStands", "ByItsPast", "WhileItGoesOn", "OnceItHasEnded"),
    *("has_ended", "run_state", "texts_kept", "output_kept", "messages_kept"),
)
OF_ENGINES = ("AnyEngine", "IsOf", "ready_of", "engine_filter", "shows_of")

CHAPTERS = (
    Chapter(
        "Losslessness",
        "A file that a check passes comes back byte for byte, from the output of a compaction. `compacted`, `expanded` and `checked` are the output,"
        " messages, status and fault of the three calls for a whole input; here they need not be known.",
        (("crx_filter::check", "lossless written"), ("crx_filter::compact", "written"), ("crx_filter::expand", "lossless written")),
        RESULTS,
        25,
    ),
    Chapter(
        "What compact text is",
        "The lines of a RINEX file and the lines of its compact text, both printed from the same units, and that each becomes the other.",
        (("crx_laws::units_and_text", "*"),),
        RESULTS + ("MakeAFile",),
        80,
    ),
    Chapter(
        "Which units make a file",
        "The order of units, and the form of each. A file is standard if and only if it is the RINEX text of such units.",
        (("crx_filter::MakeAFile", ""), ("crx_laws::standard_files_are_units", "*")),
        ("IsStandard",),
    ),
    Chapter(
        "Any writer, and no other",
        "Which texts are compact text of a file, whoever wrote them, by the content of their lines and not by a reader. These are expanded to that"
        " file, and no other text is accepted.",
        (
            ("crx_filter::expand", "any_writer no_other"),
            *((f"crx_laws::{law}", "*") for law in ("any_text_is_read", "no_other_text_is_read", "a_text_is_of_one_file")),
        ),
        RESULTS + FILTERS + DEVICES,
        own=True,
    ),
    Chapter(
        "Runs",
        "What is written, reported and answered where all goes well, and where a reader, a writer or memory fails.",
        (("crx_filter::compact", "runs"), ("crx_filter::expand", "runs"), ("crx_filter::check", "runs")),
        RESULTS + FILTERS + DEVICES,
    ),
    Chapter(
        "Bad input",
        "How any input is read: places, faults and skipping; its output and messages; the normal form of a file that isn't standard; which files"
        " are written; and the cost of damage.",
        (("crx_filter::compact", "*"), ("crx_filter::expand", "*"), ("crx_filter::check", "*")),
        DEVICES,
    ),
    Chapter(
        "Laws of the results",
        "Consequences of only `compacted` and `expanded`: an expansion writes standard files, whatever the text; files with the same normal form"
        " have the same compact text; no line is lost silently; a check tells of a compaction; a cut is noticed; blocks are short;"
        " doing it again changes nothing; hours make a day; blocks of compact text expand alone; and the most output of a byte.",
        (
            ("crx_laws::what_passes_comes_back", "*"),
            ("crx_laws::what_was_compacted_comes_back", "*"),
            ("crx_laws::nothing_is_lost_in_silence", "*"),
            ("crx_laws::the_lines_of_an_epoch", "*"),
            ("crx_laws::a_check_tells_of_a_compaction", "*"),
            ("crx_laws::a_cut_is_noticed", "*"),
            ("crx_laws::blocks_are_short", "*"),
            ("crx_laws::compacting_again_changes_nothing", "*"),
            ("crx_laws::expanding_again_changes_nothing", "*"),
            ("crx_laws::hours_make_a_day", "*"),
            ("crx_laws::what_is_expanded_is_standard", "*"),
            ("crx_laws::the_normal_form_compacts_the_same", "*"),
            ("crx_laws::compact_text_is_canonical", "*"),
            ("crx_laws::blocks_stand_alone", "*"),
            ("crx_laws::a_piece_is_expanded_alone", "*"),
            ("crx_laws::an_expansion_is_bounded", "*"),
        ),
        own=True,
    ),
    Chapter("Devices", "Readers and writers.", tuple((f"crx_lines::{name}", "") for name in DEVICES)),
    Chapter(
        "In time",
        "A run from line to line: before a step reads more, it has written the output and the warnings of all lines so far.",
        (("crx_runs::Run::step", "stepped goes handed_on"), ("crx_lines::reads_may_wait", "*"), ("rnxcmp::run_streams", "waits")),
        own=True,
    ),
    Chapter(
        "Arguments",
        "Which run, help or refusal the arguments of the program mean, its actions then, and the text that it shows if it runs no filter.",
        (
            ("rnxcmp::run_streams", "*"),
            ("crx_program::run", "*"),
            ("crx_command::plan", "value"),
            ("crx_command::default_date", "date"),
            ("crx_program::Opener::open_to_read", "calls opened"),
            ("crx_program::Whole::close", "*"),
        ),
        own=True,
    ),
    Chapter(
        "What a run holds",
        "Which parts hold anything between two lines, and how large they can be.",
        (
            *((f"crx_laws::bounded_{it}", "*") for it in ("compaction", "expansion", "lines")),
            *((f"crx_{law}", "*") for law in ("lines::line_reader_holds", "rinex::epochs_hold", "compact::columns_hold")),
            *((f"crx_filter::{law}", "*") for law in ("readers_hold", "engines_hold")),
        ),
        own=True,
    ),
    Chapter(
        "The library for C",
        "The results of its calls over whole inputs, and the caller's memory after them.",
        tuple((f"rnxcmp_c::rnxcmp_c_{call}", "*") for call in ("compact", "expand", "check")),
    ),
    Chapter(
        "What a handle promises",
        "The state of a run after each call, by all bytes that were fed and taken, by the texts that the handle keeps, and by the call's result;"
        " that it returns the same as a call over the whole input; and that the texts of the lines so far come first in its result."
        " `HandleStands` only links a call to the next one, and need not be read. The next chapter has it, with `ByItsPast` and its two kin,"
        " `has_ended`, `run_state`, and the texts that a handle keeps.",
        tuple((f"rnxcmp_c::rnxcmp_c_{call}", clauses) for call, clauses in OF_CALLS)
        + tuple((f"rnxcmp_c::{law}", "*") for law in ("a_handle_answers_as_a_call", "what_lines_make_comes_first")),
        RESULTS + FILTERS + OF_HANDLES,
        57,
    ),
    Chapter(
        "Handles",
        "The results of a run that continues from call to call. The next chapter has the state of the engine in a handle.",
        tuple((f"rnxcmp_c::rnxcmp_c_{call}", "*") for call in ("open_compact", "open_expand", "open_check", "feed", "end", "take", "close")),
        OF_ENGINES,
        own=True,
    ),
    Chapter(
        "The engine in a handle",
        "The state between two calls, which a C program must not change.",
        tuple((f"rnxcmp_c::{name}", "") for name in OF_ENGINES),
        own=True,
    ),
)


def kit():
    """The folder of the toolchain with the sources of ported crates, or None."""
    found = shutil.which("rt")
    folder = Path(found).resolve().parents[1] / "rattle" if found else None
    return folder if folder and folder.is_dir() else None


def all_names():
    ported = [kit() / "clap"] if kit() else []
    return Names([CRATES / crate for crate in crates()] + ported)


def is_ported(item):
    return not item.path.is_relative_to(CRATES)


def is_definition(item):
    return item.path.suffix == ".antt"


def lines_of(items):
    """How many lines some definitions have, without the comments above them."""
    return sum(1 for item in items if is_definition(item) for line in item.text.split("\n") if line.strip())


def top_down(roots, names, left):
    """Some items and all that they stand on, each after those that use it, and what is left out of these by its name."""
    done, order = set(), []

    def visit(item):
        if item in done:
            return
        done.add(item)
        if item.name not in left:
            for below in reversed(names.below_item(item)):
                visit(below)
        order.append(item)

    for item in reversed(roots):
        visit(item)
    return [item for item in order[::-1] if item.name not in left], [item for item in order[::-1] if item.name in left]


class Book:
    """The chapters and what each has. ValueError says what is wrong with CHAPTERS."""

    def __init__(self):
        self.names = all_names()
        self.functions = {f"{crate}::{it.name}": it for crate in crates() for it in public_functions(crate)}
        self.contents, self.shown = [], {}  # `shown` has the chapter that shows an item
        for chapter in CHAPTERS:
            content = self.content(chapter)
            self.contents.append(content)
            self.shown.update((item, chapter) for item in content.items if item not in self.shown)
        lost = {item.name for content in self.contents for item in content.left if item not in self.shown}
        if lost:
            raise ValueError(f"no chapter has {', '.join(sorted(lost))}, which others leave")

    def item_named(self, crate, name):
        found = {item for (path, _), item in self.names.items.items() if item.name == name and crate_of(path) == crate}
        if len(found) != 1:
            raise ValueError(f"{len(found)} definitions are called {crate}::{name}")
        return found.pop()

    def clauses_of(self, function, wanted):
        found = [clause for clause in self.functions[function].clauses if wanted == "*" or clause.name in wanted.split()]
        lacking = set(wanted.split()) - {clause.name for clause in found} - {"*"}
        if lacking:
            raise ValueError(f"{function} has no clause {', '.join(sorted(lacking))}")
        return found

    def content(self, chapter):
        clauses, roots = [], []
        for about, wanted in chapter.about:
            if about in self.functions:
                function = self.functions[about]
                clauses.append((function, self.clauses_of(about, wanted)))
                roots += [item for clause in clauses[-1][1] for item in self.names.below(function.path, clause.statement)]
            else:
                roots.append(self.item_named(*about.split("::")))
        below, left = top_down(list(dict.fromkeys(roots)), self.names, chapter.left)
        items = [item for item in below if not is_ported(item)]
        return Content(clauses, items, left, sum(is_ported(item) and is_definition(item) for item in below))

    def trusted(self):
        """The definitions that one has to believe: those of all chapters, without the state of engines."""
        return [item for item in self.shown if is_definition(item) and "meaning" in item.path.parts]

    def outside(self):
        """The definitions that stand outside the folders `meaning` and that a chapter has which is to have none of them."""
        return [item for item, chapter in self.shown.items() if is_definition(item) and "meaning" not in item.path.parts and not chapter.own]
