"""Pages against sources: the pages that `make docs` makes have each definition once and no link to nothing, the pictures are those that
their script would make today, the picture of an epoch is what the program makes, each clause, name of code, file and make target that a
page names is there, the page of each crate has its modules, and the limits, faults and options of the program are those that texts
beside it have. A pattern that finds nothing to look at is a failure too."""

import gzip
import re
import shutil
import subprocess
import sys
import tempfile
import unittest
from collections import Counter
from functools import cache
from html import unescape
from pathlib import Path

from runner import PACKAGES, PROGRAM, TOP, kept_folder

sys.path.insert(0, str(TOP / "docs"))
import proved  # noqa: E402
from chapters import CHAPTERS, Book, is_definition, is_ported, top_down  # noqa: E402
from sources import crates, fault_names, functions_in, public_functions  # noqa: E402
from stated import WRITTEN, faults, spelled, typed_in, wrong_in  # noqa: E402

MADE = ("DEFINITIONS.html", "CONTRACTS.html", "PROOFS.html", "READING.html", "GUARANTEES.html")  # by `make docs`
CRATE_PAGES = tuple(f"crates/{crate}/README.md" for crate in crates())
PAGES = ("README.md", "CONTRIBUTING.md", "tests/README.md", "bench/README.md", "samples/README.md") + CRATE_PAGES + tuple(
    str(path.relative_to(TOP)) for path in sorted((TOP / "docs").glob("*.md")))


def pictures():
    """The pictures that their script would draw otherwise."""
    with tempfile.TemporaryDirectory() as folder:
        drawn, kept = Path(folder) / "docs/pictures", TOP / "docs/pictures"
        shutil.copytree(kept, drawn, ignore=shutil.ignore_patterns("*.svg"))
        shutil.copy(TOP / "crates.txt", folder)
        subprocess.run([drawn / "draw.py"], check=True, timeout=60)
        names = sorted({path.name for place in (drawn, kept) for path in place.glob("*.svg")})
        return [name for name in names if not (drawn / name).exists() or (drawn / name).read_bytes() != (kept / name).read_bytes()]


@cache
def book():
    return Book()


NO_PROSE = re.compile(r"<(pre|code|style|svg)\b.*?</\1>", re.S)  # of a made page


def in_source(item):
    """Where an item stands, as the page of definitions says it, and the comment above it."""
    path = item.path.relative_to(TOP)
    line = item.path.read_text(encoding="utf-8").split("\n").index(item.text.split("\n")[0]) + 1
    return f"{path}, line {line}\n" + "".join(f"{it}\n" for it in item.comment.split("\n") if it and not it.startswith("#["))


def made_pages():
    """What is wrong with the pages that `make docs` makes: a link to nothing, a line of a folder `meaning` that isn't there, a
    definition that isn't there once, or one that isn't to be believed and that a chapter of others has."""
    with tempfile.TemporaryDirectory() as folder:
        run = subprocess.run([TOP / "docs/pages.py", folder], capture_output=True, text=True, timeout=300)
        if run.returncode or run.stderr:
            return [run.stdout + run.stderr]
        texts = {path.name: path.read_text(encoding="utf-8") for path in sorted(Path(folder).iterdir())}
    wrong = [] if len(texts) == 6 else [f"pages {', '.join(texts)}"]
    places = {name: re.findall(r'id="([^"]*)"', text) for name, text in texts.items()}
    for name, text in texts.items():
        links = set(re.findall(r'href="([\w.]*)#?([^"]*)"', text))
        wrong += [f"{name}: a link to {page or name}#{place}" for page, place in sorted(links) if place not in ["", *places[page or name]]]
        wrong += [f"{name}: {place} is there twice" for place in sorted(set(places[name])) if places[name].count(place) > 1]
    shown, contracts = (unescape(re.sub(r"<[^>]*>", "", texts[f"{name}.html"])) for name in ("DEFINITIONS", "CONTRACTS"))
    wrong += [f"{it.path.name}: {it.name} isn't there" for it in book().shown if f"{in_source(it)}{it.text}\n" not in shown]
    wrong += [f"{it.path.name}: {it.name} isn't there" for it in book().functions.values() if " ".join(it.text.split()) not in " ".join(contracts.split())]
    wrong += [f"{name}: {it}" for name, text in texts.items() for it in re.findall(r".*(?:\*\*|\]\(|`|<em></em>).*", re.sub(NO_PROSE, "", text))]
    wrong += [f"{name}: {it}" for name, text in texts.items() for it in re.findall(r"<td>.*\\\|.*", text)]
    linked = re.findall(r'href="CONTRACTS\.html#[\w.]*?(\w+)"><code>((?:\w+::)*(\w+))</code></a>', texts["GUARANTEES.html"])
    names = {it for name, clauses in cited("docs/GUARANTEES.md") for it in (name, *clauses)}
    wrong += [f"GUARANTEES.html: no link of {it}" for it in sorted(names - {name for place, name, last in linked if place == last})]
    said = re.findall(r"^It stands on (\d+) definitions, in (\d+) lines(?: \((\d+), in (\d+) lines, that no earlier chapter has\))?", shown, re.M)
    said = [(found, lines, new or found, of_new or lines) for found, lines, new, of_new in said]
    rows = re.findall(r"</a></td>" + r"<td>(\d+)</td>" * 4, texts["DEFINITIONS.html"])
    new = [it for it in book().shown if is_definition(it)]
    wrong += [] if rows == said and [sum(int(it[at]) for it in said) for at in (2, 3)] == [len(new), sum(len(re.findall(r"^.*\S", it.text, re.M)) for it in new)] else [f"{rows}"]
    there = Counter(shown.split("\n"))
    for path in sorted((TOP / "crates").glob("*/specs/meaning/**/*.antt")):
        equations = re.sub(r"^(?:--|use |pub use |pub mod |module |infix).*\n", "", path.read_text(encoding="utf-8"), flags=re.M).split("\n")
        there.subtract(equations)
        wrong += [f"{path.relative_to(TOP)}: no chapter has {line}" for line in equations if line and there[line] < 0]
    return wrong + [f"{it.path.relative_to(TOP)}: {it.name} is outside the folders meaning" for it in book().outside()]


def prose(path):
    """A page without its code."""
    return re.sub(r"^```.*?^```|^ {4}[^\n]*$|`[^`\n]*`", "", path.read_text(encoding="utf-8"), flags=re.M | re.S)


@cache
def places(path):
    """The places of a page to which links lead: its headings, as forges name them, and its ids."""
    heads = re.findall(r"^#+ (.*)$", re.sub(r"^```.*?^```", "", path.read_text(encoding="utf-8"), flags=re.M | re.S), re.M)
    names = [re.sub(r"[^\w\- ]", "", re.sub(r"\]\([^)]*\)", "", head)).strip().lower().replace(" ", "-") for head in heads]
    return {*names, *re.findall(r'\bid="([^"]*)"', path.read_text(encoding="utf-8"))}


def links(page, top=TOP):
    """The relative links of a page that lead nowhere; the pages that `make docs` makes have a check of their own."""
    wrong, path = [], top / page
    for target in re.findall(r"\]\(([^()\s]+)\)", prose(path)):
        name, _, place = target.partition("#")
        to = path.parent / name if name else path
        if not re.match(r"\w+:", target) and to.name not in MADE and (not to.exists() or (place and place not in places(to.resolve()))):
            wrong.append(f"{page}: a link to {target}")
    return wrong


def installed_links():
    """The links that lead nowhere in the pages of a release."""
    with tempfile.TemporaryDirectory() as folder:
        run = subprocess.run([TOP / "packaging/install_pages.sh", folder], capture_output=True, text=True, timeout=60)
        pages = sorted(path.relative_to(folder) for path in Path(folder).rglob("*.md"))
        return [run.stderr] * bool(run.returncode) + [wrong for page in pages for wrong in links(page, Path(folder))]


def chapters():
    """Whether docs/READING.md lists the chapters of the page of definitions, and none has more definitions than it may."""
    listed = re.findall(r"^\d+\. \*([^*]*)\*:", (TOP / "docs/READING.md").read_text(encoding="utf-8"), re.M)
    wrong = [] if listed == [chapter.title for chapter in CHAPTERS] else [f"other chapters than {', '.join(listed)}"]
    counts = [(chapter, sum(map(is_definition, content.items))) for chapter, content in zip(CHAPTERS, book().contents)]
    return wrong + [f"{chapter.title} has {count} definitions" for chapter, count in counts if chapter.most and count > chapter.most]


def proofs_placed():
    """The folders of proofs that the page of proofs gives to no function, and the faults without a definition or a function there."""
    wrong = []
    for crate in crates():
        folders = proved.folders_of(crate)
        given = {proved.folder_of(folders, module, function) for module, function, _ in proved.code_of(crate)}
        wrong += [f"{crate}: no function has proofs/{folder}" for folder in sorted({"/".join(parts) for parts in folders} - given)]
    return wrong + [f"fault {row[0]}: {row}" for row in proved.faults(fault_names()) if not row[2] or not row[3]]


def clauses_found():
    """The files of code in which the pages find fewer clauses than there are, or more."""
    wrong = []
    for path in sorted((TOP / "crates").glob("*/src/**/*.rt")):
        there = len(re.findall(r"^\s*(?:requires|ensures)\*? ", path.read_text(encoding="utf-8"), re.M))
        found = sum(len(function.clauses) for function, _ in functions_in(path))
        wrong += [] if found == there else [f"{path.relative_to(TOP)}: {found} of {there} clauses"]
    return wrong


def clauses_without_names():
    """The public functions that have a clause (`ensures`) without a name."""
    functions = [it for crate in crates() for it in public_functions(crate)]
    return [f"{it.name}: a clause without a name" for it in functions if any(clause.kind == "ensures" and clause.name == "_" for clause in it.clauses)]


def by_name():
    """The public functions by their names: each under its own, and under that of its type and it."""
    found = {}
    for function in (it for crate in crates() for it in public_functions(crate)):
        for name in {function.name, function.name.rpartition("::")[2]}:
            found.setdefault(name, []).append(function)
    return found


def cited(page):
    """The functions that a page names in parentheses, each with the clauses that it names, or with none where the function is a law."""
    text = re.sub(r"\s+", " ", (TOP / page).read_text(encoding="utf-8"))
    for group in re.findall(r"\(([^()]*`: `[^()]*|laws? `[^()]*)\)", text):
        for part in group.split(";"):
            names, _, clauses = part.partition("`: `")
            yield from ((name, re.findall(r"(\w+)`", clauses)) for name in re.findall(r"`([\w:]+)`?", names + "`"))


def clauses_named(page, known):
    """The functions and clauses that a page names and that aren't there, and the definitions that these stand on and that no chapter shows."""
    names, below = list(cited(page)), set()
    wrong = [] if len(names) > 2 else [f"{page} names {names}"]
    for name, clauses in names:
        wrong += [] if name in known else [f"{page}: there is no public function {name}"]
        for clause in clauses or ["*"]:
            has = [function for function in known.get(name, []) if clause == "*" or clause in (it.name for it in function.clauses)]
            wrong += [] if has and (len(has) == len(known[name]) or "::" not in name) else [f"{page}: {name} has no clause {clause}"]
            statements = ((function, it.statement) for function in has for it in function.clauses if clause in ("*", it.name))
            below.update(item for function, statement in statements for item in book().names.below(function.path, statement))
    items, _ = top_down(list(below), book().names, ())
    return wrong + [f"{page} stands on {it.name}, which no chapter shows" for it in items if not is_ported(it) and it not in book().shown]


def files_named(page):
    """The files below the usual folders that a page names."""
    folders = "crates|docs|tests|bench|packaging|samples|include|library|python|examples"
    names = re.findall(rf"(?<![\w/.*-])((?:{folders})/[\w./*-]*\w)", (TOP / page).read_text(encoding="utf-8"))
    return [name for name in names if not re.search("/out/|NAME|SUBJECT|VERSION", name)]


def sources():
    """The words of the code and the definitions."""
    texts = (path.read_text(encoding="utf-8") for folder in ("src", "specs") for path in (TOP / "crates").glob(f"*/{folder}/**/*.*t*"))
    return {word for text in texts for word in re.findall(r"\w+", text)}


def names_named(page, words):
    """The names of code that a document has between backticks, and that no source has."""
    text = re.sub(r"^```.*?^```", "", (TOP / page).read_text(encoding="utf-8"), flags=re.M | re.S)
    names = {part for name in re.findall(r"`([A-Za-z_][\w:]*)`", text) for part in name.split("::")}
    files = {name for name in re.findall(r"`(\w+\.(?:rt|antt))`", text) if not any((TOP / "crates").glob(f"*/*/**/{name}"))}
    names = {name for name in names if re.search(r"[A-Za-z]_[A-Za-z]|[a-z][A-Z]|^[A-Z][a-z]", name)}
    return [f"{page}: no source has {name}" for name in sorted((names - words) | files)]


def calls_shown(page, words):
    """The calls in the lines of use that the page of a crate shows, and that no source has."""
    shown = "\n".join(re.findall(r"^    (?!rt )(.*)$", (TOP / page).read_text(encoding="utf-8"), re.M))
    names = {part for name in re.findall(r"([\w:]+)\(", re.sub(r"//.*|/\*.*", "", shown)) for part in name.split("::")}
    header = set(re.findall(r"\w+", (TOP / "include/rnxcmp.h").read_text(encoding="utf-8")))
    return [f"{page}: no source has {name}" for name in sorted(names - words - header)]


def files_of_crates(page):
    """The files of a crate that its page names and no crate has."""
    files = re.findall(r"`((?:src|specs|proofs)/[\w/.*]+)`", (TOP / page).read_text(encoding="utf-8"))
    return [f"{page}: there is no {it}" for it in files if not any((TOP / "crates").glob(f"*/{it}"))]


def targets_named(page):
    """The targets that a page tells to make."""
    named = re.findall(r"`make ([a-z][\w-]*)|^    make ([a-z][\w-]*)", (TOP / page).read_text(encoding="utf-8"), re.M)
    return [a or b for a, b in named]


def lines_drawn(name):
    """The lines of RINEX and of compact text that a picture shows."""
    lines = {"RINEX": [], "compact": []}
    for kind, line in re.findall(r"^type \S+ (\w+) \|(.*)$", (TOP / f"docs/pictures/{name}.txt").read_text(encoding="utf-8"), re.M):
        lines[kind].append(re.sub(r"\{\w+:([^}]*)\}", r"\1", line))
    return lines


def header_of(*types):
    """The lines of a header, for GPS with these types."""
    labels = (
        ("     3.05           OBSERVATION DATA    M", "RINEX VERSION / TYPE"),
        (f"G    {len(types)} {' '.join(types)}", "SYS / # / OBS TYPES"),
        ("", "END OF HEADER"),
    )
    return [text.ljust(60) + label for text, label in labels]


def ran(text, *words):
    """What the program makes of a text: the output, and the messages."""
    run = subprocess.run([PROGRAM, *words], input=text, capture_output=True, text=True, timeout=60)
    return run.stdout, run.stderr


def example():
    """Whether the epochs of docs/pictures/epoch.txt are a standard file, its compact lines those that the program makes of it, and the
    lines that README.md shows among both."""
    lines, header = lines_drawn("epoch"), header_of("C1C", "L1C")
    shown = re.findall(r"^    (RINEX|compact) +(\S.*)$", (TOP / "README.md").read_text(encoding="utf-8"), re.M)
    rinex, compact = ("\n".join([*header, *lines[kind], ""]) for kind in ("RINEX", "compact"))
    made, _ = ran(rinex, "rnx2crx")
    wrong = [] if made.split("\n", 2)[2:] == [compact] else ["the program makes other compact lines"]
    wrong += [] if shown and all(line in lines[kind] for kind, line in shown) else ["README.md shows other lines"]
    return wrong + ([] if ran(made, "crx2rnx")[0] == rinex else ["they don't come back"])


def sizes():
    """Whether a day file shrinks to an eighth with gzip, and to a third by gzip only, as README.md says."""
    words = [TOP / "bench/generate.py", "--megabytes", "2", "--interval", "30"]
    day = subprocess.run(words, capture_output=True, check=True, timeout=60).stdout
    compact = subprocess.run([PROGRAM, "rnx2crx"], input=day, capture_output=True, check=True, timeout=60).stdout
    shares = [len(gzip.compress(text, 6)) / len(day) for text in (compact, day)]
    return [] if abs(shares[0] - 1 / 8) < 0.015 and abs(shares[1] - 1 / 3) < 0.04 else [f"the shares are {shares}"]


def damage_drawn():
    """Whether the compact text of docs/pictures/damage.txt is what the program makes, but for the byte in a frame, and comes back as it
    is shown."""
    source = (TOP / "docs/pictures/damage.txt").read_text(encoding="utf-8")
    lines, header = lines_drawn("damage"), header_of("C1C")
    compact, rinex = ("\n".join([*header, *lines[kind], ""]) for kind in ("compact", "RINEX"))
    before, after = re.search(r"a (\w) became a (\w) by one flipped bit", source).groups()
    wrong = [] if bin(ord(before) ^ ord(after)).count("1") == 1 and compact.count(f"\n{after}") == 1 else ["it isn't one flipped bit"]
    whole = compact.replace(f"\n{after}", f"\n{before}")
    first = "\n".join(ran("\n".join([*header, ""]), "rnx2crx")[0].split("\n")[:2]) + "\n"
    made, _ = ran(ran(first + whole, "crx2rnx")[0], "rnx2crx", "-e", "3")
    wrong += [] if made.split("\n", 2)[2:] == [whole] else ["the program makes other compact lines"]
    output, messages = ran(first + compact, "crx2rnx", "-s")
    return wrong + ([] if output == rinex and messages.strip() in source and messages else [f"it writes {output!r}, {messages!r}"])


def promise_shown():
    """Whether the clause and the definitions that docs/READING.md shows are those of the sources."""
    text = (TOP / "docs/READING.md").read_text(encoding="utf-8").partition("as it is written")[2].partition("\n## ")[0]
    files = [*(TOP / "crates/crx_filter/src").glob("*.rt"), *(TOP / "crates/crx_filter/specs").rglob("*.antt")]
    sources = [re.sub(r"\s+", " ", path.read_text(encoding="utf-8")) for path in files]
    shown = [re.sub(r"\s+", " ", block).strip() for block in re.findall(r"(?:^    .*\n)+", text, re.M)]
    return [] if len(shown) == 3 and all(any(block in source for source in sources) for block in shown) else [f"no source has one of {shown}"]


def figures():
    """The numbers of docs/pictures/speed.txt that bench/README.md doesn't have in a cell of a table."""
    table = (TOP / "bench/README.md").read_text(encoding="utf-8")
    cells = {cell.strip() for row in re.findall(r"^\|(.*)\|$", table, re.M) for cell in row.split("|")}
    bars = re.findall(r"^bars \|[^|]*\|(.*)$", (TOP / "docs/pictures/speed.txt").read_text(encoding="utf-8"), re.M)
    numbers = re.findall(r"[\d.]+", " ".join(bars))
    return [f"docs/pictures/speed.txt: bench/README.md has no {it}" for it in numbers if it not in cells] if len(numbers) > 12 else [f"numbers {numbers}"]


def faults_listed():
    """Whether docs/FORMATS.md lists the faults as they are."""
    table = dict(re.findall(r"^\| (\d+) \| `([^`]*)` \|", (TOP / "docs/FORMATS.md").read_text(encoding="utf-8").partition("| Code | Text | Where")[2], re.M))
    return [] if table == {str(number): words for number, words in faults().items()} else ["docs/FORMATS.md has another table"]


def python_names():
    """The names of the Python package that docs/LIBRARY.md doesn't have."""
    package = (TOP / "python/rnxcmp/__init__.py").read_text(encoding="utf-8")
    page = (TOP / "docs/LIBRARY.md").read_text(encoding="utf-8")
    names = re.findall(r'"(\w+)"', re.search(r"__all__ = \[(.*?)\]", package, re.S)[1])
    return [f"docs/LIBRARY.md has no {name}" for name in names if not re.search(rf"`[^`\n]*\b{name}\b", page)]


def code_of(path):
    """The code of a file, without comments, imports and clauses."""
    text = re.sub(r"//.*|^\s*(?:pub |ghost )*use [^;]*;", "", path.read_text(encoding="utf-8"), flags=re.M)
    while clause := re.search(r"^\s*(?:requires|ensures|ghost)\b[^{]*\{", text, re.M):
        depth, end = 1, clause.end()
        while depth:
            depth, end = depth + {"{": 1, "}": -1}.get(text[end], 0), end + 1
        text = text[: clause.start()] + text[end:]
    return text


def refusals():
    """The places where code says that memory ran out without a refused growth: `OutOfMemory` and `AllocError` as values, outside the
    declaration, the conversions from `Refused` and the edges of the program and of the library, where a text couldn't be written; fields of
    type `Refused`; and a `Refused` that another module than `memory` makes."""
    edges = {"crx_base/src/fault.rt": 1, "crx_base/src/memory.rt": 2, "crx_program/src/refusal.rt": 1, "rnxcmp_c/src/answer.rt": 1}
    types = r"Result<[^{;]*?\bAllocError>|From<AllocError>|(?::|->|for) AllocError\b"
    wrong = []
    for path in sorted((TOP / "crates").glob("*/src/**/*.rt")):
        name, code = str(path.relative_to(TOP / "crates")), code_of(path)
        if name.split("/")[0] in ("crx_tests", "crx_laws", "crx_devices"):
            continue
        values = len(re.findall(r"\bOutOfMemory\b(?! =>)", code)) + len(re.findall(r"\bAllocError\b", re.sub(types, "", code)))
        wrong += [] if values == edges.get(name, 0) else [f"{name}: {values} values that say that memory ran out"]
        held = re.findall(r"\b(?:struct|enum) (\w+)[^{;]*\{[^}]*\bRefused\b|\bstruct (\w+)[^{;]*\([^;]*\bRefused\b", code)
        wrong += [f"{name}: {''.join(it)} holds a Refused" for it in held]
        if not name.startswith("crx_base/src/memory.rt"):
            wrong += [f"{name}: a Refused is made" for _ in re.findall(r"\bRefused \{", code)]
    return wrong


def systems():
    """Whether at most four files have the letters of the systems typed in, and docs/FORMATS.md names each of them."""
    letters = spelled()[0]
    kinds = (("crates", "rt"), ("crates", "antt"), ("tests", "py"), ("bench", "py"), ("docs", "py"), ("python", "py"))
    sources = [path for folder, kind in kinds for path in (TOP / folder).rglob(f"*.{kind}") if "out" not in path.parts]
    files = [path for path in sources if letters in path.read_text(encoding="utf-8")]
    paragraphs = (TOP / "docs/FORMATS.md").read_text(encoding="utf-8").split("\n\n")
    is_there = any("".join(re.findall(r"`([A-Z])`", it)) == letters for it in paragraphs)
    wrong = [] if is_there else ["no paragraph of docs/FORMATS.md has them in order"]
    return wrong + ([] if len(files) < 4 else [f"typed in docs/FORMATS.md, {', '.join(str(it.relative_to(TOP)) for it in files)}"])


def packages():
    """Whether the command of CONTRIBUTING.md installs the packages that the tests use."""
    command = re.search(r"^    apt-get install --no-install-recommends (.*)$", (TOP / "CONTRIBUTING.md").read_text(encoding="utf-8"), re.M)
    return [] if command and command[1].split() == sorted(PACKAGES) else [f"it isn't that of {' '.join(sorted(PACKAGES))}"]


class Pages(unittest.TestCase):
    def assert_right(self, *calls):
        for call in calls:
            with self.subTest(call.__name__):
                self.assertEqual(call(), [])

    def assert_each(self, call, pages, *more):
        for page in pages:
            with self.subTest(page):
                self.assertEqual(call(page, *more), [])

    def test_sources(self):
        self.assert_right(proofs_placed, clauses_found, clauses_without_names, refusals, systems)

    def test_pages_that_are_made(self):
        self.assert_right(made_pages, chapters)

    def test_pictures(self):
        self.assert_right(pictures, figures)

    def test_what_the_program_makes(self):
        self.assert_right(example, sizes, damage_drawn)

    def test_lists(self):
        self.assert_right(packages, python_names, promise_shown, faults_listed)

    def test_numbers(self):
        self.assert_each(wrong_in, WRITTEN)

    def test_links(self):
        pages = [path.relative_to(TOP) for path in [*TOP.glob("*.md"), *TOP.glob("[!o.]*/**/*.md")]]
        self.assert_each(links, pages)
        self.assert_right(installed_links)

    def test_numbers_typed_by_hand(self):
        self.assert_each(typed_in, PAGES)
        page = kept_folder(self) / "page"
        page.write_text("8,192 or 8193 bytes, 400 types, 81920 and 1000000")
        self.assertEqual(typed_in(page), [f"{page} says {number}, typed by hand: {name}" for number, name in (("8192", "LINE_LIMIT"), ("8193", "LINE_LIMIT"), ("1000000", "EVERY"))])

    def test_files(self):
        found = [(page, name) for page in PAGES for name in files_named(page)]
        self.assertEqual([it for it in found if not any(TOP.glob(it[1]))], [])
        self.assertGreater(len(found), 50)

    def test_targets(self):
        targets = re.findall(r"^([\w-]+):", (TOP / "Makefile").read_text(encoding="utf-8"), re.M)
        found = [(page, target) for page in PAGES for target in targets_named(page)]
        self.assertEqual([it for it in found if it[1] not in targets], [])
        self.assertGreater(len(found), 30)

    def test_pages_of_crates(self):
        self.assert_each(files_of_crates, CRATE_PAGES)
        self.assert_each(calls_shown, CRATE_PAGES, sources())

    def test_names(self):
        pages = [f"docs/{name}.md" for name in ("DESIGN", "DECISIONS", "FORMATS", "GUARANTEES")]
        self.assert_each(names_named, [*pages, *CRATE_PAGES], sources())

    def test_clauses(self):
        self.assert_each(clauses_named, ("README.md", "docs/GUARANTEES.md"), by_name())
