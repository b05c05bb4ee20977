#!/usr/bin/env python3
"""Writes the pages that are made from the sources, as HTML that needs no other file:

    docs/pages.py FOLDER

DEFINITIONS has the definitions that the promises rest on, in chapters, from the top down; CONTRACTS has each public function with its
clauses; PROOFS where each thing is proved. GUARANTEES, in which the name of each clause is a link to it, READING and FORMATS are put beside them.
"""

import re
import sys
from pathlib import Path

import proved
from chapters import CHAPTERS, Book, is_definition, lines_of
from markup import Code, Heading, Rows, Words, html_page, parts_of
from sources import CRATES, TOP, crate_of, crates, fault_names, public_functions


def count(number, one):
    return f"{number} {one}{'' if number == 1 else 's'}"


class Places:
    """Where each item of the chapters stands on the page of definitions."""

    def __init__(self, book):
        self.book, self.places = book, {}
        same = {}
        for item in book.shown:
            same.setdefault(item.name, []).append(item)
        for name, items in same.items():
            for item in items:
                self.places[item] = name if len(items) == 1 else f"{crate_of(item.path)}.{item.path.stem}.{name}"

    def target(self, path, page):
        """What gives the page and place of a name in a file, seen from a page."""
        def of(name):
            item = self.book.names.find(path, name)
            return (page, self.places[item]) if item in self.places else None
        return of


def without_indent(text):
    lines = text.split("\n")
    indent = min(len(line) - len(line.lstrip()) for line in lines if line.strip())
    return "\n".join(line[indent:] for line in lines)


def where(item):
    return f"`{item.path.relative_to(TOP)}`, line {item.line}"


# ---- the page of definitions


def counts(book, chapter, content):
    """How much a chapter has."""
    found = [item for item in content.items if is_definition(item)]
    new = [item for item in found if book.shown[item] is chapter]
    return found, new, len(content.items) - len(found)


def chapter_parts(book, places, chapter, content):
    found, new, others = counts(book, chapter, content)
    yield Heading(2, chapter.title.lower().replace(" ", "-"), chapter.title)
    yield Words(chapter.words)
    said = f"It stands on {count(len(found), 'definition')}, in {count(lines_of(found), 'line')}"
    said += f" ({len(new)}, in {count(lines_of(new), 'line')}, that no earlier chapter has)" if len(new) < len(found) else ""
    said += f", on {count(others, 'type and constant') if others == 1 else f'{others} types and constants'} of the code" if others else ""
    said += f", and on {content.ported} definitions of the ported crate clap, which aren't shown" if content.ported else ""
    names = ", ".join(f"[`{item.name}`](#{places.places[item]})" for item in content.left)
    yield Words(said + "." + (f" Left to other chapters, with what they stand on: {names}." if names else ""))
    for function, clauses in content.clauses:
        text = "\n".join(without_indent(clause.text) for clause in clauses)
        yield Code("", f"`{function.name}` of {crate_of(function.path)} (`{function.path.relative_to(TOP)}`)", text, places.target(function.path, ""))
    for item in content.items:
        if book.shown[item] is chapter:
            text = "\n".join(line for line in [*item.comment.split("\n"), item.text] if line and not line.startswith("#["))
            yield Code(places.places[item], where(item), text, places.target(item.path, ""))


def definitions(book, places):
    trusted = book.trusted()
    *some, last = (f"*{chapter.title}*" for chapter in CHAPTERS if chapter.own)
    yield Words(
        "The definitions that the promises rest on: whoever believes them knows the claims. Each chapter begins with"
        " clauses of public calls, then come the definitions that they name and those below, from the top down, each once: after those"
        " that use it. [READING](READING#) explains the notation. `docs/pages.py` made this page from the sources.")
    yield Words(
        f"In all, {count(len(trusted), 'definition')}, in {count(lines_of(trusted), 'line')}, stand in the folders `crates/*/specs/meaning`."
        f" The chapters {', '.join(some)} and {last} have others too. The standard library's definitions and those of ported crates aren't"
        " shown. *New* are those that no earlier chapter has.")
    rows = []
    for chapter, content in zip(CHAPTERS, book.contents):
        found, new, others = counts(book, chapter, content)
        title = f"[{chapter.title}](#{chapter.title.lower().replace(' ', '-')})"
        rows.append([title, str(len(found)), str(lines_of(found)), str(len(new)), str(lines_of(new)), str(others)])
    yield Rows(["Chapter", "Definitions", "Lines", "New", "Lines of these", "Types and constants of the code"], rows)
    for chapter, content in zip(CHAPTERS, book.contents):
        yield from chapter_parts(book, places, chapter, content)


# ---- the page of contracts


def contracts(places):
    yield Words(
        "Each public function with the first sentence of its documentation, its signature and its clauses. `requires` is what a caller has"
        " to meet, `ensures` what the call promises. A law is a function with an empty body, whose contract speaks of the definitions"
        " alone. Where a method has no clause of its own, the clauses of its trait hold. [READING](READING#) explains the notation, and"
        " [the page of definitions](DEFINITIONS#losslessness) has what the promises of whole runs stand on. `docs/pages.py` made this page"
        " from the sources.")
    for crate in crates():
        functions = public_functions(crate)
        if functions:
            yield Heading(2, crate, crate)
        file = None
        for function in functions:
            if function.path != file:
                file = function.path
                inside = file.relative_to(CRATES / crate / "src")
                yield Heading(3, f"{crate}.{'.'.join(inside.with_suffix('').parts)}", f"`{inside}`")
            words = f"`{function.name}`" + (f": {function.words}." if function.words else "")
            yield Code(place_of(function), words, without_indent(function.text), places.target(function.path, "DEFINITIONS"))


def place_of(function):
    """Where the page of contracts has a function."""
    crate = crate_of(function.path)
    inside = function.path.relative_to(CRATES / crate / "src").with_suffix("").parts
    return ".".join((crate, *inside, *function.name.split("::")))


# ---- the pages that are written by hand

CITED = re.compile(r"\(([^()]*`: `[^()]*|laws? `[^()]*)\)")  # functions with their clauses, or laws


def cited_in(book):
    """What puts links into the words of a page: each function, clause and law that it cites in parentheses is a link to its contract."""
    functions = {}
    for function in book.functions.values():
        for name in {function.name, function.name.rpartition("::")[2]}:
            functions.setdefault(name, []).append(function)

    def part(text):
        names, mark, clauses = text.partition("`: `")
        called = [it for name in re.findall(r"`([\w:]+)`?", names + "`") for it in functions.get(name, ())]

        def function(it):
            return f"[`{it[1]}`](CONTRACTS#{place_of(functions[it[1]][0])})" if it[1] in functions else it[0]

        def clause(it):
            has = next((function for function in called if it[1] in (clause.name for clause in function.clauses)), None)
            return f"[`{it[1]}`](CONTRACTS#{place_of(has)}.{it[1]})" if has else it[0]

        linked = re.sub(r"`([\w:]+)`", function, names + ("`" if mark else ""))
        return linked + (": " + re.sub(r"`(\w+)`", clause, "`" + clauses) if mark else "")

    return lambda words: CITED.sub(lambda it: "(" + ";".join(map(part, it[1].split(";"))) + ")", words)


def main(folder):
    book = Book()
    outside = book.outside()
    if outside:
        raise ValueError("definitions outside the folders meaning: " + ", ".join(where(item) for item in outside))
    places = Places(book)
    folder.mkdir(parents=True, exist_ok=True)
    pages = {
        "DEFINITIONS": definitions(book, places),
        "CONTRACTS": contracts(places),
        "PROOFS": proved.parts(fault_names()),
    }
    written = ("GUARANTEES", "READING", "FORMATS")
    pages |= {name: parts_of(TOP / f"docs/{name}.md", {*pages, *written}, cited_in(book)) for name in written}
    for name, parts in pages.items():
        (folder / f"{name}.html").write_text(html_page(name.capitalize(), parts), encoding="utf-8")


if __name__ == "__main__":
    if len(sys.argv) != 2:
        sys.exit(__doc__)
    try:
        main(Path(sys.argv[1]))
    except ValueError as wrong:
        sys.exit(f"docs/chapters.py: {wrong}")
