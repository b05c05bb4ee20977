"""Pages in HTML that need no other file.

A page is a list of parts. Words have `code`, *emphasis*, **strong words** and [links](page#place) as in Markdown; a link's page has no ending. Each name
in a code block is a link, and each clause of a contract has a place of its own. `parts_of` makes the parts of a page that is written in Markdown."""

import html
import re
from collections import namedtuple

from sources import TOKEN

Heading = namedtuple("Heading", "level place text")
Words = namedtuple("Words", "text")
Rows = namedtuple("Rows", "head rows")
List = namedtuple("List", "kind items")
Drawn = namedtuple("Drawn", "text")  # a picture, or lines as they are
# `place` is what links to it name; `target` gives the page and place of a name in the text, or None
Code = namedtuple("Code", "place caption text target")

STYLE = """
body { max-width: 62em; margin: 2em auto; padding: 0 1em; font-family: sans-serif; line-height: 1.4; }
pre { background: #f5f5f5; padding: .6em .8em; overflow-x: auto; margin: .2em 0 1.2em; line-height: 1.35; }
table { border-collapse: collapse; } td, th { border: 1px solid #ccc; padding: .2em .6em; text-align: left; }
a { text-decoration: none; } a:hover { text-decoration: underline; } i, .caption { color: #666; } .caption { font-size: 85%; }
pre:target, :target + pre { outline: 2px solid #e0a000; }
"""


def linked(target):
    page, place = target
    return f"{page}{'.html' if page else ''}{'#' if place else ''}{place}"


# ---- HTML


def escaped(text):
    return html.escape(text, quote=False)


def replaced(pattern, made, text):
    """A text in HTML, with what is made of each match of a pattern in its place."""
    out, at = [], 0
    for it in pattern.finditer(text):
        out += [escaped(text[at:it.start()]), made(it)]
        at = it.end()
    return "".join(out) + escaped(text[at:])


MARKED = re.compile(r"\[([^\]]*)\]\((\w*)#(\S*?)\)|`([^`]*)`|\*\*([^*]*)\*\*|\*([^*]*)\*")


def html_words(text):
    def marked(it):
        words, page, place, code, strong, stressed = it.groups()
        if words is not None:
            return f'<a href="{linked((page, place))}">{html_words(words)}</a>'
        if strong is not None:
            return f"<strong>{html_words(strong)}</strong>"
        return f"<em>{escaped(stressed)}</em>" if code is None else f"<code>{escaped(code)}</code>"

    return replaced(MARKED, marked, text)


def html_code(part):
    def token(it):
        text = escaped(it[0])
        target = part.target(it[1]) if it[1] else None
        if target == ("", part.place):
            return f"<b>{text}</b>"
        if target:
            return f'<a href="{linked(target)}">{text}</a>'
        return f"<i>{text}</i>" if text.startswith(("--", "//")) else text

    def clause(it):
        place = f"{part.place}.{it[2]}"
        return it[0] if place in seen else seen.add(place) or f'{it[1]}<span id="{place}">{it[2]}</span>{it[3]}'

    seen = set() if part.place else None
    text = replaced(TOKEN, token, part.text)
    return re.sub(r"^(\s*ensures\*? )(\w+)( \{)", clause, text, flags=re.M) if part.place else text


def html_of(part):
    if isinstance(part, Heading):
        return f'<h{part.level} id="{part.place}">{html_words(part.text)}</h{part.level}>'
    if isinstance(part, Words):
        return f"<p>{html_words(part.text)}</p>"
    if isinstance(part, List):
        return f"<{part.kind}>\n" + "\n".join(f"<li>{html_words(item)}</li>" for item in part.items) + f"\n</{part.kind}>"
    if isinstance(part, Drawn):
        return part.text
    if isinstance(part, Rows):
        rows = "".join("<tr>" + "".join(f"<td>{html_words(cell)}</td>" for cell in row) + "</tr>\n" for row in part.rows)
        return f"<table>\n<tr>{''.join(f'<th>{html_words(cell)}</th>' for cell in part.head)}</tr>\n{rows}</table>"
    place = f' id="{part.place}"' if part.place else ""
    return f'<div class="caption">{html_words(part.caption)}</div>\n<pre{place}>{html_code(part)}</pre>'


def html_page(title, parts):
    head = f'<!DOCTYPE html>\n<html lang="en">\n<head>\n<meta charset="utf-8">\n<title>rnxcmp: {title}</title>\n<style>{STYLE}</style>\n</head>\n<body>\n'
    return head + f"<h1>{title}</h1>\n" + "\n".join(html_of(part) for part in parts) + "\n</body>\n</html>\n"


# ---- pages that are written in Markdown


def place_of(title):
    """The name by which links know a heading, as forges make it."""
    return re.sub(r"[^\w -]", "", title.lower()).replace(" ", "-")


def parts_of(path, made, cited):
    """The parts of a page after its title. Links to other pages than those that are `made` lose their target; `cited` puts links into the words."""
    def link(it):
        name, _, place = it[2].partition("#")
        page = name.removesuffix(".md")
        return f"[{it[1]}]({page}#{place})" if not name or page in made else it[1]

    def words(lines):
        return cited(re.sub(r"(?<!!)\[([^\]]*)\]\(([^)\s]*)\)", link, re.sub(r"\s+", " ", " ".join(line.strip() for line in lines))))

    def cells(line):
        return [words([cell.replace("\0", "|")]) for cell in line.strip("|").replace("\\|", "\0").split(" |")]

    for block in re.findall(r"^```\n[\s\S]*?^```$|(?:^(?!```)[^\n]+\n?)+", path.read_text(encoding="utf-8").partition("\n")[2], re.M):
        lines = block.rstrip("\n").split("\n")
        if heading := re.match(r"(#+) (.*)", block):
            yield Heading(len(heading[1]), place_of(heading[2]), heading[2])
        elif picture := re.match(r"!\[[^\]]*\]\(([^)]*)\)", block):
            yield Drawn((path.parent / picture[1]).read_text(encoding="utf-8"))
        elif block.startswith(("    ", "```")):
            yield Drawn("<pre>" + escaped("\n".join(line.removeprefix("    ") for line in lines if not line.startswith("```"))) + "</pre>")
        elif block.startswith("|"):
            rows = list(map(cells, lines))
            yield Rows(rows[0], rows[2:])
        elif re.match(r"- |\d+\. ", block):
            items = re.split(r"\n(?:- |\d+\. )", "\n" + block)[1:]
            yield List("ul" if block.startswith("-") else "ol", [words(item.split("\n")) for item in items])
        else:
            yield Words(words(lines))
