#!/usr/bin/env python3
"""Draws the pictures of the documents: each NAME.txt of this folder becomes NAME.svg.

    docs/pictures/draw.py

A line of a text is a word, names and numbers, and after `|` the texts that are shown; # begins a comment:

    grid WIDTH HEIGHT                      how wide a column of boxes is, and how high a row
    box NAME COLUMN ROW SPAN | TEXT | ..   a box over SPAN columns, with a line for each text; a text in `` is code
    trusted NAME COLUMN ROW SPAN | ..      the same in another colour: it is trusted, not proved
    crates                                 a box for each crate of crates.txt at the top of the repository, in the row of its
                                           layer, and an arrow to each crate that it stands on (not where another one leads there)
    crate NAME COLUMN | TEXT | ..          in which column that box stands, and its texts
    type ROW KIND |TEXT                    a line of a file, of which {NAME:TEXT} is a part with a name; a blank is shown as a dot
    arrow FROM TO                          from one box or part to another
    note ROW COLUMN | TEXT                 a remark beside lines of a file, COLUMN in characters
    panels | TITLE | ..                    bars beside each other, in a panel for each title
    series | NAME | ..                     whose bars they are, with a colour for each name
    bars | TEXT | NUMBERS | ..             for each panel a bar for each name of the series; a panel's longest bar is its greatest number
"""

import re
from html import escape
from pathlib import Path

HERE = Path(__file__).resolve().parent
TOP = HERE.parents[1]
CHARACTER, ROW, LEFT = 8, 30, 80  # of lines of a file: the width of a character, the height of a row, what stands left of them
NAMES, LONGEST, PANEL, BAR = 190, 280, 360, 20  # of bars: what stands left of them, the longest one, a panel's width, a bar's height
STYLE = """<style>
text { font: 13px sans-serif; fill: #1a1a1a } .code { font: 12px monospace } .type { font: 13px monospace }
.head { font-weight: bold } .faint { fill: #666666 } .dot { fill: #b0b0b0 }
.box { fill: #eef3f8; stroke: #4a6785 } .part { fill: #fbeecb; stroke: #c9a64a } .arrow { stroke: #4a6785; fill: none; marker-end: url(#tip) }
.bar0 { fill: #4a6785 } .bar1 { fill: #d9b44a; stroke: #8a6d1f }
</style>
<defs><marker id="tip" viewBox="0 0 8 8" refX="7" refY="4" markerWidth="7" markerHeight="7" orient="auto"><path d="M0 0L8 4L0 8z" fill="#4a6785"/></marker></defs>"""


class Picture:
    def __init__(self):
        self.drawn, self.places, self.crates = [], {}, {}
        self.panels, self.series, self.bars = [], [], []
        self.grid = (260, 90)
        self.right = self.bottom = 0

    def reach(self, right, bottom):
        self.right, self.bottom = max(self.right, right), max(self.bottom, bottom)

    def text(self, x, y, words, kind="", anchor="start"):
        self.drawn.append(f'<text x="{x:g}" y="{y:g}" class="{kind}" text-anchor="{anchor}">{escape(words)}</text>')

    def box(self, name, column, row, span, texts, kind="box"):
        width, height = self.grid
        x, y, w, h = 20 + column * width, 20 + row * height, span * width - 30, 16 + 18 * len(texts)
        self.drawn.append(f'<rect x="{x:g}" y="{y:g}" width="{w:g}" height="{h}" rx="5" class="{kind}"/>')
        for index, words in enumerate(texts):
            code = words.startswith("`")
            self.text(x + w / 2, y + 21 + 18 * index, words.strip("`"), "code" if code else "" if index else "head", "middle")
        self.places[name] = (x, y, w, h)
        self.reach(x + w, y + h)

    def arrow(self, start, end):
        (x, y, w, h), (a, b, c, _) = self.places[start], self.places[end]
        from_x, to_x = x + w / 2, a + c / 2
        # straight down where both boxes have a column in common
        low, high = max(x, a), min(x + w, a + c)
        if low < high:
            from_x = to_x = (low + high) / 2
        self.drawn.append(f'<path d="M{from_x:g} {y + h:g}L{to_x:g} {b - 1:g}" class="arrow"/>')

    def elbow(self, start, end):
        """An arrow past the boxes that stand between two of one column, on their left."""
        (x, y, _, h), (a, b, _, d) = self.places[start], self.places[end]
        self.drawn.append(f'<path d="M{x:g} {y + h / 2:g}H{x - 12:g}V{b + d / 2:g}H{a - 1:g}" class="arrow"/>')

    def corner(self, start, end):
        """An arrow from the side of a box to the top of another, past the boxes below the first one."""
        (x, y, _, h), (a, b, c, _) = self.places[start], self.places[end]
        self.drawn.append(f'<path d="M{x:g} {y + h / 2:g}H{a + c / 2:g}V{b - 1:g}" class="arrow"/>')

    def type(self, row, kind, words):
        """A line of a file: its parts are framed, and its words stand at their columns."""
        y = 34 + row * ROW
        self.text(LEFT - 14, y, kind, "faint", "end")
        column = 0
        for name, part in re.findall(r"(?:\{(\w+):)?([^{}]+)\}?", words):
            x = LEFT + column * CHARACTER
            if name:
                self.places[name] = (x - 1, y - 14, len(part) * CHARACTER + 2, 19)
                self.drawn.append(f'<rect x="{x - 1:g}" y="{y - 14}" width="{len(part) * CHARACTER + 2}" height="19" rx="3" class="part"/>')
            for found in re.finditer(r"[^ ]+| ", part):
                at = x + found.start() * CHARACTER
                self.text(at, y, "·" if found[0] == " " else found[0], "dot type" if found[0] == " " else "type")
            column += len(part)
        self.reach(LEFT + column * CHARACTER, y + 8)

    def layers(self):
        """Each crate above those that it stands on."""
        lines = (TOP / "crates.txt").read_text(encoding="utf-8").splitlines()
        below = {}
        for line in lines:
            if line and not line.startswith("#"):
                name, _, others = line.partition(":")
                below[name.split()[0]] = [other for other in others.split() if other.startswith(("crx_", "rnxcmp"))]
        layer = {}
        while len(layer) < len(below):
            layer.update({name: max((layer[o] + 1 for o in others), default=0) for name, others in below.items() if all(o in layer for o in others)})
        under = {name: set(others).union(*(below[o] for o in others)) for name, others in below.items()}
        if missing := [name for name in below if name not in self.crates]:
            raise SystemExit(f"docs/pictures/layers.txt has no line for {', '.join(missing)}")
        highest, places = max(layer.values()), {(self.crates[name][0], layer[name]) for name in below}
        for name in sorted(below, key=lambda name: layer[name]):
            column, texts = self.crates[name]
            self.box(name, column, highest - layer[name], 1, [name, *texts])
        for name, others in below.items():
            for other in others:
                if not any(other in under[between] for between in others if between != other):
                    column, far = self.crates[name][0], layer[name] - layer[other] > 1
                    way = self.elbow if column == self.crates[other][0] else self.corner if (column, layer[name] - 1) in places else self.arrow
                    (way if far else self.arrow)(name, other)

    def charts(self):
        """The bars of all panels, below the names of the series."""
        for index, name in enumerate(self.series):
            x = 20 + NAMES + 130 * index
            self.drawn.append(f'<rect x="{x}" y="20" width="14" height="14" class="bar{index}"/>')
            self.text(x + 22, 32, name)
        for panel, title in enumerate(self.panels):
            left = 20 + NAMES + PANEL * panel
            self.text(left, 66, title, "head")
            greatest = max(float(number) for _, numbers in self.bars for number in numbers[panel])
            for group, (name, numbers) in enumerate(self.bars):
                top = 80 + group * (len(self.series) * BAR + 18)
                if panel == 0:
                    self.text(left - 12, top + len(self.series) * BAR / 2 + 3, name, anchor="end")
                for index, number in enumerate(numbers[panel]):
                    width, y = LONGEST * float(number) / greatest, top + index * BAR
                    self.drawn.append(f'<rect x="{left}" y="{y}" width="{width:.0f}" height="{BAR - 4}" class="bar{index}"/>')
                    self.text(left + round(width) + 8, y + 13, number)
                self.reach(left + LONGEST + 50, top + len(self.series) * BAR)

    def line(self, words, texts):
        if words[0] == "grid":
            self.grid = (int(words[1]), int(words[2]))
        elif words[0] == "box":
            self.box(words[1], float(words[2]), float(words[3]), int(words[4]), [text.strip() for text in texts])
        elif words[0] == "trusted":
            self.box(words[1], float(words[2]), float(words[3]), int(words[4]), [text.strip() for text in texts], "part")
        elif words[0] == "crate":
            self.crates[words[1]] = (float(words[2]), [text.strip() for text in texts])
        elif words[0] == "crates":
            self.layers()
        elif words[0] == "type":
            self.type(float(words[1]), words[2], texts[0])
        elif words[0] == "arrow":
            self.arrow(words[1], words[2])
        elif words[0] == "note":
            x, y = LEFT + float(words[2]) * CHARACTER, 34 + float(words[1]) * ROW
            self.text(x, y, texts[0].strip())
            self.reach(x + 7 * len(texts[0]), y)
        elif words[0] == "panels":
            self.panels = [text.strip() for text in texts]
        elif words[0] == "series":
            self.series = [text.strip() for text in texts]
        elif words[0] == "bars":
            self.bars.append((texts[0].strip(), [text.split() for text in texts[1:]]))
        else:
            raise ValueError(f"no word of a picture: {words[0]}")


def drawing(path):
    picture = Picture()
    for line in path.read_text(encoding="utf-8").splitlines():
        if line.strip() and not line.startswith("#"):
            words, *texts = line.split("|")
            picture.line(words.split(), texts)
    picture.charts()
    size = f'width="{picture.right + 20:g}" height="{picture.bottom + 16:g}"'
    head = f'<svg xmlns="http://www.w3.org/2000/svg" {size}>\n{STYLE}\n<rect {size} fill="#ffffff"/>'
    return "\n".join([head, *picture.drawn, "</svg>", ""])


def main():
    for path in HERE.glob("*.txt"):
        path.with_suffix(".svg").write_text(drawing(path), encoding="utf-8")


if __name__ == "__main__":
    main()
