#!/usr/bin/env python3
"""Shows the state of an archive on one page: a row for each station, a column for each day, a coloured square for each file.

    find archive -type f -print0 | rnxcmp-file check --json --inputs - | archive_page.py > archive.html
    find archive -name '*.rnx' -print0 | rnxcmp-file rnx2crx --verify --json --inputs - | archive_page.py --text

It reads the JSON lines of `rnxcmp-file` and writes one HTML file without scripts, fonts or links to other places. With --text it prints the
same as text, a letter for each file. Station and day are read from the file's name: ssssdddf.yyt, or SSSSMRCCC_S_YYYYDDDHHMM_...
"""

import argparse
import collections
import datetime
import html
import json
import os
import re
import sys

# The states of a file, from bad to good: letter, colour and words. A square shows the worst state of its files.
STATES = {
    "error": ("X", "#d62728", "error"),
    "cut": ("c", "#ff7f0e", "may be cut off"),
    "skipped": ("s", "#ffbb33", "epochs skipped"),
    "made": (".", "#c7e9c0", "not verified"),
    "good": ("#", "#2ca02c", "good"),
}
ORDER = list(STATES)
TO_LOOK_AT = ORDER[:3]
SIDE, LEFT, TOP = 12, 96, 32  # of the picture, in pixels: a square with its margin, the names, the days
STYLE = """body { font: 14px sans-serif; margin: 1.5em }
td { padding: 1px 8px; vertical-align: top } td:first-child { white-space: nowrap } tr:target { background: #ffd }
span { display: inline-block; width: 12px; height: 12px; margin: 0 4px -1px 16px } span:first-child { margin-left: 0 }"""


def station_and_day(name):
    """Returns the station and the day in a file's name, or its folder and None if the name has neither."""
    base = os.path.basename(name)
    if found := re.match(r"([A-Z0-9]{9})_[A-Z]_(\d{4})(\d{3})", base):
        station, year, day = found[1], int(found[2]), int(found[3])
    elif found := re.match(r"(\w{4})(\d{3})[0-9a-x]\.(\d{2})[od]", base, re.IGNORECASE):
        station, year, day = found[1].upper(), int(found[3]), int(found[2])
        year += 1900 if year >= 80 else 2000
    else:
        return os.path.dirname(name) or ".", None
    return station, datetime.date(year, 1, 1) + datetime.timedelta(day - 1) if 0 < day < 367 else None


def state_of(file):
    if file.get("error"):
        return "error"
    if file.get("may_be_cut_off"):
        return "cut"
    if file.get("skipped"):
        return "skipped"
    return "made" if file.get("output") and not file.get("verified") else "good"


def worst(files):
    return min((state_of(file) for file in files), key=ORDER.index)


def words_of(file):
    return file.get("error") or STATES[state_of(file)][2]


class Archive:
    """The files by station and day."""

    def __init__(self, lines):
        self.cells, self.others, self.counts = collections.defaultdict(list), [], collections.Counter()
        for line in lines:
            file = json.loads(line)
            self.counts[state_of(file)] += 1
            station, day = station_and_day(file["input"])
            (self.cells[station, day] if day else self.others).append(file)
        days = sorted({day for _, day in self.cells})
        self.stations = sorted({station for station, _ in self.cells})
        self.days = [days[0] + datetime.timedelta(k) for k in range((days[-1] - days[0]).days + 1)] if days else []

    def count(self, station):
        """Returns the number of days on which a station has a file."""
        return sum((station, day) in self.cells for day in self.days)

    def summary(self):
        return "; ".join(f"{self.counts[state]} {words}" for state, (_, _, words) in STATES.items() if self.counts[state])

    def to_look_at(self):
        """Returns the files that aren't good, each with its station and its day."""
        found = [(station, day, file) for (station, day), files in sorted(self.cells.items()) for file in files]
        found += [("", "", file) for file in self.others]
        return [row for row in found if state_of(row[2]) in TO_LOOK_AT]


def as_text(archive):
    """Returns the page as text."""
    ends = f"{archive.days[0]} to {archive.days[-1]}" if archive.days else ""
    lines = [" " * 10 + "".join("|" if day.day == 1 else " " for day in archive.days) + f"  {ends}"]
    for station in archive.stations:
        cells = [archive.cells.get((station, day)) for day in archive.days]
        row = "".join(STATES[worst(files)][0] if files else " " for files in cells)
        lines.append(f"{station:10}{row}  {archive.count(station)} of {len(archive.days)}")
    lines += [f"{words_of(file)}: {file['input']}" for _, _, file in archive.to_look_at()]
    key = "  ".join(f"{letter} {words}" for letter, _, words in STATES.values())
    return "\n".join([*lines, archive.summary(), f"{key}  blank: no file"]) + "\n"


def square(archive, station, day, x, y):
    """Returns the square of a station's day, with a text that a browser shows beside the pointer."""
    files = archive.cells.get((station, day))
    if not files:
        title = f"{station} {day}: no file"
        return f'<rect x="{x + 0.5}" y="{y + 0.5}" width="9" height="9" fill="none" stroke="#bbb"><title>{html.escape(title)}</title></rect>'
    title = "\n".join([f"{station} {day}", *(f"{os.path.basename(file['input'])}: {words_of(file)}" for file in files[:6])])
    made = f'<rect x="{x}" y="{y}" width="10" height="10" fill="{STATES[worst(files)][1]}"><title>{html.escape(title)}</title></rect>'
    return f'<a href="#{html.escape(station)}-{day}">{made}</a>' if worst(files) in TO_LOOK_AT else made


def picture(archive):
    """Returns the stations and days as SVG."""
    width, height = LEFT + SIDE * len(archive.days) + 90, TOP + SIDE * len(archive.stations) + 6
    made = [f'<svg xmlns="http://www.w3.org/2000/svg" width="{width}" height="{height}" font-family="sans-serif" font-size="11">']
    for k, day in enumerate(archive.days):
        if day.day == 1 or k == 0:
            made.append(f'<text x="{LEFT + SIDE * k}" y="12">{day:%Y-%m}</text>')
        if day.day in (1, 11, 21):
            made.append(f'<text x="{LEFT + SIDE * k}" y="26" fill="#666">{day.day}</text>')
    for row, station in enumerate(archive.stations):
        y = TOP + SIDE * row
        made.append(f'<text x="{LEFT - 6}" y="{y + 9}" text-anchor="end">{html.escape(station)}</text>')
        made += [square(archive, station, day, LEFT + SIDE * k, y) for k, day in enumerate(archive.days)]
        made.append(f'<text x="{width - 84}" y="{y + 9}" fill="#666">{archive.count(station)} of {len(archive.days)}</text>')
    return "\n".join([*made, "</svg>"])


def as_page(archive):
    """Returns the page as HTML."""
    key = "\n".join(
        f'<span style="background:{colour}"></span>{words}: {archive.counts[state]}'
        for state, (_, colour, words) in STATES.items()
        if archive.counts[state]
    )
    rows = [
        f'<tr id="{html.escape(station)}-{day}"><td>{html.escape(station)} {day}<td><code>{html.escape(file["input"])}</code><td>{html.escape(words_of(file))}'
        for station, day, file in archive.to_look_at()
    ]
    count = sum(archive.counts.values())
    return f"""<!doctype html>
<meta charset="utf-8">
<title>Archive</title>
<style>{STYLE}</style>
<h1>Archive: {len(archive.stations)} stations, {len(archive.days)} days, {count} files</h1>
<p>{key}
<span style="border: 1px solid #bbb; width: 10px; height: 10px"></span>a day without a file</p>
{picture(archive)}
<h2>{len(rows)} files to look at</h2>
<table>
{chr(10).join(rows)}
</table>
"""


def main():
    parser = argparse.ArgumentParser(description=__doc__, formatter_class=argparse.RawDescriptionHelpFormatter)
    parser.add_argument("--text", action="store_true", help="print text instead of HTML")
    words = parser.parse_args()
    archive = Archive(line for line in sys.stdin if line.strip())
    sys.stdout.reconfigure(encoding="utf-8", errors="replace")  # a name may have any bytes
    sys.stdout.write(as_text(archive) if words.text else as_page(archive))
    return 0


if __name__ == "__main__":
    sys.exit(main())
