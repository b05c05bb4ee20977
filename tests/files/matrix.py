"""The table of docs/FILES.md, each cell, in both directions, over inputs that are standard, not, packed and damaged."""

import gzip
import os
import re

from place import DIRECTIONS, GOOD, KINDS, TOP, Place, Promise, marked

OPTIONS = {"no option": (), "`-s`": ("-s",), "`-f`": ("-f",), "`--verify`": ("--verify",)}
CELL = re.compile(r'(?P<done>[a-z ]+?)(?: and verified|(?P<also> and verified))?(?:: "(?P<said>[^"]*)")?, (?P<status>\d)')


def table():
    """The cells of the table: what is under the output's name and the option, and what is done, said, and the status."""
    page = (TOP / "docs/FILES.md").read_text()
    rows = [[cell.strip() for cell in line.strip("|").split("|")] for line in page[page.index("| Under the output's name") :].split("\n\n")[0].splitlines()]
    for there, *cells in rows[2:]:
        for options, cell in zip(rows[0][1:], cells):
            found = CELL.fullmatch(cell)
            for option in options.split(", or "):
                yield there, option, {"done": found["done"], "verified": "verified" in cell, "said": found["said"] or "", "status": int(found["status"])}


def output_of(texts, direction, content, skip):
    """What an input comes to, unpacked."""
    return texts.filtered(content, direction, *(["-s"] if skip else []))


def put(place, there, texts, direction, source, output, packed, hard):
    """Puts something under the output's name."""
    pack = gzip.compress if packed else bytes
    if there == "this input's output":
        content = place.work.joinpath(source).read_bytes()
        place.write(output, pack(output_of(texts, direction, gzip.decompress(content) if packed else content, True)), 1)
    elif there == "another valid file":
        other = marked(GOOD, 7)
        place.write(output, pack(other if direction == "crx2rnx" else texts.filtered(other, "rnx2crx")))
    elif there == "a damaged file":
        content = GOOD if direction == "crx2rnx" else texts.plain_compact
        place.write(output, pack(content)[:-7] if packed else content[: len(content) // 2])
    elif there == "a folder":
        (place.work / output).mkdir()
    elif there == "a link to the input":
        (os.link if hard else os.symlink)(place.work / source, place.work / output)


def expected(cell, kind, option, there):
    """What is to be expected of an input of a kind: the cell, but for a damaged input."""
    if kind != "damaged" or there in ("a folder", "a link to the input"):
        return cell
    if option != "`-s`":
        return {"done": "left", "verified": False, "said": "ERROR", "status": 1}
    return {**cell, "verified": False, "status": cell["status"] or 2}


def check_cell(texts, direction, kind, there, option, cell, hard=False):
    """What is wrong with one run of the matrix, as lines."""
    packed = ".gz" if kind == "packed" else ""
    source, output = (f"a b{ending}{packed}" for ending in DIRECTIONS[direction])
    content = texts.input(direction, kind)
    with Place() as place:
        place.write(source, gzip.compress(content) if packed else content)
        put(place, there, texts, direction, source, output, packed, hard)
        promise = Promise(texts, direction, place, source, output, option == "`-s`")
        run = place.run(direction, *OPTIONS[option], source)
        said = run.stdout + run.stderr
        wanted = expected(cell, kind, option, there)
        wrong = promise.broken(run.stdout)
        wrong += [] if run.returncode == wanted["status"] else [f"status {run.returncode}, not {wanted['status']}"]
        wrong += [] if wanted["said"] in said else [f"not said: {wanted['said']!r}"]
        done = promise.is_new() and not promise.is_old() if wanted["done"] in ("made", "replaced") else promise.is_old()
        wrong += [] if done else [f"not {wanted['done']}"]
        wrong += [] if wanted["status"] == 1 or wanted["done"] == "left" or f": {wanted['done']} " in run.stdout else [f"not said: {wanted['done']}"]
        form = "normal form" if kind == "not standard" else "exact"
        verified = f"verified {form}\n" in run.stdout
        wrong += [] if verified == wanted["verified"] and (verified or ", verified" not in run.stdout) else [f"verified: {verified}"]
        wrong += [f"left: {place.parts()}"] if place.parts() else []
        wrong += [f"without its name: {line}" for line in run.stderr.splitlines() if not line.startswith(f"'{source}': ")]
        where = f"{direction}, {kind}, {there}, {option}"
        return [f"{where}: {line}" for line in wrong] + ([f"said: {said!r}"] if wrong else [])


def checks(texts):
    cells = list(table())

    def check_row(there):
        jobs = [(direction, kind, *cell, hard) for direction in DIRECTIONS for kind in KINDS for cell in cells if cell[0] == there
                for hard in ((False, True) if there == "a link to the input" else (False,))]
        return [line for job in jobs for line in check_cell(texts, *job)]

    yield "the table is whole", lambda: [] if len(cells) == 24 else [f"{len(cells)} cells"]
    for there in dict.fromkeys(cell[0] for cell in cells):
        yield f"under the output's name: {there}", lambda there=there: check_row(there)
