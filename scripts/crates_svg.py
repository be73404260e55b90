#!/usr/bin/env python3
"""Draws docs/crates.svg from crates.txt: crates_svg.py [--check]

Each crate is a block with its name and the description from its first page. A line leads down to each crate that it uses, except
those that another of these uses too. With --check nothing is written, and the status is 1 if the drawing differs.
"""

import pathlib
import re
import sys
import textwrap
from xml.sax.saxutils import escape

TOP = pathlib.Path(__file__).resolve().parents[1]
PICTURE = TOP / "docs" / "crates.svg"
# a block and the space between two, in pixels; and how many columns and lines of a caption fit into a block
WIDTH, HEIGHT, GAP, RISE, MARGIN = 190, 84, 16, 34, 24
COLUMNS, LINES = 30, 4
COLOURS = {"coff": "#eef7ee", "test": "#f4f4f4", "petool": "#fdf6e3"}
STYLE = "font-family=\"system-ui, -apple-system, 'Segoe UI', Helvetica, Arial, sans-serif\" fill=\"#1a1a1a\" text-anchor=\"middle\""


def all_named():
    """Each crate of crates.txt with the libraries that it names."""
    lines = (line.partition("#")[0].partition(":") for line in (TOP / "crates.txt").read_text().splitlines())
    return {head.split()[0]: libraries.split() for head, colon, libraries in lines if colon}


def crates_below():
    """Each crate of crates.txt with the crates of this repository that it names."""
    named = all_named()
    return {name: [it for it in libraries if it in named] for name, libraries in named.items()}


def all_below(name, below):
    return set(below[name]).union(*(all_below(it, below) for it in below[name]))


def direct(name, below):
    """The crates that a crate uses, without those that another of them uses."""
    return [it for it in below[name] if not any(it in all_below(other, below) for other in below[name])]


def level(name, below):
    """The greatest number of levels of crates below a crate."""
    return 1 + max((level(it, below) for it in below[name]), default=-1)


def rows_of(below):
    """The crates by level, each row in the order of its crates' libraries in the rows below."""
    rows, place = [], {}
    for number in range(max(level(it, below) for it in below) + 1):
        row = [it for it in below if level(it, below) == number]
        row.sort(key=lambda it: (sum(place[low] for low in direct(it, below)) / max(len(direct(it, below)), 1), it))
        place.update({it: (at + 0.5) / len(row) for at, it in enumerate(row)})
        rows.append(row)
    return rows


def caption(name):
    """The description from the first page of a crate, as many of its clauses as fit into a block."""
    source = TOP / "crates" / name / "src"
    text = next(it for it in (source / "lib.rt", source / "main.rt") if it.is_file()).read_text()
    said = " ".join(line[4:] for line in re.match(r"(?:(?://!.*)?\n)*", text)[0].split("\n\n")[0].split("\n") if line.startswith("//! "))
    text = re.sub(r"[`\[\]]", "", re.split(r"\.(?: |$)", said)[0])
    while len(textwrap.wrap(text, COLUMNS)) > LINES and re.search(r"[:;,]", text):
        text = re.match(r"(.*)[:;,]", text)[1]
    return textwrap.wrap(text, COLUMNS, max_lines=LINES, placeholder=" ..")


def colour(name):
    return COLOURS.get(name.partition("_")[0], "#eef3fa")


def block(name, left, top):
    """A crate's block, with its name and its caption."""
    yield f'  <rect x="{left:.0f}" y="{top:.0f}" width="{WIDTH}" height="{HEIGHT}" fill="{colour(name)}" stroke="#444"/>'
    middle = left + WIDTH / 2
    yield f'  <text x="{middle:.0f}" y="{top + 18:.0f}" font-size="14" font-weight="bold">{name}</text>'
    for number, line in enumerate(caption(name)):
        yield f'  <text x="{middle:.0f}" y="{top + 34 + 14 * number:.0f}" font-size="11">{escape(line)}</text>'


def picture():
    below = crates_below()
    rows = rows_of(below)
    width = max(map(len, rows)) * (WIDTH + GAP) - GAP + 2 * MARGIN
    height = len(rows) * (HEIGHT + RISE) - RISE + 2 * MARGIN
    places = {}
    for number, row in enumerate(rows):
        left = (width - len(row) * (WIDTH + GAP) + GAP) / 2
        for at, name in enumerate(row):
            places[name] = left + at * (WIDTH + GAP), height - MARGIN - HEIGHT - number * (HEIGHT + RISE)
    lines = [f'<svg xmlns="http://www.w3.org/2000/svg" viewBox="0 0 {width} {height}" width="{width}" height="{height}" {STYLE}>']
    lines.append("  <title>petool: its crates, and which uses which</title>")
    lines.append(f'  <rect width="{width}" height="{height}" fill="#ffffff"/>')
    for name, (left, top) in places.items():
        for low in direct(name, below):
            x, y = places[low]
            ends = f'x1="{left + WIDTH / 2:.0f}" y1="{top + HEIGHT:.0f}" x2="{x + WIDTH / 2:.0f}" y2="{y:.0f}"'
            lines.append(f'  <line {ends} stroke="#999"/>')
    lines += [line for name, place in places.items() for line in block(name, *place)]
    return "\n".join([*lines, "</svg>", ""])


def main(words):
    if words == ["--check"]:
        same = PICTURE.read_text() == picture()
        print("1 passed, 0 failed" if same else "docs/crates.svg differs from crates.txt\n0 passed, 1 failed")
        return 0 if same else 1
    PICTURE.write_text(picture())
    return 0


if __name__ == "__main__":
    sys.exit(main(sys.argv[1:]))
