#!/usr/bin/env python3
"""Draws the table of docs/PERFORMANCE.md as bars, and writes docs/performance.svg.

usage: bench/plot.py            writes the picture
       bench/plot.py --check    says whether the picture is that of the table; exit status 1 if not

The table is the first whose heading begins with `load`. A row has a bar for each figure, of two
layers, of 17 and of the kernel, on a scale in which each step is ten times the one before.
"""
import html
import math
import re
import sys
from pathlib import Path

DOCS = Path(__file__).resolve().parent.parent / "docs"
TABLE, PICTURE = DOCS / "PERFORMANCE.md", DOCS / "performance.svg"
SERIES = [("two layers", "#4878a8"), ("17 layers", "#88b4d8"), ("kernel", "#b0b0b0")]
LEFT, WIDTH, BAR, GAP, TOP = 150, 620, 10, 8, 46
LEAST, MOST = 10, 10_000_000


def table():
    """The rows of the table: a name, and a figure or none for each of the series."""
    rows = []
    for line in TABLE.read_text().splitlines():
        cells = [cell.strip() for cell in line.strip("|").split("|")]
        if rows and not line.startswith("|"):
            break
        if rows or cells[0] == "load":
            rows.append(cells)
    heading, rows = rows[0], rows[2:]
    columns = [heading.index(name) for name, _ in SERIES]
    return [(label(row), [number(row[column]) for column in columns]) for row in rows]


def label(row):
    """The load's own name."""
    name = re.match(r"`(\w+)`", row[0])
    return name[1] if name else row[0]


def number(cell):
    return int(cell.replace(",", "")) if cell else None


def place(figure):
    """How far from the left a figure is."""
    scale = math.log10(MOST / LEAST)
    return LEFT + WIDTH * math.log10(figure / LEAST) / scale


def text(x, y, what, anchor="start"):
    return f'<text x="{x:.1f}" y="{y:.1f}" text-anchor="{anchor}">{html.escape(what)}</text>'


def axis(bottom):
    """A line for each power of ten, with its figure above."""
    power = LEAST
    while power <= MOST:
        x = place(power)
        yield f'<path d="M{x:.1f} {TOP - 4}V{bottom}" stroke="#dddddd"/>'
        yield text(x, TOP - 8, f"{power:,}", "middle")
        power *= 10


def legend():
    for at, (name, colour) in enumerate(SERIES):
        x = LEFT + at * 120
        yield f'<rect x="{x}" y="8" width="10" height="10" fill="{colour}"/>'
        yield text(x + 15, 17, name)
    yield text(LEFT + WIDTH, 17, "nanoseconds an operation", "end")


def bars(rows):
    y = TOP
    for name, figures in rows:
        there = [pair for pair in zip(figures, SERIES) if pair[0] is not None]
        yield text(LEFT - 8, y + BAR * len(there) / 2 + 4, name, "end")
        for figure, (_, colour) in there:
            width = place(figure) - LEFT
            yield (f'<rect x="{LEFT}" y="{y}" width="{width:.1f}" height="{BAR}"'
                   f' fill="{colour}"/>')
            yield text(LEFT + width + 4, y + BAR, f"{figure:,}")
            y += BAR
        y += GAP


def picture(rows):
    """The whole picture."""
    bars_high = sum(BAR * sum(one is not None for one in figures) + GAP for _, figures in rows)
    high = TOP + bars_high
    parts = [*axis(high), *legend(), *bars(rows)]
    wide = LEFT + WIDTH + 70
    return "\n".join([
        f'<svg xmlns="http://www.w3.org/2000/svg" width="{wide}" height="{high}"'
        f' viewBox="0 0 {wide} {high}" font-family="sans-serif" font-size="9" fill="#333333">',
        f'<rect width="{wide}" height="{high}" fill="white"/>', *parts, "</svg>", ""])


def main(words):
    if words not in ([], ["--check"]):
        sys.exit(__doc__)
    drawn = picture(table())
    if not words:
        PICTURE.write_text(drawn)
    elif not PICTURE.is_file() or PICTURE.read_text() != drawn:
        print("docs/performance.svg: not the table of PERFORMANCE.md; bench/plot.py draws it")
        return 1
    return 0


if __name__ == "__main__":
    sys.exit(main(sys.argv[1:]))
