#!/usr/bin/env python3
"""Draws docs/beside-libbpf.svg from docs/beside-libbpf.tsv, the table that beside_libbpf.py leaves: for each input libbpf's
time and ours, one above the other, on a logarithmic scale.
usage: plot.py
"""
import math
from html import escape
from pathlib import Path

DOCS = Path(__file__).parents[1] / "docs"
TABLE = DOCS / "beside-libbpf.tsv"
PLOT = DOCS / "beside-libbpf.svg"

# Places and sizes in pixels: names to the left of LEFT, a decade of time is DECADE wide, a row of two bars ROW high.
LEFT, DECADE, ROW, BAR, TOP = 330, 110, 30, 11, 46
FIRST, LAST = 3, 7
THEIRS, OURS = "#9aa5b1", "#2166ac"


def rows():
    for line in TABLE.read_text().splitlines()[1:]:
        name, _, theirs, ours = line.split("\t")
        if "None" not in (theirs, ours):
            yield name, int(theirs), int(ours)


def place(microseconds):
    """How far to the right a time lies."""
    return LEFT + DECADE * (math.log10(max(microseconds, 10**FIRST)) - FIRST)


def text(x, y, words, anchor="start"):
    return f'<text x="{x:.0f}" y="{y:.0f}" text-anchor="{anchor}">{escape(words)}</text>'


def bar(y, microseconds, colour):
    width = max(place(microseconds) - LEFT, 1)
    said = f"{microseconds / 1000:,.1f} ms"
    return f'<rect x="{LEFT}" y="{y}" width="{width:.0f}" height="{BAR}" fill="{colour}"/>' + text(LEFT + width + 4, y + 9, said)


def lines():
    measured = list(rows())
    width, height = LEFT + DECADE * (LAST - FIRST) + 70, TOP + ROW * len(measured) + 10
    yield f'<svg xmlns="http://www.w3.org/2000/svg" width="{width}" height="{height}" font-family="sans-serif" font-size="10">'
    yield f'<rect width="{width}" height="{height}" fill="white"/>'
    for number, (name, colour) in enumerate([("libbpf", THEIRS), ("ebpf-object", OURS)]):
        yield f'<rect x="{LEFT + 90 * number}" y="8" width="{BAR}" height="{BAR}" fill="{colour}"/>' + text(LEFT + 90 * number + 15, 17, name)
    for decade in range(FIRST, LAST + 1):
        x = place(10**decade)
        yield f'<line x1="{x:.0f}" y1="{TOP - 8}" x2="{x:.0f}" y2="{height}" stroke="#dddddd"/>' + text(x, TOP - 12, f"{10**decade // 1000:,} ms", "middle")
    for number, (name, theirs, ours) in enumerate(measured):
        y = TOP + ROW * number
        yield text(LEFT - 8, y + 15, name, "end")
        yield bar(y, theirs, THEIRS)
        yield bar(y + BAR + 2, ours, OURS)
    yield "</svg>"


if __name__ == "__main__":
    PLOT.write_text("\n".join(lines()) + "\n")
