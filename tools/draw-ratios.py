#!/usr/bin/env python3
"""Draws docs/ratios.svg from the tables of docs/SPEED.md: for each row whose texts `semver` reads in
full, the time here relative to the Rust crates `semver-parser` and `semver`.

tools/draw-ratios.py > docs/ratios.svg

A bar begins at 1 on a logarithmic axis: to the left the call here is faster, and to the right it is
slower. tests/documents.py compares the picture with what this prints.
"""

import math
import os
import re
import sys

TOP = os.path.dirname(os.path.dirname(os.path.abspath(__file__)))
HEAD = ("ns a string", "here", "`semver-parser`", "`semver`", "ratio to `semver-parser`", "ratio to `semver`", "`semver` reads")
CRATES = (("semver-parser", "#33668c"), ("semver", "#cc7733"))
TICKS = (0.1, 0.2, 0.5, 1, 2, 3)
FIRST, LAST = 0.08, 3.8

# Where the axis begins and ends, and where the first row is, in pixels.
LEFT, RIGHT, TOP_OF_ROWS = 390, 880, 62
ROW, BAR = 36, 14


def rows_in(page):
    """Yields the name of each row that `semver` reads in full, and its ratios: None if the crate
    doesn't have the call."""
    inside = False
    for line in page.splitlines():
        cells = tuple(cell.strip() for cell in line.split("|")[1:-1])
        inside = cells == HEAD or inside and bool(cells)
        read = re.fullmatch(r"([\d,]+|all) of ([\d,]+)", cells[-1]) if inside else None
        if read and read[1] in ("all", read[2]):
            yield cells[0], [None if it == "none" else float(it) for it in cells[4:6]]


def spans_in(page):
    """Returns the lowest and the highest ratio of the picture to each crate, as the page writes
    them."""
    columns = zip(*(ratios for _, ratios in rows_in(page)))
    known = [[it for it in column if it is not None] for column in columns]
    return [(f"{min(column):.2f}", f"{max(column):.2f}") for column in known]


def across(ratio):
    """Returns where a ratio is on the axis."""
    assert FIRST < ratio < LAST, f"{ratio} isn't on the axis"
    return LEFT + (RIGHT - LEFT) * math.log(ratio / FIRST) / math.log(LAST / FIRST)


def text(x, y, words, anchor="start", weight="normal"):
    return f'<text x="{x:.1f}" y="{y:.1f}" text-anchor="{anchor}" font-weight="{weight}">{words}</text>'


def bar(ratio, top, color):
    """Returns a bar from 1 to a ratio, and the ratio next to its end."""
    one, end = across(1), across(ratio)
    is_faster = ratio < 1
    words = text(end - 4 if is_faster else end + 4, top + BAR - 3, f"{ratio:.2f}", "end" if is_faster else "start")
    return f'<rect x="{min(one, end):.1f}" y="{top}" width="{abs(one - end):.1f}" height="{BAR}" fill="{color}"/>{words}'


def picture(page):
    rows = list(rows_in(page))
    bottom = TOP_OF_ROWS + ROW * len(rows)
    title = "Time of a call here, relative to the Rust crates (below 1 is faster here)"
    lines = [
        f'<svg xmlns="http://www.w3.org/2000/svg" width="920" height="{bottom + 64}" font-family="sans-serif" font-size="13">',
        f"<title>{title}</title>",
        f'<rect width="920" height="{bottom + 64}" fill="#ffffff"/>',
        text(460, 24, title, "middle", "bold"),
    ]
    for tick in TICKS:
        x, color = across(tick), "#555555" if tick == 1 else "#dddddd"
        lines.append(f'<line x1="{x:.1f}" y1="{TOP_OF_ROWS - 14}" x2="{x:.1f}" y2="{bottom}" stroke="{color}"/>')
        lines.append(text(x, bottom + 18, f"{tick:g}", "middle"))
    for number, (name, ratios) in enumerate(rows):
        top = TOP_OF_ROWS + ROW * number
        lines.append(text(LEFT - 12, top + 14, name, "end"))
        known = [(ratio, color) for ratio, (_, color) in zip(ratios, CRATES) if ratio is not None]
        for at, (ratio, color) in enumerate(known):
            lines.append(bar(ratio, top - 4 + (BAR + 1) * at if len(known) > 1 else top + 3, color))
    for number, (crate, color) in enumerate(CRATES):
        x = LEFT + 120 * number
        lines.append(f'<rect x="{x}" y="{bottom + 34}" width="{BAR}" height="{BAR}" fill="{color}"/>')
        lines.append(text(x + BAR + 6, bottom + 46, crate))
    return "\n".join([*lines, "</svg>", ""])


def main():
    with open(os.path.join(TOP, "docs/SPEED.md"), encoding="utf-8") as file:
        sys.stdout.write(picture(file.read()))


if __name__ == "__main__":
    main()
