#!/usr/bin/env python3
"""Draws docs/boundaries.svg: for each rule for pre-releases, a line of versions with the boundaries
of a range.

tools/draw-boundaries.py COMPARE_RANGES > docs/boundaries.svg

The argument is the program compare-ranges, which determines the boundaries.
"""

import json
import subprocess
import sys

RANGE = "^1.2.3-b || 3.x"
ROWS = (
    ("releases", "means"),
    ("pre-releases by default", "means_pre_releases"),
    ("pre-releases, included", "means_pre_releases", "--include-prerelease"),
)
LEFT, STEP, TOP, HIGH = 190, 84, 64, 56


def boundaries(field, *options):
    """Returns the bounds that the program prints, in ascending order: the beginning and end of each
    interval."""
    command = [sys.argv[1], "--dialect", "npm", "--json", *options, RANGE]
    printed = json.loads(subprocess.run(command, capture_output=True, text=True, check=True).stdout)[field]
    bounds = [bound for interval in printed.split(" || ") for bound in interval.split(" ")]
    for at, bound in enumerate(bounds):
        assert bound.startswith(">=" if at % 2 == 0 else "<"), f"{bound} isn't a bound of this kind"
    return [bound.lstrip("<>=") for bound in bounds]


def precedence(version):
    numbers, _, pre_release = version.partition("-")
    identifiers = [(1, it) if not it.isdigit() else (0, int(it)) for it in pre_release.split(".")]
    return [int(it) for it in numbers.split(".")], pre_release == "", identifiers


def text(x, y, words, anchor="middle", size=13):
    words = words.replace("&", "&amp;").replace("<", "&lt;")
    return f'<text x="{x}" y="{y}" text-anchor="{anchor}" font-size="{size}">{words}</text>'


def line(x, y, to, color, width):
    return f'<line x1="{x}" y1="{y}" x2="{to}" y2="{y}" stroke="{color}" stroke-width="{width}"/>'


def row(y, name, found, at, end):
    """Returns the elements of one row: its name, the line, the intervals on it, and a circle at
    each boundary."""
    parts = [text(10, y + 5, name, "start"), line(LEFT, y, end, "#999", 1)]
    parts += [line(at[start], y, at[stop], "#1f6f8b", 7) for start, stop in zip(found[::2], found[1::2])]
    fills = ["#1f6f8b", "#fff"] * (len(found) // 2)
    parts += [
        f'<circle cx="{at[it]}" cy="{y}" r="7" fill="{fill}" stroke="#1f6f8b" stroke-width="2"/>' for it, fill in zip(found, fills)
    ]
    return parts


def drawn():
    rows = [(name, boundaries(*arguments)) for name, *arguments in ROWS]
    axis = sorted({it for _, found in rows for it in found}, key=precedence)
    at = {it: LEFT + STEP * (place + 1) for place, it in enumerate(axis)}
    end, low = LEFT + STEP * (len(axis) + 1), TOP + HIGH * len(rows)
    parts = ['<rect width="100%" height="100%" fill="#fff"/>']
    parts.append(text(10, 26, f"The versions that npm finds in {RANGE} (thick), and their boundaries", "start", 15))
    for it in axis:
        dashes = f'x1="{at[it]}" y1="{TOP - 16}" x2="{at[it]}" y2="{low - 22}"'
        parts += [f'<line {dashes} stroke="#bbb" stroke-dasharray="2 4"/>', text(at[it], low, it)]
    for place, (name, found) in enumerate(rows):
        parts += row(TOP + HIGH * place + 8, name, found, at, end)
    size = f'width="{end + 20}" height="{low + 20}" viewBox="0 0 {end + 20} {low + 20}"'
    body = "\n".join(parts)
    return f'<svg xmlns="http://www.w3.org/2000/svg" {size} font-family="sans-serif">\n{body}\n</svg>\n'


sys.stdout.write(drawn())
