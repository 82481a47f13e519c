#!/usr/bin/env python3
"""Draws columns of a table that `sim` has put as an SVG picture, each column in a strip of its own.

    python3 examples/plot.py OUT.csv PICTURE.svg [NAME ..]

Without names all columns are drawn but `step`. It needs nothing but Python 3. Each value holds for its step, so the
lines are stairs. The fractions of the table are exact; the picture rounds them."""
import csv
import sys
from fractions import Fraction
from html import escape

LEFT, WIDTH, HEIGHT, GAP = 90, 600, 80, 30  # of a strip, in pixels


def strip(name, values, top, steps):
    """The SVG of one column: its frame, its name, its least and greatest value and its stairs."""
    low, high = min(values), max(values)
    span = (high - low) or 1
    stairs = []
    for step, value in enumerate(values):
        y = top + HEIGHT - HEIGHT * float((value - low) / span)
        stairs += [f"{LEFT + WIDTH * step / steps:.1f},{y:.1f}", f"{LEFT + WIDTH * (step + 1) / steps:.1f},{y:.1f}"]
    return f"""<rect x="{LEFT}" y="{top}" width="{WIDTH}" height="{HEIGHT}" fill="none" stroke="#ccc"/>
<text x="4" y="{top + HEIGHT / 2}">{escape(name)}</text>
<text x="{LEFT - 4}" y="{top + 10}" text-anchor="end">{float(high):.4g}</text>
<text x="{LEFT - 4}" y="{top + HEIGHT}" text-anchor="end">{float(low):.4g}</text>
<polyline points="{' '.join(stairs)}" fill="none" stroke="#05a" stroke-width="2"/>"""


def main(table, picture, names):
    with open(table, newline="") as file:
        records = list(csv.DictReader(file))
    names = names or [name for name in records[0] if name != "step"]
    strips = []
    for place, name in enumerate(names):
        values = [Fraction(record[name]) for record in records if record[name] != ""]
        if values:
            strips.append(strip(name, values, GAP // 2 + place * (HEIGHT + GAP), len(records)))
    height = len(names) * (HEIGHT + GAP)
    with open(picture, "w") as file:
        file.write(f'<svg xmlns="http://www.w3.org/2000/svg" width="{LEFT + WIDTH + 10}" height="{height}"')
        file.write(' font-family="sans-serif" font-size="11">\n' + "\n".join(strips) + "\n</svg>\n")


if __name__ == "__main__":
    if len(sys.argv) < 3:
        sys.exit("usage: plot.py OUT.csv PICTURE.svg [NAME ..]")
    main(sys.argv[1], sys.argv[2], sys.argv[3:])
