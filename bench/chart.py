#!/usr/bin/env python3
"""Draws what `bench.sh` printed as a chart of bars, an SVG on standard output.

    bench.sh PROGRAM --sizes 60000 --shapes narrow,dairy,broad,deep,fullsib,pairs --skip file
             --against exact-breed,exact-colleau-lists,f64-hybrid > round1
    chart.py round1 round2 > docs/pictures/times.svg

A group of bars for each shape of book: processor time of whole runs, the least of all rounds, on a scale of powers
of ten.
"""

from __future__ import annotations

import argparse
import math
import pathlib
import re
from collections.abc import Iterator
from html import escape

# what bench.sh calls a program, what it is, and its colour
PROGRAMS = {
    "program": ("herdbook (proved, exact)", "#0f6e8c"),
    "exact-colleau-lists": ("native program, same method (exact)", "#8fb8c6"),
    "f64-hybrid": ("native program, best in doubles (rounded)", "#c9a45c"),
    "exact-breed": ("native program, tracing each animal (exact)", "#b9bec6"),
}
SHAPES = {
    "narrow": "closed breed",
    "dairy": "few sires",
    "broad": "many sires",
    "deep": "60 generations",
    "fullsib": "full sibs",
    "pairs": "worst book",
}
LEFT, TOP, BAR, GAP, WIDTH, RIGHT = 150, 120, 15, 16, 860, 90
LEAST, MOST = 10.0, 10000.0

Times = dict[tuple[str, str], float]


def times(rounds: list[str]) -> Times:
    """The least milliseconds of processor by shape and program."""
    least: Times = {}
    for text in rounds:
        shape = ""
        for line in text.splitlines():
            if titled := re.match(r"(\w+), [\d,]+ animals", line):
                shape = titled[1]
            elif timed := re.match(r"  (\S+) +cpu +([\d.]+) ms", line):
                key = shape, timed[1]
                least[key] = min(least.get(key, math.inf), float(timed[2]))
    return least


def place(milliseconds: float) -> float:
    """Where a time stands on the scale, in units of the picture."""
    return LEFT + (WIDTH - RIGHT - LEFT) * math.log10(milliseconds / LEAST) / math.log10(MOST / LEAST)


def words(x: float, y: float, text: str, more: str = "") -> str:
    return f'<text x="{x:.0f}" y="{y:.0f}" fill="#1d2733" font-size="13"{more}>{escape(text)}</text>'


def shown(milliseconds: float) -> str:
    return f"{milliseconds:.0f} ms" if milliseconds < 1000 else f"{milliseconds / 1000:.1f} s"


def legend() -> Iterator[str]:
    for at, (text, colour) in enumerate(PROGRAMS.values()):
        x, y = 24 + at % 2 * 330, 52 + at // 2 * 22
        yield f'<rect x="{x}" y="{y}" width="14" height="14" fill="{colour}"/>'
        yield words(x + 22, y + 12, text)


def scale(bottom: float) -> Iterator[str]:
    for power in range(1, 5):
        x = place(10.0**power)
        yield f'<path d="M{x:.0f} {TOP - 8}V{bottom:.0f}" stroke="#d8dde3"/>'
        yield words(x, bottom + 18, shown(10.0**power), ' text-anchor="middle"')


def bars(least: Times, shape: str, y: float) -> Iterator[str]:
    yield words(LEFT - 12, y + BAR * len(PROGRAMS) / 2 + 5, SHAPES[shape], ' text-anchor="end"')
    for at, (program, (_, colour)) in enumerate(PROGRAMS.items()):
        time, top = least[shape, program], y + at * BAR
        length = place(time) - LEFT
        yield f'<rect x="{LEFT}" y="{top:.0f}" width="{length:.0f}" height="{BAR - 2}" fill="{colour}"/>'
        yield words(LEFT + length + 6, top + BAR - 3, shown(time))


def said(least: Times) -> str:
    """The chart in words, for those who don't see it."""
    rows = (
        f"{SHAPES[shape]}: " + ", ".join(f"{text} {shown(least[shape, it])}" for it, (text, _) in PROGRAMS.items())
        for shape in SHAPES
    )
    return "; ".join(rows)


def chart(least: Times) -> str:
    height = len(PROGRAMS) * BAR + GAP
    bottom = TOP + len(SHAPES) * height
    drawn = [it for at, shape in enumerate(SHAPES) for it in bars(least, shape, TOP + at * height)]
    title = "Listing 60,000 coefficients: processor time of whole runs"
    return "\n".join(
        [
            f'<svg xmlns="http://www.w3.org/2000/svg" viewBox="0 0 {WIDTH} {bottom + 30}" width="{WIDTH}" '
            f'height="{bottom + 30}" font-family="Arial, \'Liberation Sans\', \'DejaVu Sans\', sans-serif" '
            f'role="img" aria-labelledby="title text">',
            f'<title id="title">{title}</title>',
            f'<desc id="text">{escape(said(least))}</desc>',
            f'<rect width="{WIDTH}" height="{bottom + 30}" fill="#ffffff"/>',
            f'<text x="24" y="32" fill="#1d2733" font-size="18" font-weight="bold">{title}</text>',
            *legend(),
            *scale(bottom),
            *drawn,
            "</svg>",
        ]
    )


def main() -> None:
    parser = argparse.ArgumentParser(description=__doc__, formatter_class=argparse.RawDescriptionHelpFormatter)
    parser.add_argument("round", nargs="+", type=pathlib.Path, help="what bench.sh printed")
    print(chart(times([path.read_text(encoding="utf-8") for path in parser.parse_args().round])))


if __name__ == "__main__":
    main()
