#!/usr/bin/env python3
"""Draws what `beyond.sh` printed of one size as a chart of bars, an SVG on standard output.

    beyond.sh PROGRAM --sizes 1000000 > round1
    large_chart.py round1 round2 > docs/pictures/million.svg

A group of bars for each shape of book: seconds of the processor, the least of all rounds. The native program's are those
of ours by the ratio that stands beside them.
"""

from __future__ import annotations

import argparse
import math
import pathlib
import re
from collections.abc import Iterator

from chart import BAR, GAP, LEFT, RIGHT, SHAPES, TOP, WIDTH, words

# what beyond.sh calls a run and whose it is, what it is, and its colour
RUNS = {
    ("file", "ours"): ("replies, herdbook (proved)", "#0f6e8c"),
    ("file", "native"): ("replies, native program", "#8fb8c6"),
    ("list", "ours"): ("list of all coefficients, herdbook (proved, exact)", "#2f7d4f"),
    ("list", "native"): ("list, native program of the same method", "#a9cdb6"),
    ("certificate", "ours"): ("certificate of one animal, herdbook (proved, exact)", "#c9a45c"),
}
LINE = re.compile(r"  (\w+) +cpu +([\d.]+) s  clock .* MB +([\d.]+) \(")
Times = dict[tuple[str, str, str], float]


def times(rounds: list[str]) -> Times:
    """The least seconds by shape, run and whose it is."""
    least: Times = {}

    def note(shape: str, run: str, whose: str, seconds: float) -> None:
        if (run, whose) in RUNS:
            least[shape, run, whose] = min(least.get((shape, run, whose), math.inf), seconds)

    for text in rounds:
        shape = ""
        for line in text.splitlines():
            if titled := re.match(r"(\w+), [\d,]+ animals", line):
                shape = titled[1]
            elif found := LINE.match(line):
                run, seconds, ratio = found[1], float(found[2]), float(found[3])
                note(shape, run, "ours", seconds)
                note(shape, run, "native", seconds / ratio)
    return least


def bars(least: Times, shape: str, y: float, most: float) -> Iterator[str]:
    yield words(LEFT - 12, y + BAR * len(RUNS) / 2 + 5, SHAPES[shape], ' text-anchor="end"')
    for at, ((run, whose), (_, colour)) in enumerate(RUNS.items()):
        seconds, top = least[shape, run, whose], y + at * BAR
        length = (WIDTH - RIGHT - LEFT) * seconds / most
        yield f'<rect x="{LEFT}" y="{top:.0f}" width="{length:.0f}" height="{BAR - 2}" fill="{colour}"/>'
        yield words(LEFT + length + 6, top + BAR - 3, f"{seconds:.2f} s")


def legend() -> Iterator[str]:
    for at, (text, colour) in enumerate(RUNS.values()):
        x, y = 24 + at % 2 * 400, 46 + at // 2 * 20
        yield f'<rect x="{x}" y="{y}" width="14" height="14" fill="{colour}"/>'
        yield words(x + 22, y + 12, text)


def said(least: Times, shapes: list[str]) -> str:
    """The chart in words, for those who don't see it."""
    return "; ".join(
        f"{SHAPES[shape]}: "
        + ", ".join(f"{text} {least[shape, *run]:.2f} s" for run, (text, _) in RUNS.items())
        for shape in shapes
    )


def chart(least: Times) -> str:
    shapes = [shape for shape in SHAPES if (shape, "list", "ours") in least]
    height, most = len(RUNS) * BAR + GAP, max(least.values())
    bottom = TOP + len(shapes) * height
    drawn = [it for at, shape in enumerate(shapes) for it in bars(least, shape, TOP + at * height, most)]
    title = "A million animals: seconds of the processor, whole runs"
    return "\n".join(
        [
            f'<svg xmlns="http://www.w3.org/2000/svg" viewBox="0 0 {WIDTH} {bottom + 10}" width="{WIDTH}" '
            f'height="{bottom + 10}" font-family="Arial, \'Liberation Sans\', \'DejaVu Sans\', sans-serif" '
            f'role="img" aria-labelledby="title text">',
            f'<title id="title">{title}</title>',
            f'<desc id="text">{said(least, shapes)}</desc>',
            f'<rect width="{WIDTH}" height="{bottom + 10}" fill="#ffffff"/>',
            f'<text x="24" y="30" fill="#1d2733" font-size="18" font-weight="bold">{title}</text>',
            *legend(),
            *drawn,
            "</svg>",
        ]
    )


def main() -> None:
    parser = argparse.ArgumentParser(description=__doc__, formatter_class=argparse.RawDescriptionHelpFormatter)
    parser.add_argument("round", nargs="+", type=pathlib.Path, help="what beyond.sh printed")
    print(chart(times([path.read_text(encoding="utf-8") for path in parser.parse_args().round])))


if __name__ == "__main__":
    main()
