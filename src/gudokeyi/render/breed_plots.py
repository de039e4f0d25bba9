"""Plots of a breed's state as pictures that can be read in black and white: lines differ in their dashes and dots."""
from __future__ import annotations

import itertools
import math
from collections.abc import Collection, Sequence
from dataclasses import dataclass

from gudokeyi.render.drawing import GREY, INBRED_INK, INK, PAPER, escape, text_at

WIDTH, HEIGHT = 860, 320
LEFT, RIGHT, TOP, BOTTOM = 70, 20, 50, 44
BARS = "#c3d0dd"


@dataclass(frozen=True)
class Line:
    """A line of a plot: its name, its values by place, and how it is drawn. It is interrupted where there is none."""

    name: str
    values: Sequence[float | None]
    colour: str = INK
    dashes: str = ""
    is_filled: bool = True


def scale_end(value: float) -> float:
    """The end of a scale of four steps, each a round number."""
    step = max(value, 1e-6) / 4
    unit = 10.0 ** math.floor(math.log10(step))
    return 4 * next(part * unit for part in (1, 2, 2.5, 5, 10) if part * unit >= step * 0.999999)


def x_of(place: int, count: int) -> float:
    return LEFT + (place + 0.5) * (WIDTH - LEFT - RIGHT) / count


def y_of(part: float) -> float:
    return HEIGHT - BOTTOM - part * (HEIGHT - TOP - BOTTOM)


def line_plot(title: str, names: Sequence[str], lines: Sequence[Line], unit: str) -> str:
    """Lines over the same places, each with its name."""
    most = scale_end(max(value for line in lines for value in line.values if value is not None))
    parts = frame(title, names, most, unit)
    for at, line in enumerate(lines):
        for is_there, part in itertools.groupby(enumerate(line.values), lambda one: one[1] is not None):
            if is_there:
                points = [(x_of(place, len(names)), y_of((value or 0) / most)) for place, value in part]
                parts.append(drawn(line, points))
        parts += [text_at(LEFT + 40 + 260 * at, 42, line.name, line.colour, 14)]
        parts.append(drawn(line, [(LEFT + 4 + 260 * at, 37), (LEFT + 34 + 260 * at, 37)]))
    return picture(title, parts)


def drawn(line: Line, points: list[tuple[float, float]]) -> str:
    path = " ".join(f"{x:.1f},{y:.1f}" for x, y in points)
    dashes = f' stroke-dasharray="{line.dashes}"' if line.dashes else ""
    fill = line.colour if line.is_filled else PAPER
    dots = "".join(f'<circle cx="{x:.1f}" cy="{y:.1f}" r="3" fill="{fill}" stroke="{line.colour}"/>' for x, y in points)
    return f'<polyline points="{path}" fill="none" stroke="{line.colour}" stroke-width="2"{dashes}/>{dots}'


def bar_plot(
    title: str, names: Sequence[str], values: Sequence[float], unit: str, light: Collection[int] = ()
) -> str:
    """Bars over places, those of some lighter; none over a place with nothing."""
    most = scale_end(max(values))
    parts = frame(title, names, most, unit)
    width = max(1.0, 0.7 * (WIDTH - LEFT - RIGHT) / len(names))
    for place, value in enumerate(values):
        if not value:
            continue
        x, y = x_of(place, len(names)), y_of(value / most)
        tip = f"<title>{escape(f'{names[place]}: {value:.4g}{unit}')}</title>"
        size = f'x="{x - width / 2:.1f}" y="{y:.1f}" width="{width:.1f}" height="{y_of(0) - y:.1f}"'
        parts.append(f'<rect {size} fill="{PAPER if place in light else BARS}" stroke="{GREY}">{tip}</rect>')
    return picture(title, parts)


def frame(title: str, names: Sequence[str], most: float, unit: str) -> list[str]:
    """The title, the scale, and as many names of places as have room."""
    parts = [text_at(LEFT, 20, title, INK, 16, weight="bold")]
    for at in range(5):
        height = y_of(at / 4)
        parts.append(f'<line x1="{LEFT}" y1="{height:.1f}" x2="{WIDTH - RIGHT}" y2="{height:.1f}" stroke="#dfe3e8"/>')
        parts.append(text_at(LEFT - 8, height + 5, f"{most * at / 4:.4g}{unit}", GREY, 13, "end"))
    apart = next(one for one in (1, 2, 5, 10, 20, 50, 100) if one * (WIDTH - LEFT - RIGHT) / len(names) >= 42)
    for place in range(0, len(names), apart):
        parts.append(text_at(x_of(place, len(names)), HEIGHT - BOTTOM + 22, names[place], INK, 13, "middle"))
    return parts


def picture(title: str, parts: list[str]) -> str:
    """A picture within a page, with its title for those who don't see it."""
    look = f'viewBox="0 0 {WIDTH} {HEIGHT}" role="img" aria-label="{escape(title)}"'
    return f'<svg xmlns="http://www.w3.org/2000/svg" {look}>{"".join(parts)}</svg>'


INBREEDING = INBRED_INK
