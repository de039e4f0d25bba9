"""A picture of the mean coefficient of inbreeding by birth year, with how many animals each year has."""
from __future__ import annotations

import math
from collections.abc import Callable, Mapping, Sequence

from gudokeyi.domain.decimals import percent
from gudokeyi.domain.messages import Mistake
from gudokeyi.render.drawing import GREY, INBRED_INK, INK, PAPER, escape, svg, text_at
from gudokeyi.render.languages import Language
from gudokeyi.services.trends import TrendYear, trend_of
from gudokeyi.store.book import Book
from gudokeyi.store.coefficients import Coefficient

WIDTH, HEIGHT = 1000, 520
LEFT, RIGHT, TOP, BOTTOM = 70, 70, 84, 92
BARS = "#d5dfe9"
# how many animals are drawn, and how many aren't
BY_YEAR = "{} animal by birth year", "{} animals by birth year"
NO_YEAR = (
    "; {} more has no known birth year and isn't drawn", "; {} more have no known birth year and aren't drawn",
)  # fmt: skip


def scale_for(value: float, least: float, steps: tuple[float, ...]) -> float:
    """The end of a scale of four steps, each a round number: one of these times a power of ten."""
    step = max(value, least) / 4
    unit = 10.0 ** math.floor(math.log10(step))
    return 4 * next(part * unit for part in steps if part * unit >= step * 0.999999)


def trend_picture(book: Book, coefficients: Mapping[str, Coefficient], language: Language) -> str:
    trend = trend_of(book, coefficients)
    years = trend.years
    if not years:
        raise Mistake(
            "no animal of the book has a known birth year, so there is no trend to draw: take a sheet with birth days"
        )
    first, last = years[0].year, years[-1].year
    step = (WIDTH - LEFT - RIGHT) / (last - first + 1)
    most_percent = scale_for(float(max(year.mean for year in years)) * 100, 0.04, (1, 1.5, 2, 2.5, 3, 4, 5, 6, 8, 10))
    most_animals = scale_for(max(year.animals for year in years), 4, (1, 2, 3, 4, 5, 6, 8, 10))

    def x(year: int) -> float:
        return LEFT + (year - first + 0.5) * step

    parts = axes(most_percent, most_animals, language)
    for year in years:
        parts.append(bar(year, x(year.year), y_of(year.animals / most_animals), y_of(0), step, language))
    parts += year_names(first, last, x, step)
    at = {year.year: (x(year.year), y_of(float(year.mean) * 100 / most_percent)) for year in years}
    parts += curve(years, at, language)
    return picture(parts, sum(year.animals for year in years), trend.without_year, language)


def y_of(part: float) -> float:
    """How far down a part of a scale stands, 0 for its beginning and 1 for its end."""
    return HEIGHT - BOTTOM - part * (HEIGHT - TOP - BOTTOM)


def curve(years: Sequence[TrendYear], at: dict[int, tuple[float, float]], language: Language) -> list[str]:
    """The means, with a line between two years of which one follows the other."""
    lines, dots = [], []
    for one in years:
        (x1, y1), (x2, y2) = at[one.year], at.get(one.year + 1, at[one.year])
        if x1 != x2:
            ends = f'x1="{x1:.1f}" y1="{y1:.1f}" x2="{x2:.1f}" y2="{y2:.1f}"'
            lines.append(f'<line {ends} stroke="{INBRED_INK}" stroke-width="2.5"/>')
        mean = language.percent(percent(one.mean))
        tip = f"{one.year}: {language.gettext('{} in the mean of {}', mean, language.count(one.animals))}"
        dots.append(dot(x1, y1, f"<title>{escape(tip)}</title>"))
    return lines + dots


def axes(most_percent: float, most_animals: float, language: Language) -> list[str]:
    parts = []
    for at in range(5):
        height = y_of(at / 4)
        parts.append(f'<line x1="{LEFT}" y1="{height:.1f}" x2="{WIDTH - RIGHT}" y2="{height:.1f}" stroke="#e3e7eb"/>')
        parts.append(
            text_at(LEFT - 10, height + 5, language.percent(f"{most_percent * at / 4:.4g}"), INBRED_INK, 15, "end")
        )
        parts.append(text_at(WIDTH - RIGHT + 10, height + 5, f"{most_animals * at / 4:.6g}", GREY, 15))
    return parts


def dot(x: float, y: float, within: str) -> str:
    return (
        f'<circle cx="{x:.1f}" cy="{y:.1f}" r="4" fill="{PAPER}" stroke="{INBRED_INK}"'
        f' stroke-width="2.5">{within}</circle>'
    )


def bar(year: TrendYear, x: float, top: float, bottom: float, step: float, language: Language) -> str:
    width = max(1.0, step * 0.7)
    tip = f"{year.year}: {language.ngettext('{} animal', '{} animals', year.animals)}"
    return (
        f'<rect x="{x - width / 2:.1f}" y="{top:.1f}" width="{width:.1f}" height="{bottom - top:.1f}" fill="{BARS}">'
        f"<title>{escape(tip)}</title></rect>"
    )


def year_names(first: int, last: int, x: Callable[[int], float], step: float) -> list[str]:
    """As many years as have room, the same number of years apart."""
    apart = next(one for one in (1, 2, 5, 10, 20, 50, 100) if one * step >= 46)
    shown = range(first, last + 1, apart)
    return [text_at(x(year), HEIGHT - BOTTOM + 24, str(year), INK, 15, "middle") for year in shown]


def picture(parts: list[str], count: int, without: int, language: Language) -> str:
    gettext = language.gettext
    note = language.ngettext(*BY_YEAR, count) + (language.ngettext(*NO_YEAR, without) if without else "")
    head = [
        text_at(LEFT, 34, gettext("Mean coefficient of inbreeding by birth year"), INK, 21, weight="bold"),
        dot(LEFT + 6, 57, ""),
        text_at(LEFT + 18, 62, gettext("mean coefficient, in percent (left)"), INBRED_INK, 15),
        f'<rect x="{LEFT + 340}" y="50" width="14" height="14" fill="{BARS}"/>',
        text_at(LEFT + 362, 62, gettext("animals born (right)"), GREY, 15),
        text_at(LEFT, HEIGHT - 34, f"{note}.", GREY, 14),
        text_at(LEFT, HEIGHT - 14, gettext("An unknown parent counts as unrelated."), GREY, 14),
    ]
    return svg(WIDTH, HEIGHT, head + parts)
