"""The mean coefficient of inbreeding by birth year, with how many animals each year has."""
from __future__ import annotations

import collections
from collections.abc import Mapping
from dataclasses import dataclass
from fractions import Fraction

from gudokeyi.store.book import Book
from gudokeyi.store.coefficients import Coefficient


@dataclass(frozen=True, slots=True)
class TrendYear:
    """A year in which animals were born, and the mean of their coefficients."""

    year: int
    animals: int
    mean: Fraction


@dataclass(frozen=True, slots=True)
class Trend:
    """The years that have animals, and how many animals have no known birth year."""

    years: tuple[TrendYear, ...]
    without_year: int


def trend_of(book: Book, coefficients: Mapping[str, Coefficient]) -> Trend:
    names = book.by_number()
    values: dict[int, list[Fraction]] = collections.defaultdict(list)
    without = 0
    for number, coefficient in coefficients.items():
        if names[number].birth.has_year():
            values[book.records[number].born.year].append(coefficient.value)
        else:
            without += 1
    means = {year: sum(those, Fraction(0)) / len(those) for year, those in values.items()}
    return Trend(tuple(TrendYear(year, len(values[year]), mean) for year, mean in sorted(means.items())), without)
