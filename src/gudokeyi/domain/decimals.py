"""Exact numbers as decimals: they are rounded where they are shown, and here alone; a half is rounded away from 0, as
the program does it."""
from __future__ import annotations

import functools
from typing import TYPE_CHECKING

if TYPE_CHECKING:
    from fractions import Fraction

# so many places a decimal has at most
PLACES = 10
UNIT = 10**PLACES


def decimal(value: Fraction | float) -> str:
    """Rounded to ten places, without noughts at the end."""
    return decimal_of(*value.as_integer_ratio())


def decimal_of_text(fraction: str) -> str:
    """The same of a fraction as the program writes it."""
    numerator, _, denominator = fraction.partition("/")
    return decimal_of(int(numerator), number_of(denominator))


@functools.lru_cache(maxsize=1024)
def number_of(denominator: str) -> int:
    """A denominator as the program writes it, which writes none for 1. There are few of them."""
    return int(denominator or 1)


def decimal_of(numerator: int, denominator: int) -> str:
    """The same of a fraction whose denominator is above 0."""
    return rounded(numerator, denominator, PLACES).rstrip("0").rstrip(".") if numerator else "0"


def fixed(value: Fraction | float, places: int = 2) -> str:
    """With so many places, all of them written."""
    return rounded(*value.as_integer_ratio(), places)


def percent(value: Fraction | float, places: int = 2) -> str:
    """As so many hundredths, without the sign."""
    numerator, denominator = value.as_integer_ratio()
    return rounded(numerator * 100, denominator, places)


def rounded(numerator: int, denominator: int, places: int) -> str:
    unit = 10**places
    twice = 2 * unit * abs(numerator) + denominator
    # the program's denominators are powers of two, by which a shift divides in a fraction of the time
    scaled = twice >> denominator.bit_length() if denominator.bit_count() == 1 else twice // (2 * denominator)
    whole, part = divmod(scaled, unit)
    sign = "-" if numerator < 0 and scaled else ""
    return f"{sign}{whole}.{str(part).zfill(places)}"
