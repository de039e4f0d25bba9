"""The coefficients of inbreeding of a book's last state, which are computed once and kept with it."""
from __future__ import annotations

import functools
import json
import operator
import sqlite3
from collections.abc import Iterable, Mapping
from typing import TYPE_CHECKING, NamedTuple

from gudokeyi.domain.collections import Lazy
from gudokeyi.domain.decimals import UNIT, decimal_of, decimal_of_text, number_of, rounded
from gudokeyi.store.book import Book
from gudokeyi.store.bulk_insert import insert_many
from gudokeyi.store.state import text_of_lines

if TYPE_CHECKING:
    from fractions import Fraction

UNIT_BITS = 120
# a fraction in what stands above, the stroke and what stands below
PARTS = operator.methodcaller("partition", "/")
PLACES = "SELECT place FROM coefficient ORDER BY place"
# so many coefficients are asked for one by one: of more it is quicker to ask for all
MOST_ONE_BY_ONE = 20


class Coefficient(NamedTuple):
    """A coefficient of inbreeding as the program prints it, in two texts: a fraction in lowest terms, as `1/16`, and
    percent with two places, as `6.25`. `value` is the fraction as a number, exact."""

    fraction: str
    percent: str

    @property
    def value(self) -> Fraction:
        # whoever asks the book would wait for it
        from fractions import Fraction

        return Fraction(self.fraction)

    @property
    def is_inbred(self) -> bool:
        return self.fraction != "0"

    @property
    def units(self) -> int:
        """In units of 2^-120, in which each coefficient is whole."""
        numerator, _, denominator = self.fraction.partition("/")
        return int(numerator) * units_in(denominator)

    def decimal(self) -> str:
        """Rounded to ten places."""
        return decimal_of_text(self.fraction)


@functools.lru_cache(maxsize=1024)
def units_in(denominator: str) -> int:
    """How many units one part has of so many; the program writes no denominator for 1. There are few of them."""
    return (1 << UNIT_BITS) // number_of(denominator)


def units_of(fractions: Iterable[str]) -> list[int]:
    """Those of many fractions."""
    return [int(above) * units_in(below) for above, _, below in map(PARTS, fractions)]


def decimals_of_units(units: Iterable[int]) -> list[str]:
    """So many units each, at least none, rounded as the others are, in a fraction of the time."""
    scaled = [(2 * UNIT * one + (1 << UNIT_BITS)) >> (UNIT_BITS + 1) for one in units]
    # with a 1 in front each part below 1 has all its digits
    return [f"0.{str(UNIT + one)[1:]}".rstrip("0") if 0 < one < UNIT else decimal_of(one, UNIT) for one in scaled]


def of_offspring(relationship: str) -> Coefficient:
    """That of an offspring of two animals: half of their relationship, of which the program prints the fraction in
    lowest terms."""
    numerator, _, denominator = relationship.partition("/")
    above = int(numerator)
    if above % 2:
        below = 2 * number_of(denominator)
        return Coefficient(f"{numerator}/{below}", rounded(100 * above, below, 2))
    fraction = f"{above // 2}/{denominator}" if denominator else str(above // 2)
    return Coefficient(fraction, rounded(50 * above, number_of(denominator), 2))


def kept_coefficients(book: Book, numbers: Iterable[str] = ()) -> Mapping[str, Coefficient]:
    """The coefficient of each number, in age order; those of some are read at once."""

    def one(number: str) -> Coefficient | None:
        return kept_coefficient(book.connection, number)

    found = Lazy(one, lambda: read_coefficients(book.connection))
    some = [*numbers]
    found.kept |= coefficients_among(book, some) if some else {}
    return found


def kept_coefficient(connection: sqlite3.Connection, number: str) -> Coefficient | None:
    row = connection.execute("SELECT fraction, percent FROM coefficient WHERE number = ?", (number,)).fetchone()
    return Coefficient(*row) if row else None


def coefficients_among(book: Book, numbers: list[str]) -> dict[str, Coefficient]:
    """Those of some numbers, by one question."""
    chosen = "SELECT number, fraction, percent FROM coefficient WHERE number IN (SELECT value FROM json_each(?))"
    rows = book.connection.execute(chosen, (json.dumps(numbers),))
    return {number: Coefficient(fraction, percent) for number, fraction, percent in rows}


def read_coefficients(connection: sqlite3.Connection) -> dict[str, Coefficient]:
    rows = connection.execute("SELECT number, fraction, percent FROM coefficient ORDER BY place")
    return {number: Coefficient(fraction, percent) for number, fraction, percent in rows}


def computed(lines: Iterable[str]) -> dict[str, Coefficient]:
    """The coefficients that the program writes, in age order."""
    parts = (line.split(",") for line in lines)
    return {number: Coefficient(fraction, percent) for number, fraction, percent in parts}


def kept_lines(connection: sqlite3.Connection) -> list[str]:
    """The kept coefficients as the program writes them, in age order."""
    line = "number || ',' || fraction || ',' || percent"
    return [line for (line,) in connection.execute(f"SELECT {line} FROM coefficient ORDER BY place")]


def kept_text(connection: sqlite3.Connection) -> str:
    """The same as one text, which is quicker to compare."""
    lines = "SELECT number || ',' || fraction || ',' || percent AS line FROM coefficient ORDER BY place"
    return text_of_lines(connection, lines)


def add_coefficient(connection: sqlite3.Connection, line: str) -> None:
    """Keeps that of an animal that was born, as the program writes it, at its place in age order."""
    number, fraction, percent = line.split(",")
    place = place_of(connection, number)
    # those of younger animals move on by one, by way of places that nothing has
    connection.execute("UPDATE coefficient SET place = -place WHERE place >= ?", (place,))
    connection.execute("UPDATE coefficient SET place = 1 - place WHERE place < 0")
    connection.execute("INSERT INTO coefficient VALUES (?, ?, ?, ?)", (place, number, fraction, percent))


def place_of(connection: sqlite3.Connection, number: str) -> int:
    """The place behind all that are kept of elder animals, by halves: others may be born too that aren't kept yet."""
    asked = "SELECT born, number FROM animal WHERE until IS NULL AND number = "
    own = connection.execute(f"{asked} ?", (number,)).fetchone()
    first, last = 1, connection.execute("SELECT ifnull(max(place), 0) + 1 FROM coefficient").fetchone()[0]
    while first < last:
        middle = (first + last) // 2
        at = f"{asked} (SELECT number FROM coefficient WHERE place = ?)"
        if connection.execute(at, (middle,)).fetchone() < own:
            first = middle + 1
        else:
            last = middle
    return int(first)


def born_of(connection: sqlite3.Connection, number: str) -> str:
    """The day on which an animal of the last state was born."""
    found = connection.execute("SELECT born FROM animal WHERE number = ? AND until IS NULL", (number,)).fetchone()
    return str(found[0])


def few_descendants(connection: sqlite3.Connection, number: str) -> list[str]:
    """The numbers of an animal and of all that descend from it; none where these are too many to be asked for one by
    one."""
    by_parent = " ".join(
        f"UNION SELECT animal.number FROM found JOIN animal ON animal.{parent} = found.number WHERE until IS NULL"
        for parent in ("sire", "dam")
    )
    asked = f"WITH RECURSIVE found (number) AS (VALUES (?) {by_parent}) SELECT number FROM found LIMIT ?"
    found = [number for (number,) in connection.execute(asked, (number, MOST_ONE_BY_ONE + 1))]
    return found if len(found) <= MOST_ONE_BY_ONE else []


def change_coefficients(connection: sqlite3.Connection, lines: Iterable[str]) -> None:
    """Keeps those of some animals, as the program writes them, in place of those before."""
    rows = (line.split(",") for line in lines)
    changed = ((fraction, percent, number) for number, fraction, percent in rows)
    connection.executemany("UPDATE coefficient SET fraction = ?, percent = ? WHERE number = ?", changed)


def write_coefficients(connection: sqlite3.Connection, lines: list[str]) -> None:
    """Keeps the coefficients that the program writes in place of those before."""
    kept = kept_lines(connection)
    if kept == lines:
        return
    if len(kept) == len(lines):
        differing = [(before, now) for before, now in zip(kept, lines) if before != now]
        if all(before.partition(",")[0] == now.partition(",")[0] for before, now in differing):
            change_coefficients(connection, (now for _, now in differing))
            return
    # those of animals that are born last stand behind the others, which stay
    pairs = enumerate(zip(kept, lines))
    behind = next((at for at, (before, now) in pairs if before != now), min(len(kept), len(lines)))
    connection.execute(f"DELETE FROM coefficient WHERE place IN ({PLACES} LIMIT -1 OFFSET ?)", (behind,))
    last = connection.execute("SELECT ifnull(max(place), 0) FROM coefficient").fetchone()[0]
    rows = ((place, *line.split(",")) for place, line in enumerate(lines[behind:], last + 1))
    insert_many(connection, "coefficient", rows)
