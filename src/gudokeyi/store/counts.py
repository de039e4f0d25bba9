"""How many animals a book has, how many of them live, and how inbred these are; and what one animal counts of it."""
from __future__ import annotations

from dataclasses import dataclass
from fractions import Fraction

from gudokeyi.domain.changes import Change
from gudokeyi.store.book import Book
from gudokeyi.store.coefficients import UNIT_BITS, Coefficient, kept_coefficient
from gudokeyi.store.conditions import IN_BOOK, IS_LIVING

# whether an animal counts as one of the book, as a living one and as a living female
COUNTED = f"{IN_BOOK}, {IS_LIVING}, {IS_LIVING} AND substr(number, 7, 1) = 'F'"


@dataclass(frozen=True, slots=True)
class Overview:
    """The animals of a book, the living ones of the society and the females among these. `units` are those of the
    coefficients of the living ones, 2^-120 each."""

    animals: int = 0
    living: int = 0
    females: int = 0
    units: int = 0

    @property
    def mean(self) -> Fraction | None:
        """The mean coefficient of the living animals, none where no animal lives."""
        return Fraction(self.units, self.living << UNIT_BITS) if self.living else None


def overview_of(book: Book) -> Overview:
    """That of the whole book."""
    ask = book.connection.execute
    animals = ask(f"SELECT count(*) FROM animal WHERE until IS NULL AND {IN_BOOK}").fetchone()[0]
    among = f"FROM animal WHERE until IS NULL AND {IS_LIVING}"
    living, females = ask(f"SELECT count(*), ifnull(sum(substr(number, 7, 1) = 'F'), 0) {among}").fetchone()
    joined = among.replace("animal", "animal CROSS JOIN coefficient USING (number)")
    kept = ask(f"SELECT fraction, percent, count(*) {joined} GROUP BY fraction")
    units = sum(Coefficient(fraction, percent).units * count for fraction, percent, count in kept)
    return Overview(animals, living, females, units)


def numbers_filed(book: Book, edition: int, first: int, last: int) -> list[str]:
    """The animals of some commands of an edition of the journal, each once."""
    commands = "SELECT DISTINCT animal FROM command WHERE edition = ? AND place BETWEEN ? AND ?"
    return [number for (number,) in book.connection.execute(commands, (edition, first, last)).fetchall()]


def difference(book: Book, number: str, then: Change) -> tuple[int, int, int, int]:
    """What an animal counts now more than after a change."""
    ask = book.connection.execute
    now = ask(f"SELECT id, {COUNTED} FROM animal WHERE until IS NULL AND number = ?", (number,)).fetchone()
    if now is None:
        # a birth that was refused
        return 0, 0, 0, 0
    at = "id = ? AND since <= ? AND (until IS NULL OR until > ?)"
    values = (now[0], then.number, then.number)
    before = ask(f"SELECT {COUNTED} FROM animal WHERE {at}", values).fetchone() or (0, 0, 0)
    animals, living, females = (after - former for after, former in zip(now[1:], before))
    kept = kept_coefficient(book.connection, number)
    return animals, living, females, living * (kept.units if kept else 0)
