"""Two animals of the book whose rows have each other's ids: what either row says of name, sex, birth day and parents is
what the book has of the other one. That is told before what it changes."""
from __future__ import annotations

import collections
from collections.abc import Iterator, Sequence
from typing import NamedTuple

from gudokeyi.domain.animals import SocietyRecord
from gudokeyi.domain.commands import RegisterRecord
from gudokeyi.domain.kinds import Role
from gudokeyi.ingest.animals import SheetAnimal, birth_in_book
from gudokeyi.ingest.days import Precision, Span
from gudokeyi.ingest.texts import nearly
from gudokeyi.reconcile.findings.same_animals import IdsExchanged
from gudokeyi.reconcile.next_book import NextBook


class Called(NamedTuple):
    """A name in small letters, and the first and the last day of a birth that may be a month's or a year's."""

    name: str
    days: tuple[object, object]

    @classmethod
    def of(cls, name: str, birth: Span) -> Called:
        return cls(name.casefold(), (birth.first, birth.last))


class Otherwise(NamedTuple):
    """A row, and what the book has of the animal with its id."""

    row: SheetAnimal
    in_book: SocietyRecord
    record: RegisterRecord

    def said(self) -> Called:
        return Called.of(self.row.name, self.row.birth)

    def known(self) -> Called:
        return Called.of(self.in_book.name, birth_in_book(self.in_book, self.record))


def tell_exchanged_ids(
    next_book: NextBook, otherwise: Sequence[tuple[SheetAnimal, SocietyRecord, RegisterRecord]]
) -> set[str]:
    """`otherwise` are the rows that say something else than the book, also those that are left out since then. Answers
    the ids of those that are told."""
    told = set[str]()
    for row, other in Exchanged(next_book, [Otherwise(*one) for one in otherwise]).pairs():
        is_left_out = not {row.id, other.id}.isdisjoint(next_book.used_again)
        found = IdsExchanged(row.id, other.id, other.line, row.name, other.name, is_left_out)
        next_book.report.add(row.line, row.id, found)
        told |= {row.id, other.id}
    return told


class Exchanged:
    """Looks for such rows by names and birth days; parents are as the cells have them."""

    def __init__(self, next_book: NextBook, otherwise: Sequence[Otherwise]) -> None:
        self.next_book = next_book
        self.rows = [one for one in otherwise if one.row.name and one.row.birth.precision is not Precision.NOTHING]
        self.roles = [role for role in Role if role in next_book.given]

    def pairs(self) -> Iterator[tuple[SheetAnimal, SheetAnimal]]:
        """Each once, the upper row first."""
        known = collections.defaultdict[Called, list[Otherwise]](list)
        for one in self.rows:
            known[one.known()].append(one)
        for one in self.rows:
            others = known.get(one.said(), [])
            if len(others) == 1 and one.row.line < others[0].row.line and self.are_exchanged(one, others[0]):
                yield one.row, others[0].row

    def are_exchanged(self, one: Otherwise, other: Otherwise) -> bool:
        """Is each row that of the other animal, and are these told apart by more than their names?"""
        parents = [(one.record.parent(role), other.record.parent(role)) for role in self.roles]
        if one.known().days == other.known().days and all(parent == another for parent, another in parents):
            return False
        return other.said() == one.known() and self.is_of(one, other) and self.is_of(other, one)

    def is_of(self, one: Otherwise, other: Otherwise) -> bool:
        """Has a row the sex and the parents of another animal? A parent may be one of the two."""
        if one.row.sex not in ("", other.record.registration_number[6]):
            return False
        id_of, the_two = self.next_book.id_of, {one.row.id, other.row.id}
        parents = [(one.row.parent(role), id_of(other.record.parent(role))) for role in self.roles]
        return all(self.means(text, id) or {text, id} <= the_two for text, id in parents)

    def means(self, text: str, id: str) -> bool:
        """Is a parent's cell its id, or its name?"""
        if not text or not id:
            return text == id
        name = self.next_book.book.society_records[id].name
        return nearly(text) == nearly(id) or (bool(name) and text.casefold() == name.casefold())
