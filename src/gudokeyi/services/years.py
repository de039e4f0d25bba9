"""What happened in a year: births, exits and new owners, as an umbrella society asks for them."""
from __future__ import annotations

import datetime
from collections.abc import Iterator
from dataclasses import dataclass
from typing import NamedTuple

from gudokeyi.domain.animals import NO_OWNER
from gudokeyi.domain.kinds import CommandKind
from gudokeyi.domain.mistakes import InvalidValue
from gudokeyi.domain.requests import NotSuch
from gudokeyi.services.facts import exit_in_sheet
from gudokeyi.services.tables import Kind, Table
from gudokeyi.store.animal_rows import AnimalRow
from gudokeyi.store.book import Book
from gudokeyi.store.conditions import among, born_between, left_between, own
from gudokeyi.store.journal import commands_between

# the years that a book may have
FIRST, LAST = 1000, 2999
COLUMNS = (
    ("day", Kind.PLAIN), ("what", Kind.PLAIN), ("id", Kind.TEXT), ("number", Kind.PLAIN), ("name", Kind.TEXT),
    ("sex", Kind.PLAIN), ("birth", Kind.PLAIN), ("sire", Kind.TEXT), ("dam", Kind.TEXT), ("from", Kind.TEXT),
    ("owner", Kind.TEXT), ("reason", Kind.PLAIN), ("exit_in_sheet", Kind.TEXT),
)  # fmt: skip


@dataclass(frozen=True, slots=True)
class Event:
    """A birth, an exit or a transfer: its day, the animal with its parents' ids, its owner, of a transfer also who gave
    it, and why it left: as somebody filed it, and in the words of the sheet."""

    kind: CommandKind
    day: str
    row: AnimalRow
    owner: str
    from_owner: str = ""
    sire: str = ""
    dam: str = ""

    @property
    def reason(self) -> str:
        return (self.row.exit_reason or "") if self.kind is CommandKind.EXIT else ""

    @property
    def in_sheet(self) -> str:
        return exit_in_sheet(self.row) if self.kind is CommandKind.EXIT else ""

    def cells(self) -> tuple[str, ...]:
        row = self.row
        return (
            self.day, self.kind.value, row.id, row.registration_number, row.name, row.registration_number[6],
            row.born or "", self.sire, self.dam, self.from_owner, self.owner, self.reason,
            self.in_sheet,
        )  # fmt: skip


class Happened(NamedTuple):
    """The same before it is known what the parents are called."""

    kind: CommandKind
    day: str
    row: AnimalRow
    owner: str
    from_owner: str = ""


def events_of(book: Book, year: int) -> list[Event]:
    """In the order of their days; births of animals that have no row of their own are none of the society's."""
    if not FIRST <= year <= LAST:
        raise InvalidValue(NotSuch.YEAR.said(text=year, first=FIRST, last=LAST))
    first, last = datetime.date(year, 1, 1), datetime.date(year, 12, 31)
    found = [*born_in(book, first, last), *left_in(book, first, last), *given_in(book, first, last)]
    found.sort(key=lambda one: (one.day, one.kind.value, one.row.id))
    parents = {number for one in found for number in (one.row.sire, one.row.dam) if number}
    ids = dict(book.numbers_and_ids(among([*parents])))
    return [Event(*one, ids.get(one.row.sire or "", ""), ids.get(one.row.dam or "", "")) for one in found]


def born_in(book: Book, first: datetime.date, last: datetime.date) -> Iterator[Happened]:
    """With their owners at birth."""
    born = commands_between(book.connection, book.journal, CommandKind.BIRTH, first.isoformat(), last.isoformat())
    owner_codes = {one.animal: int(one.to_owner) for one in born}
    for row in book.rows(own() & born_between(first, last)):
        yield happened(book, CommandKind.BIRTH, row.born or "", row, owner_codes.get(row.registration_number))


def left_in(book: Book, first: datetime.date, last: datetime.date) -> Iterator[Happened]:
    for row in book.rows(own() & left_between(first, last)):
        yield happened(book, CommandKind.EXIT, row.departed or "", row, row.owner_code)


def given_in(book: Book, first: datetime.date, last: datetime.date) -> Iterator[Happened]:
    days = first.isoformat(), last.isoformat()
    given = list(commands_between(book.connection, book.journal, CommandKind.TRANSFER, *days))
    rows = {row.registration_number: row for row in book.rows(among([one.animal for one in given]))}
    for one in given:
        if one.animal in rows:
            giver = book.owner_of(int(one.from_owner))
            yield happened(book, CommandKind.TRANSFER, one.day, rows[one.animal], int(one.to_owner), giver)


def happened(
    book: Book, kind: CommandKind, day: str, row: AnimalRow, owner_code: int | None, giver: str = ""
) -> Happened:
    return Happened(kind, day, row, book.owner_of(NO_OWNER if owner_code is None else owner_code), giver)


def table_of(book: Book, year: int) -> Table:
    return Table.of_rows(COLUMNS, [one.cells() for one in events_of(book, year)])
