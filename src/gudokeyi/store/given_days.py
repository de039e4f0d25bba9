"""What a book has of the days since which owners have an animal: the cells of sheets, what imports told of days that
they moved, and the days that were given."""
from __future__ import annotations

import json
from collections.abc import Iterator, Mapping
from typing import NamedTuple

from gudokeyi.domain.kinds import Remembered
from gudokeyi.domain.provenance import OwnerDay
from gudokeyi.store.book import Book
from gudokeyi.store.state import NOW


class Said(NamedTuple):
    """What a change says of the day since which a herd has an animal: that it stands for the day `given`, or that it
    is that itself."""

    change: int
    place: int
    owner_code: int
    day: str
    given: str


class Moved(NamedTuple):
    """What a change told of an animal, with the values of the finding."""

    change: int
    place: int
    id: str
    fields: Mapping[str, str]


def told_of_kind(book: Book, kind: str) -> Iterator[Moved]:
    """All that was ever told of a kind of finding."""
    told = "SELECT change, place, id, fields FROM told WHERE kind = ?"
    for change, place, id, text in book.connection.execute(told, (kind,)):
        yield Moved(change, place, id, json.loads(text))


def given_days(book: Book, id: str) -> Iterator[Said]:
    """The days that were given for the owners that the book had, each by the change since which it had it so."""
    rows = "SELECT since, herd, owned_since FROM animal WHERE id = ? AND owner_day = ? AND born IS NOT NULL"
    for change, owner_code, day in book.connection.execute(rows, (id, OwnerDay.GIVEN.value)):
        yield Said(change, -1, owner_code, day, day)


def renamed_ever(book: Book) -> list[tuple[str, str]]:
    """Each renaming of an owner, the first one first."""
    renamed = "SELECT word, meaning FROM remembered WHERE what = ? ORDER BY since, place"
    return book.connection.execute(renamed, (Remembered.OWNER.value,)).fetchall()


def last_cell(book: Book, id: str) -> str:
    """What the last sheet said of the day since which the owner has an animal."""
    return last_cells(book, id)[1]


def last_cells(book: Book, id: str) -> tuple[str, str]:
    """The owner in the last sheet, and what it said of the day since which that one has it."""
    cells = book.connection.execute(f"SELECT cell_owner, cell_since FROM cell WHERE id = ? AND {NOW}", (id,)).fetchone()
    owner, since = cells or ("", "")
    return str(owner or ""), str(since or "")


def all_cells(book: Book, id: str) -> Iterator[tuple[str, str]]:
    """The owner and the day in the cells of each sheet, from the last on."""
    cells = "SELECT cell_owner, cell_since FROM cell WHERE id = ? ORDER BY since DESC"
    for owner, since in book.connection.execute(cells, (id,)):
        yield owner or "", since or ""
