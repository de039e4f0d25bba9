"""The seals that a society published, each a line that is kept with the book. They aren't a part of its history, and no
line is ever changed."""
from __future__ import annotations

import contextlib
import datetime
import pathlib
import sqlite3

from gudokeyi.domain.changes import Mark
from gudokeyi.domain.seals import PublishedSeal, Seal
from gudokeyi.process import stop_no_more
from gudokeyi.store.book import Book
from gudokeyi.store.history import is_change
from gudokeyi.store.journal import Journal
from gudokeyi.store.transactions import Overtaken, changing, checkpoint, no_book

COLUMNS = "day, edition, steps, animals, seal"
# editions follow one another, and each grows
IN_ORDER = "ORDER BY edition, steps"


def published_seals(book: Book) -> list[PublishedSeal]:
    """All of them, the first published first."""
    rows = book.connection.execute(f"SELECT {COLUMNS} FROM published_seal {IN_ORDER}")
    return [published_of(row) for row in rows]


def last_published(book: Book) -> PublishedSeal | None:
    asked = f"SELECT {COLUMNS} FROM published_seal ORDER BY edition DESC, steps DESC LIMIT 1"
    row = book.connection.execute(asked).fetchone()
    return published_of(row) if row else None


def first_with(book: Book, digits: str) -> PublishedSeal | None:
    """The first of them that is this seal; none where it isn't the society's."""
    asked = f"SELECT {COLUMNS} FROM published_seal WHERE seal = ? {IN_ORDER} LIMIT 1"
    row = book.connection.execute(asked, (digits.lower(),)).fetchone()
    return published_of(row) if row else None


def published_of(row: tuple[str, int, int, int, str]) -> PublishedSeal:
    day, edition, steps, animals, digits = row
    return PublishedSeal(datetime.date.fromisoformat(day), edition, Seal(digits, steps, animals))


def keep_published(folder: pathlib.Path, looked: Mark, made: PublishedSeal) -> PublishedSeal:
    """Keeps a seal of the book that has the change `looked`, or raises `Overtaken`; answers the kept line, which is an
    earlier one where that journal's seal was published already."""
    with changing(folder) as connection:
        if connection is None:
            raise no_book(folder)
        if not is_change(connection, *looked):
            raise Overtaken
        seal = made.seal
        row = (made.day.isoformat(), made.edition, seal.steps, seal.animals, seal.digits)
        insert = f"INSERT INTO published_seal ({COLUMNS}) VALUES (?, ?, ?, ?, ?) ON CONFLICT DO NOTHING"
        connection.execute(insert, row)
        asked = f"SELECT {COLUMNS} FROM published_seal WHERE (edition, steps) = (?, ?)"
        kept = published_of(connection.execute(asked, (made.edition, seal.steps)).fetchone())
        stop_no_more()
        connection.execute("COMMIT")
        with contextlib.suppress(sqlite3.Error):
            checkpoint(connection)
    return kept


def length_of(connection: sqlite3.Connection, edition: int) -> int | None:
    """How many commands an edition's journal has; none where there is no such edition."""
    longest = """
        SELECT max(keeps, ifnull((SELECT max(place) FROM command WHERE command.edition = edition.edition), 0))
        FROM edition WHERE edition = ?
    """
    found = connection.execute(longest, (edition,)).fetchone()
    return int(found[0]) if found else None


def common_length(connection: sqlite3.Connection, one: Journal, other: Journal) -> int:
    """With how many commands that both have two journals begin, as their editions keep them."""
    lengths = dict(chain_of(connection, one))
    return max((min(length, lengths.get(edition, 0)) for edition, length in chain_of(connection, other)), default=0)


def chain_of(connection: sqlite3.Connection, journal: Journal) -> list[tuple[int, int]]:
    """The editions of which a journal has something, from its own back to the first, each with how much of it."""
    found, (number, length) = [], journal
    while number:
        found.append((number, length))
        asked = "SELECT ifnull(predecessor, 0), keeps FROM edition WHERE edition = ?"
        number, keeps = connection.execute(asked, (number,)).fetchone()
        length = min(length, keeps)
    return found
