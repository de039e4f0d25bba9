"""What others filed in a book behind a change of it, where that are commands one by one: with what they touched."""
from __future__ import annotations

import sqlite3
from typing import NamedTuple

from gudokeyi.domain.changes import Change
from gudokeyi.domain.commands import Command
from gudokeyi.domain.kinds import ChangeKind
from gudokeyi.store.animal_rows import COLUMNS, AnimalRow
from gudokeyi.store.book import Book
from gudokeyi.store.history import is_change, listed
from gudokeyi.store.journal import Part, Step, lines_with_refusals
from gudokeyi.store.state import (
    ALL_ROWS, CELLS, FORMER_IDS, NOTES, NOW, OWN_COLUMNS, OWN_VALUES, REMEMBERED, Table,
)  # fmt: skip

# the changes that file commands behind the journal, or change nothing that sheets are read by
ONE_BY_ONE = (
    ChangeKind.BIRTH, ChangeKind.LITTER, ChangeKind.PARENTS, ChangeKind.TRANSFER, ChangeKind.EXIT, ChangeKind.BATCH,
    ChangeKind.NOTE, ChangeKind.OWN_VALUES, ChangeKind.MEMBER,
)  # fmt: skip
# what has a row of these that began or ended is no longer as it was read
READ_BY = (CELLS, FORMER_IDS, REMEMBERED, OWN_COLUMNS)
SINCE = "since > ? OR until > ?"


class FiledMeanwhile(NamedTuple):
    """The commands with their replies, in their order; the rows of the animals that changed, as they are now; the ids
    and names of those rows before; and the digits of the animals of which a note or a value of the society's own
    changed."""

    steps: list[Step]
    rows: list[AnimalRow]
    called_before: set[tuple[str, str]]
    digits: set[str]


def filed_since(book: Book, before: Change) -> FiledMeanwhile | None:
    """What was filed since a change of the book; none where something else was done, or another book came."""
    connection, journal, number = book.connection, book.journal, before.number
    if not is_change(connection, number, before.moment) or journal.edition != before.edition:
        return None
    others = f"SELECT 1 FROM change WHERE change > ? AND kind NOT IN ({listed(ONE_BY_ONE)}) LIMIT 1"
    if connection.execute(others, (number,)).fetchone() or any(is_otherwise(connection, one, number) for one in READ_BY):
        return None
    lines = lines_with_refusals(connection, Part(journal.edition, before.length + 1, journal.length))
    asked = f"SELECT {COLUMNS} FROM {ALL_ROWS} WHERE {NOW} AND since > ?"
    ended = f"SELECT id, name FROM {ALL_ROWS} WHERE until > ?"
    return FiledMeanwhile(
        [Step(Command(*line.split(",")), refusal) for line, refusal in lines],
        [*map(AnimalRow._make, connection.execute(asked, (number,)))],
        {(id, name) for id, name in connection.execute(ended, (number,))},
        {digits for table in (NOTES, OWN_VALUES) for digits in digits_otherwise(connection, table, number)},
    )  # fmt: skip


def is_otherwise(connection: sqlite3.Connection, table: Table, number: int) -> bool:
    """Has a table a row that began or ended behind a change?"""
    asked = f"SELECT 1 FROM {table.name} WHERE {SINCE} LIMIT 1"
    return connection.execute(asked, (number, number)).fetchone() is not None


def digits_otherwise(connection: sqlite3.Connection, table: Table, number: int) -> set[str]:
    """Those of the animals that have such a row."""
    return {digits for (digits,) in connection.execute(f"SELECT digits FROM {table.name} WHERE {SINCE}", (number, number))}
