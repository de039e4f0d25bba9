"""Writes what the folder of a book has besides the database, for others to read: after each change, and where it isn't
as it was written."""
from __future__ import annotations

import contextlib
import pathlib
import sqlite3
from collections.abc import Sequence
from typing import NamedTuple

from gudokeyi.domain.changes import Change
from gudokeyi.domain.findings import Entry
from gudokeyi.store.book import Book
from gudokeyi.store.database import DATABASE, connect, path_of
from gudokeyi.store.exports import (
    COMMANDS, IDS, LAST_BACKUP, NAMES, REPORT, REPORT_TITLES as REPORT_TITLES, SEMICOLONS, are_fresh, ids_text, turn,
)  # fmt: skip
from gudokeyi.store.files import put, table, take_away_left
from gudokeyi.store.history import told_by
from gudokeyi.store.legacy.files import keep_old_files
from gudokeyi.store.transactions import begin_to_read


class ChangeJustMade(NamedTuple):
    """What a change told, and the journal after it if that is known, as who made it has them still: so they aren't read
    again."""

    change: Change
    entries: Sequence[Entry]
    journal: bytes = b""


def refresh(folder: pathlib.Path, seconds: float, made: ChangeJustMade | None = None) -> str:
    """Writes them anew where they aren't fresh, of the book as it is now, whoever changes it meanwhile. Others who
    write them are waited for so long. Answers why it couldn't, in words."""
    path = path_of(folder)
    try:
        # behind those that somebody else writes, so that they are never of an earlier change than what is there
        with turn(folder, seconds), contextlib.closing(connect(path, "rw")) as connection:
            begin_to_read(connection)
            write_exports(Book(folder, connection), made)
    except sqlite3.Error as error:
        return f"{', '.join(NAMES)} in {folder} couldn't be written ({error})"
    except OSError as error:
        return f"{', '.join(NAMES)} in {folder} couldn't all be written ({error.strerror or error})"
    return ""


def write_exports(book: Book, made: ChangeJustMade | None) -> None:
    change = book.change
    if change is None or are_fresh(book.folder, change):
        return
    keep_old_files(book.folder)
    # nobody else writes exports now
    take_away_left(book.folder, NAMES, (DATABASE, LAST_BACKUP))
    if made and made.change == change and made.journal:
        book.journal_text = made.journal
    with book.journal_read_beside():
        put(book.folder / IDS, ids_text(book, change), change.moment)
        put(book.folder / REPORT, report_text(book, change, made), change.moment)
        put(book.folder / COMMANDS, book.command_file(), change.moment)


def report_text(book: Book, change: Change, made: ChangeJustMade | None = None) -> bytes:
    """What the change told."""
    semicolons = any(option.option == SEMICOLONS for option in change.options)
    entries = made.entries if made and made.change == change else entries_of(book, change)
    rows = [(entry.line or "", entry.id, entry.what, entry.why, change.number) for entry in entries]
    return table(REPORT_TITLES, zip(*rows), semicolons)


def entries_of(book: Book, change: Change) -> list[Entry]:
    # whoever asks the book would wait for it
    from gudokeyi.reconcile.stored_findings import entry_of

    return [*map(entry_of, told_by(book.connection, change.number))]
