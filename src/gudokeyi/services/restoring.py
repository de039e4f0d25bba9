"""Copies a book as a whole, and brings it back from a copy, which is read once, and seen to be whole before."""
from __future__ import annotations

import contextlib
import pathlib
import sqlite3
import tempfile
from collections.abc import Iterator
from typing import BinaryIO

from gudokeyi.domain.changes import Change, ChangeDetails, Mark
from gudokeyi.domain.kinds import ChangeKind
from gudokeyi.domain.messages import Mistake
from gudokeyi.services.book_program import BookProgram
from gudokeyi.services.output_files import check, check_new
from gudokeyi.services.verification import verify
from gudokeyi.store.backup import (
    copied, has_file, has_old_files as has_old_files, keep_old, mark_now as mark_now, put_in_place, read_once,
)  # fmt: skip
from gudokeyi.store.book import Book
from gudokeyi.store.database import begin_anew, connect, end_anew, path_of
from gudokeyi.store.exports import last_backup as last_backup, remember as remember
from gudokeyi.store.files import cant_be_written, put
from gudokeyi.store.foreign_books import refuse_foreign
from gudokeyi.store.history import last_change, next_number, now, write_change
from gudokeyi.store.legacy.files import OLD, is_old
from gudokeyi.store.legacy.old_folder import alone
from gudokeyi.store.messages import BackupFault
from gudokeyi.store.transactions import Overtaken, opened_to_read


def restore(
    folder: pathlib.Path, path: pathlib.Path, program: BookProgram, anyway: bool, looked: Mark | None = None
) -> Change:
    """Makes the book of a copy that of a folder. A book that is there goes to the folder `old` before, with all that
    anybody changed until then; so do the files of version 0.11. Where it isn't the one that somebody looked at, this
    raises `Overtaken`."""
    if path_of(folder).exists() and path.exists() and path.samefile(path_of(folder)):
        raise Mistake(f"{path} is the book itself: name a backup")
    if not has_file(folder) and not has_old_files(folder):
        check_new(folder)
    with tempfile.TemporaryDirectory(prefix="gudokeyi-") as room:
        copy = pathlib.Path(room) / "book.sqlite"
        change = prepare(path, copy, program)

        def look() -> None:
            if looked is not None and mark_now(folder) not in (None, looked):
                raise Overtaken
            if (has_file(folder) or has_old_files(folder)) and not anyway:
                raise Mistake(
                    f"there is a book in the folder {folder}: to restore {path} in its place say --anyway; the one that "
                    f"is there goes to {folder / OLD} then"
                )

        def keep() -> None:
            look()
            keep_old(folder)

        look()
        # nobody takes the files of version 0.11 over meanwhile
        with alone(folder) if is_old(folder) else contextlib.nullcontext():
            put_in_place(folder, copy, keep)
    return change


def copy_of_book(book: Book) -> BinaryIO:
    """A copy of the book as it is, as a file that is there as long as it is open."""
    return copied(book.connection)


@contextlib.contextmanager
def prepared_copy(path: pathlib.Path, program: BookProgram) -> Iterator[tuple[Book, Change]]:
    """The book of a backup, once it is seen that it is whole, and the change that would tell of its restoring."""
    with tempfile.TemporaryDirectory(prefix="gudokeyi-") as room:
        copy = pathlib.Path(room) / "book.sqlite"
        change = prepare(path, copy, program)
        with opened_to_read(copy) as connection:
            yield Book(copy.parent, connection), change


def prepare(path: pathlib.Path, copy: pathlib.Path, program: BookProgram) -> Change:
    """A copy of a backup that is whole, with a change behind its others that tells of the restoring."""
    source, version = read_once(path, copy)
    try:
        with contextlib.closing(connect(copy, "rw")) as connection:
            begin_anew(connection, version)
            refuse_foreign(connection, path)
            book = Book(copy.parent, connection)
            verify(book, program, path)
            write_change(
                connection, next_number(connection), now(), book.journal, ChangeDetails(ChangeKind.RESTORE, source)
            )
            change = last_change(connection)
            assert change is not None
            end_anew(connection)
            return change
    except sqlite3.Error as error:
        raise Mistake(BackupFault.NOT_RESTORED.said(path=path, error=str(error))) from None


def backup(book: Book, path: pathlib.Path, force: bool) -> None:
    """Writes a copy of the book as it is now, whoever changes it meanwhile: one file, which is whole or isn't there."""
    check(book, path, force)
    with copied(book.connection) as file:
        text = file.read()
    try:
        put(path, text, replaces=force)
    except FileExistsError:
        raise Mistake(f"{path} is there already: name another file, or write over it with --force") from None
    except OSError as error:
        raise cant_be_written(path, error) from None
    remember(book)
