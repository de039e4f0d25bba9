"""Opens the book of a folder, to ask it or to change it. What a call needs besides is imported where it is needed: each
call would wait for it."""
from __future__ import annotations

import contextlib
import pathlib
from collections.abc import Iterator
from typing import TYPE_CHECKING

from gudokeyi.services.book_program import BookProgram
from gudokeyi.store.book import Book as Book
from gudokeyi.store.database import DATABASE as DATABASE, busy as busy
from gudokeyi.store.legacy.files import is_old
from gudokeyi.store.messages import BookFault as BookFault
from gudokeyi.store.transactions import (
    HeldOpen as HeldOpen, Overtaken as Overtaken, changing, no_book as no_book, reading,
    reading_up_to_date, up_to_date as up_to_date,
)  # fmt: skip

if TYPE_CHECKING:
    from gudokeyi.services.folder_files import ChangeJustMade

# so long exports wait for somebody who writes them, after a change of one's own
SECONDS_FOR_EXPORTS = 600


def take_over(folder: pathlib.Path, program: BookProgram) -> None:
    """Makes of a folder of version 0.11 one of this version, where it is one and there is no book yet."""
    if is_old(folder):
        from gudokeyi.services import old_folders

        old_folders.take_over(folder, program)


def has_book(folder: pathlib.Path) -> bool:
    """Is there a file of a book, or a folder of version 0.11?"""
    return (folder / DATABASE).is_file() or is_old(folder)


@contextlib.contextmanager
def opened(folder: pathlib.Path, program: BookProgram) -> Iterator[Book]:
    """The book as it is now, whoever changes it meanwhile; it has to be there."""
    take_over(folder, program)
    with reading_up_to_date(folder) as connection:
        if connection is None:
            raise no_book(folder)
        book = Book(folder, connection)
        yield book
    # whoever asks waits for less before the answer
    from gudokeyi.store.exports import are_fresh

    if book.change is not None and not are_fresh(folder, book.change):
        from gudokeyi.services.folder_files import refresh

        # somebody who changes the book writes them too, and in a folder without rights they stay as they are
        refresh(folder, 0)


@contextlib.contextmanager
def only_read(folder: pathlib.Path) -> Iterator[Book]:
    """The same where nothing may be written: a book of an earlier version stays one."""
    with reading(folder) as connection:
        if connection is None:
            raise no_book(folder)
        yield Book(folder, connection)


@contextlib.contextmanager
def book_in(folder: pathlib.Path) -> Iterator[Book]:
    """The same, and an empty one where there is none."""
    with reading(folder) as connection:
        yield Book(folder, connection)


@contextlib.contextmanager
def alone_to_change(folder: pathlib.Path) -> Iterator[Book]:
    """The book to be changed, an empty one where there is none. Others who change it are waited for; whether it is
    whole isn't seen."""
    with changing(folder) as connection:
        yield Book(folder, connection)


@contextlib.contextmanager
def to_look_at(folder: pathlib.Path, program: BookProgram) -> Iterator[Book]:
    """The book for a preview of a change, an empty one where there is none. Nobody waits for it."""
    take_over(folder, program)
    with reading(folder) as connection:
        yield Book(folder, connection)


@contextlib.contextmanager
def to_change(folder: pathlib.Path, program: BookProgram) -> Iterator[Book]:
    """The book to be changed, an empty one where there is none. Others who change it are waited for, and then it is
    seen that it is whole."""
    from gudokeyi.services.verification import verify

    take_over(folder, program)
    with changing(folder) as connection:
        book = Book(folder, connection)
        verify(book, program, quickly=True)
        yield book


@contextlib.contextmanager
def to_prepare(folder: pathlib.Path, program: BookProgram) -> Iterator[Book]:
    """The book as it is now, an empty one where there is none, for a change of it that is prepared while others change
    it. It is seen that it is whole."""
    from gudokeyi.services.verification import verify

    take_over(folder, program)
    with reading_up_to_date(folder) as connection:
        book = Book(folder, connection)
        verify(book, program, quickly=True)
        yield book


@contextlib.contextmanager
def there_to_change(folder: pathlib.Path, program: BookProgram) -> Iterator[Book]:
    """The same, of a book that has to be there."""
    with to_change(folder, program) as book:
        if not book.is_there:
            raise no_book(folder)
        yield book


def export(folder: pathlib.Path, made: ChangeJustMade | None = None) -> list[str]:
    """Writes the exports after a change; answers why it couldn't, in a sentence."""
    from gudokeyi.services.folder_files import refresh

    told = refresh(folder, SECONDS_FOR_EXPORTS, made)
    return [f"the change is made, but {told}: a later call writes them"] if told else []
