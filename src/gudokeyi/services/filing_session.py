"""Opens a book for commands that a session of the program files. Whether it is whole is seen once, and not again by
who files next."""
from __future__ import annotations

import contextlib
import pathlib
from collections.abc import Iterator

from gudokeyi.services.book_session import BookSession
from gudokeyi.services.cache import SeenBefore
from gudokeyi.services.opening import alone_to_change, book_in, no_book, take_over
from gudokeyi.services.verification import verify
from gudokeyi.store.book import Book

# by which it is known that a book was seen whole by who filed before, and that nobody else changed it since
SEEN = "filed"


@contextlib.contextmanager
def session_to_file(folder: pathlib.Path) -> Iterator[BookSession]:
    """A session for one who files, which ends with this."""
    program = BookSession.for_one()
    take_over(folder, program)
    try:
        yield program
    finally:
        program.close()


@contextlib.contextmanager
def to_file(folder: pathlib.Path, program: BookSession) -> Iterator[Book]:
    """The book, which nobody else changes until this ends. It is seen before whether it is whole, unless somebody who
    filed saw that, and nobody else changed the book or its file since."""
    with alone_to_change(folder) as book:
        if not book.is_there:
            raise no_book(folder)
        if not SeenBefore(book, program.path, SEEN).is_known():
            verify(book, program, quickly=True)
        try:
            yield book
        except BaseException:
            program.keep_to(book.journal)
            raise


def seen_whole(folder: pathlib.Path, program: BookSession, last: int) -> None:
    """As it is after its last change, which was filed so, it was seen to be whole."""
    with book_in(folder) as book:
        if book.change and book.change.number == last:
            SeenBefore(book, program.path, SEEN).keep()
