"""The journal of a book that is asked. The database puts each line of it together anew, which of a short answer is the
longer part: so it is read from its export, once a call saw that this has the same."""
from __future__ import annotations

import contextlib
from collections.abc import Iterator

from gudokeyi.services.cache import SeenBefore
from gudokeyi.store.book import Book
from gudokeyi.store.exports import COMMANDS

# of fewer commands the database is as quick
LEAST = 5_000


def seen_export(book: Book) -> SeenBefore:
    """That the export is the journal, as long as neither its file nor the book is another."""
    return SeenBefore(book, book.folder / COMMANDS, "journal")


def read_exported(book: Book) -> None:
    """The book has its journal, where that isn't read yet and its export is known to be the same."""
    if book.has_journal_text or book.journal.length < LEAST:
        return
    seen = seen_export(book)
    if seen.is_known():
        with contextlib.suppress(OSError):
            text = seen.file.read_bytes()
            # somebody may write it meanwhile
            if seen.is_still_so():
                book.journal_text = text


def journal_of(book: Book) -> bytes:
    """The journal, as the program reads it."""
    read_exported(book)
    if not book.has_journal_text and book.journal.length >= LEAST:
        keep_if_same(book, seen_export(book))
    return book.command_file()


def keep_if_same(book: Book, seen: SeenBefore) -> None:
    """The next calls know the export, if it is what the database has."""
    text = book.command_file()
    with contextlib.suppress(OSError):
        if seen.file.stat().st_size == len(text) and seen.file.read_bytes() == text:
            seen.keep()


@contextlib.contextmanager
def read_beside(book: Book) -> Iterator[None]:
    """The journal is there, or is read beside what is done within."""
    read_exported(book)
    if book.has_journal_text or book.journal.length < LEAST:
        with book.journal_read_beside():
            yield
        return
    seen = seen_export(book)
    with book.journal_read_beside():
        yield
    keep_if_same(book, seen)
