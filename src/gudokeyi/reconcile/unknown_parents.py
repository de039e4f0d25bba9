"""Which texts stand for an unknown parent in a book: the same for its sheets, its pedigrees and commands by hand."""
from __future__ import annotations

from collections.abc import Collection, Iterable

from gudokeyi.domain.kinds import Remembered
from gudokeyi.domain.settings import Setting
from gudokeyi.ingest.unknown_parents import UnknownParents
from gudokeyi.ingest.texts import listed
from gudokeyi.store.book import Book
from gudokeyi.store.settings import settings_of


def unknown_parents(book: Book, more: Collection[str] = (), known: Collection[str] = ()) -> UnknownParents:
    """The usual ones, and those that the book's sheets and its settings name. What is said now to be one besides, or
    not to be one, holds over these."""
    named, excepted = (remembered(book, kind) for kind in (Remembered.UNKNOWN, Remembered.KNOWN))
    named |= words_of([settings_of(book)[Setting.UNKNOWN]])
    unknown = (named - words_of(known)) | words_of(more)
    return UnknownParents(unknown, (excepted | words_of(known)) - unknown)


def remembered(book: Book, kind: Remembered) -> set[str]:
    return words_of(one.word for one in book.remembered if one.what is kind)


def words_of(options: Iterable[str]) -> set[str]:
    """The words of options, each of which may be several, in small letters."""
    return {word.casefold() for one in options for word in listed(one)}
