"""What was computed of a book, kept as long as the book is as it was then."""
from __future__ import annotations

import contextlib
import os
import pathlib
import threading
import zlib
from collections import OrderedDict
from collections.abc import Callable
from typing import TypeVar, cast

from gudokeyi.domain.changes import NO_MARK, Mark
from gudokeyi.store.book import Book, BookState
from gudokeyi.store.database import with_unfinished

Stamp = tuple[object, ...]
Value = TypeVar("Value")
# so many values are kept
MOST_CACHED = 64
# so many bytes a file beside the book begins with that tell what it is of
BEGINNING = 32


class BookCache:
    """Values by what they are, each of a book after a change."""

    def __init__(self) -> None:
        self.lock = threading.Lock()
        # what is being computed: others who want it wait for it
        self.under_way: dict[tuple[object, ...], threading.Lock] = {}
        self.values: OrderedDict[tuple[object, ...], object] = OrderedDict()

    def of(self, book: Book, what: tuple[object, ...], compute: Callable[[], Value]) -> Value:
        """The value of this book, which is computed where it isn't kept."""
        key = (mark_of(book), *what)
        with self.lock:
            if key in self.values:
                return cast(Value, self.values[key])
            turn = self.under_way.setdefault(key, threading.Lock())
        with turn:
            with self.lock:
                if key in self.values:
                    return cast(Value, self.values[key])
            value = compute()
            with self.lock:
                self.values[key] = value
                self.under_way.pop(key, None)
                while len(self.values) > MOST_CACHED:
                    self.values.popitem(last=False)
        return value


def mark_of(book: Book) -> Mark:
    """By which it is seen whether a book is another than before."""
    return book.change.mark if book.change else NO_MARK


def stamp_of(book: Book) -> Stamp:
    """By which it is seen that a book or its file is another than before."""
    file, *beside = with_unfinished(book.path)
    files = (state_of(file), *map(state_beside, beside))
    return (mark_of(book), *filter(None, files))


def state_of(path: pathlib.Path) -> Stamp:
    """That of a file; an empty one is as one that isn't there. Whoever writes it can't set when its entry was
    changed."""
    found = stat_of(path)
    return (found.st_ino, found.st_size, found.st_mtime_ns, found.st_ctime_ns) if found else ()


def state_beside(path: pathlib.Path) -> Stamp:
    """That of a file beside. SQLite touches its entry where it is opened by root, and writes a new beginning where it
    is written anew."""
    found = stat_of(path)
    if not found:
        return ()
    try:
        with open(path, "rb") as file:
            return found.st_ino, found.st_size, found.st_mtime_ns, file.read(BEGINNING)
    except OSError:
        # it may go meanwhile
        return ()


def stat_of(path: pathlib.Path) -> os.stat_result | None:
    """None where there is no file, or an empty one."""
    try:
        found = path.stat()
    except (FileNotFoundError, NotADirectoryError):
        return None
    return found if found.st_size else None


class StateKept:
    """All animals of the book that a process looked at last, for the next look at it: they are read again where the
    book or its file is another."""

    def __init__(self) -> None:
        self.kept: tuple[pathlib.Path, Stamp, BookState] | None = None
        # the journal of that book, once it was read
        self.journal_text: bytes | None = None

    def give(self, book: Book) -> None:
        """The book has all animals, and the journal where it was kept."""
        if not book.is_there:
            return
        stamp = stamp_of(book)
        if self.kept and self.kept[:2] == (book.path, stamp):
            book.begin_with(self.kept[2])
            if self.journal_text is not None:
                book.journal_text = self.journal_text
        else:
            self.kept = self.journal_text = None
            self.kept = book.path, stamp, book.state()


    def keep_journal(self, book: Book) -> None:
        """That of the book to which all animals were given."""
        if book.is_there and book.has_journal_text:
            self.journal_text = book.journal_text


# Files in the caches of who asks: nothing is lost where they go, and where none can be written there are none.


def cached_file(name: str) -> pathlib.Path:
    return pathlib.Path(os.environ.get("XDG_CACHE_HOME") or os.path.expanduser("~/.cache"), "gudokeyi", name)


def cache(path: pathlib.Path, content: bytes) -> None:
    with contextlib.suppress(OSError):
        path.parent.mkdir(parents=True, exist_ok=True)
        written = path.with_suffix(f".{os.getpid()}")
        # nobody else writes it, whatever is usual here
        written.touch(0o600)
        written.write_bytes(content)
        written.replace(path)


# What was seen of a book by a call is known to the next ones, as long as neither its file nor another is another.


class SeenBefore:
    """That a call saw something of a book and of another file; the ending says what, as `whole` that the coefficients
    of the book are those of the program, which is the file. It is kept by the name of the book's file in the caches of
    who asks. Where nothing can be kept it is seen anew each time."""

    def __init__(self, book: Book, file: pathlib.Path, ending: str = "whole") -> None:
        self.path = str(book.path.resolve())
        self.place = cached_file(f"{zlib.crc32(os.fsencode(self.path)):08x}.{ending}")
        self.book, self.file = book, file
        self.stamp = self.now()

    def now(self) -> bytes:
        return os.fsencode(repr((self.path, stamp_of(self.book), str(self.file), state_of(self.file))))

    def is_known(self) -> bool:
        with contextlib.suppress(OSError):
            return self.place.read_bytes() == self.stamp
        return False

    def is_still_so(self) -> bool:
        """Are both files as they were when this began?"""
        return self.now() == self.stamp

    def keep(self) -> None:
        """It was seen of the files as they were when this began; of one that was written meanwhile it isn't kept."""
        if self.is_still_so():
            cache(self.place, self.stamp)
