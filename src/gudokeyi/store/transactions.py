"""A book as it is read, one moment of it whatever is changed meanwhile, also in a folder without rights; and as it is
changed, by one at a time, whole or not at all."""
from __future__ import annotations

import contextlib
import pathlib
import sqlite3
import threading
import time
from collections.abc import Callable, Iterator
from typing import BinaryIO, TypeVar

from gudokeyi.domain.messages import CALLED
from gudokeyi.domain.mistakes import BookBusy, BookUnusable, NoBook
from gudokeyi.domain.waiting import seconds_left
from gudokeyi.store.database import (
    CLOSED, TRIES, connect, connect_to_hold, is_empty, migrate, path_of, primary, told, version_of, with_unfinished,
)  # fmt: skip
from gudokeyi.store.messages import BookFault
from gudokeyi.store.schema import VERSION

# A book as it is read: one moment of it, whatever is changed meanwhile, also in a folder without rights.

# so much of a book is kept in memory
MOST_KILOBYTES = 64_000
# by which it is seen whether a file was changed
FileMark = tuple[int, int, int]
MISSING: FileMark = (0, 0, 0)
# how the names of sheets end
SHEETS = (".csv", ".xlsx")


@contextlib.contextmanager
def reading(folder: pathlib.Path) -> Iterator[sqlite3.Connection | None]:
    """The book of a folder as it is now, whatever is changed meanwhile; none where there is no book."""
    path = path_of(folder)
    if not path.exists():
        yield None
        return
    with contextlib.ExitStack() as stack:
        try:
            connection = stack.enter_context(opened_to_read(path))
            yield None if version_of(connection, path) == 0 else connection
        except sqlite3.Error as error:
            raise told(error, path) from None


@contextlib.contextmanager
def reading_up_to_date(folder: pathlib.Path) -> Iterator[sqlite3.Connection | None]:
    """The same, of this version: a book of an earlier one is made one before."""
    with contextlib.ExitStack() as stack:
        connection = stack.enter_context(reading(folder))
        if connection is not None and version_of(connection, path_of(folder)) != VERSION:
            stack.close()
            up_to_date(folder)
            connection = stack.enter_context(reading(folder))
        yield connection


def no_book(folder: pathlib.Path) -> NoBook:
    """With the command that takes the only sheet that is here, if there is one."""
    from gudokeyi.domain.findings import Call, Suggestion

    there = "" if folder.is_absolute() else ", or go to the folder in which you took one"
    sheets = [path for path in pathlib.Path().iterdir() if path.suffix.lower() in SHEETS and path.is_file()]
    if len(sheets) != 1:
        hint = f": `{CALLED} import --help` says how"
        return NoBook(BookFault.NO_BOOK.said(folder=folder, there=there, hint=hint))
    command = Call((str(sheets[0]),), folder).command(Suggestion(""))
    told = BookFault.NO_BOOK.said(folder=folder, there=there, hint="")
    return NoBook(told, BookFault.ONLY_SHEET.said(sheet=sheets[0], command=command))


@contextlib.contextmanager
def opened_to_read(path: pathlib.Path) -> Iterator[sqlite3.Connection]:
    """A connection with a transaction that reads. In a folder without rights that is one to a copy."""
    with contextlib.ExitStack() as stack:
        try:
            connection = stack.enter_context(contextlib.closing(connect(path, "rw")))
            connection.execute("PRAGMA query_only = ON")
            # else the whole of a large book is read again for each question
            connection.execute(f"PRAGMA cache_size = {-MOST_KILOBYTES}")
            begin_to_read(connection)
        except sqlite3.OperationalError as error:
            if primary(error) not in CLOSED:
                raise
            # every call would wait for it, and hardly one needs it
            import tempfile

            room = stack.enter_context(tempfile.TemporaryDirectory(prefix="gudokeyi-"))
            connection = stack.enter_context(contextlib.closing(connect(copy_of(path, pathlib.Path(room)), "rw")))
            begin_to_read(connection)
        yield connection


def begin_to_read(connection: sqlite3.Connection) -> None:
    connection.execute("BEGIN")
    connection.execute("SELECT count(*) FROM sqlite_schema").fetchone()


class HeldOpen:
    """Keeps what stands beside the file of a book as long as somebody goes on to ask it. By itself the last connection
    that ends puts what isn't in the file yet into that: so the file would be another one again and again, and it would
    have to be seen anew whether the book is whole, though nobody changed it."""

    def __init__(self, folder: pathlib.Path) -> None:
        self.path, self.lock = path_of(folder), threading.Lock()
        self.connections, self.held = list[sqlite3.Connection](), MISSING

    def hold(self) -> None:
        """Holds the file that is there now; another one may have come to its place."""
        if mark_of_file(self.path) == self.held:
            return
        with self.lock:
            if mark_of_file(self.path) != self.held:
                self.let_go()
                self.hold_anew()
                self.held = mark_of_file(self.path)

    def hold_anew(self) -> None:
        with contextlib.suppress(sqlite3.Error):
            # one that only reads puts nothing into the file as it ends, and takes away nothing beside it
            self.connections.append(connect_to_hold(self.path))
            self.connections[0].execute("SELECT count(*) FROM sqlite_schema").fetchone()

    def let_go(self) -> None:
        while self.connections:
            self.connections.pop().close()
        self.held = MISSING

    def end(self) -> None:
        """Leaves the file as the last one who asks leaves it."""
        with self.lock:
            self.let_go()


def bytes_of(connection: sqlite3.Connection) -> bytes:
    """A database as one file, with nothing beside it."""
    with file_of(connection) as file:
        return file.read()


def file_of(connection: sqlite3.Connection) -> BinaryIO:
    """The same, which is there as long as it is open."""
    import tempfile

    with tempfile.TemporaryDirectory(prefix="gudokeyi-") as room:
        path = pathlib.Path(room) / "book.sqlite"
        with contextlib.closing(sqlite3.connect(path, isolation_level=None)) as copy:
            connection.backup(copy)
            copy.execute("PRAGMA journal_mode = DELETE")
        return open(path, "rb")


def copy_of(path: pathlib.Path, room: pathlib.Path) -> pathlib.Path:
    """A copy of a file and of what isn't in it yet, both of one moment, though others may be changing them."""
    import shutil

    # SQLite has what isn't in it yet beside the file itself, and not beside a link to it
    path = path.resolve()
    copy = room / path.name
    for _ in range(TRIES):
        before = marks(path)
        try:
            for one in with_unfinished(path):
                target = room / one.name
                target.unlink(missing_ok=True)
                if one.exists():
                    shutil.copyfile(one, target)
        except OSError as error:
            raise BookUnusable(BookFault.CANT_BE_READ.said(path=path, error=error)) from None
        if marks(path) == before:
            return copy
        time.sleep(0.05)
    raise BookBusy(BookFault.ALWAYS_CHANGED.said(path=path))


def marks(path: pathlib.Path) -> list[FileMark]:
    """Those of a file and of what isn't in it yet."""
    return [mark_of_file(one) for one in with_unfinished(path)]


def mark_of_file(path: pathlib.Path) -> FileMark:
    try:
        stat = path.stat()
    except FileNotFoundError:
        return MISSING
    return stat.st_ino, stat.st_size, stat.st_mtime_ns


# A book as it is changed: by one at a time, whole or not at all.

Value = TypeVar("Value")

# so much of a book is kept in memory while it is changed
MOST_KILOBYTES_CHANGING = 64_000


class Overtaken(Exception):
    """Somebody else changed the book since a change of it was prepared: the change has to be prepared anew."""


class BookCame(Overtaken):
    """Where there was no book when a change began there is one now: the change has to begin again, with that book."""


def anew_where_a_book_came(change: Callable[[], Value]) -> Value:
    """Makes a change, anew where meanwhile somebody else made the book that wasn't there."""
    while True:
        with contextlib.suppress(BookCame):
            return change()


@contextlib.contextmanager
def changing(folder: pathlib.Path) -> Iterator[sqlite3.Connection | None]:
    """The book of a folder, which nobody else changes until this ends; none where there is no book. Other changes are
    waited for. Without `commit` the book stays as it was."""
    path = path_of(folder)
    if not path.exists():
        yield None
        return
    try:
        with contextlib.closing(connect(path, "rw")) as connection:
            if version_of(connection, path) == 0:
                yield None
                return
            begin_to_change(connection)
            version = version_of(connection, path)
            if version < VERSION:
                migrate(connection, version)
            yield connection
    except sqlite3.Error as error:
        raise told(error, path) from None


@contextlib.contextmanager
def creating(folder: pathlib.Path) -> Iterator[sqlite3.Connection]:
    """A new book in a folder, which is made where only its own name isn't there yet; raises `BookCame`."""
    path = path_of(folder)
    made = make_folder(folder)
    try:
        with contextlib.closing(connect(path, "rwc")) as connection:
            version_of(connection, path)
            begin(connection)
            if version_of(connection, path):
                raise BookCame
            migrate(connection, 0)
            yield connection
    except sqlite3.Error as error:
        if made:
            with contextlib.suppress(OSError):
                folder.rmdir()
        raise told(error, path) from None


def up_to_date(folder: pathlib.Path) -> None:
    """Makes of a book of an earlier version one of this version."""
    with reading(folder) as connection:
        if connection is None or version_of(connection, path_of(folder)) == VERSION:
            return
    with changing(folder) as connection:
        if connection is not None:
            connection.execute("COMMIT")


def make_folder(folder: pathlib.Path) -> bool:
    """Was the folder made? It isn't where it is there; that in which it is to be has to be there."""
    try:
        folder.mkdir()
    except FileExistsError:
        if folder.is_dir():
            return False
        raise BookUnusable(BookFault.FOLDER_IS_FILE.said(folder=folder)) from None
    except FileNotFoundError:
        raise BookUnusable(BookFault.NO_FOLDER.said(folder=folder.parent)) from None
    except OSError as error:
        raise BookUnusable(BookFault.FOLDER_CLOSED.said(folder=folder, error=error)) from None
    return True


def begin_to_change(connection: sqlite3.Connection) -> None:
    """Waits until nobody else changes the book."""
    if not is_write_ahead(connection):
        set_write_ahead(connection)
    begin(connection)


def begin(connection: sqlite3.Connection) -> None:
    """The same of a book that nobody reads yet: it is written into its file once, and not beside it before. Where that
    doesn't end, what is there of it is cut off again."""
    # a change is on the disk where it is made, and so is that nothing of it is to be taken back
    connection.execute("PRAGMA synchronous = EXTRA")
    # else what a large sheet changes is written again and again while it is changed
    connection.execute(f"PRAGMA cache_size = {-MOST_KILOBYTES_CHANGING}")
    connection.execute("PRAGMA wal_autocheckpoint = 0")
    connection.execute("BEGIN IMMEDIATE")


def is_write_ahead(connection: sqlite3.Connection) -> bool:
    return bool(connection.execute("PRAGMA journal_mode").fetchone()[0] == "wal")


def set_write_ahead(connection: sqlite3.Connection) -> None:
    """Readers don't wait then. Two that make the same book at once may be in each other's way here for a moment."""
    for _ in range(TRIES):
        try:
            connection.execute("PRAGMA journal_mode = WAL")
            return
        except sqlite3.OperationalError as error:
            if primary(error) != sqlite3.SQLITE_BUSY:
                raise
            time.sleep(0.05)
    connection.execute("PRAGMA journal_mode = WAL")


def commit(connection: sqlite3.Connection, folder: pathlib.Path, change: int, time_of_change: int) -> None:
    """Ends a change: from here on it is in the book, or a mistake says that it isn't."""
    path = path_of(folder)
    try:
        connection.execute("COMMIT")
    except sqlite3.Error as error:
        with contextlib.suppress(sqlite3.Error):
            connection.execute("ROLLBACK")
        connection.close()
        if not is_made(path, change, time_of_change):
            raise told(error, path) from None
        return
    with contextlib.suppress(sqlite3.Error):
        if is_write_ahead(connection):
            checkpoint(connection)
        else:
            set_write_ahead(connection)


def checkpoint(connection: sqlite3.Connection) -> None:
    """Puts what was changed into the file itself, as far as nobody reads what was before: a later change does the rest.
    To wait for readers would keep others from changing the book."""
    connection.execute("PRAGMA busy_timeout = 0")
    try:
        connection.execute("PRAGMA wal_checkpoint(TRUNCATE)")
    finally:
        connection.execute(f"PRAGMA busy_timeout = {round(seconds_left() * 1000)}")


def is_made(path: pathlib.Path, change: int, time_of_change: int) -> bool:
    """Is a change in the book of which the end failed? What of it stands beside the file alone is put into it, or
    dropped."""
    try:
        with contextlib.closing(connect(path, "rw")) as connection:
            with contextlib.suppress(sqlite3.Error):
                checkpoint(connection)
            if is_empty(connection):
                return False
            found = connection.execute("SELECT 1 FROM change WHERE (change, time) = (?, ?)", (change, time_of_change))
            return found.fetchone() is not None
    except sqlite3.Error as error:
        raise BookUnusable(BookFault.UNSURE.said(path=path, error=error, change=change, called=CALLED)) from None
