"""The file `book.sqlite`: its name, its connections, the version of its tables, and the sentences where something is
wrong with it. Nothing is touched then."""
from __future__ import annotations

import contextlib
import os
import pathlib
import sqlite3
import urllib.parse
from collections.abc import Iterator

from gudokeyi.domain.messages import CALLED, Mistake
from gudokeyi.domain.mistakes import BookBusy, BookUnusable
from gudokeyi.domain.waiting import MOST_SECONDS, SECONDS_OF_PAGE, is_short, seconds_left
from gudokeyi.store.messages import BookFault
from gudokeyi.store.schema import APPLICATION, MIGRATIONS, VERSION

DATABASE = "book.sqlite"
# beside it, and no part of it, where those who may use the book have accounts
ACCOUNTS = "accounts.sqlite"
# so often something is tried of a file that others are changing
TRIES = 200
FULL = (sqlite3.SQLITE_FULL,)
# so many bytes are needed beside a file before anything can be read
LEAST_ROOM = 128 << 10
DAMAGED = (sqlite3.SQLITE_CORRUPT, sqlite3.SQLITE_NOTADB)
CLOSED = (sqlite3.SQLITE_CANTOPEN, sqlite3.SQLITE_READONLY, sqlite3.SQLITE_PERM)


def path_of(folder: pathlib.Path) -> pathlib.Path:
    return folder / DATABASE


def companions(path: pathlib.Path) -> tuple[pathlib.Path, ...]:
    """The file and those that stand beside it while it is used."""
    return tuple(path.with_name(path.name + suffix) for suffix in ("", "-wal", "-shm", "-journal"))


def with_unfinished(path: pathlib.Path) -> tuple[pathlib.Path, ...]:
    """The file, and those beside it that have what isn't in it yet, or how much of it was there before a change that
    hasn't ended."""
    return tuple(path.with_name(path.name + suffix) for suffix in ("", "-wal", "-journal"))


def primary(error: sqlite3.Error) -> int:
    """The kind of an error, without its details; 0 where it has none."""
    try:
        return error.sqlite_errorcode & 0xFF
    except AttributeError:
        return 0


class NotAllowed(sqlite3.OperationalError):
    """Somebody may not write a file. SQLite would read it all the same, and leave files beside it that aren't those of
    its owner, who couldn't change the book any more."""

    sqlite_errorcode = sqlite3.SQLITE_READONLY


def connect(path: pathlib.Path, mode: str, check_same_thread: bool = True) -> sqlite3.Connection:
    if path.exists() and not os.access(path, os.W_OK):
        raise NotAllowed("it belongs to somebody else, and is only to be read")
    address = f"file:{urllib.parse.quote(os.fsencode(path.absolute()))}?mode={mode}"
    connection = sqlite3.connect(
        address, uri=True, timeout=seconds_left(), isolation_level=None, check_same_thread=check_same_thread
    )
    connection.execute("PRAGMA foreign_keys = ON")
    return connection


def connect_to_whole(path: pathlib.Path) -> sqlite3.Connection:
    """One that reads a file alone, and writes nothing beside it."""
    address = f"file:{urllib.parse.quote(os.fsencode(path.absolute()))}?mode=ro&immutable=1"
    return sqlite3.connect(address, uri=True, isolation_level=None)


def connect_to_hold(path: pathlib.Path) -> sqlite3.Connection:
    """One that any thread may close."""
    return connect(path, "ro", check_same_thread=False)


def empty() -> sqlite3.Connection:
    """A book that has nothing yet, and stands in no file."""
    # an import asks it beside its writing too
    connection = sqlite3.connect(":memory:", isolation_level=None, check_same_thread=False)
    migrate(connection, 0)
    return connection


def is_empty(connection: sqlite3.Connection) -> bool:
    """Has it no tables? So a call leaves it that was ended before its first change."""
    return bool(connection.execute("SELECT count(*) FROM sqlite_schema").fetchone()[0] == 0)


def version_of(connection: sqlite3.Connection, path: pathlib.Path) -> int:
    """The version of its tables, 0 where there are none; a mistake where this isn't a herd book, or a newer one."""
    # it is looked at first: another may make the book meanwhile, whose tables come with both of these
    has_no_tables = is_empty(connection)
    application = connection.execute("PRAGMA application_id").fetchone()[0]
    version = int(connection.execute("PRAGMA user_version").fetchone()[0])
    if has_no_tables and application in (0, APPLICATION):
        return 0
    if application != APPLICATION or version < 1:
        raise BookUnusable(BookFault.OTHER_PROGRAM.said(path=path))
    if version > VERSION:
        raise BookUnusable(BookFault.NEWER.said(path=path, version=version, known=VERSION))
    return version


def migrate(connection: sqlite3.Connection, version: int) -> None:
    """Makes of a file of an earlier version one of this version, within the transaction that is under way."""
    for script in MIGRATIONS[version:]:
        for statement in statements(script):
            connection.execute(statement)
    connection.execute(f"PRAGMA application_id = {APPLICATION}")
    connection.execute(f"PRAGMA user_version = {VERSION}")


def begin_anew(connection: sqlite3.Connection, version: int) -> None:
    """Begins to change a copy, which nobody else has, and makes one of this version of it."""
    connection.execute("BEGIN IMMEDIATE")
    if version < VERSION:
        migrate(connection, version)


def end_anew(connection: sqlite3.Connection) -> None:
    connection.execute("COMMIT")


def statements(script: str) -> Iterator[str]:
    """The statements of a script one by one: a script as a whole would end the transaction."""
    statement = ""
    for line in script.splitlines(keepends=True):
        statement += line
        if sqlite3.complete_statement(statement):
            yield statement
            statement = ""


def told(error: sqlite3.Error, path: pathlib.Path) -> Mistake:
    """The sentence for what SQLite reports of a file that isn't changed then."""
    kind = primary(error)
    if kind in DAMAGED:
        return BookUnusable(BookFault.DAMAGED.said(path=path, error=error, called=CALLED))
    if kind in FULL or is_full(path):
        return BookUnusable(BookFault.NO_ROOM.said(path=path))
    if kind == sqlite3.SQLITE_BUSY:
        return busy() if is_short() else BookBusy(BookFault.BUSY.said(path=path, minutes=MOST_SECONDS // 60))
    return BookUnusable((BookFault.CLOSED if kind in CLOSED else BookFault.OTHER).said(path=path, error=error))


def is_full(path: pathlib.Path) -> bool:
    """Is there no room on the disk of a file? Of one SQLite tells only that it fails, where it can't even begin to
    read: what it has beside a file needs room too."""
    with contextlib.suppress(OSError):
        disk = os.statvfs(path.parent)
        return disk.f_bavail * disk.f_frsize < LEAST_ROOM
    return False


def busy() -> BookBusy:
    """What a page says that waited for others for as long as it may."""
    return BookBusy(BookFault.BUSY_NOW.said(seconds=SECONDS_OF_PAGE))


def damages_of(connection: sqlite3.Connection, quickly: bool, most: int) -> list[str]:
    """What SQLite tells of damaged tables, and but for a quick look of indexes, in its words; so much at most."""
    check = "quick_check" if quickly else "integrity_check"
    found = [text for (text,) in connection.execute(f"PRAGMA {check}({most})") if text != "ok"]
    if found:
        return found
    broken = connection.execute("PRAGMA foreign_key_check").fetchmany(most)
    return [f"a row of the table {table} names one of {parent} that isn't there" for table, _, parent, _ in broken]
