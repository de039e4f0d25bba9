"""The file `accounts.sqlite` beside the book, which nobody reads but its owner: its tables and its connections. It is
no part of the book: neither undo nor a backup brings back an account."""
from __future__ import annotations

import contextlib
import os
import pathlib
import secrets
import sqlite3
import stat
from collections.abc import Iterator

from gudokeyi.domain.messages import Mistake
from gudokeyi.domain.people import AccountRole
from gudokeyi.store.database import connect, connect_to_whole, is_full, primary, statements, with_unfinished
from gudokeyi.store.files import name_once
from gudokeyi.store.messages import AccountFault, BookFault

# what tells it from other databases: ACCT
APPLICATION = 0x41434354
MODE = 0o600
ROLES = ", ".join(f"'{role}'" for role in AccountRole)
# was the password given by a keeper, and is to be changed at the next login?
FOR_ONE_LOGIN = "for_one_login INTEGER NOT NULL DEFAULT 0"
VERSION = 1
TABLES = f"""
CREATE TABLE account (
    -- the name in small letters, by which it is found
    folded TEXT NOT NULL PRIMARY KEY,
    name TEXT NOT NULL CHECK (name <> ''),
    role TEXT NOT NULL CHECK (role IN ({ROLES})),
    salt BLOB NOT NULL,
    digest BLOB NOT NULL,
    n INTEGER NOT NULL,
    r INTEGER NOT NULL,
    p INTEGER NOT NULL,
    {FOR_ONE_LOGIN}
) STRICT, WITHOUT ROWID;

-- who is logged in, by the digest of the token that the browser has
CREATE TABLE login (
    digest BLOB NOT NULL PRIMARY KEY,
    folded TEXT NOT NULL REFERENCES account ON DELETE CASCADE,
    -- seconds since 1970 began
    began INTEGER NOT NULL
) STRICT, WITHOUT ROWID;

-- with which cookies are signed
CREATE TABLE signing (key BLOB NOT NULL) STRICT;
"""


@contextlib.contextmanager
def opened(path: pathlib.Path, reads: bool = False) -> Iterator[sqlite3.Connection]:
    """A connection for one question or change. One that only reads is there on a full disk too."""
    try:
        with contextlib.closing(reader(path) if reads else connect(path, "rw")) as connection:
            yield connection
    except sqlite3.Error as error:
        if primary(error) == sqlite3.SQLITE_BUSY:
            raise Mistake(AccountFault.BUSY.said()) from None
        if is_full(path):
            raise Mistake(BookFault.NO_ROOM.said(path=path)) from None
        raise Mistake(AccountFault.CANT_BE_USED.said(error=str(error))) from None


def reader(path: pathlib.Path) -> sqlite3.Connection:
    """Where there is no room for what stands beside a file that is asked, and nothing is missing in that, it alone."""
    connection = connect(path, "rw")
    try:
        connection.execute("SELECT count(*) FROM sqlite_schema").fetchone()
        return connection
    except sqlite3.Error:
        connection.close()
        if not is_full(path) or any(one.exists() and one.stat().st_size for one in with_unfinished(path)[1:]):
            raise
        return connect_to_whole(path)


def make(path: pathlib.Path) -> None:
    """Makes the file where it isn't there; it is whole or it isn't there."""
    if path.exists():
        return
    beside = path.with_name(f".{path.name}.{secrets.token_hex(8)}")
    try:
        os.close(os.open(beside, os.O_WRONLY | os.O_CREAT | os.O_EXCL | os.O_CLOEXEC, MODE))
        os.chmod(beside, MODE)
        with contextlib.closing(connect(beside, "rw")) as connection:
            connection.execute("BEGIN IMMEDIATE")
            for statement in statements(TABLES):
                connection.execute(statement)
            connection.execute("INSERT INTO signing VALUES (?)", (secrets.token_bytes(32),))
            connection.execute(f"PRAGMA application_id = {APPLICATION}")
            connection.execute(f"PRAGMA user_version = {VERSION}")
            connection.execute("COMMIT")
            connection.execute("PRAGMA journal_mode = WAL")
        with contextlib.suppress(FileExistsError):
            name_once(beside, path)
    except (OSError, sqlite3.Error) as error:
        raise Mistake(AccountFault.CLOSED.said(path=path, error=str(error))) from None
    finally:
        beside.unlink(missing_ok=True)


def copy(path: pathlib.Path, to: pathlib.Path) -> None:
    """Copies it, whole or not at all, to a place that has nothing yet."""
    beside = to.with_name(f".{to.name}.{secrets.token_hex(8)}")
    try:
        os.close(os.open(beside, os.O_WRONLY | os.O_CREAT | os.O_EXCL | os.O_CLOEXEC, MODE))
        with opened(path) as source, contextlib.closing(sqlite3.connect(beside, isolation_level=None)) as target:
            source.backup(target)
            target.execute("PRAGMA journal_mode = DELETE")
        name_once(beside, to)
    except (OSError, sqlite3.Error) as error:
        raise Mistake(AccountFault.CLOSED.said(path=to, error=str(error))) from None
    finally:
        beside.unlink(missing_ok=True)


def look_at(path: pathlib.Path) -> None:
    """A mistake where this is no file of accounts, or one that others may read."""
    mode = stat.S_IMODE(path.stat().st_mode)
    if mode & 0o077:
        raise Mistake(AccountFault.READ_BY_OTHERS.said(path=path))
    with opened(path) as connection:
        if connection.execute("PRAGMA application_id").fetchone()[0] != APPLICATION:
            raise Mistake(AccountFault.NO_ACCOUNTS.said(path=path))
        bring_up_to_date(connection)


def bring_up_to_date(connection: sqlite3.Connection) -> None:
    """Makes of a file of an earlier version one of this version, whose readers wait for nobody who changes it."""
    if connection.execute("PRAGMA journal_mode").fetchone()[0] != "wal":
        connection.execute("PRAGMA journal_mode = WAL")
    if connection.execute("PRAGMA user_version").fetchone()[0] >= VERSION:
        return
    connection.execute("BEGIN IMMEDIATE")
    if connection.execute("PRAGMA user_version").fetchone()[0] < VERSION:
        connection.execute(f"ALTER TABLE account ADD COLUMN {FOR_ONE_LOGIN}")
        connection.execute(f"PRAGMA user_version = {VERSION}")
    connection.execute("COMMIT")
