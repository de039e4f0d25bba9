"""Copies a book as a whole, and brings it back from a copy, which is read once, since it may be a pipe."""
from __future__ import annotations

import contextlib
import pathlib
import secrets
import sqlite3
import tempfile
import time
from collections.abc import Callable
from typing import BinaryIO

from gudokeyi.domain.changes import NO_MARK, Mark, Source
from gudokeyi.domain.messages import Mistake
from gudokeyi.process import stop_no_more
from gudokeyi.store.database import (
    DAMAGED, companions, connect, path_of, primary, statements, told, version_of, with_unfinished,
)  # fmt: skip
from gudokeyi.store.files import put, source_of, sync_folder
from gudokeyi.store.history import last_change
from gudokeyi.store.legacy.files import OLD, is_old
from gudokeyi.store.legacy.old_folder import are_exports, keep_files
from gudokeyi.store.messages import BackupFault, BookFault
from gudokeyi.store.transactions import (
    bytes_of, copy_of, file_of, make_folder, opened_to_read, reading, set_write_ahead,
)  # fmt: skip
from gudokeyi.store.views import VIEWS

# A backup that somebody gave, as it is read: once, since it may be a pipe, or another one a moment later.


def acting(connection: sqlite3.Connection) -> bool:
    """Has it triggers, or views that aren't a book's own?"""
    asked = "SELECT sql FROM sqlite_schema WHERE type IN ('trigger', 'view')"
    own = {f"{text}".strip().removesuffix(";") for text in statements(VIEWS)}
    return any(sql not in own for (sql,) in connection.execute(asked))


def read_once(path: pathlib.Path, copy: pathlib.Path) -> tuple[Source, int]:
    """Makes a copy of a backup; answers what is kept of what was read, and the version of its tables."""
    with tempfile.TemporaryDirectory(prefix="gudokeyi-") as room:
        read = taken_into(pathlib.Path(room), path)
        source = source_of(path, read.read_bytes())
        try:
            with opened_to_read(read) as connection:
                version = version_of(connection, path)
                if not version:
                    raise Mistake(BackupFault.NO_BOOK.said(path=path))
                if acting(connection):
                    raise Mistake(BackupFault.ACTS.said(path=path))
                copy.write_bytes(bytes_of(connection))
        except OSError as error:
            raise Mistake(BackupFault.NOT_RESTORED.said(path=path, error=error.strerror or str(error))) from None
        except sqlite3.Error as error:
            fault = BackupFault.DAMAGED if primary(error) in DAMAGED else BackupFault.NOT_RESTORED
            raise Mistake(fault.said(path=path, error=str(error))) from None
    return source, version


def taken_into(room: pathlib.Path, path: pathlib.Path) -> pathlib.Path:
    """A copy of a backup as it is now, with what isn't in the file yet; a pipe has all of it, and only once."""
    try:
        with open(path, "rb") as file:
            if path.is_file():
                return copy_of(path, room)
            read = room / "book.sqlite"
            read.write_bytes(file.read())
            return read
    except OSError as error:
        raise Mistake(BackupFault.NOT_READ.said(path=path, error=error.strerror or str(error))) from None


# Copies a book as a whole, and brings it back from a copy.


def copied(connection: sqlite3.Connection) -> BinaryIO:
    """A book as one file, which is there as long as it is open; what keeps its copy from being made is told of the
    place where that is, and not of the book."""
    try:
        return file_of(connection)
    except (sqlite3.Error, OSError) as error:
        if isinstance(error, sqlite3.Error) and primary(error) in DAMAGED:
            raise
        raise Mistake(BackupFault.NO_ROOM.said(folder=tempfile.tempdir, error=str(error))) from None


def mark_now(folder: pathlib.Path) -> Mark | None:
    """The mark of the book that is there, also where there is none; none where it is damaged."""
    try:
        with reading(folder) as connection:
            change = last_change(connection) if connection else None
            return change.mark if change else NO_MARK
    except (sqlite3.Error, Mistake):
        return None


def has_file(folder: pathlib.Path) -> bool:
    """Is there a book, or a file in its place, though it may be damaged?"""
    path = path_of(folder)
    if not path.exists():
        return False
    try:
        with opened_to_read(path) as connection:
            return version_of(connection, path) > 0
    except (sqlite3.Error, Mistake):
        return True


def has_old_files(folder: pathlib.Path) -> bool:
    """Is the book that is there one of version 0.11, whose files are the book?"""
    return is_old(folder) and not has_file(folder) and not are_exports(folder)


def put_in_place(folder: pathlib.Path, copy: pathlib.Path, keep: Callable[[], None]) -> None:
    """Makes a copy the book of a folder. Whoever asks it meanwhile is answered from the one or the other. Nobody
    changes it from before `keep` on, which keeps what is there, or raises why nothing is to be done."""
    path = path_of(folder)
    with contextlib.closing(connect(copy, "rw")) as source:
        if not path.exists():
            make_folder(folder)
        try:
            with contextlib.closing(connect(path, "rwc")) as target:
                version_of(target, path)
                give_pages(source, target)
                # readers don't wait then, of whom `keep` is one
                set_write_ahead(target)
                copy_into(source, target, keep)
                return
        except sqlite3.Error as error:
            if primary(error) not in DAMAGED:
                raise told(error, path) from None
        except OSError as error:
            raise Mistake(BookFault.FOLDER_CLOSED.said(folder=folder, error=error)) from None
    replace_damaged(path, copy, keep)


def give_pages(source: sqlite3.Connection, target: sqlite3.Connection) -> None:
    """Gives a database pages of the size that those of another one have, where else it can't be copied into that."""
    size, wanted = (one.execute("PRAGMA page_size").fetchone()[0] for one in (source, target))
    if size != wanted:
        source.execute(f"PRAGMA page_size = {wanted}")
        source.execute("VACUUM")


def copy_into(source: sqlite3.Connection, target: sqlite3.Connection, begin: Callable[[], None]) -> None:
    """Makes a database what another one is, in one change of it; what is done to begin is done within that."""
    begun: list[int] = []

    def begin_once(status: int, left: int, _pages: int) -> None:
        # from its first page on nobody else changes it
        if status == sqlite3.SQLITE_OK and not begun:
            begun.append(status)
            begin()
        # with its last page the change is made
        if left <= 1:
            stop_no_more()

    source.backup(target, pages=1, progress=begin_once)


def keep_old(folder: pathlib.Path) -> None:
    """Copies the files of the book that is there to the folder `old`, where they have names that nothing has."""
    path = path_of(folder)
    if has_old_files(folder):
        keep_files(folder)
    if not has_file(folder):
        return
    old = folder / OLD
    old.mkdir(exist_ok=True)
    name = f"book-{time.strftime('%Y%m%d-%H%M%S')}-{secrets.token_hex(3)}.sqlite"
    try:
        with opened_to_read(path) as connection:
            put(old / name, bytes_of(connection))
            return
    except (sqlite3.Error, Mistake):
        # a damaged one is kept as it is
        for one in with_unfinished(path):
            if one.exists():
                put(old / one.name.replace(path.name, name), one.read_bytes())


def replace_damaged(path: pathlib.Path, copy: pathlib.Path, keep: Callable[[], None]) -> None:
    """Puts a copy in the place of a file that isn't a database any more. What stands beside that would be taken for a
    part of the copy, and goes first."""
    try:
        keep()
        for one in companions(path)[1:]:
            one.unlink(missing_ok=True)
        sync_folder(path.parent)
        stop_no_more()
        put(path, copy.read_bytes())
    except OSError as error:
        raise Mistake(f"{path} can't be written ({error.strerror or error}): it is damaged as before") from None
