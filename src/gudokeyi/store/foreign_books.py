"""Whether the database of a backup, which anybody may have made, is one as a herd book has it: its tables, and the
names, actors and times in them."""
from __future__ import annotations

import contextlib
import pathlib
import re
import sqlite3
from collections.abc import Iterator

from gudokeyi.domain.messages import Mistake
from gudokeyi.domain.mistakes import InvalidValue
from gudokeyi.domain.requests import CONTROL
from gudokeyi.domain.settings import Setting
from gudokeyi.store.database import empty
from gudokeyi.store.messages import BackupFault
from gudokeyi.store.settings import checked

COMMENT = re.compile(r"--[^\n]*")
# so long names and actors are at most: books of earlier versions have longer ones than are filed now
MOST_LETTERS = 2_000
# in microseconds since 1970 began: the times that a clock tells, which may have been wrong as a book was changed, up to
# the last day that a book has, in 2199
FIRST_TIME, LAST_TIME = 1, 7_258_118_399_999_999
# what names somebody or something in a book, by its tables and columns. Free texts, as notes, may have what earlier
# versions took, and a backup of such a book is restored: pages and terminals show no text but escaped
NAMES = {
    "change": ("login",), "animal": ("id", "name"), "owner": ("name",), "setting": ("setting",), "former_id": ("id",),
    "note": ("author",),
}  # fmt: skip
# the settings that aren't free texts
CHOSEN = (Setting.BREED, Setting.COUNTRY, Setting.LANGUAGE)


def refuse_foreign(connection: sqlite3.Connection, path: pathlib.Path) -> None:
    """A mistake where a database of this version isn't a book's."""
    with contextlib.closing(empty()) as own:
        if tables_of(connection) != tables_of(own):
            raise Mistake(BackupFault.OTHER_TABLES.said(path=path))
    number = connection.execute(
        "SELECT change FROM change WHERE time NOT BETWEEN ? AND ? LIMIT 1", (FIRST_TIME, LAST_TIME)
    ).fetchone()
    if number:
        raise Mistake(BackupFault.NO_TIME.said(path=path, change=number[0]))
    if any(is_foreign(text) for text in names_of(connection)):
        raise Mistake(BackupFault.ODD_NAMES.said(path=path))
    is_nobodys = connection.execute("SELECT 1 FROM change WHERE trim(login) = '' LIMIT 1").fetchone()
    if is_nobodys or has_odd_settings(connection):
        raise Mistake(BackupFault.ODD_NAMES.said(path=path))


def has_odd_settings(connection: sqlite3.Connection) -> bool:
    """Has it letters or a language that nobody can choose?"""
    kept = dict(connection.execute("SELECT setting, value FROM setting"))
    try:
        for setting in CHOSEN:
            checked(setting, kept.get(setting.value, ""))
    except InvalidValue:
        return True
    return False


def tables_of(connection: sqlite3.Connection) -> set[tuple[str, str, str]]:
    """The tables and indexes, as they were made, without comments and blanks."""
    made = "sql IS NOT NULL AND name NOT LIKE 'sqlite_stat%'"
    rows = connection.execute(f"SELECT type, name, sql FROM sqlite_schema WHERE {made}")
    return {(kind, name, "".join(COMMENT.sub("", sql).split())) for kind, name, sql in rows}


def names_of(connection: sqlite3.Connection) -> Iterator[str]:
    for table, columns in NAMES.items():
        for column in columns:
            for (text,) in connection.execute(f"SELECT DISTINCT {column} FROM {table} WHERE {column} IS NOT NULL"):
                yield text


def is_foreign(text: str) -> bool:
    return len(text) > MOST_LETTERS or CONTROL.search(text) is not None
