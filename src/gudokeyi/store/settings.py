"""What a society says of itself, which its certificates show, and the letters with which new numbers begin. It is kept
with the book and isn't a part of its history."""
from __future__ import annotations

import contextlib
import os
import pathlib
import sqlite3
from collections.abc import Iterator, Mapping

from gudokeyi.domain.mistakes import InvalidValue
from gudokeyi.domain.requests import NotSuch, refuse_unseen
from gudokeyi.domain.settings import LANGUAGES, Picture, Setting
from gudokeyi.process import stop_no_more
from gudokeyi.store.book import Book
from gudokeyi.store.transactions import changing, checkpoint, no_book

# What a society says of itself, which its certificates show. It is kept with the book and isn't a part of its history.

# so many letters each has
MOST_IN_SETTING = 2_000


def settings_of(book: Book) -> dict[Setting, str]:
    """Each setting, empty where none was given."""
    found = dict(book.connection.execute("SELECT setting, value FROM setting"))
    return {setting: found.get(setting.value, "") for setting in Setting}


def change_settings(folder: pathlib.Path, given: Mapping[Setting, str]) -> None:
    """Keeps these with the book, each in place of the one before; an empty one is none. Others stay."""
    kept = {setting: checked(setting, text) for setting, text in given.items()}
    with changed_at_once(folder) as connection:
        connection.executemany(
            "INSERT INTO setting VALUES (?, ?) ON CONFLICT DO UPDATE SET value = excluded.value",
            [(setting.value, text) for setting, text in kept.items()],
        )


@contextlib.contextmanager
def changed_at_once(folder: pathlib.Path) -> Iterator[sqlite3.Connection]:
    """The book that is there, in which what is written within is kept."""
    with changing(folder) as connection:
        if connection is None:
            raise no_book(folder)
        yield connection
        stop_no_more()
        connection.execute("COMMIT")
        with contextlib.suppress(sqlite3.Error):
            checkpoint(connection)


def picture_of(book: Book) -> Picture | None:
    found = book.connection.execute("SELECT media_type, width, height, file FROM picture").fetchone()
    return Picture(*found) if found else None


def change_picture(folder: pathlib.Path, picture: Picture | None) -> None:
    """Keeps a picture with the book in place of the one before, or none."""
    with changed_at_once(folder) as connection:
        connection.execute("DELETE FROM picture")
        if picture:
            one = (picture.media_type, picture.width, picture.height, picture.file)
            connection.execute("INSERT INTO picture VALUES (1, ?, ?, ?, ?)", one)


def lines_of(text: str) -> str:
    """The lines of a text without blanks that do nothing."""
    lines = (" ".join(line.split()) for line in text.splitlines())
    return "\n".join(line for line in lines if line)


def checked(setting: Setting, text: str) -> str:
    """The value as it is kept; a mistake where it can't be such a one."""
    text = lines_of(text)
    refuse_unseen(text)
    if len(text) > MOST_IN_SETTING:
        raise InvalidValue(NotSuch.LONG_SETTING.said(letters=len(text), most=MOST_IN_SETTING))
    if setting in (Setting.BREED, Setting.COUNTRY) and text:
        if not (len(text) == 3 and text.isascii() and text.isalpha()):
            raise InvalidValue(NotSuch.LETTERS_OF.said(text=text, setting=setting))
        return text.upper()
    if setting is Setting.LANGUAGE and text not in ("", *LANGUAGES):
        raise InvalidValue(NotSuch.LANGUAGE.said(text=text, languages=", ".join(LANGUAGES)))
    return text


# The letters with which new numbers begin: three for the breed, three for the country.

# the variable that says them for books that have none yet, as SKUDEU
NUMBERS = "GUDOKEYI_NUMBERS"
# what stands for letters that nobody said
UNSAID = "XXX"


def letters_said(book: Book, breed: str = "", country: str = "") -> tuple[str, str]:
    """Those that are said, or else set, or else those of the book's first number, or of the variable; each empty where
    nobody said it."""
    settings, first = settings_of(book), book.first_number() or said_for_all()
    return breed or settings[Setting.BREED] or first[:3], country or settings[Setting.COUNTRY] or first[3:6]


def said_for_all() -> str:
    """What the variable says, if it is six letters."""
    text = os.environ.get(NUMBERS, "")
    return text.upper() if len(text) == 6 and text.isascii() and text.isalpha() else ""


def letters_for(book: Book, breed: str = "", country: str = "") -> str:
    """Six letters: what nobody said has others in its place, by which nothing is kept."""
    said = letters_said(book, breed, country)
    return "".join(one or UNSAID for one in said)
