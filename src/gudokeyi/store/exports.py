"""What the folder of a book has besides the database, for others to read: it is written after each change, and where it
isn't as it was written. When the last backup was made is kept there too, since no backup has its own."""
from __future__ import annotations

import contextlib
import csv
import datetime
import fcntl
import functools
import json
import os
import pathlib
import time
from collections.abc import Iterator
from typing import NamedTuple

from gudokeyi.domain.changes import Change
from gudokeyi.domain.provenance import GIVEN_BIRTH, GIVEN_EXIT, BirthSource, ExitSource, SexSource
from gudokeyi.store.animal_rows import birth_basis, exit_basis
from gudokeyi.store.book import Book
from gudokeyi.store.files import put, table
from gudokeyi.store.history import change_numbered
from gudokeyi.store.legacy.files import STANDINGS
from gudokeyi.store.state import columns_of

# When the last backup of a book was made. It is kept beside the database, since no backup has its own.

LAST_BACKUP = "last_backup.csv"
# with the moment of the change, by which it is told from that of another history
LAST_BACKUP_TITLES = ["time", "change", "moment"]


class LastBackup(NamedTuple):
    """Its time, and the last change that it has."""

    time: datetime.datetime
    change: int


def remember(book: Book) -> None:
    """Keeps that a backup was made now. Where that can't be kept the backup is good all the same."""
    change, moment = (book.change.number, book.change.moment) if book.change else (0, 0)
    now = datetime.datetime.now(datetime.timezone.utc).isoformat(timespec="seconds")
    with contextlib.suppress(OSError):
        put(book.folder / LAST_BACKUP, table(LAST_BACKUP_TITLES, [[now], [change], [moment]]))


def last_backup(book: Book) -> LastBackup | None:
    """None where there was none, or nobody knows; nor where the book was restored since from one that hasn't its last
    change."""
    try:
        with open(book.folder / LAST_BACKUP, encoding="utf-8", newline="") as file:
            row = next(csv.DictReader(file))
        found = LastBackup(datetime.datetime.fromisoformat(row["time"]), int(row["change"]))
        change = change_numbered(book.connection, found.change)
        # the last one that was made by an earlier version has no moment
        return found if change and row.get("moment") in (None, str(change.moment)) else None
    except (OSError, StopIteration, ValueError, KeyError, TypeError, csv.Error):
        return None


# What the folder of a book has besides the database, for others to read: it is written after each change, and where it
# is missing or stale. Of these the journal alone is read, where a call saw that it is that of the database.

COMMANDS, IDS, REPORT = "commands.csv", "ids.csv", "report.csv"
NAMES = (COMMANDS, IDS, REPORT)
ID_TITLES = ["number", "id", "name", "row", "birth", "exit", "sex", "change"]
REPORT_TITLES = ["line", "id", "what", "why", "change"]
SEMICOLONS = "--semicolons"
# so long it waits till it looks again whether somebody else still writes them, in seconds
A_MOMENT = 0.05
STANDING_WORDS = {standing.value: word for standing, word in STANDINGS.items()}
# the columns that say what a birth day, a sex and an exit come from, as one text; nothing where the sheet gives all
BASES = f"""
    iif(
        birth_source = '{BirthSource.GIVEN.value}' AND sex_source = '{SexSource.GIVEN.value}'
        AND exit_source = '{ExitSource.GIVEN.value}' AND exit_text IS NULL, NULL,
        json_array(
            birth_source, birth_period, birth_no_such_day, sex_source, exit_source, exit_period, exit_no_such_day,
            exit_text
        ) || ''
    )
"""


def are_fresh(folder: pathlib.Path, change: Change) -> bool:
    """Were all of them written after a change? Then each has the change's time as its own."""
    try:
        return all((folder / name).stat().st_mtime_ns == change.moment for name in NAMES)
    except OSError:
        return False


@contextlib.contextmanager
def turn(folder: pathlib.Path, seconds: float) -> Iterator[None]:
    """While this lasts nobody else writes them."""
    until = time.monotonic() + seconds
    descriptor = os.open(folder, os.O_RDONLY | os.O_DIRECTORY | os.O_CLOEXEC)
    try:
        while True:
            try:
                fcntl.flock(descriptor, fcntl.LOCK_EX | fcntl.LOCK_NB)
                break
            except BlockingIOError:
                if time.monotonic() > until:
                    raise
                time.sleep(A_MOMENT)
        yield
    finally:
        os.close(descriptor)


def ids_text(book: Book, change: Change) -> bytes:
    """Which number stands for which id, and what was inferred."""
    columns = columns_of(book.connection, ("number", "id", "name", "standing", BASES))
    numbers, ids, names, standings, bases = columns
    if not numbers:
        return table(ID_TITLES, [])
    words = zip(*map(words_of, bases))
    # by their digits; SQLite would put the whole rows in order
    digits = [number[7:] + number for number in numbers]
    return table(
        ID_TITLES,
        [numbers, ids, names, [STANDING_WORDS[one] for one in standings], *words, [str(change.number)] * len(numbers)],
        order=sorted(range(len(digits)), key=digits.__getitem__),
    )


@functools.lru_cache(4096)
def words_of(bases: str | None) -> tuple[str, str, str]:
    """What a birth day, an exit and a sex come from. The same stands for most animals."""
    if bases is None:
        return GIVEN_BIRTH.words(), GIVEN_EXIT.words(), SexSource.GIVEN.words()
    birth, period, no_day, sex, exit, *parts = json.loads(bases)
    return birth_basis(birth, period, no_day).words(), exit_basis(exit, *parts).words(), SexSource(sex).words()
