"""A backup that somebody dropped: what it has, and its restoring; both in a process beside the server."""
from __future__ import annotations

import contextlib
import datetime
import pathlib
from dataclasses import dataclass

from gudokeyi.domain.changes import NO_MARK, Mark
from gudokeyi.domain.kinds import Doing
from gudokeyi.services.book_program import BookProgram
from gudokeyi.services.history import change_numbered
from gudokeyi.services.opening import Book, Overtaken, book_in
from gudokeyi.services.restoring import mark_now, prepared_copy, restore
from gudokeyi.web.sheet_work import Imported
from gudokeyi.web.workers import Tell

# so often it is tried again where somebody changes the book in another process
TRIES = 9


@dataclass(frozen=True)
class Backup:
    """How much a backup has, and when its last change was made; `mark` is that of this one."""

    changes: int
    animals: int
    time: datetime.datetime | None
    mark: Mark = NO_MARK


def taken_away(book: Book, backup: Backup) -> int:
    """How many changes of a book a backup lacks: those behind its last one, or all where that is of another book."""
    if book.change is None:
        return 0
    common = change_numbered(book, backup.mark[0])
    return book.change.number - (common.number if common and common.mark == backup.mark else 0)


def looked_into(path: pathlib.Path, tell: Tell) -> Backup:
    """What a backup has, once it is seen that it is whole."""
    tell(Doing.RESTORING)
    with prepared_copy(path, BookProgram()) as (book, change):
        # the last one tells of the restoring
        last = change_numbered(book, change.number - 1)
        mark = last.mark if last else NO_MARK
        return Backup(change.number - 1, len(book.society_records), last.time if last else None, mark)


def restored(folder: pathlib.Path, path: pathlib.Path, looked: Mark, anyway: bool, tell: Tell) -> Imported:
    """Restores it, if the book is the one that was looked at. What others changed since then goes with it to the folder
    `old` only where that was wished: so somebody restores a book at which many work."""
    tell(Doing.RESTORING)
    for _ in range(TRIES):
        now = mark_now(folder)
        if now is not None and not (follows(folder, now, looked) if anyway else now == looked):
            break
        with contextlib.suppress(Overtaken):
            change = restore(folder, path, BookProgram(), anyway=True, looked=now or looked)
            return Imported(change.number, mark=change.mark, meanwhile=now[0] - looked[0] if now else 0)
    return Imported(0, True)


def follows(folder: pathlib.Path, now: Mark, looked: Mark) -> bool:
    """Is the book of now the one that was looked at, or one that came of it?"""
    with book_in(folder) as book:
        change = change_numbered(book, looked[0])
        return now == looked or (change is not None and change.mark == looked)
