"""Whether a book knows since when an owner has an animal: lists, certificates and pages ask it, and imports."""
from __future__ import annotations

import datetime

from gudokeyi.domain.animals import NO_OWNER, SocietyRecord
from gudokeyi.store.book import Book
from gudokeyi.store.given_days import last_cell, last_cells


def owner_day_known(book: Book, in_book: SocietyRecord, from_owner: int | None, since: object) -> bool:
    """Is the day known since which the owner has it? A sheet gives the owner of today: only a change of owners has a
    day, which may be inferred where there is one before, or where the sheet says its month or year; or the sheet says
    that he has it since its birth."""
    if not from_owner:
        return says_day(book, in_book.id, since)
    if from_owner == NO_OWNER and in_book.owner_day.is_inferred:
        return has_period(book, in_book.id, datetime.date.fromisoformat(str(since)))
    return True


def has_period(book: Book, id: str, since: datetime.date) -> bool:
    """Says the animal's last cell a month or a year in which this day is?"""
    # of most animals nobody asks
    from gudokeyi.ingest.days import Unreadable, behind_since, read_span

    try:
        span = read_span(behind_since(last_cell(book, id)))
    except Unreadable:
        return False
    return not span.is_day and span.has(since)


def says_day(book: Book, id: str, since: object) -> bool:
    """Says the animal's last row this day, and an owner?"""
    from gudokeyi.ingest.days import Unreadable, behind_since, read_span

    owner, said = last_cells(book, id)
    try:
        span = read_span(behind_since(said)) if owner and said else None
    except Unreadable:
        return False
    return span is not None and span.is_day and str(span.first) == str(since)
