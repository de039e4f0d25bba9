"""What is new in a book: the births of the last weeks, and what the last sheet told that may be wrong and nobody
answered since."""
from __future__ import annotations

import datetime
import itertools
from typing import NamedTuple

from gudokeyi.domain.changes import Change
from gudokeyi.domain.findings import Entry, Severity, What
from gudokeyi.domain.kinds import ChangeKind
from gudokeyi.services.found_animals import Asked, Found, found_by
from gudokeyi.services.history import first_entries, last_changes, taken_back_by
from gudokeyi.services.selection import Choice
from gudokeyi.store.book import Book
from gudokeyi.store.changed_animals import rows_by_change

BIRTH_DAYS = 42
# so many changes are looked at for the last sheet, and so many findings of a kind
MOST_CHANGES, MOST_OF_A_KIND = 200, 100


class Unanswered(NamedTuple):
    """The change that took the last sheet, and the first of what nobody answered."""

    sheet: Change
    entries: list[Entry]


def last_births(book: Book, today: datetime.date) -> Found:
    """The animals that were born in the last weeks, the youngest first."""
    first = today - datetime.timedelta(days=BIRTH_DAYS)
    return found_by(book, Asked(choice=Choice(born=(first, today)), is_downwards=True))


def unanswered(book: Book, most: int) -> Unanswered | None:
    """None where there is nothing, or the last sheet was taken back. An animal that a later change changed is
    answered."""
    taken = (ChangeKind.TAKE, ChangeKind.PEDIGREE)
    sheet = next((one for one in last_changes(book, MOST_CHANGES) if one.kind in taken), None)
    if sheet is None or taken_back_by(book, sheet.number):
        return None
    _, entries = first_entries(book, sheet.number, MOST_OF_A_KIND)
    open_ones = (one for one in entries if may_be_wrong(one) and not is_changed_since(book, one.id, sheet.number))
    found = list(itertools.islice(open_ones, most))
    return Unanswered(sheet, found) if found else None


def may_be_wrong(entry: Entry) -> bool:
    return entry.what in (What.WARNING, What.LEFT_OUT) or entry.finding.does() is not Severity.NONE


def is_changed_since(book: Book, id: str, change: int) -> bool:
    numbers = [number for column in ("since", "until") for number in rows_by_change(book.connection, id, column)]
    return max(numbers, default=0) > change
