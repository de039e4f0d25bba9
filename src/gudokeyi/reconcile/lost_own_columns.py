"""The society's own columns that a sheet lacks, though the last one had them."""
from __future__ import annotations

from collections.abc import Sequence

from gudokeyi.domain.findings import Report
from gudokeyi.domain.spelling import closest
from gudokeyi.ingest.columns import Columns
from gudokeyi.ingest.texts import plain
from gudokeyi.reconcile.findings.lost_columns import OwnColumnLost
from gudokeyi.reconcile.own_sheet_columns import OwnSheetColumns
from gudokeyi.store.book import Book
from gudokeyi.store.own_data import value_rows_at

# shorter titles stand in others by chance
LEAST_LETTERS = 3
# where a row of a value has the cell of the last sheet
CELL = 4


def tell_lost_own_columns(book: Book, own: OwnSheetColumns, columns: Columns, report: Report) -> bool:
    """Answers whether there are any. One whose values were all written by hand was in no sheet."""
    away = [one for one in own.before if one.is_kept and one.place not in own.places]
    kept = value_rows_at(book.connection, [one.place for one in away]) if away else {}
    in_sheet = {place for (_, place), row in kept.items() if row[CELL]}
    free = [title for at, title in enumerate(columns.sheet.titles) if title and columns.is_free(at)]
    free = [title for title in free if plain(title) not in {plain(one.title) for one in own.after}]
    lost = [one for one in away if one.place in in_sheet]
    for one in lost:
        report.add(0, "", OwnColumnLost(one.title, likely_of(one.title, free)))
    return bool(lost)


def likely_of(title: str, others: Sequence[str]) -> str:
    """The other title that has this one within, or stands in it, or else is nearly this one; empty for none."""
    key = plain(title)
    for other in others:
        short, long = sorted((key, plain(other)), key=len)
        if len(short) >= LEAST_LETTERS and short in long:
            return other
    return next(iter(closest(title, others, 1)), "")
