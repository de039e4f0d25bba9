"""Cells that are kept as notes of their animals: days before the first that a book can have, and what is no exit."""
from __future__ import annotations

import datetime
import re
from collections.abc import Callable, Iterator, Mapping, Sequence
from typing import NamedTuple

from gudokeyi.domain.animals import LETTERS
from gudokeyi.domain.findings import Finding
from gudokeyi.domain.kinds import CELL_FIELDS, Field
from gudokeyi.domain.own_columns import MOST_IN_NOTE, MOST_IN_TITLE, Note
from gudokeyi.ingest.animals import UNREAD_OF, SheetAnimal
from gudokeyi.ingest.findings.exits import Remark
from gudokeyi.reconcile.findings.animals import EarlyYearKept, RemarkKept
from gudokeyi.reconcile.next_book import NextBook
from gudokeyi.store.history import login
from gudokeyi.store.own_data import NoteEver, note_row, notes_ever
from gudokeyi.store.state import NOTES, Rows, Values, keyed

DAYS = (Field.BIRTH, Field.SINCE, Field.EXIT)
# so many letters of a cell are kept
MOST_IN_CELL = MOST_IN_NOTE // 2
# a year of four digits that no book can have
EARLY_YEAR = re.compile(r"(?<!\d)1[5-8]\d\d(?!\d)")


class Cell(NamedTuple):
    """A cell that is to be kept, whether the last sheet had it too, and what tells of its note."""

    animal: SheetAnimal
    title: str
    text: str
    is_as_before: bool
    found: Callable[[str], Finding]


def keep_as_notes(next_book: NextBook, titles: Mapping[str, str], remarks: Sequence[Remark]) -> None:
    """Writes a note for each cell that couldn't be read as a day, and has such a year, and for each remark. One that
    was written for the cell stays, and isn't written again where somebody removed it."""
    cells = [*cells_with_early_years(next_book, titles), *cells_of_remarks(next_book, remarks)]
    if not cells:
        return
    ever = notes_ever(next_book.book.connection, {digits_of(one.animal) for one in cells})
    notes: dict[Values, Values] = {}
    today, author = datetime.date.today().isoformat(), login()
    for animal, title, cell, is_as_before, found in cells:
        there = ever.setdefault(digits_of(animal), [])
        if is_kept(there, cell, is_as_before):
            continue
        number = 1 + max((one.number for one in there), default=0)
        note = Note(number, today, author, f"{title[:MOST_IN_TITLE]}: {cell}")
        there.append(NoteEver(note.number, note.text, True))
        notes |= keyed(NOTES, [note_row(digits_of(animal), note)])
        next_book.report.add(animal.line, animal.id, found(note.text))
    next_book.others.append((NOTES, Rows({}, notes)))


def cells_with_early_years(next_book: NextBook, titles: Mapping[str, str]) -> Iterator[Cell]:
    for animal in filter(UNREAD_OF, next_book.animals.values()):
        for field in DAYS:
            cell = animal.cells.get(field, "")[:MOST_IN_CELL]
            if field in animal.unread and EARLY_YEAR.search(cell):
                is_as_before = cell == cell_before(next_book, animal.id, field)
                yield Cell(animal, titles[field], cell, is_as_before, EarlyYearKept)


def cells_of_remarks(next_book: NextBook, remarks: Sequence[Remark]) -> Iterator[Cell]:
    by_line = {animal.line: animal for animal in next_book.animals.values()} if remarks else {}
    for line, title, text in remarks:
        if animal := by_line.get(line):
            cell = text[:MOST_IN_CELL]
            before = cell_before(next_book, animal.id, Field.EXIT)
            # of a column beside that of the exits the last sheet's cells aren't kept
            yield Cell(animal, title, cell, before == text or animal.cells.get(Field.EXIT) != text, RemarkKept)


def digits_of(animal: SheetAnimal) -> str:
    return animal.registration_number[LETTERS:]


def cell_before(next_book: NextBook, id: str, field: Field) -> object:
    """What the last sheet had there."""
    row = next_book.book.cells.get((id,))
    return row[1 + CELL_FIELDS.index(field)] if row else None


def is_kept(notes: list[NoteEver], cell: str, is_as_before: bool) -> bool:
    """Is there a note for the cell, under whichever title, or was there one until somebody removed it?"""
    return any(note.text.endswith(f": {cell}") and (note.is_now or is_as_before) for note in notes)
