"""Notes on animals, each with its day and its author: written, changed and removed as changes of their own."""
from __future__ import annotations

import datetime

from gudokeyi.domain.animals import SocietyRecord
from gudokeyi.domain.changes import Change, ChangeDetails, StoredFinding
from gudokeyi.domain.findings import Entry
from gudokeyi.domain.kinds import ChangeKind
from gudokeyi.domain.messages import Mistake
from gudokeyi.domain.mistakes import InvalidValue
from gudokeyi.domain.own_columns import MOST_IN_NOTE, Note as Note
from gudokeyi.domain.requests import OwnFault, refuse_unseen
from gudokeyi.ingest.texts import clean
from gudokeyi.reconcile.findings.animals import NoteWritten
from gudokeyi.reconcile.stored_findings import told_of
from gudokeyi.services.book_program import BookProgram
from gudokeyi.services.filing import refuse_day
from gudokeyi.services.writing import write
from gudokeyi.store import own_data
from gudokeyi.store.book import Book
from gudokeyi.store.history import login
from gudokeyi.store.journal import Filed
from gudokeyi.store.state import NOTES, Rows, State


def notes_of(book: Book, animal: SocietyRecord) -> list[Note]:
    """Those of an animal, the newest day first."""
    return own_data.notes_of(book.connection, animal.digits)


def note_numbered(book: Book, animal: SocietyRecord, number: int) -> Note | None:
    return next((one for one in notes_of(book, animal) if one.number == number), None)


def text_of_note(text: str) -> str:
    """A text as it is kept: its lines without blanks around them."""
    lines = [clean(line) for line in text.strip().splitlines()]
    found = "\n".join(lines).strip()
    refuse_unseen(found)
    if len(found) > MOST_IN_NOTE:
        raise InvalidValue(OwnFault.LONG_NOTE.said(most=MOST_IN_NOTE, count=len(found)))
    return found


def write_note(
    book: Book, program: BookProgram, animal: SocietyRecord, text: str, day: datetime.date, before: Note | None = None,
    form: str = "",
) -> Change:  # fmt: skip
    """Writes a note, or writes one otherwise that is there; an empty text removes it."""
    told, state = noted(book, animal, text, day, before)
    made = ChangeDetails(ChangeKind.NOTE, told=(told,), form=form)
    return write(book, program, Filed([]), lambda _: state, made)


def noted(
    book: Book, animal: SocietyRecord, text: str, day: datetime.date, before: Note | None = None, line: int = 0
) -> tuple[StoredFinding, State]:
    """What is told of such a note, and the state with it."""
    text = text_of_note(text)
    refuse_day(day)
    if not text and before is None:
        raise InvalidValue(OwnFault.NO_NOTE.said())
    if before and text == before.text and day.isoformat() == before.day:
        raise Mistake(OwnFault.AS_IT_IS.said())
    number = before.number if before else own_data.next_note(book.connection, animal.digits)
    after = Note(number, day.isoformat(), login(), text) if text else None
    rows = own_data.rows_of_note(animal.digits, before, after)
    told = told_of(Entry(line, animal.id, NoteWritten(text, before.text if before else "")))
    return told, State(Rows({}, {}), keeps_coefficients=True, others=((NOTES, rows),))
