"""Brings back an earlier state of a book, as a new change. Nothing that was is lost by it. `taking_back.py` undoes one
change alone."""
from __future__ import annotations

from gudokeyi.domain.changes import Change, ChangeDetails
from gudokeyi.domain.kinds import ChangeKind
from gudokeyi.domain.messages import CALLED, Mistake, counted
from gudokeyi.domain.mistakes import BookBusy
from gudokeyi.services.book_program import BookProgram
from gudokeyi.services.verification import check_records
from gudokeyi.services.writing import compute_and_end
from gudokeyi.store.book import Book
from gudokeyi.store.history import change_numbered, last_that_changed, next_number, now, write_change
from gudokeyi.store.journal import NO_JOURNAL, Journal, begin_edition
from gudokeyi.store.state import bring_back
from gudokeyi.store.transactions import no_book


def undo(book: Book, program: BookProgram, to: int | None, form: str = "") -> Change:
    """The state after a change, or where none is named that before the last one that changed something; 0 is the empty
    book. The journal is a new edition that keeps as much of the one of then as there was. `form` is the token of a form
    that asks for it."""
    if book.change is None:
        raise no_book(book.folder)
    last = book.change.number
    target = last_that_changed(book.connection) - 1 if to is None else to
    if target >= last:
        least = f"0 to {last - 1}" if last > 1 else "0"
        raise Mistake(
            f"the book has {counted(last, 'change')}, and its state is that after the last one: --to takes {least}, as "
            f"{CALLED} history shows them"
        )
    then = change_numbered(book.connection, target)
    journal = Journal(then.edition, then.length) if then else NO_JOURNAL
    number, moment = next_number(book.connection), now()
    edition = begin_edition(book.connection, journal)
    write_change(book.connection, number, moment, edition, ChangeDetails(ChangeKind.UNDO, undone_to=target, form=form))
    bring_back(book.connection, number, target)
    check_records(Book(book.folder, book.connection), program)
    return compute_and_end(book, book.connection, program, number, moment)
