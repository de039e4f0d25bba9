"""Writes a change of a book: its commands with their replies, and the state after them."""
from __future__ import annotations

import sqlite3
from collections.abc import Callable

from gudokeyi.domain.changes import Change, ChangeDetails
from gudokeyi.domain.kinds import Remembered
from gudokeyi.process import stop_no_more
from gudokeyi.services.book_program import BookProgram
from gudokeyi.store.book import Book
from gudokeyi.store.coefficients import add_coefficient, change_coefficients, few_descendants, write_coefficients
from gudokeyi.store.history import last_change, next_number, now, write_change
from gudokeyi.store.journal import Filed, Journal, append, begin_edition
from gudokeyi.store.state import (
    ANIMALS, CELLS, FORMER_IDS, REMEMBERED, Meaning, State, add_owner, free_name, owners_came, read_remembered,
    remembered_rows,
    rows_now, write_rows,
)  # fmt: skip
from gudokeyi.store.transactions import commit, creating


# the state after a change, of the book that has the change's commands in its journal already
FindState = Callable[[Book], State]


def write(book: Book, program: BookProgram, filed: Filed, find_state: FindState, made: ChangeDetails) -> Change:
    """Makes a change, after which `book`, the book before it, is read no more. A book that isn't there yet is made. The
    state is asked for when the journal is written, and stored with it."""
    if book.is_there:
        return write_within(book, book.connection, program, filed, find_state, made)
    with creating(book.folder) as connection:
        return write_within(book, connection, program, filed, find_state, made)


def write_within(
    book: Book, connection: sqlite3.Connection, program: BookProgram, filed: Filed, find_state: FindState,
    made: ChangeDetails,
) -> Change:  # fmt: skip
    return end(book, connection, *write_unended(book, connection, program, filed, find_state, made))


def write_unended(
    book: Book, connection: sqlite3.Connection, program: BookProgram, filed: Filed, find_state: FindState,
    made: ChangeDetails,
) -> tuple[int, int]:  # fmt: skip
    """Writes all of a change, whose end makes it one; answers its number and its moment."""
    number, moment = next_number(connection), now()
    journal = written_journal(connection, book.journal, filed)
    write_change(connection, number, moment, journal, made)
    after = Book(book.folder, connection)
    write_state(after, program, number, find_state(after))
    return number, moment


def write_state(after: Book, program: BookProgram, number: int, state: State, again: bool = False) -> None:
    """Writes the state after a change that is in the history already. With `again` the change may have written some of
    it before."""
    connection = after.connection
    keeps = state.keeps_coefficients or state.born or state.corrected or state.born_together
    computes = state.coefficients is None and not keeps
    coefficients = program.beside(["inbreeding"], after) if computes else None
    remembered = write_owners(connection, state)
    write_rows(connection, ANIMALS, number, state.animals.before, state.animals.after, again)
    if state.cells is not None:
        write_rows(connection, CELLS, number, state.cells.before, state.cells.after, again)
    if state.former_ids is not None:
        write_rows(connection, FORMER_IDS, number, state.former_ids.before, state.former_ids.after, again)
    for table, rows in state.others:
        write_rows(connection, table, number, rows.before, rows.after, again)
    if remembered is not None:
        before = rows_now(connection, REMEMBERED)
        write_rows(connection, REMEMBERED, number, before, remembered_rows(remembered), again)
    if coefficients:
        write_coefficients(connection, coefficients.value().splitlines())
    elif state.coefficients is not None:
        write_coefficients(connection, state.coefficients)
    elif not state.keeps_coefficients and not keeps_most(after, program, state):
        write_coefficients(connection, program.ask(["inbreeding"], after))


def write_owners(connection: sqlite3.Connection, state: State) -> list[Meaning] | None:
    """Writes the new owners; answers what is to be remembered. The name that an owner had before it was written
    otherwise stays in the table: another owner who has it now gets a name there that nobody has, and it is remembered
    how that is written."""
    remembered = state.remembered
    others = read_remembered(connection) if remembered is None else remembered
    there = {*owners_came(connection)}
    # those that somebody has for a while as they are read one after the other too
    there |= {name for one in others if one.what is Remembered.OWNER for name in (one.word, one.meaning)}
    for name, owner_code in state.new_owners.items():
        stored = free_name(name, owner_code, there)
        if stored != name:
            remembered = others = [*others, Meaning(Remembered.OWNER, stored, name)]
        there.add(stored)
        add_owner(connection, stored, owner_code)
    return remembered


def keeps_most(after: Book, program: BookProgram, state: State) -> bool:
    """Keeps the coefficients that one animal changes, if the program can be asked for these alone."""
    born = [state.born] if state.born else [*state.born_together]
    if not born and not state.corrected:
        return False
    lines = program.coefficients(born or few_descendants(after.connection, state.corrected), after)
    for line in lines if born else ():
        add_coefficient(after.connection, line)
    if not born:
        change_coefficients(after.connection, lines)
    return bool(lines)


def written_journal(connection: sqlite3.Connection, journal: Journal, filed: Filed) -> Journal:
    """The journal with the commands of a change."""
    if filed.keeps is not None or not journal.edition:
        journal = begin_edition(connection, Journal(journal.edition, filed.keeps or 0))
    return append(connection, journal, filed.steps)


def compute_and_end(
    book: Book, connection: sqlite3.Connection, program: BookProgram, number: int, moment: int
) -> Change:
    """Computes what is kept of the new state, and ends the change."""
    write_coefficients(connection, program.ask(["inbreeding"], Book(book.folder, connection)))
    return end(book, connection, number, moment)


def end(book: Book, connection: sqlite3.Connection, number: int, moment: int) -> Change:
    """Ends the change."""
    change = last_change(connection)
    assert change is not None and change.number == number
    stop_no_more()
    commit(connection, book.folder, number, moment)
    return change
