"""Takes over the folder of a book of version 0.11, whose files were the book: they stay in `old`."""
from __future__ import annotations

import pathlib

from gudokeyi.domain.changes import ChangeDetails, Source
from gudokeyi.domain.commands import givers_of
from gudokeyi.domain.kinds import ChangeKind, Standing
from gudokeyi.engine.answers import records_of
from gudokeyi.services.book_program import BookProgram
from gudokeyi.services.verification import verify
from gudokeyi.services.writing import end, write_unended
from gudokeyi.store.book import Book
from gudokeyi.store.files import digest_of, place_of
from gudokeyi.store.journal import Filed, Step
from gudokeyi.store.legacy.files import COMMANDS, IDS, OLD, is_old
from gudokeyi.store.legacy.old_folder import OldBook, alone, clear, keep_files, last_cells, read
from gudokeyi.store.state import Rows, State, animal_rows
from gudokeyi.store.transactions import changing, creating


def take_over(folder: pathlib.Path, program: BookProgram) -> None:
    """Makes of a folder of version 0.11 one of this version, where it is one and there is no book yet. The files are
    copied to `old` before, so that they are there whenever this ends."""
    if not is_old(folder):
        return
    with alone(folder):
        with changing(folder) as connection:
            if connection is None and is_old(folder):
                old = read(folder, program.file)
                keep_files(folder)
                write_old(Book(folder, None), program, old, (folder / COMMANDS).read_bytes())
        clear(folder)


def write_old(book: Book, program: BookProgram, old: OldBook, text: bytes) -> None:
    """The book of the files, once it is seen that it is whole."""
    made = ChangeDetails(ChangeKind.FOLDER, Source(COMMANDS, place_of(book.folder / OLD / COMMANDS), digest_of(text)))
    in_book = {id: animal for id, animal in old.society_records.items() if animal.standing is not Standing.DROPPED}
    made = made._replace(counts=(("animals", len(in_book)), ("commands", len(old.commands))))
    records = records_of(program.lines(["records"], text), givers_of(old.commands))
    cells = Rows({}, last_cells(in_book, records, {owner_code: owner for owner, owner_code in old.owners.items()}))
    state = State(Rows({}, animal_rows(old.society_records, records)), cells, old.remembered, old.owners)
    filed = Filed([Step(command) for command in old.commands])
    with creating(book.folder) as connection:
        number, moment = write_unended(book, connection, program, filed, lambda _: state, made)
        verify(Book(book.folder, connection), program, book.folder / IDS)
        end(book, connection, number, moment)
