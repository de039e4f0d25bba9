"""Saves the book that an import makes, as a change: all that takes long is prepared before, while others work."""
from __future__ import annotations

import contextlib
import copy
import pathlib
from collections.abc import Callable
from dataclasses import replace
from typing import NamedTuple

from gudokeyi.background import Background
from gudokeyi.domain.animals import SocietyRecord
from gudokeyi.domain.changes import Change, ChangeDetails, Source
from gudokeyi.domain.commands import RegisterRecord, givers_of, lines_of, text_of
from gudokeyi.domain.findings import What
from gudokeyi.domain.kinds import CELL_FIELDS, ChangeKind, Field, Remembered
from gudokeyi.engine.answers import records_of
from gudokeyi.process import give_back_freed, keep
from gudokeyi.reconcile.import_options import ImportOptions
from gudokeyi.reconcile.next_book import NextBook, known_after
from gudokeyi.reconcile.outcome import Outcome
from gudokeyi.reconcile.stored_findings import entry_of, told_of
from gudokeyi.services.behind_others import Saved, save_in_turn
from gudokeyi.services.book_program import BookProgram
from gudokeyi.services.folder_files import ChangeJustMade
from gudokeyi.services.opening import export, to_change, to_look_at, to_prepare
from gudokeyi.services.prepared_changes import Basis, Prepared, save
from gudokeyi.store.book import Book
from gudokeyi.store.former_ids import rows_of_renamed
from gudokeyi.store.journal import Filed, accepted_commands
from gudokeyi.store.settings import settings_of
from gudokeyi.store.state import Meaning, Rows, State, Values, animal_rows, read_remembered
from gudokeyi.store.transactions import Overtaken, no_book

# the cells of an animal that had none
NOTHING = (None,) * len(CELL_FIELDS)


# what an import would make of a book, and the change that is to be made, none for a preview
Prepare = Callable[[Book], tuple[Outcome, Prepared | None]]


def outcome_of(import_options: ImportOptions, program: BookProgram, prepare: Prepare) -> tuple[Outcome, list[str]]:
    """What an import makes, or for a preview would make; and what is to be told besides."""
    if not import_options.preview:
        return save_import(import_options.book, program, prepare)
    with to_look_at(import_options.book, program) as book:
        return prepare(book)[0], book.notes


def save_import(folder: pathlib.Path, program: BookProgram, prepare: Prepare) -> tuple[Outcome, list[str]]:
    """Takes what is prepared; answers what is to be told besides. It is put behind what others file meanwhile; where
    that touches it, it is prepared once more, and then others wait for that. Where the book goes away meanwhile no
    other is begun."""
    before: Change | None = None
    with contextlib.suppress(Overtaken):
        with to_prepare(folder, program) as book:
            before = book.change
            outcome, prepared = prepare(book)
        assert prepared is not None
        found = save_in_turn(folder, program, prepared)
        return told(folder, found.change, as_saved(outcome, found), found.prepared, book.notes)
    with to_change(folder, program) as book:
        if before is not None and not book.is_there:
            raise no_book(folder)
        outcome, prepared = prepare(book)
        assert prepared is not None
        return told(folder, save(book, program, prepared), outcome, prepared, book.notes)


def told(
    folder: pathlib.Path, change: Change, outcome: Outcome, prepared: Prepared, notes: list[str]
) -> tuple[Outcome, list[str]]:
    outcome = replace(outcome, call=replace(outcome.call, change=change.number))
    keep(prepared, outcome)
    give_back_freed()
    made = ChangeJustMade(change, outcome.report.in_order(), prepared.filed.text)
    return outcome, notes + export(folder, made)


def as_saved(outcome: Outcome, found: Saved) -> Outcome:
    """What an import told, with the numbers and the animals of a book in which others filed meanwhile."""
    if found.behind is None or not outcome.after:
        return outcome
    report = copy.copy(outcome.report)
    report.entries = [*map(entry_of, found.prepared.made.told)]
    animals = dict(found.prepared.made.counts)["animals"]
    return replace(outcome, report=report, after=replace(outcome.after, animals=animals))


class AnswersAfter(NamedTuple):
    """What the program says of the book after the commands; it works meanwhile."""

    coefficients: Background[list[str]]
    records: Background[dict[str, RegisterRecord]]


def prepared_of(
    next_book: NextBook, filed: Filed, program: BookProgram, import_options: ImportOptions, source: Source, new: int
) -> Prepared:
    """What is to be written. Nothing is yet."""
    book = next_book.book
    answers = answers_after(book, filed, program)
    made = details_of(next_book, import_options, source, new)
    new_owners = owners_that_came(book)
    if not book.is_there:
        # where the program fails no book is begun
        answers.coefficients.value()
        # nobody waits for it: it is found out beside the writing of its journal
        found = Background(lambda: state_after(next_book, answers, new_owners))
        return Prepared(None, filed, lambda _: found.value(), made)
    # it is found out before the change begins, for which others wait
    state = with_changed_rows(state_after(next_book, answers, new_owners))
    basis = None if import_options.drop_gone else basis_of(book, state, len(next_book.animals))
    return Prepared(book.change, filed, lambda _: state, made, basis)


def answers_after(book: Book, filed: Filed, program: BookProgram) -> AnswersAfter:
    text = text_after(book, filed)
    givers = givers_after(book, filed)
    coefficients = Background(lambda: program.lines(["inbreeding"], text))
    # its lines aren't kept, as much as they take
    records = Background(lambda: records_of(program.lines(["records"], text), givers))
    return AnswersAfter(coefficients, records)


def details_of(next_book: NextBook, import_options: ImportOptions, source: Source, new: int) -> ChangeDetails:
    """What the history tells of the import."""
    report = next_book.report
    counts = report.counts()
    return ChangeDetails(
        ChangeKind.PEDIGREE if next_book.is_pedigree else ChangeKind.TAKE,
        source,
        import_options.options(),
        (
            ("animals", len(next_book.animals)),
            ("new", new),
            *((what.value, counts[what]) for what in What if what is not What.NEW),
        ),
        tuple(told_of(entry) for entry in report.in_order()),
        form=import_options.form,
    )


def owners_that_came(book: Book) -> dict[str, int]:
    """The owners with their herds that the book didn't have."""
    owner_codes = {*book.owners_came().values()}
    return {owner: owner_code for owner, owner_code in book.owners.items() if owner_code not in owner_codes}


def state_after(next_book: NextBook, answers: AnswersAfter, new_owners: dict[str, int]) -> State:
    book = next_book.book
    return State(
        changed_animals(book, known_after(next_book), answers.records.value()),
        Rows(cells_before(book), cell_rows(next_book)),
        book.remembered,
        new_owners,
        others=tuple(next_book.others),
        coefficients=answers.coefficients.value(),
        former_ids=former_ids_after(book),
    )


def with_changed_rows(state: State) -> State:
    """The state with those rows alone that a change begins or ends."""
    assert state.cells
    others = tuple((table, changed_rows(rows)) for table, rows in state.others)
    return replace(state, animals=changed_rows(state.animals), cells=changed_rows(state.cells), others=others)


def changed_rows(rows: Rows) -> Rows:
    before, after = rows
    return Rows(
        {key: row for key, row in before.items() if after.get(key) != row},
        {key: row for key, row in after.items() if before.get(key) != row},
    )


def basis_of(book: Book, state: State, animals: int) -> Basis:
    owners = [[one for one in some or [] if one.what is Remembered.OWNER] for some in remembered_around(book, state)]
    names_owners = bool(state.new_owners) or owners[0] != owners[1]
    settings, came = settings_of(book), book.owners_came()
    return Basis(state, book.greatest_digits(), animals, settings, came, names_owners)


def remembered_around(book: Book, state: State) -> tuple[list[Meaning], list[Meaning] | None]:
    """What is remembered before a change and after it."""
    return read_remembered(book.connection), state.remembered


def text_after(book: Book, filed: Filed) -> bytes:
    """The command file after the commands."""
    if filed.text:
        return filed.text
    commands = [step.command for step in filed.steps]
    if not book.journal.length:
        return text_of(commands)
    text = book.command_file()
    if filed.keeps is not None:
        # behind the header
        text = b"".join(text.splitlines(keepends=True)[: filed.keeps + 1])
    return text + lines_of(commands)


def changed_animals(book: Book, animals: dict[str, SocietyRecord], records: dict[str, RegisterRecord]) -> Rows:
    """The rows of the animals that aren't as they were: before, where they were in the book once, and after."""
    records_before = {**book.society_records, **book.dropped}
    if not records_before:
        return Rows({}, animal_rows(animals, records))
    changed = {
        id: one
        for id, one in animals.items()
        if records_before.get(id) != one
        or book.records.get(one.registration_number) != records.get(one.registration_number)
        or id in book.new_tags.values()
    }
    before: dict[Values, Values] = {
        (row.id,): row for row in book.every_row if row.id in changed or row.id in book.new_tags
    }
    return Rows(before, animal_rows(changed, records))


def cells_before(book: Book) -> dict[Values, Values]:
    """The last cells of each animal, by the ids that they have until now."""
    former = {now: id for id, now in book.new_tags.items()}
    if not former:
        return book.cells
    return {
        (id := former.get(str(key[0]), key[0]),): (id, *row[1:]) for key, row in book.cells.items()
    }


def former_ids_after(book: Book) -> Rows | None:
    """What animals were called that have other ids from now on."""
    all_rows = [
        rows_of_renamed(book.connection, book.society_records[now].digits, id, now) for id, now in book.new_tags.items()
    ]
    if not all_rows:
        return None
    before = {key: row for rows in all_rows for key, row in rows.before.items()}
    return Rows(before, {key: row for rows in all_rows for key, row in rows.after.items()})


def givers_after(book: Book, filed: Filed) -> dict[str, int]:
    """The herd that gave each animal last, after the commands."""
    if filed.keeps is not None:
        return givers_of(accepted_commands([*book.steps[: filed.keeps], *filed.steps]))
    before = {number: record.from_owner for number, record in book.records.items() if record.from_owner}
    return before | givers_of(accepted_commands(filed.steps))


def cell_rows(next_book: NextBook) -> dict[Values, Values]:
    """The last cells of each animal; those of a column that the sheet doesn't have stay, with owners as they are
    written from now on, and those of sheets where a pedigree says the same."""
    book = next_book.book
    kept = {key: respelt(book, row) for key, row in book.cells.items()} if book.renamed else dict(book.cells)
    for id, animal in next_book.animals.items():
        if animal.line:
            before = kept.get((id,))
            said: Callable[[str, object], object] = animal.cells.get
            now = (id, *map(said, CELL_FIELDS, before[1:] if before else NOTHING))
            kept[id,] = as_in_sheet(next_book, before, now) if before and next_book.is_pedigree else now
    return kept


def as_in_sheet(next_book: NextBook, before: Values, now: Values) -> Values:
    """The cells of a pedigree, in which those of a sheet stay that say the same."""
    if before == now:
        return now
    id, alike = str(now[0]), next_book.meanings.are_alike
    cells = zip(CELL_FIELDS, before[1:], now[1:])
    stays = [there == here or alike(id, field, there, str(here or "")) for field, there, here in cells]
    return (id, *(there if stay else here for stay, there, here in zip(stays, before[1:], now[1:])))


def respelt(book: Book, row: Values) -> Values:
    """The last cells of an animal with the owner as it is written from now on."""
    place = 1 + CELL_FIELDS.index(Field.OWNER)
    owner = row[place]
    return row if owner is None else (*row[:place], book.respelt(str(owner)), *row[place + 1 :])
