"""Takes back any one change, as a new change, where nothing later stands on it, or with what does."""
from __future__ import annotations

import collections
from collections.abc import Collection

from gudokeyi.domain.changes import Change, ChangeDetails, Option
from gudokeyi.domain.commands import Command
from gudokeyi.domain.kinds import ChangeKind, Standing
from gudokeyi.domain.messages import Mistake, Some, why
from gudokeyi.reconcile.messages import TakingBack
from gudokeyi.reconcile.rewriting import Life, Rewriting, RewritingRefused, life_of, lives_of
from gudokeyi.services.book_program import BookProgram
from gudokeyi.services.verification import check_records
from gudokeyi.services.writing import compute_and_end, written_journal
from gudokeyi.store.animal_rows import AnimalRow, digits_of
from gudokeyi.store.book import Book
from gudokeyi.store.history import change_numbered, next_number, now, write_change
from gudokeyi.store.journal import Filed, Journal, accepted_commands, command_file, commands_of, refusals_of, steps_of
from gudokeyi.store.state import ANIMALS, TABLES, Values, write_rows
from gudokeyi.store.taken_back import CHANGE, KINDS, changes_of_animals, holding, later_ones, touched_rows

# of more animals the journal is read as a whole
FEW = 100


class StoodOn(Mistake):
    """Later changes stand on one that is to be taken back: which."""

    def __init__(self, number: int, later: Collection[int]) -> None:
        self.later = sorted(later)
        shown = Some([str(one) for one in self.later])
        super().__init__(TakingBack.STOOD_ON.said(number=number, later=shown))


def can_be_taken_back(book: Book, change: Change) -> bool:
    """Did it change something that the book of now has?"""
    is_refused = bool(change.counts.get("refused"))
    return change.kind in KINDS and not is_refused and change.number in holding(book.connection)


def later_on(book: Book, number: int) -> list[int]:
    """The changes that stand on one, the newest first."""
    return sorted(later_ones(book.connection, {number}), reverse=True)


def take_back(book: Book, program: BookProgram, number: int, also: Collection[int] = (), form: str = "") -> Change:
    """Takes back a change, and others that stand on it; a mistake where more do, or where the register refuses what
    were left. Nothing is changed then."""
    change = change_numbered(book.connection, number)
    if change is None or not can_be_taken_back(book, change):
        raise Mistake(TakingBack.NOTHING.said(number=number))
    numbers = {number, *also}
    if more := later_ones(book.connection, numbers):
        raise StoodOn(number, {*also, *more})
    touched = {table: touched_rows(book.connection, table, numbers) for table in TABLES}
    animals = touched[ANIMALS]
    lives = lives_before(book, animals.rows.before, animals.rows.after, animals.at)
    filed = filed_of(book, program, lives, number, also)
    made = next_number(book.connection), now()
    journal = written_journal(book.connection, book.journal, filed)
    options = tuple(Option(CHANGE, str(one)) for one in sorted(numbers))
    write_change(
        book.connection, made[0], made[1], journal, ChangeDetails(ChangeKind.TAKEN_BACK, options=options, form=form)
    )
    for table, its in touched.items():
        write_rows(book.connection, table, made[0], its.rows.before, its.rows.after)
    check_records(Book(book.folder, book.connection), program)
    return compute_and_end(book, book.connection, program, *made)


def filed_of(
    book: Book, program: BookProgram, lives: dict[str, Life | None], number: int, also: Collection[int]
) -> Filed:
    """The commands by which the animals have their lives of before; a mistake with the changes of the animals for which
    the register refuses that."""
    there = Rewriting(book, lives).before if lives else {}
    lives = {number: life for number, life in lives.items() if there.get(number) != life}
    try:
        return Rewriting(book, lives).filed(program) if lives else Filed([])
    except RewritingRefused as refused:
        named = {name for one in refused.commands for name in (one.command.animal, one.command.sire, one.command.dam)}
        more = {one for one in changes_of_animals(book.connection, named - {*lives}) if one > number} - {*also}
        if more:
            raise StoodOn(number, {*also, *more, *later_ones(book.connection, more)}) from None
        first = refused.commands[0]
        called = book.ids.get(first.command.animal, first.command.animal)
        raise Mistake(TakingBack.REFUSED.said(change=number, animal=called, **why(first.refusal))) from None


def lives_before(
    book: Book, rows: dict[Values, Values], before: dict[Values, Values], at: dict[Values, int]
) -> dict[str, Life | None]:
    """The lives that animals had before changes, by their numbers of now; none of those that weren't there."""
    made = map(AnimalRow._make, rows.values())
    now_there = {digits_of(row): row.registration_number for row in made if is_there(row)}
    found: dict[str, Life | None] = dict.fromkeys(now_there.values())
    by_change = collections.defaultdict[int, list[str]](list)
    for key, values in before.items():
        row = AnimalRow._make(values)
        if is_there(row):
            by_change[at[key]].append(row.registration_number)
    for change, numbers in by_change.items():
        for number, life in lives_at(book, change - 1, numbers).items():
            found[now_there.get(number[-12:], number)] = life
    return found


def is_there(row: AnimalRow) -> bool:
    return row.standing != Standing.DROPPED.value


def lives_at(book: Book, change: int, numbers: list[str]) -> dict[str, Life]:
    """What the journal after a change told of animals."""
    then = change_numbered(book.connection, change)
    assert then is not None
    journal = Journal(then.edition, then.length)
    if len(numbers) <= FEW:
        return {number: life_of(commands_of(book.connection, journal, [number])) for number in numbers}
    steps = steps_of(command_file(book.connection, journal), refusals_of(book.connection, journal))
    commands: list[Command] = [*accepted_commands(steps)]
    lives = lives_of(commands)
    return {number: lives[number] for number in numbers}
