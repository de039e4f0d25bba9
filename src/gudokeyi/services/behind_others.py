"""Puts a prepared change behind what others filed meanwhile: where that touches nothing of it the program is asked for
the replies to its commands and the records of its animals there, and others wait for that and the writing alone."""
from __future__ import annotations

import bisect
import pathlib
from collections.abc import Iterable, Mapping, Sequence
from contextlib import closing
from dataclasses import dataclass, replace
from typing import NamedTuple, cast

from gudokeyi.domain.animals import LETTERS
from gudokeyi.domain.changes import Change, ChangeDetails, StoredFinding
from gudokeyi.domain.commands import Command
from gudokeyi.domain.kinds import CELL_FIELDS, CommandKind, Field
from gudokeyi.domain.mistakes import ProgramFailed
from gudokeyi.ingest.texts import nearly
from gudokeyi.reconcile.all_animals import MOST_ANIMALS
from gudokeyi.services.book_program import BookProgram
from gudokeyi.services.book_session import BookMoved, BookSession, SessionEnded
from gudokeyi.services.cache import Stamp, stamp_of
from gudokeyi.services.opening import Overtaken, alone_to_change, book_in
from gudokeyi.services.prepared_changes import Basis, Prepared, save
from gudokeyi.store.animal_rows import AnimalRow, digits_of, fields_of
from gudokeyi.store.book import Book
from gudokeyi.store.coefficients import born_of, coefficients_among
from gudokeyi.store.filed_meanwhile import FiledMeanwhile, filed_since
from gudokeyi.store.history import change_by_form
from gudokeyi.store.journal import Filed, Step
from gudokeyi.store.settings import settings_of
from gudokeyi.store.state import NOTES, OWN_VALUES, Rows, State, Values

# so many records are asked for one by one
MOST_ONE_BY_ONE = 500
PARENT_CELLS = [1 + CELL_FIELDS.index(one) for one in (Field.SIRE, Field.DAM)]


class Saved(NamedTuple):
    """A change as it was saved, and the book and its file before it; `behind` is the last that others made meanwhile,
    none where nobody did."""

    change: Change
    prepared: Prepared
    stamp: Stamp
    behind: Change | None = None


def save_in_turn(folder: pathlib.Path, program: BookProgram, prepared: Prepared) -> Saved:
    """Saves a prepared change, behind what others filed meanwhile; raises `Overtaken` where that touches it, or where
    it can't stand there."""
    basis = prepared.basis
    with alone_to_change(folder) as now:
        if now.change == prepared.before and not (basis and has_other_settings(now, basis)):
            stamp = stamp_of(now)
            return Saved(save(now, program, prepared), prepared, stamp)
    if basis is None:
        raise Overtaken
    reach = reach_of(prepared, basis)
    with closing(BookSession.for_one()) as session:
        try:
            with book_in(folder) as book:
                put_behind(book, prepared, reach, session)
                session.at(book)
            with alone_to_change(folder) as now:
                stamp, put = stamp_of(now), put_behind(now, prepared, reach, session)
                return Saved(save(now, session, put), put, stamp, now.change)
        except (BookMoved, ProgramFailed, SessionEnded):
            # where the program itself fails the next preparation tells it
            raise Overtaken from None


# What a change touches.


@dataclass(frozen=True)
class Reach:
    """What a change touches: its animals by their ids and their digits, but for those of which it changes the standing
    alone, as of all that have no row any more; the digits of the parents that it names, the words by which those were
    found, and the last cells, before and after, of animals of which these alone change."""

    ids: set[str]
    digits: set[str]
    sires: set[str]
    dams: set[str]
    words: set[str]
    cells: Mapping[str, tuple[Values | None, Values]]
    # has an animal that was in the book other parents then? Else those that are born on either side change no
    # coefficient of the other
    corrects_parents: bool

    def meets(self, others: FiledMeanwhile) -> bool:
        """Does what others filed touch it?"""
        accepted = [step.command for step in others.steps if not step.refusal]
        rows, digits = others.rows, others.digits | {one.animal[LETTERS:] for one in accepted}
        digits |= {digits_of(row) for row in rows}
        sires, dams = ({number[LETTERS:] for number in some} for some in parents_in(accepted))
        called = {(row.id, row.name) for row in rows} - others.called_before
        return bool(
            self.ids.intersection(row.id for row in rows) or digits & (self.digits | self.sires | self.dams)
            or self.digits & (sires | dams) or self.dams & dams
            or self.words.intersection(word for one in called for word in words_of(*one))
            or any(self.changes_by_hand(row) for row in rows)
        )  # fmt: skip

    def changes_by_hand(self, row: AnimalRow) -> bool:
        """Says the sheet of something of an animal that was filed by hand another thing than the last sheet?"""
        if row.id not in self.cells:
            return False
        before, after = self.cells[row.id]
        places = [1 + CELL_FIELDS.index(one) for one in fields_of(row.by_hand) | {Field.SINCE}]
        return before is None or any(before[at] != after[at] for at in places)


def parents_in(commands: Iterable[Command]) -> tuple[set[str], set[str]]:
    named = [one for one in commands if one.kind in (CommandKind.BIRTH.value, CommandKind.PARENTS.value)]
    return {one.sire for one in named} - {"", "0"}, {one.dam for one in named} - {"", "0"}


def words_of(*texts: object) -> set[str]:
    """How ids and names are looked for, however they are written."""
    return {word for text in texts if text for word in (nearly(str(text)), str(text).casefold())}


def reach_of(prepared: Prepared, basis: Basis) -> Reach:
    state, before = basis.state, rows_of(basis.state.animals.before)
    after = {key: row for key, row in rows_of(state.animals.after).items() if not is_standing_alone(before.get(key), row)}
    animals = [*(row for row in before.values() if (row.id,) in after), *after.values()]
    named = [row for key, row in after.items() if key not in before or parents_of(row) != parents_of(before[key])]
    # those of a journal that is begun anew name all animals
    commands = [step.command for step in prepared.filed.steps] if prepared.filed.keeps is None else []
    ids, cells = {row.id for row in animals}, state.cells or Rows({}, {})
    digits = {digits_of(row) for row in animals} | {one.animal[LETTERS:] for one in commands}
    for table, rows in state.others:
        digits |= {str(key[0]) for key in {**rows.before, **rows.after} if table in (NOTES, OWN_VALUES)}
    digits |= {str(key[1]) for key in state.former_ids.after} if state.former_ids else set()
    # those of new animals give way
    digits = {one for one in digits if not is_new(one, basis.greatest)}
    texts = [row[at] for row in cells.after.values() for at in PARENT_CELLS]
    texts += [text for row in after.values() for text in (row.id, row.written_sire, row.written_dam)]
    return Reach(
        ids | {str(key[0]) for key in cells.before if key not in cells.after}, digits,
        {row.sire[LETTERS:] for row in named if row.sire}, {row.dam[LETTERS:] for row in named if row.dam},
        words_of(*texts),
        {str(key[0]): (cells.before.get(key), row) for key, row in cells.after.items() if key[0] not in ids},
        prepared.filed.keeps is not None or bool(state.former_ids) or any((row.id,) in before for row in named),
    )  # fmt: skip


def rows_of(rows: dict[Values, Values]) -> dict[Values, AnimalRow]:
    return cast(dict[Values, AnimalRow], rows)


def is_new(digits: str, greatest: int) -> bool:
    return digits.isdecimal() and int(digits) > greatest


def is_standing_alone(before: AnimalRow | None, after: AnimalRow) -> bool:
    """Does the standing of an animal change alone?"""
    return before is not None and before._replace(standing=after.standing) == after


def parents_of(row: AnimalRow) -> tuple[str | None, str | None]:
    return row.sire, row.dam


# The change behind the others.


def put_behind(now: Book, prepared: Prepared, reach: Reach, session: BookSession) -> Prepared:
    """The change behind what others filed since it was prepared; raises `Overtaken`."""
    basis, before, made = prepared.basis, prepared.before, prepared.made
    others = filed_since(now, before) if before and basis else None
    if basis is None or others is None or reach.meets(others) or is_read_otherwise(now, basis):
        raise Overtaken
    born = sum(one.command.kind == CommandKind.BIRTH.value and not one.refusal for one in others.steps)
    if basis.animals + born > MOST_ANIMALS or (made.form and change_by_form(now.connection, made.form)):
        raise Overtaken
    numbers = NewNumbers(basis, now.greatest_digits() - basis.greatest)
    steps = [*map(numbers.step, prepared.filed.steps)] if numbers.numbers else [*prepared.filed.steps]
    if prepared.filed.keeps is not None:
        # a journal that is begun anew has no command that was refused
        steps += [step for step in others.steps if not step.refusal]
    state = with_rows_of(others, basis.state)
    if reach.corrects_parents or any(step.command.kind == CommandKind.PARENTS.value for step in others.steps):
        # they are those of another pedigree
        state = replace(state, coefficients=None)
    state = numbers.state(state)
    return replace(
        prepared, before=now.change, filed=Filed(steps, prepared.filed.keeps), made=details(made, numbers, born),
        state=lambda after: asked_for(after, session, state, others.rows), basis=None,
    )  # fmt: skip


def with_rows_of(others: FiledMeanwhile, state: State) -> State:
    """The state with what others filed of animals of which the change makes the standing another one."""
    before, after = rows_of(state.animals.before), rows_of(state.animals.after)
    both: dict[Values, AnimalRow] = {(row.id,): row for row in others.rows if (row.id,) in after}
    if any(before[key].standing != row.standing for key, row in both.items()):
        raise Overtaken
    merged = {key: row._replace(standing=after[key].standing) for key, row in both.items()}
    return replace(state, animals=Rows({**before, **both}, {**after, **merged})) if both else state


def is_read_otherwise(now: Book, basis: Basis) -> bool:
    """Would a sheet be read otherwise, though no animal of it was touched?"""
    return has_other_settings(now, basis) or (basis.names_owners and now.owners_came() != basis.owners)


def has_other_settings(now: Book, basis: Basis) -> bool:
    return settings_of(now) != basis.settings


def details(made: ChangeDetails, numbers: NewNumbers, born: int) -> ChangeDetails:
    """What is kept of the change beside its state, of a book that has so many animals more."""
    counts = tuple((what, count + born if what == "animals" else count) for what, count in made.counts)
    return made._replace(counts=counts, told=tuple(map(numbers.told, made.told)))


def asked_for(after: Book, session: BookSession, state: State, of_others: Sequence[AnimalRow]) -> State:
    """The state with the coefficients of all, once the program's replies to the commands behind the journal are those
    that are stored, and its records those of the animals, and of others' too; raises `Overtaken`. Where parents were
    corrected it is asked for the coefficients anew."""
    session.at(after)
    rows = {row.id: row for row in of_others} | {row.id: row for row in rows_of(state.animals.after).values()}
    rows = {row.registration_number: row for row in rows.values() if row.born}
    few = len(rows) <= MOST_ONE_BY_ONE
    lines = session.records([*rows], after) if few and rows else session.ask(["records"], after) if rows else []
    told = {line.partition(",")[0]: line for line in lines}
    if any(told.get(number) != record_line(row) for number, row in rows.items()):
        raise Overtaken
    if state.coefficients is None:
        return replace(state, coefficients=session.ask(["inbreeding"], after))
    return replace(state, coefficients=with_born(after, state, state.coefficients, of_others))


def with_born(after: Book, state: State, lines: list[str], of_others: Sequence[AnimalRow]) -> list[str]:
    """The coefficients as the program wrote them, with those that it wrote of others' newborns, each at its place in
    age order."""
    born = {row.registration_number: row.born for row in (*of_others, *rows_of(state.animals.after).values())}

    def age(line: str) -> tuple[str, str]:
        number = line.partition(",")[0]
        return born.get(number) or born_of(after.connection, number), number

    there, found = {line.partition(",")[0] for line in lines}, [*lines]
    newborn = [row.registration_number for row in of_others if row.registration_number not in there and row.born]
    kept = coefficients_among(after, newborn)
    for number in newborn:
        bisect.insort(found, ",".join([number, *kept[number]]), key=age)
    return found


def record_line(row: AnimalRow) -> str:
    """The record that a row has, as the program writes it."""
    values = (
        row.registration_number, row.born, row.sire or "0", row.dam or "0", row.owner_code, row.owned_since,
        row.departed or "-", "1" if row.embryo else "",
    )  # fmt: skip
    return ",".join(map(str, values))


class NewNumbers:
    """The numbers of the animals that a change makes, behind those that others gave meanwhile."""

    def __init__(self, basis: Basis, more: int) -> None:
        self.numbers: dict[str, str] = {}
        for row in rows_of(basis.state.animals.after).values() if more else ():
            letters, digits = row.registration_number[:LETTERS], digits_of(row)
            if is_new(digits, basis.greatest):
                self.numbers[row.registration_number] = f"{letters}{int(digits) + more:012}"
        self.digits = {before[LETTERS:]: now[LETTERS:] for before, now in self.numbers.items()}

    def of(self, number: str) -> str:
        return self.numbers.get(number, number)

    def step(self, step: Step) -> Step:
        command = step.command
        named = command.animal, command.sire, command.dam
        if self.numbers.keys().isdisjoint(named):
            return step
        animal, sire, dam = map(self.of, named)
        return step._replace(command=command._replace(animal=animal, sire=sire, dam=dam))

    def told(self, told: StoredFinding) -> StoredFinding:
        if not any(text in self.numbers for _, text in told.fields):
            return told
        return told._replace(fields=tuple((name, self.of(text)) for name, text in told.fields))

    def state(self, state: State) -> State:
        if not self.numbers:
            return state
        animals = {key: self.row(row) for key, row in rows_of(state.animals.after).items()}
        lines = None if state.coefficients is None else [*map(self.line, state.coefficients)]
        others = [(table, self.rows(rows) if table in (NOTES, OWN_VALUES) else rows) for table, rows in state.others]
        return replace(
            state, animals=Rows(state.animals.before, {**animals}), others=tuple(others), coefficients=lines
        )  # fmt: skip

    def line(self, line: str) -> str:
        number, _, rest = line.partition(",")
        return f"{self.of(number)},{rest}"

    def row(self, row: AnimalRow) -> AnimalRow:
        if self.numbers.keys().isdisjoint((row.registration_number, row.sire, row.dam)):
            return row
        sire, dam = (self.of(number) if number else number for number in (row.sire, row.dam))
        return row._replace(registration_number=self.of(row.registration_number), sire=sire, dam=dam)

    def rows(self, rows: Rows) -> Rows:
        """Rows of a table in which animals stand by their digits."""
        after = {self.by_digits(key): self.by_digits(row) for key, row in rows.after.items()}
        return Rows(rows.before, after)

    def by_digits(self, values: Values) -> Values:
        return (self.digits.get(str(values[0]), values[0]), *values[1:])
