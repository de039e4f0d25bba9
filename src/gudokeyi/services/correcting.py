"""Corrects anything of one animal, as a change of its own: all of it, or nothing where the register refuses any of
it."""
from __future__ import annotations

import datetime
from collections.abc import Iterator
from dataclasses import replace

from gudokeyi.domain.animals import SocietyRecord
from gudokeyi.domain.changes import Change, ChangeDetails, Option
from gudokeyi.domain.commands import RegisterRecord
from gudokeyi.domain.findings import Entry
from gudokeyi.domain.kinds import ChangeKind, ExitReason as ExitReason, Field, Role, Standing
from gudokeyi.domain.messages import MessageText, Mistake, why
from gudokeyi.domain.mistakes import InvalidValue, RegisterRefused
from gudokeyi.domain.refusals import Refusal
from gudokeyi.domain.requests import NotSuch, refuse_text
from gudokeyi.engine.answers import records_of
from gudokeyi.ingest.days import ANY_DAY as ANY_DAY, Span as Span
from gudokeyi.ingest.unknown_parents import names_no_owner
from gudokeyi.reconcile.corrections import (
    Corrected as Corrected, Correcting, Correction as Correction, Exit as Exit, owners_in as owners_in,
)  # fmt: skip
from gudokeyi.reconcile.findings.animals import OwnerSince as OwnerSince
from gudokeyi.reconcile.unknown_parents import unknown_parents
from gudokeyi.reconcile.messages import CorrectionFault
from gudokeyi.reconcile.plausibility_by_hand import ByHandAnimal, MayBeWrong as MayBeWrong, refuse_unseen, warnings_of
from gudokeyi.reconcile.rewriting import RefusedCommand, Rewriting, RewritingRefused
from gudokeyi.reconcile.stored_findings import told_of
from gudokeyi.services.book_program import BookProgram
from gudokeyi.services.filing import refuse_day
from gudokeyi.services.verification import check_records
from gudokeyi.services.writing import end, write_unended
from gudokeyi.store.animal_rows import AnimalRow, changed_by, row_of
from gudokeyi.store.book import Book
from gudokeyi.store.conditions import offspring_of
from gudokeyi.store.former_ids import rows_of_renamed
from gudokeyi.store.state import Rows, State, cells_of, rows_with_id

DAY = datetime.date.fromisoformat


def corrected(book: Book, known: SocietyRecord, said: Correction) -> Corrected:
    """What a correction makes of an animal; a mistake where that can't be meant. The register isn't asked yet."""
    refuse_texts(book, known, said)
    refuse_owners(said.owners or ())
    days = [said.birth, said.exit.on if said.exit else None]
    for day in (*(one.first for one in days if one and one != ANY_DAY), *(one.since for one in said.owners or ())):
        if day:
            refuse_day(day)
    is_male = (said.sex or known.registration_number[6]) == Role.SIRE.sex
    if said.is_castrated and not is_male:
        raise InvalidValue(CorrectionFault.NO_MALE_CASTRATED.said())
    found = Correcting(book, known, said).corrected()
    if said.reason and not found.record.left and not found.known.exit.day_is_unknown:
        raise InvalidValue(CorrectionFault.NO_EXIT_REASON.said())
    if not found.findings and found.known._replace(by_hand=known.by_hand) == known:
        raise Mistake(CorrectionFault.AS_IT_IS.said())
    filed = ByHandAnimal(found.known, found.record, known)
    return replace(found, warnings=warnings_of(book, [filed], found.new_owners))


def refuse_texts(book: Book, known: SocietyRecord, said: Correction) -> None:
    """A mistake where the id or a name is none that can be."""
    names = [(Field.NAME, said.name), *((Field.OWNER, one.owner) for one in said.owners or ())]
    for field, text in ((Field.ID, said.id), *names):
        refuse_text(field, text or "")
    if said.id is None or said.id == known.id:
        return
    if not said.id:
        raise InvalidValue(NotSuch.NO_ID.said())
    if said.id in unknown_parents(book):
        raise InvalidValue(NotSuch.NO_ANIMALS_ID.said(word=said.id))
    for other in rows_with_id(book.connection, said.id):
        if other.standing == Standing.DROPPED.value:
            raise InvalidValue(CorrectionFault.ID_DROPPED.said(id=other.id))
        raise InvalidValue(CorrectionFault.ID_TAKEN.said(id=other.id, called=f" {other.name}" if other.name else ""))


def refuse_owners(owners: tuple[OwnerSince, ...]) -> None:
    """A mistake where owners lack or have no day, or one stands twice."""
    for at, one in enumerate(owners):
        if names_no_owner(one.owner) or not one.owner:
            raise InvalidValue(CorrectionFault.DAY_WITHOUT_OWNER.said(day=one.since or ""))
        if at and one.since is None:
            raise InvalidValue(CorrectionFault.NO_OWNER_DAY.said(owner=one.owner))
        if at and one.owner == owners[at - 1].owner:
            raise InvalidValue(CorrectionFault.OWNER_TWICE.said(owner=one.owner))


def last_change_of(book: Book, known: SocietyRecord) -> int:
    """The last change that changed an animal: whoever corrects it looked at what it made of it, or at less."""
    return changed_by(book.connection, known.registration_number)


def correct(
    book: Book, program: BookProgram, one: Corrected, options: tuple[Option, ...] = (), form: str = "",
    seen: str | None = None,
) -> Change:  # fmt: skip
    """Stores it as a change, once the program has taken all of it; else a mistake with what it refuses. What may be
    wrong was seen, or is a mistake too, unless `seen` is none."""
    rewriting = Rewriting(book, {one.before.registration_number: one.life})
    try:
        filed = rewriting.filed(program)
    except RewritingRefused as refused:
        why_not = [sentence for each in refused.commands for sentence in Refused(book, one, each).sentences()]
        raise RegisterRefused(*why_not, CorrectionFault.NOT_CORRECTED.said()) from None
    if seen is not None:
        refuse_unseen(one.warnings, seen)

    def find_state(after: Book) -> State:
        return state_after(after, program, one, keeps_coefficients=not filed.steps and filed.keeps is None)

    found = (Entry(0, one.known.id, finding) for finding in one.findings)
    told = tuple(map(told_of, (*found, *one.warnings)))
    made = ChangeDetails(ChangeKind.CORRECTION, options=options, counts=(("corrected", 1),), told=told, form=form)
    number, moment = write_unended(book, book.connection, program, filed, find_state, made)
    if filed.keeps is not None:
        check_records(Book(book.folder, book.connection), program)
    return end(book, book.connection, number, moment)


def state_after(after: Book, program: BookProgram, one: Corrected, keeps_coefficients: bool) -> State:
    """The animal's rows before and after: with the record that the program has of it."""
    number, before, id = one.known.registration_number, one.before.id, one.known.id
    records = records_of(program.records([number], after), {number: one.record.from_owner})
    rows = rows_with_id(after.connection, before)
    animals = Rows({(row.id,): row for row in rows}, {(id,): row_of(one.known, records[number])})
    if id == before:
        return State(animals, new_owners=one.new_owners, keeps_coefficients=keeps_coefficients)
    cells = cells_of(after.connection, before)
    moved = Rows({row[:1]: row for row in cells}, {(id,): (id, *row[1:]) for row in cells})
    former = rows_of_renamed(after.connection, one.known.digits, before, id)
    return State(
        animals, moved, new_owners=one.new_owners, keeps_coefficients=keeps_coefficients, former_ids=former
    )


class Refused:
    """A command that isn't taken, in sentences with the animals that it is about, as they would be."""

    def __init__(self, book: Book, one: Corrected, refused: RefusedCommand) -> None:
        self.book, self.one, self.command, self.refusal = book, one, refused.command, refused.refusal

    def sentences(self) -> Iterator[MessageText]:
        said: dict[str, object] = {"animal": self.called(self.command.animal), **why(self.refusal)}
        kind = self.command.kind
        day = DAY(self.command.day) if self.command.day else None
        if kind == "birth":
            yield from self.of_birth({**said, "day": day})
        elif kind == "parents":
            yield from self.of_birth({**said, "day": self.record(self.command.animal).born})
        elif kind == "transfer":
            yield CorrectionFault.TRANSFER.said(**said, owner=self.owner(int(self.command.to_owner)), day=day)
        elif self.refusal is Refusal.LATER_OFFSPRING:
            yield from self.of_exit({**said, "day": day})
        else:
            yield CorrectionFault.EXIT.said(**said, day=day)

    def of_birth(self, said: dict[str, object]) -> Iterator[MessageText]:
        """With the parent that it is about."""
        parent = {
            Refusal.SIRE_NOT_MALE: self.command.sire, Refusal.SIRE_NOT_OLDER: self.command.sire,
            Refusal.DAM_NOT_FEMALE: self.command.dam, Refusal.DAM_NOT_OLDER: self.command.dam,
            Refusal.DAM_LEFT_BEFORE: self.command.dam,
        }.get(self.refusal)  # fmt: skip
        if parent is None:
            yield CorrectionFault.BIRTH.said(**said)
        elif self.refusal is Refusal.DAM_LEFT_BEFORE:
            yield CorrectionFault.LEFT_PARENT.said(
                **said, parent=self.called(parent), parent_day=self.record(parent).left
            )
        else:
            yield CorrectionFault.PARENT.said(**said, parent=self.called(parent), parent_day=self.record(parent).born)

    def of_exit(self, said: dict[str, object]) -> Iterator[MessageText]:
        """With the offspring that are born later."""
        number, day = self.command.animal, self.command.day
        own = self.one.before.registration_number if number == self.one.known.registration_number else number
        for row in self.book.rows(offspring_of(own, Role.DAM), in_age_order=True):
            if (row.born or "") > day and not row.embryo:
                yield CorrectionFault.EXIT_OF_PARENT.said(**said, offspring=called(row), born=DAY(row.born or ""))

    def record(self, number: str) -> RegisterRecord:
        """What the register would have of it."""
        return self.one.record if self.is_corrected(number) else self.book.records[number]

    def is_corrected(self, number: str) -> bool:
        return number in (self.one.known.registration_number, self.one.before.registration_number)

    def called(self, number: str) -> str:
        return called(self.one.known if self.is_corrected(number) else self.book.by_number()[number])

    def owner(self, owner_code: int) -> str:
        new = {code: owner for owner, code in self.one.new_owners.items()}
        return new.get(owner_code) or self.book.owner_of(owner_code)


def called(animal: AnimalRow | SocietyRecord) -> str:
    """Its id, and its name behind that."""
    return f"{animal.id} {animal.name}".strip()
