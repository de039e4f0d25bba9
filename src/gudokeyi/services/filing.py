"""Commands that somebody files one by one, by the society's ids. A refused one is kept too, with its reply."""
from __future__ import annotations

import datetime
from dataclasses import dataclass, field, replace

from gudokeyi.domain.animals import NO_OWNER, SocietyRecord
from gudokeyi.domain.changes import Change, ChangeDetails, Option, StoredFinding
from gudokeyi.domain.commands import Command, RegisterRecord, birth, leave, parents, transfer
from gudokeyi.domain.findings import Entry, Finding
from gudokeyi.domain.kinds import ChangeKind, Field, Standing
from gudokeyi.domain.mistakes import InvalidValue, OwnerNotFound
from gudokeyi.domain.provenance import GIVEN_EXIT, OwnerDay
from gudokeyi.domain.refusals import Refusal
from gudokeyi.domain.requests import Naming, NotSuch, refuse_text
from gudokeyi.engine.answers import records_of
from gudokeyi.ingest.days import FIRST_DAY
from gudokeyi.ingest.unknown_parents import names_no_owner
from gudokeyi.ingest.texts import clean as clean
from gudokeyi.reconcile.by_hand import id_alike, new_owner, young_parents
from gudokeyi.reconcile.exits import exit_in_book
from gudokeyi.reconcile.findings.by_hand import CommandRefused, IdsAlike, NewAnimal, ValueChanged
from gudokeyi.reconcile.stored_findings import told_of
from gudokeyi.reconcile.unknown_parents import unknown_parents
from gudokeyi.services.book_program import BookProgram
from gudokeyi.services.search import find
from gudokeyi.services.writing import write
from gudokeyi.store.animal_rows import row_of
from gudokeyi.store.book import Book
from gudokeyi.store.journal import Filed, Step
from gudokeyi.store.settings import letters_for
from gudokeyi.store.state import Rows, State, rows_with_id


@dataclass(frozen=True)
class FiledCommand:
    """A command, the animal as the society knows it afterwards, what is told where it is accepted, the token of the
    form in which it was written, if it was one, and its owner's first day where that is inferred and later; and what
    may be wrong, where that was looked at."""

    kind: ChangeKind
    command: Command
    animal: SocietyRecord
    findings: tuple[Finding, ...]
    new_owners: dict[str, int] = field(default_factory=dict)
    options: tuple[Option, ...] = ()
    form: str = ""
    owner_since: datetime.date | None = None
    warnings: tuple[Entry, ...] = ()

    def refused(self, refusal: Refusal) -> CommandRefused:
        """What is told of it where it is refused."""
        since = self.owner_since if refusal is Refusal.DAY_TOO_EARLY else None
        return CommandRefused(self.kind, self.command.day, refusal, since)


@dataclass(frozen=True)
class Offspring:
    """What is said of a birth."""

    id: str
    sex: str
    day: datetime.date
    name: str = ""
    sire: SocietyRecord | None = None
    dam: SocietyRecord | None = None
    owner: str = ""
    embryo: bool = False
    breed: str = ""
    country: str = ""


class NewAnimals:
    """What a newborn's id and number are seen beside: of one that is filed alone the book as it is."""

    def next_digits(self, book: Book) -> int:
        """Those of its number, behind the greatest that an animal has or had."""
        return book.greatest_digits() + 1

    def alike(self, book: Book, id: str) -> list[IdsAlike]:
        return id_alike(book, id)


def born(book: Book, offspring: Offspring, new: NewAnimals = NewAnimals()) -> FiledCommand:
    """A birth; one of an animal that is in the book is filed with its number, and the program refuses it. `new`
    is another one where many are filed."""
    offspring = replace(
        offspring, id=clean(offspring.id), name=clean(offspring.name), owner=clean(offspring.owner)
    )
    if not offspring.id:
        raise InvalidValue(NotSuch.NO_ID.said())
    if offspring.id in unknown_parents(book):
        raise InvalidValue(NotSuch.NO_ANIMALS_ID.said(word=offspring.id))
    for field, text in ((Field.ID, offspring.id), (Field.NAME, offspring.name), (Field.OWNER, offspring.owner)):
        refuse_text(field, text)
    refuse_day(offspring.day)
    before = book.society_records.get(offspring.id)
    number = before.registration_number if before else number_for(book, offspring, new)
    owner = "" if names_no_owner(offspring.owner) else offspring.owner
    owner_code, new_owners = owner_code_of(book, owner)
    sire, dam = (parent.registration_number if parent else "" for parent in (offspring.sire, offspring.dam))
    said = {
        Field.SEX: True, Field.BIRTH: True, Field.NAME: offspring.name, Field.SIRE: sire, Field.DAM: dam,
        Field.OWNER: owner, Field.EMBRYO: offspring.embryo,
    }  # fmt: skip
    by_hand = frozenset(one for one, value in said.items() if value)
    animal = SocietyRecord(number, offspring.id, offspring.name, Standing.FILED, by_hand=by_hand)
    command = birth(number, offspring.day, sire, dam, owner_code, offspring.embryo)
    findings = (
        NewAnimal(number), *new.alike(book, offspring.id), *young_parents(
            book, offspring.day, offspring.sire, offspring.dam
        ),
        *new_owner(book, owner),
    )  # fmt: skip
    return FiledCommand(ChangeKind.BIRTH, command, animal, findings, new_owners)


def parent_named(book: Book, word: str, may_be_file: bool = True) -> SocietyRecord | None:
    """The animal that is named as a parent; none where none is, or by a text that stands for an unknown one in the
    book."""
    return None if clean(word) in unknown_parents(book) else find(book, word, may_be_file)


def refuse_day(day: datetime.date) -> None:
    """A mistake where a day is after today, as in a sheet: nobody knows yet whether it comes so; or where it is before
    the first that a book takes."""
    if day > datetime.date.today():
        raise InvalidValue(NotSuch.AFTER_TODAY.said(day=day))
    if day < FIRST_DAY:
        raise InvalidValue(NotSuch.BEFORE_FIRST.said(day=day, first=FIRST_DAY))


def number_for(book: Book, offspring: Offspring, new: NewAnimals) -> str:
    """With the digits that it had before, or else the next ones; breed and country are those that are wished, or else
    those that it had, and of a new one those of all new ones."""
    former = book.number_before(offspring.id)
    if former:
        return (offspring.breed or former[:3]) + (offspring.country or former[3:6]) + offspring.sex + former[7:]
    return f"{letters_for(book, offspring.breed, offspring.country)}{offspring.sex}{new.next_digits(book):012}"


def owner_code_of(book: Book, owner: str) -> tuple[int, dict[str, int]]:
    """The herd of an owner, and the owner if it is a new one."""
    if not owner:
        return NO_OWNER, {}
    if owner in book.owners:
        return book.owners[owner], {}
    owner_code = max(book.owners.values(), default=0) + 1
    return owner_code, {owner: owner_code}


def with_parents(
    book: Book, animal: SocietyRecord, sire: SocietyRecord | str | None, dam: SocietyRecord | str | None
) -> FiledCommand:
    """Other parents: an animal, an empty text for an unknown one, or none for the one that the book has."""
    record = book.records[animal.registration_number]
    findings: list[Finding] = []
    numbers, by_hand = [], set(animal.by_hand)
    for one, given, before in ((Field.SIRE, sire, record.sire), (Field.DAM, dam, record.dam)):
        number = before if given is None else given.registration_number if isinstance(given, SocietyRecord) else ""
        numbers.append(number)
        if given is not None:
            by_hand.add(one)
        if number != before:
            findings.append(ValueChanged(one.value, id_of(book, number), id_of(book, before)))
    if not animal.birth.is_inferred:
        named = (one if isinstance(one, SocietyRecord) else None for one in (sire, dam))
        findings += young_parents(book, record.born, *named)
    after = animal._replace(
        by_hand=frozenset(by_hand), written_sire=animal.written_sire if sire is None else "",
        written_dam=animal.written_dam if dam is None else "",
    )  # fmt: skip
    return FiledCommand(ChangeKind.PARENTS, parents(animal.registration_number, *numbers), after, tuple(findings))


def transferred(
    book: Book, animal: SocietyRecord, day: datetime.date, to_owner: str, from_owner: str | None
) -> FiledCommand:
    """Another owner; the from_owner is the owner that the book has where none is named."""
    to_owner, from_owner = clean(to_owner), None if from_owner is None else clean(from_owner)
    refuse_text(Field.OWNER, to_owner)
    if names_no_owner(to_owner):
        raise InvalidValue(NotSuch.NO_TAKER.said())
    refuse_day(day)
    record = book.records[animal.registration_number]
    owner_code, new_owners = owner_code_of(book, to_owner)
    if from_owner is not None and from_owner not in book.owners:
        raise OwnerNotFound(Naming.NO_OWNER.said(name=from_owner, hint=Naming.AS_IN_BOOK.said()))
    herd_before = record.owner_code if from_owner is None else book.owners[from_owner]
    found = ValueChanged("owner", to_owner, book.owner_of(record.owner_code))
    after = animal._replace(by_hand=animal.by_hand | {Field.OWNER}, owner_day=OwnerDay.GIVEN)
    command = transfer(animal.registration_number, day, herd_before, owner_code)
    since = inferred_since(animal, record, day)
    return FiledCommand(
        ChangeKind.TRANSFER, command, after, (found, *new_owner(book, to_owner)), new_owners, owner_since=since
    )  # fmt: skip


def departed(book: Book, animal: SocietyRecord, day: datetime.date, reason: str = "") -> FiledCommand:
    """An exit, with one of the reasons where it is known, and what a sheet says of one whose day wasn't known."""
    refuse_day(day)
    record = book.records[animal.registration_number]
    before = exit_in_book(animal, record, record.born)
    exit = GIVEN_EXIT.with_reason(before.reason) if before.is_on(day) else GIVEN_EXIT
    after = animal._replace(exit=exit, by_hand=animal.by_hand | {Field.EXIT}, exit_reason=reason)
    found = ValueChanged("exit", day.isoformat(), str(record.left or ""))
    since = inferred_since(animal, record, day)
    return FiledCommand(ChangeKind.EXIT, leave(animal.registration_number, day), after, (found,), owner_since=since)


def inferred_since(animal: SocietyRecord, record: RegisterRecord, day: datetime.date) -> datetime.date | None:
    """The first day of its owner where that is inferred, and after a day on which it was born."""
    return record.since if animal.owner_day.is_inferred and record.born <= day < record.since else None


def born_record(birth: Command) -> RegisterRecord:
    """What the register has of an animal that is born."""
    day, sire, dam = datetime.date.fromisoformat(birth.day), parent_in(birth.sire), parent_in(birth.dam)
    return RegisterRecord(birth.animal, day, sire, dam, bool(birth.embryo), int(birth.to_owner), day)


def parent_in(number: str) -> str:
    """A parent of a command, empty where it is unknown."""
    return "" if number == "0" else number


def id_of(book: Book, number: str) -> str:
    return book.by_number()[number].id if number else ""


def file(book: Book, program: BookProgram, one: FiledCommand) -> tuple[Change, Refusal | None]:
    """Files a command as a change of its own, with the program's reply: why it is refused, or none."""
    refusal = program.reply(one.command, book)
    findings = (one.refused(refusal),) if refusal else one.findings
    keeps = bool(refusal) or one.kind in (ChangeKind.TRANSFER, ChangeKind.EXIT)
    number = one.animal.registration_number
    born, corrected = (number * (one.kind is kind) for kind in (ChangeKind.BIRTH, ChangeKind.PARENTS))
    new_owners = {} if refusal else one.new_owners

    def find_state(after: Book) -> State:
        rows = Rows({}, {}) if refusal else rows_of(after, program, one)
        return State(rows, new_owners=new_owners, keeps_coefficients=keeps, born=born, corrected=corrected)

    told = (*told_by(one, findings), *map(told_of, () if refusal else one.warnings))
    made = ChangeDetails(one.kind, options=one.options, told=told, form=one.form)
    made = made._replace(counts=(("refused", 1),) if refusal else (("filed", 1),))
    return write(book, program, Filed([Step(one.command, refusal or 0)]), find_state, made), refusal


def told_by(one: FiledCommand, findings: tuple[Finding, ...]) -> tuple[StoredFinding, ...]:
    return tuple(told_of(Entry(0, one.animal.id, found)) for found in findings)


def rows_of(after: Book, program: BookProgram, one: FiledCommand) -> Rows:
    """The animal's row before and after: with the record that the program has of it, once its command is filed."""
    before, number = rows_with_id(after.connection, one.animal.id), one.animal.registration_number
    gave = int(one.command.from_owner) if one.command.from_owner else sum(row.from_owner or 0 for row in before)
    row = row_of(one.animal, records_of(program.records([number], after), {number: gave})[number])
    return Rows({(row.id,): row for row in before}, {(row.id,): row})
