"""What somebody corrects of an animal, beside what the book has of it: the animal as it is to be, what the register is
to be told of it, and what is told of that."""
from __future__ import annotations

import datetime
from collections.abc import Callable, Iterator
from dataclasses import dataclass, field

from gudokeyi.domain.animals import NO_OWNER, SocietyRecord
from gudokeyi.domain.commands import RegisterRecord, birth, day_text, leave, transfer
from gudokeyi.domain.findings import Entry, Finding, Report
from gudokeyi.domain.kinds import ExitReason, Field, Role
from gudokeyi.domain.provenance import GIVEN_BIRTH, GIVEN_EXIT, BirthBasis, ExitBasis, ExitSource, OwnerDay, SexSource
from gudokeyi.domain.wording import SEXES
from gudokeyi.ingest.animals import SheetAnimal
from gudokeyi.ingest.days import Span
from gudokeyi.reconcile.birth_days import Days
from gudokeyi.reconcile.commands import YES, exit_words
from gudokeyi.reconcile.exits import exit_in_book
from gudokeyi.reconcile.findings.animals import OwnersCorrected, OwnerSince
from gudokeyi.reconcile.findings.by_hand import ValueChanged
from gudokeyi.reconcile.rewriting import Life, life_of
from gudokeyi.store.book import Book
from gudokeyi.store.conditions import offspring_of
from gudokeyi.store.journal import commands_of


@dataclass(frozen=True, slots=True)
class Exit:
    """Whether an animal left, and the day, month or year in which it did; none where that isn't known."""

    has_left: bool
    on: Span | None = None


def day_said(said: Exit) -> tuple[datetime.date | None, ExitBasis]:
    """The day that somebody says of an exit, and what it comes from."""
    if not said.has_left:
        return None, GIVEN_EXIT
    if said.on is None:
        return None, ExitBasis(ExitSource.UNKNOWN_DAY)
    if said.on.is_day:
        return said.on.first, GIVEN_EXIT
    return min(said.on.last, datetime.date.today()), ExitBasis(ExitSource.PERIOD, said.on.period())


@dataclass(frozen=True, slots=True)
class Correction:
    """What an animal is to have; what is none stays as the book has it. A parent is empty, and a birth `ANY_DAY`, where
    it isn't known; a reason is empty where nobody says one. `owners` are all of them, the first one first."""

    id: str | None = None
    name: str | None = None
    sex: str | None = None
    is_castrated: bool | None = None
    birth: Span | None = None
    sire: SocietyRecord | str | None = None
    dam: SocietyRecord | str | None = None
    is_embryo: bool | None = None
    owners: tuple[OwnerSince, ...] | None = None
    exit: Exit | None = None
    reason: ExitReason | str | None = None

    def parent(self, role: Role) -> SocietyRecord | str | None:
        return self.sire if role is Role.SIRE else self.dam

    def fields(self) -> frozenset[Field]:
        """Those that an import leaves as they are from now on, until a sheet says something new of them."""
        said = {
            Field.NAME: self.name, Field.SEX: self.sex if self.is_castrated is None else True, Field.BIRTH: self.birth,
            Field.SIRE: self.sire, Field.DAM: self.dam, Field.EMBRYO: self.is_embryo, Field.OWNER: self.owners,
            Field.EXIT: self.exit,
        }  # fmt: skip
        return frozenset(one for one, value in said.items() if value is not None)


@dataclass(frozen=True)
class Corrected:
    """An animal as the book has it, and as it is to be: what the society knows and what the register is to have of it,
    and what that is told."""

    before: SocietyRecord
    known: SocietyRecord
    record: RegisterRecord
    life: Life
    findings: tuple[Finding, ...]
    new_owners: dict[str, int] = field(default_factory=dict)
    # what may be wrong of it
    warnings: tuple[Entry, ...] = ()


def life_in(book: Book, known: SocietyRecord) -> Life:
    """What the journal tells of an animal of the book."""
    return life_of(commands_of(book.connection, book.journal, [known.registration_number]))


def owners_in(book: Book, known: SocietyRecord) -> tuple[OwnerSince, ...]:
    """The owners of an animal, the first one first."""
    return owners_of(life_in(book, known), book.owner_of)


def owners_of(life: Life, owner_of: Callable[[int], str]) -> tuple[OwnerSince, ...]:
    """Those that a life has, by their herds' names."""
    first, day = int(life.birth.to_owner), datetime.date.fromisoformat
    bred = [OwnerSince(owner_of(first), None)] * (first != NO_OWNER)
    return (*bred, *(OwnerSince(owner_of(int(one.to_owner)), day(one.day)) for one in life.transfers))


class Correcting:
    """Makes of what is said of an animal what it is to be."""

    def __init__(self, book: Book, known: SocietyRecord, said: Correction) -> None:
        self.book, self.known, self.said = book, known, said
        self.record, self.life = book.records[known.registration_number], life_in(book, known)
        self.new_owners: dict[str, int] = {}

    def corrected(self) -> Corrected:
        number = self.number()
        sire, dam = (self.number_of(role) for role in Role)
        exit_day, exit = self.exit()
        is_embryo = self.record.embryo if self.said.is_embryo is None else self.said.is_embryo
        born, basis = self.birth(sire, dam, exit_day, is_embryo)
        first, transfers = self.owners(number)
        told = birth(number, born, sire, dam, first, is_embryo)
        behind = tuple(transfer(number, day, giver, taker) for day, giver, taker in transfers)
        life = Life(told, behind, leave(number, exit_day) if exit_day else None)
        last = transfers[-1] if transfers else (born, 0, first)
        record = RegisterRecord(number, born, sire, dam, is_embryo, last[2], last[0], exit_day, last[1])
        known = self.known_after(number, basis, exit, bool(exit_day))
        findings = (*self.changes(known, record), *self.changes_of_owners(life))
        return Corrected(self.known, known, record, life, findings, self.new_owners)

    def number(self) -> str:
        before = self.known.registration_number
        return before if self.said.sex is None else before[:6] + self.said.sex + before[7:]

    def number_of(self, role: Role) -> str:
        said = self.said.parent(role)
        if said is None:
            return self.record.parent(role)
        return said.registration_number if isinstance(said, SocietyRecord) else ""

    # -- days

    def exit(self) -> tuple[datetime.date | None, ExitBasis]:
        """The day of the exit, none where it hasn't left or that isn't known, and what it comes from. What a sheet says
        of why the animal left stays with another day of that exit."""
        if self.said.exit is None:
            return self.record.left, self.known.exit
        day, basis = day_said(self.said.exit)
        before = exit_in_book(self.known, self.record, self.record.born)
        is_kept = self.said.exit.has_left and before.is_on(day)
        return day, basis.with_reason(before.reason) if is_kept else basis

    def birth(
        self, sire: str, dam: str, left: datetime.date | None, is_embryo: bool
    ) -> tuple[datetime.date, BirthBasis]:
        """The birth day; one of which only a month or a year is known, or nothing, is inferred of its family's."""
        said = self.said.birth
        if said is None:
            return self.record.born, self.known.birth
        if said.is_day:
            return said.first, GIVEN_BIRTH
        animal = SheetAnimal(self.known.id, 0, birth=said, left=left, embryo=is_embryo)
        family = {animal.id: animal}
        for role, number in ((Role.SIRE, sire), (Role.DAM, dam)):
            if parent := self.book.by_number().get(number):
                animal.set_parent(role, parent.id)
                family[parent.id] = self.of_book(parent)
        role = Role.SIRE if self.number()[6] == Role.SIRE.sex else Role.DAM
        for row in self.book.rows(offspring_of(self.known.registration_number, role)):
            family[row.id] = offspring = self.of_book(self.book.society_records[row.id])
            offspring.set_parent(role, animal.id)
        Days(family, [animal.id], {}).infer(Report())
        return animal.born, animal.birth_basis

    def of_book(self, known: SocietyRecord) -> SheetAnimal:
        """A parent or an offspring with its day as the register has it, though the sheet may not say that."""
        record = self.book.records[known.registration_number]
        return SheetAnimal(known.id, 0, birth=Span(record.born, record.born), left=record.left)

    # -- owners

    def owners(self, number: str) -> tuple[int, list[tuple[datetime.date, int, int]]]:
        """The herd in which it was born, and each day on which a herd gave it to another."""
        if self.said.owners is None:
            given = [(one.day, int(one.from_owner), int(one.to_owner)) for one in self.life.transfers]
            day = datetime.date.fromisoformat
            return int(self.life.birth.to_owner), [(day(text), giver, taker) for text, giver, taker in given]
        herds = [(self.herd_of(one.owner), one.since) for one in self.said.owners]
        first = herds.pop(0)[0] if herds and herds[0][1] is None else NO_OWNER
        found, giver = list[tuple[datetime.date, int, int]](), first
        for taker, since in herds:
            assert since is not None
            found.append((since, giver, taker))
            giver = taker
        return first, found

    def herd_of(self, owner: str) -> int:
        """That of an owner; a new one gets the next number."""
        there = {**self.book.owners, **self.new_owners}
        if owner not in there:
            self.new_owners[owner] = max(there.values(), default=0) + 1
        return {**there, **self.new_owners}[owner]

    # -- what is known of it afterwards

    def known_after(self, number: str, birth: BirthBasis, exit: ExitBasis, has_day: bool) -> SocietyRecord:
        said, before = self.said, self.known
        is_castrated = before.castrated if said.is_castrated is None else said.is_castrated
        has_left = has_day or exit.day_is_unknown
        reason = before.exit_reason if said.reason is None else str(said.reason)
        return before._replace(
            registration_number=number, id=before.id if said.id is None else said.id,
            name=before.name if said.name is None else said.name, birth=birth, exit=exit,
            sex=before.sex if said.sex is None else SexSource.GIVEN, castrated=is_castrated and number[6] == "M",
            written_sire=before.written_sire if said.sire is None else "",
            written_dam=before.written_dam if said.dam is None else "", by_hand=before.by_hand | said.fields(),
            owner_day=before.owner_day if said.owners is None else OwnerDay.GIVEN,
            exit_reason=reason if has_left else "",
        )  # fmt: skip

    def changes(self, known: SocietyRecord, record: RegisterRecord) -> Iterator[ValueChanged]:
        """Each value that is another one."""
        before, was = self.known, self.record
        pairs: list[tuple[str, object, object]] = [
            ("id", before.id, known.id),
            ("name", before.name, known.name),
            ("sex", SEXES[before.registration_number[6]].value, SEXES[known.registration_number[6]].value),
            ("number", before.registration_number, known.registration_number),
            ("birth day", day_text(was.born), day_text(record.born)),
            ("sire", self.id_of(was.sire), self.id_of(record.sire)),
            ("dam", self.id_of(was.dam), self.id_of(record.dam)),
            ("exit", exit_words(was.left, before.exit), exit_words(record.left, known.exit)),
            ("exit reason", before.exit_reason, known.exit_reason),
            ("stored embryo", YES[was.embryo], YES[record.embryo]),
            ("castrated", YES[before.castrated], YES[known.castrated]),
        ]
        for name, former, now in pairs:
            if former != now:
                yield ValueChanged(name, str(now), str(former))

    def changes_of_owners(self, life: Life) -> Iterator[OwnersCorrected]:
        new = {code: owner for owner, code in self.new_owners.items()}
        before, after = (
            owners_of(one, lambda code: new.get(code) or self.book.owner_of(code)) for one in (self.life, life)
        )
        if before != after:
            yield OwnersCorrected(before, after)

    def id_of(self, number: str) -> str:
        return self.book.by_number()[number].id if number else ""
