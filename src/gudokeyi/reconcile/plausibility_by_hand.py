"""What may be wrong of animals that somebody files or corrects by hand, told before that is done: by the rules of
sheets, which look at the animals and their families."""
from __future__ import annotations

import hashlib
import itertools
from collections.abc import Collection, Iterable, Iterator, Sequence
from typing import NamedTuple

from gudokeyi.domain.animals import SocietyRecord
from gudokeyi.domain.commands import RegisterRecord
from gudokeyi.domain.findings import Entry, Report
from gudokeyi.domain.folding import folded
from gudokeyi.domain.kinds import Remembered, Role
from gudokeyi.domain.messages import Mistake
from gudokeyi.ingest.animals import SheetAnimal, birth_in_book
from gudokeyi.reconcile.by_hand import id_alike, new_owner
from gudokeyi.reconcile.findings.plausibility import NameAlike
from gudokeyi.reconcile.limits import APART, YOUNGEST, Limits
from gudokeyi.reconcile.plausibility import YEAR, PlausibilityChecks, days_between, usual_days
from gudokeyi.reconcile.stored_findings import told_of
from gudokeyi.store.animal_rows import record_of, society_record_of
from gudokeyi.store.book import Book
from gudokeyi.store.conditions import Condition, born_between, named, named_like, of_sex, offspring_of
from gudokeyi.store.queries import births_of_dams

# what a terminal tells behind them
ANYWAY = "nothing is filed: look at what may be wrong, and say --anyway to file it all the same"
# so many letters tell which warnings a page showed
DIGITS = 24


class MayBeWrong(Mistake):
    """What may be wrong of what somebody files: it is filed where they say so once they know it."""

    def __init__(self, entries: Iterable[Entry]) -> None:
        self.entries = tuple(entries)
        super().__init__(*(entry.words() for entry in self.entries), ANYWAY)


def digest_of(entries: Iterable[Entry]) -> str:
    """Tells which warnings somebody saw."""
    told = "\n".join(sorted(repr(told_of(entry)) for entry in entries))
    return hashlib.sha256(told.encode()).hexdigest()[:DIGITS]


def refuse_unseen(entries: Collection[Entry], seen: str = "") -> None:
    """A mistake where something may be wrong that nobody saw yet."""
    if entries and seen != digest_of(entries):
        raise MayBeWrong(entries)


class ByHandAnimal(NamedTuple):
    """An animal as the society is to know it and as the register is to have it, and as it was, none for a new one."""

    known: SocietyRecord
    record: RegisterRecord
    was: SocietyRecord | None = None

    @property
    def number_in_book(self) -> str:
        return (self.was or self.known).registration_number


def warnings_of(
    book: Book, filed: Sequence[ByHandAnimal], new_owners: Iterable[str] = ()
) -> tuple[Entry, ...]:
    """What may be wrong of animals as they are to be, but for what the book has already. What is told of the first
    animal stands first."""
    before = [one._replace(known=one.was._replace(id=one.known.id), record=book.records[one.was.registration_number])
              for one in filed if one.was]  # fmt: skip
    known = {*Family(book, before).entries()} if before else set()
    found = [entry for entry in Family(book, filed).entries() if entry not in known]
    for one in filed:
        if one.was is None or one.was.id != one.known.id:
            before_it = one.was.id if one.was else ""
            found += [Entry(0, one.known.id, told) for told in id_alike(book, one.known.id, before_it)]
    named_now = {one.record.parent(role): role for one in filed for role in Role if is_named_anew(book, one, role)}
    found += [entry for number, role in named_now.items() for entry in alike(book, number, role)]
    first = filed[0].known.id
    found += [Entry(0, first, told) for owner in new_owners for told in new_owner(book, owner)]
    return tuple(sorted(dict.fromkeys(found), key=lambda entry: entry.id != first))


def is_named_anew(book: Book, one: ByHandAnimal, role: Role) -> bool:
    before = book.records[one.was.registration_number].parent(role) if one.was else ""
    return one.record.parent(role) not in ("", before)


def alike(book: Book, number: str, role: Role) -> Iterator[Entry]:
    """Other animals that may be meant by a parent: their ids or names are nearly its."""
    parent = book.by_number().get(number)
    if parent is None:
        return
    for told in id_alike(book, parent.id):
        yield Entry(0, parent.id, told)
    others = book.rows(named_like(parent.name) & of_sex(role.sex)) if parent.name else []
    for row in others[:1]:
        if folded(row.name) == folded(parent.name) and row.id != parent.id:
            yield Entry(0, parent.id, NameAlike(parent.name, row.id, row.name))


def limits_in(book: Book) -> Limits:
    """The limits that a book remembers."""
    said = {one.what: int(one.word) for one in book.remembered if one.what in (Remembered.YOUNGEST, Remembered.APART)}
    is_apart_said = Remembered.APART in said
    return Limits(said.get(Remembered.YOUNGEST, YOUNGEST), said.get(Remembered.APART, APART), is_apart_said)


class Family:
    """Animals with their parents, their offspring, their dams' other offspring and their namesakes, as sheets have
    animals."""

    def __init__(self, book: Book, filed: Sequence[ByHandAnimal]) -> None:
        self.book, self.animals = book, dict[str, SheetAnimal]()
        self.own = {one.number_in_book: one for one in filed}
        self.filed = {one.known.id for one in filed}
        for one in filed:
            self.add(one.known, one.record)
        for one in filed:
            self.add_parents(one)
            self.add_offspring(one)
            namesakes = named(one.known.name) & born_between(one.record.born, one.record.born)
            self.add_rows(namesakes)

    def entries(self) -> list[Entry]:
        """What is told of them."""
        report = Report()
        checks = PlausibilityChecks(self.animals, limits_in(self.book), report, self.filed, usual=self.usual)
        checks.tell_families(self.book)
        return report.entries

    def usual(self, between: Collection[Sequence[int]]) -> int:
        """How far nearly all litters of one dam in the book are from one another, where any of these could be near by
        that."""
        if min(itertools.chain.from_iterable(between), default=YEAR) >= YEAR:
            return 0
        return usual_days([days_between(births) for births in births_of_dams(self.book)])

    def add(self, known: SocietyRecord, record: RegisterRecord) -> SheetAnimal:
        if known.id in self.animals:
            return self.animals[known.id]
        animal = SheetAnimal(known.id, 0, known.name, known.registration_number[6], birth_in_book(known, record))
        animal.born, animal.left, animal.embryo = record.born, record.left, record.embryo
        animal.castrated = known.castrated
        self.animals[known.id] = animal
        return animal

    def add_rows(self, condition: Condition) -> list[SheetAnimal]:
        """The animals of the book for which a condition holds, but for those that are filed."""
        rows = [row for row in self.book.rows(condition) if row.registration_number not in self.own]
        return [self.add(society_record_of(row), record_of(row)) for row in rows]

    def add_parents(self, one: ByHandAnimal) -> None:
        for role in Role:
            number = one.record.parent(role)
            if number not in self.book.by_number():
                continue
            parent = self.book.by_number()[number]
            if number not in self.own:
                self.add(parent, self.book.records[number])
            id = self.own[number].known.id if number in self.own else parent.id
            self.animals[one.known.id].set_parent(role, id)
            for sib in self.add_rows(offspring_of(number, role)) if role is Role.DAM else ():
                sib.set_parent(role, id)

    def add_offspring(self, one: ByHandAnimal) -> None:
        role = Role.SIRE if one.known.is_male else Role.DAM
        for offspring in self.add_rows(offspring_of(one.number_in_book, role)) if one.was else ():
            offspring.set_parent(role, one.known.id)
            self.filed.add(offspring.id)
