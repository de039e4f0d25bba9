"""Rows that have another name, another birth day and another parent than the animal of the book with their id: they may
be other animals that got its tag. They are taken as they stand, and told before what they change."""
from __future__ import annotations

from collections.abc import Collection

from gudokeyi.domain.animals import SocietyRecord
from gudokeyi.domain.commands import RegisterRecord
from gudokeyi.domain.kinds import Field, Role
from gudokeyi.ingest.animals import YEARS_LATER, SheetAnimal
from gudokeyi.reconcile.findings.same_animals import TagOfAnother
from gudokeyi.reconcile.guards import MOST_OTHERS, Guards
from gudokeyi.reconcile.next_book import NextBook
from gudokeyi.reconcile.plausibility import LITTER

PARENTS = {Role.SIRE: Field.SIRE, Role.DAM: Field.DAM}


def tell_tags_of_others(next_book: NextBook, guards: Guards, exchanged: Collection[str]) -> None:
    """Parents are found by now, and `exchanged` are the ids of which is told that they are exchanged. Of a sheet of
    which most rows are so the guards tell."""
    found = [
        (row, in_book, record) for row, in_book, record in guards.otherwise
        if row.id not in exchanged and next_book.animals.get(row.id) is row
        and is_born_on_another_day(row, in_book, record) and has_another_name(row, in_book)
        and has_another_parent(next_book, row, in_book, record)
    ]  # fmt: skip
    if len(found) > MOST_OTHERS and 2 * len(found) > guards.count_of_both:
        return
    rows = {(one.name.casefold(), one.birth.first): one for one in next_book.animals.values()} if found else {}
    for row, in_book, record in found:
        former = rows.get((in_book.name.casefold(), record.born))
        elsewhere = (former.id, former.line) if former and former.line else ("", 0)
        told = TagOfAnother(in_book.name, record.born, row.name, row.birth.first, *elsewhere)
        next_book.report.add(row.line, row.id, told)


def is_born_on_another_day(row: SheetAnimal, in_book: SocietyRecord, record: RegisterRecord) -> bool:
    """Is each birth on a day that somebody said, further apart than those of a litter? Of those that are years apart is
    told as such."""
    if not row.has_day() or in_book.birth.is_inferred or in_book.birth.period or Field.BIRTH in in_book.by_hand:
        return False
    return LITTER < abs((row.birth.first - record.born).days) < YEARS_LATER


def has_another_name(row: SheetAnimal, in_book: SocietyRecord) -> bool:
    is_by_hand = Field.NAME in in_book.by_hand
    return bool(row.name and in_book.name) and not is_by_hand and row.name.casefold() != in_book.name.casefold()


def has_another_parent(next_book: NextBook, row: SheetAnimal, in_book: SocietyRecord, record: RegisterRecord) -> bool:
    """Has it another sire or another dam, both of which are known?"""
    pairs = [
        (next_book.id_of(record.parent(role)), row.parent(role)) for role, field in PARENTS.items()
        if role in next_book.given and role not in row.unread and field not in in_book.by_hand
    ]  # fmt: skip
    return any(before and now and before != now for before, now in pairs)
