"""Guards by themselves: how many are few, and what tells that animals, names, sexes and parents are others'."""
from __future__ import annotations

import datetime
from collections.abc import Iterable
from dataclasses import replace
from types import SimpleNamespace
from typing import Any, cast

from front_desk.replayed import record_after
from gudokeyi.domain.animals import SocietyRecord
from gudokeyi.domain.commands import birth
from gudokeyi.domain.kinds import Role, Standing
from gudokeyi.domain.provenance import BirthBasis, BirthSource, SexSource
from gudokeyi.ingest.animals import SheetAnimal
from gudokeyi.ingest.columns import Columns
from gudokeyi.ingest.days import Precision, Span
from gudokeyi.reconcile.animals_of_book import AnimalsOfBook
from gudokeyi.reconcile.findings.obstacles import (
    Changed, Guard, LooksLike, ManyDropped, ManyGone, ManyOthers, ParentsLack,
)  # fmt: skip
from gudokeyi.reconcile.guards import Guards
from gudokeyi.store.book import Book

INFERRED = SocietyRecord("", "", birth=BirthBasis(BirthSource.PARENTS))


def number(at: int) -> str:
    return f"HOLGBRF{at:012}"


def day(at: int) -> datetime.date:
    return datetime.date(2001, 1, 1) + datetime.timedelta(at)


def guards(had: int, rows: Iterable[SheetAnimal], alike: SocietyRecord = SocietyRecord("", "")) -> Guards:
    """Of a sheet beside a book of so many animals, from `a0` on, each born a day after the one before; the rest is
    known alike."""
    known = {
        f"a{at}": alike._replace(registration_number=number(at), id=f"a{at}", name=f"name {at}") for at in range(had)
    }
    records = {number(at): record_after(None, birth(number(at), day(at), "", "", 1, False)) for at in range(had)}
    sheet = SimpleNamespace(titles=[])
    columns = SimpleNamespace(lacks_ids="", found={Role.SIRE: 1, Role.DAM: 2}, sheet=sheet)
    book = SimpleNamespace(society_records=known, records=records)
    return Guards(cast(Book, book), {one.id: one for one in rows}, cast(Columns, columns))


def row(at: int, letter: str = "a", days: int = 0, sire: str = "") -> SheetAnimal:
    """That of the animal which was born so many days after the first one, with so many days more."""
    return SheetAnimal(f"{letter}{at}", 2 + at, f"name {at}", birth=Span(day(at + days), day(at + days)), sire=sire)


def test_so_many_are_few() -> None:
    """Nine that are gone or dropped, and a tenth; those that are gone aren't told as dropped too."""
    for had, gone, is_told in (60, 9, False), (60, 10, True), (99, 10, True), (100, 10, False), (101, 11, True):
        rows = [*map(row, range(had - gone))]
        told = ManyGone(gone, had, LooksLike.OLDER_SHEET)
        one = guards(had, rows)
        assert (one.gone(), one.dropped(one.rows)) == ((told, None) if is_told else (None, None))
        one = guards(had, rows, SocietyRecord("", "", standing=Standing.GONE))
        dropped = one.dropped(one.rows)
        assert isinstance(dropped, ManyDropped) == is_told and one.gone() is None
    # five that are others, and two of a hundred
    for had, others, is_told in (60, 5, False), (60, 6, True), (299, 6, True), (300, 6, False), (301, 7, True):
        one = guards(had, [row(at, days=9 * (at < others)) for at in range(had)])
        found = one.other_animals()
        assert isinstance(found, ManyOthers) == is_told
    # a day that isn't said or was inferred is no other one
    rows = [row(at, days=9) for at in range(60)]
    assert guards(60, rows, INFERRED).other_animals() is None
    for animal in rows:
        animal.birth = Span(day(0), day(99), precision=Precision.YEAR)
    assert guards(60, rows).other_animals() is None


def told(found: Guard | None) -> tuple[Changed, int, LooksLike] | None:
    assert found is None or isinstance(found, ManyOthers)
    return (found.what_changed, found.changed, found.like) if found else None


def renamed(rows: list[SheetAnimal], *names: str) -> list[SheetAnimal]:
    """The first ones have these names."""
    return [replace(one, name=name) for one, name in zip(rows, names)] + rows[len(names) :]


def test_names_of_other_animals() -> None:
    """That of another one is seen, in capitals too. A new one is none, nor is an empty one, nor one that many have."""
    rows, apart = [*map(row, range(60))], LooksLike.SORTED_APART
    next_ones = [f"NAME {at}" for at in range(1, 7)]
    assert told(guards(60, renamed(rows, *next_ones)).other_animals()) == (Changed.NAMES, 6, apart)
    assert told(guards(60, renamed(rows, *next_ones[:5])).other_animals()) is None
    assert told(guards(60, renamed(rows, *(f"new {at}" for at in range(60)))).other_animals()) is None
    without = guards(60, renamed(rows, *[""] * 60))
    without.book.society_records = {
        **without.book.society_records,
        "a7": without.book.society_records["a7"]._replace(name=""),
    }
    assert told(without.other_animals()) is None
    several = guards(60, renamed(rows, *["BELLA"] * 60))
    several.book.society_records = {id: one._replace(name="Bella") for id, one in several.book.society_records.items()}
    assert told(several.other_animals()) is None
    # with other days: another flock, or one column alone
    later = [row(at, days=9) for at in range(60)]
    for names, changed in ((), Changed.BIRTH_DAYS), (("",) * 60, Changed.BIRTH_DAYS), (("x",) * 5, Changed.BIRTH_DAYS):
        assert told(guards(60, renamed(later, *names)).other_animals()) == (changed, 60, apart)
    flock = Changed.NAMES_AND_BIRTH_DAYS, 60, LooksLike.ANOTHER_FLOCK
    assert told(guards(60, renamed(later, *["x"] * 6)).other_animals()) == flock


def test_sexes_and_parents_of_other_animals() -> None:
    """What a row doesn't say, or what was inferred, is no other sex; a parent that is added, one that has no row or had
    none, and one whose cell can't be read or has no column are no others. New animals don't count."""
    apart, new = LooksLike.SORTED_APART, [row(at, "b") for at in range(300)]
    males = [replace(row(at), sex="M" * (at < 6)) for at in range(60)]
    assert told(guards(60, [*males, *new]).other_sexes()) == (Changed.SEXES, 6, apart)
    assert [told(guard) for guard in guards(60, males).of_both()] == [(Changed.SEXES, 6, apart)]
    assert told(guards(60, males[1:]).other_sexes()) is None
    assert told(guards(60, males, SocietyRecord("", "", sex=SexSource.DAM)).other_sexes()) is None

    def parents(sire: str, before: str = number(59), **more: Any) -> tuple[Changed, int, LooksLike] | None:
        """Of animals that all had `a59` as their sire."""
        one = guards(60, [replace(row(at, sire=sire), unread=more.get("unread", [])) for at in range(60)])
        one.book.records = {at: record._replace(sire=before) for at, record in one.book.records.items()}
        sire_before = one.book.society_records["a59"]._replace(standing=more.get("standing", Standing.ROW))
        one.book.society_records = {**one.book.society_records, "a59": sire_before}
        one.in_book = AnimalsOfBook(one.book)
        one.given = more.get("given", one.given)
        return told(one.other_parents())

    assert parents("a58") == parents("") == parents("", standing=Standing.GONE) == (Changed.PARENTS, 60, apart)
    assert parents("a59") is parents("x") is parents("a58", before="") is None
    assert parents("", unread=[Role.SIRE]) is parents("", given=[Role.DAM]) is None
    assert parents("", standing=Standing.PARENT) is None


def test_what_a_sheet_looks_like() -> None:
    """Half of its animals are no most of them, wherever that is asked."""
    first, others = [*map(row, range(30))], [row(at, "b", 5000) for at in range(30)]
    assert guards(60, [*first, *others[1:]]).like() is LooksLike.PART
    assert guards(60, [*first, *others]).like() is LooksLike.ANOTHER_FLOCK
    # the youngest are missing, of which one was born with the youngest of the sheet
    assert guards(60, first).like() is LooksLike.OLDER_SHEET
    assert guards(60, map(row, range(30, 60))).like() is LooksLike.PART
    one = guards(31, first)
    one.book.records = {**one.book.records, number(30): one.book.records[number(29)]}
    assert one.like() is LooksLike.OLDER_SHEET
    # most that lack a row have one whose id is written otherwise
    for count, like in (15, LooksLike.ANOTHER_FLOCK), (16, LooksLike.IDS_OTHERWISE):
        nearly = [row(at, "A 0", 5000) for at in range(30, 30 + count)]
        assert guards(60, [*first, *nearly, *others[count - 1 :], row(99, "b")]).like() is like
    for count, like in (15, LooksLike.ANOTHER_FLOCK), (16, LooksLike.ANOTHER_ID):
        same = [row(at, "c") for at in range(count)]
        assert guards(60, [*same, *others[count:]]).like() is like
        assert guards(60, same, INFERRED).like() is LooksLike.ANOTHER_FLOCK


def test_parents_that_lack() -> None:
    """Ten, each once, and more than half of all; one that the book has lacks nowhere."""
    for lacking, there, is_told in (9, 0, False), (10, 0, True), (10, 10, False), (10, 9, True):
        sires = [f"x{at}" for at in range(lacking)] + ["a0"] * there
        rows = [row(at, sire=sire) for at, sire in enumerate(sires, 1)]
        found = guards(60, rows).parents()
        assert isinstance(found, ParentsLack) == is_told
        assert not isinstance(found, ParentsLack) or (found.lost, found.links) == (lacking, lacking + there)
    assert guards(60, [row(at, sire=f"x{at % 9}") for at in range(40)]).parents() is None
