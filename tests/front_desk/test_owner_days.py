"""The days on which the owners of an animal change, by themselves: the book's, and what a sheet says of the last."""
from __future__ import annotations

import datetime
from types import SimpleNamespace
from typing import NamedTuple, cast

from front_desk.replayed import record_after
from gudokeyi.domain.animals import NO_OWNER, SocietyRecord
from gudokeyi.domain.commands import Command, birth, transfer
from gudokeyi.domain.findings import Finding, Report
from gudokeyi.domain.provenance import OwnerDay
from gudokeyi.ingest.animals import SheetAnimal
from gudokeyi.ingest.days import Span, month_of, year_of
from gudokeyi.reconcile.findings.rows import OwnerDayInferred, OwnerDayMoved
from gudokeyi.reconcile.owner_days import OwnerDays, Owners
from gudokeyi.store.book import Book
from gudokeyi.store.database import empty

NUMBER, NORD, SUED = "HOLGBRF000000000001", 4, 5
BORN, DAY, LATER, LAST = (datetime.date(year, 2, 3) for year in (2001, 2003, 2005, 2007))
INFERRED, OF_DAY = OwnerDay.INFERRED, OwnerDay.GIVEN
# first it was of Nord, then of Süd, and then of Nord again
AWAY, BACK = transfer(NUMBER, DAY, NORD, SUED), transfer(NUMBER, LATER, SUED, NORD)


class Found(NamedTuple):
    """The owners, the first day with an owner that stays, where that is another, what is told, and of the last day
    where it comes from."""

    owners: Owners
    other_day: str
    told: list[Finding]
    owner_day: OwnerDay


def found(
    owner: str, since: Span | None, *before: Command, first: int = NORD, left: datetime.date | None = None
) -> Found:
    """Of an animal that the book has with the herd in which it was born and these transfers."""
    record = record_after(None, birth(NUMBER, BORN, "", "", first, False))
    for command in before:
        record = record_after(record, command)
    owners = {"Nord": NORD, "Süd": SUED}
    names = {herd: name for name, herd in owners.items()} | {NO_OWNER: ""}
    known = {"a": SocietyRecord(NUMBER, "a", owner_day=INFERRED)}
    book = SimpleNamespace(
        society_records=known, records={NUMBER: record}, owners=owners, owner_of=names.get, connection=empty()
    )  # fmt: skip
    report = Report()
    days = OwnerDays(cast(Book, book), report, None)
    days.before = {NUMBER: first}, {NUMBER: [*before]}
    animal = SheetAnimal("a", 2, registration_number=NUMBER, owner=owner, since=since, born=BORN, left=left)
    owners_of = days.of(animal)
    told = [one.finding for one in report.entries]
    return Found(owners_of, days.other_days.get("a", ""), told, animal.owner_day)


def on(day: datetime.date) -> Span:
    return Span(day, day)


def dated(command: Command, day: datetime.date) -> Command:
    return command._replace(day=day.isoformat())


def test_another_day_of_the_last_owner() -> None:
    """It is that of the last transfer, to which those before give way; a month or a year that has the book's day says
    nothing else."""
    assert found("Nord", on(LAST), AWAY, BACK) == (
        (NORD, [AWAY, dated(BACK, LAST)], 2, True), str(LAST), [], OF_DAY
    )  # fmt: skip
    early = datetime.date(2002, 1, 1)
    moved = [OwnerDayMoved("Süd", DAY, early)]
    assert found("Nord", on(early), AWAY, BACK) == (
        (NORD, [dated(AWAY, early), dated(BACK, early)], 2, True), str(early), moved, OF_DAY
    )  # fmt: skip
    for since in month_of(2005, 2), year_of(2005):
        assert found("Nord", since, AWAY, BACK) == ((NORD, [AWAY, BACK], 2, False), "", [], INFERRED)
    assert found("Nord", on(LATER), AWAY, BACK) == ((NORD, [AWAY, BACK], 2, False), "", [], OF_DAY)
    assert found("Nord", None, AWAY, BACK) == ((NORD, [AWAY, BACK], 2, False), "", [], INFERRED)
    # of another owner it is that of a transfer, and no other day of his
    assert found("Süd", on(LAST), AWAY, BACK) == (
        (NORD, [AWAY, BACK, transfer(NUMBER, LAST, NORD, SUED)], 2, False), "", [], OF_DAY
    )  # fmt: skip


def test_days_before_the_birth() -> None:
    """Such a day of an owner by a transfer is moved to the birth; it is no other day where the book has that already.
    An animal that is of nobody has no such day."""
    early = BORN - datetime.timedelta(365)
    told = [OwnerDayMoved("Süd", early, BORN)]
    at_birth = dated(AWAY, BORN)
    assert found("Süd", on(early), AWAY) == ((NORD, [at_birth], 1, True), str(BORN), told, INFERRED)
    assert found("Süd", on(early), at_birth) == ((NORD, [at_birth], 1, False), "", told, INFERRED)
    moved = [OwnerDayMoved("Nord", early, BORN)]
    for since, its in (on(early), moved), (on(BORN), []), (year_of(BORN.year), []):
        assert found("Nord", since) == ((NORD, [], 0, False), "", its, INFERRED)
    for owner in "", "Nord":
        wanted = (NO_OWNER, [transfer(NUMBER, DAY, NO_OWNER, NORD)], 0, False) if owner else (NO_OWNER, [], 0, False)
        assert found(owner, on(DAY), first=NO_OWNER).owners == wanted


def test_new_animal_before_its_birth() -> None:
    """Of a new animal a day, a month or a year that ends before its birth is told: its owner has it from the birth
    on."""
    early = datetime.date(2000, 12, 31)
    for since, told in (
        (on(early), [OwnerDayMoved("Nord", early, BORN)]), (year_of(2000), [OwnerDayMoved("Nord", early, BORN)]),
        (year_of(BORN.year), []), (on(BORN), []), (None, []),
    ):  # fmt: skip
        report, book = Report(), SimpleNamespace(society_records={}, owners={"Nord": NORD})
        animal = SheetAnimal("b", 2, registration_number=NUMBER, owner="Nord", since=since, born=BORN)
        assert OwnerDays(cast(Book, book), report, None).of(animal) == (NORD, [], 0, False)
        assert [one.finding for one in report.entries] == told


def test_periods_of_an_owner(today: datetime.date) -> None:
    """The last day of one stands for it, or that of an exit within it, or today; it is inferred, and told of the last
    owner alone. A day that isn't of the period is told as one that is moved."""
    year, end = year_of(2005), datetime.date(2005, 12, 31)
    back = transfer(NUMBER, end, SUED, NORD)
    away = dated(AWAY, LATER)
    assert found("Nord", year, away) == (
        (NORD, [away, back], 1, False), "", [OwnerDayInferred(end, year.period())], INFERRED
    )  # fmt: skip
    left = datetime.date(2005, 6, 1)
    assert found("Nord", year, AWAY, left=left) == (
        (NORD, [AWAY, dated(back, left)], 1, False), "", [OwnerDayInferred(left, year.period())], INFERRED
    )  # fmt: skip
    left = datetime.date(2004, 6, 1)
    assert found("Nord", year, AWAY, left=left) == (
        (NORD, [AWAY, dated(back, left)], 1, False), "", [OwnerDayMoved("Nord", end, left)], INFERRED
    )  # fmt: skip
    until_now = OwnerDayInferred(today, year_of(today.year).period())
    assert found("Nord", year_of(today.year), AWAY) == (
        (NORD, [AWAY, dated(back, today)], 1, False), "", [until_now], INFERRED
    )  # fmt: skip
    # an exact day is told as it is, and is inferred where it is moved
    assert found("Nord", on(LATER), AWAY, left=left) == (
        (NORD, [AWAY, dated(back, left)], 1, False), "", [OwnerDayMoved("Nord", LATER, left)], INFERRED
    )  # fmt: skip
