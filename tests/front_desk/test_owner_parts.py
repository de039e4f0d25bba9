"""The days of owners in a taking, by themselves."""
from __future__ import annotations

import datetime
from types import SimpleNamespace
from typing import cast

from front_desk.test_taking_parts import BORN, NUMBER
from front_desk.replayed import record_after
from gudokeyi.domain.animals import NO_OWNER, SocietyRecord
from gudokeyi.domain.commands import birth, transfer
from gudokeyi.domain.findings import Report
from gudokeyi.domain.kinds import Field
from gudokeyi.domain.provenance import OwnerDay
from gudokeyi.ingest.animals import SheetAnimal
from gudokeyi.ingest.days import DayFault, Span, month_of, year_of
from gudokeyi.ingest.findings.cells import DayLeftOut
from gudokeyi.reconcile.findings.rows import OwnerDayInferred, OwnerDayMoved, OwnerDayOfImport
from gudokeyi.reconcile.owner_days import OwnerDays, Owners
from gudokeyi.store.book import Book
from gudokeyi.store.database import empty


def moved(basis: OwnerDay, born: str, *days: str, left: str = "") -> tuple[list[str], list[tuple[str, str]], OwnerDay]:
    """The days of an animal's transfers in order, those of them that are told, each with its day before, and what the
    last one comes from."""
    report, day = Report(), datetime.date.fromisoformat
    animal = SheetAnimal("a", 2, born=day(born), left=day(left) if left else None, owner_day=basis)
    given = [transfer(NUMBER, day(one), at, at + 1) for at, one in enumerate(days, 1)]
    found = OwnerDays(cast(Book, SimpleNamespace(owner_of=str)), report, None).in_order(animal, given)
    told = [one.finding for one in report.entries if isinstance(one.finding, OwnerDayMoved)]
    return [one.day for one in found], [(str(one.before), str(one.now)) for one in told], animal.owner_day


def test_days_of_owners_in_order() -> None:
    """An inferred last day is moved and not told; one that was given moves those before it. What is moved to a birth
    or an exit is told, and inferred from then on."""
    inferred, given = OwnerDay.INFERRED, OwnerDay.GIVEN
    days = "2010-01-01", "2012-01-01"
    assert moved(given, "2001-01-01", *days) == ([*days], [], given)
    assert moved(inferred, "2001-01-01", *reversed(days)) == ([days[1]] * 2, [], inferred)
    assert moved(given, "2001-01-01", *reversed(days)) == ([days[0]] * 2, [(days[1], days[0])], given)
    assert moved(given, "2001-01-01", *days, left="2011-01-01") == (
        [days[0], "2011-01-01"], [(days[1], "2011-01-01")], inferred
    )  # fmt: skip
    assert moved(given, "2013-01-01", *days) == (["2013-01-01"] * 2, [(one, "2013-01-01") for one in days], inferred)
    # an exit before the birth leaves no day open
    born = "2011-01-01"
    assert moved(inferred, born, *days, left="2005-01-01") == ([born] * 2, [(days[0], born)], inferred)


def test_day_of_another_owner(today: datetime.date) -> None:
    """That of the sheet, or the last one of its month or year that isn't after today, which is inferred; else that of
    the taking, which is so where none is named."""
    named, years = datetime.date(2009, 8, 7), (BORN.year, today.year)
    record = record_after(None, birth(NUMBER, BORN, "", "", 4, False))
    book = cast(Book, SimpleNamespace(owners={"Nord": 5}))

    def changed(since: Span | None, day: datetime.date | None = None) -> tuple[datetime.date, OwnerDay]:
        animal = SheetAnimal("a", 2, registration_number=NUMBER, owner="Nord", since=since)
        found = OwnerDays(book, Report(), day).change(animal, record)
        day = datetime.date.fromisoformat(found.day)
        assert found == transfer(NUMBER, day, 4, 5)
        return day, animal.owner_day

    inferred, given = OwnerDay.INFERRED, OwnerDay.GIVEN
    assert changed(None) == (today, inferred) and changed(None, named) == (named, given)
    for day in None, named:
        assert changed(Span(BORN, BORN), day) == (BORN, given)
        assert changed(month_of(2003, 2), day) == (datetime.date(2003, 2, 28), inferred)
        assert [changed(year_of(year), day) for year in years] == [
            (datetime.date(BORN.year, 12, 31), inferred), (today, inferred)
        ]  # fmt: skip


def test_owners_of_animals(today: datetime.date) -> None:
    """What the book has stays where the sheet says nothing else: another owner, or another day of the same one. The
    first owner of all has an animal from its birth on, or since a day of the sheet."""
    day, later, tomorrow = (datetime.date(year, 1, 2) for year in (2003, 2005, today.year + 1))
    born = record_after(None, birth(NUMBER, BORN, "", "", 4, False))
    given = transfer(NUMBER, day, 4, 5)
    report = Report()

    def found(owner: str, since: Span | None, is_given: bool = False, *, is_new: bool = False, number: str = NUMBER,
              refused: bool = False, now: datetime.date = BORN) -> tuple[Owners, str, OwnerDay]:  # fmt: skip
        record = record_after(born, given) if is_given else born
        known = {} if is_new else {"a": SocietyRecord(NUMBER, "a", owner_day=OwnerDay.INFERRED)}
        owners = {"Nord": 4, "Süd": 5}
        names = {herd: name for name, herd in owners.items()} | {NO_OWNER: ""}
        book = SimpleNamespace(
            society_records=known, records={NUMBER: record}, owners=owners, owner_of=names.get, connection=empty()
        )  # fmt: skip
        days = OwnerDays(cast(Book, book), report, None)
        days.before = {NUMBER: 4}, {NUMBER: [given]}
        animal = SheetAnimal("a", 2, registration_number=number, owner=owner, since=since, born=now)
        days.refused |= {"a"} if refused else set()
        return days.of(animal), animal.owner, animal.owner_day

    inferred, of_day = OwnerDay.INFERRED, OwnerDay.GIVEN
    first = transfer(NUMBER, day, NO_OWNER, 4)
    for since in None, Span(BORN, BORN), year_of(BORN.year), Span(tomorrow, tomorrow):
        assert found("Nord", since) == ((4, [], 0, False), "Nord", inferred)
        assert found("Nord", since, is_new=True) == ((4, [], 0, False), "Nord", of_day)
    # the last day of a year stands for it
    last = first._replace(day="2003-12-31")
    assert found("Nord", year_of(2003)) == ((NO_OWNER, [last], 0, True), "Nord", inferred)
    assert found("Nord", year_of(2003), is_new=True) == ((NO_OWNER, [last], 0, False), "Nord", inferred)
    assert found("Nord", Span(day, day)) == ((NO_OWNER, [first], 0, True), "Nord", of_day)
    assert found("Nord", Span(day, day), is_new=True) == ((NO_OWNER, [first], 0, False), "Nord", of_day)
    assert found("Nord", Span(day, day), now=day) == ((4, [], 0, False), "Nord", inferred)
    assert found("", Span(day, day)) == ((4, [], 0, False), "", inferred)
    assert found("", Span(day, day), is_new=True) == ((NO_OWNER, [], 0, False), "", of_day)
    assert found("West", None, is_new=True)[0] == (6, [], 0, False)
    # another owner, on the day of the import where the sheet's is after today, and none where the command is refused
    new = transfer(NUMBER, today, 4, 5)
    assert found("Süd", None) == ((4, [new], 0, False), "Süd", inferred)
    assert found("Süd", Span(today, today)) == ((4, [new], 0, False), "Süd", of_day)
    assert found("Süd", None, refused=True) == ((4, [], 0, False), "Süd", inferred)
    assert found("Süd", Span(tomorrow, tomorrow)) == ((4, [new], 0, False), "Süd", inferred)
    # behind a transfer of the book
    moved, back = given._replace(day=later.isoformat()), transfer(NUMBER, today, 5, 4)
    assert found("Süd", year_of(2003), True) == ((4, [given], 1, False), "Süd", inferred)
    assert found("Süd", Span(day, day), True) == ((4, [given], 1, False), "Süd", of_day)
    assert found("Süd", Span(later, later), True) == ((4, [moved], 1, True), "Süd", of_day)
    assert found("Nord", None, True) == ((4, [given, back], 1, False), "Nord", inferred)
    male = NUMBER.replace("F", "M")
    assert found("Süd", None, True, number=male) == ((4, [given._replace(animal=male)], 1, False), "Süd", inferred)
    # once of each animal
    left_out = DayLeftOut(Field.SINCE, DayFault.AFTER_TODAY, str(tomorrow))
    of_year = OwnerDayInferred(datetime.date(2003, 12, 31), year_of(2003).period())
    of_import = OwnerDayOfImport("Süd", today)
    assert [entry.finding for entry in report.entries] == [
        *[left_out] * 2, *[of_year] * 2, of_import, left_out, of_import, OwnerDayOfImport("Nord", today)
    ]  # fmt: skip
