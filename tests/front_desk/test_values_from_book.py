"""What an animal of a sheet keeps of the book by itself: where there is no column, or no text that can be read, or
where it was filed by hand."""
from __future__ import annotations

import datetime
from types import SimpleNamespace
from typing import Any, cast

from front_desk.replayed import record_after
from gudokeyi.domain.animals import SocietyRecord
from gudokeyi.domain.commands import RegisterRecord, birth
from gudokeyi.domain.findings import Finding, Report
from gudokeyi.domain.kinds import CELL_FIELDS, Field
from gudokeyi.domain.provenance import GIVEN_EXIT, BirthBasis, BirthSource, ExitBasis, ExitSource, SexSource
from gudokeyi.ingest.animals import SheetAnimal
from gudokeyi.ingest.day_cells import DayCells
from gudokeyi.ingest.days import Span, month_of, year_of
from gudokeyi.ingest.findings.exits import ExitInferred
from gudokeyi.ingest.unknown_parents import UnknownParents
from gudokeyi.reconcile.findings.animals import KeptByHand, KeptFromBook, SexInferred
from gudokeyi.reconcile.next_book import NextBook
from gudokeyi.reconcile.values_from_book import keep_values
from gudokeyi.store.book import Book
from gudokeyi.store.database import empty

NUMBER, SIRE, DAM = "HOLGBRM000000000001", "HOLGBRM000000000002", "HOLGBRF000000000003"
BORN, LEFT = datetime.date(2001, 3, 31), datetime.date(2005, 6, 1)
# what the book has of `a`: a castrated male of a stored embryo, of the herd of `Nord`, which left
RECORD = record_after(None, birth(NUMBER, BORN, SIRE, DAM, 4, True))._replace(left=LEFT)
KNOWN = SocietyRecord(NUMBER, "a", "Anna", castrated=True)
OWNERS = {0: "", 4: "Nord", 5: "Süd"}


def kept(
    animal: SheetAnimal, known: SocietyRecord = KNOWN, record: RegisterRecord = RECORD, lacks: tuple[Field, ...] = (),
    last: dict[Field, str] | None = None, found: tuple[Finding, ...] = (),
) -> NextBook:  # fmt: skip
    """The book that is to come, which has the animal after that. `last` are the cells of the last sheet, and `found` is
    what was told of the animal before."""
    names = {SIRE: SocietyRecord(SIRE, "s"), DAM: SocietyRecord(DAM, "d"), NUMBER: known}
    cells = {("a",): ("a", *map(cast(Any, last).get, CELL_FIELDS))} if last is not None else {}
    book = SimpleNamespace(
        society_records={one.id: one for one in names.values()}, records={NUMBER: record}, by_number=lambda: names, cells=cells,
        respelt=str, owner_of=OWNERS.__getitem__, connection=empty(),
    )  # fmt: skip
    report, given = Report(), {field.value for field in Field if field not in lacks}
    for finding in found:
        report.add(animal.line, animal.id, finding)
    one = NextBook(cast(Book, book), {"a": animal}, given, report, DayCells(UnknownParents(), month_first=False))
    keep_values(one)
    return one


def told(one: NextBook) -> list[Finding]:
    return [entry.finding for entry in one.report.entries]


def test_cells_that_cannot_be_read() -> None:
    """They are as if there were no column for them; where the book has nothing either, what is said of them stays."""
    fields = (Field.NAME, Field.SIRE, Field.DAM, Field.EXIT, Field.EMBRYO)
    said = {Field.OWNER: "Nord", Field.SEX: "M", Field.BIRTH: str(BORN)}
    basis = ExitBasis(ExitSource.UNKNOWN_DAY, text="sold")

    def animal(*unread: Field) -> SheetAnimal:
        return SheetAnimal(
            "a", 2, owner="Nord", sex="M", birth=Span(BORN, BORN), cells=cast(Any, said), exit_basis=basis,
            unread=[*unread],
        )  # fmt: skip

    for lacks, unread in ((fields, ()), ((), fields)):
        one = kept(animal(*unread), lacks=lacks)
        after = one.animals["a"]
        assert (after.name, after.sire, after.dam, after.left, after.embryo) == ("Anna", "s", "d", LEFT, True)
        assert after.exit_basis is GIVEN_EXIT
        assert told(one) == [KeptFromBook(Field.EXIT, str(LEFT), True)] * (not lacks)
    after = kept(animal()).animals["a"]
    assert (after.name, after.sire, after.dam, after.left, after.embryo) == ("", "", "", None, False)
    after = kept(animal(Field.EXIT), record=RECORD._replace(left=None)).animals["a"]
    assert after.left is None and after.exit_basis is basis


def test_cells_that_say_nothing() -> None:
    """An owner, a sex and the word for a castrated one stay, but for a sex that was inferred."""
    empty = SheetAnimal("a", 2, birth=Span(BORN, BORN))
    one = kept(empty)
    assert (empty.owner, empty.sex, empty.castrated) == ("Nord", "M", True)
    assert told(one) == [KeptFromBook(Field.OWNER, "Nord", False), KeptFromBook(Field.SEX, "M", False)]
    empty = SheetAnimal("a", 2, birth=Span(BORN, BORN))
    one = kept(empty, KNOWN._replace(sex=SexSource.SIRE), lacks=(Field.OWNER,))
    assert (empty.owner, empty.sex) == ("Nord", "") and not told(one)
    for word, castrated in (("M", False), ("", True)):
        animal = SheetAnimal("a", 2, sex="M", cells={"sex": word})
        kept(animal)
        assert animal.castrated is castrated
    animal = SheetAnimal("a", 2, sex="M", cells={"sex": "M"})
    kept(animal, lacks=(Field.SEX,))
    assert animal.castrated


def test_birth_days_that_a_period_leaves_open() -> None:
    """The book's day stays where it is one of them, and was given."""
    inferred = BirthBasis(BirthSource.OFFSPRING)
    for born, period, known, stays in (
        (BORN, month_of(2001, 3), KNOWN, True), (BORN.replace(day=1), month_of(2001, 3), KNOWN, True),
        (BORN, year_of(2002), KNOWN, False), (BORN, year_of(2000), KNOWN, False),
        (BORN, year_of(2001), KNOWN._replace(birth=inferred), False),
    ):  # fmt: skip
        animal = SheetAnimal("a", 2, sex="M", owner="Nord", birth=period)
        one = kept(animal, known, RECORD._replace(born=born))
        assert animal.birth == (Span(born, born) if stays else period)
        assert told(one) == [KeptFromBook(Field.BIRTH, str(born), False)] * stays


def test_exits_that_a_period_leaves_open() -> None:
    """The same of an exit: then nothing is told any more of the day that was inferred from its cell."""
    other = SexInferred("M", SexSource.SIRE, False)
    inferred = ExitBasis(ExitSource.PERIOD, year_of(2005).period())
    for period, known, stays in (
        (month_of(2005, 6), KNOWN, True), (year_of(2005), KNOWN, True), (month_of(2005, 7), KNOWN, False),
        (year_of(2006), KNOWN, False), (year_of(2005), KNOWN._replace(exit=inferred), False),
    ):  # fmt: skip
        basis = ExitBasis(ExitSource.PERIOD, period.period())
        found = ExitInferred(period.last, basis, "")
        animal = SheetAnimal("a", 2, sex="M", owner="Nord", birth=Span(BORN, BORN), left=period.last, exit_basis=basis)
        one = kept(animal, known, found=(found, other))
        assert (animal.left, animal.exit_basis) == ((LEFT, GIVEN_EXIT) if stays else (period.last, basis))
        assert told(one) == ([other, KeptFromBook(Field.EXIT, str(LEFT), False)] if stays else [found, other])


def test_owners_by_hand() -> None:
    """Such an owner stays where the sheet's is as before, and his day with him: that of a row that names another owner
    is none of his, nor is one that is as in the last sheet."""
    known, year, other = KNOWN._replace(by_hand=frozenset({Field.OWNER})), year_of(2003), "2003"
    for owner, since, before, after in (
        # the owner and day of the last sheet; then the owner, whether there is a day, what is overridden, who is kept
        ("Süd", other, ("Süd", other), ("Nord", False, set(), {"a"})),
        ("Süd", other, ("Süd", "2002"), ("Nord", False, set(), {"a"})),
        ("Süd", other, ("Ost", other), ("Süd", False, {Field.OWNER}, set())),
        ("Süd", other, ("Ost", "2002"), ("Süd", True, {Field.OWNER}, set())),
        ("Nord", other, ("Süd", other), ("Nord", False, set(), set())),
        ("Nord", other, ("Süd", "2002"), ("Nord", True, set(), set())),
        ("Nord", other, ("Nord", "2002"), ("Nord", True, set(), set())),
        ("", other, ("", "2002"), ("Nord", True, set(), set())),
        ("", "", None, ("Nord", False, set(), set())),
    ):  # fmt: skip
        cells = {"owner": owner, "since": since}
        animal = SheetAnimal("a", 2, sex="M", owner=owner, cells=cells, since=year if since else None)
        last = dict(zip((Field.OWNER, Field.SINCE), before)) if before else None
        one = kept(animal, known, last=last)
        found = animal.owner, animal.since is not None, {*one.overridden["a"]}, one.kept_owners
        assert found == after, (owner, since, before)


def test_told_of_what_was_filed_by_hand() -> None:
    """Each value that another one of the sheet gives way to, and no other; a column that lacks overrides nothing."""
    fields = frozenset({Field.NAME, Field.SIRE, Field.DAM, Field.EXIT, Field.EMBRYO})
    cells = {"name": "Anna", "sire": "x", "dam": "y", "exit": "", "embryo": ""}
    animal = SheetAnimal("a", 2, "Anna", sex="M", owner="Nord", sire="x", dam="y", cells=cells, birth=Span(BORN, BORN))
    one = kept(animal, KNOWN._replace(by_hand=fields), last=cast(Any, cells))
    values = {Field.SIRE: "s", Field.DAM: "d", Field.EXIT: str(LEFT), Field.EMBRYO: "yes"}
    assert told(one) == [KeptByHand(field, value) for field, value in values.items()]
    assert (animal.sire, animal.dam, animal.left, animal.embryo) == ("s", "d", LEFT, True) and not one.overridden["a"]
    # in a row of now other cells
    animal = SheetAnimal("a", 2, "Anna", sex="M", owner="Nord", sire="x", dam="y", cells=cells, birth=Span(BORN, BORN))
    one = kept(animal, KNOWN._replace(by_hand=fields), last={}, lacks=(Field.DAM,))
    assert one.overridden["a"] == {Field.NAME, Field.SIRE} and (animal.sire, animal.dam) == ("x", "d")


def test_parent_by_hand_that_was_left_out() -> None:
    """It is tried again where the book has none; one of a sheet, and one that the book hasn't any more, aren't."""
    record = RECORD._replace(sire="", dam=DAM)
    for by_hand, written, sire in (
        ({Field.SIRE, Field.DAM}, "s", "s"), ({Field.DAM}, "s", ""), ({Field.SIRE, Field.DAM}, "gone", ""),
    ):  # fmt: skip
        known = KNOWN._replace(by_hand=frozenset(by_hand), written_sire=written, written_dam="s")
        animal = SheetAnimal("a", 2, sex="M", owner="Nord", birth=Span(BORN, BORN))
        kept(animal, known, record, last={})
        assert (animal.sire, animal.dam) == (sire, "d")
