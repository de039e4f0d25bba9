"""Parts of a book by themselves: records, the journal, changes, and the kept coefficients."""
from __future__ import annotations

import dataclasses
import datetime
import itertools
import pathlib
import sqlite3
from types import SimpleNamespace
from typing import cast

import pytest

from front_desk.replayed import record_after, replay
from gudokeyi.domain.animals import NO_OWNER, SocietyRecord
from gudokeyi.domain.changes import ChangeDetails, StoredFinding
from gudokeyi.domain.commands import RegisterRecord, birth, leave, transfer
from gudokeyi.domain.kinds import CELL_FIELDS, ChangeKind, Field, Remembered, Standing
from gudokeyi.domain.messages import Mistake
from gudokeyi.domain.provenance import BirthBasis, BirthSource, ExitBasis, ExitSource, OwnerDay, Period, SexSource
from gudokeyi.ingest.animals import SheetAnimal
from gudokeyi.reconcile.next_book import NextBook
from gudokeyi.services.filing import owner_code_of, transferred, with_parents
from gudokeyi.services.saving import cell_rows
from gudokeyi.services.writing import write_owners
from gudokeyi.store.animal_rows import society_record_of, record_of, row_of
from gudokeyi.store.book import Book
from gudokeyi.store.coefficients import few_descendants, kept_lines, write_coefficients
from gudokeyi.store.history import all_changes, changed_one_by_one, told_by, write_change
from gudokeyi.store.journal import NO_JOURNAL, Step, alike
from gudokeyi.store.schema import MIGRATIONS
from gudokeyi.store.state import (
    ANIMALS, REMEMBERED, Meaning, Rows, State, animal_rows, as_written, bring_back, read_remembered, remembered_rows,
    renamings, write_rows,
)  # fmt: skip

NUMBER = "HOLGBRF000000000001"
BORN, GIVEN, LEFT = (datetime.date(year, 1, 2) for year in (2001, 2003, 2005))


@pytest.fixture
def connection() -> sqlite3.Connection:
    """A book without a change."""
    made = sqlite3.connect(":memory:")
    for script in MIGRATIONS:
        made.executescript(script)
    return made


def test_a_record_names_its_giver_and_the_day() -> None:
    first = record_after(None, birth(NUMBER, BORN, "", "", 4, False))
    assert (first.owner_code, first.since, first.from_owner, first.left) == (4, BORN, 0, None)
    then = record_after(first, transfer(NUMBER, GIVEN, 4, 7))
    assert then == first._replace(owner_code=7, since=GIVEN, from_owner=4)
    assert record_after(then, leave(NUMBER, LEFT)) == then._replace(left=LEFT)


def test_journals_that_begin_alike() -> None:
    """Also where one of them is the beginning of the other."""
    one, other, refused = (Step(leave(NUMBER, day), refusal) for day, refusal in ((GIVEN, 0), (LEFT, 0), (GIVEN, 14)))
    assert alike([one, other], [one]) == alike([one], [one, other]) == alike([one, other], [one, one]) == 1
    assert alike([one, other], [one, other]) == 2 and alike([one], [refused]) == alike([], [one]) == 0


def test_changed_one_by_one(connection: sqlite3.Connection) -> None:
    """Not since a change of another book, as before a restoring, nor since parents were changed."""
    for number, kind in enumerate((ChangeKind.TAKE, ChangeKind.BIRTH, ChangeKind.PARENTS, ChangeKind.EXIT), 1):
        write_change(connection, number, 1000 * number, NO_JOURNAL, ChangeDetails(kind))
    changes = all_changes(connection)
    assert [changed_one_by_one(connection, one) for one in changes] == [False, False, True, True]
    last = changes[-1]
    assert not changed_one_by_one(connection, dataclasses.replace(last, time=changes[0].time))
    assert not changed_one_by_one(connection, dataclasses.replace(last, number=9))


@pytest.mark.parametrize("after", [
    ["A,0,0.00", "C,1/4,25.00", "D,0,0.00"], ["A,1/4,25.00", "B,0,0.00", "D,0,0.00"], ["A,0,0.00", "B,0,0.00"],
    ["A,0,0.00", "B,0,0.00", "D,0,0.00", "E,1/2,50.00"], ["A,0,0.00", "B,0,0.00", "C,0,0.00", "D,0,0.00"],
    ["B,0,0.00", "A,0,0.00", "D,0,0.00"], ["N,0,0.00"], [],
])  # fmt: skip
def test_coefficients_are_kept_as_the_program_writes_them(connection: sqlite3.Connection, after: list[str]) -> None:
    """Of the same animals, or of others as many, more or fewer."""
    for lines in ["A,0,0.00", "B,0,0.00", "D,0,0.00"], after:
        write_coefficients(connection, lines)
        assert kept_lines(connection) == lines


def test_few_descendants(connection: sqlite3.Connection, monkeypatch: pytest.MonkeyPatch) -> None:
    """By sires and by dams, each once, as the book is now; none where they are too many."""
    sire, dam, son, daughter, calf, other = (f"HOLGBR{sex}{at:012}" for at, sex in enumerate("MFMFMF"))
    parents = {one: ("", "") for one in (sire, dam, other)}
    parents |= {son: (sire, dam), daughter: ("", dam), calf: (son, daughter)}
    records = replay(birth(number, BORN, *both, 1, False) for number, both in parents.items())
    rows = animal_rows({number: SocietyRecord(number, number) for number in parents}, records)
    write_rows(connection, ANIMALS, 1, {}, rows)
    every = {number: sorted(few_descendants(connection, number)) for number in parents}
    assert every[dam] == sorted([dam, son, daughter, calf]) and every[other] == [other]
    assert every[sire] == sorted([sire, son, calf]) and every[daughter] == sorted([daughter, calf])
    monkeypatch.setattr("gudokeyi.store.coefficients.MOST_ONE_BY_ONE", 3)
    assert few_descendants(connection, dam) == [] and sorted(few_descendants(connection, sire)) == every[sire]
    bring_back(connection, 2, 0)
    assert few_descendants(connection, sire) == [sire]


@pytest.mark.parametrize("known", [
    SocietyRecord(
        NUMBER, "ẞ 1", "Straße", Standing.GONE, BirthBasis(BirthSource.PERIOD, Period("2001-02", "31.02.2001")),
        ExitBasis(ExitSource.PERIOD, Period("2005", "15.13.2005")), SexSource.SIRE, True, "Bob", "Eva",
        frozenset({Field.SIRE, Field.NAME}), OwnerDay.INFERRED,
    ),
    SocietyRecord(
        NUMBER, "a", standing=Standing.FILED, birth=BirthBasis(BirthSource.NEAREST),
        exit=ExitBasis(ExitSource.UNKNOWN_DAY, text="sold"), sex=SexSource.INVENTED,
    ),
    SocietyRecord(NUMBER, "a"),
])  # fmt: skip
def test_what_is_known_of_an_animal_is_had_again_from_its_row(known: SocietyRecord) -> None:
    """So is its record; it is looked for by letters without their case, as `ss` for `ß`."""
    whole = RegisterRecord(NUMBER, BORN, NUMBER[:-1] + "2", NUMBER[:-1] + "3", True, 4, GIVEN, LEFT, 7)
    for record in whole, record_after(None, birth(NUMBER, BORN, "", "", 4, False)):
        row = row_of(known, record)
        assert society_record_of(row) == known and record_of(row) == record
        assert (row.folded_id, row.folded_name) == (known.id.casefold(), known.name.casefold())


def test_what_is_remembered_keeps_its_order(connection: sqlite3.Connection) -> None:
    """Of each kind; a word that is given twice has its last meaning, and what is remembered no more is gone."""
    first, *others = (Meaning(Remembered.SEXES, word) for word in ("x=m", "a=f", "b=f"))
    owner, column = Meaning(Remembered.OWNER, "Meier", "Meyer"), Meaning(Remembered.COLUMN, "name", "Ruf")
    rows = remembered_rows([owner, first, column, *others])
    write_rows(connection, REMEMBERED, 1, {}, rows)
    assert read_remembered(connection) == [column, owner, first, *others]
    again = owner._replace(meaning="Maier")
    write_rows(connection, REMEMBERED, 2, rows, remembered_rows([*others, owner, again]))
    assert read_remembered(connection) == [again, *others]


def test_owners_as_they_are_written_now(connection: sqlite3.Connection, tmp_path: pathlib.Path) -> None:
    """Also those that have one another's names; one that has the name of another, as in an earlier version, takes none
    away. A herd of an owner that isn't in the book yet has its name too."""
    came = {"Meier": 1, "Huber": 2, "Kunz": 3}
    connection.executemany("INSERT INTO owner (name, herd) VALUES (?, ?)", came.items())

    def book(*pairs: tuple[str, str]) -> Book:
        made = Book(tmp_path, connection)
        made.remembered = [Meaning(Remembered.OWNER, *one) for one in pairs]
        return made

    for names in itertools.permutations([*came, "Meier (herd 1)"], 3):
        now = dict(zip(came.values(), names))
        assert book(*renamings(came, now)).owners == dict(zip(names, now))
    # nobody else is written otherwise, nor by what is remembered of other things, or of owners who aren't there
    assert renamings(came, {1: "Meier", 2: "Lang"}) == [("Huber", "Lang")]
    assert as_written(came, [Meaning(Remembered.UNKNOWN, "Meier"), Meaning(Remembered.OWNER, "Lang", "Huber")]) == came
    one = book(("Meier", "Huber"))
    assert one.owners == {"Huber": 1, "Huber (herd 2)": 2, "Kunz": 3} and one.owner_of(2) == "Huber (herd 2)"
    one.owners["Lang"] = 4
    assert [one.owner_of(herd) for herd in (1, 4, 5, NO_OWNER)] == ["Huber", "Lang", "5", ""]
    one.renamed = [("Meier", "x"), ("Huber", "Meier"), ("x", "Huber")]
    assert [*map(one.respelt, ("Meier", "Huber", "Kunz"))] == ["Huber", "Meier", "Kunz"]


def test_names_of_new_owners(connection: sqlite3.Connection, tmp_path: pathlib.Path) -> None:
    """Each has its own, though another one had it, also for a while, and though it tells a herd."""
    new = {"Meier (herd 3)": 2, "Meier": 3, "Bauer": 4, "Bauer (herd 4)": 5, "Lang": 6}
    renamed = [Meaning(Remembered.OWNER, *one) for one in (("Meier", "Bauer"), ("Bauer", "Kern"))]
    assert write_owners(connection, State(Rows({}, {}), new_owners={"Meier": 1})) is None
    book = Book(tmp_path, connection)
    book.remembered = write_owners(connection, State(Rows({}, {}), remembered=renamed, new_owners=new)) or []
    assert book.owners == {"Kern": 1, **new}


def test_former_numbers(connection: sqlite3.Connection, tmp_path: pathlib.Path) -> None:
    """Whoever comes back has the last number, or that with which it was dropped."""
    first, male, other, dropped = (f"{breed}{sex}{at:012}" for breed, sex, at in (
        ("HOLGBR", "F", 1), ("HOLGBR", "M", 1), ("HOLGBR", "M", 2), ("SKUGBR", "M", 2)))  # fmt: skip
    records = replay(birth(number, BORN, "", "", 1, False) for number in (first, male, other))
    before, after = (animal_rows({one.id: one for one in known}, records) for known in (
        (SocietyRecord(first, "a"), SocietyRecord(other, "b")), (
            SocietyRecord(male, "a"), SocietyRecord(dropped, "b", standing=Standing.DROPPED)
        )
    ))  # fmt: skip
    write_rows(connection, ANIMALS, 1, {}, before)
    write_rows(connection, ANIMALS, 2, before, after)
    book = Book(tmp_path, connection)
    assert (book.number_before("a"), book.number_before("b"), book.number_before("c")) == (first, dropped, "")
    assert book.former_numbers() == {}
    bring_back(connection, 3, 0)
    assert book.former_numbers() == {"a": male, "b": dropped} and book.number_before("a") == male


def test_what_is_told_keeps_its_order(connection: sqlite3.Connection) -> None:
    told = tuple(
        StoredFinding("kind", "part", line, id, (("b", "1"), ("a", "2"))) for line, id in ((7, "b"), (0, ""), (3, "a"))
    )
    for number in 1, 2:
        write_change(connection, number, number, NO_JOURNAL, ChangeDetails(ChangeKind.TAKE, told=told[: number + 1]))
    assert told_by(connection, 1) == [*told[:2]] and told_by(connection, 2) == [*told]


def test_last_cells() -> None:
    """A row gives an animal its cells; those of a column that the sheet lacks stay, and so do those without a row."""
    before = {(id,): (id, *(f"{field} of {id}" for field in CELL_FIELDS)) for id in "ab"}
    rows = SheetAnimal("a", 2, cells={Field.NAME: "A", Field.OWNER: ""}), SheetAnimal("c", 3, cells={Field.NAME: "C"})
    animals = {one.id: one for one in (*rows, SheetAnimal("b", cells={Field.NAME: "B"}))}
    book = SimpleNamespace(cells=before, renamed=[])
    cells = cell_rows(cast(NextBook, SimpleNamespace(book=book, animals=animals, is_pedigree=False)))
    changed = {Field.NAME: "A", Field.OWNER: ""}
    assert cells["a",] == ("a", *(changed.get(field, f"{field} of a") for field in CELL_FIELDS))
    assert cells["b",] == before["b",] and cells["c",] == ("c", "C", *[None] * (len(CELL_FIELDS) - 1))
    # owners as they are written from now on
    book.cells, book.renamed, book.respelt = cells, [("", "")], str.upper
    after = cell_rows(cast(NextBook, SimpleNamespace(book=book, animals={})))
    assert after["b",] == tuple("OWNER OF B" if one == "owner of b" else one for one in before["b",])
    assert after["c",] == cells["c",]


def test_parents_and_owners_by_hand() -> None:
    """What is filed by hand is so though it was so before, and takes what a sheet wrote with it; a new owner has a herd
    behind all others."""
    records = {NUMBER: record_after(None, birth(NUMBER, BORN, "", "", 1, False))}
    book = cast(Book, SimpleNamespace(records=records, remembered=[], owners={"Nord": 2, "Süd": 5}))
    known = SocietyRecord(NUMBER, "a", written_sire="Bob", written_dam="Eva")
    of_sire, of_dam = with_parents(book, known, "", None), with_parents(book, known, None, "")
    assert of_sire.animal == known._replace(written_sire="", by_hand=frozenset({Field.SIRE})) and not of_sire.findings
    assert of_dam.animal == known._replace(written_dam="", by_hand=frozenset({Field.DAM})) and not of_dam.findings
    with pytest.raises(Mistake, match="the book has no owner 'Nort'"):
        transferred(book, known, GIVEN, "Süd", "Nort")
    assert (owner_code_of(book, "West"), owner_code_of(book, "Süd"), owner_code_of(book, "")) == (
        (6, {"West": 6}), (5, {}), (NO_OWNER, {})
    )  # fmt: skip
