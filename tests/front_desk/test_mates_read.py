"""Who may be mated, as it is read in columns, is what the rows of the book say."""
from __future__ import annotations

import pathlib
import sqlite3

import pytest

from front_desk.desk import Desk
from gudokeyi.background import Background
from gudokeyi.domain.kinds import Role
from gudokeyi.domain.messages import Mistake
from gudokeyi.services.book_program import BookProgram
from gudokeyi.services.lists import BIRTH_OF, birth_of
from gudokeyi.services.matings import (
    Answers, Candidate, Candidates, advise_on_all, all_candidates, birth_shown, named_candidates, shown_of, told_of,
)  # fmt: skip
from gudokeyi.store.book import Book
from gudokeyi.store.conditions import HAS_LEFT, LISTED, Condition
from gudokeyi.store.mates import MAY_BE_MATED, MatesRead, Why
from gudokeyi.store.queries import selected
from gudokeyi.store.transactions import reading

# an ox, one that was sold, one whose exit has no day, one with a year alone, one born on no day that there is, one
# whose birth is inferred from its offspring, a name with signs, and parents without a row, the younger one with the
# first id
SHEET = """id;name;sex;birth;sire;dam;exit
a;Max, der Alte;m;2001-02-03;;;
b;;Ochse;2001-02-03;;;
c;Löwe;m;2000;;;
d;'1;m;30.02.2001;;;
e;e;m;2003-01-01;a;x;2005-01-01
f;f;m;2003-01-01;a;x;sold
g;[1];w;2002-01-01;y;;
h;;Ochse;1999-01-01;;;2005-01-01
i;;Ochse;2002-01-01;;;
j;;m;;;;
k;;w;2004-01-01;j;;
l;;w;1995-01-01;z;;
"""


@pytest.mark.parametrize("also_left", [False, True])
@pytest.mark.parametrize("role", Role)
def test_as_the_rows(desk: Desk, role: Role, also_left: bool) -> None:
    desk.take(f"{SHEET}o;;m;1990-01-01;;;\n")
    # elder ones that come later have greater numbers; neither who was dropped is read, nor a row that was changed
    desk.take(f"{SHEET}m;;Ochse;1998-01-01;;;\n", "--drop-gone")
    desk.good("birth", "n", "--sex", "m", "--day", "2001-02-02")
    desk.good("exit", "a", "--day", "2010-01-01")
    with reading(desk.room / "book") as connection:
        book = Book(desk.room / "book", connection)
        read = MatesRead(book, role, also_left)
        wanted = of_rows(book, role, also_left)
        assert all_candidates(book, role, also_left) == wanted
        assert [*zip(read.numbers, read.ids)] == [(book.society_records[id].registration_number, id) for id in read.ids]
        by_id, named = {one.id: one for one in wanted.animals}, [book.society_records[id] for id in read.ids]
        assert [*map(birth_shown, read.births)] == [by_id[id].birth for id in read.ids]
        may = {id for id, number in selected(book, ("id", "number"), Condition(MAY_BE_MATED)) if number[6] == role.sex}
        assert also_left or may == {*by_id}
        # as they are named, each once
        assert named_candidates(book, role, named * 2).animals == [by_id[one.id] for one in named]
        found = {why: read.passed_over(why) for why in Why if why}
    males = role is Role.SIRE
    assert found[Why.CASTRATED] == (["m", "h", "b", "i"] if also_left else ["m", "b", "i"]) * males
    assert sorted(found[Why.LEFT]) == ([] if also_left else ["a", "e", "f", "h"]) * males
    assert found[Why.WITHOUT_ROW] == (["z", "y"] if males else ["x"])


def of_rows(book: Book, role: Role, also_left: bool) -> Candidates:
    """The same by a question that is asked row by row."""
    wanted = ("number", "id", "name", *BIRTH_OF, LISTED, HAS_LEFT, "castrated")
    animals, castrated, without_row, left = list[Candidate](), list[str](), list[str](), 0
    for number, id, name, born, *basis, is_listed, has_left, is_castrated in selected(book, wanted):
        if number[6] != role.sex:
            continue
        if not is_listed:
            without_row.append(id)
        elif has_left and not also_left:
            left += 1
        elif is_castrated:
            castrated.append(id)
        else:
            shown = birth_of(born, *basis)
            animals.append(Candidate(number, id, name, born, shown, basis[0] in ("given", "period")))
    return Candidates(role, animals, castrated, sorted(without_row), left)


def test_of_nobody(desk: Desk) -> None:
    read = MatesRead(Book(desk.room, None), Role.SIRE, False)
    assert read.numbers == read.ids == read.births == [] and not read.passed_over(Why.LEFT)


def test_who_is_refused_is_told_in_age_order(desk: Desk) -> None:
    """Also where they were read in another; a fault of the dam is a mistake."""
    desk.take("id;sex;birth;sire;dam\na;m;2003-01-01;;\nd;f;1999-01-01;;\nx;m;2002-01-01;;\nz;m;ca. 2000;;\n")
    with reading(desk.room / "book") as connection:
        book = Book(desk.room / "book", connection)
        read, sires = MatesRead(book, Role.SIRE, False), all_candidates(book, Role.SIRE)
        shown = shown_of(read.ids, read.names, read.numbers, [*map(birth_shown, read.births)])
        assert read.ids == ["a", "x", "z"] and [one.id for one in sires.animals] == ["z", "x", "a"]
        faults = [{"a": "5", "z": "5"}.get(id, "") for id in read.ids]
        answers = Answers(["refused" if one else "1/8" for one in faults], [one or "12.50" for one in faults], True)
        advice = told_of(book.society_records["d"], sires, answers, shown, read)
        assert [one.partition(":")[0].split()[-1] for one in advice.refused] == ["z", "a"]
        assert [row[0] for row in advice.table.rows] == ["x"] and ",1/8,0.125,12.50\n" in advice.table.text(False)
        assert advice.table.text(True).endswith(";1/8;0,125;12,50\n")
        with pytest.raises(Mistake, match="d"):
            told_of(book.society_records["d"], sires, answers._replace(percents=["4"] * 3), shown, read)


def test_advice_where_the_journal_can_not_be_read_beside(mrode_desk: Desk, monkeypatch: pytest.MonkeyPatch) -> None:
    def closed(path: pathlib.Path, mode: str) -> sqlite3.Connection:
        raise sqlite3.OperationalError("unable to open database file")

    def lost() -> str:
        raise sqlite3.OperationalError("disk I/O error")

    wanted = mrode_desk.good("mating", "--dam", "2").out
    monkeypatch.setattr("gudokeyi.store.journal.connect", closed)
    monkeypatch.setenv("HERDBOOK", mrode_desk.program)
    with reading(mrode_desk.room / "book") as connection:
        book, program = Book(mrode_desk.room / "book", connection), BookProgram()
        with book.journal_read_beside():
            read, dam = MatesRead(book, Role.SIRE, False), book.society_records["2"]
            begun = program.begin_matings(dam.registration_number, read.numbers, book)
            assert advise_on_all(book, program, dam, read, begun, False).table.text(False) == wanted
            # also where that is only seen when the answers are asked for
            assert advise_on_all(book, program, dam, read, [Background(lost)], False).table.text(False) == wanted


def test_many_sires_are_asked_for_in_parts(mrode_desk: Desk, monkeypatch: pytest.MonkeyPatch) -> None:
    """Each of them, as where all stand in one call; those of one coefficient are in the order of their ids."""
    mrode_desk.good("birth", "0a", "--sex", "m", "--day", "2020-01-01")
    wanted = mrode_desk.good("mating", "--dam", "2").out
    monkeypatch.setenv("HERDBOOK", mrode_desk.program)
    monkeypatch.setattr(BookProgram, "most_numbers", 3)
    with reading(mrode_desk.room / "book") as connection:
        book, program = Book(mrode_desk.room / "book", connection), BookProgram()
        read, dam = MatesRead(book, Role.SIRE, False), book.society_records["2"]
        begun = program.begin_matings(dam.registration_number, read.numbers, book)
        assert read.ids == ["1", "4", "5", "0a"] and len(begun) == 2
        advice = advise_on_all(book, program, dam, read, begun, False)
    assert [row[0] for row in advice.table.rows] == ["0a", "1", "4", "5"] and advice.table.text(False) == wanted
