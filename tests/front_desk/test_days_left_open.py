"""Cells of birth days that leave open which day it is, or aren't sure: what they say is read, and marked as
inferred."""
from __future__ import annotations

import datetime

import pytest

from front_desk.desk import Desk
from gudokeyi.ingest.day_forms import DayForms
from gudokeyi.ingest.days import Unreadable
from gudokeyi.ingest.findings.days import DayReading

TITLES = "KC Number;Name;Sex;Whelped;Sire;Dam;Owner\n"
OPTIONS = ("--columns", "id=KC Number")
# a text, and the first and the last day that it leaves open
ONE_OF = {
    "12/13.06.2019": ("2019-06-12", "2019-06-13"),
    "12/13 June 2019": ("2019-06-12", "2019-06-13"),
    "12 or 13.6.2019": ("2019-06-12", "2019-06-13"),
    "12. oder 13. Juni 2019": ("2019-06-12", "2019-06-13"),
    "nuit du 12 au 13 juin 2019": ("2019-06-12", "2019-06-13"),
    "zwischen 12. und 13.06.2019": ("2019-06-12", "2019-06-13"),
    "12-13/06/2019": ("2019-06-12", "2019-06-13"),
    "12./13.6.19": ("2019-06-12", "2019-06-13"),
    "1er ou 2 mars 2019": ("2019-03-01", "2019-03-02"),
    "31/1.3.2019": (None, None),
    "31/1.2.2019": ("2019-01-31", "2019-02-01"),
    "12–15 June 2019": ("2019-06-12", "2019-06-15"),
    # a number that is far from the day isn't another one, nor is one of another century
    "No. 2 / 13.06.2019": (None, None),
    "12/13.06.1819": (None, None),
    "before 12/13 June 2019": (None, None),
    "12/13.06.2019 or 20.06.2020": (None, None),
    # days that have their months
    "31.05./01.06.2019": ("2019-05-31", "2019-06-01"),
    "31.5/1.6.2019": ("2019-05-31", "2019-06-01"),
    "31.5.-1.6.19": ("2019-05-31", "2019-06-01"),
    "31/5 - 1/6/2019": ("2019-05-31", "2019-06-01"),
    "31. Mai / 1. Juni 2019": ("2019-05-31", "2019-06-01"),
    "Nacht vom 31.5. auf den 1.6.2019": ("2019-05-31", "2019-06-01"),
    "2019-05-31/2019-06-01": ("2019-05-31", "2019-06-01"),
    "01.06./31.05.2019": ("2019-05-31", "2019-06-01"),
    "31.12./1.1.2019": ("2018-12-31", "2019-01-01"),
    "31.12.2018 oder 1.1.2019": ("2018-12-31", "2019-01-01"),
    "vor 31.05./01.06.2019": (None, None),
    "31.04./01.05.2019": (None, None),
    "31.05./01.06.2019, nicht 2020": (None, None),
    # words for or that are shortened, and two digits of the year
    "3.4.2020 od. 5.4.2020": ("2020-04-03", "2020-04-05"),
    "3.4.20 od. 5.4.20": ("2020-04-03", "2020-04-05"),
    "12.3.20 - 15.3.20": ("2020-03-12", "2020-03-15"),
    "zw. 3.4. und 5.4.20": ("2020-04-03", "2020-04-05"),
    # another year
    "3.4.2020 oder 2021": ("2020-04-03", "2021-04-03"),
    "3.4.2020 (oder erst 2021)": ("2020-04-03", "2021-04-03"),
    "3.4.2020/2021": ("2020-04-03", "2021-04-03"),
    "3.4.20 oder 2021": ("2020-04-03", "2021-04-03"),
    "geb. 2020 oder 3.4.2021": ("2020-04-03", "2021-04-03"),
    "29.2.2020 ou 2021?": ("2020-02-29", "2021-02-28"),
    "April 2020 or 2021": ("2020-04-01", "2021-04-30"),
    "nach 3.4.2020 oder 2021": (None, None),
}
# both are days, and one isn't beside the other
FAR = ("31.05./09.06.2019", "1.4.2018/13.4.2018", "12./20.4.2018", "1 May or 9 May 2019", "3.4.2010 oder 2021")
# of two months or years with two digits none is a sure day
NO_SURE_DAY = (
    "Dez. 19/Jan. 20", "März 20 / April 20", "3.4.20 oder 21", "3.4.20/21", "zw. 3.4. und 25.5.20", "3.4.2019 oder 20",
)  # fmt: skip
# days, months and years that are far from one another, and the first day that each leaves open
OPEN = {
    "zwischen 1995 und 2020": "1995-01-01", "1995-2020": "1995-01-01", "(2018/2019)": "2018-01-01",
    "2018 oder 2019 ?": "2018-01-01", "entre 1995 et 2020": "1995-01-01",
    "between March 2018 and May 2019": "2018-03-01",
    "3.4.2018 oder 3.4.2019": "2018-04-03", "31.05./09.06.2019": "2019-05-31", "12./20.4.2018": "2018-04-12",
    "Frühjahr 2018 bis Herbst 2019": "2018-03-01", "Dez. 19/Jan. 20": "2019-12-01", "2020 oder 2017": "2017-01-01",
    "nach 2014": "2015-01-01", "vor 2018": "1900-01-01",
}  # fmt: skip
# of these nobody knows which are meant
NOT_OPEN = (
    "gekauft 1995/1996", "zwischen 2130 und 2140", "nach 2130", "Nr. 1995/2020", "nach 2014 oder 2015",
    "3.4.20 oder 21", "1995, 2020",
)  # fmt: skip
# a number beside a day may be another one than that of a day
BESIDE = ("3.4.20 (4.2 kg)", "3.4.20, 12 Uhr", "3.4.20 14.30 Uhr", "3.4.20 (Mai)", "3.4.20 und 2 Brüder")
UNSURE = (
    "1/4/2019 (est.)", "ca. 1.4.2019", "1.4.2019?", "~ 1 April 2019", "1.4.19 (geschätzt)", "vers le 1er avril 2019",
)  # fmt: skip
SURE = ("1.4.2019 (lt. Besitzer)", "est né le 01/04/2019", "1.4.2019 (Vertrag)", "born 1 April 2019")
FORMS = DayForms(["2018-01-01"], (), False)


@pytest.mark.parametrize("text", ONE_OF)
def test_one_of_several(text: str) -> None:
    found = FORMS.read(text)
    span, reading = found if found else (None, None)
    days = (str(span.first), str(span.last)) if span and reading is DayReading.ONE_OF else (None, None)
    assert days == ONE_OF[text] and (reading is not DayReading.ONE_OF or span and not span.is_day)


@pytest.mark.parametrize("text", [*FAR, *NO_SURE_DAY])
def test_days_far_apart(text: str) -> None:
    with pytest.raises(Unreadable):
        FORMS.read(text)


@pytest.mark.parametrize("text", ["3/4/20-5/4/20", "31.12.19/1.1.20", "12.3.20 - 15.3.20", "zw. 3.4. und 5.4.20"])
def test_two_days_in_the_cell_of_an_exit(text: str) -> None:
    with pytest.raises(Unreadable):
        FORMS.read(text, True)


@pytest.mark.parametrize("text", BESIDE)
def test_numbers_beside_a_day(text: str) -> None:
    found = FORMS.read(text)
    assert found and str(found[0].first) == "2020-04-03" and found[0].is_day


@pytest.mark.parametrize("text", [*UNSURE, *SURE])
def test_not_sure(text: str) -> None:
    found = FORMS.read(text)
    assert found and (str(found[0].first), str(found[0].last)) == ("2019-04-01",) * 2
    assert found[0].is_day == (text in SURE) and (found[1] is DayReading.UNSURE) == (text in UNSURE)


def test_month_first() -> None:
    """With the month first `12/13` is none of a month's days, but where another sign says which is which."""
    forms = DayForms((), (), True)
    assert [bool(forms.read(text)) for text in ("12/13/06/2019", "12/13.06.2019")] == [False, True]


ROWS = (
    "A1;Foo;m;12/13.06.2019;;;Mrs X\nA2;Bar;f;12 or 13.6.2019;;;Mrs X\nA3;Baz;f;1/4/2019 (est.);;;Mrs X\n"
    "A4;Qux;f;12/13 June 2019;;;Mrs X\nA5;Quy;f;14/08/2018;;;Mrs X\nA6;Qua;f;14/08/2018 (vet);;;Mrs X\n"
    "A7;Quo;f;late June 2017;;;Mrs X\n"
)  # fmt: skip


def test_told_and_inferred(desk: Desk) -> None:
    """Each form has a line of its own, and each day that a cell leaves open is marked; a second take says nothing
    new."""
    done = desk.take(TITLES + ROWS, *OPTIONS)
    born = desk.born()
    assert {id: born[id] for id in ("A3", "A5", "A6")} == {"A3": "2019-04-01", "A5": "2018-08-14", "A6": "2018-08-14"}
    assert {born[id] for id in ("A1", "A2", "A4")} <= {"2019-06-12", "2019-06-13"}
    in_column = "of the column 'Whelped':"
    done.tells(
        f"to look at: one of several days in 3 cells {in_column} '12/13.06.2019' in line 2 is read as 2019-06-12 to "
        "2019-06-13, and the others alike",
        f"to look at: a day that isn't certain in 1 cell {in_column} '1/4/2019 (est.)' in line 4 is read as 2019-04-01",
        f"to look at: a day and a text in 1 cell {in_column} '14/08/2018 (vet)' in line 7 is read as 2018-08-14",
        f"to look at: a text with a month, a week or a season in 1 cell {in_column} 'late June 2017' in line 8 is read as "
        "2017-06",
        "line 4: A3: inferred: birth day 2019-04-01, from the month 2019-04 of '1/4/2019 (est.)'",
    )
    marked = {one["id"] for one in desk.listed("list", "--columns", "id,birth") if "(inferred)" in one["birth"]}
    assert marked == {"A1", "A2", "A3", "A4", "A7"}
    assert " 0 changed" in desk.take(TITLES + ROWS, *OPTIONS).last and desk.born() == born


def test_night_between_two_days(desk: Desk) -> None:
    """The first of them is taken and marked, and what may be wrong says which days are read; days that are far from
    one another are told as unread."""
    rows = "A1;Foo;m;31.05./01.06.2019;;;X\nA2;Bar;f;12./13.4.2018;;;X\nA3;Baz;f;31.05./09.06.2019;;;X\n"
    rows += "A4;Qux;f;2.6.2019;;;X\n"
    done = desk.take(TITLES + rows, *OPTIONS)
    assert [desk.born()[id] for id in ("A1", "A2")] == ["2019-05-31", "2018-04-12"]
    done.shows(
        "to look at: one of several days in 2 cells of the column 'Whelped': '31.05./01.06.2019' in line 2 is read as "
        "2019-05-31 to 2019-06-01, and the others alike",
    )
    assert "can't be read, the first in line 4: '31.05./09.06.2019'" in done.out
    done.tells("line 2: A1: inferred: birth day 2019-05-31, from the month 2019-05 of '31.05./01.06.2019'")
    assert " 0 changed" in desk.take(TITLES + rows, *OPTIONS).last
    # a dam that was born on the day before leaves the second day alone, of another month
    rows = rows.replace("2019;;;X\nA2;Bar;f;12./13.4.2018", "2019;;A2;X\nA2;Bar;f;31.5.2019")
    desk.take(TITLES + rows, *OPTIONS, "--anyway")
    assert "  born          2019-06-01 (inferred, from the month 2019-06)" in desk.good("show", "A1").out


def test_two_days_with_two_digits_of_the_year(desk: Desk) -> None:
    """None of them is taken as a sure day: it is one of several, or told as unread; an exit's cell leaves it open. A
    day with two digits beside words that tell of no exit is told as one with four is."""
    cells = {
        "12.03.17": "", "Dez. 19/Jan. 20": "", "3.4.20 od. 5.4.20": "", "3.3.18": "Dez. 24/Jan. 25",
        "4.3.18": "verk. 3.3.24 oder 5.3.24", "5.3.18": "† 3.4.24", "6.3.18": "Tierarzt 4.5.25",
        "7.3.18": "Ausstellung 3.5.2024",
    }  # fmt: skip
    rows = (f"A{at};Foo{at};f;{birth};;;X;{exit}\n" for at, (birth, exit) in enumerate(cells.items(), 1))
    done = desk.take(TITLES.replace("\n", ";Died\n") + "".join(rows), *OPTIONS)
    left = [line.split(",")[2] for line in desk.commands() if line.startswith("exit")]
    assert desk.born()["A3"] == "2020-04-03" and sorted(left) == ["2024-04-03", "2024-05-03", "2025-05-04"]
    assert "can't be read, the first in line 3: 'Dez. 19/Jan. 20'" in done.told
    assert "'12.03.17' in line 2 is read as 2017-03-12" in done.told
    assert "the first in line 6: 'verk. 3.3.24 oder 5.3.24': such an animal counts as gone" in done.out
    assert "words that tell of no exit stands in 2 of 5 cells that tell of an exit in the column 'Died'" in done.told
    assert "the first in line 8: 'Tierarzt 4.5.25', 'Ausstellung 3.5.2024'" in done.told


def test_day_of_one_or_another_year(desk: Desk) -> None:
    """A birth day is taken of the first year, and marked with this year; an exit has no day, and counts as gone."""
    rows = "A1;Foo;f;3.4.2020 oder 2021;;;X;\nA2;Bar;f;1.2.2018;;;X;3.4.2020 oder 2021\n"
    rows += "A3;Baz;f;2.2.2018;;;X;verk. 3.4.2020 - 2021\nA4;Qux;f;3.2.2018;;;X;2018 - 3.4.2020\n"
    done = desk.take(TITLES.replace("\n", ";Exit\n") + rows, *OPTIONS)
    done.tells(
        "to look at: one of several days in 1 cell of the column 'Whelped': '3.4.2020 oder 2021' in line 2 is read as "
        "2020-04-03 to 2021-04-03",
    )
    done.tells("line 2: A1: inferred: birth day 2020-04-03, from the year 2020 of '3.4.2020 oder 2021'")
    assert "  born          2020-04-03 (inferred, from the year 2020)" in desk.good("show", "A1").out
    left = [line.split(",")[2] for line in desk.commands() if line.startswith("exit")]
    assert left == ["2020-04-03"] and "the first in line 4: 'verk. 3.4.2020 - 2021': such an animal counts" in done.out
    assert "can't be read, the first in line 3: '3.4.2020 oder 2021': such an animal counts as gone" in done.out
    assert " 0 changed" in desk.take(TITLES.replace("\n", ";Exit\n") + rows, *OPTIONS).last


def test_between_parents_and_offspring(desk: Desk) -> None:
    """Of the days that are open one is taken on which the dam lives and the young isn't born yet."""
    titles = TITLES.replace("\n", ";Died\n")
    rows = "A0;Dam;f;2015-01-01;;;X;2019-06-12\nA1;Foo;f;12/13.06.2019;;A0;X;\nA2;Bar;f;1.7.2020;;A1;X;\n"
    desk.take(titles + rows, *OPTIONS)
    assert desk.born()["A1"] == "2019-06-12" and desk.parents()["A1"] == ("", "A0")


def test_month_of_an_exit_with_two_digits_of_the_year(desk: Desk) -> None:
    """It is read as one with four is, also of a sale to another owner; a number that may be another one isn't."""
    exits = (
        "verk. 3/24", "geschl. 11.24", "geschl. 11.2024", "verk. März 24", "verk. an Hill 4/24", "verk. Nr. 3/24",
        "verk. 13/24", "sold 11.50", "verk. vor 3/24",
    )  # fmt: skip
    rows = "A0;Foo;f;2015-01-01;;;Hill;\n"
    rows += "".join(f"A{at};Foo{at};f;2015-01-01;;;X;{exit}\n" for at, exit in enumerate(exits, 1))
    done = desk.take(TITLES.replace("\n", ";Exit\n") + rows, *OPTIONS)
    left = [line.split(",")[2] for line in desk.commands() if line.startswith("exit")]
    assert left == ["2024-03-31", "2024-11-30", "2024-11-30", "2024-03-31"] and desk.transfer_days() == ["2024-04-30"]
    done.tells(
        "line 3: A1: inferred: exit on 2024-03-31, the last day of the month 2024-03, from 'verk. 3/24'",
        "line 4: A2: inferred: exit on 2024-11-30, the last day of the month 2024-11, from 'geschl. 11.24'",
        "line 7: A5: inferred: owner since 2024-04-30, from the month 2024-04",
    )
    assert "in 3 cells of the column 'Exit': 'verk. 3/24' in line 3 is read as 2024-03, and the others" in done.out
    assert "'verk. Nr. 3/24', 'verk. 13/24', 'sold 11.50'" in done.out


def test_winters_and_mistyped_days(desk: Desk) -> None:
    """A winter is read as other seasons are, and a season or a month may have two digits of the year; of a mistyped day
    the year alone is read, and that is told."""
    texts = (
        "Winter 2019", "Winter 2018/19", "Herbst 18", "Frühjahr 20", "Anf. Mai 26", "Mitte März 20", "Ende April 19",
        "12..3.2020", "l2.3.2021", "ca. 2015",
    )  # fmt: skip
    rows = "".join(f"A{at};Foo{at};f;{text};;;X;\n" for at, text in enumerate(texts, 1))
    rows += "B1;Bar;f;2015-01-01;;;X;verk. Herbst 18\nB2;Bar;f;2015-01-01;;;X;verk. Winter 2019\n"
    done = desk.take(TITLES.replace("\n", ";Exit\n") + rows, *OPTIONS)
    born = [desk.born()[f"A{at}"] for at in range(1, 10)]
    assert [day[:4] for day in born] == ["2019", "2018", "2018", "2020", "2026", "2020", "2019", "2020", "2021"]
    assert [int(day[5:7]) for day in born[:7]] == [1, 12, 10, 4, 5, 3, 4]
    left = [line.split(",")[2] for line in desk.commands() if line.startswith("exit")]
    assert left == ["2018-11-30", "2019-12-31"]
    in_column = "of the column 'Whelped':"
    done.tells(
        f"to look at: a text with a month, a week or a season in 1 cell {in_column} 'Winter 2019' in line 2 is read as "
        "2019-01-01 to 2019-02-28",
        f"to look at: one of several days in 1 cell {in_column} 'Winter 2018/19' in line 3 is read as 2018-12-01 to "
        "2019-02-28",
        f"to look at: a text of which the year alone can be read in 2 cells {in_column} '12..3.2020' in line 9 is read "
        "as 2020, and the others alike",
    )
    for begin in (f"3 cells {in_column} 'Anf. Mai 26' in line 6", f"2 cells {in_column} 'Herbst 18' in line 4"):
        assert f"two digits of the year in {begin}" in done.out


def test_exits_stay_as_they_were(desk: Desk) -> None:
    """The word for an exit tells itself that its day isn't sure."""
    titles = TITLES.replace("\n", ";Died\n")
    rows = "A1;Foo;f;2015-01-01;;;X;sold ca. 1.4.19\nA2;Bar;f;2015-01-01;;;X;12 or 13.6.2019\n"
    done = desk.take(titles + rows, *OPTIONS)
    left = [line.split(",")[2] for line in desk.commands() if line.startswith("exit")]
    assert sorted(left) == ["2019-04-01", "2019-06-13"], done.told


def test_owner_since(desk: Desk) -> None:
    """The last of the days is that of an owner, and is inferred."""
    titles = TITLES.replace("\n", ";Owner since\n")
    desk.take(titles + "A1;Foo;f;2015-01-01;;;X;\n", *OPTIONS)
    done = desk.take(titles + "A1;Foo;f;2015-01-01;;;Y;12 or 13.6.2019\n", *OPTIONS)
    assert desk.transfer_days() == ["2019-06-13"]
    done.tells("line 2: A1: inferred: owner since 2019-06-13, from the month 2019-06")
    assert datetime.date.fromisoformat(desk.transfer_days()[0]) <= datetime.date.today()


WITH_DAYS = "".join(f"S{at};Foo;f;2015-01-01;;;X;\n" for at in range(40))


def test_days_between_others(desk: Desk) -> None:
    """None is read as the day; what is inferred is one that the cell leaves open, and is told beside it."""
    texts = [*OPEN, *NOT_OPEN]
    rows = WITH_DAYS + "".join(f"A{at};Foo{at};f;{text};;;X;\n" for at, text in enumerate(texts))
    done = desk.take(TITLES + rows, *OPTIONS)
    earliest = "the earliest that it can be, since no parent and no offspring has one"
    for at, text in enumerate(texts):
        cell = f", within what its cell says: '{text}'" if text in OPEN else f", and not what its cell has: '{text}'"
        day = OPEN.get(text, "1900-01-01")
        assert desk.born()[f"A{at}"] == day
        done.tells(f"line {42 + at}: A{at}: inferred: birth day {day}, {earliest}{cell}")
    unread = f"{len(texts)} of {40 + len(texts)} cells that say something in the column 'Whelped' can't be read"
    assert unread in done.out
    assert " 0 changed" in desk.take(TITLES + rows, *OPTIONS).last


def test_days_between_others_and_relatives(desk: Desk) -> None:
    """Parents and offspring say which of them is likely, and a day that the book has stays."""
    rows = (
        "D;Dam;f;2010-01-01;;;X;\nA1;Ann;f;zwischen 1995 und 2020;;D;X;\nA2;Eva;f;1995-2020;;;X;\n"
        "B;Bea;f;2013-03-01;;A2;X;\nC;Ida;f;1995-2020;;;X;\nE;Lea;f;1995-2020;;;X;\n"
    )
    before = rows.replace("Ida;f;1995-2020", "Ida;f;2012-05-06").replace("Lea;f;1995-2020", "Lea;f;1994-05-06")
    desk.take(TITLES + WITH_DAYS + before, *OPTIONS).tells(
        "line 43: A1: inferred: birth day 2012-01-01, from its parents, within what its cell says: 'zwischen 1995 und "
        "2020'",
        "line 44: A2: inferred: birth day 2011-03-02, from its offspring, within what its cell says: '1995-2020'",
    )
    done = desk.take(TITLES + WITH_DAYS + rows, *OPTIONS)
    assert " 0 changed" in done.last and desk.parents()["B"] == ("", "A2")
    assert [desk.born()[id] for id in ("A1", "A2", "C", "E")] == ["2012-01-01", "2011-03-02", "2012-05-06", "1994-05-06"]
