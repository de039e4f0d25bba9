"""Parents whose cell has their tag in another form, and those who have a title or letters beside their name: which
animal may be meant is told in the sentence by which they are added."""
from __future__ import annotations

import pytest

from front_desk.desk import Desk

TITLES = "id;name;sex;birth;sire;dam\n"
FLOCK = (
    "DE 01 07 00400093;Rosl;f;2019-03-24;;\nDE 01 07 00400094;Moritz;m;2019-03-02;;\n"
    "DE 01 07 00400195;Ida;f;2019-03-02;;\n"
)  # fmt: skip
ADDED = "has no row: added without parents"


@pytest.mark.parametrize(
    "dam",
    ["276 01 07 00400093", "2760107 00400093", "00093", "0093", "DE 01 07 400093"],
)
def test_tag_in_another_form(desk: Desk, dam: str) -> None:
    """With the number of the country, without zeros, or by the last digits."""
    desk.take(f"{TITLES}{FLOCK}DE 01 07 00400096;Kitz;f;2022-03-24;DE 01 07 00400094;{dam}\n").shows(
        f"line 5: {dam}: added: the dam of DE 01 07 00400096 {ADDED} (is DE 01 07 00400093 meant?)"
    )


@pytest.mark.parametrize(
    "id, dam",
    [("DE 01 07 00400195", dam) for dam in ("01 07 00400195", "010700400195", "DE 01.07.0040.0195", "de-010700400195")]
    + [("120145010082", dam) for dam in ("CH 120.1450.1008.2", "120.1450.1008.2", "CH120145010082", "120-1450/1008.2")],
)
def test_tag_with_the_same_digits(desk: Desk, id: str, dam: str) -> None:
    """Without its country or with it, or with other signs, it is the only animal that has all digits; so it is in the
    next sheet, also where a book had it as an animal of its own."""
    flock = f"{TITLES}{FLOCK}120145010082;Alma;f;2019-03-02;;\n"
    rows = f"DE 01 07 00400096;Kitz;f;2022-03-24;DE 01 07 00400094;{dam}\n"
    told = f"line 6: DE 01 07 00400096: inferred: its dam '{dam}' is {id}, the only id with all of these digits: if "
    for at in range(2):
        done = desk.take(flock + rows)
        done.tells(f"{told}another is meant, give that one a row")
        assert " 0 added" in done.last and desk.parents()["DE 01 07 00400096"] == ("DE 01 07 00400094", id), at
    assert " 0 changed" in done.last


def test_digits_of_two_tags(desk: Desk) -> None:
    """Of two animals with these digits none is taken, and so it is of one that can't be the dam, of few digits, and of
    a number that may not be read so; all are asked about as before."""
    rows = "120.1450.1008.2;Alma;f;2019-03-02;;\n1201.4501.0082;Bea;f;2019-03-02;;\n120.1450.1009.3;Max;m;2019-03-02;;\n"
    rows += "12.012;Ida;f;2019-03-02;;\n120.1450.1010.4;Eva;f;2019-03-02;;\n"
    dams = "CH 120145010082", "CH 120145010093", "1/2012", "CH 120145010104?", "12/012"
    rows += "".join(f"B{at};;f;2022-03-02;;{dam}\n" for at, dam in enumerate(dams))
    done = desk.take(TITLES + rows)
    assert [desk.parents()[f"B{at}"][1] for at in range(len(dams))] == [*dams]
    assert "only id" not in done.told and " 5 added" in done.last


@pytest.mark.parametrize(
    "dam",
    # of another country, of another animal, too short, the end of two, one that is no female, and one with more digits
    ["AT 01 07 00400093", "DE 01 07 93000400", "093", "00400", "00094", "DE 01 07 004000931", "250 01 07 00400093"],
)
def test_another_tag(desk: Desk, dam: str) -> None:
    done = desk.take(f"{TITLES}{FLOCK}DE 01 07 00400096;Kitz;f;2022-03-24;DE 01 07 00400094;{dam}\n")
    assert ADDED in done.told and "meant?" not in done.told


@pytest.mark.parametrize(
    "id, sire",
    [
        ("276010700400001", "DE 01 07 00400001"), ("DE 01 07 00400001 alt: DE 01 07 00400091", "DE 01 07 00400091"),
        ("DE 01 07 00400001 (ex DE 01 07 00400091)", "DE 01 07 00400001"),
        ("DE 01 07 00400001", "D\u0415 01 07 00400001"), ("10184684K", "10184684\u041a"),
    ],
)  # fmt: skip
def test_row_with_an_odd_tag(desk: Desk, id: str, sire: str) -> None:
    """What the row has may be in another form, may be two tags, or have letters of another alphabet."""
    done = desk.take(f"{TITLES}{id};Egon;m;2015-03-02;;\n{FLOCK}DE 01 07 00400096;Kitz;f;2022-03-24;{sire};\n")
    done.tells(f"line 6: {sire}: added: the sire of DE 01 07 00400096 {ADDED} (is {id} meant?)")


def test_number_in_another_column(desk: Desk) -> None:
    """One that stands in the row of one animal alone; of two nobody knows which is meant."""
    rows = "a1;Ida;f;2015-03-02;;;250001\na2;Ute;f;2015-03-02;;;250002\na3;Eva;f;2015-03-02;;;250002\n"
    rows += "b1;;f;2020-01-01;;250001;\nb2;;f;2020-01-01;;250002;\n"
    done = desk.take(f"id;name;sex;birth;sire;dam;UELN\n{rows}", "--columns", "id=id")
    done.tells(f"line 5: 250001: added: the dam of b1 {ADDED} (is a1 meant?)")
    done.tells(f"line 6: 250002: added: the dam of b2 {ADDED}")


DOGS = (
    "A101;Ch Foxhollow Plover JW;m;2012-05-13;;\nA102;Multi Ch Bar JW;f;2012-05-13;;\n"
    "A106;Foo (Imp Nor);m;2012-05-13;;\n"
)  # fmt: skip


@pytest.mark.parametrize(
    "sire, meant",
    [("Foxhollow Plover", "A101"), ("Int. & Ir Ch Foxhollow Plover", "A101"), ("Foo (Imp)", "A106"),
     ("Plover JW", "A101"), ("Foo Two", ""), ("Ch Fox", "")],
)  # fmt: skip
def test_titles_and_letters(desk: Desk, sire: str, meant: str) -> None:
    """Also where many parents lack a row, whose names nobody compares."""
    others = "".join(f"B{at};;m;2014-01-01;Founder {at}X;\n" for at in range(60))
    for more in ("", others) if sire != "Plover JW" else ("",):
        rows, book = f"{DOGS}{more}A103;Baz;m;2016-05-14;{sire};\n", f"book {len(more)}"
        done = desk.take(TITLES + rows, "--anyway", "--book", book)
        line = 5 + more.count("\n")
        done.tells(f"line {line}: {sire}: added: the sire of A103 {ADDED}{f' (is {meant} meant?)' if meant else ''}")


def test_name_of_several_offspring(desk: Desk) -> None:
    """Who may be meant is told each year, and an unknown parent isn't suggested beside it."""
    rows = f"{DOGS}A103;Baz;m;2016-05-14;Foxhollow Plover;\nA104;Qux;m;2016-05-14;Foxhollow Plover;\n"
    for more in "", "A105;Quy;m;2018-05-14;;\n":
        done = desk.take(TITLES + rows + more)
        done.shows("to look at: Foxhollow Plover has no row, and is the sire of 2: is A101 meant? If so, write that id")
        assert "--unknown" not in done.out


@pytest.mark.parametrize("name, dam", [("Œillette des Prés", "Oeillette des Prés"), ("L’Étoile", "L'ETOILE")])
def test_letters_that_stand_for_others(desk: Desk, name: str, dam: str) -> None:
    """A name is the same without the letter that is two, and with another apostrophe."""
    desk.take(f"{TITLES}a;{name};f;2011-06-05;;\nb;Jockey;m;2019-06-27;;{dam}\n")
    assert desk.parents()["b"] == ("", "a")


# the third animal of 2012 and some of its flock
OF_YEARS = (
    "1/12;Anton;m;2012-03-01;;\n2/12;Berta;f;2012-04-01;;\n{};Cora;f;2012-05-01;;\n2/14;Emil;m;2014-03-01;1/12;2/12\n"
    "1/14;Dora;f;2014-03-01;1/12;{}\n1/15;Fee;f;2015-03-01;2/14;1/14\n"
)  # fmt: skip
MADE_DAYS = (
    "03.12.", "03.12.2026", "03. Dez", "3-Dec", "3 déc.", "2026-12-03", "12/3/2026", "2012-03-01", "01.03.2012",
    "Mrz 12", "mars-12", "Mar 2012", "2012-03", "46359", "40969",
)  # fmt: skip


def test_id_like_a_day(desk: Desk) -> None:
    """In text cells of both columns it is linked, also beside animals that are called 3 and 12."""
    rows = OF_YEARS.format("3/12", "3/12") + "3;Ida;f;2010-03-01;;\n12;Ute;f;2010-03-01;;\n"
    assert ", 8 new, 0 changed, 0 inferred, 0 left out, 0 added" in desk.take(TITLES + rows).last
    assert desk.parents()["1/14"] == ("1/12", "3/12")
    # with a zero it is told which it is
    done = desk.take(TITLES + OF_YEARS.format("3/12", "03/12"), "--book", "two")
    done.tells(
        "line 6: 1/14: inferred: its dam '03/12' is 3/12, whose id differs only in case, blanks or zeros: if another "
        "is meant, give that one a row"
    )


def test_day_for_a_parent(desk: Desk) -> None:
    """Where a spreadsheet made a day of a parent's cell it is told which animal may be meant."""
    rows = "".join(f"{at}/16;;f;2016-03-01;;{day}\n" for at, day in enumerate(MADE_DAYS, 1))
    done = desk.take(TITLES + OF_YEARS.format("3/12", "3/12") + rows, "--anyway")
    for at, day in enumerate(MADE_DAYS, 1):
        done.tells(f"line {at + 7}: {day}: added: the dam of {at}/16 {ADDED} (is 3/12 meant?)")
    # of those that stand for several ids the likeliest is said: the day before the month, and what can be the dam
    others = "12/03;Ulla;f;2003-03-01;;\n1/3;Rex;m;2003-03-01;;\n3/14;Ina;f;2014-05-01;;\n1/05;Ute;f;2005-05-01;;\n"
    days = {"03.12.": "3/12", "12. Mrz": "12/03", "2012-03-01": "3/12", "Mrz 14": "3/14", "2014-03-01": "3/14",
            "2012-05-01": "1/05"}  # fmt: skip
    rows = "".join(f"{at}/16;;f;2016-03-01;;{day}\n" for at, day in enumerate(days, 1))
    done = desk.take(TITLES + OF_YEARS.format("3/12", "3/12") + others + rows, "--book", "two")
    for at, (day, id) in enumerate(days.items(), 1):
        done.tells(f"line {at + 11}: {day}: added: the dam of {at}/16 {ADDED} (is {id} meant?)")


@pytest.mark.parametrize("day", ["03. Dez", "3 déc.", "Mrz 12", "2012-03-01", "2012-03", "46359"])
def test_day_for_an_id(desk: Desk, day: str) -> None:
    """Where it made one of the id that is told, and by the parent's cell too; a number or a year with another number
    may be an id."""
    done = desk.take(TITLES + OF_YEARS.format(day, "3/12"))
    done.shows(f"line 6: 3/12: added: the dam of 1/14 {ADDED} (is {day} meant?)")
    may_be_id = day in ("2012-03", "46359")
    assert (f"line 4: {day}: to look at: its id is the day {day}, which" in done.out) != may_be_id


def test_day_for_no_id(desk: Desk) -> None:
    """A day of which no id is one is written like none; other ids that have the same numbers aren't meant."""
    days, others = ("04. Jun", "Jun 04", "2026-06-04", "04.06."), ("12/3", "2/13", "2013-03-02", "3/12/4")
    rows = "".join(f"{at}/16;;f;2016-03-01;;{dam}\n" for at, dam in enumerate(days + others, 1))
    done = desk.take(TITLES + OF_YEARS.format("3/12", "3/12") + rows, "--anyway")
    for day in days:
        assert f"to look at: {day} has no row and is written like no id, and is the dam of 1" in done.told
    assert "meant" not in done.told and len([one for one in done.report if ADDED in one]) == len(days + others)
    # where ids are such days themselves none is told
    done = desk.take(TITLES + "2012-03-01;A;m;2012-03-01;;\n2012-03-02;B;f;2012-03-02;;\n", "--book", "days")
    assert "which spreadsheets make" not in done.told
