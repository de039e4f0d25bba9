"""Columns beside that of the exits: other days of exits, such as `geschlachtet am`, and to whom an animal was sold."""
from __future__ import annotations

import pytest

from front_desk.desk import Desk
from front_desk.test_reasons_of_exits import reason
from front_desk.test_sheets_as_they_are import owner_of

BEGIN = "Ohrmarke;Name;Geschlecht;Geburt;Vater;Mutter;Besitzer;"
PARENTS = "1;Anna;w;01.03.2015;;;Meier;{}\n2;Bert;m;02.03.2015;;;Huber;{}\n"
CALF = "{};{};w;02.03.2018;2;1;Meier;{}\n"


def rows(parents: tuple[str, str], *calves: str) -> str:
    return PARENTS.format(*parents) + "".join(CALF.format(at, chr(64 + at), one) for at, one in enumerate(calves, 3))


def test_days_of_several_columns(desk: Desk) -> None:
    """The days of each are exits, with its word as why; where two have one, the first is taken, and it is told."""
    sheet = BEGIN + "Gestorben am;Geschlachtet am;Verkauft am\n"
    sheet += rows(("1.1.2020;;", ";3.3.2021;"), ";;4.4.2022", ";;4.5.22", "1.6.2023;;4.4.2022", "7.2022;;4.7.2022", ";;-")
    done = desk.take(sheet)
    done.shows(
        "to look at: the column 'Geschlachtet am' has an exit in 1 row where 'Gestorben am' has none: it is taken from "
        "there",
        "to look at: the column 'Verkauft am' has exits in 2 rows where 'Gestorben am' has none: they are taken from there",
        "line 6: 5: to look at: 'Gestorben am' says '1.6.2023', and 'Verkauft am' says '4.4.2022': the animal counts as "
        "gone, on the day of the first",
    )
    assert "line 7: 6: to look at" not in done.told and "not read" not in done.out
    assert [reason(desk, id) for id in "1234567"] == [
        ("2020-01-01", ""), ("2021-03-03", "Geschlachtet"), ("2022-04-04", "Verkauft"), ("2022-05-04", "Verkauft"),
        ("2023-06-01", ""), ("2022-07-31", ""), ("", ""),
    ]  # fmt: skip
    assert " 0 changed" in desk.take(sheet).last


def test_second_column_of_one_title(desk: Desk) -> None:
    sheet = f"{BEGIN}Abgang;Abgang 2\n" + rows(("1.1.2020;", ";3.3.2021"))
    done = desk.take(sheet)
    assert "the column 'Abgang 2' has an exit in 1 row where 'Abgang' has none: it is taken from there" in done.out
    assert [reason(desk, id)[0] for id in "12"] == ["2020-01-01", "2021-03-03"]


def test_days_under_their_titles(desk: Desk) -> None:
    """A day with two digits of the year is told under the title of the column in which it stands, and so is one that
    can't be read, and a word without a day."""
    cells = "1.2.20;;", "3.2.20;;", ";4.3.21;", ";5.3.21;", ";;x", ";31.31.21;", ";;6.4.22"
    done = desk.take(BEGIN + "Died on;Slaughtered;Sold\n" + rows(cells[:2], *cells[2:]))
    told = "two digits of the year in {} of the column '{}': '{}' in line {} is read as {}"
    done.tells(
        "to look at: " + told.format("2 cells", "Died on", "1.2.20", 2, "2020-02-01") + ", and the others alike",
        "to look at: " + told.format("2 cells", "Slaughtered", "4.3.21", 4, "2021-03-04") + ", and the others alike",
        "to look at: " + told.format("1 cell", "Sold", "6.4.22", 8, "2022-04-06"),
    )
    unread = "1 of 3 cells that tell of an exit in the column 'Slaughtered' can't be read, the first in line 7"
    assert unread in done.told
    assert "1 of 2 cells that tell of an exit in the column 'Sold', the first in line 6: 'Sold'" in done.told


@pytest.mark.parametrize("titles", ["Date of death;Date sold", "Date sold;Slaughtered", "Todesdatum;Verkaufsdatum"])
def test_titles_of_such_columns(desk: Desk, titles: str) -> None:
    desk.take(BEGIN + titles + "\n" + rows(("1.1.2020;", ";3.3.2021")))
    assert (reason(desk, "1")[0], reason(desk, "2")[0]) == ("2020-01-01", "2021-03-03")


@pytest.mark.parametrize("title", ["†", "†  am", "✝ Datum", "gest.", "+", "(+)", "+ am"])
def test_signs_of_deaths_as_titles(desk: Desk, title: str) -> None:
    """One is the column of exits where no other is, and is read beside one, also at the next time."""
    sheet = f"{BEGIN}{title}\n" + rows(("1.1.2020", ""), "3.3.2021")
    done = desk.take(sheet)
    assert f"exit from '{' '.join(title.split())}'" in done.out
    assert [reason(desk, id)[0] for id in "123"] == ["2020-01-01", "", "2021-03-03"]
    assert " 0 changed" in desk.take(sheet).last
    done = desk.take(f"{BEGIN}Abgang;{title}\n" + rows((";1.1.2020", ";"), "4.4.2022;"), "--book", "other")
    assert "has an exit in 1 row where 'Abgang' has none" in done.out


def test_yes_below_a_cross(desk: Desk) -> None:
    done = desk.take(f"{BEGIN}Abgang;†\n" + rows((";x", "3.3.2021;"), ";2.2.2022"))
    assert "1 of 2 cells that tell of an exit in the column '†', the first in line 2" in done.told
    assert reason(desk, "3") == ("2022-02-02", "†")


def test_plus_of_something_else(desk: Desk) -> None:
    done = desk.take(f"{BEGIN}+\n" + rows(("3", "4"), "x"))
    assert "not read: '+'" in done.out and "exit from" not in done.out


def test_days_beside_words(desk: Desk) -> None:
    """A word without a day gets that of the other column, but not of another exit; what says that the animal lives is
    told."""
    words = ";4.4.2022;verkauft", ";4.4.2022;gestorben", ";4.4.2022;lebt", "lebt;4.4.2022;"
    done = desk.take(BEGIN + "Gestorben am;Verkauft am;Status\n" + rows(("1.1.2020;;tot", ";;lebt"), *words))
    assert reason(desk, "3") == ("2022-04-04", "verkauft") and reason(desk, "4")[0] == ""
    assert reason(desk, "5")[0] == reason(desk, "6")[0] == "2022-04-04"
    done.tells(
        "line 5: 4: to look at: 'Status' says 'gestorben', and 'Verkauft am' says '4.4.2022': the animal counts as "
        "gone",
        "line 6: 5: to look at: 'Verkauft am' says '4.4.2022', and 'Status' says 'lebt': the animal counts as gone, on "
        "the day of the first",
        "line 7: 6: to look at: 'Gestorben am' says 'lebt', and 'Verkauft am' says '4.4.2022': the animal counts as gone",
    )


def test_yes_in_such_a_column(desk: Desk) -> None:
    """It says that the animal left, on a day that isn't known, unless another column tells of its exit."""
    cells = ";x", ";nein", "3.3.2021;x", ";-", ";Ja"
    done = desk.take(BEGIN + "Gestorben am;Verkauft\n" + rows(("1.1.2020;", ";2.2.2020"), *cells))
    done.shows("to look at: the column 'Verkauft' has exits in 3 rows where 'Gestorben am' has none: they are taken from there")
    told = {row["id"]: row["exit"] for row in desk.table("book/ids.csv") if row["exit"]}
    assert told == {"2": "'Verkauft'", "3": "day unknown: 'Verkauft'", "7": "day unknown: 'Verkauft'"}
    assert reason(desk, "5")[0] == "2021-03-03" and "not read" not in done.out
    # a tag may be lost
    done = desk.take(BEGIN + "Gestorben am;Lost\n" + rows(("1.1.2020;x", ";x"), ";x"), "--book", "two")
    assert "not read: 'Lost'" in done.out


@pytest.mark.parametrize("titles", ["Verkauft am;Käufer", "Date sold;Sold to", "Abgang;Verkauft an", "Vendu le;Acheteur"])
def test_buyers(desk: Desk, titles: str) -> None:
    """An owner of the society has the animal since that day; somebody else is kept beside the day."""
    sold = "1.5.2020;Huber", "3. Mai 2020;Huber", "5.5.20;Huber", "6.5.2020;Schulze", ";Huber", "7.5.2020;", ";unbekannt"
    sheet = BEGIN + titles + "\n" + rows((";", ";"), *sold)
    done = desk.take(sheet)
    assert [owner_of(desk, id) for id in "34567"] == ["Huber", "Huber", "Huber", "Meier", "Huber"]
    assert [reason(desk, id)[0] for id in "3456789"] == ["", "", "", "2020-05-06", "", "2020-05-07", ""]
    assert reason(desk, "6")[1].endswith("Schulze") and owner_of(desk, "8") == owner_of(desk, "9") == "Meier"
    assert desk.transfer_days()[:3] == ["2020-05-01", "2020-05-03", "2020-05-05"]
    title = titles.partition(";")[2]
    done.shows(
        f"to look at: the column '{title}' says to whom animals were sold, in 5 rows: that is read as a part of their exits"
    )
    assert "not read" not in done.out
    assert " 0 new, 0 changed" in desk.take(sheet).last


def test_buyers_of_other_exits(desk: Desk) -> None:
    """Who bought an animal that died, or that lives, says nothing of its exit."""
    sold = "5.5.2020;;Huber", ";6.6.2020;Huber", "gestorben 2020;;Huber", "lebt;;Huber"
    desk.take(BEGIN + "Gestorben am;Verkauft am;Käufer\n" + rows((";;", ";;"), *sold))
    assert [owner_of(desk, id) for id in "3456"] == ["Meier", "Huber", "Meier", "Meier"]
    assert [reason(desk, id)[0] for id in "3456"] == ["2020-05-05", "", "2020-12-31", ""]


def test_buyers_in_place_of_owners(desk: Desk) -> None:
    """The day of the sale stands beside that of deaths."""
    sheet = BEGIN + "Gestorben am;Verkauft am\n" + rows(("1.1.2020;", ";"), ";3.5.2020").replace(
        "2;1;Meier", "2;1;verkauft an Huber"
    )
    desk.take(sheet)
    assert owner_of(desk, "3") == "Huber" and reason(desk, "3") == ("", "") and desk.transfer_days() == ["2020-05-03"]
    assert " 0 new, 0 changed" in desk.take(sheet).last


def test_buyers_alone(desk: Desk) -> None:
    """Where nothing else tells of exits such a column is told, and read as that of the exits where somebody says so."""
    sold = "Huber", "Huber 3.5.2020", "Schulze", "Schulze 4.5.20", "verkauft an Huber 5.5.2020", "-"
    sheet = BEGIN + "Verkauft an\n" + rows(("", ""), *sold)
    done = desk.take(sheet)
    done.tells("to look at: nothing is read as exit, though the column 'Verkauft an' looks like that, with 6 cells: "
               "Huber, Huber 3.5.2020, Schulze, Schulze 4.5.20, verkauft an Huber 5.5.2020; if it is the one, say "
               "--columns 'exit=Verkauft an'")  # fmt: skip
    assert [owner_of(desk, id) for id in "345678"] == ["Meier"] * 6
    desk.take(sheet, "--columns", "exit=Verkauft an")
    assert [owner_of(desk, id) for id in "345678"] == ["Huber", "Huber", "Meier", "Meier", "Huber", "Meier"]
    assert {row["id"]: row["exit"] for row in desk.table("book/ids.csv") if row["exit"]} == {
        "5": "day unknown: 'verkauft an Schulze'", "6": "'verkauft an Schulze'",
    }  # fmt: skip
    assert " 0 new, 0 changed" in desk.take(sheet).last


@pytest.mark.parametrize("titles", ["Status;{}", "Exit date;Status;{}"])
@pytest.mark.parametrize(
    "title, status",
    [
        ("Buyer", "Active"), ("Sold to", "On loan"), ("Käufer", "aktiv"), ("Verkauft an", "ausgeliehen"),
        ("Acheteur", "lebt"),
    ],
)  # fmt: skip
def test_buyers_of_living(desk: Desk, title: str, titles: str, status: str) -> None:
    """One who isn't the owner is told beside a status that says that the animal is there, and nothing is changed by
    it."""
    cells = "{};{}" if titles.startswith("Status") else ";{};{}"
    sold = (status, "Schulze"), (status, "Huber"), (status, "Meier"), ("verkauft", "Zoo")
    of_sold = [cells.format(*one) for one in sold]
    sheet = f"{BEGIN}{titles.format(title)}\n" + rows((cells.format("", ""),) * 2, *of_sold)
    done = desk.take(sheet)
    for at, buyer in ((3, "Schulze"), (4, "Huber")):
        done.tells(
            f"line {at + 1}: {at}: to look at: '{title}' says '{buyer}', and 'Status' says '{status}': the animal "
            f"counts as living, with its owner; if it was sold, write sold, verkauft or vendu in place of '{status}'"
        )
    assert len([one for one in done.report if "with its owner" in one]) == 2 and "not read" not in done.out
    assert [owner_of(desk, id) for id in "345"] == ["Meier"] * 3
    assert {row["id"] for row in desk.table("book/ids.csv") if row["exit"]} == {"6"}
    assert " 0 new, 0 changed" in desk.take(sheet).last


def test_buyers_and_days(desk: Desk) -> None:
    """Where the animal has the day of an exit too, that is told as before, and the buyer is read."""
    sold = "5.5.2020;aktiv;Schulze", "nein;;Schulze", "nein;verkauft;Schulze", "-;-;Schulze"
    done = desk.take(BEGIN + "Abgang am;Status;Käufer\n" + rows((";;", ";;"), *sold))
    assert "'Abgang am' says '5.5.2020', and 'Status' says 'aktiv': the animal counts as gone" in done.told
    [told] = [one for one in done.report if "with its owner" in one]
    assert told.startswith("line 5: 4: to look at: 'Käufer' says 'Schulze', and 'Abgang am' says 'nein'")
    assert {row["id"] for row in desk.table("book/ids.csv") if row["exit"]} == {"3", "5", "6"}
