"""Columns beside that of the owners: first names, and keepers where no owner stands."""
from __future__ import annotations

import pytest

from front_desk.desk import Desk


def owners_listed(desk: Desk) -> list[str]:
    return [row["owner"] for row in desk.listed("list", "--columns", "id,owner")]


@pytest.mark.parametrize(
    "owner, first",
    [("Besitzer", "Vorname"), ("Owner surname", "Owner forename"), ("Propriétaire", "Prénom"), ("Nachname", "Vorname")],
)
def test_first_names(desk: Desk, owner: str, first: str) -> None:
    """Two owners of one surname are two, each year; one whose whole name stands there already stays, and so does one
    without a first name. Which columns are read is told once."""
    rows = "A1;Balz;2010-03-03;;;Meier;Hans;x\nA2;Gian;2010-03-04;;;Meier;Leo;x\nA3;Nora;2010-03-05;;;Meier;\";x\n"
    rows += "A4;Enea;2010-03-06;;;Kunz;?;x\nA5;Dora;2010-03-07;;;Egli Paul;Paul;x\n"
    for new in 5, 0:
        done = desk.take(f"Id;Name;Birth;Sire;Dam;{owner};{first};Note\n{rows}")
        told = f"owner from '{owner}' and '{first}'; not read: 'Note'" if new else "last time; not read: 'Note'"
        assert f" {new} new, 0 changed" in done.last and told in done.out and "to look at" not in done.told
        assert owners_listed(desk) == ["Meier Hans", "Meier Leo", "Meier Leo", "Kunz", "Egli Paul"]


def test_first_names_stand_before(desk: Desk) -> None:
    """They are the owners' behind a column of whole names, and where the title says so; the order is that of the
    columns."""
    rows = "A1;Meier Hans;Hans;Meier;2010;;\nA2;Zgraggen Leo;Leo;Meier;2010;;\n"
    desk.take("Id;Züchter;Vorname;Besitzer;Birth;Sire;Dam\n" + rows)
    assert owners_listed(desk) == ["Hans Meier", "Leo Meier"]
    titles = "Id;Keeper;Owner forename;Owner;Birth;Sire;Dam\n"
    done = desk.take(titles + rows.replace("Meier Hans", "x"), "--book", "other")
    assert "owner from 'Owner' and 'Owner forename'" in done.out


@pytest.mark.parametrize("other, owner", [("Ort", "Meier Hans"), ("Betrieb", "Ulm")])
def test_name_of_a_person(desk: Desk, other: str, owner: str) -> None:
    """Beside a first name it isn't the animal's, where another column has that; it is the owner's where no other is."""
    for _ in range(2):
        desk.take(f"Id;Tiername;Birth;Sire;Dam;Name;Vorname;{other}\nA1;Balz;2010;;;Meier;Hans;Ulm\n")
        assert [[*row.values()] for row in desk.listed("list", "--columns", "name,owner")] == [["Balz", owner]]


def test_first_names_of_others(desk: Desk) -> None:
    """They aren't read where they may be another's; an owner beside several of them is told before all else."""
    rows = "A1;Meier;Hans;{0};2010;;\nA2;Egli;Leo;{0};2010;;\nA3;Egli;Rita;Huber;2010;;\n"
    done = desk.take("Id;Züchter;Vorname;Besitzer;Birth;Sire;Dam\n" + rows.format("Meier"))
    told = "'Meier' in 'Besitzer' stands beside 'Hans' in line 2 and 'Leo' in line 3, in 'Vorname', which isn't read: "
    told += "they count as one owner; if 'Vorname' has the owners' first names, move that column to right after "
    told += "'Besitzer'\n"
    assert done.out.startswith(f"to look at: {told}")
    assert owners_listed(desk) == ["Meier", "Meier", "Huber"]
    farms = desk.take("Id;Name;Vorname;Betrieb;Birth;Sire;Dam\n" + rows.format("Hof Süd"), "--book", "farms")
    animals = desk.take("Id;Name;Vorname;Note;Birth;Sire;Dam;Besitzer\n" + rows.format("x"), "--book", "animals")
    for done in farms, animals:
        assert "not read: 'Vorname'" in done.out.replace("'Name', ", "") and "stand" not in done.told


@pytest.mark.parametrize("title, keeper", [("Besitzer", "Halter"), ("Owner", "Keeper"), ("Propriétaire", "Détenteur")])
def test_keepers(desk: Desk, title: str, keeper: str) -> None:
    """Where no owner stands a keeper is told and isn't taken, until the column is chosen."""
    rows = "A1;Huber;Huber;2010;;\nA2;Huber;;2010;;\nA3;Meier;Huber;2010;;\n"
    sheet = f"Id;{keeper};{title};Birth;Sire;Dam\n{{}}"
    done = desk.take(sheet.format(rows))
    done.shows(
        f"to look at: 1 row has nothing in '{title}', and 'Huber' in '{keeper}', in line 3: no owner is taken from "
        f"there; if it is the owner, enter it in '{title}'"
    )
    assert owners_listed(desk) == ["Huber", "", "Huber"]
    done = desk.take(sheet.format(rows + "A4;Egli;?;2010;;\nA5;-;;2010;;\nA6;;;2010;;\n"))
    done.shows(
        f"to look at: 2 rows have nothing in '{title}', and a name in '{keeper}', the first 'Huber' in line 3, the "
        f"others in 5: no owner is taken from there; if they are the owners, enter them in '{title}'"
    )
    done = desk.typed(done.commands()[0])
    assert owners_listed(desk)[:4] == ["Huber", "Huber", "Meier", "Egli"] and "no owner is taken" not in done.out


def test_first_name_without_an_owner(desk: Desk) -> None:
    done = desk.take("Id;Besitzer;Vorname;Birth;Sire;Dam\nA1;Huber;Rita;2010;;\nA2;;Leo;2010;;\n")
    told = "1 row has nothing in 'Besitzer', and 'Leo' in 'Vorname', in line 3: no owner is taken from there"
    assert told in done.out and not done.commands() and owners_listed(desk) == ["Huber Rita", ""]


# -- owners in turn

IN_TURN = "Id;Name;Birth;Sire;Dam;{}\nA1;Balz;12.03.2010;;;Meier;{}\nA2;Gian;14.04.2010;;;Meier;{}\n"


@pytest.mark.parametrize(
    "titles, later, first",
    [
        ("1st Owner;2nd Owner;From", "Kunz;30.04.2018", ";"), ("1. Eigentümer;2. Eigentümer;seit", "Kunz;30.04.2018", "-;"),
        ("1er propriétaire;2e propriétaire;depuis", "Kunz;30.04.2018", ";"),
        ("Owner 1;Since 1;Owner 2;Since 2", "01.02.2011;Kunz;30.04.2018", "01.02.2011;;"),
        ("Besitzer 1;seit 1;Besitzer 2;seit 2;Besitzer 3;seit 3", "1.2.2011;Egli;1.1.2012;Kunz;30.04.2018", "1.2.2011;;;;"),
    ],
)
def test_owners_in_turn(desk: Desk, titles: str, later: str, first: str) -> None:
    """The last one in a row is the owner of now, since the day behind; the days aren't offered as exits."""
    sheet = IN_TURN.format(titles, later, first)
    done = desk.take(sheet)
    title = titles.split(";")[0]
    assert f"to look at: 1 row has a later owner behind '{title}', 'Kunz' in line 2 in " in done.out
    assert "not read" not in done.out and "exit=" not in done.out and done.out.count("to look at") == 1
    assert owners_listed(desk) == ["Kunz", "Meier"] and "Kunz, since 2018-04-30" in desk.good("show", "A1").out
    assert " 0 changed" in desk.take(sheet).last


def test_owners_in_turn_that_are_none(desk: Desk) -> None:
    """Words for exits in the later columns are no owners, and a day beside a name is none of it."""
    rows = "A1;Balz;12.03.2010;;;Daly;sold;\nA2;Gian;14.04.2010;;;Daly;dead 3/4/2022;\n"
    rows += "A3;Reto;14.04.2010;;;Daly;Foley;Walsh 3/4/2022\n"
    desk.take("Id;Name;Birth;Sire;Dam;1st Owner;2nd Owner;3rd Owner\n" + rows)
    assert owners_listed(desk) == ["Daly", "Daly", "Walsh"]


def test_owners_that_are_not_in_turn(desk: Desk) -> None:
    """Those that count without days may own an animal together, and until when says that the second was before."""
    for titles in ("Besitzer 1;Besitzer 2;Bemerkung", "1st Owner;2nd Owner;Until"):
        done = desk.take(IN_TURN.format(titles, "Kunz;30.04.2018", ";"), "--book", titles[:3])
        assert "later owner" not in done.out and "isn't read, and has 'Kunz' in line 2" in done.out
