"""Animals that are sold within the society: the taker is an owner of the list or of the book, also one without animals,
by a name of now or of before, or by the number as a member."""
from __future__ import annotations

import pytest

from front_desk.desk import Desk
from front_desk.test_sheets_as_they_are import owner_of
from gudokeyi.services.book_program import BookProgram
from gudokeyi.services.members import Member, member_of, write_member
from gudokeyi.services.opening import to_change

TITLES = "Ohrmarke;Name;Geschlecht;geb;Vater;Mutter;Besitzer;Abgang\n"
ROWS = "001;Max;m;01.02.2010;;;Huber;\n002;Eva;w;03.02.2010;;;Meier Ida;\n003;A;w;3.2.2013;001;002;Huber;\n"


def written(desk: Desk, name: str, called: str, number: str) -> None:
    """The record of an owner of the book."""
    program = BookProgram()
    with to_change(desk.room / "book", program) as book:
        before = member_of(book, book.owners[name])
        assert before
        write_member(book, program, before, Member(before.owner_code, called, number))


@pytest.mark.parametrize(
    "cell, owner",
    [
        ("verkauft an Meier", "Meier Ida"),
        ("verkauft 1.5.2020 an Meyer Ida", "Meier Ida"),
        ("verkauft an Mitglied Nr. 17", "Meier Ida"),
        ("sold to member 17", "Meier Ida"),
        ("vendu au membre n° 17", "Meier Ida"),
        ("verkauft an Mitglied 18", "Huber"),
        ("verkauft an Fremd", "Huber"),
    ],
)
def test_taker_without_animals(desk: Desk, monkeypatch: pytest.MonkeyPatch, cell: str, owner: str) -> None:
    """The owner came as Meier Ida, and is written Meyer Ida since."""
    monkeypatch.setenv("HERDBOOK", desk.program)
    desk.take(TITLES + ROWS)
    written(desk, "Meier Ida", "Meyer Ida", "17")
    desk.take(TITLES + ROWS.replace("Meier Ida", "Huber").replace("001;002;Huber;\n", f"001;002;Huber;{cell}\n"))
    [animal] = [one for one in desk.table("book/ids.csv") if one["id"] == "003"]
    assert owner_of(desk, "003") == owner and bool(animal["exit"]) == (owner == "Huber")


def test_taker_who_may_be_two(desk: Desk) -> None:
    """That is told, and the animal counts as gone."""
    rows = ROWS.replace("001;Max;m;01.02.2010;;;Huber", "001;Max;m;01.02.2010;;;Meier Hans")
    done = desk.take(TITLES + rows.replace("Huber;\n", "Huber;verkauft an Meier\n"))
    told = "line 4: 003: to look at: 'verkauft an Meier' may mean Meier Hans or Meier Ida: the animal counts as gone"
    assert told in done.out
    [animal] = [one for one in desk.table("book/ids.csv") if one["id"] == "003"]
    assert animal["exit"]


@pytest.mark.parametrize(
    "cell, day",
    [
        ("verkauft an Meier Ida", ""), ("sold to Ida Meier", ""), ("jetzt Meier", ""), ("vendue à Meier Ida", ""),
        ("Huber, verk. an Meier, 3.4.21", "2021-04-03"), ("Verkauf an Meier Ida 3.4.2021", "2021-04-03"),
        ("ging an Ida Meier", ""), ("new owner: Ida Meier", ""), ("vente à Meier", ""),
        ("Huber, verk. an Meier 3/24", "2024-03-31"),
    ],
)  # fmt: skip
def test_sale_in_place_of_owner(desk: Desk, cell: str, day: str) -> None:
    """The taker is the owner, since the day that the cell has, and that is told with the line."""
    done = desk.take(TITLES + ROWS.replace("001;002;Huber;\n", f'001;002;"{cell}";\n'))
    assert owner_of(desk, "003") == "Meier Ida" and desk.transfer_days() == [day][: bool(day)]
    assert f"line 4: 003: to look at: its owner is written '{cell}': Meier Ida is taken as its owner" in done.out
    assert " 0 changed" in desk.take(TITLES + ROWS.replace("001;002;Huber;\n", f'001;002;"{cell}";\n')).last


@pytest.mark.parametrize(
    "cell, day",
    [
        ("verk. Meier Ida", ""), ("verkauft Ida Meier 3.4.2021", "2021-04-03"), ("3.4.2021 verk. Meier Ida", "2021-04-03"),
        ("sold: Ida Meier, 4/2021", "2021-04-30"), ("verk. Meier Ida im Mai 2021", "2021-05-31"), ("vendue Meier Ida", ""),
    ],
)  # fmt: skip
@pytest.mark.parametrize("title", ["Abgang", "Status", "Abgang;Status"])
def test_name_behind_a_sale(desk: Desk, cell: str, day: str, title: str) -> None:
    """It is read as with a word for to whom; another name, or one that isn't known so, is none of a taker."""
    beside = ";" * title.count(";")
    rows = "".join(f"{row}{beside}\n" for row in ROWS.splitlines()[:2]) + f"003;A;w;3.2.2013;001;002;Huber;{beside}{cell}\n"
    rows += f"004;B;w;3.2.2014;001;002;Huber;{beside}verk. Kunz 3.4.2021\n"
    sheet = TITLES.replace("Abgang", title) + rows
    done = desk.take(sheet)
    assert owner_of(desk, "003") == "Meier Ida" and desk.transfer_days()[: bool(day)] == [day][: bool(day)]
    done.tells(f"line 4: 003: inferred: owner Meier Ida, before Huber: '{cell}' names an owner of the society, so it "
               "hasn't left")  # fmt: skip
    assert [line.split(",")[2] for line in desk.commands() if line.startswith("exit")] == ["2021-04-03"]
    assert [one["id"] for one in desk.table("book/ids.csv") if one["exit"]] == ["004"] and "Kunz' " not in done.out
    assert " 0 new, 0 changed" in desk.take(sheet).last


@pytest.mark.parametrize(
    "cell, day",
    [
        ("Sold to {} 13/7/24", "2024-07-13"), ("sold to {} 3 May 24", "2024-05-03"), ("{} 3. Mai 2024", "2024-05-03"),
        ("13.7.24 sold to {}", "2024-07-13"), ("rehomed to {}, May 24", "2024-05-31"),
    ],
)  # fmt: skip
def test_day_behind_the_taker(desk: Desk, cell: str, day: str) -> None:
    """With two digits of the year too it is the day, of a transfer as of the exit of an animal that left."""
    cell = cell.replace("{} 3. Mai", "verkauft an {} 3. Mai")
    rows = ROWS.replace("001;002;Huber;\n", "001;002;Huber;" + cell.format("Meier Ida") + "\n")
    sheet = TITLES + rows + "004;B;w;3.2.2014;001;002;Huber;" + cell.format("Stranger") + "\n"
    desk.take(sheet)
    sold = [] if cell.startswith("rehomed") else [day]
    assert desk.transfer_days() == sold and owner_of(desk, "004") == "Huber"
    assert [line.split(",")[2] for line in desk.commands() if line.startswith("exit")] == [day] * (2 - len(sold))


@pytest.mark.parametrize("is_of_day", [False, True])
def test_part_of_a_name_behind_a_sale(desk: Desk, is_of_day: bool) -> None:
    """That and a sale in doubt are told, with who may be the taker, also where the day stands in another column."""
    rows = ROWS + "004;B;w;3.2.2014;001;002;Huber;{}\n005;C;w;3.2.2015;001;002;Huber;{}\n"
    cells = [f"1.5.2020;{cell}" if is_of_day else cell for cell in ("verk. Meier", "verk. Meier Ida?")]
    titles = TITLES.replace("Abgang", "Abgang;Status") if is_of_day else TITLES
    done = desk.take(titles + rows.format(*cells))
    done.shows(
        "line 5: 004: to look at: 'verk. Meier' may mean Meier Ida: the animal counts as gone; if it is with this owner, "
        "write that name in full",
        "line 6: 005: to look at: 'verk. Meier Ida?' has the name of an owner in it, Meier Ida: the animal counts as gone; "
        "if it is with that owner, write sold to, verkauft an or vendu à before the name",
    )
    assert [one["id"] for one in desk.table("book/ids.csv") if one["exit"]] == ["004", "005"]


def test_day_of_a_death_beside_a_sale(desk: Desk) -> None:
    """A column of deaths has no day of a sale."""
    rows = ROWS.replace(";\n", ";;\n").replace("001;002;Huber;;\n", "001;002;Huber;12.5.2023;verk. Meier Ida\n")
    desk.take(TITLES.replace("Abgang", "gestorben am;Status") + rows)
    assert [line.split(",")[2] for line in desk.commands() if line.startswith("exit")] == ["2023-05-12"]
    desk.take(TITLES.replace("Abgang", "Abgang am;Status") + rows, "--book", "two")
    assert "exit," not in desk.text("two/commands.csv") and ",2023-05-12," in desk.text("two/commands.csv")


@pytest.mark.parametrize("cell", ["verk. von Meier Ida", "13.1.2021 Meier Ida", "verk. 2021 (Ida Meier)", "Meier Ida"])
def test_owner_in_an_exit(desk: Desk, cell: str) -> None:
    """The name of another owner in an exit is told; the animal's own is none to whom it was sold."""
    is_within = "(" not in cell
    done = desk.take(TITLES + ROWS.replace("001;002;Huber;\n", f"001;002;Huber;{cell}\n"))
    told = f"line 4: 003: to look at: '{cell}' has the name of an owner in it, Meier Ida: the animal counts as gone"
    assert (told in done.out) == is_within
    done = desk.take(TITLES + ROWS.replace("001;002;Huber;\n", "001;002;Huber;gestorben bei Huber 13.1.2021\n"))
    assert "name of an owner in it" not in done.out


BESIDE = TITLES.replace(";Abgang", "")


@pytest.mark.parametrize(
    "titles, cells",
    [
        ("Besitzer;Abgang;Status", "Huber;12.05.2023;verkauft an Meier"),
        ("Besitzer;Abgang", "Huber;verkauft an Meier 12.5.2023"),
        ("Besitzer;verkauft am", "verkauft an Meier Ida;12.05.2023"),
        ("Besitzer;Abgang;seit", "verkauft an Meier;verk. 12.5.2023;"),
        ("Besitzer;Abgang;verkauft am", "Huber;verkauft an Meier;12.05.2023"),
        ("Besitzer;Abgang;verkauft am", "Huber;verk. Meier Ida;12.05.2023"),
        ("Besitzer;Abgang;Status", "Huber;12.05.2023;verk. Meier Ida"),
        ("Besitzer;Abgang;verkauft am", "jetzt bei Meier;;12.05.2023"),
        ("Besitzer;Status;verkauft am", "Huber;verkauft an Meier;12.05.2023"),
        ("Besitzer;Status;verkauft am", "verkauft an Meier;lebt;12.05.2023"),
        ("Besitzer;seit;Abgang", "Huber;12.05.2023;verkauft an Meier"),
        ("Besitzer;seit;Abgang", "verkauft an Meier;12.05.2023;12.05.2023"),
        ("Besitzer;seit;Abgang", "Huber;3.2.2013;verkauft an Meier am 12.05.2023"),
    ],
)
@pytest.mark.parametrize("is_second", [True, False])
def test_day_of_a_sale_elsewhere(desk: Desk, titles: str, cells: str, is_second: bool) -> None:
    """The day of the transfer stands in another column of the row: it is taken, the animal hasn't left, and no
    sentence is about an empty text. The same list says nothing new."""
    rest = ";" * (titles.count(";") - 1)
    first = BESIDE.replace("Besitzer", titles) + "".join(f"{row}{rest}\n" for row in ROWS.splitlines()[:2])
    if is_second:
        desk.take(BESIDE + ROWS.replace(";\n", "\n"))
    sheet = first + f"003;A;w;3.2.2013;001;002;{cells}\n"
    done = desk.take(sheet)
    assert owner_of(desk, "003") == "Meier Ida" and desk.transfer_days() == ["2023-05-12"]
    assert "''" not in done.told and "the animal counts as gone" not in done.told
    assert "since no cell says the day" not in done.told and "so it hasn't left" in done.told or "seit" in titles
    assert not [row for row in desk.table("book/ids.csv") if row["exit"]] and "exit," not in "\n".join(desk.commands())
    assert " 0 new, 0 changed" in desk.take(sheet).last


def test_exit_after_a_sale(desk: Desk) -> None:
    """An exit that another word tells of, or that is later than the sale, stays one; and so does the sale to somebody
    who is no owner of the society."""
    rows = "004;B;w;3.2.2014;001;002;verkauft an Meier;{}\n005;C;w;3.2.2015;001;002;verkauft an Zoo;12.5.2023\n"
    desk.take(TITLES + ROWS + rows.format("gestorben 12.5.2023"))
    assert [line.split(",")[2] for line in desk.commands() if line.startswith("exit")] == ["2023-05-12", "2023-05-12"]
    assert owner_of(desk, "004") == "Meier Ida" and owner_of(desk, "005") == "verkauft an Zoo"
    rows = rows.format("12.5.2023;1.2.2020").replace("Zoo;12.5.2023", "Zoo;12.5.2023;")
    desk.take(TITLES.replace("Abgang", "Abgang;seit") + ROWS.replace(";\n", ";;\n") + rows, "--book", "two")
    left = [line.split(",")[2] for line in desk.text("two/commands.csv").splitlines() if line.startswith("exit")]
    assert left == ["2023-05-12", "2023-05-12"]
    # a column of deaths has no day of a sale
    rows = "004;B;w;3.2.2014;001;002;verkauft an Meier;12.5.2023;\n"
    rows += "005;C;w;3.2.2015;001;002;Huber;12.5.2023;verkauft an Meier\n"
    desk.take(TITLES.replace("Abgang", "gestorben am;Status") + ROWS.replace(";\n", ";;\n") + rows, "--book", "three")
    left = [line.split(",")[2] for line in desk.text("three/commands.csv").splitlines() if line.startswith("exit")]
    assert left == ["2023-05-12", "2023-05-12"]


@pytest.mark.parametrize(
    "titles, cells",
    [
        ("Besitzer;seit;Abgang", "Kunz;5.5.2022;verkauft an Meier Ida 3.12.2018"),
        ("Besitzer;seit;verkauft am;Käufer", "Kunz;5.5.2022;3.12.2018;Meier Ida"),
        ("Besitzer;seit;gestorben am;verkauft am;verkauft an", "Kunz;5.5.2022;14.8.2023;3.12.2018;Meier Ida"),
    ],
)
def test_sale_before_the_owner_of_now(desk: Desk, titles: str, cells: str) -> None:
    """The column of the owner has that of now: a sale before it is told, and a death behind it is the exit."""
    rest = ";" * (titles.count(";") - 1)
    sheet = BESIDE.replace("Besitzer", titles) + "".join(f"{row}{rest}\n" for row in ROWS.splitlines()[:2])
    sheet += f"003;A;w;3.2.2013;001;002;{cells}\n"
    done = desk.take(sheet)
    assert owner_of(desk, "003") == "Kunz" and desk.transfer_days() == ["2022-05-05"]
    told = "3.12.2018' tells of a sale before 2022-05-05, since when the row says that Kunz has it: Kunz stays its owner"
    assert told in done.out and "counts as gone" not in done.out
    left = [line.split(",")[2] for line in desk.commands() if line.startswith("exit")]
    assert left == ["2023-08-14"] * ("gestorben" in titles)
    assert " 0 new, 0 changed" in desk.take(sheet).last


@pytest.mark.parametrize(
    "titles, cells, told",
    [
        ("Besitzer;Abgang", "Huber;verkauft an Meier Ida 3.12.2018, † 14.8.2023", "† 14.8.2023"),
        ("Besitzer;Abgang", "Huber;verk. Ida Meier 3.12.2018 (gestorben 14.8.2023)", "gestorben 14.8.2023"),
        ("Besitzer;Abgang", "Huber;sold to Ida Meier 3.12.2018, died 14/8/2023", "died 14/8/2023"),
        ("Besitzer;gestorben am;verkauft am;Käufer", "Huber;14.8.2023;3.12.2018;Meier Ida", "14.8.2023"),
    ],
)
def test_death_behind_a_sale(desk: Desk, titles: str, cells: str, told: str) -> None:
    """It is the exit, and the taker is the owner since the sale."""
    rest = ";" * (titles.count(";") - 1)
    sheet = BESIDE.replace("Besitzer", titles) + "".join(f"{row}{rest}\n" for row in ROWS.splitlines()[:2])
    sheet += f"003;A;w;3.2.2013;001;002;{cells}\n"
    done = desk.take(sheet)
    assert owner_of(desk, "003") == "Meier Ida" and desk.transfer_days() == ["2018-12-03"]
    assert [line.split(",")[2] for line in desk.commands() if line.startswith("exit")] == ["2023-08-14"]
    assert f"names an owner of the society, and its exit is '{told}'" in done.out and "counts as gone" not in done.out
    assert " 0 new, 0 changed" in desk.take(sheet).last


def test_owner_who_is_written_since(desk: Desk) -> None:
    """A sale without a day that stood there already isn't one by the owner who is written later: he has the animal."""
    sold = ROWS.replace("001;002;Huber;\n", "001;002;Huber;verkauft an Meier\n")
    desk.take(TITLES + sold)
    assert owner_of(desk, "003") == "Meier Ida"
    later = sold.replace("001;002;Huber;", "001;002;Schmid;")
    done = desk.take(TITLES + later)
    told = "line 4: 003: to look at: 'verkauft an Meier' stood there already, and Schmid is written as its owner since"
    assert told in done.out and owner_of(desk, "003") == "Schmid"
    assert "stood there already" not in desk.take(TITLES + later).told and owner_of(desk, "003") == "Schmid"


def test_sale_that_is_written_again(desk: Desk) -> None:
    """With the same cells as before the taker stays the owner, and so where the sale is new."""
    sold = TITLES + ROWS.replace("001;002;Huber;\n", "001;002;Huber;verkauft an Meier\n")
    desk.take(TITLES + ROWS)
    desk.take(sold)
    assert owner_of(desk, "003") == "Meier Ida"
    desk.take(sold)
    assert owner_of(desk, "003") == "Meier Ida"
