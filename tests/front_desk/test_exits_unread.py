"""Columns of exits beside the first one that have something else than days, and columns that aren't read, or say
nothing of some animals, and may tell of exits."""
from __future__ import annotations

import pytest

from front_desk.desk import Desk
from front_desk.test_exits_beside import BEGIN, rows
from front_desk.test_reasons_of_exits import exits, reason


def test_no_days_in_such_a_column(desk: Desk) -> None:
    """What is no day tells of an exit without one, as in the first column, and is told under its own title; beside
    another exit that column's day is taken, which is told of one of another kind."""
    cells = ";£350", ";Huber, Basel", ";lebt", ";unbekannt", "1.6.2023;£350", ";ausgeliehen 2020", ";2.2.2020"
    done = desk.take(BEGIN + "Gestorben am;Verkauft am\n" + rows(("1.1.2020;", ";siehe Bemerkung"), *cells))
    told = (
        "3 of 5 cells that tell of an exit in the column 'Verkauft am' can't be read, the first in line 3: 'siehe "
        "Bemerkung', '£350', 'Huber, Basel': such an animal counts as gone"
    )
    assert told in done.out and "not read" not in done.out and "if no column tells of exits" not in done.out
    assert {*exits(desk)} == {"2", "3", "4", "9"} and reason(desk, "9") == ("2020-02-02", "Verkauft")
    done.tells(
        "to look at: the column 'Verkauft am' has exits in 4 rows where 'Gestorben am' has none: they are taken from there",
        "line 8: 7: to look at: 'Gestorben am' says '1.6.2023', and 'Verkauft am' says '£350': the animal counts as gone, "
        "on the day of the first",
        "to look at: 1 cell of the column 'Verkauft am' tells of something other than an exit, in line 9: 'ausgeliehen "
        "2020': the animal stays, and what the cell says is kept as a note; if it has left, write a day, or a word such "
        "as sold, verkauft or vendu",
    )


def test_titles_again_in_such_a_column(desk: Desk) -> None:
    """They tell of no exit; a word that is the title does."""
    titles = BEGIN + "Gestorben;Verkauft\n"
    done = desk.take(titles + rows(("1.1.2020;", ";2.2.2020"), ";Verkauft") + titles)
    assert "'Verkauft' says 'Verkauft'" not in done.told and "'Verkauft' has exits in 2 rows" in done.told
    assert exits(desk) == {"2": "'Verkauft'", "3": "day unknown: 'Verkauft'"}


def test_words_beside_a_day_of_the_same_exit(desk: Desk) -> None:
    desk.take(BEGIN + "Abgang;Verkauft am\n" + rows(("1.1.2020;Zoo, Basel", ";2.2.2020"), "3.3.2021;350"))
    assert (reason(desk, "1"), reason(desk, "3")) == (("2020-01-01", "Zoo, Basel"), ("2021-03-03", ""))


@pytest.mark.parametrize(
    "title, day",
    [
        ("Schlachtung", "3.4.2020"), ("Todesdatum", "4.20"), ("Slaughtered", "20200403"), ("Vendu le", "avril 2020"),
        ("Sold", "sold 3.4.2020"),
    ],
)  # fmt: skip
def test_one_day_among_texts(desk: Desk, title: str, day: str) -> None:
    """A column that names exits is read where any of its cells has a day; a year alone may be a price."""
    texts = ";siehe oben", ";350", ";Huber", f";{day}"
    done = desk.take(BEGIN + f"Abgang;{title}\n" + rows(("1.1.2020;", ";"), *texts))
    if day == "4.20":
        assert f"not read: '{title}'" in done.out
    else:
        assert "not read" not in done.out and reason(desk, "6")[0] in ("2020-04-03", "2020-04-30")
        assert {"3", "4", "5"} <= {*exits(desk)}


def test_no_day_at_all(desk: Desk) -> None:
    """A column that names exits and has no day isn't read; it is told, of animals without an exit."""
    texts = "3.3.2021;Metzger", ";Metzger", ";nein", ";unbekannt", ";2000"
    done = desk.take(BEGIN + "Gestorben am;Verkauf\n" + rows(("1.1.2020;", ";350"), *texts))
    done.shows(
        "to look at: the column 'Verkauf' isn't read for exits, since none of its cells has a day, and 3 cells of it say "
        "something of animals that have no exit, the first is '350' in line 3, the others in 5, 8; these animals count as "
        "living: if one left, write the day there"
    )
    assert "not read: 'Verkauf'" in done.out and "tells that an animal left" not in done.told
    done = desk.take(BEGIN + "Gestorben am;Verkauf\n" + rows(("1.1.2020;", ";-"), "3.3.2021;350"), "--book", "two")
    assert "isn't read for exits" not in done.told


def test_exits_of_other_columns(desk: Desk) -> None:
    """A remark on an exit isn't told of an animal that another column than the first has an exit of."""
    cells = ";3.3.2021;;verkauft", ";;Metzger;brav", "4.4.2021;;;verendet", ";;;verendet", ";;;schwarz", ";;;braun"
    done = desk.take(BEGIN + "Gestorben am;Verkauft am;Verkauft an;Bemerkung\n" + rows((";;;brav",) * 2, *cells))
    done.shows(
        "to look at: the column 'Bemerkung' isn't read for exits, and 1 cell of it tells that an animal left which has no "
        "exit: 'verendet' in line 7; the animal counts as living: if it left, enter that in the column for exits"
    )
    assert done.told.count("isn't read for exits") == done.told.count("counts as living") == 2
    assert exits(desk) == {"3": "'Verkauft'", "4": "day unknown: 'verkauft an Metzger'"}


def test_exits_of_the_book(desk: Desk) -> None:
    """Nor is it of one whose exit was filed by hand."""
    sheet = BEGIN + "Gestorben am;Bemerkung\n" + rows(("1.1.2020;", ";"), ";verendet", ";")
    assert "isn't read for exits" in desk.take(sheet).told
    desk.good("exit", "3", "--day", "2020-05-05")
    assert "isn't read for exits" not in desk.take(sheet + CALF_MORE).told and reason(desk, "3")[0] == "2020-05-05"


CALF_MORE = "5;E;w;02.03.2018;2;1;Meier;;\n"


@pytest.mark.parametrize("title, mark", [("lebend", "x"), ("alive", "1"), ("en vie", "X"), ("im Bestand", "ja")])
def test_yes_of_the_living_alone(desk: Desk, title: str, mark: str) -> None:
    """Those of whom such a column says nothing live; it is told of those without an exit."""
    done = desk.take(BEGIN + f"{title}\n" + rows((mark, mark), "", mark, ""))
    done.shows(
        f"to look at: the column '{title}' says '{mark}' of some animals, and nothing of 2 that have no exit, the first in "
        "line 4, the others in 6: they count as living too; if one has left, write no, nein or non there, or the day of its exit"
    )
    assert not exits(desk) and " 5 new" in done.last
    done = desk.take(BEGIN + f"Abgang;{title}\n" + rows((f";{mark}",) * 2, "3.3.2021;", f";{mark}", ";"), "--book", "two")
    assert f"'{mark}' of some animals, and nothing of 1 that has no exit, in line 6: it counts as living too" in done.out
    done = desk.take(BEGIN + f"{title}\n" + rows((mark, mark), "nein", mark, ""), "--book", "three")
    assert "of some animals" not in done.told


def test_codes_of_a_status(desk: Desk) -> None:
    """Codes say nothing by themselves: they are told first, unless somebody says that they tell of no exits."""
    sheet = BEGIN + "Abgang;Status\n" + rows((";L", ";L"), ";T", ";V", "3.3.2021;T")
    done = desk.take(sheet)
    told = (
        "to look at: the column 'Status' isn't read, since nothing says which animals left by its 5 cells: L, T, V; if "
        "they do, write words in place of these, as alive, dead and sold, or lebt, tot and verkauft"
    )
    assert done.out.splitlines()[0] == told and not exits(desk)
    assert told not in desk.take(sheet, "--columns", "status=").out
    words = BEGIN + "Abgang;Status\n" + rows((";lebt", ";lebt"), ";tot", ";lebt", "3.3.2021;")
    assert "since nothing says" not in desk.take(words, "--book", "two").told
    classes = BEGIN + "Abgang;Status\n" + rows((";Klasse A",) * 2, ";Klasse B", ";Klasse A", "3.3.2021;Klasse B")
    assert "since nothing says" not in desk.take(classes, "--book", "three").told


CAUSES = "may say why animals left which have no exit, the first is "


@pytest.mark.parametrize("title", ["Ursache", "Disposal code", "Motif", "Abgangscode", "Code de sortie", "Verbleib"])
def test_codes_of_causes(desk: Desk, title: str) -> None:
    """A column that may say by codes why animals left is told first, with the choices."""
    sheet = BEGIN + f"{title}\n" + rows(("M", ""), "S", "", "M")
    done = desk.take(sheet)
    told = (
        f"to look at: the column '{title}' isn't read for exits, and 3 cells of it {CAUSES}'M' in line 2, the others in 4, "
        "6; these animals count as living: if they left, write words there, as died or sold, verendet or verkauft, mort or vendu"
    )
    assert done.out.splitlines()[0] == told and not exits(desk)
    assert [one.partition("--columns ")[2] for one in done.commands()] == ["exit="]
    assert CAUSES not in desk.typed(done.commands()[0]).out
    words = sheet.replace(";M\n", ";mort\n").replace(";S\n", ";verkauft\n")
    done = desk.take(words, "--columns", f"exit={title}", "--book", "words")
    assert CAUSES not in done.out and " 5 new" in done.last


@pytest.mark.parametrize("title", ["Ursache", "Exit code"])
def test_codes_of_causes_beside_exits(desk: Desk, title: str) -> None:
    """They are told of animals without an exit, and read as the status where that is chosen."""
    sheet = BEGIN + f"Abgang;{title}\n" + rows(("3.3.2021;M", ";"), ";S", ";")
    done = desk.take(sheet)
    done.shows(
        f"to look at: the column '{title}' isn't read for exits, and 1 cell of it may say why an animal left which has no "
        "exit: 'S' in line 4; the animal counts as living: if it left, write a word there, as died or sold, verendet or "
        "verkauft, mort or vendu"
    )
    done = desk.typed(done.commands()[0])
    assert "may say why" not in done.out and "3" in exits(desk)
    full = BEGIN + f"Abgang;{title}\n" + rows(("3.3.2021;M", ";"), "4.4.2021;S", ";")
    assert "may say why" not in desk.take(full, "--book", "full").told


@pytest.mark.parametrize("title, text", [("Ursache", "Kolik"), ("Cause", "liver fluke"), ("Cause", "vieillesse")])
def test_causes_in_words(desk: Desk, title: str, text: str) -> None:
    """Whatever stands there."""
    done = desk.take(BEGIN + f"Abgang;{title}\n" + rows(("3.3.2021;" + text, ";"), f";{text}", ";"))
    assert f"1 cell of it may say why an animal left which has no exit: '{text}' in line 4" in done.out


@pytest.mark.parametrize(
    "title, cells",
    [
        ("Motif", ("P", "T", "P", "P")), ("Grund", ("", "Zuchtwert", "", "")), ("Ursache", ("", "0", "-", "")),
        ("Code", ("", "M", "S", "")),
    ],
)  # fmt: skip
def test_codes_of_something_else(desk: Desk, title: str, cells: tuple[str, str, str, str]) -> None:
    """Patterns of all animals, words that tell of no exit, and codes of another title."""
    assert "to look at" not in desk.take(BEGIN + f"{title}\n" + rows(cells[:2], *cells[2:])).told


@pytest.mark.parametrize("title", ["Disposal reason", "Motif sortie", "Abg.-Grund", "Cause of exit"])
def test_more_titles_of_reasons(desk: Desk, title: str) -> None:
    """All that stands there may tell of exits."""
    done = desk.take(BEGIN + f"{title}\n" + rows(("", ""), "Kolik", ""))
    assert "1 cell of it may say why an animal left which has no exit: 'Kolik' in line 4" in done.out
