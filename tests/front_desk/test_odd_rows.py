"""Rows that aren't animals: sums, and titles that are repeated."""
from __future__ import annotations

import pytest

from front_desk.desk import Desk

LOOK = "to look at: is this row an animal? It "


def test_sums(desk: Desk) -> None:
    """A row that counts or sums up is told, in whatever column its word is; so is one that has an id alone."""
    rows = "Hof;Rex;a;2001-01-01;;\nHof;Count;b;2002-01-01;;\nHof;;c;2003-01-01;;\nHof;;d;2003-01-02;;d 0\n;;D0;;;\n"
    odd = ";;Summe: 4;;;\nGesamt;;4;;;\n;;04;;Anzahl:;\nBöcke;;2;;;\n"
    done = desk.take("Besitzer;Name;id;birth;sire;dam\n" + rows + odd, "--preview")
    alone = "has an id alone, and no animal has it as a parent. It is taken as one"
    beginnings = [
        f"line 7: Summe: 4: {LOOK}is taken as one", f"line 8: 4: {LOOK}is taken as one", f"line 9: 04: {LOOK}is taken as one",
        f"line 10: 2: {LOOK}{alone}",
    ]  # fmt: skip
    told = [line for line in done.out.splitlines() if "is this row an animal" in line]
    assert len(told) == 4 and all(line.startswith(beginning) for line, beginning in zip(told, beginnings)), told
    # a list of ids has no odd rows
    assert "is this row" not in desk.take("id;birth;sire;dam\na;;;\nb;;;\n", "--book", "ids").out


def test_sums_that_are_left_out(desk: Desk) -> None:
    """A row is left out by a word that somebody says, which the book remembers, until it is taken back."""
    sheet = "id;Name;sex;birth;sire;dam\na;Total;f;2001-01-01;;\nb;;m;2001-01-01;;\n9;Total;;;;\nSumme: 2;;;;;\n"
    done = desk.take(sheet)
    assert [line.partition("import ")[2] for line in done.commands()] == [
        "sheet.csv --no-animal Total", "sheet.csv --no-animal Summe"
    ]  # fmt: skip
    desk.good("undo")
    done = desk.take(sheet, "--no-animal", "Total,Summe")
    done.tells(
        (
            "line 4: 9: the row is left out: a row with 'Total' is no animal, as --no-animal says; if it is one, say "
            "--animal Total"
        ),
        "line 5: Summe: 2: the row is left out: a row with 'Summe' is no animal, as --no-animal says; if it is one, "
        "say --animal Summe",
    )
    assert desk.numbers().keys() == {"a", "b"} and "2 left out (2 rows)" in done.last
    done = desk.take(sheet.replace("Summe: 2", "SUMME 3"))
    assert (
        "as last time: --no-animal Total, --no-animal Summe" in done.out and "2 left out (2 rows)" in done.last
    )
    done = desk.take(sheet, "--animal", "Total")
    assert desk.numbers().keys() == {"a", "b", "9"} and "1 left out (1 row)" in done.last
    desk.write("p.txt", "a 0 0\n")
    desk.wrong("are for a sheet", "import", "--pedigree", "p.txt", "--no-animal", "a")


NUMBERED = "id;Name;sex;birth;sire;dam\n1;Ann;f;2001-01-01;;\n2;Ben;m;2001-01-01;;\n"
AFTER_ALL = "the row is taken as an animal: that '307' is none was said of another row, '307 | Kot', and holds no more"


def test_id_that_another_animal_has_later(desk: Desk) -> None:
    """What was said of a row holds for what it said: another animal with that id is one, which is told once."""
    desk.take(NUMBERED + "307;Kot;;;;\n", "--no-animal", "307")
    done = desk.take(NUMBERED + "307;Kot;;;;\n")
    assert "307" not in desk.numbers() and AFTER_ALL not in done.told
    sheet = NUMBERED + "307;Eva;f;2005-02-03;2;1\n"
    done = desk.take(sheet)
    assert f"line 4: 307: to look at: {AFTER_ALL}" in done.out and "307" in desk.numbers()
    assert "--no-animal 307" not in done.out.partition("as at the last time")[2]
    assert AFTER_ALL not in desk.take(sheet).told


def test_animal_that_is_said_to_be_none(desk: Desk) -> None:
    """It stays none as long as its row says the same, and of another one it may be said again."""
    sheet = NUMBERED + "307;Eva;f;2005-02-03;2;1\n"
    desk.take(sheet, "--no-animal", "307")
    assert "307" not in desk.take(sheet).told.partition("--no-animal")[0] and "307" not in desk.numbers()
    desk.take(sheet.replace("Eva", "Fee"), "--no-animal", "307")
    assert "307" not in desk.numbers()


def test_number_of_a_parent(desk: Desk) -> None:
    """Such a word is no number in a cell of another row, as that of a dam."""
    desk.take(NUMBERED + "307;Kot;;;;\n3;Fee;;;2;307\n", "--no-animal", "307")
    assert desk.numbers().keys() >= {"1", "2", "3"}


def test_titles_again(desk: Desk) -> None:
    """A row of titles within the sheet, as at the head of a page."""
    titles = "Ohrmarke;geb.;Vater;Mutter"
    done = desk.take(f"{titles}\na;2001;;\n{titles}\nb;2003;a;\nOhrmarke;2004;a;\n")
    done.shows("line 3: the row is left out: it repeats the titles")
    assert desk.numbers().keys() == {"a", "b", "Ohrmarke"}
    # one of which a cell is written otherwise
    done = desk.take(f"{titles};Abgang;am\na;2001;;;;\n{titles};Exit;am\nb;2003;a;;;\n", "--book", "other")
    done.shows("line 3: the row is left out: it repeats the titles")


FIRST_TITLES = "Ohrmarke;Name;Geschlecht;Geburt;Vater;Mutter;Besitzer;Bemerkung\n"
IN_OTHER_ORDER = "the row is left out: it repeats the titles in another order, by which the rows below it are read"


@pytest.mark.parametrize(
    "titles, row",
    [
        ("Ohrmarke;Besitzer;Geschlecht;Geburt;Vater;Mutter;Name;Bemerkung", "c;Huber;w;3.3.2019;b;a;Cora;"),
        ("Ohrmarke;Name;Geschlecht;Geburt;Mutter;Vater;Besitzer;Bemerkung", "c;Cora;w;3.3.2019;a;b;Huber;"),
        # the ids elsewhere, written otherwise, and one title less
        ("NAME;Ohrmarke;Geschlecht;Geburt;Mutter;Vater;Besitzer", "Cora;c;w;3.3.2019;a;b;Huber"),
        ("Besitzer;Ohrmarke;Name;Geschlecht;Geburt;Vater;Mutter", "Huber;c;Cora;w;3.3.2019;b;a"),
    ],
)  # fmt: skip
def test_titles_in_another_order(desk: Desk, titles: str, row: str) -> None:
    """The rows below them are read by them, until the first ones stand there again."""
    rows = "a;Anna;w;1.3.2015;;;Meier;\nb;Bert;m;2.3.2015;;;Meier;\n"
    done = desk.take(f"{FIRST_TITLES}{rows}{titles}\n{row}\n{FIRST_TITLES}d;Dora;w;4.3.2019;b;a;Huber;\n")
    assert [line for line in done.out.splitlines() if "repeats" in line] == [
        f"line 4: {IN_OTHER_ORDER}", "line 6: the row is left out: it repeats the titles"
    ]  # fmt: skip
    assert ", 2 left out (2 rows), 0 added" in done.last
    kept = [line.split(",")[:7] for line in desk.good("export").out.splitlines()[3:]]
    assert kept == [
        ["c", "Cora", "F", "2019-03-03", "b", "a", "Huber"], ["d", "Dora", "F", "2019-03-04", "b", "a", "Huber"]
    ]  # fmt: skip


def test_titles_in_another_order_with_one_twice(desk: Desk) -> None:
    """Also where two columns have one title."""
    titles = "Ohrmarke;Name;Geburt;Vater;Mutter;Notiz;Notiz\n"
    other = "Ohrmarke;Notiz;Name;Geburt;Mutter;Vater;Notiz\n"
    rows = "a;Anna;1.3.2015;;;x;\nb;Bert;2.3.2015;;;;y\n"
    done = desk.take(f"{titles}{rows}{other}c;x;Cora;3.3.2019;a;b;y\n")
    done.shows(f"line 4: {IN_OTHER_ORDER}")
    assert desk.parents()["c"] == ("b", "a") and desk.born()["c"] == "2019-03-03"


def test_rows_like_titles(desk: Desk) -> None:
    """Some titles in a row, or words that titles are too, are no row of titles; a cell for which there is no title
    isn't lost."""
    rows = "a;Anna;w;1.3.2015;;;Meier;\nb;Bert;m;2.3.2015;;;Meier;\n"
    likely = "Ohrmarke;Besitzer;w;3.3.2019;b;a;Name;", "Chip;Vater;Stute;;;;Besitzer;verkauft"
    for row in (*likely, "c;Geburt;w;;b;a;Tier;Halter"):
        done = desk.take(f"{FIRST_TITLES}{rows}{row}\n", "--preview")
        assert "repeats" not in done.out and " 3 animals" in done.last
    titles = "Ohrmarke;Besitzer;Geschlecht;Geburt;Vater;Mutter;Name"
    done = desk.take(f"{FIRST_TITLES}{rows}{titles}\nc;Huber;w;3.3.2019;b;a;Cora;tot\n")
    done.shows(
        "line 5: c: the row is left out: it has 9 cells, and there are 8 titles: is there one separator too many?"
    )


NOT_AMONG = (
    "line 4: to look at: 'Farbe' stands among these titles, and not among those in line 1: its column isn't read, with "
    "1 cell, 'rot' in line 5; to keep 'Farbe', say --own Farbe=text"
)


@pytest.mark.parametrize(
    "titles, row",
    [
        ("Ohrmarke;Besitzer;Farbe;Geschlecht;Geburt;Mutter;Vater;Name", "c;Huber;rot;w;3.3.2019;a;b;Cora"),
        # it stands first, at the end, or where the first ones have another title
        ("Farbe;Ohrmarke;Name;Geschlecht;Geburt;Vater;Mutter;Besitzer", "rot;c;Cora;w;3.3.2019;b;a;Huber"),
        ("Ohrmarke;Name;Geschlecht;Geburt;Vater;Mutter;Besitzer;Bemerkung;Farbe", "c;Cora;w;3.3.2019;b;a;Huber;;rot"),
        ("Ohrmarke;Name;Geschlecht;Geburt;Vater;Mutter;Besitzer;Farbe", "c;Cora;w;3.3.2019;b;a;Huber;rot"),
    ],
)  # fmt: skip
def test_another_title_below(desk: Desk, titles: str, row: str) -> None:
    """The rows below are read by their own titles, and the one that the first titles lack is told."""
    rows = "a;Anna;w;1.3.2015;;;Meier;\nb;Bert;m;2.3.2015;;;Meier;alt\n"
    sheet = f"{FIRST_TITLES}{rows}{titles}\n{row}\n{FIRST_TITLES}d;Dora;w;4.3.2019;b;a;Huber;neu\n"
    done = desk.take(sheet)
    assert done.report.count(NOT_AMONG) == 1 and "not read: 'Bemerkung', 'Farbe'" in done.out
    assert ", 2 left out (2 rows), 0 added" in done.last
    kept = [line.split(",")[:7] for line in desk.good("export").out.splitlines()[3:]]
    assert kept == [
        ["c", "Cora", "F", "2019-03-03", "b", "a", "Huber"], ["d", "Dora", "F", "2019-03-04", "b", "a", "Huber"]
    ]  # fmt: skip
    done = desk.take(sheet, "--own", "Farbe=text", "--own", "Bemerkung=text")
    assert "'Farbe' stands" not in done.told and "'Farbe' (1 new)" in done.out


def test_titles_for_others(desk: Desk) -> None:
    """A title for what another one of the first titles has is read as that one; a field that these lack is read too."""
    rows = "a;Anna;w;1.3.2015;;;Meier;\nb;Bert;m;2.3.2015;;;Meier;\n"
    titles = "Halter;Abgang;Ohrmarke;Rufname;Geburt;Mutter;Vater;Geschlecht"
    done = desk.take(f"{FIRST_TITLES}{rows}{titles}\nHuber;1.5.2021;c;Cora;3.3.2019;a;b;w\n")
    done.shows(f"line 4: {IN_OTHER_ORDER}, 'Halter' as 'Besitzer', 'Rufname' as 'Name'")
    assert "exit from 'Abgang'" in done.out and "stands among these titles" not in done.told
    assert desk.good("export").out.splitlines()[3].startswith("c,Cora,F,2019-03-03,b,a,Huber,")
    assert "exit          2021-05-01" in desk.good("show", "c").out


def test_cells_above_titles_below(desk: Desk) -> None:
    """A row above with a cell too many is left out as before."""
    titles, rows = "Ohrmarke;Geburt;Vater;Mutter", "a;1.3.2015;;\nb;2.3.2015;;;x\n"
    done = desk.take(f"{titles}\n{rows}{titles};Farbe\nc;3.3.2019;;a;rot\n")
    done.tells(
        "line 3: b: the row is left out: it has 6 cells, and there are 5 titles: is there one separator too many?",
        NOT_AMONG,
    )
    assert desk.parents() == {"a": ("", ""), "c": ("", "a")}


def test_more_titles_below(desk: Desk) -> None:
    """The first row of titles is that above the animals, though a later one has more titles."""
    titles = "Ohrmarke;Geburt;Vater;Mutter"
    done = desk.take(f"{titles}\na;1.3.2015;;\nb;2.3.2015;;\n{titles};Name;Besitzer\nc;3.3.2019;;a;Cora;Huber\n")
    assert desk.parents().keys() == {"a", "b", "c"} and "name from 'Name'" in done.out


def test_sum_beside_a_number(desk: Desk) -> None:
    """A row that sums up in its name, and has a number as its id, is told with the word that leaves it out; a founder
    whose name begins so isn't where its row has a sex or an owner."""
    rows = "1;Max;m;01.02.2010;;;\n2;Count B;;;;;Huber\n3;Total Eclipse;w;;;;\n4;Ada;w;3.2.2013;1;2;\n31;Total Tiere;;;;;\n"
    sheet = "Nr.;Name;Geschlecht;geb;Vater;Mutter;Besitzer\n" + rows
    done = desk.take(sheet, "--preview")
    assert [line.split(":")[0] for line in done.out.splitlines() if LOOK in line] == ["line 6"]
    assert any("--no-animal 'Total Tiere'" in command for command in done.commands())
    desk.take(sheet, "--no-animal", "Total Tiere")
    assert sorted(row["id"] for row in desk.ids()) == ["1", "2", "3", "4"]


LEFT_OUT = {
    "used again": "2;Zoe †;f;2024-03-12;;;Meier;sold 2025", "sex unread": "9;Zoe †;q;2024-03-12;;;Meier;sold? 2025",
}  # fmt: skip


@pytest.mark.parametrize("row", LEFT_OUT.values(), ids=LEFT_OUT)
def test_nothing_besides_a_row_that_is_left_out(desk: Desk, row: str) -> None:
    """No cell of it is told as read, or as what is to be written otherwise."""
    titles = "id;Name;sex;birth;sire;dam;Owner;Exit\n"
    done = desk.take(titles + f"1;Ann;f;2001-01-01;;;Meier;\n2;Ben;m;2001-01-01;;;Meier;2003-05-06\n{row}\n", "--preview")
    told = [line for line in done.out.splitlines() if line.startswith("line 4")]
    assert told and all("left out" in line for line in told), told
