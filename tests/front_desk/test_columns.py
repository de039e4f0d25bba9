"""Which column has the ids, the parents or anything else: by its title, its cells and what the book remembers."""
from __future__ import annotations

import pytest

from front_desk.desk import CALLED, Desk

FLOCK = [("DE01", "276001", "", ""), ("DE02", "276002", "", ""), ("DE03", "276003", "DE01", "DE02"),
         ("DE04", "276004", "DE01", "DE03")]  # fmt: skip


def sheet_of(titles: str, *columns: int) -> str:
    """A sheet of the flock: the columns are row numbers (0), tags (1), national numbers (2)."""
    rows = [
        ";".join([*((str(at), tag, national)[column] for column in columns), f"200{at}-01-01", sire, dam])
        for at, (tag, national, sire, dam) in enumerate(FLOCK, 1)
    ]
    return f"{titles};Geburtsdatum;Vater;Mutter\n" + "\n".join(rows) + "\n"


@pytest.mark.parametrize(
    ("titles", "columns"),
    [("Nr;Ohrmarke", (0, 1)), ("Ohrmarke;Lebensnummer", (2, 1)), ("Nr;Kürzel", (0, 1)), ("LOM;Nr;Kürzel", (2, 0, 1))],
)
def test_ids_are_where_parents_are_found(desk: Desk, titles: str, columns: tuple[int, ...]) -> None:
    desk.take(sheet_of(titles, *columns))
    assert desk.numbers().keys() == {"DE01", "DE02", "DE03", "DE04"}


def test_further_column_of_ids(desk: Desk) -> None:
    """Which column has the ids is remembered, and seen in its cells where its title is another."""
    desk.take(sheet_of("Lebensnummer", 1))
    before = desk.numbers()
    sheets = (
        ("Ohrmarke;Lebensnummer", (2, 1)),
        ("Lebensnummer;Ohrmarke", (2, 1)),
        ("Tag;Ohrmarke", (1, 2)),
        ("Nr;LOM", (0, 1)),
    )
    for titles, columns in sheets:
        done = desk.take(sheet_of(titles, *columns))
        assert desk.numbers() == before, titles
        assert " 0 new, 0 changed" in done.last
    assert "the ids of the book are in the column 'LOM': they were in 'Tag'" in done.out


def test_ids_of_french_horses(desk: Desk) -> None:
    """Their number is called `SIRE`, as in the first sheet so in all later ones."""
    desk.take(sheet_of("SIRE", 1))
    before = desk.numbers()
    done = desk.take(sheet_of("SIRE", 1) + "DE05;2005-01-01;DE01;DE02\n")
    assert " 1 new" in done.last and before.items() <= desk.numbers().items()
    assert desk.parents()["DE05"] == ("DE01", "DE02")


def test_likelier_column_comes_later(desk: Desk) -> None:
    """What the book remembers of the other columns is used again, and a likelier one is told."""
    desk.take("id;birth;sire;dam;Abgang\na;2001-01-01;;;01.02.2010\n")
    done = desk.take("id;birth;sire;dam;Abgangsdatum;Abgang\na;2001-01-01;;;;01.02.2010\n")
    done.shows("to look at: exit is read from 'Abgang', as last time, and 'Abgangsdatum' isn't")
    assert done.commands() == [f"{CALLED} import sheet.csv --columns exit=Abgangsdatum"]
    assert sum(line.startswith("exit") for line in desk.commands()) == 1
    desk.typed(done.commands()[0])
    assert "and 'Abgang' isn't" not in desk.take("id;birth;sire;dam;Abgangsdatum;Abgang\na;2001-01-01;;;;\n").out


def test_column_that_is_lost(desk: Desk) -> None:
    """A column of the last sheet that isn't found is told, with the one that may be it, until it is said that there is
    none."""
    desk.take("id;birth;sire;dam;owner;sex\na;2001-01-01;;;Groß;f\n")
    now = "id;birth;sire;dam;Owner or breeder;Nature\na;2001-01-01;;;Weiß;f\n"
    for _ in range(2):
        done = desk.take(now)
        done.shows(
            "to look at: no column for owner is found: last time it was 'owner'; the book keeps what it has",
            "to look at: no column for sex is found: last time it was 'sex'; the book keeps what it has",
        )
        assert [one.partition("--columns ")[2] for one in done.commands()] == [
            "sex=Nature", "sex=", "'owner=Owner or breeder'", "owner=",
        ]  # fmt: skip
    # a title with a wrong letter, which nothing else tells of
    misspelt = desk.take(now.replace("Owner or breeder", "ownre"))
    assert [one.partition("--columns ")[2] for one in misspelt.commands()][2:] == ["owner=ownre", "owner="]
    for words in ("--columns", "owner="), ():
        assert "for owner is found" not in desk.take(now, *words).out
    done = desk.typed(done.commands()[2])
    assert "changed: owner 1" in done.out and "for owner is found" not in done.out


def test_columns_of_parents(desk: Desk) -> None:
    """Of two columns for a parent the one that has ids is read; ids in the usual column aren't given up for a few more
    cells that are found in another."""
    desk.take("Ohrmarke;birth;Vater Nr;Vater;Mutter\nA1;2001;;;\nA2;2002;;;\nA3;2004;7;A1;A2\n")
    assert desk.parents()["A3"] == ("A1", "A2")
    rows = "1;A;2001;;\n2;B;2002;;\n3;C;2004;1;2\n4;D;2004;A;B\n5;E;2004;A;\n"
    desk.take("id;Code;birth;sire;dam\n" + rows, "--book", "few")
    assert {"1", "2", "3", "4", "5"} <= {row["id"] for row in desk.table("few/ids.csv")}


def test_columns_that_may_be_meant(desk: Desk) -> None:
    """Of an unknown sheet the ids are all different, parents are ids, and most cells of birth days are days."""
    rows = "b;a;x;2001;;\na;b;2004;2002;;\nd;c;y;2004-05-06;a;b\nd;d;z;2005;a;b\n"
    sheet = desk.write("sheet.csv", f"Gruppe;Marke;Note;gz, neu;V1;M1\n{rows}")
    done = desk.wrong("no column for id or birth or sire or dam is found", "import", sheet)
    assert len(done.commands()) == 1
    read = "columns: id from 'Marke', birth from 'gz, neu', sire from 'V1', dam from 'M1'; not read: 'Gruppe', 'Note'"
    assert read in desk.typed(done.commands()[0]).out
    # one day of three cells is that of a note
    without = rows.replace("2001", "u").replace("2002", "v").replace("2004-05-06", "w").replace("2005", "z")
    other = desk.write("other.csv", "Gruppe;id;Note;g;sire;dam\n" + without)
    done = desk.wrong("no column for birth", "import", other, "--book", "other")
    assert [one.partition("--columns ")[2] for one in done.commands()] == ["birth="]


def test_ids_that_count_rows(desk: Desk) -> None:
    """Where no parent shows which column has the ids, and another one may have them."""
    done = desk.take("Nr;Kürzel;birth;sire;dam\n1;DE4;2001-01-01;;\n2;DE3;2002-01-01;;\n3;DE9;2003-01-01;;\n")
    done.shows(
        "to look at: the ids are read from 'Nr', which only counts the rows: in a list that is sorted differently each "
        "number would be another animal's"
    )
    desk.write("sheet.csv", "Nr;Kürzel;birth;sire;dam\n1;DE4;2001-01-01;;\n2;DE3;2002-01-01;;\n")
    assert "only counts the rows" not in desk.typed(done.commands()[0].replace("import", "take --book other")).out
    rows = "1;x;2001;;\n2;y;2002;;\n3;z;2004;1;2\n"
    assert "only counts the rows" not in desk.take("Nr;Kürzel;birth;sire;dam\n" + rows, "--book", "numbers").out
    # nor is another column that counts them, or that has empty cells, better
    rows = "1;1;x;2001;;\n2;2;;2002;;\n3;3;z;2004;;\n"
    assert "only counts the rows" not in desk.take("Nr;Zeile;Kürzel;birth;sire;dam\n" + rows, "--book", "counted").out
    # ids that are sorted don't count rows
    desk.take("Tag;Ohrmarke;birth;sire;dam\n101;x;2001;;\n105;y;2002;;\n109;z;2003;;\n", "--book", "sorted")
    assert {row["id"] for row in desk.table("sorted/ids.csv")} == {"101", "105", "109"}


def test_column_without_cells(desk: Desk) -> None:
    """Of two columns with usual titles one that has nothing is read last."""
    desk.take("id;birth;sire;dam;Name;Dog Name\na;2001-01-01;;;;Bonny\n")
    assert desk.table("book/ids.csv")[0]["name"] == "Bonny"


@pytest.mark.parametrize("count", [5, 6])
def test_sires_in_the_column_of_dams(desk: Desk, count: int) -> None:
    rows = "s;m;2001-01-01;;\nd;f;2001-01-01;;\n" + "".join(f"c{at};f;2004-01-01;d;\n" for at in range(count))
    rows += "".join(f"e{at};f;2004-01-01;s;\n" for at in range(4))
    done = desk.take("id;sex;birth;Vater;Mutter\n" + rows)
    told = f"to look at: {count} of {count + 4} parents are left out for their sex: are the sires in 'Mutter', and the dams in 'Vater'?"
    assert (told in done.out.splitlines()) == (count == 6)
    if count == 6:
        # the other way about it is one animal's sex that its offspring speak against
        assert " 11 changed, 0 inferred, 0 left out" in desk.typed(done.commands()[0]).last
