"""Titles of columns, and obstacles that are told together."""
from __future__ import annotations

import pytest

from front_desk.desk import Desk

SHEETS = {
    "dogs": (
        "Reg. No.;Registered Name;Sex;Whelped;Sire Reg.;Dam Reg.;Status\n"
        "KC1;Rex;dog;08 January 2005;;;alive\nKC2;Bella;bitch;09 January 2005;;;dead\n"
        "KC3;Max;dog;10 January 2008;KC1;KC2;alive\n"
    ),
    "litters": "Registered Name;Sex;DOB;Dog;Bitch\nKC1;m;2005-01-08;;\nKC2;f;2005-01-09;;\nKC3;m;2008-01-10;KC1;KC2\n",
    "sheep": (
        "Tag;Geschlecht;Lammdatum;Vater;Mutter;Verbleib\nKC1;Bock;08.01.2005;;;im Bestand\n"
        "KC2;Aue;09.01.2005;;;verkauft 2010\nKC3;Bock;10.01.2008;KC1;KC2;\n"
    ),
    "horses": (
        "UELN;Nom du cheval;Sexe;Né le;Père;Mère;Devenir\nKC1;Éole;étalon;08/01/2005;;;en vie\n"
        "KC2;Brise;jument;09/01/2005;;;\nKC3;Noé;hongre;10/01/2008;KC1;KC2;vendu le 13/02/2012\n"
    ),
    "brackets": (
        "Tattoo No.;Geschlecht (m/w);Date born;Vater (LNr.);Mère (SIRE);Current owner;Date "
        "left\nKC1;m;2005-01-08;;;Groß;\nKC2;w;2005-01-09;;;Groß;\nKC3;m;2008-01-10;KC1;KC2;Groß;2012-01-01\n"
    ),
    "names of parents": (
        "Nr;Hund;Sex;geb.;Name Vater;Name "
        "Mutter\n1;KC1;m;2005-01-08;;\n2;KC2;f;2005-01-09;;\n3;KC3;m;2008-01-10;KC1;KC2\n"
    ),
}


# no id is guessed from names
SAID = {"litters": ["--columns", "id=Registered Name"]}


@pytest.mark.parametrize("kind", SHEETS)
def test_titles(desk: Desk, kind: str) -> None:
    desk.take(SHEETS[kind], *SAID.get(kind, []))
    ids = ("1", "2", "3") if kind == "names of parents" else ("KC1", "KC2", "KC3")
    assert desk.parents()[ids[2]] == ids[:2]
    assert desk.born()[ids[2]] == "2008-01-10"


@pytest.mark.parametrize(
    "title",
    ["KC Reg. No.", "KC Reg No", "KC Number", "KC No.", "KC Registration Number", "KC Registered No.", "AKC Reg"],
)
def test_ids_of_a_club(desk: Desk, title: str) -> None:
    """They are the ids, also beside numbers of chips that not all animals have."""
    rows = "T1;Foo;m;1996-05-13;;;\nAB2;Bar;f;2006-05-14;;;981020001544265\n"
    rows += "AD4;Qux;f;2008-07-23;Foo;Bar;981020001544267\n"
    desk.take(f"{title};Registered Name;Sex;Whelped;Sire;Dam;Microchip\n{rows}")
    assert desk.parents() == {"T1": ("", ""), "AB2": ("", ""), "AD4": ("T1", "AB2")}


@pytest.mark.parametrize("title", ["Name d. Mutter", "Rufname Mutter", "M-Name", "Name der Mutter"])
def test_names_of_parents_beside(desk: Desk, title: str) -> None:
    """A name beside the id of a parent that is another one's is told, and each line without an id."""
    rows = "a1;Rosl;w;2015-03-02;;;\na2;Ute;w;2015-03-02;;;\na3;K;w;2021-03-02;;a1;Rosl\na4;Kitz;w;2022-03-02;;a1;Ute\n"
    rows += "a5;L;w;2021-03-02;;;Rosl\na6;M;w;2021-03-02;;;Ute\na7;N;w;2021-03-02;;;Ute\n"
    done = desk.take(f"Ohrmarke;Name;Geschlecht;geb;Vater;Mutter;{title}\n{rows}")
    done.tells(
        f"line 5: a4: to look at: its dam a1 is 'Rosl', and '{title}' has 'Ute', which is a2: a1 is taken; if another "
        f"is "
        "meant, write the id of that one",
        f"to look at: 3 rows have nothing in 'Mutter', and a parent in '{title}', which isn't read, the first 'Rosl' "
        f"in line "
        "6, the others in 7, 8: these parents count as unknown; enter them in 'Mutter'",
    )


PARENTS = [
    "Boar;Boar Tag;Sow;Sow Tag", "Boar Name;Boar No;Sow Name;Sow No", "Eber;Eber-Nr.;Sau;Sau-Nr.",
    "Bockname;Bock;Ziegenname;Ziege", "Nom du bouc;N° bouc;Chèvre;N° de la chèvre", "Ram;Ram Tag;Dam;Dam Tag",
]  # fmt: skip


@pytest.mark.parametrize("titles", PARENTS)
def test_parents_by_words_for_sexes(desk: Desk, titles: str) -> None:
    """They are read, and told where a name stands beside, as where a parent's word is the title; so are they later."""
    rows = "A1;Pat;M;2015-03-03;;;;\nA2;Lady;F;2015-03-04;;;;\nA3;Ruby;F;2017-03-03;Pat;A1;Lady;A2\n"
    rows += "A4;Daisy;F;2018-03-03;Pat;A1;Lady;A2\nA5;Mab;F;2018-03-05;Rex;;Lady;\n"
    rows += "A6;Glo;F;2019-03-03;Ruby;A1;Lady;A2\n"
    sire, of_sire, dam, of_dam = titles.split(";")
    for _ in range(2):
        done = desk.take(f"Id;Name;Sex;Birth;{titles}\n{rows}")
        told = [f"nothing in '{of_sire}', and 'Rex' in '{sire}'", f"nothing in '{of_dam}', and 'Lady' in '{dam}'"]
        assert all(one in done.told for one in told) and "as last time, and" not in done.told
        told = [line for line in done.report if f"its sire A1 is 'Pat', and '{sire}' has 'Ruby', which is A3" in line]
        assert len(told) == 1 and desk.parents()["A4"] == desk.parents()["A6"] == ("A1", "A2")


@pytest.mark.parametrize(
    "sheet",
    [
        "Matricule;Chèvre;Né le;Père;Mère\nA1;Pat;2015;;\nA2;Lady;2015;;\nA3;Ruby;2017;A1;A2\nA4;Mab;2018;A1;A2\n",
        "Id;Widder;Aue;Birth;Vater;Mutter\nA1;x;;2015;;\nA2;;x;2015;;\nA3;;x;2017;A1;A2\nA4;;x;2018;A1;A2\n",
    ],
)
def test_words_for_sexes_that_are_no_parents(desk: Desk, sheet: str) -> None:
    """The animals themselves, and marks of their sexes, are none, nor is anything told of them."""
    assert "nothing in '" not in desk.take(sheet).told and desk.parents()["A4"] == ("A1", "A2")


def test_name_of_an_owner(desk: Desk) -> None:
    """A title that says whose name a column has is one of owners, beside that of the animals' names."""
    desk.take("id;Name;Name des Besitzers;birth;sire;dam\na;Alma;Huber;2001;;\nb;;Meier;2002;;\n")
    assert [(row["name"], row["owner"]) for row in desk.listed("list", "--columns", "name,owner")] == [
        ("Alma", "Huber"), ("", "Meier"),
    ]  # fmt: skip


def test_status_of_something_else(desk: Desk) -> None:
    """A column `Status` whose cells tell of no exit isn't read."""
    done = desk.take("id;birth;sire;dam;Status\na;2001;;;Herdbuch A\nb;2002;;;Herdbuch B\nc;2003;;;verkauft\n")
    assert "the column 'Status' isn't read, since most of its cells tell of no exit" in done.out
    assert "not read: 'Status'" in done.out


def test_title_twice(desk: Desk) -> None:
    done = desk.take("id;birth;sire;dam;Sire\na;2001;;;\nb;2004;a;;x\n")
    assert "the title 'sire' stands in the columns 3 and 5, with other cells: only the first can be read" in done.out


def test_obstacles_together(desk: Desk) -> None:
    """A title that is missing, a number that was cut, a column that can't be read and months that come first."""
    rows = "".join(f"a{at};q;03/25/2001;;sold\n" for at in range(3))
    sheet = desk.write("sheet.csv", f"id;sex;birth;sire;exit\n{rows}b;F;2004-01-01;2,76E+14;\n")
    done = desk.wrong("line 1: no column for dam is found", "import", sheet)
    told = done.err.partition("gudokeyi: nothing is taken")[0].splitlines()
    assert len(told) == 4
    assert any("line 2: a0: birth day: '03/25/2001' has the month first (3 such days)" in one for one in told)
    assert any("'2,76E+14' is a long number that the spreadsheet has cut" in one for one in told)
    assert any("3 of 4 cells that say something in the column 'sex' can't be read" in one for one in told)


def test_titles_of_two_lines(desk: Desk) -> None:
    """A column whose lower title says nothing is what the upper one says, as of exits, also in the next sheet."""
    above = "Zuchtverein;;;;;;\nTier;;;Abstammung;;Abgang;Halter\n"
    rows = "a;m;01.02.2001;;;verkauft 01.02.2011;Huber\nb;w;01.02.2001;;;;Meier\nc;w;01.02.2004;a;b;;Meier\n"
    sheet = f"{above}Ohrmarke;Geschl.;geb.;Vater;Mutter;am/wie;{{}}\n{rows}"
    done = desk.take(sheet.format("Hof/Ort"))
    assert "owner from 'Hof/Ort', exit from 'am/wie'" in done.out
    assert sum(line.startswith("exit,") for line in desk.commands()) == 1
    assert " 0 changed" in desk.take(sheet.format("Hof/Ort")).last
    # of two columns with one title nothing is guessed, nor where the lower title is one that is known
    other = desk.take(sheet.format("am/wie"), "--book", "other")
    assert "owner from" not in other.out and "exit from" not in other.out
    assert "owner from" not in desk.take(sheet.format("Rufname"), "--book", "third").out


def test_rows_as_a_spreadsheet_counts_them(desk: Desk) -> None:
    """Titles and cells of several lines, and empty rows, are a row each."""
    sheet = 'id,sex,"date of\nbirth",sire,dam,"note\non it"\na,M,2001-01-01,,,"one\ntwo\nthree"\n\nb,,2002-01-01,b,,\n'
    desk.take(sheet).tells("line 4: b: its sire b is left out: b would be its own ancestor (b > b)")


# -- titles in two lines

IN_TWO_LINES = "Tier;;;;{};;{};;{};\nNr;Name;Geschlecht;geb.;Nr;Name;Nr;Name;Name;Ort\n"
IN_TWO_LINES += "101;Max;m;13.4.2019;;;;;Huber;Wien\n102;Lena;w;14.4.2019;;;;;Huber;Linz\n"
IN_TWO_LINES += "103;Mona;w;15.5.2020;101;Max;102;Lena;Mayr;Linz\n"


@pytest.mark.parametrize("upper", [("Vater", "Mutter", "Halter"), ("Sire", "Dam", "Owner")])
def test_titles_in_two_lines(desk: Desk, upper: tuple[str, str, str]) -> None:
    """Those of parents and owners stand above what is said of them."""
    for new in 3, 0:
        done = desk.take(IN_TWO_LINES.format(*upper))
        assert "the titles stand in two lines: 'Nr', 'Name'" in done.told and "title 'Name' stands" not in done.told
        assert f" {new} new, 0 changed" in done.last and desk.parents()["103"] == ("101", "102")
        assert [row["owner"] for row in desk.listed("list", "--columns", "owner")] == ["Huber", "Huber", "Mayr"]


def test_line_above_the_titles(desk: Desk) -> None:
    """An owner who is named above the only column of names is none of its title."""
    done = desk.take("Besitzer;Huber;;;;\nName;Nr;Geschlecht;geb.;Vater;Mutter\nMax;101;m;13.4.2019;;\n")
    assert "two lines" not in done.told and "name from 'Name'" in done.out
