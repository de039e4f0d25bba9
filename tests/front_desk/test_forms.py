"""Forms of sheets: encodings, separators, titles, dates, numbers and words."""
from __future__ import annotations

import datetime

import openpyxl
import pytest

from front_desk.desk import CALLED, Desk, NewDesk


GERMAN_TITLES = "Ohrmarke;Rufname;Geschlecht;geb. am;Vater;Mutter;Eigentümer;Abgangsdatum"
COMPOUND_TITLES = "LOM;Tiername;Geschl.;Geb.datum;Ohrmarke des Vaters;LOM Mutter;Halter;Todesdatum"
GERMAN = (
    f"{GERMAN_TITLES}\r\nK1;Süße;w;01.03.2001;;;Groß;\r\nB2;Rößl;m;2. 4. 2001 00:00;-;unbekannt;Groß;\r\n"
    "K3;;w;2003-05-06T07:08:09;B2;K1;Weiß;05.2004\r\n"
)
FRENCH = (
    "numéro\tnom\tsexe\tnaissance\tpère\tmère\tpropriétaire\tsortie\n"
    "K1\tSüße\tfemelle\t01/03/2001\t\t\tGroß\t\nB2\tRößl\tmâle\t02/04/2001\tinconnu\t\tGroß\t\n"
    "K3\t\tvache\t2003-05-06\tB2\tK1\tWeiß\t2004-05\n"
)
ENGLISH = (
    "owner,dam,sire,date of birth,sex,name,ear tag,left\nGroß,,,2001-03-01,female,Süße,K1,\n"
    "Groß,,unknown,2001-04-02 10:00,bull,Rößl,B2,\nWeiß,K1,B2,2003-05-06,cow,,K3,2004-05\n"
)
ODD = (
    "Tag,x,Called,S,B,P1,P2,O,E\nK1,,Süße,F,2001-03-01,?,?,Groß,\nB2,,Rößl,M,2001-04-02,?,fremd,Groß,\n"
    "K3,,,F,2003-05-06,B2,K1,Weiß,2004-05\n"
)
ODD_COLUMNS = ["--columns=name=Called,sex=S,birth=B,sire=P1,dam=P2", "--columns", "owner=O,exit=E,id=Tag"]
# the same animals in other encodings, separators, titles and dates
SHEETS: dict[str, bytes] = {
    "utf8": GERMAN.encode(),
    "bom": b"\xef\xbb\xbf" + GERMAN.encode(),
    "windows": GERMAN.encode("cp1252"),
    "tabs": FRENCH.encode("cp1252"),
    "utf16": FRENCH.encode("utf-16"),
    "commas": ENGLISH.encode(),
    "compound": GERMAN.replace(GERMAN_TITLES, COMPOUND_TITLES).encode(),
    "heading": ("Zuchtverein Süd, Stand 2020\r\n;;;\r\n" + GERMAN).encode(),
    "named": b"sep=;\r\n" + GERMAN.encode(),
    "odd": ODD.encode(),
    "blank": GERMAN.replace("\r\nB2", "\r\n;;;;;;;\r\n\r\nB2").encode(),
}

# commands, ids and owners
Book = tuple[list[str], list[dict[str, str]], list[tuple[int, str]]]


def book_of(desk: Desk) -> Book:
    return desk.commands(), desk.ids(), desk.owners()


@pytest.fixture
def first_book(new_desk: NewDesk) -> Book:
    """The book of the first of these sheets."""
    desk = new_desk()
    desk.take(SHEETS["utf8"])
    return book_of(desk)


@pytest.mark.parametrize("form", SHEETS)
def test_forms(desk: Desk, first_book: Book, form: str) -> None:
    """Each form of the sheet gives the same book."""
    done = desk.take(SHEETS[form], *([*ODD_COLUMNS, "--unknown", "Fremd,weg"] if form == "odd" else []))
    assert book_of(desk) == first_book
    assert "3 animals, 3 new, 0 changed, 1 inferred, 0 left out" in done.last


def test_book_of_the_forms(first_book: Book) -> None:
    commands, _, owners = first_book
    assert commands[-1].startswith("exit,HOLGBRF000000000003,2004-05-31")
    assert [row[1] for row in owners] == ["Groß", "Weiß"]


def test_days_beside_words(desk: Desk) -> None:
    """Where a sheet has both a column of days and one of words, the one of days is read."""
    done = desk.take(
        "Ohrmarke;Geburt;Geburtsdatum;Vater;Mutter;Abgang;Abgangsdatum\n"
        "K1;Zwilling;01.03.2001;;;verkauft;02.04.2005\nK2;einzeln;02.03.2001;;;;\n"
    )
    done.tells(
        "columns: id from 'Ohrmarke', birth from 'Geburtsdatum', sire from 'Vater', dam from 'Mutter', exit "
        "from 'Abgangsdatum'; not read: 'Geburt', 'Abgang'"
    )
    assert desk.born() == {"K1": "2001-03-01", "K2": "2001-03-02"}
    assert desk.commands()[-1].startswith("exit,HOLGBRF000000000001,2005-04-02,")


@pytest.mark.parametrize(("exits", "deaths"), [
    ("Abgang", "Todesdatum"), ("abgegangen", "gestorben am"), ("left", "date of death"), ("sortie", "mort le"),
    ("departure", "date de décès"), ("exit", "died"), ("date de sortie", "date de décès"),
])  # fmt: skip
def test_exits_before_deaths(desk: Desk, exits: str, deaths: str) -> None:
    """A column of all exits is read before one of deaths."""
    desk.take(
        f"id;birth;sire;dam;{deaths};{exits}\nsold;2001-03-01;;;;2005-04-02\n"
        "dead;2001-03-02;;;2006-05-03;2006-05-03\nlives;2001-03-03;;;;\n"
    )
    days = [line.split(",")[2] for line in desk.commands() if line.startswith("exit")]
    assert days == ["2005-04-02", "2006-05-03"]


def save_workbook(desk: Desk, cells: list[list[object]]) -> None:
    """Writes `sheet.xlsx`."""
    book = openpyxl.Workbook()
    for row in cells:
        book.active.append(row)
    book.save(desk.room / "sheet.xlsx")


def test_workbook(desk: Desk, first_book: Book) -> None:
    """An `.xlsx` file gives the same book; days are days, numbers are numbers, and a row may be empty."""
    save_workbook(desk, [
        ["Ohrmarke", "Rufname", "Geschlecht", "geb. am", "Vater", "Mutter", "Eigentümer", "Abgangsdatum"],
        ["K1", "Süße", "w", datetime.datetime(2001, 3, 1), None, None, "Groß", None],
        ["B2", "Rößl", "m", "02.04.2001", "-", None, "Groß", None], [None] * 8,
        ["K3", None, "w", datetime.date(2003, 5, 6), "B2", "K1", "Weiß", "05.2004"],
    ])  # fmt: skip
    desk.good("import", "sheet.xlsx")
    assert book_of(desk) == first_book


def test_workbook_of_numbers(desk: Desk) -> None:
    save_workbook(desk, [
        ["Ohrmarke", "Name", "Geschlecht", "geb. am", "Vater", "Mutter", "Abgang", "ET"],
        [276001234567801, "Bärbel", "Aue", datetime.datetime(2001, 3, 1, 12, 30), None, "#N/A"],
        [276001234567802.0, "Löwe", "Bock", 2001, 0, None], [],
        [276001234567803, None, "w", 3.2004, 276001234567802, 276001234567801.0, 2009, True],
        [17, None, "w", 37800, None, None],
    ])  # fmt: skip
    done = desk.good("import", "sheet.xlsx")
    assert desk.parents()["276001234567803"] == ("276001234567802", "276001234567801")
    days = {"276001234567801": "2001-03-01", "276001234567802": "2001-07-02", "276001234567803": "2004-03-16"}
    assert desk.born() == days | {"17": "2003-06-28"}
    assert " 3 inferred, 1 left out (1 cell), 0 added" in done.last
    # a calf from a stored embryo
    assert any(line.endswith(",1") for line in desk.commands())


def test_broken_workbook(desk: Desk) -> None:
    """A file that openpyxl can't read, for whatever reason."""
    desk.begins_anew = True
    (desk.room / "openpyxl/reader").mkdir(parents=True)
    desk.write("openpyxl/__init__.py", "def load_workbook(*_, **__): raise KeyError('no workbook')")
    sheet = desk.write("broken.xlsx", b"PK\3\4")
    # one that lacks a part of its own, that fails at once, and that fails later
    desk.wrong("broken.xlsx can't be read as an .xlsx file", "import", sheet)
    desk.write("openpyxl/reader/excel.py", "def ExcelReader(*_, **__): raise KeyError('no reader')")
    desk.wrong("broken.xlsx can't be read as an .xlsx file ('no reader')", "import", sheet)
    desk.write("openpyxl/reader/excel.py", """\
        class ExcelReader:
            def __init__(self, *_, **__): self.parser = self
            def read_manifest(self): pass
            def read_workbook(self): pass
            def find_sheets(self): return []
        """)
    desk.wrong("broken.xlsx can't be read as an .xlsx file ('no workbook')", "import", sheet)


def test_numbers_of_others(desk: Desk) -> None:
    """Breed and country of the numbers, which stay those of the book."""
    done = desk.take("id,born,sire,dam\na,2001,,\n", "--breed", "AYR", "--country", "NOR")
    assert "sheet.csv: 1 row below" in done.out
    assert done.last.startswith("book: 1 animal, 1 new, ")
    desk.take("id,born,sire,dam\na,2001,,\nb,2002,a,\n")
    assert list(desk.numbers().values()) == ["AYRNORM000000000001", "AYRNORF000000000002"]


def test_lines_and_cells(desk: Desk) -> None:
    """A cell may have a line's end, by which no row is counted, and `="007"` keeps its zeros; a cell without a title
    costs its row."""
    done = desk.take('id;birth;sire;dam\n="007";2001;;;\na;"2003\n";007;;\nb;x;;;\nc;2002;;;x\nd;2002;;;\n')
    done.tells(
        "line 4: b: its birth day is left out: 'x' is no day: write it as 2001-03-01 or 01.03.2001, or 03.2001 or 2001 alone",
        "line 5: c: the row is left out: it has 5 cells, and there are 4 titles: is there one separator too many?",
    )
    assert desk.parents() == {"007": ("", ""), "a": ("007", ""), "b": ("", ""), "d": ("", "")}


def test_words_that_mean_two_sexes(desk: Desk) -> None:
    done = desk.take("id;sex;birth;sire;dam\n1;Bock;2001;;\n2;brebis;2001;;\n3;B;2001;;\n4;Bock/Aue;2001;;\n")
    assert (
        "2 of 4 cells that say something in the column 'sex' can't be read, the first in line 4: 'B', 'Bock/Aue'"
        in done.out
    )


MALES = "Bock,Hengst,Bulle,Stier,Widder,bélier,taureau,étalon,bouc,männl.,m,M.,Zuchtbock,ram,tup,bull"
FEMALES = "Aue,Mutter,Stute,Kuh,Färse,Kalbin,brebis,vache,jument,chèvre,génisse,weibl.,w,W.,Mutterschaf,ewe,heifer,Geiß"


def test_words_for_sexes(desk: Desk) -> None:
    words = [(word, "M") for word in MALES.split(",")] + [(word, "F") for word in FEMALES.split(",")]
    desk.take(
        "id,sex,born,sire,dam\n" + "".join(f"{at},{word},2001-01-01,,\n" for at, (word, _) in enumerate(words, 1))
    )
    found = {id: number[6] for id, number in desk.numbers().items()}
    for at, (word, sex) in enumerate(words, 1):
        assert found[str(at)] == sex, word


def test_named_words_for_sexes(desk: Desk) -> None:
    """Words that aren't known are told, and taken once they are named."""
    sheet = desk.write(
        "own.csv", "id,sex,born,sire,dam\n1,Bk,2001,,\n2,Schf,2001,,\n3,Schf,2001,,\n4,0,2001,,\n5,f,2001,,\n"
    )
    told = (
        "3 of 4 cells that say something in the column 'sex' can't be read, the first in line 2: 'Schf' (2 "
        "times), 'Bk': write M or F, or say which sex each word is by --sexes"
    )
    done = desk.wrong(told, "import", sheet, "--book", "own")
    assert done.commands() == [f"{CALLED} import own.csv --book own --sexes Schf={sex}" for sex in "mf"]
    done = desk.good("import", sheet, "--book", "own", "--sexes", "bk=m,Schf=F", "--sexes", "0=m")
    sexes = [row["number"][6] for row in desk.table("own/ids.csv")]
    assert sorted(sexes) == list("FFFMM")
    assert " 0 left out" in done.last
    desk.take("id,sex,born,sire,dam\n1,M,2001,,\n", "--sexes", "M=f")
    assert desk.numbers()["1"][6] == "F"
    told = "--sexes Bk: write WORD=m for males, WORD=f for females and WORD=mc for castrated males"
    desk.wrong(told, "import", sheet, "--sexes", "Bk")
    desk.wrong("--sexes is for a sheet", "import", "--pedigree", sheet, "--sexes", "Bk=m")
