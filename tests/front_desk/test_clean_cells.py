"""A text of which no cell has to be cleaned is known as such, and is read as if each were cleaned."""
from __future__ import annotations

import csv
import io
import random

import pytest

from front_desk.desk import Desk
from gudokeyi.ingest.sheets import cleaned_records, is_clean, read_records, without_apostrophe
from gudokeyi.ingest.texts import as_known, clean

PIECES = ("a", "7", "Ö", "ō", "-", ".", "\t", ",", ";", "\n", "\r\n", "\r")
# what a cell is cleaned of, each beside a plain text that isn't
ODD = (" ", "  ", "\u00a0", "\u200b", "\u2003", "o\u0308", "\x1c", "\x0b", "\u3000", "\ufeff", "\u00ad", "\u2028")


def cleaned(text: str, separator: str) -> list[list[str]]:
    """The rows that have a cell with text, each cell cleaned by itself."""
    reader = csv.reader(io.StringIO(text, newline=""), delimiter=separator, strict=True)
    rows = ([clean(cell) for cell in cells] for cells in reader)
    return [row for row in rows if any(row)]


@pytest.mark.parametrize("separator", [",", ";", "\t"])
@pytest.mark.parametrize("pieces", [PIECES, PIECES + ODD], ids=["plain", "odd"])
def test_rows_are_read_as_if_each_cell_were_cleaned(pieces: tuple[str, ...], separator: str) -> None:
    draw = random.Random(8)
    for _ in range(2_000):
        text = "".join(draw.choices(pieces, k=draw.randrange(12)))
        rows = read_records(text, separator)
        assert [row.cells for row in rows] == cleaned(text, separator), repr(text)
        # on the same lines, also behind empty ones
        assert rows == cleaned_records(text, separator), repr(text)


def test_words_by_hand_are_cleaned(desk: Desk) -> None:
    """And so are a pedigree's: a letter in two parts, or a sign that no one sees, makes no other animal and no other
    owner."""
    sheet = "id,sex,birth,sire,dam,owner\nö1,f,2001-01-01,,,Käthe\nC1,f,2010-01-01,,,Käthe\n"
    desk.take(sheet)
    desk.good("parents", "C1\u200b", "--dam", "o\u03081")
    desk.good("birth", "ö2\u200b", "--sex", "f", "--day", "2012-01-01", "--dam", "o\u03081", "--owner", "Ka\u0308the")
    desk.good("transfer", "C1", "--to", "Ka\u0308the\u00adr", "--day", "2015-01-01", "--anyway")
    assert [owner for _, owner in desk.owners()] == ["Käthe", "Käther"]
    assert desk.parents() == {"ö1": ("", ""), "C1": ("", "ö1"), "ö2": ("", "ö1")}
    lines = desk.write(
        "lines", "id sire dam sex birth\no\u03082 R1 o\u03081 F 2012-01-01\no\u03081 R1 0 F 2001-01-01\n"
    )
    desk.good("import", "--pedigree", lines, "--keep", desk.write("keep", "o\u03082\n"), "--anyway")
    assert desk.parents() == {"ö1": ("R1", ""), "C1": ("", "ö1"), "ö2": ("R1", "ö1"), "R1": ("", "")}
    assert [row["id"] for row in desk.listed("list", "--owner", "ka\u0308the")] == ["ö1", "ö2"]


def test_apostrophe_of_a_spreadsheet() -> None:
    texts = ("'001", "'12", "'Max", "'CH 120.1", "'S 12", "'t Hof", "'s-Graven", "'Alma'", "O'Neil", "'", "''")
    assert [*map(without_apostrophe, texts)] == [*(one[1:] for one in texts[:5]), *texts[5:]]


def test_apostrophes_before_texts(desk: Desk) -> None:
    """A spreadsheet knows a text by one: it is no part of an id, of a name or of a day, and that is told once. Names
    and quotes that have one of their own keep it."""
    titles = "Ohrmarke;Name;Geschl.;Geb.;Vater;Mutter;Besitzer;Abgang\n"
    rows = (
        "'120145010082;'Max;'m;'01.03.2017;;;'Imhof Peter;\n"
        "120145010104;'Alma';w;02.03.2018;120145010082;;Imhof Peter;\n"
        "'120145010115;'t Hof;w;'03.03.2020;'120145010082;'120145010104;Imhof Peter;'3.3.2024\n"
    )
    done = desk.take(titles + rows)
    done.tells(
        "to look at: 10 cells begin with an apostrophe, by which a spreadsheet knows a text, the first in line 2: they "
        "are read without it"
    )
    assert done.out.count("to look at") == 1 and [owner for _, owner in desk.owners()] == ["Imhof Peter"]
    assert desk.parents()["120145010115"] == ("120145010082", "120145010104") and len(desk.parents()) == 3
    assert [one["name"] for one in desk.table("book/ids.csv")] == ["Max", "'Alma'", "'t Hof"]
    assert " 0 changed" in desk.take(titles + rows).last


def test_ids_that_the_book_has_with_apostrophes(desk: Desk) -> None:
    """They were taken so once: they are the same animals without them, with all that the book has of them, also where
    no name tells it, and that is told once; other apostrophes stay, and so does an id where both are animals."""
    titles = "Ohrmarke;Name;Geschl.;Geb.;Vater;Mutter;Besitzer\n"
    rows = (
        "''0012;Alma;w;2015-03-01;;;Imhof\n''0013;;m;2015-03-01;;;Imhof\n''0014;;w;2018-03-01;''0013;''0012;Imhof\n"
        "''0015;Ida;w;2018-03-01;''0013;''0012;Imhof\n0015;Ute;w;2019-03-01;''0013;'t Hof;Imhof\n"
    )
    desk.take(titles + rows)
    for id in "0012", "0013", "0014", "0015":
        desk.good("correct", f"''{id}", "--id", f"'{id}")
    numbers = desk.numbers()
    later = rows.replace("''", "'").replace("'0015;Ida;w;2018-03-01;'0013;'0012;Imhof\n", "")
    told = (
        "to look at: 3 ids of the book have an apostrophe, by which a spreadsheet knows a text, before them: they are "
        "without it from now on, as '0012 is 0012"
    )
    said = desk.take(titles + later, "--new-tag", "'0012=777", "--preview").told
    assert "to look at: 2 ids of the book have" in said and "as '0013 is 0013" in said
    done = desk.take(titles + later)
    done.tells(told)
    assert " 0 new, 0 changed, 1 inferred, 0 left out, 0 added, 1 gone" in done.last
    without = {f"'{id}": id for id in ("0012", "0013", "0014")}
    assert desk.numbers() == {without.get(id, id): number for id, number in numbers.items()}
    assert desk.parents()["0014"] == ("0013", "0012") and desk.parents()["0015"] == ("0013", "'t Hof")
    assert "ids of the book" not in desk.take(titles + later).told


def test_options_are_cleaned(desk: Desk) -> None:
    """Their titles and words are those of the sheet, whose cells are; also a letter in parts with a sign between."""
    assert clean("o\u00ad\u0308") == clean(clean("o\u00ad\u0308")) == "ö"
    words = ("--columns", "sire=Va\u0308", "--unknown", "Me\u0301lo", "--sexes", "Ku\u0308=f")
    done = desk.take("id,sex,birth,Vä,dam\na,Kü,2001-01-01,Mélo,\n", *words)
    assert " 1 animal, 1 new" in done.last and " 0 added" in done.last


def test_words_that_the_book_has_stay() -> None:
    """An id of an earlier version may have a letter in two parts."""
    assert as_known(" o\u0308  1 ", {"o\u0308 1"}) == "o\u0308 1" and as_known(" o\u0308  1 ", {}) == "ö 1"


def test_most_sheets_need_no_cleaning() -> None:
    assert is_clean("id,name\r\nDE 1,Löwe 7\r\n", ",")
    assert is_clean("id\tname\nDE 1\tLöwe 7\n", "\t")


@pytest.mark.parametrize("odd", ODD)
@pytest.mark.parametrize("cell", ["{}b", "b{}"])
def test_a_cell_that_has_to_be_cleaned_is_seen(odd: str, cell: str) -> None:
    text = f"id,name\n1,{cell.format(odd)}\n"
    assert not is_clean(text, ",")
    assert [row.cells for row in read_records(text, ",")] == cleaned(text, ",")


def test_cells_in_quotes_are_looked_at_one_by_one() -> None:
    text = 'id,name\n"=""007""",1\n'
    assert not is_clean(text, ",")
    assert read_records(text, ",")[1].cells == ["007", "1"]
