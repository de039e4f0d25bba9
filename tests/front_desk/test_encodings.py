"""Letters of a sheet: bytes that are wrong, letters that were decoded twice, and letters that are composed."""
from __future__ import annotations

import pytest

from front_desk.desk import Desk
from gudokeyi.domain.findings import Report
from gudokeyi.domain.kinds import Field
from gudokeyi.ingest.animal_cells import AnimalCells, Unread
from gudokeyi.ingest.sexes import Sexes
from gudokeyi.ingest.unknown_parents import UnknownParents

SHEET = "Ohrmarke;Name;Geschlecht;Geburtsdatum;Vater;Mutter\nÄ1;Müller;m;01.03.2001;;\nB2;Süße;w;02.03.2004;Ä1;\n"


def test_stray_byte(desk: Desk) -> None:
    """A sheet that is UTF-8 but for a byte isn't taken: its line and its place are told."""
    sheet = desk.write("sheet.csv", SHEET.encode().replace("Süße".encode(), b"S\xfc\xc3\x9fe"))
    desk.wrong("sheet.csv: line 3, byte 5 of the line, after 'B2;S': the byte FC isn't UTF-8", "import", sheet)


def test_stray_byte_with_other_obstacles(desk: Desk) -> None:
    """All that keeps a sheet from being taken is told in one run."""
    data = (
        SHEET.encode().replace("Süße".encode(), b"S\xfc\xc3\x9fe").replace(b"Mutter", b"M").replace(b"02.03", b"03/25/")
    )
    done = desk.wrong("the byte FC isn't UTF-8", "import", desk.write("sheet.csv", data))
    assert "line 1: no column for dam is found" in done.err
    assert len(done.err.partition("gudokeyi: nothing is taken")[0].splitlines()) == 2


def test_windows_letters_stay(desk: Desk) -> None:
    """A sheet in Windows-1252 has letters that could be UTF-8 by chance."""
    text = SHEET.replace("Müller", "Strauß’ Müller").encode("cp1252")
    done = desk.take(text)
    assert "Windows-1252" in done.out and "decoded twice" not in done.out
    assert [row["name"] for row in desk.table("book/ids.csv")] == ["Strauß’ Müller", "Süße"]


@pytest.mark.parametrize("encoding", ["utf-8", "cp1252"])
def test_letters_decoded_twice(desk: Desk, encoding: str) -> None:
    twice = SHEET.replace("Müller", "MÃ¼ller").replace("Süße", "S\ufffd")
    done = desk.take(twice.encode(encoding, errors="ignore"))
    assert "letters were decoded twice in 1 text: 'MÃ¼ller' for 'Müller' (line 2): save the sheet again" in done.out
    assert ("letters are lost in 1 text: 'S\ufffd' (line 3)" in done.out) == (encoding == "utf-8")


OF_MAC = (
    "to look at: the letters are read as an older Mac writes them (Mac Roman), as '{}' in line {}, which would otherwise "
    "be '{}': if they are wrong, save the sheet as CSV in UTF-8"
)


@pytest.mark.parametrize(
    "name, as_windows",
    [("Müller", "MŸller"), ("Höß", "Hš§"), ("René", "RenŽ"), ("HÖß", "H…§"), ("Übergrößen", "†bergrš§en"),
     ("Françoise", "Fran\ufffdoise")],
)  # fmt: skip
@pytest.mark.parametrize("end", ["\r\n", "\r"])
def test_letters_of_a_mac(desk: Desk, name: str, as_windows: str, end: str) -> None:
    """They are read so where they make words so alone, also beside its quotation marks."""
    sheet = SHEET.replace("Ä1", "A1").replace("Müller", "“Max”").replace("Süße", name)
    done = desk.take(sheet.replace("\n", end).encode("mac_roman"))
    assert "2 rows below the titles in line 1, Mac Roman, cells separated" in done.out
    assert [row["name"] for row in desk.table("book/ids.csv")] == ["“Max”", name]
    if name[0].isascii():
        done.shows(OF_MAC.format(name, 3, as_windows))


@pytest.mark.parametrize(
    "data, word",
    [
        (b"Gr\x94\xe1e", "Gr”áe"), (b"\x80nne", "€nne"), (b"M\x9fller;w;1.1.2003;;\nC3;M\xfcller", "MŸller"),
        (b"Propri\x82taire", "Propri‚taire"),
    ],
)  # fmt: skip
def test_doubtful_letters(desk: Desk, data: bytes, word: str) -> None:
    """Words that are none in the encoding of Windows are told where it isn't sure how they were written."""
    sheet = SHEET.replace("Ä1", "A1").replace("Müller", "Max").encode().replace("Süße".encode(), data)
    desk.take(sheet).shows(
        f"to look at: letters may be decoded wrongly, the first in '{word}' in line 3: if they are, save the sheet again "
        "from the spreadsheet in which the letters are right, as CSV in UTF-8"
    )


@pytest.mark.parametrize("name", ["“Süße”", "Žižka Dušan", "†Süße", "Süße – 5€", "d’Été", "5 € …und", "§ 4", "STRAßE", "Mª"])
def test_letters_of_windows(desk: Desk, name: str) -> None:
    done = desk.take(SHEET.replace("Süße", name).encode("cp1252"))
    assert "Windows-1252" in done.out and "letters" not in done.out
    assert name in [row["name"] for row in desk.table("book/ids.csv")]


def test_letters_of_each_name() -> None:
    """Of an animal's id, of its parents and of its owner as of its name."""
    for field in Field.ID, Field.NAME, Field.SIRE, Field.DAM, Field.OWNER:
        for text, told in ("MÃ¼ller", "decoded twice in 1 text: 'MÃ¼ller' for 'Müller' (line 7)"), (
            "M\ufffdller", "lost in 1 text: 'M\ufffdller' (line 7)"
        ):  # fmt: skip
            cells = AnimalCells(UnknownParents(), Sexes([], {}), Unread({}), Report(), False)
            named = {Field.ID.value: "b", field.value: text}
            cells.animal(7, named.pop(Field.ID), named)
            assert [told in one.words() for one in cells.letters.told()] == [True], field


def test_titles_decoded_twice(desk: Desk) -> None:
    """Titles are told too, and nobody is asked to take the sheet without the columns that they name."""
    french = "N° SIRE;Né le;Père;Mère;Propriétaire\n1;2001;;;Lefèvre\n"
    sheet = desk.write("sheet.csv", french.encode().decode("cp1252").encode())
    done = desk.wrong("letters were decoded twice in 5 texts: 'NÂ° SIRE' for 'N° SIRE' (line 1)", "import", sheet)
    assert "no column" not in done.err and not done.commands()
    done = desk.wrong(
        "decoded twice", "import", desk.write("sheet.csv", french.replace("Père", "X").encode().decode("cp1252"))
    )
    assert "no column for sire is found" in done.err
    done = desk.take("id;birth;sire;dam;PropriÃ©taire\na;2001;;;Groß\n")
    done.shows(
        "to look at: letters were decoded twice in 1 text: 'PropriÃ©taire' for 'Propriétaire' (line 1): save the sheet "
        "again from the spreadsheet in which the letters are right, as CSV in UTF-8"
    )


def test_composed_letters_and_blanks(desk: Desk) -> None:
    """An id is the same with composed letters and with letters and accents apart, with one blank or several."""
    done = desk.take(
        "id;birth;sire;dam\n\u00c41 7;2001-03-01;;\nB;2004-03-01;A\u03081\u00a0 7;\nC;2004-03-02;\u200b\u00c41 "
        "7\u00ad;\n"
    )
    assert desk.parents() == {"\u00c41 7": ("", ""), "B": ("\u00c41 7", ""), "C": ("\u00c41 7", "")}
    # the sexes are inferred, and no parent
    assert " 3 inferred, 0 left out, 0 added" in done.last
