"""Words and signs for unknown parents, and a spreadsheet's errors."""
from __future__ import annotations

import random

import pytest

from front_desk.desk import Desk
from gudokeyi.ingest.unknown_parents import KNOWN_UNKNOWN, SIGNS, UnknownParents, compared, names_no_owner
from gudokeyi.ingest.words import is_error_value

TITLES = "id;sex;birth;sire;dam\n"
UNKNOWN = (
    "<NA>, NN, n.n., N.N., n.b., k. A., k.A., nicht bekannt, unbekannt, not known, Not recorded, n/a, none, unk, "
    "inconnu, inconnue, -1, -9, *, 00, 0, 000, ?, -, --, ."
).split(", ")
ERRORS = "#REF! #BEZUG! #N/A #NV #WERT! #VALUE! #VALEUR! #NAME? #NOM? #DIV/0! #ZAHL! #NULL! Err:502 ####".split()


def test_usual_words(desk: Desk) -> None:
    rows = "".join(f"a{at};F;2001-01-01;{word};{word}\n" for at, word in enumerate(UNKNOWN))
    done = desk.take(TITLES + rows)
    assert set(desk.parents().values()) == {("", "")}
    assert " 0 left out, 0 added" in done.last
    # one of them can be an animal's id, and so can what begins as an error
    desk.take(
        TITLES + "#NV12;M;2001-01-01;;\nNN;F;2001-01-01;;\nc;F;2004-01-01;#NV12;nn\n",
        "--known",
        "Nn",
        "--book",
        "known",
    )
    assert len(desk.table("known/ids.csv")) == 3
    assert desk.listed("list", "--book", "known", "--columns", "id,sire,dam")[-1] == {
        "id": "c",
        "sire": "#NV12",
        "dam": "NN",
    }


def test_single_commands(desk: Desk) -> None:
    """They have the same words as the book's sheets: the usual ones and those that it remembers."""
    sheet = "s;M;2001-01-01;;\nNN;F;2001-01-01;;\nc;F;2004-01-01;s;NN\n"
    desk.take(TITLES + sheet, "--known", "NN", "--unknown", "extern")
    for at, word in enumerate(["", "n.n.", "k. A.", "-9", "Not recorded", "Extern", "#REF!"]):
        desk.good("birth", f"a{at}", "--sex", "f", "--day", "2005-01-01", f"--sire={word}", "--dam", "NN")
        assert desk.parents()[f"a{at}"] == ("", "NN"), word
    desk.good("parents", "c", "--sire", "n.b.")
    assert desk.parents()["c"] == ("", "NN")
    desk.wrong("the book has no animal 'x'", "parents", "c", "--dam", "x")


def test_words_of_the_book(desk: Desk) -> None:
    """Pedigrees and commands by hand have those that sheets named, and those of the settings, as sheets do."""
    desk.take(
        TITLES + "s;M;2001-01-01;;\nNN;F;2001-01-01;;\nc;F;2004-01-01;s;NN\n", "--known", "NN", "--unknown", "fremd"
    )
    desk.good("settings", "--unknown", "Nemo, Extern", "--breed", "SKU", "--country", "CHE")
    desk.good("birth", "n", "--sex", "f", "--day", "2020-01-01", "--sire", "nemo", "--dam", "NN")
    assert desk.numbers()["n"][:6] == "SKUCHE"
    pedigree = desk.write("p.txt", "id sire dam sex birth\na Nemo fremd F 2005-01-01\nb extern NN M 2005-02-01\n")
    assert " 0 added, " in desk.good("import", "--pedigree", pedigree).last
    assert desk.parents() | {"n": ("", "NN"), "a": ("", ""), "b": ("", "NN")} == desk.parents()
    begun = {id: number[:6] for id, number in desk.numbers().items()}
    assert begun == {"s": "HOLGBR", "NN": "HOLGBR", "c": "HOLGBR", "n": "SKUCHE", "a": "SKUCHE", "b": "SKUCHE"}
    assert " 0 changed" in desk.good("import", "sheet.csv").last
    # what is said now holds over the settings
    done = desk.good("import", "--pedigree", pedigree, "--known", "Nemo")
    assert " 1 added, " in done.last and desk.parents()["a"] == ("Nemo", "")


def test_words_for_no_owner() -> None:
    """The same, also of two signs; two letters may be initials."""
    assert [word for word in [*UNKNOWN, "", "Meier", "NB"] if not names_no_owner(word)] == ["NN", "Meier", "NB"]


def test_error_values(desk: Desk) -> None:
    """They are empty in any cell, and told; the book keeps what it has."""
    rows = "s;M;2001-01-01;;\n" + "".join(f"a{at};F;2004-01-01;s;\n" for at, _ in enumerate(ERRORS))
    rows += "".join(f"c{at};F;2005-01-01;;a0\n" for at in range(20))
    desk.take(TITLES + rows)
    before = desk.parents()
    broken = rows
    for at, word in enumerate(ERRORS):
        broken = broken.replace(f"a{at};F;2004-01-01;s;", f"a{at};F;2004-01-01;s;{word}")
    done = desk.take(TITLES + broken.replace("a0;F;2004-01-01;s;", "a0;F;2004-01-01;#REF!;"))
    assert desk.parents() == before
    assert (
        "14 cells with an error of the spreadsheet in 'sire', 'dam', the first in line 3: '#REF!', '#BEZUG!'"
        in done.out
    )
    # a number of signs tells of something else
    done.shows(
        "to look at: 1 cell of 'dam' is '####', in line 16: the column was too narrow when the sheet was saved; it "
        "counts as empty, and the book keeps what it has; widen the column, save the sheet again, and take that"
    )
    assert " 15 left out (15 cells)" in done.last


def test_error_as_a_sex(desk: Desk) -> None:
    """It counts as empty, as is told, and takes no row away."""
    rows = "s;M;2001-01-01;;\nd;F;2001-01-01;;\na;#NV;2004-01-01;s;d\nb;F;2004-01-01;s;d\n"
    done = desk.take(TITLES + rows)
    assert "the row is left out" not in done.told and "'#NV': each counts as empty" in done.out
    assert sorted(row["id"] for row in desk.ids()) == ["a", "b", "d", "s"]


def test_errors_in_any_cell(desk: Desk) -> None:
    """Of each column one is left out, also of one that isn't read, and a row without an id."""
    titles = "id;name;sex;birth;sire;dam;owner;since;exit;embryo;note\n"
    rows = [f"a{at};Max;M;2001-01-01;;;Groß;2004-01-01;2010-01-01;;x".split(";") for at in range(11)]
    desk.take(titles + "".join(";".join(row) + "\n" for row in rows))
    before = desk.commands()
    for at, row in enumerate(rows):
        row[at] = "#WERT!"
    done = desk.take(titles + "".join(";".join(row) + "\n" for row in rows))
    assert desk.commands() == before
    assert " 12 left out (1 row, 11 cells), 0 added, 1 gone" in done.last
    says = "#WERT! | Max | M | 2001-01-01 | Groß | 2004-01-01 | 2010-01-01 | x"
    done.tells(
        f"line 2: the row is left out: it has no id; it says '{says}'",
        "line 12: a10: its cell 'note' is left out: '#WERT!' is an error of the spreadsheet, and no value",
    )


def test_narrow_columns(desk: Desk) -> None:
    """What a spreadsheet shows where a column is too narrow is mended there."""
    rows = "".join(f"a{at};F;########;;\n" for at in range(3)) + "b;F;2001-01-01;;\n"
    desk.wrong(
        "3 of 4 cells of the column 'birth' (birth) show only # signs, since the column was too narrow when the sheet "
        "was "
        "saved: widen it, save the sheet again, and take that", "import", desk.write("sheet.csv", TITLES + rows)
    )  # fmt: skip


def test_columns_of_errors(desk: Desk) -> None:
    rows = "".join(f"a{at};F;2001-01-01;#BEZUG!;{word}\n" for at, word in enumerate(["x", "#REF!", "#REF!"]))
    rows += "".join(f"b{at};F;2001-01-01;;\n" for at in range(5))
    desk.wrong(
        "3 of 3 cells of the column 'sire' (sire) show an error", "import", desk.write("sheet.csv", TITLES + rows)
    )


def test_how_a_text_begins_hides_no_word_sign_or_error() -> None:
    draw = random.Random(4)
    pieces = [*UNKNOWN, *ERRORS, *KNOWN_UNKNOWN, "Err", "#", ".", "0", "N", "n", "ẞ", "İ", "<", " ", "7", "DE"]
    texts = {"".join(draw.choices(pieces, k=draw.randrange(1, 4))) for _ in range(5_000)} | {*pieces}
    unknown = UnknownParents()
    for text in texts:
        is_sign = SIGNS.fullmatch(text) is not None
        assert unknown.is_one(text) == (compared(text) in KNOWN_UNKNOWN or is_error_value(text) or is_sign), text


@pytest.mark.parametrize("title", ["Sire Name", "Vater Name", "Name der Mutter", "SIRE", "père"])
def test_title_as_parent(desk: Desk, title: str) -> None:
    """A parent without a row that is called as a column of parents may be no animal, also where the book has it, and
    where the row that names it is gone; once it is said to be unknown it isn't told."""
    rows = TITLES + "s1;M;2001-01-01;;\na1;F;2003-01-01;s1;\n" + f"a2;F;2003-01-01;{title};\n"
    told = f"{title} has no row and is what a column of parents is called, and is the sire of 1: it may be no animal"
    for options in (), ("--preview",):
        assert told in desk.take(rows, *options).out
    gone = rows.replace("a2;", "a3;").replace(title, "s1")
    assert told in desk.take(gone, "--preview").out
    [command] = [one for one in desk.take(rows, "--preview").commands() if "--unknown" in one]
    done = desk.typed(command)
    assert told not in done.out and " 1 changed, " in done.last
    desk.typed(command.replace(" --preview", ""))
    assert desk.parents()["a2"] == ("", "") and "a column of parents" not in desk.take(rows).told


def test_animal_with_a_title_as_its_id(desk: Desk) -> None:
    """One that has a row, or had one, is an animal; so is one whose name says only its sex."""
    rows = TITLES + "Father;M;2001-01-01;;\na1;F;2003-01-01;Father;\na2;F;2003-01-01;Hengst;\n"
    for sheet in rows, rows.replace("Father;M;2001-01-01;;\n", ""):
        assert "a column of parents" not in desk.take(sheet, "--anyway").told


NOBODY = ("né de père inconnu", "NE DE PERE INCONNU", "née de parents inconnus", "néant", "von unbekanntem Vater", "Pere inconnu")


def test_words_that_say_unknown(desk: Desk) -> None:
    rows = "".join(f"a{at};F;2001-01-01;{word};\n" for at, word in enumerate(NOBODY))
    assert " 0 left out, 0 added" in desk.take(TITLES + rows).last


JACKS = "id;name;sex;birth;sire;dam;owner\nJ01;Max;M;2010-03-12;;;LENOËL Thierry\nJ02;Ortie;F;2010-04-14;;;Mayr Josef\n"


def told_of(desk: Desk, *sires: str) -> str:
    """What is told of sires beside some that are written by their names."""
    rows = [f"J1{at};;F;2016-03-15;{sire};J02;Duval" for at, sire in enumerate([*sires, "Max", "Max", "Max"])]
    return desk.take(JACKS + "\n".join(rows)).told


ANIMALS_OF_OWNERS = ("baudet de LENOËL Thierry", "étalon de Lenoël", "Leihbock v. Mayr", "Rammler vom Mayr", "bull of Mayr")


@pytest.mark.parametrize("text", ANIMALS_OF_OWNERS)
def test_animal_of_an_owner(desk: Desk, text: str) -> None:
    """It is told as no id, with what says that it is unknown."""
    assert f"{text} has no row and is written like no id, and is the sire of 1" in told_of(desk, text)


@pytest.mark.parametrize("text", ["Baudet du Bocage", "Bijou de Lenoël", "Étalon d'Or", "Carneville"])
def test_names_like_animals_of_owners(desk: Desk, text: str) -> None:
    assert "like no id" not in told_of(desk, text)


def test_name_in_doubt(desk: Desk) -> None:
    """One that no animal has may have lost its last letter: it is told as no id."""
    assert "Quarto du Val? has no row and is written like no id, and is the sire of 1" in told_of(desk, "Quarto du Val?")


@pytest.mark.parametrize("text", ["W23/22-009/W23/22-002", "W23/22-009/W23/20-001", "W23/22-009 + W23/22-002"])
def test_two_ids(desk: Desk, text: str) -> None:
    """One of two, also where none has a row, or ids have such a sign themselves."""
    rows = "".join(f"W23/20-00{at};M;2020-01-01;;\n" for at in range(1, 4))
    done = desk.take(TITLES + rows + f"W23/23-001;F;2023-01-01;{text};\n")
    done.tells(f"line 5: W23/23-001: its sire '{text}' is left out: it may be one or the other, and counts as unknown")
    assert " 0 added" in done.last


@pytest.mark.parametrize("text", ["W23/22-009", "12/3", "1234/5678", "W23/22-009/7", "Max/Moritz"])
def test_no_two_ids(desk: Desk, text: str) -> None:
    rows = "".join(f"W23/20-00{at};M;2020-01-01;;\n" for at in range(1, 4))
    assert " 1 added" in desk.take(TITLES + rows + f"W23/23-001;F;2023-01-01;{text};\n").last
