"""Marks that stand for the cell above: what they mean is told, also where nothing stands above, or where an animal is
called as a mark is."""
from __future__ import annotations

import pytest

from front_desk.desk import Desk

TITLES = "N° SIRE;Nom;Sexe;Né(e) le;Père;Mère;Propriétaire\n"
PAIR = "101;Amiral;M;21/02/2010;;;GAEC des Bruyères\n102;Églantine;F;05/06/2011;;;Moreau frères\n"
FOAL = "103;Jockey;M;27/06/2019;101;102;Moreau frères\n"
# as French hands and others write them
MARKS = (
    "»", "« »", "d°", "//", "↓", "même", "|", "Idem", "\u00ab\u00a0\u00bb",
    # as word processors write them, and with two signs
    '–"–', '— " —', '-"-', "– ” –", '-"–', "w.o.", "W. o.", ",,", "-,,-", "''", "´´", "ebenso",
    # in Austria, with blanks between, and what others write
    "detto", "Detto.", '" "', "'' ''", "” ”", "' '", '"""', "″", "-do-", "- do -", "–dto.–", "gleich", "w. oben", "same",
    "same as above", "comme ci-dessus", "idem.", "dasselbe",
)  # fmt: skip


def owners(desk: Desk, *words: str) -> list[str]:
    """In the order of the ids."""
    rows = desk.listed("list", "--columns", "id,owner", *words)
    return [one["owner"] for one in sorted(rows, key=lambda one: one["id"])]


@pytest.mark.parametrize("mark", MARKS)
def test_marks(desk: Desk, mark: str) -> None:
    """As an owner or a parent each repeats the cell above, and that is told."""
    cell = '"' + mark.replace('"', '""') + '"' if '"' in mark else mark
    done = desk.take(f"{TITLES}{PAIR}{FOAL}104;Képi;M;27/06/2020;{cell};{cell};{cell}\n")
    assert desk.parents()["104"] == ("101", "102") and " 0 added" in done.last
    assert owners(desk)[-1] == "Moreau frères" and len(desk.owners()) == 2
    seen = " ".join(mark.split())
    above = {"Propriétaire": "Moreau frères", "Père": "101", "Mère": "102"}
    done.tells(*(
        f"to look at: 1 cell of the column '{title}' repeats the one above: {seen} in line 5 means '{text}'"
        for title, text in above.items()
    ))  # fmt: skip


def test_signs_that_may_say_unknown(desk: Desk) -> None:
    """Somebody may say that `//` stands for what isn't known; as a day it does in any case."""
    sheet = f"{TITLES}{PAIR}{FOAL}104;Képi;M;//;//;102;//\n"
    done = desk.take(sheet)
    assert desk.born()["104"] != desk.born()["103"] and desk.parents()["104"] == ("101", "102")
    assert "if // stands for what isn't known:" in done.out and done.commands()[0].endswith("--unknown //")
    desk.typed(done.commands()[0])
    assert desk.parents()["104"] == ("", "102")
    done = desk.take(sheet, "--book", "other", "--unknown", "//")
    assert owners(desk, "--book", "other")[-1] == "" and "repeats the one above" not in done.out


def test_nothing_above(desk: Desk) -> None:
    """A mark below an empty cell, or one below that, says nothing, which is told once for a column."""
    rows = "103;Jockey;M;27/06/2019;d°;102;\n104;Képi;M;27/06/2020;101;102;//\n105;Lola;F;01/02/2021;101;102;idem\n"
    done = desk.take(TITLES + PAIR + rows)
    assert owners(desk) == ["GAEC des Bruyères", "Moreau frères", "", "", ""] and desk.parents()["103"] == ("", "102")
    done.tells(
        "to look at: 2 cells of the column 'Propriétaire' have a mark for the cell above, and nothing stands there, "
        "the first // in line 5: they count as empty",
        "to look at: 1 cell of the column 'Père' has a mark for the cell above, and nothing stands there: d° in line 4 "
        "counts as empty",
    )


@pytest.mark.parametrize("name", ["Idem", "Dito"])
@pytest.mark.parametrize("above", ["Églantine", ""])
def test_animal_called_so(desk: Desk, name: str, above: str) -> None:
    """A dam of the list or the book who is called so is meant by her name, and not the cell above; she is no sire."""
    mare = f"090;{name};F;03/04/2008;;;Moreau frères\n"
    foals = f"103;Jockey;M;27/06/2019;101;{above};Moreau frères\n104;Képi;M;27/06/2020;{name};{name};{name}\n"
    done = desk.take(TITLES + mare + PAIR + foals)
    assert desk.parents()["104"] == ("101", "090") and owners(desk)[-1] == "Moreau frères"
    told = (
        f"to look at: an animal is called '{name}', so 1 cell of the column 'Mère', in line 6, means that one; if it "
        "stands for the cell above, write there what that has"
    )
    done.tells(told, f"to look at: 1 cell of the column 'Père' repeats the one above: {name} in line 6 means '101'")
    # also where the book alone has her
    done = desk.take(TITLES + foals.replace("104;Képi", "105;Lutin"), "--append")
    assert desk.parents()["105"] == ("101", "090")
    done.tells(told.replace("line 6", "line 3"))


MARKED = "\n".join([
    "Tag;Name;Sexe;Né(e) le;Père;Mère;Propriétaire;Sorti le", "101;Max;M;21/02/2010;;;Huber;",
    "102;Eva;F;05/06/2011;;;Huber;",
    "103;A;F;27/06/2019;Max;Eva;Ritz, Daniel;", "104;B;F;27/06/2020;{0};{0};Huber;", "105;C;F;27/06/2020;Max;Eva;{0};", "",
    "106;D;F;27/06/2020;Max;Eva;Meier;", "107;E;F;27/06/2021;Max;Eva;{0};", '108;F;F;27/06/2021;"Max";"Eva";"Meier; Ida";\n',
])  # fmt: skip


@pytest.mark.parametrize("separator", [";", "\t"])
def test_marks_that_are_not_doubled(desk: Desk, separator: str) -> None:
    """Two such marks of a row, or of two rows that are far from one another, take nothing away; that is told once."""
    sheet = MARKED.replace(";", separator)
    done = desk.take(sheet.format('"'))
    last = f"Meier{separator} Ida".replace("\t", "")
    assert owners(desk) == ["Huber", "Huber", "Ritz, Daniel", "Huber", "Huber", "Meier", "Meier", last]
    assert {desk.parents()[f"10{at}"] for at in range(3, 9)} == {("101", "102")}
    done.tells(
        "to look at: 3 rows, the first in line 5, have quotation marks alone in cells: they are read as marks for the "
        "cell above, and not as the beginning and the end of one text",
        'to look at: 1 cell of the column \'Père\' repeats the one above: " in line 5 means \'Max\'',
    )
    # as somebody writes them who doubles them
    again = desk.take(sheet.format('""""'))
    assert " 0 new, 0 changed" in again.last and "alone in cells" not in again.told


def test_texts_in_quotes(desk: Desk) -> None:
    """A text that begins with a separator or an end of a line is one, where its row has all cells."""
    rows = '101;Max;M;21/02/2010;;;";Huber";\n102;Eva;F;05/06/2011;;;"\nMeier";\n103;A;F;27/06/2019;;;";";\n'
    done = desk.take(MARKED.split("\n")[0] + "\n" + rows)
    assert "alone in cells" not in done.told and owners(desk) == [";Huber", "Meier", ";"]


@pytest.mark.parametrize("name, owner", [("Gleich", "Gleich"), ("gleich", "Moreau frères")])
def test_owner_called_so(desk: Desk, name: str, owner: str) -> None:
    """A family name is no such word."""
    desk.take(f"{TITLES}{PAIR}{FOAL}104;Képi;M;27/06/2020;101;102;{name}\n")
    assert owners(desk)[-1] == owner
