"""The look at a sheet says of its cells what the terminal says, in three languages."""
from __future__ import annotations

import datetime
import io

import openpyxl
import pytest

from front_desk.desk import Desk
from web.looks import buttons_of, look_at, part, press
from web.site import Site, shown
from gudokeyi.domain.settings import LANGUAGES

TITLES = "N° SIRE;Nom;Sexe;Né(e) le;Père;Mère;Propriétaire\n"
LIST = TITLES + (
    "100;Idem;F;03/04/2008;;;GAEC des Bruyères\n101;Amiral;M;21/02/2010;;;»\n102;Églantine;F;05/06/2011;;;Moreau\n"
    "103;Jockey;M;27/06/2019;101;;//\n104;Képi;M;31.05./01.06.2020;//;dito;\n"
    "105;Lutin;M;1/4/2021 (est.);101;Idem;d°\n"
    "106;03-déc.;F;2022-05-06;101;102;Éleveur\nEN COURS;Nil;M;2023-05-06;101;102;néant\n"
)
SAID = (
    "2 cells of the column 'Propriétaire' repeat the one above: » in line 3 means 'GAEC des Bruyères'",
    "1 cell of the column 'Propriétaire' has a mark for the cell above, and nothing stands there: d° in line 7",
    "1 cell of the column 'Mère' has a mark for the cell above, and nothing stands there: dito in line 6",
    "an animal is called 'Idem', so 1 cell of the column 'Mère', in line 7, means that one",
    "one of several days in 1 cell of the column 'Né(e) le': '31.05./01.06.2020' in line 6 is read as 2020-05-31 to 2020-",
    "a day that isn't certain in 1 cell of the column 'Né(e) le': '1/4/2021 (est.)' in line 7 is read as 2021-04-01",
    "its name is the day 03-déc., which spreadsheets make of texts such as 3/12",
    "'EN COURS' doesn't read like an id, but as if the animal had none yet",
    "'Éleveur' stands where 1 animal has its owner, and doesn't look like a name",
)
IN_OTHERS = {
    "de": ("2 Zellen der Spalte „Propriétaire“ wiederholen", "dort steht nichts: d° in Zeile 7",
           "ein Tier heißt „Idem“",
           "mit einem von mehreren Tagen: „31.05./01.06.2020“ in Zeile 6 ist als 31.05.2020 bis 01.06.2020 gelesen",
           "mit einem Tag, der nicht sicher ist: „1/4/2021 (est.)“ in Zeile 7 ist als 01.04.2021 gelesen",
           "ist der Tag 03-déc., wie ihn Tabellen", "„EN COURS“ liest sich nicht wie eine Ohrmarke",
           "„Éleveur“ steht bei 1 Tier"),
    "fr": ("2 cellules de la colonne « Propriétaire » répètent", "où il n'y a rien : d° à la ligne 7",
           "un animal s'appelle « Idem »",
           "un jour parmi plusieurs : « 31.05./01.06.2020 » à la ligne 6 est lu comme 31/05/2020 au 01/06/2020",
           "un jour qui n'est pas sûr : « 1/4/2021 (est.) » à la ligne 7 est lu comme 01/04/2021",
           "le jour 03-déc., comme des tableurs", "« EN COURS » n'a pas l'air d'un numéro", "« Éleveur »"),
}  # fmt: skip


def plain(text: str) -> str:
    return " ".join(text.split())


def test_as_a_terminal_says_it(empty_site: Site, desk: Desk) -> None:
    """All of it stands among what may be wrong, on the page and on the terminal."""
    address, page = look_at(empty_site, LIST)
    first = plain(shown(part(page, "May be wrong")))
    assert not [one for one in SAID if one not in first]
    told = desk.take(LIST, "--preview").out
    assert not [one for one in SAID if one not in told]
    # what `//` stands for is one click
    [means] = {one for one in buttons_of(page) if "'//' means" in one}
    page = press(empty_site, address, page, means)
    assert "means '101'" not in shown(part(page, "May be wrong"))
    empty_site.take(address)
    desk.good("export", "--out", "export")
    assert desk.parents()["104"] == ("", "") and desk.parents()["105"] == ("101", "100")


@pytest.mark.parametrize("language", LANGUAGES[1:])
def test_in_other_languages(empty_site: Site, language: str) -> None:
    empty_site.get(f"/language/{language}")
    _, page = look_at(empty_site, LIST)
    told = plain(shown(part(page, "May be wrong", language)))
    assert not [one for one in IN_OTHERS[language] if one not in told], told


def test_days_of_a_workbook(empty_site: Site) -> None:
    """A day in place of an id is told too where the file says which cells are days."""
    found, file = openpyxl.Workbook(), io.BytesIO()
    for line in LIST.splitlines()[:4]:
        found.active.append([cell or None for cell in line.split(";")])
    found.active["A4"] = datetime.date(2026, 12, 3)
    found.save(file)
    page = empty_site.page(empty_site.drop("liste.xlsx", file.getvalue()))
    assert "its id is the day 2026-12-03, which spreadsheets make of texts" in plain(shown(part(page, "May be wrong")))


WEIGHTS = "Ohrmarke;Name;Geschlecht;geb;Vater;Mutter;Gewicht\n" + "".join(
    f"a{at};Tier {at};w;2012-05-13;;;{f'ca. {at} kg' if at else '12,5'}\n" for at in range(21)
)


@pytest.mark.parametrize(
    "language, said, keep",
    [("en", "20 of 21 cells of the column 'Gewicht' (number) can't be read, the first in line 3: 'ca. 1 kg'; of these",
      "Keep the column 'Gewicht' as: text"),
     ("de", "20 von 21 Zellen der Spalte „Gewicht“ (Zahl) lassen sich nicht lesen, die erste in Zeile 3: „ca. 1 kg“",
      "Die Spalte „Gewicht“ behalten als: Text"),
     ("fr", "20 cellules sur 21 de la colonne « Gewicht » (nombre) ne se lisent pas, la première à la ligne 3",
      "Garder la colonne « Gewicht » comme : texte")],
)  # fmt: skip
def test_own_cells_unread(empty_site: Site, desk: Desk, language: str, said: str, keep: str) -> None:
    """Many cells of an own column are one line of what may be wrong, and to keep them as texts is one click."""
    empty_site.get(f"/language/{language}")
    address, page = look_at(empty_site, WEIGHTS, **{"other-title-0": "Gewicht", "other-kind-0": "number"})
    told = plain(shown(part(page, "May be wrong", language)))
    assert told.count(said) == 1 and told.count("ca. ") == 1
    page = press(empty_site, address, page, next(one for one in buttons_of(page) if one == keep))
    assert "ca. 1 kg" not in shown(part(page, "May be wrong", language))
    empty_site.take(address)
    assert [row["Gewicht"] for row in desk.listed("export")][:2] == ["12,5", "ca. 1 kg"]


@pytest.mark.parametrize(
    "language, meant", [("en", "is 3/12 meant?"), ("de", "ist 3/12 gemeint?"), ("fr", "s'agit-il de 3/12 ?")]
)
def test_days_for_ids(empty_site: Site, language: str, meant: str) -> None:
    """Of a parent's cell that a spreadsheet made a day of it is asked which animal is meant."""
    empty_site.get(f"/language/{language}")
    rows = "3/12;Cora;F;2012-05-01;;;\n1/14;Dora;F;2014-03-01;;03. Dez;\n2/14;Emil;M;2014-03-02;;3/12;\n"
    _, page = look_at(empty_site, TITLES + rows)
    told = plain(shown(part(page, "May be wrong", language))).replace("\u00a0", " ")
    assert told.count(meant) == 1 and "03. Dez" in told, told


MARKS = {
    "en": "2 rows, the first in line 4, have quotation marks alone in cells",
    "de": "2 Zeilen, zuerst Zeile 4, haben Anführungszeichen allein in Zellen",
    "fr": "2 lignes, la première étant la ligne 4, ont des guillemets seuls dans des cellules",
}  # fmt: skip


@pytest.mark.parametrize("language", LANGUAGES)
def test_marks_that_are_not_doubled(empty_site: Site, language: str) -> None:
    """Two marks in two rows take no row away, and are told among what may be wrong."""
    empty_site.get(f"/language/{language}")
    rows = '101;Max;M;2010-02-21;;;Huber\n102;Eva;F;2011-06-05;;;Huber\n103;A;F;2019-06-27;101;102;"\n'
    address, page = look_at(empty_site, TITLES + rows + '104;B;F;2020-06-27;101;102;"\n')
    assert MARKS[language] in plain(shown(part(page, "May be wrong", language)))
    empty_site.take(address)
    with empty_site.desk.opened() as book:
        assert book and {*book.society_records} == {"101", "102", "103", "104"}


ROWS_BETWEEN = {
    "en": "2 rows stand between two quotation marks, the first of which is in line 3",
    "de": "2 Zeilen stehen zwischen zwei Anführungszeichen, das erste in Zeile 3",
    "fr": "2 lignes sont entre deux guillemets, le premier à la ligne 3",
}  # fmt: skip


@pytest.mark.parametrize("language", LANGUAGES)
def test_rows_between_marks(empty_site: Site, language: str) -> None:
    """A mark that opens in one row and closes in the next takes no row away; a text of several lines is one still."""
    empty_site.get(f"/language/{language}")
    rows = '101;Max;M;2010-02-21;;;Huber\n102;"Eva;F;2011-06-05;;;Huber\n103;Ada";F;2019-06-27;101;;Huber\n'
    address, page = look_at(empty_site, TITLES + rows + '104;"B;\nC";F;2020-06-27;101;;Huber\n')
    assert ROWS_BETWEEN[language] in plain(shown(part(page, "May be wrong", language)))
    empty_site.take(address)
    with empty_site.desk.opened() as book:
        names = [one.name for one in book.society_records.values()] if book else []
    assert names[:3] == ["Max", "Eva", "Ada"] and len(names) == 4 and names[3][:1] == "B"
