"""The look at a sheet whose columns have letters for titles, and days without signs: it says in three languages how
they are read."""
from __future__ import annotations

import pytest

from web.looks import look_at, part
from web.site import Site, shown

PLAIN = str.maketrans("\u202f\xa0", "  ")
SHEET = (
    "Nr.;Name;G;geb.;V;M\n101;Max;Rammler;03042015;;\n102;Lena;Häsin;05042015;;\n103;Mona;Häsin;25052016;;\n"
    "104;Ida;Häsin;03022018;101;102\n105;Kai;Rammler;03022019;101;103\n106;Lia;Häsin;03022020;101;102\n"
)
SAID = {
    "en": (
        "sire is read from 'V', since 3 of its 3 cells are ids of this list, of animals of that sex",
        "sex is read from 'G', since its cells are words for sexes: Rammler, Häsin",
        "day, month and year without signs between in 6 cells of the column 'geb.': '03042015' in line 2 is read as",
    ),
    "de": (
        "Vater wird aus „V“ gelesen, da 3 der 3 Zellen Nummern von Tieren dieser Liste sind, die dieses Geschlecht haben",
        "Geschlecht wird aus „G“ gelesen, da dort Wörter für Geschlechter stehen: Rammler, Häsin",
        "Spalte „geb.“, 6 Zellen mit Tag, Monat und Jahr ohne Zeichen dazwischen: „03042015“ in Zeile 2 ist als",
    ),
    "fr": (
        "Père est lu dans « V », car 3 des 3 cellules sont des numéros d'animaux de cette liste, qui ont ce sexe",
        "Sexe est lu dans « G », car ses cellules sont des mots pour les sexes : Rammler, Häsin",
        "colonne « geb. », 6 cellules avec le jour, le mois et l'année sans signes entre eux : « 03042015 » à la ligne 2",
    ),
}


@pytest.mark.parametrize("language", SAID)
def test_how_they_are_read(empty_site: Site, language: str) -> None:
    empty_site.get(f"/language/{language}")
    _, page = look_at(empty_site, SHEET)
    said = shown(part(page, "May be wrong", language)).translate(PLAIN)
    assert not [one for one in SAID[language] if one not in said], said
