"""The look at a sheet with columns that may tell of exits, and aren't read or say nothing of some animals: it says what
a terminal does, in three languages."""
from __future__ import annotations

import pytest

from web.looks import look_at, part
from web.site import Site, shown

LIST = (
    "Ohrmarke;Geschlecht;geb;Vater;Mutter;Besitzer;Abgang;Verkauf;lebend;Status\n"
    "001;m;01.02.2010;;;Huber;;350;x;L\n002;w;03.02.2010;;;Huber;3.3.2020;;;T\n003;m;03.02.2013;001;002;Huber;;;;T\n"
    "004;w;03.02.2013;001;002;Huber;31.12.9999;;x;V\n"
)
SAID = {
    "en": (
        "the column 'Verkauf' isn't read for exits, since none of its cells has a day, and 1 cell of it says something of",
        "the column 'lebend' says 'x' of some animals, and nothing of 1 that has no exit, in line 4: it counts as living",
        "1 cell of the column 'Abgang' has what programs write for no day, '31.12.9999' in line 5: it counts as empty",
        "the column 'Status' isn't read, since nothing says which animals left by its 4 cells: L, T, V; if they do, write",
    ),
    "de": (
        "die Spalte „Verkauf“ wird nicht als Abgang gelesen, da in keiner ihrer Zellen ein Datum steht, und 1 Zelle darin",
        "die Spalte „lebend“ sagt „x“ von einigen Tieren, und nichts von 1 Tier ohne Abgang, in Zeile 4: auch dieses",
        "in 1 Zelle der Spalte „Abgang“ steht, was Programme schreiben, wenn es kein Datum gibt, „31.12.9999“ in Zeile 5:",
        "die Spalte „Status“ wird nicht gelesen, da aus ihren 4 Zellen nicht hervorgeht, welche Tiere abgegangen sind: L",
    ),
    "fr": (
        "la colonne « Verkauf » n'est pas lue comme sortie, car aucune de ses cellules n'a de date, et 1 de ses cellules",
        "la colonne « lebend » dit « x » de quelques animaux, et rien de 1 animal sans sortie, ligne 4 : il compte",
        "1 cellule de la colonne « Abgang » contient ce que des programmes écrivent quand il n'y a pas de date, « 31.12.9999",
        "la colonne « Status » n'est pas lue, car ses 4 cellules ne montrent pas quels animaux sont sortis : L, T",
    ),
}


@pytest.mark.parametrize("language", SAID)
def test_what_is_said(empty_site: Site, language: str) -> None:
    empty_site.get(f"/language/{language}")
    _, page = look_at(empty_site, LIST)
    said = shown(part(page, "May be wrong", language)).translate(str.maketrans("\u202f\xa0", "  "))
    assert not [one for one in SAID[language] if one not in said], said
