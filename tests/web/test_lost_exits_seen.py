"""The look at a sheet that lacks the column of exits of the last one, or has it emptied: it says what a terminal does,
in three languages."""
from __future__ import annotations

import pytest

from web.looks import look_at
from web.site import Site, shown

TITLES = "Ohrmarke;Geschlecht;geb;Vater;Mutter;Besitzer;{}\n"
ROWS = "".join(f"00{at};{'wm'[at == 1]};0{at}.02.2010;;;Huber;{{}}\n" for at in range(1, 8))
BOTH = TITLES.format("Gestorben am;Verkauft am") + ROWS.format("1.1.2020;", *["2.2.2020;"] * 5, ";3.3.2021")
LOST = TITLES.format("Verkauft am") + ROWS.format(*[""] * 6, "3.3.2021")
EMPTY = TITLES.format("Gestorben am;Verkauft am") + ROWS.format(*[";"] * 7)
SAID = {
    "en": (
        "no column 'Gestorben am' is found, from which exits were read last time, and 'Verkauft am' tells of no exit",
        "the column 'Gestorben am' tells of no exit, and 7 animals that had left would count as living again, the first are",
    ),
    "de": (
        "keine Spalte „Gestorben am“ gefunden, aus der beim letzten Mal die Abgänge gelesen wurden, und „Verkauft am“ nennt",
        "die Spalte „Gestorben am“ nennt keinen Abgang, und 7 abgegangene Tiere würden wieder als lebend zählen, zuerst",
    ),
    "fr": (
        "la colonne « Gestorben am », où les sorties étaient lues la dernière fois, n'est pas trouvée, et « Verkauft am »",
        "la colonne « Gestorben am » n'indique aucune sortie, et 7 animaux qui étaient sortis compteraient de nouveau comme",
    ),
}


@pytest.mark.parametrize("language", SAID)
def test_what_is_said(empty_site: Site, language: str) -> None:
    empty_site.get(f"/language/{language}")
    empty_site.take(look_at(empty_site, BOTH)[0])
    said = [shown(look_at(empty_site, one)[1]).translate(str.maketrans("\u202f\xa0", "  ")) for one in (LOST, EMPTY)]
    assert all(sentence in page for sentence, page in zip(SAID[language], said)), said
