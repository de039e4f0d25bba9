"""The look at a sheet with columns that aren't read, though they have what belongs to animals: it says what a terminal
does, in three languages, with buttons that read them."""
from __future__ import annotations

import pytest

from front_desk.desk import Desk
from web.looks import buttons_of, look_at, part
from web.site import Site, shown

PLAIN = str.maketrans("\u202f\xa0", "  ")
LOST = "Ohrmarke;geb;Vater;Mutter\n001;2001-01-01;;\n002;2001-02-01;;\n"
BACK = "Ohrmarke;geb;Vater;Mutter;Abgang\n001;2001-01-01;;;\n002;2001-02-01;;;3.5.2025\n"
SAID_NONE = {
    "en": "'Abgang' isn't read as exit, since it was said of an earlier list that no column is that; it has 1 cell, '3.5",
    "de": "„Abgang“ wird nicht als Abgang gelesen, weil bei einer früheren Liste gesagt wurde, dass es keine solche",
    "fr": "« Abgang » n'est pas lue comme Sortie, car il a été dit d'une liste antérieure qu'elle n'avait pas de telle",
}

TITLES = (
    "Ohrmarke;Geschlecht;geb;Vater;Mutter;Besitzer 1;Besitzer 2;genetische Mutter;Leihmutter;Vater gemäss DNA;totgeboren;"
    "ungültig;korrigiertes Geburtsdatum;Letzter Tag\n"
)
ROWS = (
    "001;m;01.02.2010;;;Huber;;;;;;;;03.04.2020\n002;w;02.02.2010;;;Huber;Meier;;;;;;;03.04.2020\n"
    "003;w;03.02.2010;;;Huber;;;;;;;;03.04.2021\n004;m;04.02.2010;;;Huber;;;;;;;;\n"
    "005;w;05.02.2013;001;002;Huber;;003;;004;;;;\n006;w;06.02.2013;001;;Huber;;;003;;x;;;\n"
    "007;w;07.02.2013;001;002;Huber;;;;;;x;;\n008;w;08.02.2013;001;002;Huber;;;;;;;09.02.2013;\n"
)
SAID = {
    "en": (
        "no column of exits is found, and 'Letzter Tag' isn't read, whose 3 days are all later than the births, the "
        "first '03.",
        "the dam of 1 animal is read from 'genetische Mutter', '003' in line 6: '002' in 'Mutter' carried it",
        "1 row has no dam in 'Mutter', and '003' in 'Leihmutter', in line 7: the animal that carried the embryo isn't the dam",
        "'Vater gemäss DNA' isn't read, and has another sire than 'Vater' in 1 row: '004' and not '001', in line 6",
        "the column 'totgeboren' isn't read, and has 'x' in line 7: if that animal was born dead",
        "the column 'ungültig' isn't read, and has 'x' in line 8: the row is taken like all others",
        "'korrigiertes Geburtsdatum' isn't read, and says '09.02.2013' and not '08.02.2013' in line 9",
        "'Besitzer 2' isn't read, and has 'Meier' in line 3: the owner is 'Huber', as 'Besitzer 1' has it",
    ),
    "de": (
        "keine Spalte mit Abgängen gefunden, und die Spalte „Letzter Tag“ wird nicht gelesen, deren 3 Tage alle nach den",
        "die Mutter von 1 Tier wird aus „genetische Mutter“ gelesen, „003“ in Zeile 6: „002“ in „Mutter“ hat das Tier",
        "1 Zeile hat keine Mutter in „Mutter“, und „003“ in „Leihmutter“, in Zeile 7: wer ein Tier austrägt, ist nicht",
        "„Vater gemäss DNA“ wird nicht gelesen und sagt in 1 Zeile etwas anderes als „Vater“ (Vater): „004“ und nicht",
        "die Spalte „totgeboren“ wird nicht gelesen und hat „x“ in Zeile 7: das Tier gilt als lebend; ist es tot geboren",
        "die Spalte „ungültig“ wird nicht gelesen und hat „x“ in Zeile 8: die Zeile wird wie alle anderen übernommen",
        "„korrigiertes Geburtsdatum“ wird nicht gelesen und sagt „09.02.2013“ und nicht „08.02.2013“ in Zeile 9",
        "„Besitzer 2“ wird nicht gelesen und hat „Meier“ in Zeile 3: der Besitzer ist „Huber“, wie es in „Besitzer 1“ steht",
    ),
    "fr": (
        "aucune colonne de sorties n'est trouvée, et la colonne « Letzter Tag », dont les 3 jours sont tous après les",
        "la mère de 1 animal est lue dans « genetische Mutter », « 003 », ligne 6 : « 002 » dans « Mutter » a porté",
        "1 ligne n'a pas de mère dans « Mutter », et « 003 » dans « Leihmutter », ligne 7 : qui porte un animal",
        "« Vater gemäss DNA » n'est pas lue, et dit autre chose que « Vater » (Père) dans 1 ligne : « 004 » et non",
        "la colonne « totgeboren » n'est pas lue, et a « x », ligne 7 : l'animal compte comme vivant ; s'il est mort-né",
        "la colonne « ungültig » n'est pas lue, et a « x », ligne 8 : la ligne est prise comme toutes les autres",
        "« korrigiertes Geburtsdatum » n'est pas lue, et dit « 09.02.2013 » et non « 08.02.2013 », ligne 9",
        "« Besitzer 2 » n'est pas lue, et a « Meier », ligne 3 : le propriétaire est « Huber », comme le dit",
    ),
}


def said_of(site: Site, text: str, language: str) -> tuple[str, str]:
    """What the look at a sheet tells that may be wrong, and the page."""
    site.get(f"/language/{language}")
    _, page = look_at(site, text)
    return shown(part(page, "May be wrong", language)).translate(PLAIN), page


@pytest.mark.parametrize("language", SAID_NONE)
def test_column_that_was_said_to_be_none(empty_site: Site, desk: Desk, language: str) -> None:
    desk.take(LOST, "--columns", "exit=")
    said, page = said_of(empty_site, BACK, language)
    assert SAID_NONE[language] in said, said
    assert len(buttons_of(page)) == 2


@pytest.mark.parametrize("language", SAID)
def test_columns_with_what_belongs_to_animals(empty_site: Site, language: str) -> None:
    said, _ = said_of(empty_site, TITLES + ROWS, language)
    assert not [one for one in SAID[language] if one not in said], said
