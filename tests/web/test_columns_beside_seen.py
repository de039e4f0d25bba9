"""The look at a sheet with further titles below, and columns beside those of sexes and exits: it says what a terminal
does, in three languages."""
from __future__ import annotations

import pytest

from web.looks import buttons_of, look_at, part
from web.site import Site, shown

LIST = (
    "Ohrmarke;Geschlecht;geb;Vater;Mutter;Besitzer;Status;Käufer;Kastriert am\n001;m;01.02.2010;;;Huber;aktiv;Zoo;\n"
    "002;w;03.02.2010;;;Huber;aktiv;;1.2.2020\n003;m;03.02.2013;001;002;Huber;aktiv;;1.2.2020\n"
    "Ohrmarke;Halter;geb;Mutter;Vater;Geschlecht;Status;Farbe\n004;Huber;03.02.2013;002;001;w;aktiv;rot\n"
)
SAID = {
    "en": (
        "'Käufer' says 'Zoo', and 'Status' says 'aktiv': the animal counts as living, with its owner",
        "the column 'Kastriert am' says that 1 male is castrated whose sex doesn't: it counts as castrated, without",
        "the column 'Kastriert am' says that 1 female is castrated, '1.2.2020' in line 3: it stays a female",
        "'Farbe' stands among these titles, and not among those in line 1: its column isn't read, with 1 cell, 'rot'",
    ),
    "de": (
        "„Käufer“ sagt „Zoo“, und „Status“ sagt „aktiv“: das Tier gilt als lebend, bei seinem Besitzer",
        "die Spalte „Kastriert am“ sagt von 1 männlichen Tier, dass es kastriert ist, was sein Geschlecht nicht sagt:",
        "die Spalte „Kastriert am“ sagt von 1 weiblichen Tier, dass es kastriert ist, „1.2.2020“ in Zeile 3: es bleibt",
        "„Farbe“ steht unter diesen Titeln, aber nicht unter denen in Zeile 1: diese Spalte wird nicht gelesen; sie",
    ),
    "fr": (
        "« Käufer » dit « Zoo », et « Status » dit « aktiv » : l'animal compte comme vivant, chez son propriétaire",
        "la colonne « Kastriert am » dit de 1 mâle qu'il est castré, ce que son sexe ne dit pas : il compte comme",
        "la colonne « Kastriert am » dit de 1 femelle qu'elle est castrée, « 1.2.2020 », ligne 3 : elle reste une",
        "« Farbe » est parmi ces titres, mais pas parmi ceux de la ligne 1 : cette colonne n'est pas lue ; elle a 1",
    ),
}
IN_OTHER_ORDER = {
    "en": "in another order, by which the rows below it are read, 'Halter' as 'Besitzer'",
    "de": "in anderer Reihenfolge, nach der die Zeilen darunter gelesen sind, „Halter“ als „Besitzer“",
    "fr": "dans un autre ordre, d'après lequel les lignes qui suivent sont lues, « Halter » comme « Besitzer »",
}


@pytest.mark.parametrize("language", SAID)
def test_what_is_said(empty_site: Site, language: str) -> None:
    site = empty_site
    site.get(f"/language/{language}")
    address, page = look_at(site, LIST)
    first, left_out = (shown(part(page, title, language)) for title in ("May be wrong", "Left out"))
    plain = str.maketrans("\u202f\xa0", "  ")
    assert not [one for one in SAID[language] if one not in first.translate(plain)], first
    assert IN_OTHER_ORDER[language] in left_out.translate(plain)
    assert len([one for one in buttons_of(page) if "Farbe" in one]) == 1
    site.take(address)
    with site.desk.opened() as book:
        assert book and [book.society_records[id].castrated for id in ("001", "002", "003")] == [False, False, True]
