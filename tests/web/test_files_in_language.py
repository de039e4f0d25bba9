"""Files of pages have the titles of the page's language, and what reads them again reads all three."""
from __future__ import annotations

import pytest

from front_desk.desk import Desk
from web.looks import PAIR, TITLES
from web.site import Site
from gudokeyi.domain.settings import LANGUAGES

TITLES_OF = {
    "report": {
        "en": "line,id,what,why,change",
        "de": "Zeile;Ohrmarke;Art;Worum es geht;Änderung",
        "fr": "Ligne;Boucle;Genre;De quoi il s'agit;Modification",
    },
    "seals": {
        "en": "day,edition,steps,animals,seal",
        "de": "Tag;Ausgabe;Vorgänge;Tiere;Siegel",
        "fr": "Jour;Édition;Commandes;Animaux;Sceau",
    },
    "owners": {
        "en": "owner,member_number,address,mail,telephone,animals,living",
        "de": "Besitzer;Mitgliedsnummer;Anschrift;E-Mail;Telefon;Tiere;Lebende",
        "fr": "Propriétaire;Numéro de membre;Adresse;E-mail;Téléphone;Animaux;Vivants",
    },
    "year": {
        "en": "day,what,id,number,name,sex,birth,sire,dam,from,owner,reason,exit_in_sheet",
        "de": "Tag;Art;Ohrmarke;Nummer;Name;Geschlecht;Geburtstag;Vater;Mutter;Bisheriger Besitzer;Besitzer;Grund;"
        "Abgang in der Tabelle",
        "fr": "Jour;Genre;Boucle;Numéro;Nom;Sexe;Date de naissance;Père;Mère;Ancien propriétaire;Propriétaire;Motif;"
        "Sortie dans le tableau",
    },
}
ADDRESSES = {"report": "/history/1/report.csv", "seals": "/seals.csv", "owners": "/owners.csv", "year": "/year/2001.csv"}
LEFT_OUT = {
    "en": "4,018,left out,",
    "de": "4;018;Weggelassen;",
    "fr": "4;018;Omis;",
}


@pytest.mark.parametrize("language", LANGUAGES)
def test_titles(empty_site: Site, desk: Desk, language: str) -> None:
    desk.take(TITLES + PAIR.replace("Rex;m", "Rex;zz"))
    empty_site.get(f"/language/{language}")
    files = {name: empty_site.get(at).get_data().decode("utf-8-sig").splitlines() for name, at in ADDRESSES.items()}
    assert {name: lines[0] for name, lines in files.items()} == {name: of[language] for name, of in TITLES_OF.items()}
    assert any(line.startswith(LEFT_OUT[language]) for line in files["report"])


@pytest.mark.parametrize("language", LANGUAGES)
def test_seals_read_again(empty_site: Site, desk: Desk, language: str) -> None:
    """Where a line isn't the journal's that is seen below each of the titles."""
    desk.take(TITLES + PAIR)
    desk.good("seal", "--publish")
    empty_site.get(f"/language/{language}")
    text = empty_site.get("/seals.csv").get_data()
    desk.write("seals.csv", text)
    assert "1 published" in desk.good("verify", "--published", "seals.csv").out
    desk.write("seals.csv", text.replace(b"1", b"2"))
    assert desk.run("verify", "--published", "seals.csv").status
