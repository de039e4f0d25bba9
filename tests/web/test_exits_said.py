"""What a page says of exits in words: why an animal left, words that are no exits, and animals that live again."""
from __future__ import annotations

import pytest

from web.looks import Says, buttons_of, look_at, part, press
from web.site import Site, shown

TITLES = "Ohrmarke;Geschlecht;geb;Vater;Mutter;Besitzer;Abgang am;Verbleib\n"
ROWS = (
    "001;m;01.02.2010;;;Huber;;lebt\n002;w;03.02.2010;;;Huber;1.2.2020;verkauft an Zoo\n003;w;3.2.2013;001;002;Huber;;Zirkus\n"
    "004;w;3.2.2013;001;002;Huber;;lebt\n"
)


@pytest.mark.parametrize(("language", "button"), [
    ("en", "'Zirkus' means: no exit"), ("de", "„Zirkus“ heißt: kein Abgang"), ("fr", "« Zirkus » signifie : aucune sortie"),
])  # fmt: skip
def test_word_that_is_no_exit(empty_site: Site, language: str, button: str) -> None:
    """It is said by a button, and what stands beside a day is shown on the animal's page."""
    site = empty_site
    site.get(f"/language/{language}")
    address, page = look_at(site, TITLES + ROWS)
    assert button in buttons_of(page)
    press(site, address, page, button)
    site.take(address)
    with site.desk.opened() as book:
        assert book and not book.society_records["003"].exit.day_is_unknown
        sold = book.society_records["002"]
    assert sold.exit.text == "verkauft an Zoo"
    assert Says(language)("(in the sheet: {})", sold.exit.text) in shown(site.page(f"/animal/{sold.registration_number}"))


def test_exit_with_more_text(empty_site: Site) -> None:
    """One that begins a cell tells of itself, one behind a word for living of others, which a preview says."""
    rows = ROWS.replace("verkauft an Zoo", "lebt, verkauft 2 Lämmer an Huber").replace("Zirkus", "PTS, pet only")
    address, page = look_at(empty_site, TITLES + rows)
    told = Says("en")(
        "'{}' says '{}', and '{}' says '{}': the animal counts as gone, on the day of the first", "Abgang am", "1.2.2020",
        "Verbleib", "lebt, verkauft 2 Lämmer an Huber",
    )  # fmt: skip
    assert told in shown(page)
    empty_site.take(address)
    with empty_site.desk.opened() as book:
        assert book and book.society_records["003"].exit.text == "PTS, pet only"


def test_day_of_a_sale_elsewhere(empty_site: Site) -> None:
    """A preview says of a sale within the society since when, and speaks of no empty text."""
    site, rows = empty_site, ROWS.replace("Huber", "Zoo", 1)
    address, _ = look_at(site, TITLES + rows.replace("1.2.2020;verkauft an Zoo", ";"))
    site.take(address)
    address, page = look_at(site, TITLES + rows)
    told = Says("en")(
        "owner {}, before {}: '{}' names an owner of the society, so it hasn't left", "Zoo", "Huber",
        "verkauft an Zoo 1.2.2020",
    )  # fmt: skip
    assert told in shown(page) and "''" not in shown(page)
    site.take(address)
    with site.desk.opened() as book:
        assert book and book.records[book.society_records["002"].registration_number].since.isoformat() == "2020-02-01"


@pytest.mark.parametrize(("language", "told"), [
    ("en", "1 animal that had left counts as living again, 002 (line 3): is its exit missing in the sheet?"),
    ("de", "1 abgegangenes Tier zählt wieder als lebend, 002 (Zeile 3): fehlt sein Abgang in der Spalte?"),
    ("fr", "1 animal sorti compte de nouveau comme vivant, 002 (ligne 3) : sa sortie manque-t-elle dans la colonne ?"),
])  # fmt: skip
def test_exit_that_vanishes(empty_site: Site, language: str, told: str) -> None:
    """One is told as several are, by its animal; no button makes a column unread that has others."""
    site, titles = empty_site, TITLES.replace(";Verbleib", "")
    rows = "002;w;03.02.2010;;;Huber;{}\n003;w;3.2.2013;001;002;Huber;3.4.2021\n"
    address, _ = look_at(site, titles + "001;m;01.02.2010;;;Huber;\n" + rows.format("1.2.2020"))
    site.take(address)
    site.get(f"/language/{language}")
    _, page = look_at(site, titles + "001;m;01.02.2010;;;Huber;\n" + rows.format(""))
    assert told in shown(page).replace("\u202f", " ").replace("\xa0", " ")
    assert not [one for one in buttons_of(page) if "Abgang" in one or "sortie" in one or "exit" in one]


@pytest.mark.parametrize(("language", "told"), [
    ("en", "since when the row says that Kunz has it"),
    ("de", "und seit diesem Tag gehört das Tier laut der Zeile Kunz"),
    ("fr", "et depuis ce jour la ligne dit que l'animal est à Kunz"),
])  # fmt: skip
def test_sale_before_the_owner_of_now(empty_site: Site, language: str, told: str) -> None:
    """A preview tells of a sale before the owner of now, and of one with a death behind it."""
    empty_site.get(f"/language/{language}")
    rows = "001;m;01.02.2010;;;Zoo;;\n002;w;03.02.2010;;;Huber;;verkauft an Zoo 1.2.2020, † 3.5.2021\n"
    rows += "003;w;3.2.2013;001;002;Kunz;5.5.2022;verkauft an Zoo 3.4.2018\n"
    _, page = look_at(empty_site, TITLES.replace("Abgang am;Verbleib", "seit;Abgang") + rows)
    assert told in shown(page).replace("\u202f", " ").replace("\xa0", " ") and "† 3.5.2021" in shown(page)
