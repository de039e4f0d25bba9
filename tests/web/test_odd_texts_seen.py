"""The look at a sheet whose names, ids, days and rows say something besides: it says what a terminal does, in three
languages."""
from __future__ import annotations

import pathlib

import pytest

from front_desk.desk import Desk
from web.looks import Says, buttons_of, look_at, part, press
from web.site import Site, shown
from gudokeyi.domain.settings import LANGUAGES

TITLES = "Ohrmarke;Name;geb;Vater;Mutter;Besitzer;\n"
LIST = TITLES + (
    "Böcke;;;;;;\nDE 0001;Max †;2014-05-03;;;Huber Hans;tot 2020\nDE 0002;Sepp;17/03/2014;;;Huber Hans;\n"
    "DE 0003 / DE 0004;Uwe und Udo;2014-04-02;;;Huber Hans;\nZiegen;;;;;;\nDE 0005;Eva RIP;28/04/2014;;;Huber Hans;\n"
    "Pending;Ida;2016-07-03;;DE 0003;Huber Hans;\n;Hof Süd;;;;;\nDE 0006;Ute;01.01.1900;;;Huber Hans;\n"
    "DE 0007;dito;03.01.2017;;;Huber Hans;\nDE 0008;N.N.;04.01.2017;;;Huber Hans;\n"
)
SAID = (
    "its name 'Max †' seems to tell of an exit", "its name 'Eva RIP' seems to tell of an exit",
    "Its id has DE 0003 and DE 0004 in it", "the column G has no title",
    "seems to have exchanged day and month in 'geb'", "'Pending' doesn't read like an id",
    "its name is 'dito', which in other columns stands for the cell above", "has the birth day 1900-01-01", "'Böcke' stands above 3 animals whose rows say no sex",
    "(is DE 0003 / DE 0004 meant?)", "says that there is no name, 'N.N.' in line 12",
)  # fmt: skip


def test_what_is_said(empty_site: Site, program: str, tmp_path: pathlib.Path) -> None:
    """The sentences are those of a terminal."""
    _, page = look_at(empty_site, LIST)
    first, left_out = shown(part(page, "May be wrong")), shown(part(page, "Left out"))
    assert not [one for one in SAID if one not in first]
    assert "it has no id; it says 'Hof Süd'" in left_out
    # what may mix up animals comes before what is left open
    assert first.index("'Pending' doesn't read like an id") < first.index("the column G has no title")
    told = Desk(tmp_path / "terminal", program).take(LIST, "--preview").out
    assert not [one for one in SAID if one not in told] and "it has no id; it says 'Hof Süd'" in told


@pytest.mark.parametrize("language", LANGUAGES[1:])
def test_in_other_languages(empty_site: Site, language: str) -> None:
    """No sentence of it stands in English."""
    empty_site.get(f"/language/{language}")
    _, page = look_at(empty_site, LIST)
    told = shown(part(page, "May be wrong", language)) + shown(part(page, "Left out", language))
    assert "Pending" in told and not [one for one in (" the ", "column", " and ", "row ", " is ") if one in told]


@pytest.mark.parametrize("language", LANGUAGES)
def test_tag_used_again(empty_site: Site, language: str) -> None:
    """What a button says is what it does: the row is taken for the same animal."""
    site, says = empty_site, Says(language)
    address, _ = look_at(site, "id;name;sex;birth;sire;dam\nd1;Susi;f;2019-04-28;;\nd2;Lina;f;2021-03-16;;d1\n")
    site.take(address)
    site.get(f"/language/{language}")
    address, page = look_at(site, "id;name;sex;birth;sire;dam\nd1;Josefa;f;2023-02-13;;\nd2;Lina;f;2021-03-16;;d1\n")
    label = says("They are the same animals: take all such lines")
    assert label in buttons_of(page)
    press(site, address, page, label)


OF_BOOK = (
    "†DE 0001;;2014-05-03;;;Meier Ida;\nDE 0002;Sepp;2017-03-17;†DE 0001;Mutter Name;Meier Ida;\n"
    "DE 0003;Uwe;2014-05-04;;;Huber hans;\n"
)
NOW = OF_BOOK.replace("†", "").replace("DE 0003;Uwe;2014-05-04;;;Huber hans", "DE 0004;Udo;2014-05-05;;;Huber Hans")


@pytest.mark.parametrize("language", LANGUAGES)
def test_what_the_book_has_so(empty_site: Site, language: str) -> None:
    """An id with a sign before it, a title as a parent and an owner in other capitals, which the book has from an
    earlier list: each is said, and one button makes it what the list has now."""
    site, says = empty_site, Says(language)
    address, _ = look_at(site, TITLES + OF_BOOK, animal="†DE 0001")
    site.take(address)
    site.get(f"/language/{language}")
    address, page = look_at(site, TITLES + NOW)
    told = shown(part(page, "May be wrong", language))
    assert not [one for one in (" the ", "column", " and ", "row ", " is ") if one in told and language != "en"], told
    for label in (
        says("{} has the tag {} from now on", "†DE 0001", "DE 0001"),
        says("'{}' means: {}", "Mutter Name", says("unknown parent")),
        says("'{}' is written '{}' from now on", "Huber hans", "Huber Hans"),
    ):
        page = press(site, address, page, label)
        assert label not in buttons_of(page)
    site.take(address)
    with site.desk.opened() as book:
        assert book and "†DE 0001" not in book.society_records and {"Huber Hans"} == {*book.owners} - {"Meier Ida"}
        records = {id: book.records[one.registration_number] for id, one in book.society_records.items()}
        assert book.ids[records["DE 0002"].sire] == "DE 0001" and not records["DE 0002"].dam


BREEDS = "Ohrmarke;Name;Geschlecht;geb;Vater;Mutter;Besitzer;Abgang;Rasse\n" + "".join(
    f"DE {at:04};A{at};w;1{at % 10}.03.2018;;;Huber Hans;;Skudde\n" for at in range(10, 34)
)
MORE = BREEDS + (
    "DE 0040;B;w;14.3.2018 †;;;Huber Hans;;Texel\nDE 0041;C;w;10.07.1905;;;Huber Hans, 079 123 45 67;;Skudde\n"
    "Aus dem Herdbuch gelöscht;;;;;;;;\nDE 0042;D;w;15.03.2018;;;Huber Hans;;Skudde\nDE 0043;Total Tiere;;;;;;;\n"
)
MORE_SAID = {
    "en": ("tells of a death", "a cell whose format is a day", "has the name Huber Hans in it", "animals that count as living"),
    "de": ("spricht von einem Tod", "in einer Zelle im Datumsformat", "Huber Hans, 079 123 45 67", "die als lebend gelten"),
    "fr": ("parle d'une mort", "dans une cellule au format date", "Huber Hans, 079 123 45 67", "qui comptent comme vivants"),
}  # fmt: skip


@pytest.mark.parametrize("language", LANGUAGES)
def test_more_that_is_said(empty_site: Site, language: str) -> None:
    """Of births, owners, sections, sums and breeds a preview says what a terminal does."""
    empty_site.get(f"/language/{language}")
    _, page = look_at(empty_site, MORE)
    told = shown(part(page, "May be wrong", language)).replace("\u00a0", " ").replace("\u202f", " ")
    assert not [one for one in (*MORE_SAID[language], "Texel", "Total Tiere") if one not in told], told
