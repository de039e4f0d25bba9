"""The page on which anything of an animal is corrected: what was written stays after each refusal, two who correct one
animal at once see one another's work, and all of it is said in three languages."""
from __future__ import annotations

import pathlib
from collections.abc import Iterator

import pytest
from selenium import webdriver

from front_desk.desk import Desk
from front_desk.test_corrections import SHEET
from web.screen import Screen
from web.sent_forms import corrected, written_in
from web.server import Server
from web.site import Site, shown, site_of

ANNA, ALF, DORA = "HOLGBRF000000000004", "HOLGBRM000000000005", "HOLGBRF000000000002"


@pytest.fixture
def goats(desk: Desk) -> Desk:
    desk.take(SHEET)
    return desk


@pytest.fixture
def goat_site(goats: Desk, program: str, tmp_path: pathlib.Path) -> Iterator[Site]:
    with site_of(goats.room / "book", program, tmp_path / "dropped") as found:
        found.get("/language/de")
        yield found


def form_of(site: Site, number: str) -> dict[str, str]:
    """The fields of its form; a choice as the page has it chosen."""
    page = site.page(f"/animal/{number}/correct")
    return {**written_in(page), "exit": written_in(page)["shown-exit"]}


def test_corrected(goat_site: Site, goats: Desk) -> None:
    """The page shows what the book has, makes the change that the word makes, and then shows the animal."""
    form = form_of(goat_site, ALF)
    shown_now = [form[name] for name in ("born", "owner-0", "since-0", "exit", "exit-day")]
    assert shown_now == ["05.03.2019", "Oak", "05.01.2020", "left", "2021"]
    written = corrected(form, name="Alfred", **{"owner-0": "Mill", "since-0": "", "owner-1": "Oak", "since-1": "06.02.2020",
                                               "exit": "sold", "exit-day": "01.05.2022"})  # fmt: skip
    answer = goat_site.post(f"/animal/{ALF}/correct", **written)
    assert answer.status_code == 302 and answer.headers["Location"] == f"/animal/{ALF}"
    page = shown(goat_site.page(f"/animal/{ALF}"))
    for text in ("Es ist berichtigt: Änderung 2.", "Oak (seit 06.02.2020)", "01.05.2022, aus dem Verein verkauft", "Name: Alfred (vorher: Alf",
                 "Grund des Abgangs: aus dem Verein verkauft (vorher: –"):  # fmt: skip
        assert text in page, text
    change = shown(goat_site.page("/history/2"))
    assert "berichtigte ein Tier : A2" in change and "Besitzer: Mill, Oak seit 06.02.2020; vorher: Oak" in change
    goats.good("verify")


def test_refused(goat_site: Site) -> None:
    """What can't be is said, nothing is changed, and what was written stays, beside what the book has."""
    form = form_of(goat_site, ANNA)
    written = corrected(
        form, id="A 1", born="01.01.2022", **{"owner-1": "Neu & Alt", "since-1": "02.01.2022"}, embryo="1"
    )
    answer = goat_site.post(f"/animal/{ANNA}/correct", **written)
    page = answer.get_data(as_text=True)
    assert answer.status_code == 400
    assert (
        "B1 Bella, geboren 01.04.2021, mit A 1 Anna, geboren 01.01.2022: die Mutter ist nicht mindestens einen Tag älter"
        in shown(page)
    )
    assert "jetzt im Herdbuch: 01.03.2018" in shown(page)
    again = {**written_in(page), "exit": ""}
    for name in ("id", "born", "owner-1", "since-1", "embryo"):
        assert again[name] == written[name], name
    with goat_site.desk.opened() as book:
        assert book and book.change and book.change.number == 1
    # corrected there it is taken
    answer = goat_site.post(
        f"/animal/{ANNA}/correct", **corrected(again, born="02.03.2018", **{"since-1": "02.01.2020"})
    )
    assert answer.status_code == 302
    assert "Neu & Alt (seit 02.01.2020)" in shown(goat_site.page(f"/animal/{ANNA}"))


@pytest.mark.parametrize("fields, told", [
    ({"id": "S1"}, "das Herdbuch hat ein anderes Tier mit der Ohrmarke S1 Sultan"),
    ({"born": "bald"}, "„bald“ ist kein Tag"),
    ({"owner-1": "Oak"}, "der Tag fehlt, seit dem Oak es hat"),
    ({"since-1": "01.02.2020"}, "steht ohne Besitzer"),
    ({"exit-day": "01.02.2020"}, "der Tag 01.02.2020 eines Abgangs ist angegeben, und kein Abgang"),
    ({"sire": "nobody"}, "Das Herdbuch hat kein Tier „nobody“"),
    ({}, "das Herdbuch hat schon alles so"),
])  # fmt: skip
def test_mistakes(goat_site: Site, fields: dict[str, str], told: str) -> None:
    form = form_of(goat_site, ANNA)
    answer = goat_site.post(f"/animal/{ANNA}/correct", **corrected(form, **fields))
    page = answer.get_data(as_text=True)
    assert answer.status_code == 400 and told in shown(page), shown(page)
    assert {name: written_in(page)[name] for name in fields} == fields


def test_two_at_once(goat_site: Site) -> None:
    """Whoever comes second sees what the first did, and nothing of it is written over but what they write
    themselves."""
    form = form_of(goat_site, ANNA)
    goat_site.post(f"/animal/{ANNA}/correct", **corrected(form, name="Annabell", born="02.03.2018"))
    answer = goat_site.post(f"/animal/{ANNA}/correct", **corrected(form, born="03.03.2018", dam="D2"))
    page = answer.get_data(as_text=True)
    assert answer.status_code == 400 and "jemand hat A1 inzwischen geändert" in shown(page)
    again = {**written_in(page), "exit": ""}
    assert (again["name"], again["born"], again["dam"]) == ("Annabell", "03.03.2018", "D2")
    assert "jetzt im Herdbuch: 02.03.2018" in shown(page)
    assert goat_site.post(f"/animal/{ANNA}/correct", **corrected(again)).status_code == 302
    with goat_site.desk.opened() as book:
        assert book and book.society_records["A1"].name == "Annabell" and str(book.records[ANNA].born) == "2018-03-03"


def test_sent_twice(goat_site: Site) -> None:
    """One change is made, also where the number became another by it; the old address shows the animal."""
    number = "HOLGBRF000000000006"
    form = corrected(form_of(goat_site, number), sex="M", castrated="1")
    found = [goat_site.post(f"/animal/{number}/correct", **form).headers["Location"] for _ in range(2)]
    assert found == ["/animal/HOLGBRM000000000006"] * 2
    assert "kastriert" in shown(goat_site.page(f"/animal/{number}"))
    with goat_site.desk.opened() as book:
        assert book and book.change and book.change.number == 2


@pytest.mark.parametrize("language, at", [("en", 0), ("de", 1), ("fr", 2)])
def test_languages(goat_site: Site, language: str, at: int) -> None:
    """Days are written and read in the page's language."""
    goat_site.get(f"/language/{language}")
    form = form_of(goat_site, ANNA)
    assert form["born"] == ("2018-03-01", "01.03.2018", "01/03/2018")[at]
    day = ("2018-03-02", "02.03.2018", "02/03/2018")[at]
    assert goat_site.post(f"/animal/{ANNA}/correct", **corrected(form, born=day)).status_code == 302
    page = shown(goat_site.page(f"/animal/{ANNA}"))
    told = ("It is corrected: change 2.", "Es ist berichtigt: Änderung 2.", "C'est corrigé : modification 2.")[at]
    assert told in page and day in page


def test_in_browser(chromium: webdriver.Chrome, goats: Desk, program: str) -> None:
    """As a secretary does it: at a desk and on a telephone."""
    server = Server(goats.room, program)
    screen = Screen(chromium, server.base)
    screen.opens(server.link)
    screen.opens("/language/de?to=/")
    screen.opens(f"/animal/{ANNA}")
    screen.leaves_by(f"//a[@href='/animal/{ANNA}/correct']")
    screen.writes("//input[@id='id']", "A 01")
    screen.writes("//input[@id='born']", "01.05.2014")
    screen.leaves_by("//main//form//button")
    screen.sees("mit S1 Sultan, geboren 01.03.2015: der Vater ist nicht mindestens einen Tag älter")
    screen.becomes_small()
    assert screen.reads("document.documentElement.scrollWidth <= 390")
    assert screen.reads("document.getElementById('id').value") == "A 01"
    screen.writes("//input[@id='born']", "01.05.2018")
    screen.writes("//input[@id='owner-1']", "Oak")
    screen.writes("//input[@id='since-1']", "2.6.2019")
    screen.leaves_by("//main//form//button")
    screen.sees("Es ist berichtigt: Änderung 2.")
    screen.sees("Frühere Ohrmarke")
    assert screen.reads("document.documentElement.scrollWidth <= 390")
    screen.sees("Oak (seit 02.06.2019)")
    server.end()
