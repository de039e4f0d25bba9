"""Owners as records, as a secretary keeps them: written, renamed, made one of two, as CSV, and erased for good."""
from __future__ import annotations

import pathlib
from collections.abc import Iterator

import pytest
from selenium import webdriver

from front_desk.desk import Desk
from front_desk.test_corrections import SHEET
from web.screen import Screen
from web.sent_forms import corrected, written_in
from web.server import Server
from web.site import Site, shown, site_of

ANNA, ALF = "HOLGBRF000000000004", "HOLGBRM000000000005"
KEPT = {"number": "M-17", "address": "Hof 3\nBergdorf", "mail": "anna@oak.example", "telephone": "0123 456"}


@pytest.fixture
def goats(desk: Desk) -> Desk:
    desk.take(SHEET)
    return desk


@pytest.fixture
def site(goats: Desk, program: str, tmp_path: pathlib.Path) -> Iterator[Site]:
    with site_of(goats.room / "book", program, tmp_path / "dropped") as found:
        found.get("/language/de")
        yield found


def code_of(desk: Desk, name: str) -> int:
    return next(code for code, owner in desk.owners() if owner == name)


def test_record(site: Site, goats: Desk) -> None:
    """What is kept of an owner is written, found and in the CSV; another name holds for all of the book; two who write
    at once see one another; undo brings back what was."""
    code = code_of(goats, "Oak")
    form = written_in(site.page(f"/owner/{code}"))
    assert site.post(f"/owner/{code}", **corrected(form, **KEPT)).status_code == 302
    late = site.post(f"/owner/{code}", **corrected(form, **KEPT, name="Eiche"))
    assert late.status_code == 400 and "inzwischen geändert" in shown(late.get_data(as_text=True))
    assert 'value="Eiche"' in late.get_data(as_text=True)
    page = shown(site.page("/owners?words=bergdorf"))
    assert "1 Besitzer" in page and "Oak M-17 Hof 3, Bergdorf anna@oak.example 0123 456" in page
    assert "M-17" in site.get("/owners.csv").get_data(as_text=True)
    form = {**written_in(site.page(f"/owner/{code}")), "address": KEPT["address"]}
    assert "gibt es schon" in shown(site.post(f"/owner/{code}", **corrected(form, name="Mill")).get_data(as_text=True))
    assert site.post(f"/owner/{code}", **corrected(form, name="Eiche")).status_code == 302
    assert "Besitzer Eiche" in shown(site.page(f"/animal/{ALF}"))
    assert "Besitzer: Eiche (vorher: Oak" in shown(site.page("/history/3"))
    goats.good("undo", "--to", "1")
    goats.good("verify")
    assert "M-17" not in shown(site.page("/owners")) and "Oak" in shown(site.page("/owners"))


def test_breeder(site: Site) -> None:
    """The breeder is who had the dam on the day of the birth."""
    assert "Züchter Mill" in shown(site.page(f"/animal/{ALF}"))


def test_made_one(site: Site, goats: Desk) -> None:
    """All that one had becomes the other's, in the register too; the sheet as it was doesn't change it back."""
    oak, mill = code_of(goats, "Oak"), code_of(goats, "Mill")
    site.post(f"/owner/{oak}", **corrected(written_in(site.page(f"/owner/{oak}")), **KEPT))
    assert "keinen Besitzer" in shown(site.post(f"/owner/{oak}/merge", into="Wald").get_data(as_text=True))
    assert site.post(f"/owner/{oak}/merge", into="Mill").status_code == 302
    assert {row["owner"] for row in goats.listed("list", "--columns", "id,owner")} == {"Mill"}
    assert not any(f",{oak}," in f"{line}," for line in goats.commands())
    page = shown(site.page("/owners"))
    assert "1 Besitzer" in page and "Mill M-17" in page
    goats.good("verify")
    goats.take(SHEET)
    assert {row["owner"] for row in goats.listed("list", "--columns", "id,owner")} == {"Mill"}
    goats.good("undo", "--to", "1")
    goats.good("verify")
    assert {row["owner"] for row in goats.listed("list", "--columns", "id,owner")} == {"Mill", "Oak"}
    assert mill


def test_erased(site: Site, goats: Desk) -> None:
    """No byte of what was personal is left in the book's folder; the history keeps that it was, and no undo brings it
    back."""
    code = code_of(goats, "Oak")
    site.post(f"/owner/{code}", **corrected(written_in(site.page(f"/owner/{code}")), **KEPT, name="Eichenhof"))
    site.post(f"/animal/{ANNA}/correct", **{"id": "A1"})
    assert "Was das Gesetz meist verlangt" in shown(site.page(f"/owner/{code}/erase"))
    assert site.post(f"/owner/{code}/erase").status_code == 302
    goats.good("verify")
    site.desk.exports.end()
    goats.good("list")
    for path in (goats.room / "book").iterdir():
        if path.is_file():
            for text in ("Eichenhof", "M-17", "Bergdorf", "oak.example", "0123 456", "Oak"):
                assert text.encode() not in path.read_bytes(), (path.name, text)
    assert f"Besitzer {code}" in shown(site.page(f"/animal/{ALF}"))
    assert "löschte Persönliches eines Besitzers" in shown(site.page("/history"))
    goats.good("undo", "--to", "2")
    assert "Eichenhof" not in shown(site.page("/owners")) and "M-17" not in shown(site.page("/owners"))
    goats.good("verify")


def test_in_browser(chromium: webdriver.Chrome, goats: Desk, program: str) -> None:
    """At a desk and on a telephone."""
    server = Server(goats.room, program)
    screen = Screen(chromium, server.base)
    screen.opens(server.link)
    screen.opens("/language/de?to=/")
    screen.opens("/owners")
    screen.leaves_by("//a[@href='/owner/2']")
    screen.writes("//input[@id='mail']", "anna@oak.example")
    screen.leaves_by("(//main//form//button)[1]")
    screen.sees("Es ist festgehalten")
    screen.becomes_small()
    assert screen.reads("document.documentElement.scrollWidth <= 390")
    screen.opens("/owners")
    assert screen.reads("document.documentElement.scrollWidth <= 390")
