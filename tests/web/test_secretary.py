"""A secretary's work in Chromium, in German, at a desk and on a telephone: what may be wrong is said before it is
filed, a litter, a change that is undone, and the drawn pedigree."""
from __future__ import annotations

from selenium import webdriver
from selenium.webdriver.support.ui import Select

from front_desk.desk import Desk
from front_desk.test_taken_back import SHEET
from web.screen import Screen
from web.server import Server

# nothing is wider than a telephone
FITS = "document.documentElement.scrollWidth <= window.innerWidth"


def test_secretary(chromium: webdriver.Chrome, desk: Desk, program: str) -> None:
    desk.take(SHEET)
    server = Server(desk.room, program)
    screen = Screen(chromium, server.base)
    screen.opens(server.link)
    screen.opens("/language/de?to=/")
    # a birth whose owner is mistyped: what was written stays, and it is mended there
    screen.opens("/file/birth?id=B1&dam=A1&sex=F&day=2021-03-01")
    screen.writes("//input[@id='owner']", "Oakk")
    screen.leaves_by("//main//form//button[not(@name)]")
    screen.sees("das Herdbuch hatte keinen Besitzer „Oakk“: ist „Oak“ gemeint?")
    assert screen.reads("document.getElementById('id').value + document.getElementById('owner').value") == "B1Oakk"
    assert screen.reads(FITS)
    screen.writes("//input[@id='owner']", "Oak")
    screen.leaves_by("//main//form//button[not(@name)]")
    screen.sees("Angenommen.")
    # a litter too near to it, filed all the same
    screen.becomes_small()
    screen.opens("/litter?dam=A1&day=2021-04-01&id-0=DE 09&sex-0=F&sex-1=M&sex-2=M&dead-2=1")
    screen.leaves_by("//main//form//button[not(@name)]")
    screen.sees("die Mutter A1 hat B1 nur 31 Tage vorher geboren; unter 100 wird es gemeldet")
    assert screen.reads(FITS) and screen.reads("document.getElementById('dead-2').checked")
    screen.leaves_by("//main//form//button[@name='anyway']")
    screen.sees("Der Wurf ist gemeldet: Änderung 3.")
    screen.sees("DE 10")
    assert screen.reads(FITS)
    # the birth is undone, and the litter stays
    screen.opens("/history/2")
    screen.leaves_by("//a[contains(., 'Diese Änderung zurücknehmen')]")
    screen.sees("Nichts Späteres baut darauf auf.")
    assert screen.reads(FITS)
    screen.leaves_by("//main//form//button")
    screen.sees("Sie ist zurückgenommen: Änderung 4.")
    # a parent in the picture leads to its page
    screen.opens("/animal/HOLGBRF000000000003")
    assert screen.reads("document.querySelectorAll('.picture svg a').length") == 2
    screen.opens(str(screen.reads("document.querySelector('.picture svg a').getAttribute('href')")))
    screen.sees("Sultan")
    server.end()


def test_choices_kept(chromium: webdriver.Chrome, desk: Desk, program: str) -> None:
    """What is chosen for another column counts when it is chosen, also where nobody looks anew."""
    sheet = desk.room / "herde.csv"
    sheet.write_text("Ohrmarke;Name;geb;Geschlecht;Vater;Mutter;Farbe\n1;Max;1.3.2001;m;;;braun\n", encoding="utf-8")
    server = Server(desk.room, program)
    screen = Screen(chromium, server.base)
    screen.opens(server.link)
    screen.opens("/language/de?to=/sheet")
    screen.does('//input[@type="file"]', lambda field: field.send_keys(str(sheet)))
    screen.leaves_by("//main//form[@class='drop']//button")
    screen.does("//select[@name='other-kind-0']", lambda field: Select(field).select_by_visible_text("Text"))
    address = str(screen.reads("location.href"))
    screen.opens("/animals")
    screen.opens(address)
    assert screen.reads("document.querySelector('[name=other-kind-0]').value") == "text"
    server.end()
