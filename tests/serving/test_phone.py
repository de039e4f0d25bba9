"""A new clerk and a new inspector on a telephone: they log in, find an animal and file, and lose nothing where a login
ends."""
from __future__ import annotations

import re

import pytest
from selenium import webdriver

from web.screen import PHONE, Screen
from web.test_access import Outline
from front_desk.desk import Desk
from gudokeyi.store.accounts import Accounts
from serving.server import Server
from serving.visitor import WORD, Served, Visitor, with_accounts

DAM, OTHER = "GK-17/472c", "another good word"
# as the server's log has what was refused: the wrong password, and the form that was sent when the login was over
REFUSED = [("POST /login", "401", "refused login as Carl"), ("POST /file/<kind>", "401", "refused login")]


class Phone(Screen):
    """Who uses the pages on a small screen."""

    def __init__(self, chromium: webdriver.Chrome, server: Server) -> None:
        super().__init__(chromium, f"http://127.0.0.1:{server.port}")
        self.server = server
        self.becomes_small()

    def comes_to(self, path: str) -> None:
        self.opens(path)
        self.fits()

    def fits(self) -> None:
        """Nothing of the page is beside the screen."""
        needed = self.reads("document.documentElement.scrollWidth")
        assert isinstance(needed, int) and needed <= PHONE["width"]

    def is_told(self, text: str) -> None:
        self.sees(text)
        self.fits()

    def waits_for(self, line: str) -> None:
        """Something is in the server's log."""
        self.waits(lambda: line in self.server.logged(), line)

    def fills(self, name: str, text: str) -> None:
        self.writes(f'//main//*[@name="{name}"]', text)

    def clicks(self, what: str) -> None:
        self.leaves_by(f'//*[self::button or self::a][normalize-space()="{what}"]')

    def logs_in(self, name: str, password: str = WORD) -> None:
        self.fills("name", name)
        self.fills("password", password)
        self.leaves_by("//main//button")


def test_phone(chromium: webdriver.Chrome, society_desk: Desk, cheap: None) -> None:
    with_accounts(society_desk.room / "book")
    server = Server(society_desk.room, society_desk.program)
    phone = Phone(chromium, server)
    # the inspector comes to the page that was asked for, and is offered nothing to file
    phone.comes_to("/animals?words=472")
    phone.is_told("Who forgot the password gets another one from a keeper of the book.")
    phone.logs_in("Ines")
    phone.is_told(DAM)
    assert "File a command" not in str(phone.reads("document.querySelector('nav').innerText"))
    phone.clicks("Log out")
    phone.is_told("You are logged out.")
    # the clerk writes a form, and the login ends meanwhile
    phone.logs_in("Carl", "wrong")
    phone.is_told("The name or the password is wrong.")
    phone.logs_in("Carl")
    phone.is_told("The book at a glance")
    phone.comes_to("/file/exit")
    phone.fills("id", DAM)
    phone.reads("document.getElementsByName('day')[0].value = '2024-05-01'")
    phone.waits_for("GET /search 200")
    Accounts(society_desk.room / "book").change_password("Carl", OTHER, OTHER)
    # no animals are offered any more while somebody types, and that is no fault
    phone.fills("id", DAM)
    phone.waits_for("GET /search 302")
    phone.clicks("File it")
    phone.is_told("You aren't logged in any more. Log in: what you wrote is kept, and nothing was filed yet.")
    phone.logs_in("Carl", OTHER)
    phone.is_told(DAM)
    phone.clicks("Yes, send it")
    phone.is_told("Accepted.")
    for path in "/", "/history", "/history/2", "/settings", "/password", "/matings", "/sheet":
        phone.comes_to(path)
    # where measures can't be made the page says why
    phone.comes_to("/breed?from=2017&to=2017")
    phone.is_told("not each of the four paths")
    phone.clicks("Log out")
    phone.is_told("You are logged out.")
    phone.goes_back()
    phone.is_told("Log in")
    is_told = " - Failed to load resource: the server responded with a status of 401 (UNAUTHORIZED)"
    assert phone.told() <= {f"/login{is_told}", f"/file/exit{is_told}"}
    server.end()
    refused = re.findall(r"([A-Z]+ \S+) ([45]\d\d) \d+ms(?: (.*))?", server.logged())
    assert refused == REFUSED
    assert " Carl: " in society_desk.good("history").out


@pytest.mark.parametrize("address", ["/login", "/password", "/accounts", "/restore"])
def test_outline(served: Served, address: str) -> None:
    """Each field has a label, no id is there twice, and headings follow each other."""
    visitor = Visitor(served, "Kim")
    visitor.get("/language/de")
    page = Outline()
    page.feed(visitor.get(address).get_data(as_text=True))
    assert page.language == "de" and page.headings.count(1) == 1 and page.headings[0] == 1
    assert all(after <= before + 1 for before, after in zip(page.headings, page.headings[1:]))
    assert set(page.fields) <= page.labels and len(page.ids) == len(set(page.ids)) and all(page.texts)
