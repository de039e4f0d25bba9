"""A secretary's whole way in Chromium, from an empty folder to a list, a certificate, a plan, a second sheet and undo,
in each language; and the search while she types."""
from __future__ import annotations

import pathlib
from collections.abc import Iterator

import pytest
from selenium import webdriver
from selenium.webdriver.common.keys import Keys
from selenium.webdriver.support.ui import Select

from web.said import in_each
from web.screen import PHONE, Screen
from web.server import Server
from front_desk.desk import TOP, Desk

LANGUAGES = ("en", "de", "fr")
EXAMPLE = TOP / "examples/society.csv"


@pytest.fixture
def server(desk: Desk) -> Iterator[Server]:
    found = Server(desk.room, desk.program)
    yield found
    found.end()


class Secretary(Screen):
    """Who uses the pages, as they are seen."""

    def __init__(self, chromium: webdriver.Chrome, server: Server, language: str) -> None:
        super().__init__(chromium, server.base)
        self.at = LANGUAGES.index(language)
        self.opens(server.link)
        self.opens(f"/language/{language}")

    def says(self, what: str, *values: object) -> str:
        return in_each(what)[self.at].format(*values)

    def is_told(self, what: str, *values: object) -> None:
        self.sees(self.says(what, *values))

    def clicks(self, what: str) -> None:
        """A button or a link with a text."""
        self.leaves_by(f'//*[self::button or self::a][normalize-space()="{self.says(what)}"]')

    def fills(self, name: str, text: str) -> None:
        self.writes(f'//*[@name="{name}"]', text)

    def goes_to(self, what: str) -> None:
        self.leaves_by(f'//nav//a[normalize-space()="{self.says(what)}"]')

    def drops(self, path: pathlib.Path) -> None:
        self.goes_to("Take a sheet")
        self.does('//input[@type="file"]', lambda field: field.send_keys(str(path)))
        self.clicks("Look at it")


@pytest.mark.parametrize("language", LANGUAGES)
def test_whole_way(chromium: webdriver.Chrome, server: Server, desk: Desk, language: str) -> None:
    secretary = Secretary(chromium, server, language)
    secretary.is_told("There is no book in this folder yet.")
    # the first sheet: one column has a title that says nothing
    text = EXAMPLE.read_text(encoding="utf-8")
    first = desk.room / "erste Tabelle.csv"
    first.write_text(text.replace(",dam,", ",x,", 1), encoding="utf-8")
    secretary.clicks("Take your first sheet")
    secretary.drops(first)
    secretary.does('//select[@name="column-dam"]', lambda field: Select(field).select_by_visible_text("x"))
    secretary.clicks("Look anew")
    secretary.is_told("The book would have {} animals.", 502, 500)
    assert not (desk.room / "book").exists()
    secretary.clicks("Take it into the book")
    secretary.is_told("{} is taken.", first.name)
    # the list, and a certificate
    secretary.goes_to("Animals")
    secretary.is_told("{} animals", 502)
    secretary.fills("words", "GK-14/388b")
    secretary.is_told("{} animal", 1)
    secretary.leaves_by('//a[normalize-space()="GK-14/388b"]')
    secretary.sees("1/4 = 0")
    certificate = f'//a[normalize-space()="{secretary.says("Certificate to print")}"]'
    secretary.opens(secretary.waits(lambda: str(secretary.there(certificate).get_attribute("href")), certificate))
    secretary.sees("GK-05/192c")
    style = "getComputedStyle(document.querySelector('table')).tableLayout"
    assert secretary.reads(style) == "fixed", "the certificate's style is taken"
    # a plan for all
    secretary.opens("/matings")
    secretary.clicks("A plan for all dams")
    secretary.fills("most", "20")
    secretary.clicks("Make the plan")
    dams = desk.listed("list", "--living", "--sex", "f")
    secretary.is_told("{} matings.", len(dams))
    # a second sheet, with one animal more
    second = desk.room / "second.csv"
    second.write_text(first.read_text(encoding="utf-8") + "Lower Mill,NEW-1,f,2019-01-01,,,\n", encoding="utf-8")
    secretary.drops(second)
    secretary.is_told("The book would have {} animals.", 503, 1)
    secretary.clicks("Take it into the book")
    secretary.is_told("{} is taken.", second.name)
    # undo, with a question
    secretary.goes_to("History")
    secretary.clicks("Undo")
    secretary.is_told("Bring back the book as it was after change {}?", 1)
    secretary.clicks("Yes, bring it back")
    secretary.is_told("The state after change {} is brought back.", 1)
    assert len(desk.good("list").out.splitlines()) == 503
    assert not secretary.told()


def test_typing(chromium: webdriver.Chrome, society_desk: Desk) -> None:
    """What is found is shown while somebody types, and animals are offered below a field; a birth is filed by keys."""
    server = Server(society_desk.room, society_desk.program)
    secretary = Secretary(chromium, server, "en")
    secretary.goes_to("Animals")
    secretary.fills("words", "mill 47")
    secretary.sees("2 animals")
    secretary.is_shown("location.search.includes('words=mill+47')", True)
    # each with its number, by which it was found
    rows = "[...document.querySelectorAll('tbody th')].map(one => one.innerText.split('\\n')[0])"
    secretary.is_shown(rows, ["GK-03/142c", "GK-16/433c"])
    secretary.opens("/file/birth")
    secretary.fills("id", "NEW-1")
    secretary.does('//input[@name="sex"][@value="F"]', lambda field: field.send_keys(Keys.SPACE))
    secretary.reads("document.getElementsByName('day')[0].value = '2024-03-01'")
    secretary.fills("sire", "GK-10/29")
    secretary.is_shown("document.querySelectorAll('#sire-found > [value=\"GK-10/294b\"]').length", 1)
    secretary.fills("sire", "GK-10/294b")
    secretary.leaves_by('//*[@name="dam"]', lambda field: field.send_keys("GK-17/472c", Keys.ENTER))
    secretary.is_told("Accepted.")
    # gone back to, the form has all that was written: another animal isn't filed without its parents
    secretary.goes_back()
    written = "['id', 'sire', 'dam'].map(name => document.querySelector(`input[name=${name}]`).value)"
    secretary.is_shown(written, ["NEW-1", "GK-10/294b", "GK-17/472c"])
    assert "closed" in server.end()
    assert "17/512" in society_desk.good("show", "NEW-1").out


def test_folded_on_paper(chromium: webdriver.Chrome, society_desk: Desk) -> None:
    """What is folded on a screen, and how many it is, stands on paper, but for the animals that a sheet changed."""
    server = Server(society_desk.room, society_desk.program)
    secretary = Secretary(chromium, server, "en")
    secretary.opens("/history/1")
    folded = "document.querySelectorAll('details:not([open], .no-print, .stays) > :is(ul, .wide), summary .count')"
    are_seen = f"[...{folded}].map(one => one.checkVisibility())"
    on_screen = secretary.reads(are_seen)
    chromium.execute_cdp_cmd("Emulation.setEmulatedMedia", {"media": "print"})
    on_paper = secretary.reads(are_seen)
    chromium.execute_cdp_cmd("Emulation.setEmulatedMedia", {"media": ""})
    assert isinstance(on_screen, list) and False in on_screen
    assert isinstance(on_paper, list) and on_paper and all(on_paper)
    server.end()


def test_findings_on_a_telephone(chromium: webdriver.Chrome, society_desk: Desk) -> None:
    """What is found stays within the width of a telephone: nothing is pushed aside to be read."""
    server = Server(society_desk.room, society_desk.program)
    secretary = Secretary(chromium, server, "de")
    secretary.becomes_small()
    secretary.opens("/history/1")
    secretary.reads("document.querySelectorAll('details').forEach(one => one.open = true)")
    widths = "[...document.querySelectorAll('html, .findings')].map(one => [one.scrollWidth, one.clientWidth])"
    found = secretary.reads(widths)
    assert isinstance(found, list) and len(found) > 2
    assert all(needed <= there <= PHONE["width"] for needed, there in found), found
    server.end()


def test_tables_of_the_breed(chromium: webdriver.Chrome, society_desk: Desk) -> None:
    """Ids and names stand at the left of their columns, and figures at the right."""
    server = Server(society_desk.room, society_desk.program)
    secretary = Secretary(chromium, server, "en")
    secretary.goes_to("The breed")
    secretary.sees("Mean kinship")
    secretary.is_shown("document.querySelectorAll('.breed .measures').length > 0", True)
    # the heading comes first, also on a telephone and for a screen reader
    first = "[...document.querySelectorAll('main h1, main form, main .breed')].map(one => one.localName)"
    assert secretary.reads(first) == ["h1", "form", "div"]
    cells = secretary.reads("""[...document.querySelectorAll('.breed :is(tbody th, tbody td)')].map(one => {
        const style = getComputedStyle(one);
        return [one.classList.contains('number'), style.textAlign, style.display, one.textContent];
    })""")
    assert isinstance(cells, list) and len(cells) > 100
    for is_figure, side, display, text in cells:
        assert side in (("right",) if is_figure else ("left", "start")) and display == "table-cell", text
    server.end()


def test_read_only(chromium: webdriver.Chrome, society_desk: Desk) -> None:
    """Nothing that changes is offered."""
    server = Server(society_desk.room, society_desk.program, "--read-only")
    secretary = Secretary(chromium, server, "en")
    secretary.is_told("This desk is only to be read: nothing can be changed here.")
    said = str(secretary.reads("document.querySelector('nav').innerText"))
    assert "Animals" in said and "Take a sheet" not in said and "File a command" not in said
    server.end()
