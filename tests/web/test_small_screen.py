"""What pages show on a telephone and on a wide screen: nothing is pushed aside there but a long pedigree."""
from __future__ import annotations

import pytest
from selenium import webdriver

from web.screen import PHONE, Screen
from web.server import Server
from front_desk.desk import Desk

# with known ancestors of six generations
DEEP = "GK-18/500c"
NUMBER = "HOLGBRF000000000500"


@pytest.fixture
def screen(chromium: webdriver.Chrome, society_desk: Desk) -> Screen:
    """That of somebody who is in, with a book that was changed twice."""
    society_desk.good("exit", "GK-17/472c", "--day", "2024-05-01")
    server = Server(society_desk.room, society_desk.program)
    found = Screen(chromium, server.base)
    found.opens(server.link)
    return found


def test_history(screen: Screen) -> None:
    """To undo a change is offered within the screen: on a telephone a change stands in several lines."""
    links = f"""[...document.querySelectorAll('.words td a')]
        .filter(one => {["Undo", "Back to here"]}.includes(one.innerText.trim()))
        .map(one => [one.getBoundingClientRect().left >= 0, one.getBoundingClientRect().right <= innerWidth])"""
    lines = "new Set([...document.querySelector('.words tbody tr').children].map(one => one.offsetTop)).size"
    fits = "[document.documentElement, ...document.querySelectorAll('.words')].every(one => one.scrollWidth <= one.clientWidth)"
    for is_small in False, True:
        if is_small:
            screen.becomes_small()
        screen.opens("/history")
        assert screen.reads(links) == [[True, True]] * 2
        assert screen.reads(fits) is True
        assert (screen.reads(lines) == 1) is not is_small


PAGES = [
    "/", "/animals", "/animals?words=GK-1&sex=F", f"/animal/{NUMBER}", f"/animal/{NUMBER}/correct", "/matings?dam=GK-17/471c",
    "/matings/plan?made=1&most=5&age=1", "/breed", "/history", "/history/1", "/history/1/undo", "/seals", "/settings", "/sheet",
    "/file/birth",
]  # fmt: skip
# what can be pushed aside within a page, but what nobody sees and names that end with dots
PUSHED = """[...document.querySelectorAll('main *')].filter(one => one.scrollWidth > one.clientWidth + 1 && one.clientWidth > 30
    && ['auto', 'scroll'].includes(getComputedStyle(one).overflowX)).map(one => one.className)"""
TITLES = "[...document.querySelectorAll('.listed tbody th')]"


def test_pages(screen: Screen) -> None:
    """The menu is a button in one line, a list has two lines for an animal, filters are folded but where one is chosen,
    a pedigree is a tree, and no page or part of one is wider than the screen."""
    screen.becomes_small()
    for address in PAGES:
        screen.opens(address)
        screen.is_shown("document.querySelector('meta[http-equiv]') === null", True)
        assert screen.reads("[innerWidth, document.documentElement.scrollWidth]") == [PHONE["width"]] * 2, address
        assert screen.reads(PUSHED) == [], address
        assert screen.reads("document.querySelector('.top').offsetHeight < 60"), address
    screen.opens("/animals")
    heights = f"Math.max(...{TITLES}.map(one => one.parentNode.offsetHeight))"
    assert screen.reads(f"{heights} < 70") is True
    assert screen.reads("document.querySelector('.more-filters').open") is False
    screen.does("//summary", lambda one: one.click())
    screen.leaves_by('//details//a[normalize-space()="The breed"]')
    screen.opens("/animals?sex=F")
    assert screen.reads("document.querySelector('.more-filters').open") is True
    screen.opens(f"/animal/{NUMBER}")
    assert screen.reads("document.querySelector('.picture').offsetHeight === 0 && document.querySelectorAll('.tree li').length > 6")


@pytest.mark.parametrize("generations", [4, 5, 8])
def test_pedigree(screen: Screen, society_desk: Desk, generations: int) -> None:
    """A telephone shows one of few generations as a whole, and pushes each page of a long one aside in its own box."""
    address = f"/animal/{society_desk.numbers()[DEEP]}/pedigree?generations={generations}"
    width = "Math.max(document.documentElement.scrollWidth, document.documentElement.getBoundingClientRect().width)"
    screen.opens(address)
    drawn = screen.reads("document.querySelector('svg').getBoundingClientRect().width")
    assert isinstance(drawn, float | int) and drawn > 600
    screen.becomes_small()
    screen.opens(address)
    assert screen.reads(f"{width} <= innerWidth") is True
    if generations > 5:
        assert screen.reads("innerWidth") == PHONE["width"]
        boxes = screen.reads("[...document.querySelectorAll('section')].map(one => [one.scrollWidth, one.clientWidth])")
        assert (
            isinstance(boxes, list)
            and len(boxes) > 1
            and all(inside > 1000 and shown == PHONE["width"] for inside, shown in boxes)
        )
