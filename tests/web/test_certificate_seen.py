"""Certificates in Chromium under a published seal, on paper and on a telephone: nothing of a box is cut but a long
name, and a long id of the fourth and fifth generation; each animal has a sheet. The seal is whole, and the lines to
write on are as high as one another."""
from __future__ import annotations

import base64
import re

import pytest
from selenium import webdriver

from web.screen import PHONE, Screen
from front_desk.desk import Desk
from web.test_picture import picture_of
from gudokeyi.domain.settings import LANGUAGES

NAME = "Wilhelmine Charlotte Friederike von der hohen Wiese am Wald und an der Heide"
OWNER = "Arbeitsgemeinschaft der Halter alter Rassen im Landkreis Sonstwo"
SOCIETY = (
    "Landesverband der Züchter und Halter alter und gefährdeter Nutztierrassen im Südwesten und in Gebieten daneben"
)
ADDRESS = "Wilhelmine Huber\nAm Hang 17\n12345 Hintertupfingen\ninfo@example.org"
# ids of a word, a line and two
BEFORE = ("k-", "de-09-2765-", "de-09-2765-0000123456-zv")
# what leaves its box, or is itself cut
CUT = """[...document.querySelectorAll('.box')].flatMap(box => {
    const edge = box.getBoundingClientRect();
    const isFar = box.closest('.four, .five');
    return [...box.querySelectorAll(isFar ? 'small, .line, .inbred' : 'small, b, .line, .inbred')].filter(one => {
        const part = one.getBoundingClientRect();
        const [wide, high] = [one.scrollWidth - one.clientWidth, one.scrollHeight - one.clientHeight];
        const isCut = one.clientHeight && (wide > 0 || high > 1);
        return isCut || part.left < edge.left || part.right > edge.right || part.bottom > edge.bottom;
    }).map(one => one.innerText);
})"""
WIDTH = "document.documentElement.scrollWidth"
# the parts of a seal that leave their sheet, or lie over one another, and signs below which nothing is written level
UNEVEN = """[...document.querySelectorAll('main')].flatMap(sheet => {
    const edge = sheet.getBoundingClientRect();
    const [day, sign] = [...sheet.querySelectorAll('.sign span')].map(one => one.getBoundingClientRect());
    const [code, told] = ['svg', 'p'].map(one => sheet.querySelector(`.seal ${one}`).getBoundingClientRect());
    const isWithin = told.right <= edge.right && code.bottom <= edge.bottom && code.width > 70;
    return isWithin && code.right <= told.left && Math.abs(day.bottom - sign.bottom) < 1 ? [] : [sheet.innerText];
})"""
# what of the society's name isn't shown below the line for its signature
CUT_SIGNS = """[...document.querySelectorAll('.sign .lines')].filter(one => one.scrollHeight > one.clientHeight + 1)
    .map(one => one.innerText)"""
# boxes, those of common ancestors, and coefficients
COUNTS = "['.box', '.common', '.inbred'].map(one => document.querySelectorAll(one).length)"


def full_sibs(before: str) -> str:
    """Full sibs over seven generations: each birth day is inferred, and each parent written in other letters."""
    rows = ""
    for at in range(7):
        parents = f"{before.upper()}{at - 1}M,{before.upper()}{at - 1}F" if at else ","
        rows += "".join(f"{before}{at}{sex},{NAME},{sex},{2000 + 3 * at},{parents},{OWNER}\n" for sex in "mf")
    return rows


def settings(desk: Desk) -> None:
    (desk.room / "goat.jpg").write_bytes(picture_of(1200, 900, "JPEG"))
    said = "--name", SOCIETY, "--address", ADDRESS, "--breed-name", "Bunte Deutsche Edelziege", "--picture", "goat.jpg"
    assert desk.good("settings", *said).last == "picture: 800 by 600 points"
    desk.good("seal", "--publish")


def test_boxes(chromium: webdriver.Chrome, desk: Desk) -> None:
    desk.take("id,name,sex,birth,sire,dam,owner\n" + "".join(map(full_sibs, BEFORE)))
    settings(desk)
    screen = Screen(chromium, "")
    for language in LANGUAGES:
        name = f"{language}.html"
        desk.good("certificate", *(f"{before}6f" for before in BEFORE), "--language", language, "--out", name)
        address = (desk.room / name).as_uri()
        screen.opens(address)
        assert screen.reads(COUNTS) == [14 * 3, 12 * 3, 14 * 3]
        assert screen.reads(CUT) == []
        chromium.execute_cdp_cmd("Emulation.setEmulatedMedia", {"media": "print"})
        assert screen.reads(CUT) == screen.reads(UNEVEN) == []
        chromium.execute_cdp_cmd("Emulation.setEmulatedMedia", {"media": ""})
        assert sheets_printed(chromium) == 3
        screen.becomes_small()
        screen.opens(address)
        assert screen.reads(CUT) == screen.reads(UNEVEN) == [] and screen.reads(WIDTH) == PHONE["width"]
        assert screen.reads(CUT_SIGNS) == []
        chromium.execute_cdp_cmd("Emulation.clearDeviceMetricsOverride", {})


@pytest.mark.parametrize("generations, boxes", [(4, 30), (5, 62)])
def test_further_generations(chromium: webdriver.Chrome, desk: Desk, generations: int, boxes: int) -> None:
    desk.take("id,name,sex,birth,sire,dam,owner\n" + "".join(map(full_sibs, BEFORE)))
    settings(desk)
    ids = [f"{before}6f" for before in BEFORE]
    desk.good("certificate", *ids, "--generations", str(generations), "--language", "de", "--out", "long.html")
    screen = Screen(chromium, "")
    screen.opens((desk.room / "long.html").as_uri())
    assert screen.reads("document.querySelectorAll('.box').length") == 3 * boxes
    chromium.execute_cdp_cmd("Emulation.setEmulatedMedia", {"media": "print"})
    assert screen.reads(CUT) == screen.reads(UNEVEN) == []
    chromium.execute_cdp_cmd("Emulation.setEmulatedMedia", {"media": ""})
    assert sheets_printed(chromium) == 3


def sheets_printed(chromium: webdriver.Chrome) -> int:
    done = chromium.execute_cdp_cmd("Page.printToPDF", {"preferCSSPageSize": True, "printBackground": True})
    return len(re.findall(rb"/Type\s*/Page\b", base64.b64decode(done["data"])))
