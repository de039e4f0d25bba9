"""Each page once in Chromium, light and dark: contrast of what is read, headings, labels, and where the keyboard is."""
from __future__ import annotations

import pytest
from selenium import webdriver

from web.screen import Screen
from web.server import Server
from front_desk.desk import Desk

NUMBER = "HOLGBRM000000000402"
PAGES = [
    "/", "/about", "/animals", "/animals?words=nothing", "/animals?sex=X&from=no", f"/animal/{NUMBER}",
    f"/animal/{NUMBER}/correct", "/breed", "/sheet", "/file", "/file/birth", "/file/parents?id=GK-17/472c", "/file/transfer",
    "/file/exit", "/matings?dam=GK-17/472c", "/matings/plan?made=1&most=5&age=1", "/history", "/history/1", "/history/0/undo",
    "/seals", "/settings", "/restore", "/nothing", f"/animal/{NUMBER}/note", f"/animal/{NUMBER}/own", "/litter",
    "/year/2016", "/owners", "/owner/1", "/owner/1/erase", "/own-columns",
]  # fmt: skip
# what is wrong on the page that is there
FAULTS = """(() => {
    const parts = (colour) => colour.match(/[\\d.]+/g).map(Number);
    const light = ([red, green, blue]) => [red, green, blue].map(one => one / 255)
        .map(one => one <= 0.04045 ? one / 12.92 : ((one + 0.055) / 1.055) ** 2.4)
        .reduce((sum, one, at) => sum + one * [0.2126, 0.7152, 0.0722][at], 0);
    const ground = (one) => {
        for (; one; one = one.parentElement) {
            const found = parts(getComputedStyle(one).backgroundColor);
            if (found.length < 4 || found[3] === 1) return found;
        }
        return parts(getComputedStyle(document.documentElement).backgroundColor);
    };
    const name = (one) => `${one.tagName}.${one.className} ${one.innerText.slice(0, 30)}`;
    const isSeen = (one) => one.checkVisibility({visibilityProperty: true}) && one.getClientRects().length > 0;
    const faults = [];
    for (const one of document.body.querySelectorAll('*')) {
        if (one.closest('svg, datalist') || !isSeen(one)) continue;
        if (![...one.childNodes].some(child => child.nodeType === 3 && child.data.trim())) continue;
        const style = getComputedStyle(one), size = parseFloat(style.fontSize);
        const [dark, bright] = [light(parts(style.color)), light(ground(one))].sort((a, b) => a - b);
        const least = size >= 24 || (size >= 18.6 && style.fontWeight >= 700) ? 3 : 4.5;
        if ((bright + 0.05) / (dark + 0.05) < least) faults.push(`contrast ${style.color}: ${name(one)}`);
    }
    const headings = [...document.querySelectorAll('h1, h2, h3, h4')].map(one => Number(one.tagName[1]));
    if (headings.filter(one => one === 1).length !== 1 || headings[0] !== 1) faults.push(`headings ${headings}`);
    if (headings.some((one, at) => at && one > headings[at - 1] + 1)) faults.push(`a heading is left out: ${headings}`);
    for (const one of document.querySelectorAll('input:not([type=hidden]), select, textarea'))
        if (!one.labels.length && !one.getAttribute('aria-label')) faults.push(`no label: ${one.name}`);
    for (const one of document.querySelectorAll('a, button, summary, input:not([type=hidden]), select, textarea, [tabindex="0"]')) {
        if (!isSeen(one) || one.disabled) continue;
        one.focus({focusVisible: true});
        const style = getComputedStyle(one);
        if (document.activeElement !== one || style.outlineStyle === 'none' || parseFloat(style.outlineWidth) < 2)
            faults.push(`no focus: ${name(one)}`);
    }
    return faults;
})()"""


@pytest.mark.parametrize("scheme", ["light", "dark"])
def test_pages(chromium: webdriver.Chrome, society_desk: Desk, scheme: str) -> None:
    society_desk.good("seal", "--publish")
    server = Server(society_desk.room, society_desk.program)
    screen = Screen(chromium, server.base)
    screen.opens(server.link)
    media = {"features": [{"name": "prefers-color-scheme", "value": scheme}]}
    chromium.execute_cdp_cmd("Emulation.setEmulatedMedia", media)
    faults = {}
    for address in PAGES:
        screen.opens(address)
        screen.is_shown("document.querySelector('meta[http-equiv]') === null", True)
        faults[address] = screen.reads(FAULTS)
    chromium.execute_cdp_cmd("Emulation.setEmulatedMedia", {"features": []})
    assert {address: one for address, one in faults.items() if one} == {}
