"""How tests look at a sheet: its rows, the page of a look, and the buttons that choose something."""
from __future__ import annotations

import re

from web.site import Site, shown
from gudokeyi.render.page_language import PageLanguage

TITLES = "Ohrmarke;Name;Geschlecht;geb;Vater;Mutter;Besitzer\n"
PAIR = "001;Max;m;2001-01-01;;;Huber\n002;Eva;w;2001-02-01;;;Huber\n018;Rex;m;2001-03-01;;;Huber\n"


def calves(count: int, sire: str = "001", dam: str = "002") -> str:
    return "".join(f"{100 + at};;w;{2003 + at}-01-01;{sire};{dam};Huber\n" for at in range(count))


class Says:
    """The texts of a language as `shown` has them."""

    def __init__(self, language: str) -> None:
        self.words = PageLanguage(language)

    def __call__(self, text: str, *values: object) -> str:
        return " ".join(self.words.gettext(text, *values).split())

    def counted(self, one: str, several: str, count: int) -> str:
        return " ".join(self.words.ngettext(one, several, count).split())


def look_at(site: Site, text: str, **options: str) -> tuple[str, str]:
    """The address and the page of a sheet."""
    address = site.drop("herde.csv", text.encode())
    if options:
        site.post(f"{address}/columns", **options)
    return address, site.page(address)


def buttons_of(page: str) -> list[str]:
    """What the buttons say that choose something."""
    return [shown(one) for one in re.findall(r'<form class="choice".*?</form>', page, re.DOTALL)]


def press(site: Site, address: str, page: str, label: str) -> str:
    """The page behind a button."""
    form = next(one for one in re.findall(r'<form class="choice".*?</form>', page, re.DOTALL) if shown(one) == label)
    [option] = re.findall(r'name="option" value="([^"]*)"', form)
    [word] = re.findall(r'name="word" value="([^"]*)"', form)
    return site.page(site.post(f"{address}/suggested", option=option, word=word).headers["Location"])


def part(page: str, title: str, language: str = "en") -> str:
    """A part of what is found, from its title to the next one."""
    found = re.search(
        rf"<details[^>]*>\s*<summary><h3>{PageLanguage(language).gettext(title)} .*?</table>", page, re.DOTALL
    )
    return found[0] if found else ""
