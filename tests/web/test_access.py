"""What screen readers, keyboards and weak eyes need: labels, headings, languages and contrast."""
from __future__ import annotations

import html.parser
import pathlib
import re

import pytest

from web.site import Site
from front_desk.desk import TOP
from gudokeyi.render.drawing import DAM, GREY, INBRED, INBRED_INK, INK, PAPER, SIRE

PAGES = [
    "/", "/animals", "/animals?words=nothing", "/animal/HOLGBRM000000000402", "/sheet", "/file", "/file/birth",
    "/file/parents?id=GK-17/472c", "/file/transfer", "/file/exit", "/matings?dam=GK-17/472c", "/matings/plan", "/breed",
    "/history", "/history/1", "/history/0/undo", "/settings", "/nothing",
]  # fmt: skip
STYLE = (TOP / "src/gudokeyi/web/static/desk.css").read_text(encoding="utf-8")


class Outline(html.parser.HTMLParser):
    """The headings of a page in their order, the ids that have a label, the fields without one, and the text of links
    and buttons."""

    def __init__(self) -> None:
        super().__init__()
        self.headings: list[int] = []
        self.labels: set[str] = set()
        self.fields: list[str] = []
        self.ids: list[str] = []
        self.language = ""
        self.open_labels = 0
        self.texts: list[str] = []
        self.within = 0
        self.columns: list[dict[str, str | None]] = []

    def handle_starttag(self, tag: str, attrs: list[tuple[str, str | None]]) -> None:
        given = dict(attrs)
        if "id" in given:
            self.ids.append(given["id"] or "")
        if tag == "html":
            self.language = given.get("lang") or ""
        elif re.fullmatch("h[1-6]", tag):
            self.headings.append(int(tag[1]))
        elif tag == "label":
            self.open_labels += 1
            self.labels.add(given.get("for") or "")
        elif tag in ("input", "select", "textarea") and given.get("type") != "hidden" and not self.open_labels:
            self.fields.append(given.get("id") or "without an id")
        elif tag in ("a", "button"):
            self.within += 1
            self.texts.append(given.get("aria-label") or "")
        elif tag == "th":
            self.columns.append(given)

    def handle_endtag(self, tag: str) -> None:
        self.open_labels -= tag == "label"
        self.within -= tag in ("a", "button")

    def handle_data(self, data: str) -> None:
        if self.within:
            self.texts[-1] += data.strip()


@pytest.mark.parametrize("address", PAGES)
def test_outline(site: Site, address: str) -> None:
    """Each field has a label, each link and button a text, each table heads with a scope; there is one first heading,
    none is left out below it, no id is there twice, and the page says its language."""
    site.get("/language/fr")
    text = site.get(address).get_data(as_text=True)
    page = Outline()
    page.feed(text)
    assert page.language == "fr"
    assert page.headings.count(1) == 1 and page.headings[0] == 1
    assert all(after <= before + 1 for before, after in zip(page.headings, page.headings[1:])), page.headings
    assert set(page.fields) <= page.labels, set(page.fields) - page.labels
    assert len(page.ids) == len(set(page.ids))
    assert all(page.texts), page.texts
    assert all(one.get("scope") in ("col", "row") for one in page.columns)
    assert 'href="#content"' in text and '<main id="content"' in text
    assert "<a href" in text and "aria-current" in text or address == "/nothing"


def colours(is_dark: bool) -> dict[str, str]:
    """By their names, as the system wants them light or dark."""
    light, _, dark = STYLE.partition("(prefers-color-scheme: dark)")
    named = re.compile(r"--([\w-]+): (#[0-9a-f]{3,6});")
    return dict(named.findall(light)) | (dict(named.findall(dark)) if is_dark else {})


def luminance(colour: str) -> float:
    """The relative luminance of the guidelines on accessibility (WCAG 2)."""
    digits = colour[1:] if len(colour) == 7 else "".join(2 * one for one in colour[1:])
    parts = [int(digits[at : at + 2], 16) / 255 for at in (0, 2, 4)]
    linear: list[float] = [part / 12.92 if part <= 0.04045 else ((part + 0.055) / 1.055) ** 2.4 for part in parts]
    return 0.2126 * linear[0] + 0.7152 * linear[1] + 0.0722 * linear[2]


@pytest.mark.parametrize(
    "ink, ground",
    [
        ("ink", "paper"), ("ink", "ground"), ("quiet", "paper"), ("quiet", "ground"), ("main", "paper"), ("main", "ground"),
        ("on-bar", "bar"), ("on-bar", "bar-dark"), ("main", "tint"), ("main", "head"), ("quiet", "rule"),
        ("good", "good-ground"), ("wrong", "wrong-ground"), ("look", "look-ground"),
        ("inbred-ink", "inbred"), ("good", "paper"), *(("ink", f"level-{at}") for at in range(5)),
    ],
)  # fmt: skip
@pytest.mark.parametrize("is_dark", [False, True])
def test_contrast(ink: str, ground: str, is_dark: bool) -> None:
    """Letters stand out by 4.5 to 1 at least."""
    found = colours(is_dark)
    light, dark = sorted((luminance(found[ink]), luminance(found[ground])), reverse=True)
    assert (light + 0.05) / (dark + 0.05) >= 4.5


@pytest.mark.parametrize(
    "ink, grounds", [(GREY, (SIRE, DAM, PAPER)), (INBRED_INK, (INBRED, PAPER)), (INK, (SIRE, DAM, INBRED))]
)
def test_contrast_of_pictures(ink: str, grounds: tuple[str, ...]) -> None:
    """So do those of pedigrees and certificates, on the colours of sires and dams."""
    for ground in grounds:
        light, dark = sorted((luminance(ink), luminance(ground)), reverse=True)
        assert (light + 0.05) / (dark + 0.05) >= 4.5, ground


def test_nothing_from_elsewhere() -> None:
    """Pages, styles and the script name no other site."""
    desk = TOP / "src/gudokeyi/web"
    files: list[pathlib.Path] = [*desk.glob("templates/*"), *desk.glob("static/*")]
    for path in files:
        text = path.read_text(encoding="utf-8").replace("http://www.w3.org/2000/svg", "")
        assert not re.search(r"https?:|//\w+\.\w+/|@import|url\(", text), path
    assert len((desk / "static/search.js").read_text(encoding="utf-8").splitlines()) < 80
