"""Drawn pedigrees of many generations: each page can be printed, and no text leaves its box."""
from __future__ import annotations

import collections
import html
import sqlite3
import time
import xml.etree.ElementTree as xml

import pytest

from front_desk.desk import Desk
from gudokeyi.render.drawing import fitted, fitted_id, in_two_lines, width_of
from gudokeyi.render.page_language import PageLanguage
from gudokeyi.render.pedigree_pictures import Pedigree
from gudokeyi.services.opening import book_in
from gudokeyi.store.coefficients import Coefficient

SVG = "{http://www.w3.org/2000/svg}"
# ids and names of goats of a long line of full sibs
LONG = "DE-09-2765-0000123456-Zuchtverband-Nr-"


def full_sibs(generations: int, before: str = LONG) -> str:
    rows = ["id,name,sex,birth,sire,dam"]
    for at in range(generations + 1):
        parents = f"{before}{at - 1}m,{before}{at - 1}f" if at else ","
        rows += [
            f"{before}{at}{sex},Wilhelmine von der Wiese WWWWWWWWWW,{sex},{1990 + 2 * at}-01-01,{parents}"
            for sex in "mf"
        ]
    return "\n".join(rows) + "\n"


@pytest.mark.parametrize(("generations", "pages"), [(5, 1), (6, 3), (8, 3), (10, 3)])
def test_pages(desk: Desk, generations: int, pages: int) -> None:
    """Two animals, once each, go on on pages of their own; on each the boxes stand apart, within A4."""
    desk.take(full_sibs(10))
    name = "tree.svg" if pages == 1 else "tree.html"
    desk.good("pedigree", f"{LONG}10f", "--generations", str(generations), "--out", name)
    page = desk.page(name)
    pictures = [one for one in page.iter(f"{SVG}svg") if one.get("viewBox")]
    assert len(pictures) == pages
    drawn = set[str]()
    for picture in pictures:
        width, height = (float(text) for text in picture.attrib["viewBox"].split()[2:])
        assert width <= 1046 and height <= 718
        boxes = [
            [float(box.attrib[side]) for side in ("x", "y", "width", "height")]
            for box in picture.iter(f"{SVG}svg")
            if box.get("x")
        ]
        for x, y, wide, high in boxes:
            assert 0 <= x and x + wide <= width and 50 <= y and y + high <= height - 60 and high >= 14
        for one, other in zip(sorted(boxes), sorted(boxes)[1:]):
            assert one[0] != other[0] or one[1] + one[3] < other[1]
        drawn |= {title.text.split(" ")[0] for title in picture.iter(f"{SVG}title") if title.text}
    assert len(drawn) == 2 * generations + 1
    if pages > 1:
        desk.wrong(
            "stand on several pages", "pedigree", f"{LONG}10f", "--generations", str(generations), "--out", "x.svg"
        )


def test_ancestors_that_are_not_drawn(desk: Desk) -> None:
    """They are counted in the database: at each row that is read other threads of a desk are waited for."""
    desk.take(full_sibs(50))
    rows = list[tuple[object, ...]]()

    def noted(_: sqlite3.Cursor, row: tuple[object, ...]) -> tuple[object, ...]:
        rows.append(row)
        return row

    with book_in(desk.room / "book") as book:
        animal = book.society_records[f"{LONG}50f"]
        book.connection.row_factory = noted
        coefficients = collections.defaultdict[str, Coefficient](lambda: Coefficient("0", "0"))
        text = Pedigree(book, animal, coefficients, 2, PageLanguage("en")).text()
    assert "4 known ancestors; 96 more lie further back and aren't drawn." in html.unescape(text)
    assert 5 <= len(rows) < 40


def test_text_in_a_box(desk: Desk) -> None:
    """Texts are cut to the width of their box, which clips what a wider font would draw outside; ids keep their end."""
    desk.take(full_sibs(5))
    desk.good("pedigree", f"{LONG}5f", "--generations", "5", "--out", "tree.svg")
    boxes = [box for box in desk.page("tree.svg").iter(f"{SVG}svg") if box.get("x")]
    assert len(boxes) == 63
    for box in boxes:
        room, high = float(box.attrib["width"]), float(box.attrib["height"])
        for text in box.iter(f"{SVG}text"):
            # capitals and what hangs below the line, within the thickest edge
            y, size = float(text.attrib["y"]), float(text.attrib["font-size"])
            assert 1.3 <= y - 0.72 * size and y + 0.21 * size <= high - 1.3, xml.tostring(text)
            wide = width_of(text.text or "", float(text.attrib["font-size"]), text.attrib["font-weight"] == "bold")
            assert wide <= room - (0 if text.attrib["text-anchor"] == "middle" else 8), xml.tostring(text)
    ids = [next(box.iter(f"{SVG}text")).text or "" for box in boxes]
    assert {id[-2:] for id in ids} == {"5f", *(f"{at}{sex}" for at in range(5) for sex in "mf")}
    assert fitted_id("WWWW", 1, 10) == "…W" and fitted("WWWW", 1, 10) == "…" and fitted_id("ab", 90, 10) == "ab"


def test_very_long_names() -> None:
    """A name of millions of letters, as an earlier version took it, is cut at once, and to what fits."""
    long = "x " * 2_500_000
    begun = time.process_time()
    lines = [fitted(long, 200, 10), fitted_id(long, 200, 10), *in_two_lines(long, 200, 10)]
    assert time.process_time() - begun < 5
    assert all(150 < width_of(line, 10) <= 200 for line in lines), lines
    assert lines[0].endswith("x…") and lines[1].endswith("x ") and lines[3].endswith("…")


def test_short_ids(desk: Desk) -> None:
    """They stand whole beside the coefficient and a letter, also in the lowest boxes, and where a percentage is
    wide."""
    desk.take(full_sibs(9, "GK-00"))
    desk.good("pedigree", "GK-009f", "--generations", "5", "--language", "fr", "--out", "tree.svg")
    boxes = [box for box in desk.page("tree.svg").iter(f"{SVG}svg") if box.get("x")]
    texts = [[text.text or "" for text in box.iter(f"{SVG}text")] for box in boxes]
    assert all(any("%" in text for text in one) for one in texts)
    assert {one[0] for one in texts if one[0].endswith("f")} == {f"GK-00{at}f" for at in range(4, 10)}
    # one line has room for the number alone
    for box, (percent,) in zip(boxes, ([text for text in one if "%" in text] for one in texts)):
        assert percent.startswith("F") == (float(box.attrib["height"]) >= 28)


def test_where_it_goes_on(desk: Desk) -> None:
    """The lowest boxes of the first page name the pages that begin with their animals, and the letters begin there."""
    desk.take(full_sibs(10, "GK-00"))
    desk.good("pedigree", "GK-0010f", "--generations", "10", "--language", "de", "--out", "tree.html")
    pages = [one for one in desk.page("tree.html").iter(f"{SVG}svg") if one.get("viewBox")]
    heads = [next(page.iter(f"{SVG}text")).text for page in pages]
    first, *others = [[texts_of(box) for box in page.iter(f"{SVG}svg") if box.get("x")] for page in pages]
    lowest = {(one[0], heads[int(text[2:]) - 1]) for one in first for text in one if text[:2] == "→ "}
    assert lowest == {
        (id, f"Abstammung von {id}, Wilhelmine von der Wiese WWWWWWWWWW") for id in ("GK-005m", "GK-005f")
    }
    assert all(("%" in "".join(one)) != ("→" in "".join(one)) for one in first)
    assert not [text for page in others for one in page for text in one if "→" in text]
    assert all("," in text and "." not in text for one in first for text in one if "%" in text)
    assert {text for one in first for text in one if len(text) == 1} == set("ABCDEFGH")


def texts_of(box: xml.Element) -> list[str]:
    return [text.text or "" for text in box.iter(f"{SVG}text")]


def test_common_ancestors(mrode_desk: Desk) -> None:
    """A letter at each place of an animal that is on both sides."""
    mrode_desk.good("pedigree", "6", "--out", "tree.svg")
    page = mrode_desk.page("tree.svg")
    texts = [[text.text for text in box.iter(f"{SVG}text")] for box in page.iter(f"{SVG}svg") if box.get("x")]
    assert [box[1] for box in texts if box[0] == "2"] == ["1900 (invented), drawn 2 ti…"] * 2
    letters = [(box[0], box[-1]) for box in texts if box[-1] in ("A", "B", "C")]
    # 5 of 4 and 3, and 2; 4 of 1; 3 of 1 and 2: 1 and 2 are on both sides of 5, 2 is the other parent
    assert letters == [("2", "A"), ("2", "A")]
    mrode_desk.good("pedigree", "5", "--force", "--out", "tree.svg")
    page = mrode_desk.page("tree.svg")
    texts = [[text.text for text in box.iter(f"{SVG}text")] for box in page.iter(f"{SVG}svg") if box.get("x")]
    assert [box[0] for box in texts if box[-1] == "A"] == ["1", "1"]
    frames = ((next(one.iter(f"{SVG}title")).text or "", next(one.iter(f"{SVG}rect"))) for one in page.iter(f"{SVG}g"))
    assert {(title.split(", ")[1][6], frame.get("rx")) for title, frame in frames} == {("M", "3.0"), ("F", "14.0")}
