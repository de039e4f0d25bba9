"""What is said for the reading of a sheet: fields that can't be read, and what holds for later sheets; and how the look
at it and the change say how much it is."""
from __future__ import annotations

import datetime
import io
import re

import openpyxl
import pytest

from web.looks import PAIR, TITLES, Says, calves, look_at
from web.site import Site, shown
from web.test_desk_sheets import EXAMPLE
from front_desk.desk import Desk
from gudokeyi.domain.settings import LANGUAGES


@pytest.mark.parametrize("language", LANGUAGES)
def test_wrong_country(empty_site: Site, language: str) -> None:
    """It is told beside its field, what would change is shown without it, and it isn't taken before it is mended."""
    site, words = empty_site, Says(language)
    site.get(f"/language/{language}")
    address, page = look_at(site, TITLES + PAIR, breed="sku", country="DE")
    field = re.search(r'<input id="country"[^>]*>\s*<strong class="is-wrong" id="country-wrong">.*?</strong>', page)
    assert field and 'aria-invalid="true"' in field[0] and "country-wrong" in field[0] and "DE" in shown(field[0])
    assert words("This can't be read so. Mend it, and look anew; what would change is shown without it:") in shown(
        page
    ) and words.counted("The book would have {} animal.", "The book would have {} animals.", 3) in shown(page)
    assert f"{address}/take" not in page and words("It can be taken once what is marked is mended.") in shown(page)
    site.post(f"{address}/take", looked=site.looked())
    assert site.desk.folder.exists() is False
    site.post(f"{address}/columns", breed="sku", country="deu")
    site.take(address)
    # settings have what the numbers begin with, and tell what is wrong beside its field
    page = site.page("/settings")
    assert words("Breed in new numbers") in shown(page) and words("Country in new numbers") in shown(page)
    assert re.search(r'name="breed"[^>]*value="SKU"', page) and re.search(r'name="country"[^>]*value="DEU"', page)
    page = site.post("/settings", country="DE").get_data(as_text=True)
    assert re.search(r'<input id="country"[^>]*aria-invalid="true"[^>]*>\s*<strong class="is-wrong"', page)


@pytest.mark.parametrize("language, day", [("en", "2199-03-05"), ("de", "05.03.2199"), ("fr", "05/03/2199")])
def test_days_of_a_workbook(empty_site: Site, language: str, day: str) -> None:
    """A day of an .xlsx file, which has no way of its own to be written, is written as the page writes days."""
    workbook, file = openpyxl.Workbook(), io.BytesIO()
    for row in ["Tag", "Geschlecht", "geb", "Vater", "Mutter"], ["a", "m", datetime.date(2199, 3, 5), "", ""]:
        workbook.active.append(row)
    workbook.save(file)
    empty_site.get(f"/language/{language}")
    page = shown(empty_site.page(empty_site.drop("herd.xlsx", file.getvalue())))
    # among the first rows, and where it is told that it isn't over yet
    assert page.count(day) >= 2 and (day == "2199-03-05" or "2199-03-05" not in page)


@pytest.mark.parametrize("language", LANGUAGES)
def test_unknown_of_earlier_sheets(empty_site: Site, language: str) -> None:
    """Settings have the words for unknown parents that sheets were read with; they hold on."""
    site, words = empty_site, Says(language)
    site.get(f"/language/{language}")
    assert words("known from earlier sheets: {}", "") not in shown(site.page("/settings"))
    address, _ = look_at(site, TITLES + PAIR + "019;Uli;m;2003-03-01;fremd;extern;Huber\n", unknown="fremd,extern")
    site.take(address)
    assert words("known from earlier sheets: {}", "fremd,extern") in shown(site.page("/settings"))


@pytest.mark.parametrize("field, text", [
    ("day", "morgen"), ("day", "2199-12-31"), ("youngest", "x"), ("apart", "-1"), ("sexes", "Zibbe"), ("owner", "Meier"),
])  # fmt: skip
def test_wrong_fields(empty_site: Site, field: str, text: str) -> None:
    _, page = look_at(empty_site, TITLES + PAIR, **{field: text})
    assert f'<strong class="is-wrong" id="{field}-wrong">' in page
    assert "The book would have 3 animals." in shown(page) and "/take" not in page


def test_owner_who_is_not_there(site: Site, society_desk: Desk) -> None:
    """Who is no owner of the book can't be written otherwise: that is told beside the field, and what would change is
    shown without it; one who is can."""
    address = site.drop("sheet.csv", EXAMPLE.replace(b"Oak Lodge", b"Oak Lodges"))
    site.post(f"{address}/columns", owner="Oak Lodge=Oak Lodges;Nobody=X")
    page = site.page(address)
    field = re.search(r'<strong class="is-wrong" id="owner-wrong">.*?</strong>', page)
    assert field and "the book has no owner 'Nobody'" in shown(field[0])
    assert "The book would have 502 animals." in shown(page) and f"{address}/take" not in page
    site.post(f"{address}/take", looked=site.looked())
    assert len(society_desk.good("history").out.splitlines()) == 1
    site.post(f"{address}/columns", owner="Oak Lodge=Oak Lodges")
    page = site.take(address)
    assert "Oak Lodges" in shown(page)
    assert "transfer" not in "\n".join(society_desk.commands())


def test_findings_come_first(empty_site: Site) -> None:
    """What is found stands above the lists of columns, and what may be wrong has its row's cells beside it."""
    _, page = look_at(empty_site, TITLES + PAIR)
    assert page.index('<div class="outcome">') < page.index('<form class="reading"')
    rows = "200;;w;2015-01-01;900;002;Huber\n201;;w;01.02.2030;900;002;Huber\n"
    _, page = look_at(empty_site, TITLES + PAIR + rows)
    may_be_wrong = shown(page).partition("The columns")[0]
    assert "2030" in may_be_wrong and "Huber" in may_be_wrong


@pytest.mark.parametrize(("language", "told"), [
    ("en", "15 animals: 14 new, 1 added as a parent, 1 left out, 1 inferred"),
    ("de", "15 Tiere: 14 neu, 1 als Elternteil hinzugefügt, 1 weggelassen, 1 erschlossen"),
    ("fr", "15 animaux : 14 nouveaux, 1 ajouté comme parent, 1 omis, 1 déduit"),
])  # fmt: skip
def test_counts_of_a_change(empty_site: Site, language: str, told: str) -> None:
    """All animals stand first, and what they are made up of behind them."""
    site = empty_site
    rows = calves(10) + "200;;w;2015-01-01;900;002;Huber\n001;;;;;;\n"
    address, page = look_at(site, TITLES + PAIR + rows)
    assert "Animals with a row 14 Parents without a row, added 1" in shown(page)
    site.take(address)
    site.get(f"/language/{language}")
    assert told in shown(site.page("/history/1")).replace("  ", " ")


def test_owner_written_otherwise(desk: Desk, empty_site: Site) -> None:
    """A change by which an owner is only written otherwise tells whose animals' owner that is, in each language."""
    rows = "id;sex;birth;sire;dam;owner\ns;M;2001-03-01;;;{}\nd;F;2001-03-02;;;Groß\n"
    desk.take(rows.format("Meier"))
    desk.take(rows.format("Meyer"), "--owner", "Meier=Meyer")
    for language, counts, told, owner in (
        ("en", "2 animals: 1 changed", "the owner 'Meier' of 1 animal is written 'Meyer' from now on",
         "s owner: Meyer (before: Meier )"),
        ("de", "2 Tiere: 1 geändert", "der Besitzer „Meier“ von 1 Tier wird von jetzt an „Meyer“ geschrieben",
         "s Besitzer: Meyer (vorher: Meier )"),
        ("fr", "2 animaux : 1 modifié", "le propriétaire « Meier » de 1 animal s'écrit désormais « Meyer »",
         "s propriétaire : Meyer (avant : Meier )"),
    ):  # fmt: skip
        empty_site.get(f"/language/{language}")
        page = " ".join(shown(empty_site.page("/history/2")).split()).replace("’", "'")
        assert [one for one in (counts, told, owner) if one not in page] == [], page[:1500]
