"""Pages and the words of the command line give the same: they share one layer."""
from __future__ import annotations

import csv
import datetime
import html
import io
import pathlib
import re
import sqlite3
from fractions import Fraction
from typing import Any

import pytest

from web.site import Site, shown
from front_desk.desk import Desk
from gudokeyi.services.found_animals import Asked, found_by
from gudokeyi.store.sorted_animals import Order
from gudokeyi.web.routes.matings import level_of
from gudokeyi.web.views.animals import asked_by, fields_of, turned

INBRED, DAM, LEFT = "GK-14/388b", "GK-17/472c", "GK-10/294b"
NUMBER = "HOLGBRM000000000402"
LANGUAGES = ("en", "de", "fr")
COLUMNS = "id,name,number,sex,birth,sire,dam,owner,exit,coefficient,decimal,percent"


def without_links(page: str) -> str:
    """A page of certificates without the links to their files, which aren't printed."""
    return re.sub("<nav>.*</nav>\n", "", page)


@pytest.mark.parametrize("language", LANGUAGES)
def test_printed(site: Site, society_desk: Desk, language: str) -> None:
    """Certificates and pedigrees are those that the words write, but for links to certificates' files, each byte."""
    site.get(f"/language/{language}")
    words = ["--language", language, "--out"]
    society_desk.good("certificate", INBRED, *words, "one.html")
    one = site.get(f"/animal/{NUMBER}/certificate").get_data(as_text=True)
    assert f"/animal/{NUMBER}/certificate.txt" in one and without_links(one) == society_desk.text("one.html")
    society_desk.good("certificate", "--owner", "Lower Mill", "--living", *words, "many.html")
    many = site.get("/certificates?owner=lower+mill").get_data(as_text=True)
    assert without_links(many) == society_desk.text("many.html")
    society_desk.good("pedigree", INBRED, *words, "tree.svg")
    assert site.get(f"/animal/{NUMBER}/pedigree").get_data(as_text=True) == society_desk.text("tree.svg")
    society_desk.good("pedigree", INBRED, "--generations", "8", *words, "tree.html")
    assert site.get(f"/animal/{NUMBER}/pedigree?generations=8").get_data(as_text=True) == society_desk.text("tree.html")


@pytest.mark.parametrize("generations", ["0", "11", "0019", "-1", "x"])
def test_generations(site: Site, generations: str) -> None:
    """A pedigree of more generations than are printed, or of none, has as many as usual."""
    usual = site.get(f"/animal/{NUMBER}/pedigree").get_data()
    assert site.get(f"/animal/{NUMBER}/pedigree?generations={generations}").get_data() == usual


@pytest.mark.parametrize(
    "asked, words",
    [
        ("", []),
        ("living=1", ["--living"]),
        ("living=1&sex=F&owner=Oak+Lodge", ["--living", "--sex", "f", "--owner", "Oak Lodge"]),
        ("from=2010&to=2012", ["--born", "2010..2012"]),
        ("sex=M&from=2015", ["--sex", "m", "--born", "2015.."]),
    ],
)
def test_animals(site: Site, society_desk: Desk, asked: str, words: list[str]) -> None:
    """The file of animals is that of `list`, and the page has as many, in the same order."""
    text = society_desk.good("list", "--columns", COLUMNS, *words).out
    rows = list(csv.DictReader(io.StringIO(text)))
    assert with_marks(site.get(f"/animals.csv?{asked}").get_data(as_text=True)) == rows
    page = site.page(f"/animals?{asked}")
    assert f"{len(rows)} animals" in shown(page)
    assert ids_in(page) == [row["id"] for row in rows[:50]]
    behind = re.findall(r"[\d.]+%", shown(page).partition("F ")[2])
    assert behind[: len(rows)] == [row["percent"] + "%" if row["coefficient"] != "0" else "0%" for row in rows[:50]]


def with_marks(text: str) -> list[dict[str, str]]:
    """The rows of a page's file, with the marks behind the values that they are of."""
    rows = list(csv.DictReader(io.StringIO(text)))
    for row in rows:
        for name, _, mark in (one.partition(": ") for one in filter(None, row.pop("inferred", "").split("; "))):
            row[{"Birth day": "birth", "Sex": "sex", "Exit": "exit"}[name]] += f" ({mark})"
    return rows


def ids_in(page: str) -> list[str]:
    return [html.unescape(id) for id in re.findall(r'<th scope="row"><a href="/animal/\w+"><bdi>(.*?)</bdi>', page)]


@pytest.mark.parametrize("order", ["id", "name", "sex", "birth", "coefficient"])
def test_sorted(site: Site, order: str) -> None:
    """All pages together have each animal once, sorted; turned round the other way."""
    everything = list(csv.DictReader(io.StringIO(site.get("/animals.csv").get_data(as_text=True))))
    values = {row["id"]: sorted_by(order, row) for row in everything}
    for down in ("", "1"):
        ids = [
            id for page in range(1, 12) for id in ids_in(site.page(f"/animals?order={order}&down={down}&page={page}"))
        ]
        assert sorted(ids) == sorted(values)
        found = [values[id] for id in ids]
        assert found == sorted(found, reverse=bool(down))


def sorted_by(order: str, row: dict[str, str]) -> Any:
    """The value by which a row is sorted, without the mark behind it."""
    return float(row["percent"]) if order == "coefficient" else row[order].removesuffix(" (inferred)")


def test_asked_again(site: Site, monkeypatch: pytest.MonkeyPatch) -> None:
    """What leads from a page of animals to another asks for the same animals, sorted as it says; there is no page
    behind the last one, and the search while typing has animals of the sex alone."""
    asked = asked_by(
        {"words": "gk 1", "living": "1", "sex": "F", "owner": "Oak Lodge", "from": "2001", "to": "2015", "down": "1"}
    )
    assert asked_by(fields_of(asked)) == asked
    upwards = turned(asked, Order.ID)
    assert (
        not upwards.is_downwards
        and turned(upwards, Order.ID).is_downwards
        and not turned(asked, Order.BIRTH).is_downwards
    )
    # what an animal was before a change is no animal more
    site.post("/file/exit", id=DAM, day="2024-05-01")
    monkeypatch.setattr("gudokeyi.services.found_animals.ON_A_PAGE", 251)
    with site.desk.opened() as book:
        assert book
        found = found_by(book, Asked(page=9))
        assert (found.total, found.page, found.pages, len(found.rows)) == (502, 2, 2, 251)
        ids = [one["id"] for one in site.get("/search?words=gk&sex=M").get_json() or []]
        assert ids and {book.society_records[id].registration_number[6] for id in ids} == {"M"}


def test_levels() -> None:
    """A coefficient that is a bound is of the more related."""
    assert [level_of(Fraction(1, part)) for part in (64, 32, 16, 8, 4)] == [0, 1, 2, 3, 4]


def test_found(site: Site, society_desk: Desk) -> None:
    """The search finds what `find` finds."""
    for words in (["mill", "47"], ["gk-17"], ["HOLGBRM0000000004"]):
        listed = [row["id"] for row in society_desk.listed("find", *words)]
        assert ids_in(site.page("/animals?words=" + "+".join(words))) == listed[:50]
    assert "0 animals" in shown(site.page("/animals?words=nothing+of+that"))


def test_an_animal(site: Site, society_desk: Desk) -> None:
    """The page of an animal has what `show` tells: parents, offspring, sibs, coefficient and changes."""
    for id in (INBRED, DAM, "GK-05/192c"):
        told = society_desk.good("show", id, "--all").out
        number = re.search(r"number +(\w+)", told)
        assert number
        page = shown(site.page(f"/animal/{number[1]}"))
        ids = set(re.findall(r"GK-\d\d/\d\d\d[bc]", told.partition("history")[0]))
        assert ids <= set(re.findall(r"GK-\d\d/\d\d\d[bc]", page))
        fraction = re.search(r"coefficient +(\S+)", told)
        assert fraction and f" {fraction[1]} " in page
        counts = re.search(r"full sibs: (\d+)", told)
        assert counts and f"Full sibs {counts[1]} " in page


@pytest.mark.parametrize("left", ["", "1"])
def test_matings(site: Site, society_desk: Desk, left: str) -> None:
    site.post("/file/exit", id=LEFT, day="2024-05-01")
    words = ["mating", "--dam", DAM] + ["--left"] * bool(left)
    text = society_desk.good(*words).out
    rows = list(csv.DictReader(io.StringIO(text)))
    assert with_marks(site.get(f"/matings.csv?dam={DAM}&left={left}").get_data(as_text=True)) == rows
    page = site.page(f"/matings?dam={DAM}&left={left}")
    percents = ["0" if row["coefficient"] == "0" else row["percent"] for row in rows]
    assert re.findall(r'class="number level level-\d">([\d.]+)%<', page) == percents
    assert ids_in(page) == [row["id"] for row in rows]
    # the other advice is asked anew
    other = ids_in(site.page(f"/matings?dam={DAM}&left={'' if left else 1}"))
    assert (LEFT in ids_in(page), LEFT in other) == (bool(left), not left)


def test_plan(site: Site, society_desk: Desk) -> None:
    asked = "made=1&most=20&at_most=1/16"
    page = site.page(f"/matings/plan?{asked}")
    done = society_desk.good("plan", "--most-for-a-sire", "20", "--at-most", "1/16")
    assert site.get(f"/matings/plan.csv?{asked}").get_data(as_text=True) == done.out
    means = re.findall(r"[\d.]+%", done.err.splitlines()[-1])
    assert all(mean in shown(page) for mean in means)
    assert page.count('scope="row"') == len(done.out.splitlines()) - 1


@pytest.mark.parametrize("language", LANGUAGES)
def test_breed(site: Site, society_desk: Desk, language: str, monkeypatch: pytest.MonkeyPatch) -> None:
    """The breed's state is the part of the page that `breed` writes; an animal's page has its mean kinship then."""
    # a page waits for no measures, however soon they come
    monkeypatch.setattr("gudokeyi.web.workers.SOON", 0)
    site.get(f"/language/{language}")
    page = site.page("/breed")
    society_desk.good("breed", "--language", language, "--out", "breed.html")
    if language == "de":
        society_desk.good("breed", "--owner", "Oak Lodge", "--language", language, "--out", "owner.html")
        society_desk.good("breed", "--born", "2010..2012", "--language", language, "--out", "born.html")
        for asked, name in ("owner=Oak+Lodge", "owner.html"), ("from=2010&to=2012", "born.html"):
            # nothing of other animals is shown meanwhile
            assert 'class="breed"' not in site.get(f"/breed?{asked}").get_data(as_text=True)
            own = society_desk.text(name).partition("</h1>\n")[2].partition("</main>")[0]
            assert own in site.page(f"/breed?{asked}")
        # as copied from another page
        own = society_desk.text("owner.html").partition("</h1>\n")[2].partition("</main>")[0]
        assert own in site.page("/breed?owner=+%C2%ADOak++Lodge")
    part = society_desk.text("breed.html").partition("</h1>\n")[2].partition("</main>")[0]
    assert part in page
    rows = society_desk.listed("list", "--columns", "number,mean_kinship")
    kinship = next(float(row["mean_kinship"]) for row in rows if row["number"] == NUMBER)
    decimal = f"{kinship * 100:.2f}".replace(".", "." if language == "en" else ",")
    assert re.search(f"<b>{decimal}.?%</b>", site.page(f"/animal/{NUMBER}"))


def test_overview(site: Site, society_desk: Desk) -> None:
    """The start page's figures are those of `breed` and `list`."""
    said = shown(site.page("/"))
    assert f"Animals {len(society_desk.listed('list'))} Living {len(society_desk.listed('list', '--living'))}" in said
    measured = shown(site.page("/breed"))
    mean = re.search(r"Mean inbreeding ([\d.]+)%", measured)
    shown_mean = re.search(r"Mean coefficient of the living ([\d.]+)%", said)
    assert mean and shown_mean and abs(float(mean[1]) - float(shown_mean[1])) <= 0.0051


def test_history(site: Site, society_desk: Desk, today: datetime.date) -> None:
    """The history has each change, and the copy is a whole book."""
    society_desk.good("exit", DAM, "--day", "2024-05-01")
    page = shown(site.page("/history"))
    assert "2 filed an exit" in page and "1 took the sheet society.csv" in page
    change = shown(site.page("/history/2"))
    assert f"{DAM} exit: 2024-05-01" in change
    assert site.get("/history/2/report.csv").get_data(as_text=True) == society_desk.text("book/report.csv")
    answer = site.get("/book.sqlite")
    assert str(today) in answer.headers["Content-Disposition"]
    copy = society_desk.room / "copy.sqlite"
    copy.write_bytes(answer.get_data())
    society_desk.good("restore", str(copy), "--book", "again")
    assert society_desk.good("list", "--book", "again").out == society_desk.good("list").out
    with sqlite3.connect(copy) as connection:
        assert connection.execute("SELECT count(*) FROM change").fetchone() == (2,)


def test_settings(site: Site, society_desk: Desk) -> None:
    """What is set on the page is what `settings` says, and the other way round; new numbers have the breed and country,
    and others stay."""
    assert re.search(r'name="breed"[^>]* value="HOL"', site.page("/settings"))
    assert '<html lang="fr">' in site.get("/settings", {"Accept-Language": "en;q=0.8, de;q=0, it, FR-ch"}).get_data(
        as_text=True
    )
    assert '<html lang="en">' in site.get("/settings", {"Accept-Language": "it, de;q=0"}).get_data(as_text=True)
    society_desk.good("birth", "NEW-1", "--sex", "f", "--day", "2024-03-01", "--breed", "ABC", "--country", "DEU")
    # an import's letters are its own
    assert re.search(r'name="breed"[^>]* value="HOL"', site.page("/settings"))
    site.post(
        "/settings",
        name="Goats & <Kids>",
        address="Church Lane 1\nUV1",
        breed="sku",
        country="DEU",
        unknown="Leih",
        language="fr",
    )
    told = society_desk.good("settings").out
    named = "name: Goats & <Kids>\naddress: Church Lane 1, UV1\nbreed-name: not said\nbreed: SKU\ncountry: DEU\n"
    assert told == f"{named}unknown: Leih\nlanguage: fr\npicture: none\n"
    society_desk.good("settings", "--name", "Others", "--language", "de")
    page = site.page("/settings")
    assert 'value="Others"' in page and '<html lang="de">' in page and ">Church Lane 1\nUV1</textarea>" in page
    answer = site.post("/settings", breed="sk")
    assert answer.status_code == 400 and "drei Buchstaben" in answer.get_data(as_text=True)
    sheet = pathlib.Path(__file__).parent.parent.parent / "examples/society.csv"
    society_desk.good("import", str(sheet))
    society_desk.good("birth", "NEW-2", "--sex", "f", "--day", "2024-03-01")
    numbers = society_desk.numbers()
    assert numbers[INBRED] == "HOLGBRM000000000402" and numbers["NEW-2"] == "SKUDEUF000000000504"
