"""What a look at a sheet says first, and what a click does about it: rows of totals, misspelt parents and owners, words
for unknown parents, and births that are near one another."""
from __future__ import annotations

import io
import re

import openpyxl
import pytest

from web.looks import PAIR, TITLES, Says, buttons_of, calves, look_at, part, press
from web.site import HOST, Site, shown
from gudokeyi.domain.settings import LANGUAGES


@pytest.mark.parametrize("total", ["Summe;;;;;;", "Summe;;;63;;;", "63;Summe;;;;;", "63;;;;;;Gesamt"])
def test_row_of_a_total(empty_site: Site, total: str) -> None:
    """It is told before all else; a click leaves its line out, which is told, and later sheets are read so too."""
    site, text = empty_site, TITLES + PAIR + calves(9)
    address, page = look_at(site, text + total + "\n")
    first = re.search(r"<tbody>.*?</tr>", part(page, "May be wrong"), re.DOTALL)
    assert first and "14 " in shown(first[0]) and "this row looks like a total" in shown(first[0])
    assert "The book would have 13 animals." in shown(page)
    page = press(site, address, page, "Leave out line 14")
    assert "this row looks like a total" not in page
    assert "Rows of the sheet 13 of these left out 1 Animals with a row 12" in shown(page)
    assert "The book would have 12 animals." in shown(page)
    assert "the row is left out: rows with" in shown(part(page, "Left out"))
    site.take(address)
    with site.desk.opened() as book:
        assert book and len(book.society_records) == 12
    # the next year the total stands elsewhere
    address, page = look_at(site, text + "190;;w;2015-01-01;001;002;Huber\n" + total + "\n")
    assert "Animals with a row 13 of these new 1 of these in the book already 12" in shown(page)
    assert "As last time: Rows that are no animals:" in shown(page)
    page = press(site, address, page, "It is an animal: take line 15")
    assert "Animals with a row 14" in shown(page) and "this row looks like a total" in shown(page)


def test_total_that_was_taken(empty_site: Site) -> None:
    """A total that the book has as an animal may be dropped, by a decision of its own."""
    site, text = empty_site, TITLES + PAIR + calves(9) + "Summe;;;;;;\n"
    address, page = look_at(site, text)
    site.take(address)
    address, page = look_at(site, text, no_animal="Summe")
    assert "Animals of the book without a row 1" in shown(page)
    page = press(site, address, page, "Drop these from the book, but for ancestors of others")
    assert "The book would have 12 animals." in shown(page)
    assert "Drop these from the book, but for ancestors of others" not in buttons_of(page)


def test_animals_with_words_of_totals(empty_site: Site) -> None:
    """What is said of a total leaves out no animal that has its word as a name or an owner."""
    rows = "300;Total;w;2003-01-01;001;002;Total\n301;;w;2004-01-01;001;002;Total\n302;Total;m;;;;\n"
    _, page = look_at(empty_site, TITLES + PAIR + rows + "Total;;;;;;\n", no_animal="Total")
    assert "Rows of the sheet 7 of these left out 1 Animals with a row 6" in shown(page)


@pytest.mark.parametrize(("written", "meant"), [("O18", "018"), ("0l8", "018"), ("0I8", "018"), ("081", "018")])
def test_misspelt_parent(empty_site: Site, written: str, meant: str) -> None:
    """It stands among what may be wrong, which is unfolded, with its line, what stands there and what may be meant."""
    _, page = look_at(empty_site, TITLES + PAIR + calves(9) + f"200;;w;2012-01-01;{written};002;Huber\n")
    found = part(page, "May be wrong")
    assert found.startswith("<details open>")
    assert f"14 {written} the sire of 200 has no row: added without parents (is {meant} meant?)" in shown(found)
    assert f"14 {written}" in shown(part(page, "Added as parents"))


def test_parents_that_are_no_misspelt_ones(empty_site: Site) -> None:
    """A short id is no swapped one where the other can't be the parent, or many parents lack a row."""
    _, page = look_at(empty_site, TITLES + PAIR + calves(9) + "200;;w;2012-01-01;;081;Huber\n")
    assert "meant?" not in page
    strange = "".join(f"{200 + at};;w;2012-01-01;{501 + at};;Huber\n" for at in range(6))
    _, page = look_at(empty_site, TITLES + PAIR + calves(9) + strange + "220;;w;2012-01-01;081;;Huber\n")
    assert "meant?" not in page


ANDERS = calves(3, "anders", "anders") + calves(3, "anders").replace("10", "20")


@pytest.mark.parametrize(("language", "told"), [
    ("en", "'anders' has no row, and stands with several animals, as the sire of 6: is an unknown animal meant?"),
    ("de", "„anders“ hat keine Zeile und steht bei mehreren Tieren, als Vater 6-mal: ist ein unbekanntes Tier gemeint?"),
    ("fr", "« anders » n'a pas de ligne et figure chez plusieurs animaux, comme père 6 fois : est-ce un parent inconnu ?"),
])  # fmt: skip
def test_word_for_unknown_parents(empty_site: Site, language: str, told: str) -> None:
    """It is told alike in each language and without a count of none; what drops animals is another decision."""
    site = empty_site
    rows = ANDERS.replace("anders;anders", "anders;002")
    address, page = look_at(site, TITLES + PAIR + rows)
    site.take(address)
    site.get(f"/language/{language}")
    address, page = look_at(site, TITLES + PAIR + rows)
    words = Says(language)
    assert told in re.sub(r"\s", " ", shown(page)) and " 0 " not in told
    unknown = words("'{}' means: {}", "anders", words("unknown parent"))
    assert unknown in buttons_of(page) and words(
        "Drop these from the book, but for ancestors of others"
    ) not in buttons_of(page)
    page = press(site, address, page, unknown)
    assert words.counted("The book would have {} animal.", "The book would have {} animals.", 10) in shown(page)
    page = press(site, address, page, words("Drop these from the book, but for ancestors of others"))
    assert words.counted("The book would have {} animal.", "The book would have {} animals.", 9) in shown(page)


def test_births_near_one_another(empty_site: Site) -> None:
    """Each may be said to be possible; the button says how many reports end, and no others do."""
    site, days = empty_site, (5, 60, 95)
    rows = "".join(
        f"50{at};;w;{2003 + at}-01-01;001;002;Huber\n60{at};;w;{date};001;002;Huber\n"
        for at, date in enumerate(("2003-01-06", "2004-03-01", "2005-04-06"))
    )
    address, page = look_at(site, TITLES + PAIR + rows)
    found = shown(part(page, "May be wrong"))
    assert [f"{count} days before" in found for count in days] == [True] * 3
    label = "That can be: warn only below {} days ({} of these 3 warnings go)".format
    assert [one for one in buttons_of(page) if one.startswith("That can be")] == [
        label(5, 3),
        label(60, 2),
        label(95, 1),
    ]
    page = press(site, address, page, label(60, 2))
    found = shown(part(page, "May be wrong"))
    assert [f"{count} days before" in found for count in days] == [True, False, False]
    assert 'name="apart" type="text" value="60"' in page


def test_back_to_the_findings(empty_site: Site, monkeypatch: pytest.MonkeyPatch) -> None:
    """Whoever presses a button waits on a page that asks again by its address, since one with a place in it wouldn't,
    and comes back to what is found."""
    address, _ = look_at(empty_site, TITLES + PAIR)
    monkeypatch.setattr("gudokeyi.web.workers.SOON", 0)
    monkeypatch.setattr("gudokeyi.web.workers.SOON_BY_KEPT", 0)
    to = empty_site.post(f"{address}/suggested", option="--youngest", word="300").headers["Location"]
    assert "#" not in to and f'content="1; url={to}"' in empty_site.get(to).get_data(as_text=True)
    assert '<div id="findings">' in empty_site.page(to)
    assert empty_site.get(to).headers["Location"] == f"{address}#findings"


def test_one_birth_near_another(empty_site: Site) -> None:
    _, page = look_at(empty_site, TITLES + PAIR + "501;;w;2003-01-01;001;002;\n502;;w;2003-03-01;001;002;\n")
    assert buttons_of(page) == ["That can be: warn only below 59 days"]


@pytest.mark.parametrize("language", LANGUAGES)
def test_many_births_near_one_another(empty_site: Site, language: str) -> None:
    """Many are one line, and each can be shown."""
    empty_site.get(f"/language/{language}")
    rows = "".join(
        f"{at}0;;w;{2003 + at}-01-01;001;002;\n{at}1;;w;{2003 + at}-02-0{at};001;002;\n" for at in range(1, 6)
    )
    _, page = look_at(empty_site, TITLES + PAIR + rows)
    found, words = part(page, "May be wrong", language), Says(language)
    assert words(
        "{} births came less than {} days after the same dam's one before, from {} to {} days. If that can be in your herd, nothing need be done.",
        5,
        100,
        31,
        35,
    ) in shown(found)
    assert len(re.findall("<li>", found)) == 5 and len(re.findall("<tr\\b", found)) == 2


def test_owner_with_a_letter_more(empty_site: Site) -> None:
    """An owner of few animals who is one of many but for a letter is told, once; houses and initials tell owners
    apart."""
    rows = (
        calves(9)
        + "300;;w;2015-01-01;001;002;Hubber\n301;;w;2015-01-01;001;002;Huber 2\n302;;w;2015-01-01;;;A. Huber\n"
    )
    address, page = look_at(empty_site, TITLES + PAIR + rows)
    found = shown(part(page, "May be wrong"))
    assert "14 300 the owner 'Hubber' (1 animal) may be 'Huber' (12 animals): is 'Huber' meant?" in found
    assert found.count("meant?") == 1
    empty_site.take(address)
    _, page = look_at(empty_site, TITLES + PAIR + rows)
    assert "meant?" not in page


def test_cells_like_names(empty_site: Site) -> None:
    """A parent's cell that has an animal's name with more is asked about, and so is one that is written like no id; a
    stallion that was is castrated."""
    site, text = empty_site, TITLES + PAIR + calves(9)
    more = (
        "201;Fern 16;H (ex étalon);2001-01-01;;;\n202;Max X Mia;m;2001-01-01;;;\n203;;w;2005-01-01;KB;;\n"
        "204;;w;2005-01-01;Ch. Fern 16;;\n205;;w;2005-01-01;Max × Mia;;\n"
    )
    address, page = look_at(site, text + more)
    wrong = shown(part(page, "May be wrong"))
    assert "'KB' has no row, and is written like no id, as the sire of 1: is an unknown animal meant?" in wrong
    assert "is 201 meant?" in wrong and "is 202 meant?" in wrong and "'Ch. Fern 16' has no row, and is" not in wrong
    assert "'H (ex étalon)' as 'ex étalon'" in shown(page)
    page = press(site, address, page, "'KB' means: unknown parent")
    assert "'KB' has no row" not in shown(page)
    site.take(address)
    with site.desk.opened() as book:
        assert book and book.society_records["201"].castrated and not book.society_records["202"].castrated


@pytest.mark.parametrize("language", LANGUAGES)
def test_kinds_summed_up(empty_site: Site, language: str) -> None:
    """Above all that is found each kind stands in a line, with the number of its animals and a link to the first; what
    stops, loses or changes animals comes first, and rows that repeat the titles last."""
    site, says = empty_site, Says(language)
    site.get(f"/language/{language}")
    rows = "001;Max;m;2001-01-01;;;Huber\n" + TITLES + "200;;w;2012-01-01;Weide;;Huber\n201;;w;2012-13-01;Weide;;Huber\n"
    _, page = look_at(site, TITLES + PAIR + calves(9) + rows)
    table = re.search(r'<table class="tally kinds">.*?</table>', page, re.DOTALL)
    assert table
    found = re.findall(r'<a href="#(kind-[0-9]+)">(.*?)</a></th><td class="number">([0-9]+)</td>', table[0])
    assert [(shown(heading), count) for _, heading, count in found] == [
        (says("Rows left out: another row has the same id"), "1"),
        (says("Words that may stand for unknown parents"), "2"),
        (says("Birth days aren't certain"), "1"),
        (says("Rows that repeat the titles are left out"), "1"),
    ]
    assert all(page.count(f'id="{anchor}"') == 1 for anchor, _, _ in found)


def test_few_kinds_not_summed_up(empty_site: Site) -> None:
    _, page = look_at(empty_site, TITLES + PAIR + calves(9) + "001;Max;m;2001-01-01;;;Huber\n")
    assert "tally kinds" not in page


def test_order_of_lines(empty_site: Site) -> None:
    """What may be wrong stands in the order of the harm: what is lost, parents, and notes."""
    rows = TITLES + "201;;w;2012-01-01;201;;Huber\n001;Max;m;2001-01-01;;;Huber\n"
    _, page = look_at(empty_site, TITLES + PAIR + calves(9) + rows)
    told = shown(part(page, "Left out"))
    places = [told.index(one) for one in ("has this id too", "its own ancestor", "repeats")]
    assert places == sorted(places)


def test_worksheets_of_animals(empty_site: Site) -> None:
    """A second worksheet with animals is told, and a button reads it as new rows, before or after the other one."""
    site, workbook, file = empty_site, openpyxl.Workbook(), io.BytesIO()
    titles = TITLES.strip().split(";")
    workbook.active.title = "Tiere"
    for row in [titles, *(line.split(";") for line in (PAIR + calves(9)).splitlines())]:
        workbook.active.append(row)
    other = workbook.create_sheet("Abgänge")
    for row in [titles[:6], ["300", "Ina", "w", "2010-01-01", "001", "002"]]:
        other.append(row)
    workbook.save(file)
    address = site.drop("herde.xlsx", file.getvalue())
    page = site.page(address)
    assert "the worksheet 'Abgänge' isn't read, and has 1 animal that is neither on this one nor in the book, 300" in shown(page)
    site.take(address)
    address = site.drop("herde.xlsx", file.getvalue())
    [form] = [one for one in re.findall(r'<form class="choice".*?</form>', site.page(address), re.DOTALL) if "Abgänge" in one]
    assert shown(form) == "Worksheet: Abgänge; The sheet has new rows only"
    fields = {name: re.findall(rf'name="{name}" value="([^"]*)"', form) for name in ("csrf_token", "option", "word")}
    site.client.post(f"{address}/suggested", data=fields, headers={"Host": HOST})
    page = site.take(address)
    with site.desk.opened() as book:
        assert book and len(book.society_records) == 13
    assert "neither on this one" not in shown(site.page(site.drop("herde.xlsx", file.getvalue())))
