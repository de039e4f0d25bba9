"""What pages say and offer: a refused command with its form, the history in words, the animals that have left, and the
plan of matings with what it assumes."""
from __future__ import annotations

import datetime
import html
import pathlib
import re

import pytest

from web.said import MESSAGES, SENTENCES, in_each
from web.sent_forms import corrected, written_in
from web.site import Site, form_in, shown
from web.test_desk_filing import BIRTH, DAM, SIRE
from front_desk.desk import Desk
from front_desk.old_folder import write_old
from gudokeyi.domain.changes import Change, Option
from gudokeyi.domain.kinds import ChangeKind
from gudokeyi.domain.options import LIST, LIST_ON_PAGE
from gudokeyi.domain.settings import LANGUAGES
from gudokeyi.reconcile.import_options import ImportOptions
from gudokeyi.render.page_language import PageLanguage
from gudokeyi.render.texts.members import STEPS_OF_WORK
from gudokeyi.services.selection import Choice
from gudokeyi.store.history import EPOCH, FILED_BY_HAND
from gudokeyi.web.views.animals import asked_by, fields_of
from gudokeyi.web.views.changes import given_of

LEFT = {"id": DAM, "day": "2024-05-01"}


REFUSED = [
    ("birth", BIRTH | {"sire": DAM, "embryo": "1"}, "its sire isn't male"),
    ("parents", {"id": DAM, "sire": SIRE, "dam": SIRE}, "its dam isn't female"),
    (
        "transfer",
        {"id": DAM, "day": "1999-05-01", "to": "Nobody & <sons>"},
        "the day is before its birth, or before its owner got it",
    ),
    ("exit", {"id": DAM, "day": "1999-05-01"}, "the day is before its birth, or before its owner got it"),
]


@pytest.mark.parametrize("language", LANGUAGES)
@pytest.mark.parametrize("kind, fields, why", REFUSED, ids=[kind for kind, *_ in REFUSED])
def test_refused_comes_back(site: Site, language: str, kind: str, fields: dict[str, str], why: str) -> None:
    """The form of a refused command is there again with all that was written, below the register's answer."""
    site.get(f"/language/{language}")
    at = LANGUAGES.index(language)
    page = site.page(site.post(f"/file/{kind}", **fields).headers["Location"])
    assert in_each(why)[at] in html.unescape(page) and in_each("Refused.")[at] in shown(page)
    kept = written_in(page)
    assert fields.items() <= kept.items()
    assert f'action="/file/{kind}"' in page


def test_corrected_and_filed(site: Site) -> None:
    """What was refused is filed again by the same page, once it is correct, as a change of its own."""
    page = site.page(site.post("/file/birth", **BIRTH | {"sire": DAM}).headers["Location"])
    again = written_in(page) | {"sire": SIRE, "form": form_in(page)}
    again.pop("csrf_token")
    assert site.post("/file/birth", **again).headers["Location"] == "/answer/3"
    assert "Accepted." in shown(site.page("/answer/3"))


def test_unreadable_comes_back(site: Site) -> None:
    """So it is where a field can't be read."""
    given = BIRTH | {"sire": "nobody of that", "embryo": "1"}
    answer = site.post("/file/birth", **given)
    assert answer.status_code == 400
    assert given.items() <= written_in(answer.get_data(as_text=True)).items()


def test_history_of_refused(site: Site, society_desk: Desk) -> None:
    """A refused command is shown as refused, with the reason and its animal; undo goes back before the last change that
    changed something, and says what it takes back."""
    site.post("/file/birth", **BIRTH)
    site.post("/file/exit", id="NEW-1", day="1999-05-01")
    why = "the day is before its birth, or before its owner got it"
    for page in ("/history", "/"):
        assert "filed an exit : NEW-1 refused" in shown(site.page(page))
    history, change = site.page("/history"), site.page("/history/3")
    assert why in shown(history) and why in shown(change)
    assert "There is nothing to undo: a refused command changes no animal." in shown(change) and "/undo" not in change
    assert re.findall(r"/history/\d+/undo", history) == ["/history/1/undo", "/history/1/undo"]
    assert [site.get(f"/history/{number}/undo").status_code for number in (1, 2, 3)] == [200, 404, 404]
    asked = shown(site.page("/history/1/undo"))
    assert "Change 3: filed an exit : NEW-1 refused" in asked and "Change 2: filed a birth : NEW-1" in asked
    assert "Change 1:" not in asked
    # the word goes back as far
    assert "brought back the state after change 1" in society_desk.good("undo").out
    assert "NEW-1" not in society_desk.good("list").out


def test_history_has_pages(site: Site, monkeypatch: pytest.MonkeyPatch) -> None:
    """A long history is shown in parts."""
    monkeypatch.setattr("gudokeyi.web.paging.ON_A_PAGE", 2)
    for at in range(3):
        site.post("/file/birth", **BIRTH | {"id": f"NEW-{at}", "name": f"Calf {at}"})
    first, second = site.page("/history"), site.page("/history?page=2")
    assert "NEW-2" in first and "NEW-1" in first and "NEW-0" not in first
    assert "NEW-0" in second and "society.csv" in second


def test_settings_of_two(site: Site, society_desk: Desk) -> None:
    """A setting that nobody wrote stays as somebody else set it since the page was shown; where both did it is told."""
    form = written_in(site.page("/settings"))
    society_desk.good("settings", "--name", "Goats", "--unknown", "keiner", "--address", "Here\nThere")
    assert site.post("/settings", **corrected(form, country="CHE")).status_code == 302
    told = society_desk.good("settings").out
    assert all(
        f"{line}\n" in told for line in ("name: Goats", "address: Here, There", "country: CHE", "unknown: keiner")
    )
    answer = site.post("/settings", **corrected(form, name="Sheep"))
    page = answer.get_data(as_text=True)
    assert answer.status_code == 400
    assert (
        "Name of the society: somebody else wrote “Goats” meanwhile. Look at it, and keep the settings again."
        in shown(page)
    )
    assert society_desk.good("settings").out == told and written_in(page)["unknown"] == "keiner"
    assert written_in(page)["shown-address"] == "Here\nThere"
    assert site.post("/settings", **corrected(written_in(page))).status_code == 302
    assert society_desk.good("settings").out == told.replace("Goats", "Sheep")


@pytest.mark.parametrize("language", LANGUAGES)
def test_options_in_words(language: str) -> None:
    """No option of a terminal is shown to somebody who never saw one."""
    wishes = ImportOptions(
        pathlib.Path(), ["id=Ohrmarke,dam=Mutter"], ["Leih"], ["Aue=f"], "SKU", "DEU", EPOCH.date(), True, True, True,
        pathlib.Path("keep.txt"), True, "Blatt 2", True, True, True, 300, 200, ["x"], ["Meier=Meyer"], True,
        no_animal=["Summe"], animal=["Total"],
    )  # fmt: skip
    options = wishes.options()
    assert {one.option for one in options} >= {"--drop-gone", "--columns", "--leave-out", "--semicolons", "--anyway"}
    filed = [
        Option("--day", "2024-03-01"),
        Option("--sex", "f"),
        Option("--sire", "0"),
        Option("--embryo"),
        Option("--from", "x"),
    ]
    changes = [Change(1, kind, EPOCH, "me", 1, 1, None, tuple(filed)) for kind in FILED_BY_HAND]
    words = PageLanguage(language)
    said = [
        one
        for change in [Change(1, ChangeKind.TAKE, EPOCH, "me", 1, 1, None, options), *changes]
        for one in given_of(change, words)
    ]
    assert len(said) == len(options) + 1 + 5 * len(FILED_BY_HAND)
    assert not [one for one in said if "--" in one.what or "--" in one.value]
    assert (words.gettext("Dam"), "Mutter") in said and (words.gettext("Sire"), words.gettext("unknown")) in said
    assert (words.gettext("Sex"), words.gettext("female")) in said and (
        words.gettext("Day of the exit"),
        words.day("2024-03-01"),
    ) in said


def test_facts_in_the_language(site: Site) -> None:
    """What a change changed of an animal is said in the page's language."""
    site.get("/language/de")
    site.post("/file/birth", **BIRTH)
    said = shown(site.page("/history/2"))
    assert "im Herdbuch: von Hand gemeldet" in said and "Geburtstag: 01.03.2024" in said
    assert "von Hand gemeldet: Name, Geschlecht, Geburtstag, Vater, Mutter, Besitzer" in said


@pytest.mark.parametrize("living", [True, False])
def test_offered(site: Site, living: bool) -> None:
    """Of an animal that has left neither sires nor another exit or owner are offered."""
    if not living:
        site.post("/file/exit", **LEFT)
    with site.desk.opened() as book:
        assert book
        number = book.society_records[DAM].registration_number
    said = shown(site.page(f"/animal/{number}"))
    for what in ("Sires for it", "File its exit", "File a new owner"):
        assert (what in said) is living
    assert "Correct its parents" in said and "Certificate to print" in said


def test_plan_assumes(site: Site, society_desk: Desk) -> None:
    """The page shows what a plan assumes in fields that can be changed, and the word assumes the same."""
    said = re.findall(r"(\d+) days old|more than (\d+) dams", society_desk.good("plan").err)
    days, most = said[0][0], said[1][1]
    fields = written_in(site.page("/matings/plan"))
    assert (fields["age"], fields["most"]) == (days, most)
    page = site.page("/matings/plan?made=1")
    assert (written_in(page)["age"], written_in(page)["most"]) == (days, most)
    assert site.get("/matings/plan.csv?made=1").get_data(as_text=True) == society_desk.good("plan").out
    # an empty field sets no bound
    free = site.page("/matings/plan?made=1&age=&most=")
    assert written_in(free)["age"] == written_in(free)["most"] == ""
    words = ["plan", "--minimum-age", "0", "--most-for-a-sire", "any"]
    done = society_desk.good(*words)
    assert site.get("/matings/plan.csv?made=1&age=&most=").get_data(as_text=True) == done.out
    assert "assumed" not in done.err


def test_one_description_of_a_list(site: Site) -> None:
    """The word and the page have the options that a choice has, from one description."""
    assert {one.attribute for one in LIST.values()} == {*Choice._fields}
    assert {*LIST_ON_PAGE} == LIST.keys()
    page = site.page("/animals?sex=M&owner=Hill++Farm&from=2017&to=2018&living=1")
    fields = written_in(page)
    assert [fields[name] for name in ("owner", "from", "to", "living")] == ["Hill  Farm", "2017", "2018", "1"]
    assert '<option value="M" selected>' in page
    asked = asked_by({"sex": "M", "owner": "Hill  Farm", "from": "2017", "to": "2018", "living": "1"})
    born = datetime.date(2017, 1, 1), datetime.date(2018, 12, 31)
    assert asked.choice == Choice(True, "M", "Hill Farm", born)
    assert fields_of(asked) == {"living": "1", "sex": "M", "owner": "Hill Farm", "from": "2017", "to": "2018"}


def test_neutral_words() -> None:
    """No page speaks of calves: the book may be of goats, dogs or horses."""
    several = [*MESSAGES.values(), *SENTENCES.values()]
    told = [
        text for texts in several for text in texts if re.search(r"\b(cal(f|ves)|kalb|kälber\w*|veaux?)\b", text, re.I)
    ]
    assert not told


def test_whole_sentences() -> None:
    """What a page that waits says are sentences."""
    waiting = (
        "{} second so far.", "{} seconds so far.", "This page looks again by itself.",
        "The measures of the book after change {} are being made.",
    )  # fmt: skip
    for text in (*STEPS_OF_WORK.values(), *waiting):
        assert all(one.endswith(".") and (one[0].isupper() or one[0] == "{") for one in in_each(text)), text


def test_blanks_of_french(site: Site) -> None:
    """A sign of French doesn't begin a line, and a quotation mark that opens doesn't end one."""
    site.get("/language/fr")
    refused = site.post("/file/birth", **BIRTH | {"sire": DAM}).headers["Location"]
    wrong = site.post("/file/birth", **BIRTH | {"sire": "nobody"}).get_data(as_text=True)
    for page in (
        wrong,
        *(site.page(path) for path in (refused, "/history", "/history/1", "/matings/plan?made=1", "/animals?from=x")),
    ):
        content = html.unescape(page.partition('<main id="content"')[2].partition("</main>")[0])
        assert not re.findall(r"\w* [:;?!»]|« ", re.sub(r"<[^>]*>", "", content))
        assert "\u00a0" in content


def menu_of(page: str) -> list[str]:
    return re.findall(r'href="([^"]*)"', page.partition("<nav")[2].partition("</nav>")[0])


def test_without_a_book(empty_site: Site) -> None:
    """Where there is no book yet the menu has nothing that needs one, and a copy can be restored."""
    page = empty_site.page("/")
    assert menu_of(page) == ["/", "/sheet", "/seals"]
    assert 'href="/restore"' in page and "<form" in empty_site.page("/restore")


def test_menu(site: Site) -> None:
    pages = {"/", "/sheet", "/animals", "/file", "/matings", "/breed", "/history", "/seals", "/owners", "/settings"}
    assert pages == {*menu_of(site.page("/"))}


def test_not_there(site: Site) -> None:
    """A page that isn't there says so, and leads back."""
    for path in ("/nothing", "/animal/HOLGBRM000000999999", "/answer/77", "/history/1/undo"):
        answer = site.get(path)
        page = answer.get_data(as_text=True)
        assert answer.status_code == 404 and "<h1>Not found</h1>" in page
        assert '<a href="/">To the start page</a>' in page


@pytest.mark.parametrize("year", ["x", "0", "99999", "000002015999"])
def test_no_year(site: Site, year: str) -> None:
    assert f"'{year}' isn't a year" in shown(site.page(f"/animals?from={year}"))


@pytest.mark.parametrize("path", ["/animals?words=nothing+of+that", "/animals?owner=Nobody+Of+That"])
def test_none_found(site: Site, path: str) -> None:
    """An empty list says what may be done."""
    page = site.page(path)
    if "0 animals" in shown(page):
        assert "No animal is so. Write less, or a part of an id or a name." in shown(page) and 'href="/animals"' in page
    else:
        assert "Nobody Of That" in shown(page)


def test_folder_of_an_earlier_version(empty_site: Site, desk: Desk) -> None:
    """A folder of version 0.11 that isn't taken over is no empty one."""
    assert "There is no book in this folder yet." in shown(empty_site.page("/"))
    write_old(desk)
    assert (
        "This folder has a book of version 0.11, which isn't taken over yet: whoever opened the desk opens it anew for that, without --read-only."
        in shown(empty_site.page("/"))
    )
