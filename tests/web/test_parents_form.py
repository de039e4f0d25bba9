"""The form of a correction of parents: what it shows of the book, and what is filed of what somebody wrote into it."""
from __future__ import annotations

import pytest

from web.said import SENTENCES, in_each
from web.sent_forms import corrected, written_in
from web.site import Site, shown
from web.test_desk_filing import DAM, SIRE
from gudokeyi.domain.changes import Option
from gudokeyi.domain.kinds import Field
from gudokeyi.domain.requests import WebFault
from gudokeyi.domain.settings import LANGUAGES


def test_correction_of_nothing(site: Site) -> None:
    """A correction that leaves the parents as they are has its animal in the history too."""
    page = site.page(f"/file/parents?id={DAM}")
    given = written_in(page)
    site.post("/file/parents", id=DAM, sire=given["sire"], dam=given["dam"])
    assert f"filed parents : {DAM}" in shown(site.page("/history"))


def test_corrected_by_two(site: Site) -> None:
    """A parent that a form showed and nobody wrote otherwise isn't said; where somebody else gave others meanwhile that
    is told, and the form has those of now but for what was written."""
    first, second, third = (written_in(site.page(f"/file/parents?id={DAM}")) for _ in range(3))
    page = site.page(site.post("/file/parents", **corrected(first, dam="")).headers["Location"])
    assert "Accepted." in shown(page)
    with site.desk.opened() as book:
        assert book and book.change and book.change.options == (Option("--dam", "0"),)
        assert book.society_records[DAM].by_hand == {Field.DAM}
    answer = site.post("/file/parents", **corrected(second, sire=SIRE))
    page = answer.get_data(as_text=True)
    assert answer.status_code == 400 and f"somebody gave {DAM} other parents meanwhile" in shown(page)
    assert f"in the book now: {second['sire']}" in shown(page)
    second = written_in(page)
    assert (second["sire"], second["dam"]) == (SIRE, "")
    page = site.page(site.post("/file/parents", **corrected(second, sire="GK-16/433c")).headers["Location"])
    # refused: the other parent is there again too
    third = written_in(page)
    assert "Refused." in shown(page) and (third["sire"], third["dam"]) == ("GK-16/433c", "")
    assert site.post("/file/parents", **corrected(third, sire=SIRE)).headers["Location"] == "/answer/4"
    with site.desk.opened() as book:
        assert book and book.records[book.society_records[DAM].registration_number].dam == ""


@pytest.mark.parametrize("language", LANGUAGES)
def test_sent_for_another(site: Site, language: str) -> None:
    """A form that showed one animal's parents files none of them for another: it comes back with that one's of now, but
    for what was written."""
    site.get(f"/language/{language}")
    other, at = "GK-14/388b", [*LANGUAGES].index(language)
    given, wanted = (written_in(site.page(f"/file/parents?id={id}")) for id in (DAM, other))
    assert (given["sire"], given["dam"]) != (wanted["sire"], wanted["dam"])
    answer = site.post("/file/parents", **corrected(given, id=f" {other}", sire=SIRE))
    page, told = answer.get_data(as_text=True), SENTENCES[WebFault.OTHER_SHOWN][at] or WebFault.OTHER_SHOWN.value
    assert answer.status_code == 400 and told.format(shown=DAM, id=other).casefold() in shown(page).casefold()
    again = written_in(page)
    assert (again["sire"], again["dam"], again["shown-id"]) == (SIRE, wanted["dam"], other)
    assert in_each("in the book now: {}")[at].format(wanted["sire"]) in shown(page)
    with site.desk.opened() as book:
        assert book and book.change and book.change.number == 1
    assert site.post("/file/parents", **corrected(again)).headers["Location"] == "/answer/2"
    with site.desk.opened() as book:
        assert book and book.change and book.change.options == (Option("--sire", SIRE),)
    # nobody is meant: the parents are those of the animal that was shown
    page = site.post("/file/parents", **corrected(given, id="nobody")).get_data(as_text=True)
    assert written_in(page)["shown-id"] == DAM


@pytest.mark.parametrize("language", LANGUAGES)
def test_sent_without_parents(site: Site, language: str) -> None:
    """A form that showed no parents takes none away that is left empty: it comes back with those of now, but for what
    was written."""
    site.get(f"/language/{language}")
    now, at = written_in(site.page(f"/file/parents?id={DAM}")), [*LANGUAGES].index(language)
    answer = site.post("/file/parents", id=f" {DAM.lower()}", sire=SIRE, dam="")
    page, told = answer.get_data(as_text=True), SENTENCES[WebFault.NONE_SHOWN][at] or WebFault.NONE_SHOWN.value
    assert answer.status_code == 400 and told.format(id=DAM).casefold() in shown(page).casefold()
    again = written_in(page)
    assert (again["sire"], again["dam"], again["shown-id"]) == (SIRE, now["dam"], DAM) and now["dam"]
    assert site.post("/file/parents", **corrected(again)).headers["Location"] == "/answer/2"
    with site.desk.opened() as book:
        assert book and book.change and book.change.options == (Option("--sire", SIRE),)
        assert book.by_number()[book.records[book.society_records[DAM].registration_number].dam].id == now["dam"]
