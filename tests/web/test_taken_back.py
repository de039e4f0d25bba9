"""The pages on which one change is undone: what stands on it is said, and goes with it."""
from __future__ import annotations

import pathlib
from collections.abc import Iterator

import pytest

from front_desk.desk import Desk
from front_desk.test_taken_back import SHEET
from web.sent_forms import corrected, written_in
from web.site import Site, looked_in, shown, site_of

ANNA, ALF = "HOLGBRF000000000003", "HOLGBRM000000000004"


@pytest.fixture
def goat_site(desk: Desk, program: str, tmp_path: pathlib.Path) -> Iterator[Site]:
    """Anna is renamed, Alf leaves, and then Anna has a lamb, which is corrected."""
    desk.take(SHEET)
    with site_of(desk.room / "book", program, tmp_path / "dropped") as found:
        found.get("/language/de")
        rename(found, ANNA, "Annabell")
        found.post("/file/exit", id="A2", day="2020-01-01")
        found.post("/file/birth", id="B1", sex="F", day="2021-04-01", dam="A1", owner="Oak")
        rename(found, "HOLGBRF000000000005", "Bella")
        yield found


def rename(site: Site, number: str, name: str) -> None:
    form = written_in(site.page(f"/animal/{number}/correct"))
    answer = site.post(f"/animal/{number}/correct", **corrected(form, exit=form["shown-exit"], name=name))
    assert answer.status_code == 302, shown(answer.get_data(as_text=True))


def test_alone(goat_site: Site) -> None:
    """All other changes stay; the page of the change says then that it was taken back."""
    assert "/history/3/take-back" in goat_site.page("/history/3")
    page = goat_site.page("/history/3/take-back")
    assert "Nichts Späteres baut darauf auf. Alle anderen Änderungen bleiben." in shown(page)
    answer = goat_site.post("/history/3/take-back", **looked_in(page))
    page = shown(goat_site.page(answer.headers["Location"]))
    assert "Sie ist zurückgenommen: Änderung 6." in page and "nahm Änderung 3 zurück" in page
    assert "Abgang: – (vorher: 01.01.2020 )" in page
    assert "Es wurde zurückgenommen durch Änderung 6" in shown(goat_site.page("/history/3"))
    assert goat_site.get("/history/3/take-back").status_code == 404
    with goat_site.desk.opened() as book:
        assert book and book.society_records["B1"].name == "Bella" and book.society_records["A1"].name == "Annabell"
    # the book is another one than the page showed
    answer = goat_site.post("/history/2/take-back", looked="1-1")
    assert answer.headers["Location"] == "/history/2"


def test_with_later(goat_site: Site) -> None:
    page = goat_site.page("/history/4/take-back")
    assert "Was darauf aufbaut" in shown(page) and "Änderung 5 : berichtigte ein Tier : B1" in shown(page)
    # without what stands on it nothing is changed
    answer = goat_site.post("/history/4/take-back", **looked_in(page))
    assert answer.headers["Location"] == "/history/4/take-back?also=5"
    page = goat_site.page(answer.headers["Location"])
    assert "auf Änderung 4 bauen spätere auf: 5" in shown(page)
    assert goat_site.post("/history/4/take-back", **looked_in(page), also="5").headers["Location"] == "/history/6"
    with goat_site.desk.opened() as book:
        assert book and "B1" not in book.society_records and book.society_records["A1"].name == "Annabell"
