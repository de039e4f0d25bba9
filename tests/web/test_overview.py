"""The overview of a book comes from an earlier one where little was changed, and is the same as that of the whole
book."""
from __future__ import annotations

import pytest

from web.site import Site
from gudokeyi.services import overview
from gudokeyi.services.overview import later
from gudokeyi.store.book import Book
from gudokeyi.store.counts import Overview, overview_of

DAM, SIRE = "GK-17/472c", "GK-10/294b"
FORMS = [
    ("exit", {"id": DAM, "day": "2024-05-01"}), ("exit", {"id": DAM, "day": "2024-05-02"}),
    ("birth", {"id": "NEW-1", "sex": "F", "day": "2024-03-01", "sire": SIRE, "dam": DAM}),
    ("transfer", {"id": "NEW-1", "day": "2024-06-01", "to": "Mill"}), ("birth", {"id": "NEW-2", "sex": "M", "day": "1900-01-01", "dam": DAM}),
    ("exit", {"id": "NEW-1", "day": "2024-07-01"}),
]  # fmt: skip


def overview_now(site: Site) -> tuple[Overview, Overview]:
    """As the desk has it, and that of the whole book."""
    with site.desk.opened() as book:
        assert book
        return site.desk.overviews.of(book), overview_of(book)


def test_commands(site: Site, monkeypatch: pytest.MonkeyPatch) -> None:
    """Behind a command the whole book isn't looked at."""
    found = {overview_now(site)[1]}
    whole = list[bool]()

    def looked_at(book: Book) -> Overview:
        whole.append(True)
        return overview_of(book)

    monkeypatch.setattr(overview, "overview_of", looked_at)
    for kind, fields in FORMS:
        assert site.post(f"/file/{kind}", **fields).status_code == 302
        here, all_of_it = overview_now(site)
        assert here == all_of_it
        found.add(here)
    assert not whole and len(found) == 4


def test_other_changes(site: Site) -> None:
    """Other parents and another state change more than one animal: the whole book is looked at."""
    with site.desk.opened() as book:
        assert book and book.change
        first, before = book.change, overview_of(book)
    overview_now(site)
    site.post("/file/parents", id=DAM, sire="0", dam="0")
    site.post("/history/1/undo", looked=site.looked())
    for _ in range(2):
        here, all_of_it = overview_now(site)
        assert here == all_of_it
        site.post("/file/exit", id=DAM, day="2024-05-01")
    with site.desk.opened() as book:
        assert book and later(book, first, before) is None
