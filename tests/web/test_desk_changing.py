"""How pages change the book: once, one after the other, by the session of the book that is there, and the files beside
it are written behind each change."""
from __future__ import annotations

import concurrent.futures
import contextlib
import pathlib
import re
import sqlite3
import tempfile
import threading
import time
from collections.abc import Iterator

import pytest

from web.said import SENTENCES
from web.site import HOST, SECONDS, Site, form_in, looked_in, shown
from web.test_desk_filing import BIRTH, DAM
from web.test_desk_sheets import EXAMPLE
from front_desk.desk import Desk
from gudokeyi.domain.messages import Mistake
from gudokeyi.domain.settings import LANGUAGES
from gudokeyi.services.opening import alone_to_change
from gudokeyi.store.book import Book
from gudokeyi.store.messages import BackupFault
from gudokeyi.web.sheet_work import Imported

NEW_ROW = b"Lower Mill,NEW-9,f,2019-01-01,,,\n"


def test_two_tabs(site: Site, society_desk: Desk) -> None:
    """A sheet that is taken in two tabs at once is taken once, and the other tab takes nothing."""
    address = site.drop("sheet.csv", EXAMPLE + NEW_ROW)
    pages = [site.page(address) for _ in range(2)]
    forms = [form_in(page) for page in pages]
    browsers = [Site(site.desk, site.app) for _ in forms]
    tokens = [one.token() for one in browsers]
    with concurrent.futures.ThreadPoolExecutor(2) as pool:
        sent = [
            pool.submit(one.client.post, f"{address}/take", headers={"Host": HOST},
                        data={"csrf_token": token, "form": form, **looked_in(page)})
            for one, token, form, page in zip(browsers, tokens, forms, pages)
        ]  # fmt: skip
    jobs = [site.desk.jobs.found(("taking", form)) for form in forms]
    assert all(one.result().status_code == 302 for one in sent)
    taken = []
    for job in jobs:
        assert job and job.is_over.wait(SECONDS) and isinstance(job.value, Imported)
        taken.append(job.value.otherwise)
    assert sorted(taken) == [(), ("NEW-9",)]
    assert [line.split()[0] for line in society_desk.good("history").out.splitlines()] == ["1", "2"]
    society_desk.good("verify")


def test_files_behind_a_sheet(site: Site) -> None:
    """The files beside the database have what a sheet brought, though nobody asks for them."""
    address = site.drop("sheet.csv", EXAMPLE + NEW_ROW)
    site.take(address)
    until = time.monotonic() + SECONDS
    while "NEW-9" not in (site.desk.folder / "ids.csv").read_text(encoding="utf-8"):
        assert time.monotonic() < until
        time.sleep(0.05)


def test_in_turn(site: Site, monkeypatch: pytest.MonkeyPatch) -> None:
    """Whoever changes the book has the turn until the change is stored, also where it comes to nothing."""
    turns = list[bool]()

    @contextlib.contextmanager
    def noted(folder: pathlib.Path) -> Iterator[Book]:
        turns.append(site.desk.jobs.turn.locked())
        with alone_to_change(folder) as book:
            yield book
        turns.append(site.desk.jobs.turn.locked())

    monkeypatch.setattr("gudokeyi.web.changing.alone_to_change", noted)
    site.post("/file/birth", **BIRTH)
    assert site.post("/file/exit", id=DAM, day="1999-05-01").headers["Location"] == "/answer/3"
    assert turns == [True] * 4 and not site.desk.jobs.turn.locked()


def test_restored(site: Site, society_desk: Desk, monkeypatch: pytest.MonkeyPatch) -> None:
    """Only the book that was looked at gives way to a backup, and the session answers for the book of now."""
    copy = site.get("/book.sqlite").get_data()
    site.post("/file/exit", id=DAM, day="2024-05-01")
    address = site.drop_backup(copy)
    assert "Somebody changed the book meanwhile. This is what is there now." in shown(
        site.page(site.post(address, looked="1-1").headers["Location"])
    )
    assert len(society_desk.good("history").out.splitlines()) == 2
    assert "The backup copy.sqlite is restored." in shown(
        site.page(site.post(address, **looked_in(site.page(address))).headers["Location"])
    )
    # the exit is gone with the book that had it
    assert "Accepted." in shown(
        site.page(site.post("/file/exit", id=DAM, day="2024-05-02").headers["Location"])
    )
    society_desk.good("verify")


def test_same_number(site: Site, society_desk: Desk) -> None:
    """A restored book isn't the one that was looked at before, though its last change has the same number; a sheet that
    does the same to it is taken."""
    copy = site.get("/book.sqlite").get_data()
    society_desk.good("exit", DAM, "--day", "2024-05-01")
    sheet, backup, undo = site.drop("sheet.csv", EXAMPLE + NEW_ROW), site.drop_backup(copy), "/history/1/undo"
    pages = {to: site.page(to) for to in (sheet, backup, undo)}
    site.restore(copy)
    for address in backup, undo:
        answer = shown(site.page(site.post(address, **looked_in(pages[address])).headers["Location"]))
        assert "Somebody changed the book meanwhile. This is what is there now." in answer
    with site.desk.opened() as book:
        assert book and book.change and book.change.number == 2 and "NEW-9" not in book.society_records
    # a sheet changes the same animals in the same way there
    assert "sheet.csv is taken." in shown(site.page(site.post(f"{sheet}/take", **looked_in(pages[sheet])).headers["Location"]))


def test_breed_of_another_history(site: Site, society_desk: Desk, monkeypatch: pytest.MonkeyPatch) -> None:
    """While the breed is measured an earlier state of the book is shown, none of a book that gave way to a backup."""
    # a page waits for no measures, however soon they come
    monkeypatch.setattr("gudokeyi.web.workers.SOON", 0)
    copy = site.get("/book.sqlite").get_data()
    society_desk.good("exit", DAM, "--day", "2024-05-01")
    site.page("/breed")
    site.restore(copy)
    assert 'class="breed"' not in site.get("/breed").get_data(as_text=True)
    site.page("/breed")
    society_desk.good("exit", DAM, "--day", "2024-05-02")
    assert "This is the state after change 2; the book is at change 3." in shown(
        site.get("/breed").get_data(as_text=True)
    )


def test_last_backup(site: Site, society_desk: Desk) -> None:
    """The history tells of one that has changes of this book, not of one whose last change went with a restored
    book."""
    copy = site.get("/book.sqlite").get_data()
    society_desk.good("exit", DAM, "--day", "2024-05-01")
    later = site.get("/book.sqlite").get_data()
    assert "after change 2." in shown(site.page("/history"))
    site.restore(copy)
    page = shown(site.page("/history"))
    # nor does it say that there is none
    assert "after change 2." not in page and "No copy is known that has the book as it is now." in page
    site.restore(later)
    assert "after change 2." in shown(site.page("/history"))


def test_no_backup(site: Site) -> None:
    """What isn't a whole copy for a page of this desk doesn't count as a backup."""
    before = shown(site.page("/history"))
    head = site.client.head("/book.sqlite", headers={"Host": HOST})
    assert head.status_code == 200 and not head.get_data()
    other = site.get("/book.sqlite", headers={"Sec-Fetch-Site": "cross-site"})
    assert other.status_code == 403 and "This came from another site, and isn't done." in shown(
        other.get_data(as_text=True)
    )
    broken = site.get("/book.sqlite")
    assert next(iter(broken.response)) and int(broken.headers["Content-Length"]) > 8192
    broken.close()
    assert shown(site.page("/history")) == before and "No copy is known that has the book as it is now." in before
    whole = site.get("/book.sqlite")
    assert len(whole.get_data()) == int(whole.headers["Content-Length"])
    whole.close()
    assert "after change 1." in shown(site.page("/history"))


def test_restored_while_clerks_file(site: Site) -> None:
    """What somebody files meanwhile is told, and goes only where that is wished: so a backup is restored however often
    somebody files, and what is filed while that is done is filed behind it."""
    copy = site.get("/book.sqlite").get_data()
    address = site.drop_backup(copy)
    page, statuses, is_over = site.page(address), list[int](), threading.Event()

    def file() -> None:
        clerk = Site(site.desk, site.app)
        while not is_over.is_set():
            statuses.append(clerk.post("/file/exit", id=DAM, day="2024-05-01").status_code)

    clerk = threading.Thread(target=file)
    clerk.start()
    try:
        while len(statuses) < 2:
            time.sleep(0.01)
        page = site.page(site.post(address, **looked_in(page)).headers["Location"])
        assert "Somebody changed the book meanwhile. This is what is there now." in shown(page)
        assert re.search(r"\d+ changes? of the book of now (isn't|aren't) in the copy, and goe?s?", shown(page))
        count = len(statuses)
        while len(statuses) == count:
            time.sleep(0.01)
        answer = shown(site.page(site.post(address, **looked_in(page), anyway="1").headers["Location"]))
    finally:
        is_over.set()
        clerk.join()
    assert "The backup copy.sqlite is restored." in answer
    assert re.search(r"\d+ changes? that came meanwhile (is|are) in the folder old", answer), answer
    assert set(statuses) == {302}
    with site.desk.opened() as book:
        assert book and book.connection
        kinds = [kind for (kind,) in book.connection.execute("SELECT kind FROM change ORDER BY change")]
    assert kinds[:2] == ["take", "restore"] and {*kinds[2:]} <= {"exit"}


def test_no_room_for_a_copy(site: Site, society_desk: Desk, monkeypatch: pytest.MonkeyPatch) -> None:
    """Where a copy can't be made the page says so, and what to do, as the word does; none is told as made."""

    def full(_: sqlite3.Connection) -> bytes:
        raise sqlite3.OperationalError("database or disk is full")

    monkeypatch.setattr("gudokeyi.store.backup.file_of", full)
    for at, language in enumerate(LANGUAGES):
        site.get(f"/language/{language}")
        answer = site.get("/book.sqlite")
        page = shown(answer.get_data(as_text=True))
        told = SENTENCES[BackupFault.NO_ROOM][at] or BackupFault.NO_ROOM.value
        said = told.format(folder=tempfile.tempdir, error="database or disk is full")
        assert answer.status_code == 400 and said.casefold() in page.casefold()
    assert not (society_desk.room / "book/last_backup.csv").exists()


def test_no_path(site: Site, monkeypatch: pytest.MonkeyPatch) -> None:
    """A mistake that names files of this machine is told with their names alone."""
    address = site.drop("sheet.csv", EXAMPLE)
    [upload] = site.desk.uploads.found.values()
    folders = [site.desk.folder, upload.path.parent, site.desk.uploads.room, site.desk.program.path.parent]

    def wrong(*_: object) -> int:
        raise Mistake(*[f"{folder}/file-{at} and {folder} are wrong" for at, folder in enumerate(folders)])

    monkeypatch.setattr("gudokeyi.web.routes.history.last_that_changed", wrong)
    page = site.get("/history").get_data(as_text=True)
    assert all(f"file-{at} and {folder.name} are wrong" in shown(page) for at, folder in enumerate(folders))
    assert not [folder for folder in folders if str(folder.parent) in page or f"{folder.name}/" in shown(page)]
    assert site.get(address).status_code == 200
