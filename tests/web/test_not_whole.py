"""A book whose stored records or coefficients aren't the program's: each page says so, and nothing is printed of it."""
from __future__ import annotations

import contextlib
import pathlib
import shutil
import sqlite3
import time

import pytest

from web.said import SENTENCES
from web.site import Site, shown
from front_desk.desk import Desk
from gudokeyi.domain.settings import LANGUAGES
from gudokeyi.services.cache import stamp_of
from gudokeyi.store.messages import NotWhole
from gudokeyi.store.transactions import reading
from gudokeyi.web.changing import go_on
from gudokeyi.web.verification import keep_seeing, see, see_whole

DAM, SIRE, CALF = "GK-17/472c", "GK-10/294b", "HOLGBRM000000000402"
TOLD, ON_PAGE = "the program has 1 kept coefficient otherwise", "The program has 1 of the kept coefficients otherwise"
PRINTED = (f"/animal/{CALF}/certificate", "/certificates?owner=", f"/animal/{CALF}/pedigree", "/animals.csv")
WRONG = "what is shown may be wrong"
PAGES = ("/", "/animals", f"/animal/{CALF}", "/matings", "/history", "/settings", "/file/exit")


def edit(folder: pathlib.Path) -> None:
    """Somebody writes another coefficient into the database."""
    with contextlib.closing(sqlite3.connect(folder / "book.sqlite")) as connection:
        connection.execute("UPDATE coefficient SET fraction = '1/1024', percent = '0.10' WHERE place = 400")
        connection.commit()


@pytest.mark.parametrize("is_seen", [False, True], ids=["before", "meanwhile"])
def test_pages(site: Site, society_desk: Desk, is_seen: bool) -> None:
    """It is seen where it was so before the desk was opened, and where somebody does it behind the desk's back."""
    if is_seen:
        assert all(site.get(path).status_code == 200 for path in PRINTED)
        assert "otherwise" not in site.page("/animals") and site.post("/file/exit", id=DAM, day="2024-05-01")
    edit(site.desk.folder)
    for path in PAGES:
        assert ON_PAGE in shown_all(site, path) and "what is shown may be wrong" in shown_all(site, path), path
    for path in PRINTED:
        answer = site.get(path)
        page = shown(answer.get_data(as_text=True))
        assert answer.status_code == 400 and ON_PAGE in page and "nothing is printed" in page, path
    for at, language in enumerate(LANGUAGES):
        site.get(f"/language/{language}")
        assert SENTENCES[NotWhole.SHOWN][at] in shown_all(site, "/").replace("\u00a0", " ")
    # whoever isn't in is told nothing of the book
    assert ON_PAGE not in site.app.test_client().get("/", headers={"Host": "127.0.0.1:4711"}).get_data(as_text=True)


def test_filing(site: Site) -> None:
    """Nothing is filed into it, so that nobody takes it for one that was seen to be whole."""
    assert site.post("/file/exit", id=DAM, day="2024-05-01").status_code == 302
    edit(site.desk.folder)
    answer = site.post("/file/exit", id=SIRE, day="2024-06-01")
    assert answer.status_code == 400 and ON_PAGE in shown(answer.get_data(as_text=True))
    see_whole(site.desk)
    assert ON_PAGE in shown_all(site, "/animals")
    assert all(site.get(path).status_code == 400 for path in PRINTED)


def test_behind_a_sheet(site: Site) -> None:
    """What a sheet made is trusted as its file was then, and a file that was changed since is seen anew."""
    with site.desk.opened() as book:
        assert book
        stamp = stamp_of(book)
    edit(site.desk.folder)
    go_on(site.desk, stamp)
    assert site.desk.is_seen.wait(60) and ON_PAGE in shown_all(site, "/animals")
    assert site.get(PRINTED[0]).status_code == 400


def shown_all(site: Site, path: str) -> str:
    return shown(site.page(path))


# the words that show something of the book
WORDS = (
    "list --living", "show GK-17/472c", "find GK-17/472c", "kinship GK-17/472c GK-10/294b", "export", "export --triples",
    "mating --dam GK-17/472c GK-10/294b", "pedigree GK-17/472c --out tree.svg", "trend --out trend.svg", "history",
    "history 1", "breed --csv tables", "plan", "inverse --matrix-market inverse.mtx",
)  # fmt: skip


@pytest.mark.parametrize("words", WORDS)
def test_words(society_desk: Desk, words: str) -> None:
    """Each answers, and says so beside the answer; the status is that of the answer."""
    before = society_desk.good(*words.split())
    assert TOLD not in before.err
    edit(society_desk.room / "book")
    for path in "tree.svg", "trend.svg", "inverse.mtx", "inverse.mtx.ids":
        (society_desk.room / path).unlink(missing_ok=True)
    shutil.rmtree(society_desk.room / "tables", ignore_errors=True)
    done = society_desk.good(*words.split())
    assert TOLD in done.err and "what is shown may be wrong" in done.err
    assert len(done.out.splitlines()) == len(before.out.splitlines()) and done.out


def test_words_that_print(society_desk: Desk) -> None:
    """No certificate is written, and none over one that is there."""
    edit(society_desk.room / "book")
    for words in (DAM,), (DAM, SIRE), ("--living",), (DAM, "--out", "certificate.html"):
        society_desk.wrong("the book isn't whole: nothing is printed", "certificate", *words)


def edit_owner(folder: pathlib.Path) -> None:
    """Somebody writes another owner of an animal into the database, of which no coefficient tells."""
    with contextlib.closing(sqlite3.connect(folder / "book.sqlite")) as connection:
        connection.execute("UPDATE animal SET herd = herd + 1 WHERE id = ? AND until IS NULL", (DAM,))
        connection.commit()


def test_seen_by_parts(site: Site) -> None:
    """Once it is seen that a stored record isn't the program's, each page says so, nothing is certified and nothing
    filed; of one that is mended nothing is said."""
    see(site.desk)
    assert site.desk.trusted and site.desk.faulty is None
    edit_owner(site.desk.folder)
    assert site.get(PRINTED[0]).status_code == 200
    see(site.desk)
    for path in PAGES:
        page = shown_all(site, path)
        assert "The journal has 1 of the animals otherwise" in page and WRONG in page, path
    for path in PRINTED:
        assert site.get(path).status_code == 400, path
    assert site.post("/file/exit", id=SIRE, day="2024-06-01").status_code == 400
    with contextlib.closing(sqlite3.connect(site.desk.folder / "book.sqlite")) as connection:
        connection.execute("UPDATE animal SET herd = herd - 1 WHERE id = ? AND until IS NULL", (DAM,))
        connection.commit()
    see(site.desk)
    assert WRONG not in shown_all(site, "/") and site.get(PRINTED[0]).status_code == 200


def test_seen_each_hour(site: Site, monkeypatch: pytest.MonkeyPatch) -> None:
    """It is seen again and again, as long as the desk is open."""
    monkeypatch.setattr("gudokeyi.web.verification.SECONDS_BETWEEN", 0.05)
    keep_seeing(site.desk)
    assert site.desk.is_seen.wait(60) and site.desk.faulty is None
    edit_owner(site.desk.folder)
    until = time.monotonic() + 60
    while site.desk.faulty is None and time.monotonic() < until:
        time.sleep(0.05)
    site.desk.closes.set()
    assert WRONG in shown_all(site, "/animals")


def test_seen_once(site: Site, monkeypatch: pytest.MonkeyPatch) -> None:
    """Beside somebody who reads for long, and once that ends, a book of which nobody changed the file isn't seen anew
    for each change."""
    site.post("/file/exit", id=DAM, day="2024-05-01")
    seen = list[str]()
    monkeypatch.setattr("gudokeyi.web.changing.verified", lambda *_: seen.append("anew"))
    with reading(site.desk.folder):
        for id in SIRE, "GK-16/433c":
            assert site.post("/file/exit", id=id, day="2024-05-01").status_code == 302
            # root touches the entry of what stands beside the file by this
            assert site.get("/animals").status_code == 200
        assert (site.desk.folder / "book.sqlite-wal").stat().st_size
    assert site.post("/file/exit", id="GK-17/475", day="2024-05-01").status_code in (302, 400)
    assert not seen
    edit(site.desk.folder)
    site.post("/file/exit", id="GK-15/419c", day="2024-05-01")
    assert seen


def test_nothing_beside(site: Site) -> None:
    """Once a desk is closed its book is one file."""
    with reading(site.desk.folder):
        site.post("/file/exit", id=DAM, day="2024-05-01")
    site.desk.close()
    assert [path.name for path in site.desk.folder.glob("book.sqlite*")] == ["book.sqlite"]
