"""The files of version 0.11 beside a book that is restored, or that was there."""
from __future__ import annotations

import shutil

import pytest

from front_desk.desk import Desk, NewDesk
from front_desk.old_folder import FILES, LIST, SHEET
from gudokeyi.store.legacy.files import is_old


@pytest.mark.parametrize("name", [*FILES, "none"])
def test_restored_in_its_place(old_desk: Desk, name: str) -> None:
    """A backup takes the place of its book only where that is wished, and then the files stay in `old`, also where one
    of them is lost."""
    (old_desk.room / "book" / name).unlink(missing_ok=True)
    files = {one: text for one, text in FILES.items() if one != name}
    old_desk.write("other.csv", "id,born,sire,dam\na,2001-01-01,,\n")
    old_desk.good("import", "other.csv", "--book", "other")
    old_desk.good("backup", "copy", "--book", "other")
    old_desk.wrong(
        "to restore copy in its place say --anyway; the one that is there goes to book/old then", "restore", "copy"
    )
    assert {path.name: path.read_text() for path in (old_desk.room / "book").iterdir()} == files
    old_desk.good("restore", "copy", "--anyway")
    assert old_desk.good("list").out.splitlines()[1:] == ["a,,HOLGBRF000000000001,2001-01-01,0,0,0.00"]
    assert {path.name: path.read_text() for path in (old_desk.room / "book/old").iterdir()} == files


def test_exports_give_way(desk: Desk) -> None:
    """Beside a database that is lost the exports are no book, and a backup is restored in their place."""
    desk.take("id,born,sire,dam\na,2001-01-01,,\n")
    desk.good("backup", "copy")
    (desk.room / "book/book.sqlite").unlink()
    desk.good("restore", "copy")
    assert not (desk.room / "book/old").exists()


@pytest.mark.parametrize("is_damaged", [False, True])
def test_beside_a_book(old_desk: Desk, new_desk: NewDesk, is_damaged: bool) -> None:
    """The files are kept as a whole before the exports of a book that was copied there, or restored, replace them."""
    other = new_desk()
    other.take(SHEET)
    other.good("backup", str(old_desk.room / "backup.sqlite"))
    if is_damaged:
        old_desk.write("book/book.sqlite", "damaged" * 1000)
        old_desk.good("restore", "backup.sqlite", "--anyway")
    else:
        shutil.copy(old_desk.room / "backup.sqlite", old_desk.room / "book/book.sqlite")
    assert old_desk.good("list").out == other.good("list").out
    kept = next((old_desk.room / "book/old").glob("version-0.11-*"))
    assert {path.name: path.read_text() for path in kept.iterdir()} == FILES
    assert not is_old(old_desk.room / "book") and len(old_desk.numbers()) == len(other.numbers())
    assert old_desk.good("list", "--book", str(kept)).out == LIST
