"""Backups of a book: restored, those that are none, and the last one."""
from __future__ import annotations

import contextlib
import datetime
import shutil
import sqlite3
import time

import pytest

from front_desk.desk import Desk
from front_desk.test_history import CALF
from front_desk.whole import GROWN
from gudokeyi.domain.messages import Mistake
from gudokeyi.services.book_program import BookProgram
from gudokeyi.services.restoring import restore
from gudokeyi.store import backup
from gudokeyi.store.book import Book
from gudokeyi.store.exports import LAST_BACKUP, LastBackup, last_backup, remember
from gudokeyi.store.transactions import reading


# what a book keeps of animals and owners beside the register
BESIDE = ("note", "own_column", "own_value", "member")


def changed(desk: Desk, name: str, *statements: str) -> None:
    """A backup as somebody else wrote it."""
    path = shutil.copyfile(desk.room / "copy", desk.room / name)
    with contextlib.closing(sqlite3.connect(path, isolation_level=None)) as connection:
        for statement in statements:
            connection.execute(statement)


def test_backup(flock_desk: Desk) -> None:
    """A backup is restored where nothing else of the book is, and in the place of a book only where that is wished."""
    flock_desk.good(*CALF)
    listed = flock_desk.good("list").out
    assert flock_desk.good("backup", "copy").out == "copy has the book with its 2 changes\n"
    with reading(flock_desk.room / "book") as connection:
        last = last_backup(Book(flock_desk.room / "book", connection))
    assert last and last.change == 2 and abs(last.time.timestamp() - time.time()) < 300
    # nothing is written beside it by who reads it
    assert (flock_desk.room / "copy").read_bytes()[18:20] == b"\1\1"
    flock_desk.wrong("copy is there already", "backup", "copy")
    flock_desk.wrong("is a file of the book", "backup", "book/book.sqlite", "--force")
    flock_desk.wrong("book/book.sqlite is the book itself", "restore", "book/book.sqlite", "--anyway")
    changed(flock_desk, "changed", "UPDATE command SET refusal = 5 WHERE place = 3")
    flock_desk.wrong("changed: the program's reply to command 3", "restore", "changed", "--book", "other")
    # one that the version before made, with pages of another size
    changed(flock_desk, "earlier", *(f"DROP VIEW {view}" for view in ("animals", "commands", "coefficients")),
            *(f"DROP TABLE {table}" for table in ("picture", "published_seal", "former_id", "request", *BESIDE)),
            "DROP INDEX animal_digits", "ALTER TABLE animal DROP COLUMN exit_reason",
            "DROP INDEX change_form", "ALTER TABLE change DROP COLUMN form",
            "PRAGMA user_version = 1", "PRAGMA page_size = 8192", "VACUUM")  # fmt: skip
    flock_desk.good("restore", "earlier", "--book", "other")
    assert flock_desk.good("list", "--book", "other").out == listed
    assert "restored the backup earlier" in flock_desk.good("history", "--book", "other").out
    assert "is whole" in flock_desk.good("verify", "--book", "other").out
    flock_desk.take(GROWN)
    flock_desk.wrong("to restore copy in its place say --anyway", "restore", "copy")
    flock_desk.good("restore", "copy", "--anyway")
    assert flock_desk.good("list").out == listed
    kept = [path for path in (flock_desk.room / "book/old").iterdir()]
    assert len(kept) == 1
    flock_desk.good("restore", str(kept[0]), "--book", "third")
    assert "b," in flock_desk.good("list", "--book", "third").out
    # with pages of the size that those of the book there have
    flock_desk.good("restore", "earlier", "--anyway")
    assert flock_desk.good("list").out == listed and "is whole" in flock_desk.good("verify").out
    flock_desk.wrong("the folder absent isn't there: make it", "restore", "copy", "--book", "absent/book")
    flock_desk.wrong("is damaged, or isn't a backup", "restore", flock_desk.write("text", "no database " * 99))
    flock_desk.wrong("can't be read: No such file", "restore", "absent")


def test_backups_that_are_none(flock_desk: Desk, monkeypatch: pytest.MonkeyPatch) -> None:
    """Nothing is restored of a file that has no book, or something that no backup has, or that lacks something."""
    monkeypatch.setenv("HERDBOOK", flock_desk.program)
    flock_desk.good("backup", "copy")
    folder, program = flock_desk.room / "other", BookProgram()
    flock_desk.write("empty", b"")
    for name, statement, told in [
        ("empty", "", "has no book: name a backup"),
        ("acts", "CREATE TRIGGER acts AFTER INSERT ON owner BEGIN SELECT 1; END", "has triggers or views"),
        ("shows", "CREATE VIEW shows AS SELECT 1", "has triggers or views"),
        ("lacks", "DROP TABLE given_option", "has other tables than a herd book"),
    ]:
        if statement:
            changed(flock_desk, name, statement)
        with pytest.raises(Mistake, match=told):
            restore(folder, flock_desk.room / name, program, False)
        assert not folder.exists()


def test_last_backup(flock_desk: Desk) -> None:
    """None where there was none, or nobody can say, or where its last change isn't one of the book; a backup is good
    where its time can't be kept."""
    folder = flock_desk.room / "book"
    remember(Book(flock_desk.room / "absent", None))
    with reading(folder) as connection:
        book = Book(folder, connection)
        assert last_backup(book) is None
        remember(book)
        last = last_backup(book)
        assert last and last.change == 1 and last.time.utcoffset() == datetime.timedelta()
        assert last_backup(Book(folder, None)) is None
        for text in (
            b"", b"time,change\n", b"time\n2001-02-03\n", b"time,change\n2001-02-03\n", b"time,change\nx,1\n",
            b"time,change\n2001-02-03,x\n", b"time,change\n\xff,1\n", b"time,change\n2001-02-03,2\n",
            b"time,change,moment\n2001-02-03,1,5\n",
        ):  # fmt: skip
            (folder / LAST_BACKUP).write_bytes(text)
            assert last_backup(book) is None, text
        # as the version before kept it
        (folder / LAST_BACKUP).write_bytes(b"time,change\n2001-02-03,1\n")
        assert last_backup(book) == LastBackup(datetime.datetime(2001, 2, 3), 1)


def test_kept_where_nothing_has_the_name(flock_desk: Desk) -> None:
    """Also at once, and beside files of names that version 0.11 wrote, which aren't the book."""
    flock_desk.write("book/options.csv", "later")
    (flock_desk.room / "book/ids.csv").unlink()
    for _ in range(2):
        backup.keep_old(flock_desk.room / "book")
    kept = [path.read_bytes() for path in (flock_desk.room / "book/old").iterdir()]
    assert len(kept) == 2 and all(text.startswith(b"SQLite format 3") for text in kept)
