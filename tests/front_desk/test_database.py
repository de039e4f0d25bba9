"""The file of a book: what isn't one is told and not touched."""
from __future__ import annotations

import contextlib
import pathlib
import sqlite3
from typing import Any

import pytest

from front_desk.desk import Desk
from front_desk.whole import changes_of
from gudokeyi.domain.messages import Mistake
from gudokeyi.services.folder_files import refresh
from gudokeyi.store import database, schema, transactions
from gudokeyi.store.messages import BookFault


def change_file(desk: Desk, *statements: str) -> None:
    with contextlib.closing(sqlite3.connect(desk.room / "book/book.sqlite", isolation_level=None)) as connection:
        for statement in statements:
            connection.execute(statement)


CALLS = (["list"], ["import", "sheet.csv"], ["verify"], ["undo"], ["backup", "copy"])


def test_no_database(flock_desk: Desk) -> None:
    """A backup is restored in its place only where that is wished: it is kept with what stands beside it, and nothing
    of that gets into the book."""
    text, book = b"no database " * 999, flock_desk.room / "book"
    flock_desk.good("backup", "good")
    listed = flock_desk.good("list").out
    with contextlib.closing(sqlite3.connect(book / "book.sqlite", isolation_level=None)) as connection:
        connection.execute("UPDATE animal SET name = 'beside' WHERE id = 'a0'")
        beside = (book / "book.sqlite-wal").read_bytes()
    flock_desk.write("book/book.sqlite", text)
    for words in CALLS:
        flock_desk.wrong("book/book.sqlite is damaged, or isn't a database", *words)
    flock_desk.wrong("to restore good in its place say --anyway", "restore", "good")
    flock_desk.write("book/book.sqlite-wal", beside)
    flock_desk.good("restore", "good", "--anyway")
    assert flock_desk.good("list").out == listed
    assert [path.read_bytes() for path in sorted((book / "old").iterdir())] == [text, beside]


def test_damaged(flock_desk: Desk) -> None:
    """Pages of zeros within the file: what reads or changes them is told, and a backup makes it whole."""
    flock_desk.good("backup", "copy")
    listed = flock_desk.good("list").out
    text = bytearray((flock_desk.room / "book/book.sqlite").read_bytes())
    text[8192:] = bytes(len(text) - 8192)
    flock_desk.write("book/book.sqlite", bytes(text))
    for words in CALLS[:4]:
        done = flock_desk.run(*words)
        assert done.status == 1 and "is damaged" in done.err and not done.out, f"{words}: {done}"
    assert (flock_desk.room / "book/book.sqlite").read_bytes() == bytes(text)
    flock_desk.good("restore", "copy", "--anyway")
    assert flock_desk.good("list").out == listed


def test_newer_schema(flock_desk: Desk) -> None:
    change_file(flock_desk, "PRAGMA user_version = 99")
    for words in CALLS:
        flock_desk.wrong("was written by a newer front desk (its tables have version 99", *words)


def test_database_of_another_program(flock_desk: Desk) -> None:
    change_file(flock_desk, "PRAGMA application_id = 7")
    for words in CALLS:
        flock_desk.wrong("is a database of another program, not a herd book", *words)


def test_a_book_that_comes_meanwhile(tmp_path: pathlib.Path) -> None:
    """Another makes it between two looks at the file: so it isn't there yet, or it is, and no other program's."""
    path, made = tmp_path / "book.sqlite", list[bool]()

    class WhileAnotherMakesIt(sqlite3.Connection):
        def execute(self, statement: str, *values: Any) -> sqlite3.Cursor:
            done = super().execute(statement, *values)
            if not made:
                made.append(True)
                with transactions.creating(tmp_path) as other:
                    other.execute("COMMIT")
            return done

    with contextlib.closing(sqlite3.connect(path, isolation_level=None)) as connection:
        connection.execute("PRAGMA journal_mode = WAL")
    with contextlib.closing(sqlite3.connect(path, isolation_level=None, factory=WhileAnotherMakesIt)) as connection:
        assert [database.version_of(connection, path) for _ in range(2)] == [0, schema.VERSION]


def test_folders_of_new_books(tmp_path: pathlib.Path, monkeypatch: pytest.MonkeyPatch) -> None:
    """One that was made goes again where the book can't be begun, and none else does."""
    there, file = tmp_path / "there", tmp_path / "file"
    file.touch()
    assert [transactions.make_folder(there) for _ in range(2)] == [True, False]
    for folder, fault in [
        (file, BookFault.FOLDER_IS_FILE.said(folder=file)),
        (file / "new", BookFault.FOLDER_CLOSED.said(folder=file / "new", error="Not a directory")),
        (tmp_path / "absent/new", BookFault.NO_FOLDER.said(folder=tmp_path / "absent")),
    ]:
        with pytest.raises(Mistake) as raised:
            transactions.make_folder(folder)
        assert str(raised.value) == str(Mistake(fault))

    def connect(*_: object) -> sqlite3.Connection:
        raise sqlite3.OperationalError("disk I/O error")

    monkeypatch.setattr(transactions, "connect", connect)
    for folder in there, tmp_path / "new":
        with pytest.raises(Mistake, match="disk I/O error"), transactions.creating(folder):
            pass
    assert {path.name for path in tmp_path.iterdir()} == {"there", "file"}


def test_begun_anew_while_books_come() -> None:
    """As often as another one makes it."""
    came = [transactions.BookCame(), transactions.BookCame()]

    def change() -> str:
        if came:
            raise came.pop()
        return "made"

    assert transactions.anew_where_a_book_came(change) == "made" and not came


TAKE = ["import", "sheet.csv"]


@pytest.mark.parametrize(("statement", "told", "words"), [
    ("UPDATE command SET day = '1999-12-31' WHERE place = 3", "the journal has 1 animal otherwise", TAKE),
    ("UPDATE coefficient SET fraction = '1/2' WHERE place = 9", "the program has 1 kept coefficient otherwise", TAKE),
    ("DELETE FROM command WHERE place = 16", "the journal has 15 commands, and its last change tells of 16", ["undo"]),
    ("UPDATE coefficient SET place = -place", "the kept coefficients aren't in the program's order", TAKE),
    ("UPDATE animal SET since = 9 WHERE id = 'a3'", "a row of the table animal names one of change that isn't there",
     TAKE),
])  # fmt: skip
def test_verify(flock_desk: Desk, statement: str, told: str, words: list[str]) -> None:
    """What somebody changed in the file is told before anything is written."""
    change_file(flock_desk, statement)
    flock_desk.wrong(told, "verify")
    flock_desk.wrong(told, *words)


def test_verify_replies(flock_desk: Desk) -> None:
    """A stored reply that somebody changed is told before a command is filed behind it."""
    change_file(flock_desk, "UPDATE command SET refusal = 5 WHERE place = 3")
    flock_desk.wrong("the program's reply to command 3 is that it is accepted", "verify")
    flock_desk.wrong("the program's reply to command 3 isn't the stored one", "exit", "a0", "--day", "2012-01-01")


def test_migration(flock_desk: Desk, monkeypatch: pytest.MonkeyPatch) -> None:
    """A file of an earlier version becomes one of this version on the first call; it is the earlier one where that
    fails."""
    folder = flock_desk.room / "book"
    for script, is_made in (
        ("CREATE TABLE added (one) STRICT;", False),
        ("CREATE TABLE added (one TEXT) STRICT;", True),
    ):
        monkeypatch.setattr(database, "MIGRATIONS", (*schema.MIGRATIONS, script))
        for module in database, transactions:
            monkeypatch.setattr(module, "VERSION", schema.VERSION + 1)
        with contextlib.ExitStack() as stack:
            if not is_made:
                stack.enter_context(pytest.raises(Exception, match="nothing is changed"))
            transactions.up_to_date(folder)
        with contextlib.closing(sqlite3.connect(folder / "book.sqlite")) as connection:
            version = connection.execute("PRAGMA user_version").fetchone()[0]
            tables = connection.execute("SELECT count(*) FROM sqlite_schema WHERE name = 'added'").fetchone()[0]
        assert (version, tables) == (schema.VERSION + is_made, is_made)
    assert changes_of(folder) == 1


class FailingAtItsEnd(sqlite3.Connection):
    """It commits, and reports that it couldn't."""

    def execute(self, statement: str, *values: Any) -> sqlite3.Cursor:
        done = super().execute(statement, *values)
        if statement == "COMMIT":
            raise sqlite3.OperationalError("disk I/O error")
        return done


@pytest.mark.parametrize("is_made", [True, False])
def test_commit_of_which_the_end_fails(flock_desk: Desk, is_made: bool) -> None:
    """A change is made where the book has it, with its time: another of the same number isn't it."""
    folder = flock_desk.room / "book"
    path = folder / "book.sqlite"
    with contextlib.closing(sqlite3.connect(path, isolation_level=None, factory=FailingAtItsEnd)) as connection:
        moment = connection.execute("SELECT time FROM change").fetchone()[0]
        connection.execute("BEGIN")
        with contextlib.ExitStack() as stack:
            if not is_made:
                stack.enter_context(pytest.raises(Mistake, match="nothing is changed"))
            transactions.commit(connection, folder, 1, moment if is_made else moment + 1)


def test_exports(flock_desk: Desk) -> None:
    """Exports that were changed or are missing are written again, and never read."""
    kept = {name: flock_desk.text(f"book/{name}") for name in ("commands.csv", "ids.csv", "report.csv")}
    rows = flock_desk.table("book/ids.csv")
    assert all(row["change"] == "1" for row in rows)
    # by their digits, whatever their sexes are
    assert [row["number"][7:] for row in rows] == sorted(row["number"][7:] for row in rows)
    # those that are as they were aren't written anew
    files = [(flock_desk.room / "book" / name).stat().st_ino for name in kept]
    assert refresh(flock_desk.room / "book", 0) == ""
    assert [(flock_desk.room / "book" / name).stat().st_ino for name in kept] == files
    flock_desk.write("book/commands.csv", "changed")
    flock_desk.good("list")
    assert {name: flock_desk.text(f"book/{name}") for name in kept} == kept
    (flock_desk.room / "book/ids.csv").unlink()
    flock_desk.good("list")
    assert {name: flock_desk.text(f"book/{name}") for name in kept} == kept
    flock_desk.good("exit", "a0", "--day", "2012-01-01")
    assert all(row["change"] == "2" for row in flock_desk.table("book/ids.csv"))
    assert flock_desk.commands()[-1].startswith("exit,")
