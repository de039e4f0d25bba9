"""What the database keeps of animals is what the program writes of them over the book's own journal."""
from __future__ import annotations

import contextlib
import datetime
import sqlite3
import subprocess

import pytest

from front_desk.desk import Desk
from front_desk.replayed import replay
from gudokeyi.domain.commands import RegisterRecord
from gudokeyi.engine.answers import records_of
from gudokeyi.store.book import Book
from gudokeyi.store.journal import accepted_commands
from gudokeyi.store.state import kept_records
from gudokeyi.store.transactions import reading

DAM, SIRE = "GK-17/472c", "GK-10/294b"
NUMBER = "HOLGBRF000000000001"


def written(desk: Desk) -> str:
    """The records that the program writes of the exported journal."""
    text = (desk.room / "book/commands.csv").read_bytes()
    return subprocess.run([desk.program, "records"], input=text, capture_output=True).stdout.decode()


def test_lines() -> None:
    """Each field stands in its place, and what is unknown or isn't said is empty."""
    bare = f"{NUMBER},2001-01-02,0,0,4,2001-01-02,-,"
    full = f"{NUMBER},2001-01-02,HOLGBRM000000000002,HOLGBRF000000000003,7,2003-01-02,2005-01-02,1"
    born, since, left = (datetime.date(year, 1, 2) for year in (2001, 2003, 2005))
    assert records_of([bare], {}) == {NUMBER: RegisterRecord(NUMBER, born, "", "", False, 4, born)}
    sire, dam = "HOLGBRM000000000002", "HOLGBRF000000000003"
    wanted = RegisterRecord(NUMBER, born, sire, dam, True, 7, since, left, 4)
    assert records_of([full], {NUMBER: 4}) == {NUMBER: wanted}


def test_kept_after_each_command(society_desk: Desk) -> None:
    """Of each kind of command, also of a refused one, and of an undo: what is kept is what the program writes, and what
    a second opinion has of the journal."""
    for words in (
        ("birth", "NEW-1", "--sex", "f", "--day", "2024-03-01", "--sire", SIRE, "--dam", DAM, "--embryo"),
        ("parents", "NEW-1", "--sire", "0", "--dam", DAM),
        ("transfer", "NEW-1", "--to", "Upper Mill", "--day", "2024-04-01"),
        ("transfer", DAM, "--to", "Somebody new", "--day", "2024-04-01"),
        ("exit", "NEW-1", "--day", "2024-05-01"),
        ("exit", "NEW-1", "--day", "2024-05-02"),
        ("undo", "--to", "3"),
    ):
        society_desk.run(*words)
        with reading(society_desk.room / "book") as connection:
            book = Book(society_desk.room / "book", connection)
            assert kept_records(book.connection) == written(society_desk), words
            assert dict(book.records) == replay(accepted_commands(book.each_step())), words
        society_desk.good("verify")


@pytest.mark.parametrize(
    "edit",
    [
        "herd = 99", "owned_since = '2024-01-01'", "departed = '2024-01-01'", "sire = NULL", "born = '2017-11-20'",
        "embryo = 1 - embryo", "giver = 99",
    ],
)  # fmt: skip
def test_one_otherwise(society_desk: Desk, edit: str) -> None:
    """A stored record with another field is found, and nothing is filed behind it."""
    with contextlib.closing(sqlite3.connect(society_desk.room / "book/book.sqlite")) as connection:
        connection.execute(f"UPDATE animal SET {edit} WHERE id = ? AND until IS NULL", (DAM,))
        connection.commit()
    society_desk.wrong("the journal has 1 animal otherwise, the first is", "verify")
    society_desk.wrong("the book isn't whole: nothing is changed", "exit", SIRE, "--day", "2024-05-01")


def test_brought_back(society_desk: Desk) -> None:
    """A state of before is brought back only where it is what the program writes of the journal of then."""
    society_desk.good("exit", DAM, "--day", "2024-05-01")
    with contextlib.closing(sqlite3.connect(society_desk.room / "book/book.sqlite")) as connection:
        connection.execute("UPDATE animal SET herd = 99 WHERE id = ? AND until IS NOT NULL", (DAM,))
        connection.commit()
    society_desk.good("verify")
    society_desk.wrong("the journal has 1 animal otherwise", "undo")
