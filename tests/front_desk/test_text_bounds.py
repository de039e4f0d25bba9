"""Texts that are filed have bounds: the same for words, for sheets and for pedigrees."""
from __future__ import annotations

import contextlib
import pathlib
import sqlite3

import pytest

from front_desk.desk import Desk
from gudokeyi.domain.findings import Report
from gudokeyi.domain.mistakes import InvalidValue
from gudokeyi.domain.own_columns import OwnColumn, OwnKind
from gudokeyi.domain.requests import MOST_IN_ID, MOST_IN_NAME, MOST_IN_OWNER, NotSuch
from gudokeyi.ingest.rows_as_meant import as_seen
from gudokeyi.ingest.sheets import Sheet, SheetRow
from gudokeyi.services.own_columns import checked

SHEET = "id,name,sex,born,sire,dam,owner\na,Bella,F,2001-01-01,,,Mill\n"
BIRTH = ["--sex", "f", "--day", "2003-01-01"]


@pytest.mark.parametrize(
    "sentence, most, words",
    [
        (NotSuch.LONG_ID, MOST_IN_ID, ["birth", "{}", *BIRTH]),
        (NotSuch.LONG_NAME, MOST_IN_NAME, ["birth", "b", *BIRTH, "--name", "{}"]),
        (NotSuch.LONG_OWNER, MOST_IN_OWNER, ["birth", "b", *BIRTH, "--owner", "{}"]),
        (NotSuch.LONG_OWNER, MOST_IN_OWNER, ["transfer", "a", "--day", "2003-01-01", "--to", "{}"]),
    ],
    ids=["id", "name", "owner", "new owner"],
)
def test_words(desk: Desk, sentence: NotSuch, most: int, words: list[str]) -> None:
    desk.take(SHEET)
    desk.wrong(sentence.said(letters=most + 1, most=most), *(word.format("ä" * (most + 1)) for word in words))
    desk.good(*(word.format("ä" * most) for word in words))
    desk.good("verify")


def test_sheet(desk: Desk) -> None:
    """A cell that is too long is left out, and of a long id the row; the book keeps what it has."""
    desk.take(SHEET)
    long = {"name": "n" * 121, "owner": "o" * 201, "sire": "s" * 121, "dam": "d" * 61}
    row = f"a,{long['name']},F,2001-01-01,{long['sire']},{long['dam']},{long['owner']}\n"
    done = desk.take(f"{SHEET.splitlines()[0]}\n{row}{'i' * 61},x,F,2001-01-01,,,\n")
    kept = "{} letters, and {} are kept at most: shorten it"
    for field, most in {"name": 120, "owner": 200, "sire": 120, "dam": 60}.items():
        done.tells(f"line 2: a: its {field} is left out: it has {kept.format(len(long[field]), most)}")
    done.tells(f"line 3: the row is left out: its id has {kept.format(61, 60)}")
    assert [(row["id"], row["name"], row["owner"]) for row in desk.listed("list", "--columns", "id,name,owner")] == [
        ("a", "Bella", "Mill")
    ]
    desk.good("verify")


def test_renamed_and_pedigree(desk: Desk) -> None:
    desk.take(SHEET)
    told = NotSuch.LONG_OWNER.said(letters=201, most=200)
    desk.wrong(told, "import", desk.write("again.csv", SHEET), "--owner", f"Mill={'o' * 201}")
    told_of_line = "line 2: an id has 61 letters, and 60 are kept at most: shorten it"
    file = desk.write("tree.txt", f"a 0 0\nb {'s' * 61} a\n")
    desk.wrong(told_of_line, "import", "--pedigree", file, "--book", "other")


def test_unseen(desk: Desk) -> None:
    """Signs that no one sees are dropped from the cells of a sheet, and told once; a row whose id has one is left out,
    unless the book has the animal by this id."""
    odd = "id,name,sex,born,sire,dam,owner\na,Be\x1blla,F,2001-01-01,,,Mi\u202ell\nb\u2066,Ben,M,2001-01-02,,,Mill\n"
    done = desk.take(odd)
    done.tells("to look at: 2 cells have invisible characters, the first in line 2: they are read without them")
    done.tells("line 3: the row is left out: its id 'b' has an invisible character in it: type it again")
    listed = desk.listed("list", "--columns", "id,name,owner")
    assert [(row["id"], row["name"], row["owner"]) for row in listed] == [("a", "Bella", "Mill")]
    rows, unseen = [SheetRow(2, ["b", ""]), SheetRow(3, ["c", "b"])], {(2, 0): "b\x7f", (3, 1): "b\x7f"}
    sheet = Sheet(1, ["id", "dam"], rows, "", [], unseen=unseen)
    report = Report()
    assert as_seen(sheet, {"id": 0, "dam": 1}, {"b\x7f"}, report).rows == [(2, ["b\x7f", ""]), (3, ["c", "b\x7f"])]
    assert not report.entries
    desk.good("verify")


def test_unseen_in_free_texts(desk: Desk, tmp_path: pathlib.Path) -> None:
    """No free text is kept that has a sign which does something to a terminal, so that no backup has one; what earlier
    versions took is restored."""
    desk.take(SHEET.replace("owner", "owner,Colour").replace("Mill", "Mill,red"), "--own", "Colour=text")
    told = NotSuch.UNSEEN.said(text="xy")
    for text in "x\x1by", "x\x7fy", "x\x80y", "x\x07y":
        for words in (
            ["note", "a", text], ["own", "a", f"Colour={text}"], ["settings", "--name", text],
            ["settings", "--unknown", text], ["owner", "Mill", "--address", text], ["owner", "Mill", "--mail", text],
            ["owner", "Mill", "--number", text],
        ):  # fmt: skip
            desk.wrong(told, *words)
        column = OwnColumn(1, text, OwnKind.TEXT)
        for one in column, column._replace(title="Colour", kind=OwnKind.CHOICE, choices=("red", text)):
            with pytest.raises(InvalidValue, match="has an invisible character in it"):
                checked(one, [])
    desk.wrong(NotSuch.UNSEEN.said(text="x" * 60 + "…"), "note", "a", "x" * 100 + "\x1b")
    desk.wrong(NotSuch.LONG_SETTING.said(letters=2_001, most=2_000), "settings", "--address", "x" * 2_001)
    desk.good("note", "a", "x\ny\tz\u2028")
    desk.good("settings", "--name", "Holgrave", "--address", "1 Mill Lane\nHolgrave")
    with contextlib.closing(sqlite3.connect(desk.room / "book/book.sqlite")) as connection:
        for table, its in ("note", "text"), ("own_column", "title"), ("member", "address"), ("setting", "value"):
            connection.execute(f"UPDATE {table} SET {its} = char(27, 0) || {its}")
        connection.commit()
    copy = str(tmp_path / "copy.sqlite")
    desk.good("backup", copy)
    desk.good("restore", copy, "--book", str(tmp_path / "other"))
    assert "\x1b" not in desk.good("note", "a", "--book", str(tmp_path / "other")).out
