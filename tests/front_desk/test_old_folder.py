"""A folder of version 0.11 is taken over on the first call, with the same numbers."""
from __future__ import annotations

import fcntl
import hashlib
import os
import pathlib
import subprocess
from typing import cast

import pytest

from front_desk.desk import Desk
from front_desk.old_folder import FILES, LIST, SHEET
from front_desk.whole import changes_of, ended, start
from gudokeyi.domain.messages import Mistake
from gudokeyi.domain.provenance import OwnerDay
from gudokeyi.services import old_folders, restoring
from gudokeyi.services.book_program import BookProgram
from gudokeyi.store.book import Book
from gudokeyi.store.legacy import old_folder
from gudokeyi.store.legacy.files import is_old
from gudokeyi.store.transactions import reading


def test_taken_over(old_desk: Desk) -> None:
    old_desk.write("book/old", b"a file")
    old_desk.wrong("the folder book is of version 0.11, and can't be taken over (File exists): nothing is", "list")
    (old_desk.room / "book/old").unlink()
    # a file that was kept before isn't written over
    (old_desk.room / "book/old").mkdir()
    old_desk.write("book/old/commands.csv", "precious")
    old_desk.wrong("book/old/commands.csv isn't what book/commands.csv is: move the folder book/old away", "list")
    (old_desk.room / "book/old/commands.csv").unlink()
    assert old_desk.good("list").out == LIST
    kept = {name: old_desk.text(f"book/old/{name}") for name in FILES}
    assert kept == FILES
    assert sorted(path.name for path in (old_desk.room / "book").iterdir()) == [
        "book.sqlite", "commands.csv", "ids.csv", "old", "report.csv"
    ]  # fmt: skip
    assert old_desk.text("book/commands.csv") == FILES["commands.csv"]
    assert not is_old(old_desk.room / "book")
    heading, file = old_desk.good("history", "1").out.splitlines()[:2]
    assert heading.endswith("took over the folder of version 0.11 (6 animals, 7 commands)")
    digest = hashlib.sha256(FILES["commands.csv"].encode()).hexdigest()
    assert file == f"file: {old_desk.room.resolve() / 'book/old/commands.csv'}, SHA-256 {digest}"
    assert "is whole" in old_desk.good("verify").out
    # one that was dropped isn't there, and has its digits again where it is born; a later file of an old name stays
    old_desk.write("book/owners.csv", "later")
    old_desk.wrong("the book has no animal 'g'", "exit", "g", "--day", "2012-01-01")
    assert "g (SKUGBRM000000000003)" in old_desk.good("birth", "g", "--sex", "m", "--day", "2003-01-01").out


def test_taken_after_it(old_desk: Desk) -> None:
    """What it remembers is used, and the animal that was dropped gets its number again."""
    done = old_desk.take(SHEET)
    assert "as last time: --columns id=Tag,sex=S,owner=Hof (the book remembers these)" in done.out
    assert " 7 animals, 1 new, 0 changed," in done.last
    assert old_desk.numbers()["g"] == "SKUGBRF000000000003"
    assert old_desk.text("book/old/ids.csv") == FILES["ids.csv"]


def test_commands_by_hand_after_it(old_desk: Desk) -> None:
    """They stay where a cell says what the last sheet said, as far as the book shows it, and not where another is
    said."""
    old_desk.good("transfer", "a", "--to", "Neu", "--day", "2010-01-01")
    old_desk.good("parents", "c", "--sire", "0")
    old_desk.good("parents", "e", "--sire", "0")
    old_desk.good("exit", "c", "--day", "2012-01-01")
    filed = old_desk.good("list", "--columns", "id,sire,dam,owner,exit").out
    assert "a,,,Neu," in filed and "c,,a,Nord,2012-01-01" in filed and "e,,c,," in filed
    assert " 0 changed" in old_desk.take(SHEET.removesuffix("g;;F;2003-01-01;;;;\n")).last
    assert old_desk.good("list", "--columns", "id,sire,dam,owner,exit").out == filed
    assert " 1 changed" in old_desk.take(SHEET.replace("e;Eve;F;2009-01-01;x;", "e;Eve;F;2009-01-01;b;")).last
    assert old_desk.parents()["e"] == ("b", "c")


def test_last_cells_of_its_sheet(old_desk: Desk) -> None:
    """Those of the animals that had a row, as far as the book shows them; nothing of it is what was inferred."""
    born = "birth,SKUGBRF000000000007,2009-01-01,SKUGBRM000000000006,SKUGBRF000000000004,,99999999,"
    old_desk.write("book/commands.csv", FILES["commands.csv"].replace(born, f"{born}1"))
    of_dan = "the month 2011-05,"
    old_desk.write("book/ids.csv", FILES["ids.csv"].replace(of_dan, f"{of_dan}since it is a sire"))
    old_desk.good("list")
    with reading(old_desk.room / "book") as connection:
        cells = Book(old_desk.room / "book", connection).cells
    assert cells == {
        ("a",): ("a", "Anna", "F", "2001-01-01", "", "", "Nord", None, "", ""),
        ("b",): ("b", "Bob", "M", "2001-02-01", "", "", "Süd", None, "", ""),
        ("c",): ("c", "Cleo", "F", "", "Bob", "a", "Nord", None, "verkauft", ""),
        ("d",): ("d", "Dan", "", "", "b", "c", "Süd", None, "2011-05", ""),
        ("e",): ("e", "Eve", "F", "2009-01-01", "x", "c", "", None, "", "1"),
    }


def test_begun_where_it_is_whole(old_desk: Desk, monkeypatch: pytest.MonkeyPatch) -> None:
    """Else there is no book and the files stay; the next call takes them over, though they stand in `old` already."""
    folder = old_desk.room / "book"

    def fault(book: Book, program: BookProgram, path: pathlib.Path) -> None:
        assert book.records.keys() == {line.split(",")[1] for line in FILES["commands.csv"].splitlines()[1:]}
        raise Mistake(f"{path} is faulty")

    monkeypatch.setenv("HERDBOOK", old_desk.program)
    with monkeypatch.context() as faulty, pytest.raises(Mistake, match="book/ids.csv is faulty"):
        faulty.setattr(old_folders, "verify", fault)
        old_folders.take_over(folder, BookProgram())
    assert {name: old_desk.text(f"book/{name}") for name in FILES} == FILES and is_old(folder)
    assert old_desk.good("list").out == LIST


def test_commands_of_others(old_desk: Desk) -> None:
    """An animal that the commands have is in the book: it is gone where `ids.csv` has it as dropped, and has its number
    as its id where that doesn't name it; letters in a number are no digits that others go on from."""
    births = "".join(f"birth,SKUGBRF{digits},2003-01-01,0,0,,1,\n" for digits in ("000000000003", "0000000000Z9"))
    old_desk.write("book/commands.csv", FILES["commands.csv"] + births)
    done = old_desk.good("list")
    assert "animals without a row in the sheet: 2 (g, x): added as parents, or gone" in done.err
    assert "SKUGBRF0000000000Z9,,SKUGBRF0000000000Z9," in done.out
    assert "n (SKUGBRM000000000008)" in old_desk.good("birth", "n", "--sex", "m", "--day", "2012-01-01").out


def may_be_taken_over(folder: pathlib.Path) -> bool:
    """Does nobody else take the folder over now?"""
    descriptor = os.open(folder, os.O_RDONLY)
    try:
        fcntl.flock(descriptor, fcntl.LOCK_EX | fcntl.LOCK_NB)
    except BlockingIOError:
        return False
    finally:
        os.close(descriptor)
    return True


def test_what_its_files_say_of_animals(old_desk: Desk, monkeypatch: pytest.MonkeyPatch) -> None:
    """The texts of parents, and that the days of owners are inferred; what nobody knows is told as changed."""
    old_desk.write("book/parents.csv", b"id,role,written\nc,sire,Bob\nd,dam,Eva\n")
    monkeypatch.setenv("HERDBOOK", old_desk.program)
    known = old_folder.read(old_desk.room / "book", BookProgram().file).society_records
    texts = {id: (one.written_sire, one.written_dam) for id, one in known.items()}
    assert texts == dict.fromkeys("abegx", ("", "")) | {"c": ("Bob", ""), "d": ("", "Eva")}
    assert {one.owner_day for one in known.values()} == {OwnerDay.INFERRED}
    for word, other in [
        ("Anna,yes", "Anna,maybe"), ("from the year 2004", "from then on"), ("the month 2011-05", "some day"),
        ("since it is a sire", "since then"), ("Eve,yes,,,", "Eve,yes,,"),
    ]:  # fmt: skip
        assert word in FILES["ids.csv"]
        old_desk.write("book/ids.csv", FILES["ids.csv"].replace(word, other).encode())
        with pytest.raises(Mistake, match="ids.csv is missing or was changed"):
            old_folder.read(old_desk.room / "book", BookProgram().file)


def test_two_first_calls_at_once(old_desk: Desk, monkeypatch: pytest.MonkeyPatch) -> None:
    """While one takes the folder over the other waits, and finds the book."""
    others: list[subprocess.Popen[bytes]] = []
    read = old_folder.read

    def read_while_another_comes(folder: pathlib.Path, file: old_folder.FileAll) -> old_folder.OldBook:
        others.append(start(old_desk, "list"))
        assert not may_be_taken_over(folder)
        return read(folder, file)

    monkeypatch.setattr(old_folders, "read", read_while_another_comes)
    monkeypatch.setenv("HERDBOOK", old_desk.program)
    old_folders.take_over(old_desk.room / "book", BookProgram())
    assert [ended(one).out for one in others] == [LIST] and changes_of(old_desk.room / "book") == 1


def test_nobody_takes_it_over_where_a_backup_is_restored(old_desk: Desk, monkeypatch: pytest.MonkeyPatch) -> None:
    folder, may = old_desk.room / "book", list[bool]()
    monkeypatch.setattr(restoring, "prepare", lambda *_: None)
    monkeypatch.setattr(restoring, "put_in_place", lambda *_: may.append(may_be_taken_over(folder)))
    restoring.restore(folder, old_desk.room / "copy", cast(BookProgram, None), anyway=True)
    assert may == [False] and may_be_taken_over(folder)


@pytest.mark.parametrize(("name", "text", "told"), [
    ("commands.csv", FILES["commands.csv"] + "exit,HOLGBRF000000000009,2001-01-01,,,,,\n",
     "book/commands.csv: command 8 is refused: it isn't in the book (refusal 11). Somebody has changed this file"),
    ("commands.csv", FILES["commands.csv"] + "exit,SKUGBRF000000000001,2001-02-30,,,,,\n",
     "the program `herdbook file` can't do it: record 8: fault 5 Day. Somebody has changed the command file"),
    ("commands.csv", None, "the folder book has files of version 0.11, and no commands.csv: restore it"),
    ("commands.csv", "birth\n", "book/commands.csv: line 1 isn't the header of a command file"),
    ("commands.csv", FILES["commands.csv"][:-8], "book/commands.csv: line 8 has 3 cells, not 8: mend it, or restore"),
    ("ids.csv", "number\n", "book/ids.csv is missing or was changed"),
    ("ids.csv", FILES["ids.csv"].replace(",b,", ",a,"), "book/ids.csv has 'a' in two lines: restore it, or take the sheet"),
    ("ids.csv", FILES["ids.csv"].replace("M000000000002", "F000000000001"),
     "book/ids.csv has 'SKUGBRF000000000001' in two lines"),
    ("owners.csv", "herd,owner\n1,Nord\n2,Nord\n", "book/owners.csv has 'Nord' in two lines"),
    ("owners.csv", "herd,owner\n1,Nord\n01,Süd\n", "book/owners.csv has '1' in two lines"),
    ("commands.csv", "".join(FILES["commands.csv"].splitlines(keepends=True)[:5]),
     "book/ids.csv has x (SKUGBRM000000000006), whose birth isn't in book/commands.csv: restore both files, or take the"),
    ("owners.csv", "herd,owner\nx,y\n", "book/owners.csv is missing or was changed"),
    ("options.csv", "option,word\nx,y\n", "book/options.csv is missing or was changed"),
])  # fmt: skip
def test_changed_by_somebody(old_desk: Desk, name: str, text: str | None, told: str) -> None:
    (old_desk.room / "book" / name).unlink()
    if text is not None:
        old_desk.write(f"book/{name}", text.encode())
    old_desk.wrong(told, "list")


@pytest.mark.parametrize("is_there", [False, True])
def test_exports_alone(desk: Desk, is_there: bool) -> None:
    """Where the database is missing, or has nothing in it, its exports aren't taken for it, also with commands that
    were refused, and no new one is begun."""
    desk.take("id,born,sire,dam\na,2001-01-01,,\n")
    assert "is refused" in desk.run("exit", "a", "--day", "1990-01-01").err
    (desk.room / "book/book.sqlite").unlink()
    if is_there:
        desk.write("book/book.sqlite", b"")
    for words in ["list"], ["import", "sheet.csv"], ["birth", "b", "--sex", "m", "--day", "2001-01-01"]:
        desk.wrong("book/book.sqlite, the book, is missing or empty: book/ids.csv was only written from it", *words)
