"""A book in folders in which nothing can be written is read; a change says why it can't be made."""
from __future__ import annotations

import contextlib
import functools
import os
import pathlib
import shutil
import sqlite3
import tempfile
from typing import Iterator

import pytest

from front_desk.desk import Desk
from front_desk.whole import GROWN, changes_of, run

# who has no rights: nobody
NOBODY = 65534


@pytest.fixture
def open_room() -> Iterator[pathlib.Path]:
    """A folder that nobody may go to."""
    room = pathlib.Path(tempfile.mkdtemp(prefix="gudokeyi-tests-"))
    room.chmod(0o755)
    yield room
    shutil.rmtree(room)


@pytest.mark.skipif(os.getuid() != 0, reason="only root can call as somebody else")
@pytest.mark.parametrize("is_unsettled", [False, True])
def test_without_rights(flock_desk: Desk, open_room: pathlib.Path, is_unsettled: bool) -> None:
    """Where nothing can be written a book is read, also with a change that isn't in the file itself yet."""
    desk = flock_desk.copy_to(open_room)
    listed = desk.good("list").out
    with contextlib.closing(sqlite3.connect(desk.room / "book/book.sqlite")) as connection:
        if is_unsettled:
            connection.execute("UPDATE animal SET name = 'unsettled' WHERE id = 'a0'")
            connection.commit()
            for name in "book.sqlite-wal", "book.sqlite-shm":
                (desk.room / "book" / name).chmod(0o644)
        nobody = functools.partial(os.setuid, NOBODY)
        done = run(desk, "list", before=nobody)
        assert done.status == 0
        assert done.out == (listed.replace("a0,,", "a0,unsettled,") if is_unsettled else listed)
        assert "is whole" in run(desk, "verify", before=nobody).out
        desk.write("grown.csv", GROWN)
        for words in ["import", "grown.csv"], ["undo"], ["exit", "a0", "--day", "2012-01-01"]:
            done = run(desk, *words, before=nobody)
            assert done.status == 1 and "book/book.sqlite can't be written" in done.err and not done.out, f"{done}"
    assert changes_of(desk.room / "book") == 1


@pytest.mark.skipif(os.getuid() != 0, reason="only root can call as somebody else")
def test_only_to_be_read(flock_desk: Desk, open_room: pathlib.Path) -> None:
    """Who may write in the folder and not the file leaves nothing beside it, by which its owner couldn't change it."""
    desk = flock_desk.copy_to(open_room)
    (desk.room / "book").chmod(0o777)
    before = set(desk.files())
    for words in ["list"], ["verify"], ["undo"], ["import", "sheet.csv"]:
        done = run(desk, *words, before=functools.partial(os.setuid, NOBODY))
        assert done.status == (words[0] in ("undo", "import")), f"{done}"
        assert set(desk.files()) == before, f"{words}"
