"""A file is put into its place whole, and into no other."""
from __future__ import annotations

import errno
import os
import pathlib
import secrets
import time
from typing import Callable

import pytest

from front_desk.desk import CALLED, Desk
from front_desk.old_folder import LIST, write_old
from gudokeyi.store.files import digest_of, put, source_of, take_away_left


def test_synced_before_it_has_its_name(tmp_path: pathlib.Path, monkeypatch: pytest.MonkeyPatch) -> None:
    """Its bytes before, and the folder with its name behind it."""
    called: list[str] = []

    def noted(name: str) -> Callable[..., None]:
        done = getattr(os, name)

        def both(*values: object) -> None:
            called.append(name)
            done(*values)

        return both

    for name in "fsync", "replace":
        monkeypatch.setattr(os, name, noted(name))
    put(tmp_path / "file", b"text", changed=7)
    assert called == ["fsync", "replace", "fsync"]
    assert (tmp_path / "file").read_bytes() == b"text" and (tmp_path / "file").stat().st_mtime_ns == 7


def test_planted(tmp_path: pathlib.Path, monkeypatch: pytest.MonkeyPatch) -> None:
    """Who guesses the name that a file has before can't have another one written over by it."""
    monkeypatch.setattr(secrets, "token_hex", lambda _: "guessed")
    (tmp_path / "precious").write_bytes(b"precious")
    os.link(tmp_path / "precious", tmp_path / ".file.guessed")
    with pytest.raises(FileExistsError):
        put(tmp_path / "file", b"text")
    assert (tmp_path / "precious").read_bytes() == b"precious" and not (tmp_path / "file").exists()


def test_left_by_kills(desk: Desk, monkeypatch: pytest.MonkeyPatch) -> None:
    """What calls that were killed left beside the book's files goes with a later change, and nothing else."""
    desk.take("id,birth,sire,dam\na,2001-01-01,,\n")
    book, random = desk.room / "book", "0123456789abcdef"
    left = [book / f".{name}.{random}" for name in ("commands.csv", "ids.csv", "report.csv")]
    others = [book / name for name in (f".list.csv.{random}", f"commands.csv.{random}", ".ids.csv.0123", ".ids.csv")]
    # those may be written now
    young = [book / f".{name}.{random}" for name in ("book.sqlite", "last_backup.csv")]
    for path in (*left, *others, *young):
        path.write_bytes(b"begun")
        os.utime(path, (0, 0))
    link, folder = book / ".ids.csv.aaaaaaaaaaaaaaaa", book / ".ids.csv.bbbbbbbbbbbbbbbb"
    link.symlink_to(others[0])
    folder.mkdir()
    desk.good("exit", "a", "--day", "2005-01-01")
    assert not any(path.exists() for path in left) and link.is_symlink() and folder.is_dir()
    assert {path.read_bytes() for path in (*others, *young)} == {b"begun"}
    # an hour later
    now = time.time()
    monkeypatch.setattr(time, "time", lambda: now + 3700)
    take_away_left(book, (), ("book.sqlite", "last_backup.csv"))
    assert not any(path.exists() for path in young) and all(path.exists() for path in others)


@pytest.mark.parametrize("has_links", [True, False])
def test_not_in_place_of_another(tmp_path: pathlib.Path, monkeypatch: pytest.MonkeyPatch, has_links: bool) -> None:
    """Nothing is left beside it, also on a disk that can't give a file two names; there a new one is written too."""
    def refused(*paths: object) -> None:
        raise PermissionError(errno.EPERM, "Operation not permitted")

    if not has_links:
        monkeypatch.setattr(os, "link", refused)
    (tmp_path / "file").write_bytes(b"precious")
    with pytest.raises(FileExistsError):
        put(tmp_path / "file", b"text", replaces=False)
    assert [path.read_bytes() for path in tmp_path.iterdir()] == [b"precious"]
    put(tmp_path / "new", b"text", replaces=False)
    assert {path.name: path.read_bytes() for path in tmp_path.iterdir()} == {"file": b"precious", "new": b"text"}


@pytest.mark.parametrize("number", [errno.EPERM, errno.EIO])
def test_name_beside_stays(tmp_path: pathlib.Path, monkeypatch: pytest.MonkeyPatch, number: int) -> None:
    """A file that is there, and whose name beside can't be taken away any more, is written."""
    def refused(path: pathlib.Path) -> None:
        raise OSError(number, "no")

    monkeypatch.setattr(pathlib.Path, "unlink", refused)
    put(tmp_path / "new", b"text", replaces=False)
    assert (tmp_path / "new").read_bytes() == b"text"


def test_names_that_are_no_text(desk: Desk, tmp_path: pathlib.Path) -> None:
    """Nothing is begun of a word that isn't UTF-8 text, and the name of a folder that isn't is kept in other
    letters."""
    for name in "b\udce4r.csv", "b\udce4r":
        (desk.room / name).write_text("id,born\nA 1,2001-01-01\n", encoding="utf-8")
        desk.wrong(r"b\udce4r", "import", name)
    desk.wrong("isn't UTF-8 text: write it otherwise", "import", "b\udce4r.csv", "--book", "another")
    folder = tmp_path / "f\udce4l"
    folder.mkdir()
    assert source_of(folder / "a.csv", b"").path == rf"{tmp_path.resolve()}/f\xe4l/a.csv"


def test_folder_whose_name_is_no_text(desk: Desk) -> None:
    """A book in it is made, asked, changed, copied and restored; and so is one of version 0.11."""
    there = Desk(desk.room / "f\udce4l", desk.program)
    there.take("id,sex,born,sire,dam,owner\na,F,2001-01-01,,,Nord\n")
    listed = there.good("list").out
    there.good("backup", "copy")
    there.good("exit", "a", "--day", "2010-01-01")
    there.good("certificate", "a", "--out", "a.html")
    there.good("restore", "copy", "--anyway")
    assert there.good("list").out == listed and "is whole" in there.good("verify").out
    there.wrong("report.csv is a file of the book", "list", "--out", "book/report.csv", "--force")
    there.write("sheet.csv", "changed since")
    there.wrong("sheet.csv is a sheet that was taken", "list", "--out", "sheet.csv", "--force")
    assert "took the sheet sheet.csv" in there.good("history").out
    (there.room / "book").rename(there.room / "other")
    write_old(there)
    assert there.good("list").out == LIST


def test_read_once(desk: Desk) -> None:
    """A sheet, a pedigree or a backup may come through a pipe, and the history has the digest of what was read."""
    desk.write("sheet", "id,sex,birth,sire,dam\nA,f,2001-01-01,,\n")
    desk.write("lines", "id sire dam\nB 0 A\n")
    desk.typed(f"cat sheet | {CALLED} import /dev/stdin")
    desk.typed(f"cat lines | {CALLED} import --pedigree /dev/stdin")
    desk.good("backup", "copy")
    desk.typed(f"cat copy | {CALLED} restore /dev/stdin --book again")
    assert desk.good("list", "--columns", "id,dam", "--book", "again").out == "id,dam\nA,\nB,A\n"
    for change, name in enumerate(("sheet", "lines", "copy"), 1):
        digest = digest_of((desk.room / name).read_bytes())
        assert digest in desk.good("history", str(change), "--book", "again").out
