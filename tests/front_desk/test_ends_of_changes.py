"""Changes at whose end somebody does something else: moves the folder, stops the call, or reads by a link."""
from __future__ import annotations

import contextlib
import pathlib
import signal
import sqlite3
from types import SimpleNamespace
from typing import cast

import pytest

from front_desk.desk import Desk
from front_desk.whole import FLOCK
from gudokeyi.background import Background
from gudokeyi.domain.changes import NO_MARK, Change, ChangeDetails
from gudokeyi.domain.findings import Call
from gudokeyi.domain.kinds import ChangeKind
from gudokeyi.domain.messages import Mistake
from gudokeyi.domain.settings import Setting
from gudokeyi.process import stop_no_more
from gudokeyi.reconcile.outcome import Outcome
from gudokeyi.services import behind_others, restoring, saving
from gudokeyi.services.book_program import BookProgram
from gudokeyi.services.prepared_changes import Prepared
from gudokeyi.services.saving import save_import
from gudokeyi.services.writing import write
from gudokeyi.store import backup
from gudokeyi.store.book import Book
from gudokeyi.store.journal import Filed
from gudokeyi.store.settings import change_settings
from gudokeyi.store.state import Meaning, Rows, State, read_remembered
from gudokeyi.store.transactions import Overtaken, changing, copy_of


def test_folder_that_goes_away(flock_desk: Desk, monkeypatch: pytest.MonkeyPatch) -> None:
    """While a taking of it is prepared: no other book is begun in its place."""
    monkeypatch.setenv("HERDBOOK", flock_desk.program)
    folder, seen = flock_desk.room / "book", list[Change | None]()

    def prepare(book: Book) -> tuple[Outcome, Prepared | None]:
        seen.append(book.change)
        folder.rename(flock_desk.room / "moved")
        return cast(Outcome, None), cast(Prepared, SimpleNamespace(before=book.change, basis=None))

    with pytest.raises(Mistake, match="there is no book in the folder"):
        save_import(folder, BookProgram(), prepare)
    assert len(seen) == 1 and not folder.exists()
    assert "is whole: 1 change" in flock_desk.good("verify", "--book", "moved").out


def test_what_is_told_besides(flock_desk: Desk, monkeypatch: pytest.MonkeyPatch) -> None:
    """What is found while a taking is prepared, and then of its exports; where it is prepared once more, what is found
    then."""
    monkeypatch.setenv("HERDBOOK", flock_desk.program)
    for module in saving, behind_others:
        monkeypatch.setattr(module, "save", lambda *_: SimpleNamespace(number=7))
    monkeypatch.setattr(saving, "export", lambda *_: ["of the exports"])
    folder, notes, outcome = flock_desk.room / "book", list[str](), Outcome(pathlib.Path(), Call((), pathlib.Path()))

    def prepare(book: Book) -> tuple[Outcome, Prepared | None]:
        notes.append(f"{len(notes)}")
        book.notes.append(notes[-1])
        prepared = SimpleNamespace(before=book.change, basis=None, filed=SimpleNamespace(text=""))
        return outcome, cast(Prepared, prepared)

    def prepare_beside_another(book: Book) -> tuple[Outcome, Prepared | None]:
        if not notes:
            flock_desk.good("exit", "a0", "--day", "2012-01-01")
        return prepare(book)

    for prepared, told in (prepare, "0"), (prepare_beside_another, "1"):
        notes.clear()
        taken, besides = save_import(folder, BookProgram(), prepared)
        assert taken.call.change == 7 and besides == [told, "of the exports"]


def test_no_book_is_begun_where_the_program_fails(desk: Desk) -> None:
    """Also where it answers to the commands."""
    fails = desk.write("fails", f'#!/bin/sh\n[ "$1" != inbreeding ] && exec {desk.program} "$@"\necho no >&2\nexit 3\n')
    (desk.room / fails).chmod(0o755)
    desk.program = str(desk.room / fails)
    desk.wrong("the program `herdbook inbreeding` can't do it: no", "import", desk.write("sheet.csv", FLOCK))
    assert not (desk.room / "book").exists()


def test_nothing_is_remembered_any_more(flock_desk: Desk, monkeypatch: pytest.MonkeyPatch) -> None:
    """It goes where a change says so, and stays where a change says nothing of it."""
    monkeypatch.setenv("HERDBOOK", flock_desk.program)
    found, folder = [], flock_desk.room / "book"
    try:
        for remembered in None, list[Meaning]():
            with changing(folder) as connection:
                state = State(Rows({}, {}), remembered=remembered, keeps_coefficients=True)
                write(
                    Book(folder, connection), BookProgram(), Filed([]), lambda _: state, ChangeDetails(ChangeKind.TAKE)
                )
            with contextlib.closing(sqlite3.connect(folder / "book.sqlite")) as connection:
                found.append(bool(read_remembered(connection)))
    finally:
        signal.signal(signal.SIGINT, signal.default_int_handler)
    assert found == [True, False]


def test_stopped_when_it_is_made(flock_desk: Desk, monkeypatch: pytest.MonkeyPatch) -> None:
    """A restoring, or a change of the settings, that ends can't be stopped any more, so nobody is told that it was."""
    monkeypatch.setenv("HERDBOOK", flock_desk.program)
    monkeypatch.setattr("gudokeyi.process.ignores_stops", True)
    flock_desk.good("backup", "copy")
    folder, handlers = flock_desk.room / "book", list[object]()
    monkeypatch.setattr(restoring, "keep_old", lambda folder: handlers.append(signal.getsignal(signal.SIGINT)))
    # whoever changes a book beside others, as a desk does, is stopped with these
    Background(stop_no_more).value()
    try:
        for text in None, b"no database " * 999:
            if text is not None:
                flock_desk.write("book/book.sqlite", text)
            restoring.restore(folder, flock_desk.room / "copy", BookProgram(), anyway=True)
            handlers.append(signal.getsignal(signal.SIGINT))
            signal.signal(signal.SIGINT, signal.default_int_handler)
        change_settings(folder, {Setting.NAME: "Verein"})
        handlers.append(signal.getsignal(signal.SIGINT))
    finally:
        signal.signal(signal.SIGINT, signal.default_int_handler)
    assert handlers == [*(signal.default_int_handler, signal.SIG_IGN) * 2, signal.SIG_IGN]


def test_restored_in_the_place_of_what_was_looked_at(flock_desk: Desk, monkeypatch: pytest.MonkeyPatch) -> None:
    """Of a book after its last change, also where another one comes meanwhile; of a damaged one nobody can say."""
    monkeypatch.setenv("HERDBOOK", flock_desk.program)
    flock_desk.good("backup", "copy")
    folder, copy = flock_desk.room / "book", flock_desk.room / "copy"
    mark = backup.mark_now(folder)
    assert mark and mark[0] == 1 and backup.mark_now(flock_desk.room / "other") == NO_MARK
    other = mark[0], mark[1] + 1
    marks = [mark, (2, mark[1]), mark, other]
    with monkeypatch.context() as patched:
        patched.setattr(restoring, "mark_now", lambda _: marks.pop(0))
        for looked in mark, mark, NO_MARK, other:
            with pytest.raises(Overtaken):
                restoring.restore(folder, copy, BookProgram(), anyway=True, looked=looked)
            marks += [mark] * (not marks)
    assert backup.mark_now(folder) == mark and not (folder / "old").exists()
    flock_desk.write("book/book.sqlite", b"no database " * 999)
    assert backup.mark_now(folder) is None
    try:
        assert restoring.restore(folder, copy, BookProgram(), anyway=True, looked=mark).number == 2
    finally:
        signal.signal(signal.SIGINT, signal.default_int_handler)


def test_read_by_a_link_without_rights(flock_desk: Desk) -> None:
    """What stands beside the file that a link names is read too."""
    path, link = flock_desk.room / "book/book.sqlite", flock_desk.room / "link.sqlite"
    link.symlink_to(path)
    with contextlib.closing(sqlite3.connect(path, isolation_level=None)) as reader:
        # who reads what was before keeps a change out of the file itself
        reader.execute("BEGIN")
        reader.execute("SELECT count(*) FROM change").fetchone()
        flock_desk.good("birth", "calf", "--sex", "f", "--day", "2012-03-04", "--owner", "Neuer Hof")
        (flock_desk.room / "room").mkdir()
        with contextlib.closing(sqlite3.connect(copy_of(link, flock_desk.room / "room"))) as copy:
            assert copy.execute("SELECT count(*) FROM change").fetchone() == (2,)
