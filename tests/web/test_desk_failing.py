"""What is where the session, the server or the disk fails while a command is filed: nothing is lost, and nothing goes
on that isn't so."""
from __future__ import annotations

import contextlib
import os
import pathlib
import shlex
import signal
import sqlite3
import subprocess
import sys
import textwrap

import pytest

from web.said import SENTENCES
from web.site import Site, shown, site_of
from web.test_desk_filing import BIRTH, DAM, SIRE
from front_desk.desk import TOP, Desk
from gudokeyi.domain.messages import Mistake
from gudokeyi.domain.requests import WebFault
from gudokeyi.engine.session import Places, Session, SessionEnded
from gudokeyi.services.book_program import BookProgram
from gudokeyi.store.messages import BookFault


def test_session_killed(site: Site) -> None:
    """A session that ends is started anew, and nothing is lost."""
    site.post("/file/birth", **BIRTH)
    session = site.desk.program.session
    assert session
    session.process.kill()
    session.process.wait()
    assert site.post("/file/exit", id="NEW-1", day="2024-06-01").headers["Location"] == "/answer/3"
    assert site.desk.program.session is not session
    Desk(site.desk.folder.parent, site.desk.program.path.as_posix()).good("verify")


def test_ended_within_an_answer(monkeypatch: pytest.MonkeyPatch, tmp_path: pathlib.Path) -> None:
    """What a session told of an answer before it ended isn't taken for the whole."""
    script = tmp_path / "herdbook"
    script.write_text("#!/bin/sh\nread -r request\necho t1,HOLGBRM000000000402,1/4,25.00\n", encoding="utf-8")
    script.chmod(0o755)
    monkeypatch.setenv("HERDBOOK", str(script))
    session = Session(BookProgram(), Places())
    with pytest.raises(SessionEnded):
        session.ask(["inbreeding"])
    session.end()


def test_stored_reply_differs(site: Site, society_desk: Desk) -> None:
    """Where a stored reply isn't the session's, nothing goes on."""
    with contextlib.closing(sqlite3.connect(site.desk.folder / "book.sqlite")) as connection:
        connection.execute("UPDATE command SET refusal = 3 WHERE place = 400")
        connection.commit()
    page = shown(site.page(f"/matings?dam={DAM}"))
    assert "the program's reply to command 400 isn't the stored one: nothing goes on" in page
    answer = site.post("/file/exit", id=DAM, day="2024-05-01")
    assert answer.status_code == 400
    with site.desk.opened() as book:
        assert book and book.change and book.change.number == 1


def test_not_stored(site: Site, monkeypatch: pytest.MonkeyPatch) -> None:
    """A reply that can't be stored isn't shown, and the next one is of a session that doesn't have it."""
    site.post("/file/birth", **BIRTH)
    with monkeypatch.context() as patched:
        patched.setattr("gudokeyi.services.writing.commit", lambda *_: 1 / 0)
        assert site.post("/file/exit", id="NEW-1", day="2024-06-01").status_code == 500
    page = shown(site.page(site.post("/file/exit", id="NEW-1", day="2024-06-02").headers["Location"]))
    assert "Accepted." in page and "Change 3" in page
    Desk(site.desk.folder.parent, site.desk.program.path.as_posix()).good("verify")


def test_sessions_end(society_desk: Desk, program: str, tmp_path: pathlib.Path) -> None:
    """Where each session ends, that is told, and nothing is filed: no other process answers in its place."""
    script = tmp_path / "herdbook"
    script.write_text(f'#!/bin/sh\n[ "$1" = session ] && exit 2\nexec {shlex.quote(program)} "$@"\n', encoding="utf-8")
    script.chmod(0o755)
    with site_of(society_desk.room / "book", str(script), tmp_path / "dropped") as site:
        for page in (
            site.post("/file/birth", **BIRTH).get_data(as_text=True),
            site.page(f"/matings?dam={DAM}"),
        ):
            assert "the program's session ended, also where it was begun anew" in shown(page)
    assert len(society_desk.good("history").out.splitlines()) == 1


def test_killed_before_storing(society_desk: Desk, tmp_path: pathlib.Path) -> None:
    """A server that is killed between the session's reply and its storing leaves the book as it was, and the form that
    is sent again by the next one is filed once."""
    killed = """
        import os, signal, sys
        sys.path[:0] = sys.argv[1:3]
        import pathlib
        from web.site import site_of
        import gudokeyi.services.writing
        gudokeyi.services.writing.commit = lambda *_: os.kill(os.getpid(), signal.SIGKILL)
        with site_of(pathlib.Path(sys.argv[3]), sys.argv[4], pathlib.Path(sys.argv[5])) as site:
            site.post("/file/exit", id=sys.argv[6], day="2024-05-01")
    """
    folder, program = society_desk.room / "book", society_desk.program
    words = [str(TOP / "src"), str(TOP / "tests"), str(folder), program, str(tmp_path / "killed"), DAM]
    done = subprocess.run([sys.executable, "-c", textwrap.dedent(killed), *words], capture_output=True, text=True)
    assert done.returncode == -signal.SIGKILL, done.stderr
    assert len(society_desk.good("history").out.splitlines()) == 1
    society_desk.good("verify")
    with site_of(folder, program, tmp_path / "dropped") as site:
        assert site.post("/file/exit", id=DAM, day="2024-05-01").headers["Location"] == "/answer/2"
    society_desk.good("verify")


def test_disk_full(site: Site, monkeypatch: pytest.MonkeyPatch) -> None:
    """A disk without room for a change is told, and nothing is lost: the next one is filed behind the last that is
    stored."""

    def full(*_: object) -> None:
        raise Mistake(BookFault.NO_ROOM.said(path=site.desk.folder))

    with monkeypatch.context() as patched:
        patched.setattr("gudokeyi.services.writing.commit", full)
        site.get("/language/de")
        page = shown(site.post("/file/exit", id=DAM, day="2024-05-01").get_data(as_text=True))
        assert SENTENCES[BookFault.NO_ROOM][1] in page
    assert site.post("/file/exit", id=DAM, day="2024-05-01").headers["Location"] == "/answer/2"
    Desk(site.desk.folder.parent, site.desk.program.path.as_posix()).good("verify")


def test_disk_full_to_read(site: Site, monkeypatch: pytest.MonkeyPatch) -> None:
    """On a disk without any room a book can't even be read, since SQLite has files beside it: each page says so, in a
    language, and the next ones are as before once there is room."""

    def fails(*_: object) -> sqlite3.Connection:
        error = sqlite3.OperationalError("disk I/O error")
        error.sqlite_errorcode = sqlite3.SQLITE_IOERR_SHMOPEN
        raise error

    free = os.statvfs(site.desk.folder)
    with monkeypatch.context() as patched:
        patched.setattr("gudokeyi.store.transactions.connect", fails)
        unreadable = "the book's file can't be used: nothing is changed"
        for room, told in (0, SENTENCES[BookFault.NO_ROOM][0]), (free.f_blocks, unreadable):
            patched.setattr(os, "statvfs", lambda _, room=room: os.statvfs_result((*free[:4], room, *free[5:])))
            for page in "/animals", "/history", "/settings":
                answer = site.get(page)
                assert answer.status_code == 400 and told in shown(answer.get_data(as_text=True))
    assert site.get("/animals").status_code == 200


def test_closed(site: Site) -> None:
    """Where the desk is closed no session begins any more, whoever still asks."""
    site.post("/file/exit", id=DAM, day="2024-05-01")
    assert site.desk.program.session
    site.desk.program.close()
    with site.desk.opened() as book, pytest.raises(Mistake, match="session ended"):
        assert book
        site.desk.program.coefficients([book.society_records[DAM].registration_number], book)
    assert site.desk.program.session is None
    site.desk.is_closing = True
    answer = site.post("/file/exit", id=SIRE, day="2024-05-01")
    assert answer.status_code == 400 and WebFault.CLOSING.value in shown(answer.get_data(as_text=True))
