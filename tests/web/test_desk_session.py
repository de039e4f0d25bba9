"""The one session that answers for a desk's book: how it is asked, and what is where the book changes meanwhile."""
from __future__ import annotations

import contextlib
import datetime
import os
import signal
import sqlite3
import threading
import time
from collections.abc import Callable, Sequence

import pytest

from web.site import Site, shown
from web.test_desk_filing import BIRTH, DAM, SIRE
from front_desk.desk import Desk
from gudokeyi.domain.commands import leave
from gudokeyi.domain.mistakes import BookBusy
from gudokeyi.domain.waiting import waiting
from gudokeyi.engine.session import Answer, Places
from gudokeyi.services.book_session import BookMoved, BookSession, SessionEnded
from gudokeyi.services.history import last_that_changed
from gudokeyi.store.book import Book

CALF = "HOLGBRM000000000402"


def test_by_the_session(site: Site, monkeypatch: pytest.MonkeyPatch) -> None:
    """Replies, and the answers of questions, come from the one session: the program isn't run for them."""
    site.post("/file/exit", id=DAM, day="2024-05-01")
    session = site.desk.program.session
    assert session and not session.has_ended

    def run(*_: object) -> str:
        raise AssertionError("the program is run")

    monkeypatch.setattr("gudokeyi.engine.program.Herdbook.run", run)
    for at, (kind, fields) in enumerate(
        (
            ("birth", BIRTH),
            ("exit", {"id": "NEW-1", "day": "2024-06-01"}),
            ("exit", {"id": "NEW-1", "day": "2024-06-02"}),
        )
    ):
        assert site.post(f"/file/{kind}", **fields).headers["Location"] == f"/answer/{at + 3}"
    assert "it has left already" in shown(site.page("/answer/5"))
    assert "sires, the least related first" in shown(site.page(f"/matings?dam={DAM}"))
    assert site.get("/animal/HOLGBRM000000000402/certificate").status_code == 200
    assert site.desk.program.session is session


def test_too_long_for_the_session(site: Site, monkeypatch: pytest.MonkeyPatch) -> None:
    """A report that is longer than the session makes them is the program's own."""
    monkeypatch.setattr("gudokeyi.engine.session.Session.ask", lambda *_: Answer(fault="TooLong"))
    assert "sires, the least related first" in shown(site.page(f"/matings?dam={DAM}"))


def test_certificates_in_parts(site: Site, monkeypatch: pytest.MonkeyPatch) -> None:
    """Of more animals than one question names the session is asked by several."""
    whole = site.get("/certificates?owner=Lower+Mill").get_data()
    asked = list[int]()
    ask = BookSession.asked

    def counted(office: BookSession, question: list[str], book: Book) -> list[str]:
        asked.append(len(question) - 1 if question[0] == "certificate" else 0)
        return ask(office, question, book)

    monkeypatch.setattr(BookSession, "most_numbers", 7)
    monkeypatch.setattr(BookSession, "asked", counted)
    assert site.get("/certificates?owner=Lower+Mill").get_data() == whole and b"Lower Mill" in whole
    assert len(asked) > 9 and max(asked) == 7


def test_coefficients(site: Site, society_desk: Desk) -> None:
    """What is kept of a birth's coefficient is the program's, at its place in age order, also of an animal that is
    older than others, or born on a day with another."""
    calves: list[tuple[str, dict[str, str]]] = [
        ("2024-03-01", {"sire": SIRE, "dam": DAM}), ("1999-01-01", {}), ("2012-06-01", {"dam": "GK-05/192c"}),
        ("2024-03-01", {}),
    ]  # fmt: skip
    for at, (day, parents) in enumerate(calves):
        site.post("/file/birth", id=f"NEW-{at}", sex="F", day=day, **parents)
        assert "Accepted." in shown(site.page(f"/answer/{at + 2}"))
    society_desk.good("verify")
    assert "17/512" in society_desk.good("show", "NEW-0").out
    # those of all that descend from an animal change with its parents
    site.post("/file/parents", id=DAM, sire=SIRE, dam="0")
    assert "Accepted." in shown(site.page(f"/answer/{len(calves) + 2}"))
    society_desk.good("verify")


def test_beside_a_terminal(site: Site, society_desk: Desk) -> None:
    """Commands of a terminal between those of a form: the session catches up, and an undo there begins a new one."""
    site.post("/file/birth", **BIRTH)
    society_desk.good("exit", "NEW-1", "--day", "2024-06-01")
    assert "it has left already" in shown(
        site.page(site.post("/file/exit", id="NEW-1", day="2024-07-01").headers["Location"])
    )
    society_desk.good("undo", "--to", "1")
    assert "Accepted." in shown(site.page(site.post("/file/birth", **BIRTH).headers["Location"]))
    society_desk.good("verify")
    assert site.desk.program.journal.edition == 2


@pytest.mark.parametrize(
    "words", [["undo", "--to", "1"], ["restore", "copy.sqlite", "--anyway"]], ids=["undo", "restore"]
)
def test_longer_without_it(site: Site, society_desk: Desk, words: list[str], monkeypatch: pytest.MonkeyPatch) -> None:
    """What a terminal took back isn't in the session any more, also where more was filed since than before; a long
    journal is filed in parts."""
    monkeypatch.setattr("gudokeyi.services.book_session.AT_ONCE", 100)
    society_desk.good("backup", "copy.sqlite")
    site.post("/file/exit", id=DAM, day="2024-05-01")
    society_desk.good(*words)
    for id in SIRE, "GK-16/433c":
        society_desk.good("exit", id, "--day", "2024-05-01")
    page = site.page(site.post("/file/exit", id=DAM, day="2024-05-02").headers["Location"])
    assert "Accepted." in shown(page)
    society_desk.good("verify")


def test_clock_put_back(site: Site, society_desk: Desk, monkeypatch: pytest.MonkeyPatch) -> None:
    """The session answers for the book that is there, though an earlier one be of a later time."""
    later = time.time_ns() + 7_200_000_000_000
    with monkeypatch.context() as ahead:
        ahead.setattr("time.time_ns", lambda: later)
        site.post("/file/exit", id=DAM, day="2024-05-01")
    society_desk.good("backup", "copy.sqlite")
    site.post("/file/birth", **BIRTH | {"dam": "", "sire": ""})
    society_desk.good("restore", "copy.sqlite", "--anyway")
    society_desk.good("birth", "NEW-2", "--sex", "f", "--day", "2024-05-01", "--dam", "GK-16/433c")
    answer = site.post("/file/birth", **BIRTH | {"dam": "NEW-2", "day": "2026-05-01"})
    assert "Accepted." in shown(site.page(answer.headers["Location"]))
    society_desk.good("undo", "--to", "1")
    assert "sires, the least related first" in shown(site.page(f"/matings?dam={DAM}"))
    answer = site.post("/file/exit", id=DAM, day="2024-05-02")
    assert "Accepted." in shown(site.page(answer.headers["Location"]))
    society_desk.good("verify")


def test_book_moved(site: Site, monkeypatch: pytest.MonkeyPatch) -> None:
    """A page of a book that somebody changes while it is made is made anew, of the book as it is then."""
    site.post("/file/exit", id=DAM, day="2024-05-01")
    with site.desk.opened() as earlier:
        site.post("/file/birth", **BIRTH | {"dam": "", "sire": ""})
        assert earlier
        with pytest.raises(BookMoved):
            site.desk.program.ask(["certificate", "HOLGBRM000000000402"], earlier)
    monkeypatch.setattr("gudokeyi.web.routes.history.last_that_changed", raising_once(BookMoved()))
    answer = site.get("/history")
    assert answer.status_code == 302
    assert "3 filed a birth" in shown(site.page(answer.headers["Location"]))


def test_always_moved(site: Site, monkeypatch: pytest.MonkeyPatch) -> None:
    """Where the book is changed again and again a page says so, and doesn't lead to itself for ever."""

    def moved(_: object) -> None:
        raise BookMoved

    monkeypatch.setattr("gudokeyi.web.routes.history.last_that_changed", moved)
    answer, times = site.get("/history?page=1"), 0
    while answer.status_code == 302:
        answer, times = site.get(answer.headers["Location"]), times + 1
    assert times == 5 and "somebody else is changing the book" in shown(answer.get_data(as_text=True)).lower()


def test_book_moved_behind_the_question(site: Site, monkeypatch: pytest.MonkeyPatch) -> None:
    """An answer of a longer history than the book that was asked of isn't shown."""
    answer_of = BookSession.answer_of

    def of_later(office: BookSession, question: list[str], book: Book) -> Answer:
        found = answer_of(office, question, book)
        found.steps += 1
        return found

    monkeypatch.setattr(BookSession, "answer_of", of_later)
    with site.desk.opened() as book, pytest.raises(BookMoved):
        assert book
        site.desk.program.ask(["certificate", "HOLGBRM000000000402"], book)


def test_record_of_another_step(site: Site, monkeypatch: pytest.MonkeyPatch) -> None:
    """A record is stored only where the session answers of the step that was filed; else nothing of it is."""
    answer_of, asked = BookSession.answer_of, list[str]()

    def of_earlier(office: BookSession, question: list[str], book: Book) -> Answer:
        found = answer_of(office, question, book)
        asked.append(question[0])
        found.steps -= question[0] == "record"
        return found

    with monkeypatch.context() as patched:
        patched.setattr(BookSession, "answer_of", of_earlier)
        site.post("/file/exit", id=DAM, day="2024-05-01")
    with site.desk.opened() as book:
        assert "record" in asked and book and book.change and book.change.number == 1
    assert site.post("/file/exit", id=DAM, day="2024-05-01").headers["Location"] == "/answer/2"


def test_record_as_the_session_answers(site: Site, society_desk: Desk, monkeypatch: pytest.MonkeyPatch) -> None:
    """What is stored of a filed command is the line of the session; one that isn't the program's is found."""
    records = BookSession.records

    def with_other_day(office: BookSession, numbers: Sequence[str], book: Book) -> list[str]:
        return [line.replace(",2024-05-01,", ",2024-05-02,") for line in records(office, numbers, book)]

    with monkeypatch.context() as patched:
        patched.setattr(BookSession, "records", with_other_day)
        site.post("/file/exit", id=DAM, day="2024-05-01")
    assert "2024-05-02" in society_desk.good("show", DAM).out
    society_desk.wrong("the journal has 1 animal otherwise", "verify")


def raising_once(error: Exception) -> Callable[[Book], int]:
    """`last_that_changed`, but for the first call."""
    errors = [error]

    def last(book: Book) -> int:
        if errors:
            raise errors.pop()
        return last_that_changed(book)

    return last


def test_seen_in_a_process_beside(site: Site, monkeypatch: pytest.MonkeyPatch) -> None:
    """A large book is seen to be whole in a process beside the server, and one that isn't is changed by nobody."""
    monkeypatch.setattr("gudokeyi.web.verification.MOST_LOOKED_AT_HERE", 0)
    assert site.post("/file/exit", id=DAM, day="2024-05-01").status_code == 302
    with contextlib.closing(sqlite3.connect(site.desk.folder / "book.sqlite")) as connection:
        connection.execute("UPDATE coefficient SET percent = '9.99' WHERE place = 7")
        connection.commit()
    answer = site.post("/file/exit", id=SIRE, day="2024-05-01")
    assert answer.status_code == 400 and "The program has 1 of the kept coefficients otherwise" in shown(
        answer.get_data(as_text=True)
    )
    with site.desk.opened() as book:
        assert book and book.change and book.change.number == 2


def test_change_under_way(site: Site) -> None:
    """Whoever asks while a change is filed, and not made yet, waits for that, and has the same session answer."""
    site.post("/file/exit", id=DAM, day="2024-05-01")
    program = site.desk.program
    session, asked = program.session, list[str]()

    def ask() -> None:
        with site.desk.opened() as book:
            assert book
            try:
                program.ask(["certificate", CALF], book)
            except BookMoved:
                asked.append("moved")

    with site.desk.opened() as book:
        assert book
        asking = threading.Thread(target=ask)
        program.reply(leave("HOLGBRM000000000402", datetime.date(2024, 6, 1)), book)
        asking.start()
        asking.join(0.5)
        assert asking.is_alive() and not asked
        # it isn't made: the session ends that has filed it, and another one answers
        program.keep_to(book.journal)
    asking.join(60)
    assert not asked and session and session.has_ended and program.session is not session
    assert site.get(f"/animal/{CALF}/certificate").status_code == 200


@pytest.mark.parametrize("is_asked", [True, False], ids=["asked", "in turn"])
def test_session_that_waits(site: Site, monkeypatch: pytest.MonkeyPatch, is_asked: bool) -> None:
    """Where its process doesn't answer, or somebody brings it to a book for long, a page says so in the time of a page
    and holds nobody; once it answers again all is as before."""
    site.post("/file/exit", id=DAM, day="2024-05-01")
    session, turn = site.desk.program.session, site.desk.program.lock
    assert session
    monkeypatch.setattr("gudokeyi.web.access.SECONDS_OF_PAGE", 1)
    held, over = threading.Event(), threading.Event()

    def hold() -> None:
        with turn:
            held.set()
            over.wait(60)

    holding = threading.Thread(target=hold)
    if is_asked:
        os.kill(session.process.pid, signal.SIGSTOP)
    else:
        holding.start()
        held.wait()
    began = time.monotonic()
    for _ in range(5):
        answer = site.get(f"/animal/{CALF}/certificate")
        assert answer.status_code == 400 and "wasn't free" in shown(answer.get_data(as_text=True))
    assert time.monotonic() - began < 20 and site.get("/animals").status_code == 200
    over.set()
    os.kill(session.process.pid, signal.SIGCONT)
    monkeypatch.undo()
    assert site.get(f"/animal/{CALF}/certificate").status_code == 200
    until = time.monotonic() + 60
    while session.free.qsize() < Places().inspectors and time.monotonic() < until:
        time.sleep(0.02)
    assert session.free.qsize() == Places().inspectors and site.desk.program.session is session


def test_session_ended_while_another_is_begun(site: Site, monkeypatch: pytest.MonkeyPatch) -> None:
    """Whoever asked a session that ended waits no longer than a page does for somebody who begins another one."""
    site.post("/file/exit", id=DAM, day="2024-05-01")
    program, begins, is_told = site.desk.program, threading.Event(), threading.Event()

    def begin() -> None:
        with program.in_turn():
            begins.set()
            is_told.wait(30)

    other = threading.Thread(target=begin)

    def ended(*_: object) -> Answer:
        other.start()
        assert begins.wait(10)
        raise SessionEnded

    monkeypatch.setattr("gudokeyi.engine.session.Session.ask", ended)
    with site.desk.opened() as book, waiting(time.monotonic() + 1), pytest.raises(BookBusy):
        assert book
        program.asked(["record", CALF], book)
    is_told.set()
    other.join()
