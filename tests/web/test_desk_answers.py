"""Whence a page's answers come: from the one session, also where the book is looked at, a plan is made and parents are
corrected; and a session that is killed while a sheet is taken."""
from __future__ import annotations

import contextlib
import dataclasses
import itertools
import re
import threading
from collections.abc import Iterator

import pytest

from web.said import SENTENCES
from web.site import Site, shown
from web.test_desk_filing import BIRTH, DAM
from web.test_desk_sheets import EXAMPLE
from front_desk.desk import Desk
from gudokeyi.domain.requests import WebFault
from gudokeyi.engine.session import Answer, Session
from gudokeyi.services.book_session import BookMoved, BookSession
from gudokeyi.services.cache import mark_of
from gudokeyi.services.tables import Table
from gudokeyi.store.book import Book
from gudokeyi.web.mating_work import Bounds, PlanMade, compare

NEW_ROW = b"Lower Mill,NEW-9,f,2019-01-01,,,\n"


@pytest.fixture
def asked(monkeypatch: pytest.MonkeyPatch) -> list[list[str]]:
    """The questions that inspectors were asked; the program isn't run beside the session."""
    questions: list[list[str]] = []
    ask = Session.ask

    def noted(session: Session, question: list[str]) -> Answer:
        questions.append(question)
        return ask(session, question)

    def run(*_: object) -> str:
        raise AssertionError("the program is run")

    monkeypatch.setattr(Session, "ask", noted)
    monkeypatch.setattr("gudokeyi.engine.program.Herdbook.run", run)
    return questions


def test_looked_at_by_the_session(site: Site, society_desk: Desk, asked: list[list[str]]) -> None:
    """Whether the book is whole is seen by the session too, also where a terminal changed it."""
    society_desk.good("exit", DAM, "--day", "2024-05-01")
    site.desk.trusted = ()
    assert site.post("/file/birth", **BIRTH).headers["Location"] == "/answer/3"
    assert ["inbreeding"] in asked


def test_few_coefficients(site: Site, society_desk: Desk, asked: list[list[str]]) -> None:
    """A correction of parents asks for the animal's record and its descendants' coefficients; the others stay."""
    site.post("/file/exit", id=DAM, day="2024-05-01")
    asked.clear()
    site.post("/file/parents", id="GK-14/388b", sire="0", dam="0")
    assert "Accepted." in shown(site.page("/answer/3"))
    assert asked and {one[0] for one in asked} == {"record", "coefficient"}
    society_desk.good("verify")
    rows = {row["id"]: row["coefficient"] for row in society_desk.listed("list", "--columns", "id,coefficient")}
    assert rows["GK-14/388b"] == "0" and len({*rows.values()}) > 9


def test_all_coefficients(site: Site, society_desk: Desk, monkeypatch: pytest.MonkeyPatch) -> None:
    """Of many descendants all coefficients are asked for at once."""
    monkeypatch.setattr("gudokeyi.store.coefficients.MOST_ONE_BY_ONE", 0)
    site.post("/file/parents", id="GK-14/388b", sire="0", dam="0")
    assert "Accepted." in shown(site.page("/answer/2"))
    society_desk.good("verify")


def test_plan_by_the_session(site: Site, asked: list[list[str]]) -> None:
    """The session is asked for the matings of a plan before it is shown, for many of them at once."""
    page = site.page("/matings/plan?made=1")
    dams = re.findall(r'scope="row"><a href="/animal/(\w+)"', page)
    questions = [one[1:] for one in asked if one[0] == "relationships"]
    assert len(dams) > 100 and {*dams} <= {number for numbers in questions for number in numbers}
    assert 1 < len(questions) < 5


def test_plan_differs(site: Site, monkeypatch: pytest.MonkeyPatch) -> None:
    """Where the session says something else of a mating, no plan is shown."""

    def other(office: BookSession, words: list[str], book: Book) -> list[str]:
        return [f"{one},{another},1" for one, another in itertools.combinations(words[1:], 2)]

    monkeypatch.setattr(BookSession, "ask", other)
    page = site.page("/matings/plan?made=1")
    said = SENTENCES[WebFault.PLAN_DIFFERS][0] or WebFault.PLAN_DIFFERS.value
    assert said.partition("{")[0] in shown(page) and 'scope="row"' not in page


def test_plan_of_another_history(site: Site) -> None:
    """A plan of a book in whose place another is restored isn't shown, though the last change of that has the same
    number."""
    with site.desk.opened() as book:
        assert book
        number, moment = mark_of(book)
    plan = PlanMade((number, moment), Bounds(None, None, ()), [], {}, None, 0, None, Table((), ()))
    compare(site.desk, plan)
    for other in (number, moment + 1), (number + 1, moment):
        with pytest.raises(BookMoved):
            compare(site.desk, dataclasses.replace(plan, mark=other))


@contextlib.contextmanager
def session_killed_again_and_again(site: Site) -> Iterator[None]:
    """Kills each session that there is, until the block ends."""
    is_over = threading.Event()

    def kill() -> None:
        while not is_over.wait(0.01):
            session = site.desk.program.session
            if session:
                session.process.kill()

    killer = threading.Thread(target=kill)
    killer.start()
    try:
        yield
    finally:
        is_over.set()
        killer.join()


def test_session_killed_while_a_sheet_is_taken(site: Site, society_desk: Desk) -> None:
    """The sheet is taken all the same, and what is filed behind it is answered by a new session."""
    site.post("/file/exit", id=DAM, day="2024-05-01")
    before = site.desk.program.session
    assert before
    address = site.drop("sheet.csv", EXAMPLE + NEW_ROW)
    site.page(address)
    with session_killed_again_and_again(site):
        assert "sheet.csv is taken." in shown(site.take(address))
    assert before.process.wait(9) and before.has_ended
    answer = site.post("/file/exit", id="NEW-9", day="2024-05-02")
    assert answer.headers["Location"] == "/answer/4"
    assert "Accepted." in shown(site.page("/answer/4"))
    assert site.desk.program.session is not before
    society_desk.good("verify")
    assert [line.split()[0] for line in society_desk.good("history").out.splitlines()] == ["1", "2", "3", "4"]
