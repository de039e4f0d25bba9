"""Many at one book at once: what was answered stands once in the journal, as it was shown, also where the server is
killed in the midst."""
from __future__ import annotations

import contextlib
import dataclasses
import pathlib
import random
import sqlite3
import time
from collections.abc import Callable, Iterator

import pytest

from front_desk.desk import Desk
from gudokeyi.domain.people import AccountRole
from gudokeyi.store.accounts import Accounts
from serving.load import Animals, Plan, Sent, Work, at_work
from serving.server import Browser, Server
from serving.visitor import WORD

SMALL = Plan(clerks=4, commands=6, inspectors=6, seconds=2, pause=0.1)
LARGE = Plan(clerks=8, commands=100, inspectors=15, seconds=60, pause=0.5)
# clerks of a large society, who write for a while before each is filed
LARGE_SOCIETY = Plan(clerks=8, commands=18, inspectors=15, seconds=45, pause=1, writing=1.5)
LARGE_BOOK, SECONDS_TO_BEGIN = 59_000, 15
# the first change took the sheet
CHANGES = "SELECT change, login, kind, length FROM change WHERE change > 1"


@pytest.fixture
def room(society_desk: Desk, cheap: None) -> Desk:
    """The society's book, with an account for each who works at it."""
    with_people(society_desk)
    return society_desk


def with_people(desk: Desk) -> None:
    accounts = Accounts(desk.room / "book")
    accounts.add("keeper", AccountRole.KEEPER, WORD, WORD)
    for at in range(LARGE.clerks):
        accounts.add(f"clerk {at}", AccountRole.CLERK, WORD, WORD)
    for at in range(LARGE.inspectors):
        accounts.add(f"inspector {at}", AccountRole.INSPECTOR, WORD, WORD)


@contextlib.contextmanager
def book_of(room: pathlib.Path) -> Iterator[sqlite3.Connection]:
    with contextlib.closing(sqlite3.connect(room / "book/book.sqlite")) as connection:
        yield connection


def animals_of(room: pathlib.Path) -> Animals:
    with book_of(room) as book:
        rows = book.execute(
            "SELECT id, number FROM animal WHERE until IS NULL AND standing <> 'dropped' ORDER BY id"
        ).fetchall()
    of_sex = {sex: [id for id, number in rows if number[6] == sex] for sex in "FM"}
    return Animals(of_sex["F"], of_sex["M"], [number for _, number in rows])


def stands_once(desk: Desk, work: Work, all_are_answered: bool) -> None:
    """Each answered command is a change and a step of the journal, by whom it was, with the reply that was shown; none
    else is there but those of which nobody was told."""
    with book_of(desk.room) as book:
        changes = {number: (login, kind, length) for number, login, kind, length in book.execute(CHANGES)}
        steps = {
            place: (kind, animal, day, refusal)
            for place, kind, animal, day, refusal in book.execute(
                "SELECT place, kind, animal, day, refusal FROM command"
            )
        }
        ids = dict(book.execute("SELECT DISTINCT id, number FROM animal"))
    assert len({length for _, _, length in changes.values()}) == len(changes)
    for number, ((kind, fields), accepted) in work.answered.items():
        login, of_kind, length = changes[number]
        step = steps[length]
        assert of_kind == step[0] == kind
        assert (step[3] == 0) == accepted, (number, kind, fields, step)
        assert step[2] == fields["day"] and (step[1] == ids.get(fields["id"]) or not accepted)
        assert kind != "birth" or login == f"clerk {fields['id'][1]}"
    told_of_none = len(changes) - len(work.answered)
    assert 0 <= told_of_none <= len(work.open) and (told_of_none == 0 or not all_are_answered)
    assert not work.faults
    assert "is whole" in desk.good("verify").out


def all_at_work(desk: Desk, plan: Plan) -> Work:
    server = Server(desk.room, desk.program)
    work = at_work(server, plan, animals_of(desk.room))
    assert server.end().splitlines()[-1] == "The desk is closed."
    assert len(work.answered) == plan.clerks * plan.commands and not work.open
    stands_once(desk, work, all_are_answered=True)
    return work


def killed_at_work(desk: Desk, plan: Plan) -> Work:
    """The server is killed when half is answered, and started again. However late it is killed, more is to be filed."""
    server, half = Server(desk.room, desk.program), plan.clerks * plan.commands // 2
    endless = dataclasses.replace(plan, commands=plan.commands * 1000)
    work = at_work(server, endless, animals_of(desk.room), until=lambda work: len(work.answered) >= half)
    again = Server(desk.room, desk.program)
    clerk = Browser(again, "clerk 0")
    status, to, _ = clerk.post("/file/birth", id="AFTERWARDS", sex="M", day="2025-01-01")
    assert status == 302
    again.end()
    after: Sent = ("birth", {"id": "AFTERWARDS", "sex": "M", "day": "2025-01-01"})
    assert half <= len(work.answered) < endless.clerks * endless.commands
    work.open.append(after)
    stands_once(desk, work, all_are_answered=False)
    return work


def test_load(room: Desk) -> None:
    all_at_work(room, SMALL)


def test_killed(room: Desk) -> None:
    killed_at_work(room, SMALL)


def large_sheet() -> str:
    """A sheet of many animals, of parents that live not long before."""
    chosen, females, males = random.Random(7), list[str](), list[str]()
    rows = ["id,sex,birth,sire,dam,owner"]
    for at in range(LARGE_BOOK):
        year, sex = 1985 + at * 39 // LARGE_BOOK, "M" if chosen.random() < 0.12 else "F"
        older = [of[-most // 2 - 1] if len(of) > most else "" for of, most in ((males, 400), (females, 6000))]
        sire, dam = (one if one[1:5] != str(year) else "" for one in older)
        rows.append(f"B{year}-{at},{sex},{year}-{chosen.randrange(1, 13):02}-15,{sire},{dam},Owner {at % 300}")
        (males if sex == "M" else females).append(f"B{year}-{at}")
    return "\n".join(rows) + "\n"


@pytest.mark.slow
def test_large_book(new_desk: Callable[[], Desk], cheap: None) -> None:
    """How long readers wait for a page of a large book, and clerks for an answer, with all of them at work."""
    desk = new_desk()
    desk.take(large_sheet(), "--anyway")
    with_people(desk)
    server = Server(desk.room, desk.program)
    # the server sees first that the book is whole
    time.sleep(SECONDS_TO_BEGIN)
    work = at_work(server, LARGE_SOCIETY, animals_of(desk.room))
    with open(f"/proc/{server.process.pid}/status", encoding="ascii") as status:
        memory = next(line.split()[1] for line in status if line.startswith("VmHWM"))
    server.end()
    print(f"\n{LARGE_BOOK} animals: {work.told()}; {int(memory) // 1024} MB")
    stands_once(desk, work, all_are_answered=True)


@pytest.mark.slow
def test_full_load(room: Desk) -> None:
    began = time.monotonic()
    print(f"\n{all_at_work(room, LARGE).told()}; {time.monotonic() - began:.0f} s in all")


@pytest.mark.slow
def test_killed_under_full_load(room: Desk) -> None:
    print(f"\n{killed_at_work(room, LARGE).told()}")
