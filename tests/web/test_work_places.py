"""The places for heavy work: who has one first, what is ended, and what is stopped by whom."""
from __future__ import annotations

import threading
import time

import pytest

from web.site import Site
from front_desk.desk import TOP
from gudokeyi.domain.messages import Mistake
from gudokeyi.domain.mistakes import BookBusy
from gudokeyi.domain.people import WORKER
from gudokeyi.domain.requests import WebFault
from gudokeyi.domain.waiting import waiting
from gudokeyi.web import work_places, workers
from gudokeyi.web.work_places import (
    BOUNDS, BREED, LOOKING, MOST_OF_PERSON, MOST_PAGES, TAKING, Bounds, PagesOfPeople, Places, Turns,
)  # fmt: skip
from gudokeyi.web.workers import Job, Jobs, Stage


@pytest.fixture(autouse=True)
def of_tests(monkeypatch: pytest.MonkeyPatch) -> None:
    """The processes find what these tests do."""
    monkeypatch.setenv("PYTHONPATH", str(TOP / "tests"))


def slept(seconds: float, _: object) -> float:
    time.sleep(seconds)
    return seconds


def test_turns() -> None:
    """Whoever asked for little has a place before somebody's many."""
    places, order, first = Places[str](Bounds(1, 60, 0)), list[str](), threading.Event()
    places.add("Ines", "i0", lambda _: first.wait(10) and None)
    for at in range(1, 4):
        places.add("Ines", f"i{at}", order.append)
    places.add("Carl", "c1", order.append)
    first.set()
    places.end()
    assert order == ["c1", "i1", "i2", "i3"]


def test_place_left_to_others() -> None:
    """Of two places one person has one alone, whatever that person asks for; and each work is done."""
    places, order, first, others = Places[str](Bounds(2, 60, 0)), list[str](), threading.Event(), threading.Event()

    def do(work: str) -> None:
        order.append(work)
        if work == "c1":
            others.set()
        elif work == "i1":
            assert first.wait(10)
            raise ValueError(work)

    for work in "i1", "i2", "c1", "i3":
        places.add("Ines" if work[0] == "i" else "Carl", work, do)
    assert others.wait(10) and sorted(order) == ["c1", "i1"] and places.asked_by("Ines") == 3
    first.set()
    places.end()
    assert order[2:] == ["i2", "i3"] and not places.waiting and not places.asked_by("Ines")


def test_turns_at_pages() -> None:
    """One answer is made at a time, and whoever had one waits for those that had none; a page waits for its time, and
    for so many of one person."""
    turns, order, done = Turns(), list[str](), threading.Event()

    def ask(person: str) -> None:
        with turns.one(person):
            order.append(person)
            assert done.wait(10)

    threads = [threading.Thread(target=ask, args=(person,)) for person in [*["Ines"] * (1 + MOST_OF_PERSON), "Carl"]]
    for at, thread in enumerate(threads):
        thread.start()
        while len(turns.waiting) < at or not order:
            time.sleep(0.01)
    with pytest.raises(Mistake, match="you have asked for much"), turns.one("Ines"):
        pass
    with waiting(time.monotonic() + 0.3), pytest.raises(BookBusy), turns.one("Clara"):
        pass
    done.set()
    for thread in threads:
        thread.join()
    assert order == ["Ines", "Carl", *["Ines"] * MOST_OF_PERSON] and not turns.waiting


def test_much() -> None:
    """One person has so many of a kind under way; others, and other kinds, aren't kept by that."""
    found = Jobs()
    WORKER.set("Ines")
    jobs = [found.of((BREED, at), slept, (60,)) for at in range(MOST_OF_PERSON)]
    assert found.of((BREED, 0), slept, (60,)) is jobs[0]
    with pytest.raises(Mistake, match="you have asked for much"):
        found.of((BREED, "one more"), slept, (60,))
    WORKER.set("Carl")
    assert found.of((TAKING, "sheet"), slept, (0,)).is_over.wait(30)
    assert found.of((LOOKING, "sheet"), slept, (0,)).is_over.wait(30)
    WORKER.set("")
    found.end()
    assert all(job.stage is Stage.FAILED for job in jobs)


def ended(job: Job, sentence: str) -> bool:
    return job.is_over.wait(30) and job.stage is Stage.FAILED and job.failed.sentences == (sentence,)


def test_ended(monkeypatch: pytest.MonkeyPatch) -> None:
    """What takes too long is ended, and what nobody asks for any more, and what was asked for otherwise since."""
    monkeypatch.setitem(BOUNDS, BREED, Bounds(1, 1, 0))
    found = Jobs()
    assert ended(found.of((BREED, "long"), slept, (60,)), WebFault.TOOK_LONG.said(minutes=0))
    other = found.of((LOOKING, "sheet", "first"), slept, (60,))
    again = found.of((LOOKING, "sheet", "second"), slept, (60,))
    found.stop_others(again.key)
    assert ended(other, WebFault.WORK_ENDED.said()) and not again.is_over.is_set()
    monkeypatch.setattr(workers, "SECONDS_UNASKED", 1)
    assert ended(again, WebFault.WORK_ENDED.said()) and found.found(again.key) is None
    found.end()


def test_stop(site: Site) -> None:
    """Somebody stops work of their own, and of nobody else; asked for again it is begun anew."""
    jobs = site.desk.jobs
    job = jobs.of((BREED, "one"), slept, (60,))
    WORKER.set("Ines")
    other = jobs.of((LOOKING, "other"), slept, (60,))
    WORKER.set("")
    assert site.post(f"/jobs/{other.id}/stop").status_code == 404 and not other.is_over.is_set()
    assert site.post(f"/jobs/{job.id}/stop").status_code == 302
    assert ended(job, WebFault.WORK_STOPPED.said())
    assert "It is stopped, and nothing is changed." in site.page("/")
    assert site.post(f"/jobs/{job.id}/stop").status_code == 404
    assert jobs.of((BREED, "one"), slept, (0,)).is_over.wait(30)


def test_bounds() -> None:
    """What changes the book has places of its own, and takes most of the processors."""
    assert BOUNDS[TAKING].places and BOUNDS[TAKING].niceness == min(one.niceness for one in BOUNDS.values())


def test_pages_of_one_person(monkeypatch: pytest.MonkeyPatch) -> None:
    """So many of one person are made at once, so many more wait, and what comes beyond is told; others don't wait."""
    monkeypatch.setattr(work_places, "MOST_PAGES_WAITING", 2)
    pages, begun = PagesOfPeople(), list[int]()

    def read(at: int) -> None:
        pages.begin("Ines")
        begun.append(at)

    for at in range(MOST_PAGES):
        read(at)
    threads = [threading.Thread(target=read, args=(at,), daemon=True) for at in (10, 11)]
    for one in threads:
        one.start()
    while pages.waiting["Ines"] < 2:
        time.sleep(0.01)
    with pytest.raises(Mistake) as told:
        read(12)
    assert told.value.sentences == (WebFault.MUCH_WORK.said(),)
    for _ in range(3):
        pages.begin("Carl")
    assert begun == [*range(MOST_PAGES)]
    pages.end("Ines")
    pages.end("Ines")
    for one in threads:
        one.join(60)
    assert {*begun[MOST_PAGES:]} == {10, 11} and pages.at_work["Ines"] == MOST_PAGES
    with waiting(time.monotonic()), pytest.raises(Mistake):
        read(13)
    assert not pages.waiting["Ines"]
