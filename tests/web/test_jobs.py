"""Work beside the server that can't be begun, or whose thread dies: it is told, and doesn't stand as under way."""
from __future__ import annotations

import pathlib
import queue
import threading

import pytest

from gudokeyi.domain.requests import WebFault
from gudokeyi.web import workers
from gudokeyi.web.verification import begin_to_see
from gudokeyi.web.served_book import ServedBook, is_set
from gudokeyi.web.work_places import BREED
from gudokeyi.web.workers import TAKING, Exports, Job, Jobs, Stage


def died(job: Job, told: str) -> bool:
    return job.is_over.wait(10) and job.stage is Stage.FAILED and job.failed.sentences == (told,)


@pytest.mark.filterwarnings("ignore::pytest.PytestUnhandledThreadExceptionWarning")
def test_dead_thread(monkeypatch: pytest.MonkeyPatch) -> None:
    """Whatever its thread dies of, also behind the work: work is ended then, and others are begun."""

    def fall(*_: object) -> None:
        raise ValueError("a fault of the desk itself")

    with monkeypatch.context() as patched:
        patched.setattr(workers, "WorkerProcess", fall)
        found = Jobs()
        assert died(found.of((TAKING, "1"), print, ()), WebFault.WORK_ENDED.said())
    assert died(found.of((TAKING, "2"), str, (), fall), WebFault.WORK_ENDED.said())
    assert found.under_way(TAKING) is None
    found.end()


@pytest.mark.parametrize("error", [ValueError, OSError])
def test_exports_behind_a_fault(
    error: type[Exception], monkeypatch: pytest.MonkeyPatch, capsys: pytest.CaptureFixture[str], tmp_path: pathlib.Path
) -> None:
    """A fault of one call doesn't keep a later one from writing them."""
    calls: queue.Queue[int] = queue.Queue()

    def fall(*_: object) -> None:
        calls.put(1)
        raise error("it can't be begun")

    monkeypatch.setattr(workers, "WorkerProcess", fall)
    exports = Exports(tmp_path, 0.01)
    for _ in range(2):
        exports.wish()
        assert calls.get(timeout=10)
    exports.end()
    assert ("it can't be begun" in capsys.readouterr().err) is (error is ValueError)


def test_book_is_changed_without_threads(monkeypatch: pytest.MonkeyPatch) -> None:
    """Nobody waits for a look at the book that no thread can begin."""

    def refuse(_: threading.Thread) -> None:
        raise RuntimeError("can't start new thread")

    desk = ServedBook.__new__(ServedBook)
    desk.is_seen = is_set()
    monkeypatch.setattr(threading.Thread, "start", refuse)
    begin_to_see(desk)
    assert desk.is_seen.is_set()


def test_no_thread(monkeypatch: pytest.MonkeyPatch) -> None:
    """Where no thread can be started it is told as where no process can."""

    def refuse(_: threading.Thread) -> None:
        raise RuntimeError("can't start new thread")

    found = Jobs()
    with monkeypatch.context() as patched:
        patched.setattr(threading.Thread, "start", refuse)
        job = found.of((TAKING, "1"), print, ())
    assert died(job, WebFault.NO_PROCESS.said(error="can't start new thread")) and not found.under_way(TAKING)
    found.end()


def test_states_before() -> None:
    """Of what is said of the same animals after several changes the last is kept, and what is made meanwhile: each may
    be long."""
    found = Jobs()
    keys = [(BREED, mark, whom) for mark in range(4) for whom in ("all", "an owner's")]
    for key in keys:
        assert found.here(key, object).is_over.wait(10)
    assert [*found.jobs] == keys[-3:]
    found.end()
