"""A taking ends with its process, and loses nothing of what it tells and writes; where a process goes on nothing is
kept."""
from __future__ import annotations

import pathlib
import subprocess
import sys

import pytest

from front_desk.desk import TOP, Desk
from gudokeyi import process as one_call

SHEET = "id;sex;birth;sire;dam\nDE 1;F;2001-01-01;;\n"


def test_all_that_is_told_comes_through_a_pipe(desk: Desk) -> None:
    desk.begins_anew = True
    done = desk.take(SHEET)
    assert done.last.startswith("book: 1 animal, 1 new") and done.status == 0
    assert not list((desk.room / "book").glob("book.sqlite-*"))


def test_a_taking_that_is_refused_ends_with_its_status(desk: Desk) -> None:
    desk.begins_anew = True
    done = desk.run("import", "lacks.csv")
    assert done.status == 1 and "lacks.csv" in done.err


def test_nothing_is_kept_where_a_process_goes_on(monkeypatch: pytest.MonkeyPatch) -> None:
    monkeypatch.setattr(one_call, "kept", [])
    one_call.keep("a", "b")
    assert one_call.kept == []
    monkeypatch.setattr(one_call, "is_the_last", True)
    one_call.keep("a", "b")
    assert one_call.kept == ["a", "b"]


@pytest.mark.parametrize("status", [0, 1])
@pytest.mark.parametrize("kept", [(), ("something",)])
def test_a_process_ends_with_its_status_and_what_it_wrote(
    status: int, kept: tuple[str, ...], tmp_path: pathlib.Path
) -> None:
    """At once where something is kept and all is well, and as others do where not."""
    told = "atexit.register(print, 'at last'); print('told'); print('and', end='', file=sys.stderr)"
    call = f"{told}; one_call.is_the_only_one(); one_call.keep(*{kept!r}); one_call.end({status})"
    done = subprocess.run(
        [sys.executable, "-c", f"import atexit, sys; from gudokeyi import process as one_call; {call}"],
        cwd=tmp_path, env={"PYTHONPATH": str(TOP / "src")}, capture_output=True, text=True,
    )  # fmt: skip
    at_last = "" if kept and not status else "at last\n"
    assert (done.returncode, done.stdout, done.stderr) == (status, f"told\n{at_last}", "and")
