"""Folders with the front desk in them, and books that are taken already."""
from __future__ import annotations

import datetime
import itertools
import pathlib
import time

import pytest

from front_desk.desk import TOP, Desk, NewDesk
from front_desk.old_folder import write_old
from front_desk.sheet import Secretary, sheet_text
from front_desk.whole import FLOCK

# so long a test with today in it may take, in seconds
BEFORE_MIDNIGHT = 180


@pytest.fixture
def today(monkeypatch: pytest.MonkeyPatch) -> datetime.date:
    """That of all of a test: where a day is about to end the next one is waited for. The front desk isn't told of
    another place's time."""
    monkeypatch.delenv("TZ", raising=False)
    time.tzset()
    now = datetime.datetime.now()
    midnight = datetime.datetime.combine(now.date() + datetime.timedelta(1), datetime.time())
    left = (midnight - now).total_seconds()
    if left < BEFORE_MIDNIGHT:
        time.sleep(left + 1)
    return datetime.date.today()


@pytest.fixture
def new_desk(program: str, tmp_path: pathlib.Path) -> NewDesk:
    """Makes desks in folders of their own, each empty."""
    rooms = (tmp_path / f"desk {count}" for count in itertools.count(1))
    return lambda: Desk(next(rooms), program)


@pytest.fixture
def desk(new_desk: NewDesk) -> Desk:
    """A desk in an empty folder."""
    return new_desk()


@pytest.fixture
def secretary() -> Secretary:
    """The secretary with her sheet of 200 animals, which a test may change."""
    return Secretary()


@pytest.fixture(scope="session")
def taken_secretary(program: str, tmp_path_factory: pytest.TempPathFactory) -> Desk:
    """The desk that took the secretary's sheet before any test, to be copied."""
    kept = Desk(tmp_path_factory.mktemp("secretary"), program)
    kept.take(sheet_text(Secretary().rows))
    return kept


@pytest.fixture(scope="session")
def taken_mrode(program: str, tmp_path_factory: pytest.TempPathFactory) -> Desk:
    """The desk that took Mrode's pedigree, `examples/mrode.txt`, before any test, to be copied."""
    kept = Desk(tmp_path_factory.mktemp("mrode"), program)
    kept.good("import", "--pedigree", str(TOP / "examples/mrode.txt"))
    return kept


@pytest.fixture(scope="session")
def taken_society(program: str, tmp_path_factory: pytest.TempPathFactory) -> Desk:
    """The desk that took the society's sheet, `examples/society.csv`, before any test, to be copied."""
    kept = Desk(tmp_path_factory.mktemp("society"), program)
    kept.good("import", str(TOP / "examples/society.csv"))
    return kept


@pytest.fixture(scope="session")
def taken_flock(program: str, tmp_path_factory: pytest.TempPathFactory) -> Desk:
    """The desk that took a flock before any test, to be copied."""
    kept = Desk(tmp_path_factory.mktemp("flock") / "desk", program)
    kept.take(FLOCK)
    return kept


@pytest.fixture
def secretary_desk(taken_secretary: Desk, tmp_path: pathlib.Path) -> Desk:
    """A desk with the book of the secretary's sheet: 201 animals with the one that was added."""
    return taken_secretary.copy_to(tmp_path / "the secretary's desk")


@pytest.fixture
def mrode_desk(taken_mrode: Desk, tmp_path: pathlib.Path) -> Desk:
    """A desk with the book of Mrode's pedigree: 6 animals."""
    return taken_mrode.copy_to(tmp_path / "the geneticist's desk")


@pytest.fixture
def society_desk(taken_society: Desk, tmp_path: pathlib.Path) -> Desk:
    """A desk with the book of the society's sheet: 502 animals with those that were added."""
    return taken_society.copy_to(tmp_path / "the society's desk")


@pytest.fixture
def flock_desk(taken_flock: Desk, desk: Desk) -> Desk:
    """With a flock in its book."""
    return taken_flock.copy_to(desk.room)


@pytest.fixture
def old_desk(desk: Desk) -> Desk:
    """With a book of version 0.11."""
    write_old(desk)
    return desk
