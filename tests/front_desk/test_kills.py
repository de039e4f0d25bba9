"""Runs that are killed at random moments, and two that change a book at once: it is as before or as after."""
from __future__ import annotations

import pathlib
import random
import time
from dataclasses import dataclass

import pytest

from front_desk.desk import Desk
from front_desk.old_folder import LIST, write_old
from front_desk.whole import FLOCK, GROWN, changes_of, ended, kill_within, run, start

# what is killed
CALLS = [
    ["import", "grown.csv"],
    ["birth", "calf", "--sex", "f", "--day", "2012-01-01", "--sire", "a8", "--dam", "a9"],
    ["undo"],
    ["list", "--book", "old"],
]
KILLS, ALL_KILLS, PAIRS, ALL_PAIRS = 30, 300, 8, 30


@dataclass
class Before:
    """Desks to be copied, and what a call of each kind lists in the end, and how long it takes."""

    desk: Desk
    lists: list[tuple[str, str]]
    seconds: float


@pytest.fixture(scope="module")
def before(program: str, tmp_path_factory: pytest.TempPathFactory) -> Before:
    desk = Desk(tmp_path_factory.mktemp("kills"), program)
    desk.write("grown.csv", GROWN)
    desk.take(FLOCK)
    desk.good("exit", "a1", "--day", "2015-01-01")
    write_old_to(desk, "old")
    lists, longest = [], 0.0
    for at, words in enumerate(CALLS):
        other = desk.copy_to(tmp_path_factory.mktemp(f"call {at}"))
        begun = time.monotonic()
        other.good(*words)
        longest = max(longest, time.monotonic() - begun)
        lists.append((desk.good("list").out if at < 3 else LIST, other.good("list", *words[1:] * (at == 3)).out))
    return Before(desk, lists, longest)


def write_old_to(desk: Desk, name: str) -> None:
    """A folder of version 0.11 beside the book."""
    beside = Desk(desk.room / "beside", desk.program)
    write_old(beside)
    (beside.room / "book").rename(desk.room / name)
    beside.room.rmdir()


def kill_one(before: Before, room: pathlib.Path) -> None:
    at = random.randrange(len(CALLS))
    desk = before.desk.copy_to(room)
    kill_within(start(desk, *CALLS[at]), before.seconds * 1.1)
    words = CALLS[at][1:] * (at == 3)
    if at < 3:
        changes_of(desk.room / "book")
    listed = run(desk, "list", *words)
    assert listed.status == 0 and listed.out in before.lists[at], f"{CALLS[at]}: {listed}"
    verified = run(desk, "verify", *words)
    assert verified.status == 0 and "is whole" in verified.out, f"{CALLS[at]}: {verified}"


def test_kills(before: Before, tmp_path: pathlib.Path) -> None:
    for at in range(KILLS):
        kill_one(before, tmp_path / str(at))


@pytest.mark.slow
def test_many_kills(before: Before, tmp_path: pathlib.Path) -> None:
    for at in range(ALL_KILLS):
        kill_one(before, tmp_path / str(at))


def pair(desk: Desk, first: str, second: str) -> None:
    """Two sheets of a flock at once, each with animals of its own: both are taken, whoever comes first."""
    before = changes_of(desk.room / "book")
    done = [ended(one) for one in [start(desk, "import", first), start(desk, "import", second)]]
    assert [one.status for one in done] == [0, 0], f"{done}"
    assert changes_of(desk.room / "book") == before + 2
    numbers = desk.numbers()
    ids = [line.split(",")[0] for name in (first, second) for line in desk.text(name).splitlines()[1:]]
    assert set(ids) <= numbers.keys() and len(set(numbers.values())) == len(numbers)
    exported = desk.good("list").out.splitlines()[1:]
    assert {line.split(",")[0]: line.split(",")[2] for line in exported} == numbers
    assert "is whole" in desk.good("verify").out


def pairs(before: Before, tmp_path: pathlib.Path, count: int) -> None:
    for at in range(count):
        desk = before.desk.copy_to(tmp_path / str(at)) if at % 2 else Desk(tmp_path / str(at), before.desk.program)
        for name in "one", "two":
            desk.write(f"{name}.csv", FLOCK + "".join(f"{name}{row},M,2001-01-01,,,,\n" for row in range(4)))
        pair(desk, "one.csv", "two.csv")


def test_pairs(before: Before, tmp_path: pathlib.Path) -> None:
    pairs(before, tmp_path, PAIRS)


@pytest.mark.slow
def test_many_pairs(before: Before, tmp_path: pathlib.Path) -> None:
    pairs(before, tmp_path, ALL_PAIRS)
