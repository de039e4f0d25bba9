"""Calls on files that fail, each at every place, and files that can't be long enough: what is told of the change is
true, and the book is whole."""
from __future__ import annotations

import functools
import pathlib
import resource
import subprocess

import pytest

from front_desk.desk import TOP, Desk
from front_desk.whole import FLOCK, GROWN, changes_of, run, told_truly
from gudokeyi.store.transactions import copy_of

# so many calls of a kind a taking makes at most
MOST_CALLS = 400
SIZES = (0, 1, 100, 500, 4096, 8192, 20_000, 40_000, 80_000, 90_000, 120_000, 1_000_000)


@pytest.fixture(scope="module")
def failing(tmp_path_factory: pytest.TempPathFactory) -> str:
    library = tmp_path_factory.mktemp("library") / "fail_files.so"
    source = TOP / "tests/front_desk/fail_files.c"
    subprocess.run(["cc", "-O1", "-shared", "-fPIC", "-o", library, source, "-ldl"], check=True)
    return str(library)


@pytest.fixture(scope="module")
def taken_flock(program: str, tmp_path_factory: pytest.TempPathFactory) -> Desk:
    desk = Desk(tmp_path_factory.mktemp("flock"), program)
    desk.take(FLOCK)
    desk.write("grown.csv", GROWN)
    return desk


def desk_for(taken_flock: Desk, room: pathlib.Path, is_new: bool) -> Desk:
    """A desk that has a sheet to take, into a new book or into that of the flock."""
    desk = Desk(room, taken_flock.program) if is_new else taken_flock.copy_to(room)
    desk.write("grown.csv", GROWN)
    return desk


@pytest.mark.parametrize(("call", "is_new"), [
    ("write", False), ("sync", False), ("rename", False), ("write", True), ("sync", True), ("unlink", True),
])  # fmt: skip
def test_each_call_fails(taken_flock: Desk, failing: str, tmp_path: pathlib.Path, call: str, is_new: bool) -> None:
    """The first call fails, then the second, and so on, until a taking makes no more. What isn't on the disk isn't
    made, and what a later call has to write is told."""
    refused = later = 0
    for nth in range(1, MOST_CALLS):
        desk = desk_for(taken_flock, tmp_path / str(nth), is_new)
        met = desk.room / "met"
        done = run(desk, "import", "grown.csv", FAIL=call, FAIL_NTH=str(nth), FAIL_MET=str(met), LD_PRELOAD=failing)
        told_truly(done, int(not is_new), changes_of(desk.room / "book"))
        refused, later = refused + done.status, later + ("a later call writes them" in done.out + done.err)
        if not met.exists():
            assert done.status == 0 and nth > 2
            assert (refused > 0, later > 0) == (call != "rename", call != "unlink")
            return
    pytest.fail("a taking makes more calls than are tried")


@pytest.mark.parametrize("call", ["write", "sync"])
def test_calls_fail_from_one_on(taken_flock: Desk, failing: str, tmp_path: pathlib.Path, call: str) -> None:
    """As on a disk that is full, or that is broken, from a moment on."""
    for nth in (1, 2, 4, 8, 16):
        desk = taken_flock.copy_to(tmp_path / str(nth))
        done = run(desk, "import", "grown.csv", FAIL=call, FAIL_NTH=str(nth), FAIL_LAST="1000000", LD_PRELOAD=failing)
        told_truly(done, 1, changes_of(desk.room / "book"))
        assert "is whole" in desk.good("verify").out


@pytest.mark.parametrize("call", ["write", "sync", "rename", "unlink"])
def test_a_taking_is_killed_at_each_call(taken_flock: Desk, failing: str, tmp_path: pathlib.Path, call: str) -> None:
    """A new book isn't there then, or it is as it is taken, also for whoever may only read it."""
    whole = desk_for(taken_flock, tmp_path / "whole", True)
    whole.good("import", "grown.csv")
    made = list[int]()
    for nth in range(1, MOST_CALLS):
        desk = desk_for(taken_flock, tmp_path / str(nth), True)
        met, path = desk.room / "met", desk.room / "book/book.sqlite"
        done = run(
            desk, "import", "grown.csv", FAIL=call, FAIL_NTH=str(nth), FAIL_MET=str(met), FAIL_KILLS="yes",
            LD_PRELOAD=failing,
        )  # fmt: skip
        if not met.exists():
            assert done.status == 0 and made[-1] == 1 and (made[0] == 0 or call == "rename")
            return
        assert done.status < 0
        (desk.room / "read").mkdir()
        seen = changes_of(copy_of(path, desk.room / "read").parent) if path.exists() else 0
        listed = run(desk, "list")
        assert (listed.out, listed.status) == ((whole.good("list").out, 0) if seen else ("", 1)), f"{nth}: {listed}"
        made.append(changes_of(path.parent))
        assert made[-1] == seen and made == sorted(made)
        if not seen and nth % 5 == 1:
            desk.good("import", "grown.csv")
            assert desk.numbers() == whole.numbers() and "is whole" in desk.good("verify").out
    pytest.fail("a taking makes more calls than are tried")


def limit_files(size: int) -> None:
    resource.setrlimit(resource.RLIMIT_FSIZE, (size, size))


@pytest.mark.parametrize("is_new", [True, False])
def test_short_files(taken_flock: Desk, tmp_path: pathlib.Path, is_new: bool) -> None:
    """No file may have more than so many bytes."""
    for size in SIZES:
        desk = desk_for(taken_flock, tmp_path / str(size), is_new)
        before = changes_of(desk.room / "book")
        done = run(desk, "import", "grown.csv", before=functools.partial(limit_files, size))
        told_truly(done, before, changes_of(desk.room / "book"))


def test_short_files_of_a_backup(taken_flock: Desk) -> None:
    """It is copied elsewhere before: where that fails nothing is wrong with the book."""
    done = run(taken_flock, "backup", "short", before=functools.partial(limit_files, 50_000))
    assert done.status == 1 and "the folder for temporary files" in done.err and "book.sqlite" not in done.err


def test_short_files_of_a_restoring(taken_flock: Desk, tmp_path: pathlib.Path) -> None:
    """A backup that there is no room to copy isn't damaged."""
    taken_flock.good("backup", "copy", "--force")
    for size in SIZES:
        book = tmp_path / str(size)
        done = run(taken_flock, "restore", "copy", "--book", str(book), before=functools.partial(limit_files, size))
        assert done.status == (0 if changes_of(book) else 1) and "damaged" not in done.err, f"{size}: {done}"
