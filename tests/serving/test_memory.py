"""What a server keeps of what it answered: nothing, also of a book that somebody made large in the wrong place."""
from __future__ import annotations

import contextlib
import gc
import pathlib
import sqlite3
import subprocess
import sys
import tracemalloc

import pytest

from front_desk.desk import TOP, Desk
from gudokeyi.domain.people import AccountRole
from gudokeyi.store.accounts import Accounts
from gudokeyi.web import server as serving
from serving.server import Browser, Server
from serving.visitor import WORD, Served, Visitor

PAGES = ("/", "/animals", "/animal/HOLGBRM000000000402", "/animals?words=a&order=name", "/history", "/search?words=GK")
# so often each is asked for between two looks, and so much may be kept of all that was answered, such as lines of the
# log
TIMES, MOST_KEPT = 4, 50_000
# so many requests the server answers in so many parts, in a test that is run by hand
REQUESTS, PARTS = 6_600, 12
# with 10 MB of names, of which a page shows a fifth, a server has so many megabytes at most
MOST_MEGABYTES = 200
# one thread after the other takes 20 MB in small pieces and keeps one piece behind them; what the process has then
IN_TURNS = """
import pathlib, threading
from gudokeyi.process import give_memory_back
give_memory_back()
kept, turn, is_over = [], threading.Semaphore(1), threading.Event()
def take():
    with turn:
        pieces = [b"x" * 20_000 for _ in range(1_000)]
        kept.append(b"y" * 20_000)
        del pieces
    is_over.wait()
threads = [threading.Thread(target=take) for _ in range(16)]
for one in threads:
    one.start()
while len(kept) < len(threads):
    pass
print(pathlib.Path("/proc/self/status").read_text().partition("VmRSS:")[2].split()[0])
is_over.set()
"""


def lengthen(folder: pathlib.Path, letters: int) -> None:
    """Gives all animals names as long as an earlier version took them."""
    with contextlib.closing(sqlite3.connect(folder / "book.sqlite")) as connection:
        connection.execute("UPDATE animal SET name = ? || number", ("x" * letters,))
        connection.commit()


@pytest.mark.parametrize("letters", [0, 20_000], ids=["usual", "hostile"])
def test_nothing_is_kept(served: Served, letters: int) -> None:
    """After as many requests again no more memory is used, also where each page shows very long names."""
    if letters:
        lengthen(served.desk.folder, letters)
    visitor, kept = Visitor(served, "Kim"), []
    tracemalloc.start()
    try:
        for _ in range(3):
            for path in PAGES * TIMES:
                assert visitor.get(path).status_code == 200
            gc.collect()
            kept.append(tracemalloc.get_traced_memory()[0])
    finally:
        tracemalloc.stop()
    # what is kept of the book, and what was imported, is there after the first requests
    assert kept[2] - kept[1] < MOST_KEPT, kept


def megabytes(server: Server) -> int:
    status = pathlib.Path(f"/proc/{server.process.pid}/status").read_text(encoding="ascii")
    return int(status.partition("VmRSS:")[2].split()[0]) >> 10


def used(server: Server) -> list[int]:
    """The memory after each part of very many requests, in megabytes."""
    browser, found = Browser(server, "Kim"), []
    for _ in range(PARTS):
        for at in range(REQUESTS // PARTS):
            browser.get(PAGES[at % len(PAGES)])
        found.append(megabytes(server))
    return found


@pytest.mark.slow
@pytest.mark.parametrize("letters", [0, 20_000], ids=["usual", "hostile"])
def test_levels_off(society_desk: Desk, cheap: None, letters: int) -> None:
    """The memory of a server levels off too, with what its system keeps of what it gave back."""
    Accounts(society_desk.room / "book").add("Kim", AccountRole.KEEPER, WORD, WORD)
    if letters:
        lengthen(society_desk.room / "book", letters)
    server = Server(society_desk.room, society_desk.program)
    found = used(server)
    server.end()
    # what a part adds is far less than a page of it
    assert max(found[PARTS // 2 :]) <= 1.1 * max(found[: PARTS // 2]) + 10, found
    assert max(found) < MOST_MEGABYTES, found


def test_looked_for() -> None:
    """What goes round is looked for in a server as Python does by itself, and not as rarely as in a call that ends."""
    assert serving.LOOKED_FOR[0] <= 2_000 and gc.isenabled()


def test_given_back() -> None:
    """What one thread gave back the next one takes: by itself the C library would have some 20 MB for each of them."""
    done = subprocess.run(
        [sys.executable, "-c", IN_TURNS],
        env={"PYTHONPATH": str(TOP / "src")},
        capture_output=True,
        text=True,
        check=True,
    )
    assert int(done.stdout) >> 10 < 90, done.stdout
