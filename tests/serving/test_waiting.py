"""Who waits for others at a server, and how long: whoever reads for nobody, whoever files for ten seconds; and
connections that take too long are ended."""
from __future__ import annotations

import contextlib
import pathlib
import socket
import sqlite3
import threading
import time
from collections.abc import Iterator
from types import SimpleNamespace

import pytest

from web.said import in_each
from web.server import SECONDS
from web.site import shown
from front_desk.desk import Desk
from gudokeyi.domain.requests import WebFault
from gudokeyi.domain.waiting import SECONDS_OF_PAGE
from gudokeyi.store.messages import AccountFault, BookFault
from gudokeyi.web.access import PAGES
from gudokeyi.web.connections import (
    MANY_CONNECTIONS, MANY_FILES, MOST_ANSWERS_OF_PERSON, MOST_CONNECTIONS, MOST_FILES, MOST_FILES_OF_PERSON,
    SECONDS_FOR_HEAD, Head, are_many_files, end_slow,
)  # fmt: skip
from gudokeyi.web.request_threads import Kind
from gudokeyi.web.routes import animal
from gudokeyi.web.work_places import MOST_PAGES, MOST_PAGES_WAITING
from serving.server import Browser, Server
from serving.visitor import Served, Visitor, with_accounts

# so long a page may take that waits for nobody, on a machine that does much else
AT_ONCE = 8
FIELDS = {"id": "GK-17/472c", "day": "2024-05-01"}


@pytest.fixture
def server(society_desk: Desk, cheap: None) -> Iterator[Server]:
    with_accounts(society_desk.room / "book")
    running = Server(society_desk.room, society_desk.program)
    yield running
    running.end()


@contextlib.contextmanager
def locked(path: pathlib.Path, how: str) -> Iterator[None]:
    """Somebody else changes a database until this ends."""
    with contextlib.closing(sqlite3.connect(path, isolation_level=None)) as connection:
        connection.execute(f"BEGIN {how}")
        yield


def seconds(browser: Browser, path: str) -> float:
    began = time.monotonic()
    browser.get(path)
    return time.monotonic() - began


def test_filings(server: Server, society_desk: Desk) -> None:
    """While the book is locked elsewhere 45 people file: readers are answered at once, and each filing comes back with
    a sentence and what was written; then it is filed."""
    clerks = [Browser(server, "Carl") for _ in range(45)]
    reader = Browser(server, "Ines")
    told: list[tuple[int, str, float]] = []

    def file(clerk: Browser) -> None:
        began = time.monotonic()
        status, _, page = clerk.post("/file/exit", **FIELDS)
        told.append((status, page, time.monotonic() - began))

    threads = [threading.Thread(target=file, args=(one,)) for one in clerks]
    with locked(society_desk.room / "book/book.sqlite", "IMMEDIATE"):
        for one in threads:
            one.start()
        while any(one.is_alive() for one in threads):
            assert max(seconds(reader, path) for path in ("/animals", "/history", "/settings")) < AT_ONCE
        for one in threads:
            one.join()
    sentence = BookFault.BUSY_NOW.value.format(seconds=SECONDS_OF_PAGE)
    for status, page, took in told:
        assert status == 400 and sentence.lower() in shown(page).lower() and f'value="{FIELDS["id"]}"' in page
        assert FIELDS["day"] in page and took < SECONDS_OF_PAGE + 5
    assert clerks[0].post("/file/exit", **FIELDS)[1] == "/answer/2"


def test_accounts(served: Served, monkeypatch: pytest.MonkeyPatch) -> None:
    """While the accounts are locked elsewhere who is logged in goes on, and a login comes back with the name."""
    monkeypatch.setattr("gudokeyi.web.access.SECONDS_OF_PAGE", 0.5)
    clerk, other = Visitor(served, "Carl"), Visitor(served)
    with locked(served.gate.accounts.path, "EXCLUSIVE"):
        assert clerk.is_in()
        answer = other.log_in("Clara")
        page = answer.get_data(as_text=True)
        assert answer.status_code == 400 and AccountFault.BUSY.value.lower() in shown(page).lower()
        assert 'value="Clara"' in page
        assert clerk.post("/file/exit", **FIELDS).status_code == 302
    assert other.log_in("Clara").status_code == 302


def test_very_many_pages_of_one_person(served: Served, clerk: Visitor) -> None:
    """Whoever asks for very many pages at once is told so; others are answered, and so is that person behind it."""
    ines = Visitor(served, "Ines")
    pages = served.app.extensions[PAGES]
    for path in "/animals", "/nowhere", "/accounts":
        ines.get(path)
    assert not pages.at_work["Ines"]
    pages.at_work["Ines"], pages.waiting["Ines"] = MOST_PAGES, MOST_PAGES_WAITING
    answer = ines.get("/animals")
    assert answer.status_code == 400 and WebFault.MUCH_WORK.value[1:] in shown(answer.get_data(as_text=True))
    assert clerk.get("/animals").status_code == 200 and ines.get("/static/desk.css").status_code == 200
    pages.at_work["Ines"] = pages.waiting["Ines"] = 0
    assert ines.get("/animals").status_code == 200


def test_very_many_certificates(served: Served, clerk: Visitor, monkeypatch: pytest.MonkeyPatch) -> None:
    """Pages of very many certificates are made one at a time; whoever prints few waits for nobody."""
    path = "/certificates?owner=Lower+Mill"
    monkeypatch.setattr("gudokeyi.web.access.SECONDS_OF_PAGE", 0.5)
    with served.desk.printing.one("Ines"):
        assert clerk.get(path).status_code == 200
        monkeypatch.setattr(animal, "MANY", 1)
        answer = clerk.get(path)
        assert answer.status_code == 400 and "0 seconds" in shown(answer.get_data(as_text=True))
    assert clerk.get(path).status_code == 200


def test_settings(served: Served, monkeypatch: pytest.MonkeyPatch) -> None:
    """The settings come back as they were written."""
    monkeypatch.setattr("gudokeyi.web.access.SECONDS_OF_PAGE", 0.5)
    keeper = Visitor(served, "Kim")
    keeper.get("/language/de")
    with locked(served.desk.folder / "book.sqlite", "IMMEDIATE"):
        answer = keeper.post("/settings", name="Verein der Wartenden")
    page = answer.get_data(as_text=True)
    assert answer.status_code == 400 and 'value="Verein der Wartenden"' in page
    assert in_each(BookFault.BUSY_NOW.value)[1].partition("{")[0] in shown(page)


def test_slow(server: Server) -> None:
    """Connections that are idle, or of which the head or the body drips, keep nobody from being answered, and are
    ended."""
    head = f"POST /login HTTP/1.1\r\nHost: {server.host}\r\nContent-Length: 5000\r\n"
    kinds = [b"", b"GET /login HT", head.encode(), head.encode() + b"\r\nname="]
    slow = [socket.create_connection(("127.0.0.1", server.port), timeout=SECONDS) for _ in range(210)]
    for at, one in enumerate(slow):
        one.sendall(kinds[at % len(kinds)])
    browser = Browser(server, "Ines")
    ends = time.monotonic() + SECONDS_FOR_HEAD + 3
    while time.monotonic() < ends:
        assert seconds(browser, "/animals") < AT_ONCE
        # a byte now and then doesn't help
        for at, one in enumerate(slow):
            with contextlib.suppress(OSError):
                one.sendall(b"x" if at % len(kinds) else b"")
        time.sleep(1)
    for at, one in enumerate(slow):
        if at % len(kinds) < 3:
            one.setblocking(False)
            with contextlib.suppress(ConnectionError):
                assert one.recv(1) == b"", at
        one.close()


def test_many(server: Server) -> None:
    """Where very many connections are idle the oldest of them give way."""
    place, count = ("127.0.0.1", server.port), MOST_CONNECTIONS + 100
    slow = [socket.create_connection(place, timeout=SECONDS) for _ in range(count)]
    began = time.monotonic()
    Browser(server, "Ines")
    assert time.monotonic() - began < AT_ONCE + 2 and MANY_CONNECTIONS < MOST_CONNECTIONS
    for one in slow:
        one.close()


def connection(since: float, **said: object) -> SimpleNamespace:
    """One that was heard of last so many seconds ago, as far as it matters for how long it stays."""
    usual: dict[str, object] = {
        "requests": [], "request": None, "answers": Head(), "total_outbufs_len": 0, "connected": True, "sent": 0,
        "got": 0, "will_close": False, "refused": 0.0, "taking": None, "answered": True, "since": time.monotonic() - since,
    }  # fmt: skip
    return SimpleNamespace(**(usual | {"socket": SimpleNamespace(shutdown=lambda _: None)} | said))


def ended(*channels: SimpleNamespace) -> list[SimpleNamespace]:
    end_slow(dict(enumerate(channels)))
    return [one for one in channels if one.will_close]


def test_room() -> None:
    """Where there are many connections those give way that have been idle, or at a request that isn't whole, for
    longest; none that has just come, none that sends a file, and none whose page somebody is taking."""
    file = SimpleNamespace(head=Head(Kind.WRITING, "Carl", has_file=True), headers_finished=True)
    form = SimpleNamespace(head=Head(Kind.LOGIN, "1.1.1.1"), headers_finished=True)
    clerk, stranger = Head(Kind.READING, "Carl"), Head(Kind.STRANGER, "1.1.1.1")
    stay = [
        connection(9, requests=[form]), connection(9, request=file), connection(0, request=form), connection(0),
        connection(9, total_outbufs_len=9, answers=clerk),
    ]  # fmt: skip
    go = [connection(9), connection(8, request=form), connection(7, total_outbufs_len=9, answers=stranger)]
    idle = [connection(6) for _ in range(MANY_CONNECTIONS - len(stay) - 1)]
    assert ended(*stay, *go, *idle) == go
    assert not ended(*stay, *idle)


def test_answers_of_one_person() -> None:
    """Whoever takes none of many answers has so many connections for that; others have theirs."""
    carl, ines = Head(Kind.READING, "Carl"), Head(Kind.READING, "Ines")
    own = [connection(at, total_outbufs_len=9, answers=carl) for at in range(2 * MOST_ANSWERS_OF_PERSON, 0, -1)]
    others = [connection(1, total_outbufs_len=9, answers=ines), connection(1, answers=carl)]
    assert ended(*own, *others) == own[MOST_ANSWERS_OF_PERSON:]


def test_files_at_once(server: Server) -> None:
    """One person sends few files at once; a further one is refused as it begins, also where it asks before whether it
    may, and others send theirs. Of all there are so many."""
    carl, clara = Browser(server, "Carl"), Browser(server, "Clara")

    def begun(browser: Browser, more: str = "") -> socket.socket:
        sending = socket.create_connection(("127.0.0.1", server.port), timeout=SECONDS)
        head = f"POST /sheet HTTP/1.1\r\nHost: {server.host}\r\nCookie: {browser.cookie}\r\nAccept-Language: de\r\n"
        body = "Content-Length: 20000000\r\nContent-Type: multipart/form-data; boundary=x\r\n\r\n--x"
        sending.sendall(f"{head}{more}{body}".encode())
        return sending

    sent = [begun(carl) for _ in range(MOST_FILES_OF_PERSON)]
    time.sleep(0.5)
    for more in "", "Expect: 100-continue\r\n":
        with begun(carl, more) as refused, refused.makefile(encoding="utf-8") as answer:
            told = answer.read()
        assert told.startswith("HTTP/1.1 429") and in_each(MANY_FILES.text)[1] in told
    with begun(clara) as other:
        other.settimeout(0.5)
        with pytest.raises(TimeoutError):
            other.recv(1)
    for one in sent:
        one.close()
    assert seconds(carl, "/animals") < AT_ONCE
    heads = [Head(has_file=True, sender=f"{at}") for at in range(MOST_FILES)]
    many = {at: SimpleNamespace(request=SimpleNamespace(head=one)) for at, one in enumerate(heads)}
    assert are_many_files("Carl", many)
    many.popitem()
    assert not are_many_files("Carl", many)
