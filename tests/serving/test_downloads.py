"""A backup that a browser is sent counts once all of it arrived there, and not where it is broken off."""
from __future__ import annotations

import http.client
import socket
import time

import pytest

from front_desk.desk import Desk
from gudokeyi.domain.people import AccountRole
from gudokeyi.store.accounts import Accounts
from serving.server import Browser, Server
from serving.visitor import WORD
from web.site import shown

# so long it is waited for what is told, and for what isn't to be told
SECONDS, A_WHILE = 60, 1.5
NONE_KNOWN = "No copy is known that has the book as it is now."


@pytest.fixture
def kim(society_desk: Desk, cheap: None) -> Browser:
    Accounts(society_desk.room / "book").add("Kim", AccountRole.KEEPER, WORD, WORD)
    return Browser(Server(society_desk.room, society_desk.program), "Kim")


def received(kim: Browser, most: int | None) -> tuple[int, int]:
    """Asks for the book in a connection of its own, and goes away after so many bytes; answers how many there were, and
    the length that was told."""
    connection = http.client.HTTPConnection("127.0.0.1", kim.connection.port, timeout=SECONDS)
    connection.request("GET", "/book.sqlite", headers={"Host": kim.host, "Cookie": kim.cookie})
    answer = connection.getresponse()
    assert answer.status == 200
    got, length = len(answer.read(most)), int(answer.headers["Content-Length"])
    connection.close()
    answer.close()
    return got, length


@pytest.mark.parametrize("left", [None, 100_000], ids=["at once", "near the end"])
def test_broken_off(kim: Browser, left: int | None) -> None:
    """A book that is small enough to be handed on as a whole doesn't count, wherever it is broken off."""
    _, length = received(kim, 0)
    most = 1_000 if left is None else length - left
    assert received(kim, most) == (most, length) and length < 1 << 20
    time.sleep(A_WHILE)
    assert NONE_KNOWN in shown(kim.get("/history"))
    assert received(kim, None) == (length, length)
    until = time.monotonic() + SECONDS
    while NONE_KNOWN in shown(kim.get("/history")) and time.monotonic() < until:
        time.sleep(0.05)
    assert "after change 1." in shown(kim.get("/history"))


def test_ends(kim: Browser) -> None:
    """The answer says that nothing follows, and whoever reads to the end of the connection waits for nothing."""
    with socket.create_connection(("127.0.0.1", kim.connection.port), timeout=SECONDS) as connection:
        connection.sendall(f"GET /book.sqlite HTTP/1.1\r\nHost: {kim.host}\r\nCookie: {kim.cookie}\r\n\r\n".encode())
        text = b"".join(iter(lambda: connection.recv(1 << 16), b""))
    head, _, body = text.partition(b"\r\n\r\n")
    assert b"\r\nConnection: close" in head and body.startswith(b"SQLite format 3")
