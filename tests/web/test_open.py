"""The word `open`: its link, its port, and how it ends."""
from __future__ import annotations

import fcntl
import pathlib
import re
import signal
import socket
import tempfile
import urllib.error
import urllib.request
from http.client import HTTPException, HTTPResponse
from http.cookiejar import CookieJar
from typing import Any, cast

import pytest

from web.server import SECONDS, Server, free_port
from web.site import looked_in
from front_desk.desk import Desk
from gudokeyi.web.forms import new_form
from gudokeyi.web.server import ADDRESS, bound, room


class Browser:
    """One that keeps its cookies, and asks nobody on the way."""

    def __init__(self) -> None:
        kept = urllib.request.HTTPCookieProcessor(CookieJar())
        self.opener = urllib.request.build_opener(urllib.request.ProxyHandler({}), kept)

    def open(self, address: str | urllib.request.Request) -> HTTPResponse:
        return cast(HTTPResponse, self.opener.open(address, timeout=SECONDS))


def test_link(society_desk: Desk) -> None:
    """The link is the first that is printed, and may be opened again; without it nobody gets in."""
    server = Server(society_desk.room, society_desk.program)
    assert re.fullmatch(r"http://127\.0\.0\.1:\d+/enter/[\w-]{32}", server.link)
    for _ in range(2):
        with Browser().open(server.link) as answer:
            assert answer.status == 200 and b"502" in answer.read()
            assert "Server" not in answer.headers
    with pytest.raises(urllib.error.HTTPError, match="403"):
        Browser().open(server.base)
    assert server.end().splitlines()[-1] == "The desk is closed."
    # nobody answers, or another server that got the port meanwhile, which doesn't know the link
    with pytest.raises((OSError, HTTPException)):
        Browser().open(server.link)


def begin_taking(server: Server) -> None:
    """Drops a sheet of many animals, and begins to take it."""
    opened, base = Browser(), server.base
    opened.open(server.link).close()

    def posted(address: str, body: bytes, kind: str) -> str:
        request = urllib.request.Request(base + address, body, {"Content-Type": kind})
        with opened.open(request) as answer:
            return f"{answer.geturl().removeprefix(base)}\n{answer.read().decode()}"

    with opened.open(f"{base}/sheet") as answer:
        found = re.search(r'name="csrf_token" value="([^"]+)"', answer.read().decode())
    assert found
    rows = "id,name,sex,birth,sire,dam\n" + "".join(f"N{at},,f,2019-01-01,,\n" for at in range(3000))
    parts = (
        f'--x\r\nContent-Disposition: form-data; name="csrf_token"\r\n\r\n{found[1]}\r\n--x\r\nContent-Disposition: '
    )
    parts += f'form-data; name="sheet"; filename="a.csv"\r\n\r\n{rows}\r\n--x--\r\n'
    token = re.match(r"/sheet/([\w-]+)", posted("/sheet", parts.encode(), "multipart/form-data; boundary=x"))
    assert token
    form = f"csrf_token={found[1]}&anyway=1".encode()
    page = posted(f"/sheet/{token[1]}/columns", form, "application/x-www-form-urlencoded")
    while "http-equiv" in page:
        with opened.open(f"{base}/sheet/{token[1]}") as answer:
            page = answer.read().decode()
    take = form + "".join(f"&{name}={value}" for name, value in looked_in(page).items()).encode()
    take += f"&form={new_form()}".encode()
    posted(f"/sheet/{token[1]}/take", take, "application/x-www-form-urlencoded")


@pytest.mark.parametrize("how", [signal.SIGINT, signal.SIGTERM])
def test_ended_while_a_sheet_is_taken(society_desk: Desk, how: signal.Signals) -> None:
    """Ended in the middle of a taking, the taking is done to its end."""
    server = Server(society_desk.room, society_desk.program)
    begin_taking(server)
    server.process.send_signal(how)
    assert server.process.wait(SECONDS) == 0
    listed = society_desk.good("history").out.splitlines()
    assert len(listed) == 2 and "3502 animals" in listed[1]
    society_desk.good("verify")


def test_killed_while_a_sheet_is_taken(society_desk: Desk) -> None:
    """Killed then, the book is as before or as after, and whole."""
    server = Server(society_desk.room, society_desk.program)
    begin_taking(server)
    server.process.kill()
    server.process.wait()
    society_desk.good("verify")
    # what was dropped goes when a desk is opened again
    assert [*society_desk.room.glob("gudokeyi-desk-*/*/a.csv")]
    again = Server(society_desk.room, society_desk.program)
    assert not [*society_desk.room.glob("gudokeyi-desk-*/*/a.csv")]
    again.end()
    # a change of one's own waits for a taking that goes on
    society_desk.good("exit", "GK-17/472c", "--day", "2024-05-01")
    assert len(society_desk.good("list").out.splitlines()) in (503, 3503)
    society_desk.good("verify")


def test_rooms(tmp_path: pathlib.Path, monkeypatch: pytest.MonkeyPatch) -> None:
    """What was dropped at a desk stays as long as that is open, also where another one is opened, and goes then."""
    monkeypatch.setattr(tempfile, "tempdir", str(tmp_path))
    with room() as first:
        with room() as second:
            assert [*tmp_path.iterdir()] in ([first, second], [second, first])
        assert [*tmp_path.iterdir()] == [first]
    assert not [*tmp_path.iterdir()]


def test_rooms_at_once(tmp_path: pathlib.Path, monkeypatch: pytest.MonkeyPatch) -> None:
    """A desk that is opened while another one makes its folder leaves it there."""
    monkeypatch.setattr(tempfile, "tempdir", str(tmp_path))
    lock, seen = fcntl.flock, list[pathlib.Path]()

    def late(*values: Any) -> None:
        monkeypatch.setattr(fcntl, "flock", lock)
        with room() as path:
            seen.append(path)
        lock(*values)

    monkeypatch.setattr(fcntl, "flock", late)
    with room() as path:
        assert seen and [*tmp_path.iterdir()] == [path]


def test_this_machine_alone() -> None:
    """Nobody else's machine reaches the desk."""
    with bound(ADDRESS, 0, "") as listening:
        assert listening.getsockname()[0] == "127.0.0.1"


def test_port(society_desk: Desk) -> None:
    """A port may be named; one that is taken, and one that there isn't, is told."""
    with socket.create_server(("127.0.0.1", port := free_port())):
        society_desk.wrong(f"port {port} can't be used", "open", "--no-browser", "--port", str(port))
    society_desk.wrong("there is no port 65536", "open", "--no-browser", "--port", "65536")
    server = Server(society_desk.room, society_desk.program, "--port", str(port))
    assert server.link.startswith(f"http://127.0.0.1:{port}/enter/")
    server.end()
