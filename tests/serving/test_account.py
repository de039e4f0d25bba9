"""The words `account` and `serve`: who gets an account, and where the server listens."""
from __future__ import annotations

import argparse
import contextlib
import getpass
import logging
import os
import pathlib
import pty
import re
import signal
import socket
import syslog
import threading
from typing import NoReturn

import pytest

from web.server import SECONDS, free_port
from web.site import shown
from front_desk.desk import TOP, Desk
from gudokeyi.cli.words.serving import do_account
from gudokeyi.domain.messages import Mistake
from gudokeyi.domain.people import AccountRole
from gudokeyi.services.book_session import BookSession
from gudokeyi.store.accounts import Accounts
from gudokeyi.web.addresses import ListenAddress
from gudokeyi.web.server import serve
from serving.server import Browser, Server
from serving.visitor import WORD

OTHER = "another good word"


def typed(desk: Desk, words: list[str], *lines: str) -> tuple[int, str]:
    """A word at a terminal, at which somebody types lines when asked; the status, and all that the terminal shows."""
    child, terminal = pty.fork()
    if not child:
        os.chdir(desk.room)
        os.execve(
            str(TOP / "gudokeyi"), ["society", *words], {"PATH": os.environ["PATH"], "HERDBOOK": desk.program}
        )
    shown_there, left = "", list(lines)
    late = threading.Timer(SECONDS, os.kill, (child, signal.SIGKILL))
    late.start()
    while True:
        try:
            text = os.read(terminal, 4096).decode()
        except OSError:
            break
        shown_there += text
        if text.rstrip().endswith(":") and left:
            os.write(terminal, f"{left.pop(0)}\n".encode())
    late.cancel()
    _, status = os.waitpid(child, 0)
    os.close(terminal)
    return os.waitstatus_to_exitcode(status), shown_there


def test_accounts(desk: Desk) -> None:
    """The first account is a keeper's; passwords are asked twice and not shown; accounts are listed, changed and
    removed."""
    status, told = typed(desk, ["account", "Kim", "--role", "clerk"], WORD, WORD)
    assert status == 1 and "the first account is a keeper's: say --role keeper" in told
    status, told = typed(desk, ["account", "Kim", "--role", "keeper"], WORD, WORD)
    assert status == 0 and told.count("Password:") == 1 and "The same again:" in told and WORD not in told
    assert typed(desk, ["account", "Carl", "--role", "clerk"], WORD, WORD)[0] == 0
    assert desk.good("account", "--list").out == "Carl: clerk\nKim: keeper\n"
    accounts = Accounts(desk.room / "book")
    assert accounts.fits("kim", WORD) and not accounts.fits("kim", OTHER)
    assert typed(desk, ["account", "Carl"], OTHER, OTHER)[0] == 0
    assert accounts.fits("Carl", OTHER) and not accounts.fits("Carl", WORD)
    assert desk.good("account", "CARL", "--role", "inspector").out == "Carl is inspector now; the password stays\n"
    assert desk.good("account", "Carl", "--remove").out == "Carl has no account any more\n"
    assert desk.good("account", "--list").out == "Kim: keeper\n"


def test_accounts_in_the_log_of_the_machine(cheap: None, tmp_path: pathlib.Path, monkeypatch: pytest.MonkeyPatch) -> None:
    """What somebody does by a terminal is told there, with who did it and to whom; what isn't done isn't."""
    told = list[tuple[int, str]]()
    monkeypatch.setattr(syslog, "syslog", lambda priority, line: told.append((priority, line)))
    Accounts(tmp_path).add("Kim", AccountRole.KEEPER, WORD, WORD)
    Accounts(tmp_path).add("Carl", AccountRole.CLERK, WORD, WORD)
    for name, role, remove in ("Carl", "keeper", False), ("Carl", "", True), ("Kim", "", True):
        asked = argparse.Namespace(book=tmp_path, name=name, role=role, remove=remove, list=False, copy=None)
        with contextlib.suppress(Mistake):
            do_account(asked)
    assert told == [
        (syslog.LOG_NOTICE, f"account, by {getpass.getuser()}: Carl is keeper now; the password stays"),
        (syslog.LOG_NOTICE, f"account, by {getpass.getuser()}: Carl has no account any more"),
    ]


@pytest.mark.parametrize("words, told", [
    (["account", "Kim", "--remove"], "somebody has to be a keeper"), (["account", "Kim", "--role", "clerk"], "somebody has to be a keeper"),
    (["account", "Nobody", "--remove"], "there is no account 'Nobody'"), (["account"], "whose account?"),
    (["account", "Carl"], "which role has Carl?"), (["account", "Carl", "--role", "king"], "--role"),
])  # fmt: skip
def test_mistakes(desk: Desk, cheap: None, words: list[str], told: str) -> None:
    desk.room.joinpath("book").mkdir()
    Accounts(desk.room / "book").add("Kim", AccountRole.KEEPER, WORD, WORD)
    desk.wrong(told, *words)


@pytest.mark.parametrize("first, again, told", [
    ("short", "short", "a password has 10 to 200 letters"), (WORD, OTHER, "aren't the same"), ("kimkimkimkim", "kimkimkimkim", "too easily"),
    ("x" * 201, "x" * 201, "a password has 10 to 200 letters"), ("aaaaaaaaaaaa", "aaaaaaaaaaaa", "too easily"), ("kim12345678", "kim12345678", "too easily"),
])  # fmt: skip
def test_passwords(desk: Desk, first: str, again: str, told: str) -> None:
    """Passwords that are guessed easily aren't taken."""
    status, shown_there = typed(desk, ["account", "Kim", "--role", "keeper"], first, again)
    assert status == 1 and told in shown_there and desk.good("account", "--list").out == ""


def test_where(society_desk: Desk, cheap: None) -> None:
    """It listens when somebody has an account, and on an address of the network not without a word for it."""
    folder = society_desk.room / "book"
    society_desk.wrong("nobody has an account yet", "serve", "--listen", "127.0.0.1:0")
    Accounts(folder).add("Kim", AccountRole.KEEPER, WORD, WORD)
    society_desk.wrong("is an address of the network", "serve", "--listen", "0.0.0.0:0")
    society_desk.wrong("by which name do browsers ask", "serve", "--listen", "0.0.0.0:0", "--insecure")
    society_desk.wrong("by which name do browsers ask", "serve", "--listen", "127.0.0.1:0", "--behind-proxy")
    society_desk.wrong("isn't an address and a port", "serve", "--listen", "localhost")
    with socket.create_server(("127.0.0.1", 0)) as taken:
        place = f"127.0.0.1:{taken.getsockname()[1]}"
        society_desk.wrong("can't be used", "serve", "--listen", place)
    (folder / "accounts.sqlite").chmod(0o640)
    society_desk.wrong("may be read by others", "serve", "--listen", "127.0.0.1:0")


@pytest.mark.parametrize("answers", ["echo herdbook 0.1.0", "exit 3"])
def test_other_program(society_desk: Desk, cheap: None, answers: str) -> None:
    """A program of another version, or one that doesn't answer, isn't served with."""
    Accounts(society_desk.room / "book").add("Kim", AccountRole.KEEPER, WORD, WORD)
    other = society_desk.room / "herdbook"
    other.write_text(f"#!/bin/sh\n{answers}\n", encoding="utf-8")
    other.chmod(0o755)
    desk = Desk(society_desk.room, str(other))
    desk.wrong("should answer 'herdbook ", "serve", "--listen", "127.0.0.1:0")


@pytest.mark.parametrize("how", [signal.SIGTERM, signal.SIGINT])
def test_ends(society_desk: Desk, cheap: None, how: signal.Signals) -> None:
    """It ends well by SIGTERM and by Ctrl-C, and who is logged in is so still when it is started again."""
    Accounts(society_desk.room / "book").add("Kim", AccountRole.KEEPER, WORD, WORD)
    server = Server(society_desk.room, society_desk.program, port=free_port())
    kim = Browser(server, "Kim")
    assert kim.post("/file/exit", id="GK-17/472c", day="2024-05-01")[1] == "/answer/2"
    assert server.end(how).splitlines() == ["The desk is closed."]
    again = Server(society_desk.room, society_desk.program, port=server.port)
    kim.connection.close()
    assert "<bdi>Kim</bdi>" in kim.get("/history")
    assert kim.post("/file/exit", id="GK-16/433c", day="2024-05-01")[1] == "/answer/3"
    log = again.logged()
    again.end()
    assert re.fullmatch(
        r"(\d{4}-\d\d-\d\dT\d\d:\d\d:\d\dZ 127\.0\.0\.1 Kim \(keeper\) \w+ /\S+ \d{3} \d+ms\n)+", log
    ), log
    society_desk.good("verify")


def test_quiet(
    society_desk: Desk, cheap: None, monkeypatch: pytest.MonkeyPatch, caplog: pytest.LogCaptureFixture,
    capfd: pytest.CaptureFixture[str],
) -> None:  # fmt: skip
    """What the server's own library says of a fault stands neither in an answer nor in the log."""
    folder, given = society_desk.room / "book", dict[str, object]()
    Accounts(folder).add("Kim", AccountRole.KEEPER, WORD, WORD)
    monkeypatch.setenv("HERDBOOK", society_desk.program)
    monkeypatch.setattr(logging.getLogger("waitress"), "propagate", True)
    monkeypatch.setattr(logging.getLogger("waitress"), "handlers", [])

    def create(_: object, **words: object) -> NoReturn:
        given.update(words)
        logging.getLogger("waitress").error("what somebody wrote")
        raise Mistake("no server")

    monkeypatch.setattr("gudokeyi.web.server.create_server", create)
    with pytest.raises(Mistake, match="no server"):
        serve(folder, BookSession(), ListenAddress("127.0.0.1", 0), [], "")
    assert given["expose_tracebacks"] is False and given["ident"] is None
    assert not caplog.text and not capfd.readouterr().err


def test_odd_requests(society_desk: Desk, cheap: None) -> None:
    """What isn't a request of a browser is refused in words that tell nothing of the server."""
    Accounts(society_desk.room / "book").add("Kim", AccountRole.KEEPER, WORD, WORD)
    server = Server(society_desk.room, society_desk.program)
    for request in (b"GET / HTTP/1.1\r\n\r\n", b"GET /../../etc/passwd HTTP/1.1\r\nHost: %s\r\n\r\n" % server.host.encode(),
                    b"\x00\xff\r\n\r\n", b"GET / HTTP/1.1\r\nHost: %s\r\nCookie: herdbook=x.y.z\r\n\r\n" % server.host.encode(),
                    b"POST /login HTTP/1.1\r\nHost: %s\r\nContent-Length: 99999999999\r\n\r\n" % server.host.encode(),
                    b"TRACE / HTTP/1.1\r\nHost: %s\r\n\r\n" % server.host.encode(),
                    b"POST /login HTTP/1.1\r\nHost: %s\r\nTransfer-Encoding: chunked\r\nContent-Length: 3\r\n\r\n0\r\n\r\n" % server.host.encode()):  # fmt: skip
        with socket.create_connection(("127.0.0.1", server.port), timeout=SECONDS) as connection:
            connection.sendall(request)
            connection.shutdown(socket.SHUT_WR)
            answer = b""
            while part := connection.recv(65536):
                answer += part
        text = answer.decode("utf-8", "replace")
        assert answer.startswith((b"HTTP/1.1 3", b"HTTP/1.1 4", b"HTTP/1.0 4", b"HTTP/1.1 5")) or not answer, request
        assert (
            "Traceback" not in text
            and str(society_desk.room) not in text
            and "Werkzeug" not in text
            and "Server:" not in text
        )
    assert "Kim" in shown(Browser(server, "Kim").get("/accounts"))
    server.end()
