"""Bodies that are too large, and forms with too many fields: refused before anything of them is parsed."""
from __future__ import annotations

import io
import itertools
import re
import resource
import socket
import urllib.parse

import pytest
from werkzeug import formparser
from werkzeug.test import TestResponse

from web.said import SENTENCES
from web.server import SECONDS
from web.site import HOST, shown
from front_desk.desk import Desk
from gudokeyi.domain.people import AccountRole
from gudokeyi.domain.requests import NotSuch
from gudokeyi.domain.settings import LANGUAGES
from gudokeyi.services.search import MOST_WORDS
from gudokeyi.store.accounts import Accounts
from gudokeyi.web.access import (
    FILES, MOST_FIELDS, MOST_FORM_BYTES, MOST_LETTERS, MOST_QUERY_BYTES, MOST_QUERY_FIELDS,
)  # fmt: skip
from gudokeyi.web.connections import MOST_TOLD, TOO_LARGE
from serving.server import Browser, Server
from serving.test_running import EXAMPLES
from serving.visitor import PEOPLE, WORD, Served, Visitor, with_accounts

TOO_LONG = "The form is too long: write less into it."
FORM = "application/x-www-form-urlencoded"


def sent(visitor: Visitor, path: str, body: bytes, kind: str = FORM) -> TestResponse:
    return visitor.client.post(path, data=body, content_type=kind, headers={"Host": HOST})


def form_of(visitor: Visitor, count: int, letters: int = 1) -> bytes:
    """A form with so many fields, the token among them, each with so many letters."""
    fields = {"csrf_token": visitor.token()} | {f"field {at}": "x" * letters for at in range(count - 1)}
    return urllib.parse.urlencode(fields).encode()


@pytest.mark.parametrize("path", ["/login", "/file/exit", "/sheet/token/take", "/nothing"])
def test_many_fields(served: Served, monkeypatch: pytest.MonkeyPatch, path: str) -> None:
    """A body of very many fields isn't parsed, whoever sends it."""

    def parse(*_: object, **__: object) -> None:
        raise AssertionError("it is parsed")

    visitor = Visitor(served, "" if path == "/login" else "Kim")
    monkeypatch.setattr(formparser.FormDataParser, "parse", parse)
    fields = b"".join(b"%06d=&" % at for at in range(MOST_FORM_BYTES // 8 + 1))
    answer = sent(visitor, path, fields)
    assert answer.status_code == 413 and TOO_LONG in shown(answer.get_data(as_text=True))
    assert "refused size" in served.log.getvalue().splitlines()[-1]


def test_fields(served: Served) -> None:
    """A form has a number of fields, and each a number of letters."""
    visitor = Visitor(served)
    told = {
        count: sent(visitor, "/login", form_of(visitor, count)).status_code for count in (MOST_FIELDS, MOST_FIELDS + 1)
    }
    assert told == {MOST_FIELDS: 401, MOST_FIELDS + 1: 413}
    told = {
        letters: sent(visitor, "/login", form_of(visitor, 2, letters)).status_code
        for letters in (MOST_LETTERS, MOST_LETTERS + 1)
    }
    assert told == {MOST_LETTERS: 401, MOST_LETTERS + 1: 413}


def dropped(visitor: Visitor, path: str, size: int) -> TestResponse:
    data = {"csrf_token": visitor.token(), "sheet": (io.BytesIO(b"x" * size), "flock.csv")}
    return visitor.client.post(path, data=data, headers={"Host": HOST})


def test_files_behind_the_login(served: Served, clerk: Visitor, monkeypatch: pytest.MonkeyPatch) -> None:
    """A file is received where somebody may drop one, and nowhere else: a stranger's isn't parsed."""
    assert dropped(clerk, "/sheet", 2_000_000).status_code == 302
    assert dropped(clerk, "/file/exit", 2_000_000).status_code == 413
    assert dropped(Visitor(served), "/login", 2_000_000).status_code == 413
    monkeypatch.setattr(formparser.FormDataParser, "parse", None)
    assert dropped(Visitor(served), "/sheet", 2_000_000).status_code == 401


def test_queries(served: Served, clerk: Visitor) -> None:
    """What stands behind an address has a bound too, whoever asks; and a search has one of words, told as such."""
    for query in "x" * (MOST_QUERY_BYTES - 2), "&".join(["a="] * MOST_QUERY_FIELDS):
        assert clerk.get(f"/animals?a={query}").status_code == 200
        for visitor, path in (clerk, "/animals"), (clerk, "/search"), (Visitor(served), "/login"):
            answer = visitor.get(f"{path}?a={query}&b=")
            assert answer.status_code == 414 and "The address is too long: look for less." in shown(
                answer.get_data(as_text=True)
            ), path
    for at, language in enumerate(LANGUAGES):
        clerk.get(f"/language/{language}")
        few, many = (clerk.get(f"/animals?words={'+'.join(['a'] * count)}") for count in (MOST_WORDS, MOST_WORDS + 1))
        told = SENTENCES[NotSuch.WORDS][at] or NotSuch.WORDS.value
        sentence = told.format(most=MOST_WORDS, count=MOST_WORDS + 1)
        assert sentence in shown(many.get_data(as_text=True)) and sentence not in shown(few.get_data(as_text=True))


def first_line(server: Server, path: str, *headers: str, body: bytes = b"", kind: str = FORM) -> str:
    """What is answered to the beginning of a request."""
    head = "\r\n".join([f"POST {path} HTTP/1.1", f"Host: {server.host}", f"Content-Type: {kind}", *headers, "", ""])
    with socket.create_connection(("127.0.0.1", server.port), timeout=SECONDS) as connection:
        connection.sendall(head.encode() + body)
        return connection.makefile("rb").readline().decode()


def test_not_received(society_desk: Desk, cheap: None) -> None:
    """A body that is far too large isn't received at all: it is refused by its length, or where it goes on."""
    Accounts(society_desk.room / "book").add("Kim", AccountRole.KEEPER, WORD, WORD)
    server = Server(society_desk.room, society_desk.program)
    assert " 413 " in first_line(server, "/login", "Content-Length: 48000000")
    assert " 413 " in first_line(server, "/sheet", "Content-Length: 60000000")
    chunk = b"%x\r\n%s\r\n" % (MOST_TOLD + 1, b"x" * (MOST_TOLD + 1))
    assert " 413 " in first_line(server, "/login?to=/", "Transfer-Encoding: chunked", body=chunk)
    assert " 401 " in first_line(server, "/sheet", "Content-Length: 3", body=b"a=b")
    server.end()


def test_files_not_received(society_desk: Desk, cheap: None) -> None:
    """A file is received of somebody alone who may drop it there; else it is refused at once, and nothing of it is
    read."""
    with_accounts(society_desk.room / "book")
    server = Server(society_desk.room, society_desk.program)
    cookies = {name: Browser(server, name).cookie for name in ("Ines", "Carl", "Kim")}
    # the last letter of a signature has bits that say nothing: another one may be the same signature
    signed = cookies["Kim"]
    guessed = signed[:-2] + ("A" if signed[-2] != "A" else "B") + signed[-1]
    cookies |= {"": "", "guessed": guessed, "none": f"herdbook-{server.port}=x"}
    received = {("/sheet", "Carl"), ("/sheet", "Kim"), ("/restore", "Kim")}
    chunk = b"%x\r\n%s\r\n" % (MOST_FORM_BYTES + 1, b"x" * (MOST_FORM_BYTES + 1))
    part = b'--b\r\nContent-Disposition: form-data; name="sheet"; filename="a.csv"\r\n\r\n'
    file = part + b"x" * 2_000_000 + b"\r\n--b--\r\n"
    for path, (name, cookie) in itertools.product(("/sheet", "/restore"), cookies.items()):
        if (path, name) in received:
            # all of it is received, and then its form's token lacks
            headers = f"Content-Length: {len(file)}", f"Cookie: {cookie}"
            assert " 400 " in first_line(server, path, *headers, body=file, kind="multipart/form-data; boundary=b")
            continue
        assert " 413 " in first_line(server, path, "Content-Length: 40000000", f"Cookie: {cookie}"), (path, name)
        if name not in PEOPLE:
            told = first_line(server, path, "Transfer-Encoding: chunked", f"Cookie: {cookie}", body=chunk)
            assert " 413 " in told, (path, name)
            # all of the answer comes, and what stands in the body is no request
            within = b"GET /login HTTP/1.1\r\nHost: x\r\n\r\n" * 40_000
            told = all_told(server, path, within)
            assert told.count("HTTP/1.1 ") == 1 and told.endswith(TOO_LARGE.text), (path, name, told[:300])
    for language, begins in zip(LANGUAGES, ("This", "Das", "C'est")):
        told = all_told(server, "/sheet", within, f"Accept-Language: {language}-CH,en;q=0.5").rpartition("\n")[2]
        assert told.startswith(begins) and told == TOO_LARGE.told(language).text
    server.end()


def test_no_room_for_a_file(society_desk: Desk, cheap: None) -> None:
    """Where there is no room for what is received, as on a full disk, that is told, and the server goes on."""
    with_accounts(society_desk.room / "book")
    server = Server(society_desk.room, society_desk.program)
    carl = Browser(server, "Carl")
    # as of a full disk, nothing more is written into a file than this
    resource.prlimit(server.process.pid, resource.RLIMIT_FSIZE, (600_000, 600_000))
    head = b'--b\r\nContent-Disposition: form-data; name="sheet"; filename="a.csv"\r\n\r\n'
    body = head + b"x" * 2_000_000 + b"\r\n--b--\r\n"
    headers = f"Content-Length: {len(body)}", f"Cookie: {carl.cookie}"
    assert " 507 " in first_line(server, "/sheet", *headers, body=body, kind="multipart/form-data; boundary=b")
    assert "a.csv" not in carl.get("/sheet") and "Animals" in carl.get("/animals")
    server.kill()


def all_told(server: Server, path: str, body: bytes, *headers: str) -> str:
    """All that is answered to a stranger's body on one connection, to its end."""
    length = f"Content-Length: {len(body)}"
    head = "\r\n".join([f"POST {path} HTTP/1.1", f"Host: {server.host}", length, *headers, "", ""])
    with socket.create_connection(("127.0.0.1", server.port), timeout=SECONDS) as connection:
        connection.sendall(head.encode() + body)
        return connection.makefile("rb").read().decode()


def test_proxy_has_the_same() -> None:
    """The example for nginx hands on what the pages take, by their addresses."""
    text = (EXAMPLES / "nginx.conf").read_text(encoding="utf-8")
    sizes = {
        address: int(size) << {"k": 10, "m": 20}[unit]
        for address, size, unit in re.findall(r"location = (\S+) \{\s*client_max_body_size (\d+)([km]);", text)
    }
    pages = {
        "/sheet": "sheet.drop", "/restore": "restoring.drop", "/seals/check": "seals.check",
        "/settings/picture": "settings.change_picture",
    }  # fmt: skip
    assert sizes.keys() == pages.keys() and FILES.keys() == {*pages.values()}
    assert all(FILES[page] < sizes[address] < 1.1 * FILES[page] for address, page in pages.items())
    assert f"client_max_body_size {MOST_FORM_BYTES >> 10}k;\n    location / {{" in text
