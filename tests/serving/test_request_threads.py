"""For which thread a request waits: nobody who isn't logged in keeps somebody waiting who is, logins take turns by
their networks, and of those that wait there are so many at most."""
from __future__ import annotations

import contextlib
import re
import socket
import threading
import time
import urllib.parse
from collections.abc import Iterator
from types import SimpleNamespace

import pytest

from web.said import in_each
from web.server import SECONDS
from web.site import HOST, shown
from front_desk.desk import Desk
from gudokeyi.domain.people import AccountRole
from gudokeyi.domain.waiting import SECONDS_OF_PAGE
from gudokeyi.store.accounts import Accounts
from gudokeyi.web.access import REFUSED_AS_IT_CAME, WAIT_AS_IT_CAME
from gudokeyi.web.connections import Head, head_of
from gudokeyi.web.logins import FREE_BY_ADDRESS, LOGIN
from gudokeyi.web.request_threads import (
    LOGINS_AT_ONCE, MOST_LOGINS, MOST_OF_NETWORK, MOST_SENDERS, Asked, Kind, Refusal, Waiting,
)  # fmt: skip
from gudokeyi.web.routes.login import MANY, SECONDS_FOR_MANY
from serving.server import Browser, Server
from serving.test_waiting import AT_ONCE, FIELDS
from serving.visitor import WORD, Served, Visitor, with_accounts

# so many log in at once from so many addresses, on which the server works for ten seconds at least
LOGINS, ADDRESSES = 120, 10
# as many as a course has that logs in at once from one address
COURSE = 36


def channel(kind: Kind, sender: str, wait: int = 0) -> SimpleNamespace:
    """A connection with a request, as far as it matters which thread answers it."""
    request = SimpleNamespace(head=Head(kind, sender, wait=wait), error=None, refused=0)
    return SimpleNamespace(requests=[request], service=lambda: None)


def with_requests(threads: int, *asked: tuple[Kind, str]) -> Waiting:
    waiting = Waiting(threads)
    for kind, sender in asked:
        waiting.append(channel(kind, sender))
    return waiting


def begun(waiting: Waiting) -> list[Asked]:
    """Those that are answered at once."""
    return [waiting.popleft() for _ in range(len(waiting))]


def test_kinds_wait_for_themselves() -> None:
    """However many of a kind wait, those of the others are answered; what is done makes room for its own kind."""
    flood = [(kind, "one") for kind in (Kind.LOGIN, Kind.STRANGER, Kind.PASSWORD, Kind.WRITING) for _ in range(30)]
    waiting = with_requests(40, *flood)
    at_work = begun(waiting)
    counts = {kind: sum(one.request.head.kind is kind for one in at_work) for kind in Kind}
    assert counts == {Kind.LOGIN: 2, Kind.STRANGER: 4, Kind.PASSWORD: 1, Kind.WRITING: 20, Kind.READING: 0}
    waiting.append(channel(Kind.READING, "Ines"))
    assert [one.sender for one in begun(waiting)] == ["Ines"] and not len(waiting)
    for one in at_work:
        one.service()
        assert [next_one.request.head.kind for next_one in begun(waiting)][:1] in ([one.request.head.kind], [])
    assert len(with_requests(8, *flood)) == 2 + 2 + 1 + 4


def test_turns() -> None:
    """Of logins that wait that one is next whose network has fewest, and of equal ones that had a turn longest ago."""
    waiting = with_requests(40, *[(Kind.LOGIN, f"flood {at % 3}") for at in range(30)])
    at_work = begun(waiting)
    assert len(at_work) == LOGINS_AT_ONCE
    waiting.append(channel(Kind.LOGIN, "office"))
    order = list[str]()
    while at_work:
        at_work.pop(0).service()
        for one in begun(waiting):
            at_work.append(one)
            order.append(one.sender)
    assert order[0] == "office" and len(order) == 29 and not len(waiting)
    # whoever asks again and again comes no sooner than others who wait for one
    waiting = Waiting(40)
    for sender in "a", "b", "c":
        waiting.append(channel(Kind.LOGIN, sender))
    for turn in range(9):
        one = waiting.popleft()
        assert one.sender == "abc"[turn % 3]
        one.service()
        waiting.append(channel(Kind.LOGIN, one.sender))
    turns = waiting.logins
    for at in range(2 * MOST_SENDERS):
        waiting.append(channel(Kind.LOGIN, f"network {at}"))
        waiting.popleft().service()
    assert len(turns.had) == MOST_SENDERS


def test_turns_of_people() -> None:
    """Whoever asks for very many pages, or files very much, doesn't keep others waiting for all of that; what one
    person files is done in its order, and the time of a page begins as it comes."""
    for kind, threads in (Kind.READING, 2), (Kind.WRITING, 4):
        waiting = with_requests(threads, *[(kind, "Carl")] * 30)
        at_work = begun(waiting)
        waiting.append(channel(kind, "Clara"))
        came = [one.request for one in waiting.places[kind].waiting["Carl"]]
        at_work[0].service()
        assert [one.sender for one in begun(waiting)] == ["Clara"]
        at_work[1].service()
        assert [one.request for one in begun(waiting)] == came[:1]
        assert came[0].until == came[0].arrived + SECONDS_OF_PAGE


def test_bounds_of_logins() -> None:
    """A course is let wait, and no more of one network; of all so many, and where there are more those of the network
    that has most are refused. What is refused is told so at once, by a thread that looks at no password."""
    waiting = Waiting(40)
    course = [channel(Kind.LOGIN, "course") for _ in range(MOST_OF_NETWORK + 3)]
    for one in course:
        waiting.append(one)
    assert MOST_OF_NETWORK >= COURSE
    assert [one.requests[0].refused for one in course] == [0] * MOST_OF_NETWORK + [Refusal.MANY_OF_NETWORK] * 3
    others = [channel(Kind.LOGIN, f"network {at}") for at in range(MOST_LOGINS)]
    for one in others[: MOST_LOGINS - MOST_OF_NETWORK]:
        waiting.append(one)
    assert not any(one.requests[0].refused for one in others) and waiting.logins.all == MOST_LOGINS
    for one in others[MOST_LOGINS - MOST_OF_NETWORK :]:
        waiting.append(one)
    # the course's last ones gave way, but for its first
    refused = [one.requests[0].refused for one in course]
    assert refused == [0] + [Refusal.MANY] * (MOST_OF_NETWORK - 1) + [Refusal.MANY_OF_NETWORK] * 3
    assert [one.requests[0].refused for one in others] == [0] * (MOST_LOGINS - 1) + [Refusal.MANY]
    assert waiting.logins.all == MOST_LOGINS
    # what is refused, and what a network asks that has to wait, is told so without a turn of logins
    waiting.append(channel(Kind.LOGIN, "guesses", wait=30))
    quick = waiting.places[Kind.STRANGER]
    while len(quick):
        quick.begin().service()
    assert waiting.logins.all == MOST_LOGINS and sum(len(place) for place in waiting.places.values()) == LOGINS_AT_ONCE


def head(
    served: Served, visitor: Visitor | None, method: str, path: str, peer: str = "10.0.0.1", **headers: str
) -> Head:
    jar = visitor.client.cookie_jar if visitor else None
    cookies = "; ".join(f"{one.name}={one.value}" for one in jar or ())
    said = {"command": method, "path": path, "headers": {"COOKIE": cookies} | headers}
    parser = SimpleNamespace(chunked=False, content_length=0, **said)
    return head_of(served.app, parser, peer)


def test_heads(served: Served, clerk: Visitor) -> None:
    """By its head it is known of which kind a request is, however its address is written, and who sends it."""
    stranger = Visitor(served)
    stranger.get("/login")
    for path in "/login", "//login", "///login":
        assert head(served, stranger, "POST", path).kind is head(served, clerk, "POST", path).kind is Kind.LOGIN, path
    for method, path in ("GET", "/"), ("GET", "/login"), ("POST", "/file/exit"), ("POST", "/nothing"), ("PUT", "/"):
        assert head(served, stranger, method, path).kind is head(served, None, method, path).kind is Kind.STRANGER
    for method, path, kind in (
        ("GET", "/", Kind.READING), ("POST", "/file/exit", Kind.WRITING), ("POST", "/nothing", Kind.WRITING),
        ("POST", "/password", Kind.PASSWORD), ("POST", "/accounts", Kind.PASSWORD), ("HEAD", "/accounts", Kind.READING),
        ("POST", "/accounts/change", Kind.PASSWORD),
    ):  # fmt: skip
        found = head(served, clerk, method, path)
        assert found.kind is kind and found.sender == "Carl", (method, path)
    clerk_before = Visitor(served, "Clara")
    with clerk_before.client.session_transaction(base_url=f"http://{HOST}") as session:
        served.gate.accounts.end_login(session[LOGIN])
    assert head(served, clerk_before, "POST", "/file/exit").kind is Kind.STRANGER
    # one household has one network
    peers = "2001:db8::1", "2001:db8:0:ff::2", "1.2.3.4"
    networks = [head(served, None, "POST", "/login", peer).sender for peer in peers]
    assert networks == ["2001:db8::/56", "2001:db8::/56", "1.2.3.4"]
    assert head(served, None, "POST", "/login", "10.0.0.9").wait == 0
    for at in range(FREE_BY_ADDRESS):
        served.gate.throttle.tried(f"name {at}", "10.0.0.9", False)
    assert head(served, None, "POST", "/login", "10.0.0.9").wait == 1


def test_heads_behind_a_proxy(proxied: Served) -> None:
    """There the network is the one that the proxy tells of; of nobody else that is believed."""
    told = {"X_FORWARDED_FOR": "9.9.9.9, 2001:db8::1"}
    for peer, sender in ("10.0.0.2", "2001:db8::/56"), ("10.0.0.3", "10.0.0.3"):
        assert head(proxied, None, "POST", "/login", peer, **told).sender == sender
    assert head(proxied, None, "GET", "/", "10.0.0.2").sender == "10.0.0.2"


def test_refused_as_it_came(served: Served, monkeypatch: pytest.MonkeyPatch) -> None:
    """Whose login is refused as it comes gets the page back with the name, and no password is looked at."""
    monkeypatch.setattr(Accounts, "fits", lambda *_: pytest.fail("a password is looked at"))
    visitor = Visitor(served)
    sent = {"csrf_token": visitor.token(), "name": "Carl", "password": WORD, "kept to": "/file/exit", "kept-id": "GK"}

    def posted(said: dict[str, int]) -> tuple[int, str, str]:
        answer = visitor.client.post("/login", data=sent, headers={"Host": HOST}, environ_overrides=said)
        return answer.status_code, answer.headers["Retry-After"], answer.get_data(as_text=True)

    for language, told in zip(("en", "de", "fr"), in_each(MANY)):
        visitor.get(f"/language/{language}")
        for why in Refusal:
            status, seconds, page = posted({REFUSED_AS_IT_CAME: why})
            assert status == why and seconds == str(SECONDS_FOR_MANY) and told in shown(page)
            assert 'value="Carl"' in page and 'value="GK"' in page
    assert "refused many logins" in served.log.getvalue().splitlines()[-1]
    assert posted({WAIT_AS_IT_CAME: 7})[:2] == (429, "7")


@pytest.fixture
def server(society_desk: Desk, cheap: None) -> Iterator[Server]:
    folder = society_desk.room / "book"
    with_accounts(folder)
    for at in range(COURSE):
        Accounts(folder).add(f"pupil {at}", AccountRole.INSPECTOR, WORD, WORD)
    running = Server(society_desk.room, society_desk.program)
    yield running
    running.end()


def test_burst_of_logins(server: Server) -> None:
    """While very many log in without an account, from several addresses, whoever is logged in files and reads at once,
    also gives another password, and somebody elsewhere logs in."""
    clerk, visitor = Browser(server, "Carl"), Browser(server)
    token = visitor.token_of("/login")
    with contextlib.ExitStack() as stack:
        for at in range(LOGINS):
            body = urllib.parse.urlencode({"csrf_token": token, "name": f"nobody {at}", "password": "x"})
            place, own = ("127.0.0.1", server.port), (f"127.0.1.{1 + at % ADDRESSES}", 0)
            connection = stack.enter_context(socket.create_connection(place, SECONDS, own))
            head = f"POST /login HTTP/1.1\r\nHost: {server.host}\r\nCookie: {visitor.cookie}\r\n"
            kind = f"Content-Type: application/x-www-form-urlencoded\r\nContent-Length: {len(body)}\r\n\r\n"
            connection.sendall(f"{head}{kind}{body}".encode())
        for at in range(2):
            began = time.monotonic()
            assert clerk.post("/file/birth", id=f"NEW-{at}", sex="F", day="2024-05-01")[0] == 302
            clerk.get("/animals")
            assert clerk.post("/password", password="wrong", new=WORD, again=WORD)[0] == 400
            Browser(server, "Ines")
            assert time.monotonic() - began < AT_ONCE
        # the burst wasn't over
        assert len(re.findall("POST /login 401", server.logged())) < LOGINS - MOST_OF_NETWORK


def test_course(server: Server) -> None:
    """All are let in who log in at once from one address with right passwords, also where somebody there mistypes."""
    told, ready = list[bool](), threading.Barrier(COURSE)

    def log_in(at: int) -> None:
        browser = Browser(server)
        browser.token = browser.token_of("/login")
        ready.wait()
        for word in ["x"] * (at % 6 == 0) + [WORD]:
            status = browser.post("/login", name=f"pupil {at}", password=word)[0]
        told.append(status == 302)

    threads = [threading.Thread(target=log_in, args=(at,)) for at in range(COURSE)]
    for one in threads:
        one.start()
    for one in threads:
        one.join()
    assert told == [True] * COURSE
    assert Browser(server, "Carl").post("/file/exit", **FIELDS)[0] == 302
