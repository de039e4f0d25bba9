"""Logging in and out: passwords, guesses, cookies, and how long a login holds."""
from __future__ import annotations

import hashlib
import hmac
import pathlib
import threading
import time
from email.utils import parsedate_to_datetime

import pytest

from web.said import in_each
from web.site import HOST, PORT, shown
from gudokeyi.domain.settings import LANGUAGES
from gudokeyi.render.page_language import PageLanguage
from gudokeyi.web.routes.login import WAIT
from gudokeyi.store import accounts as passwords
from gudokeyi.store.accounts import A_DAY
from gudokeyi.web.addresses import ServerAddress
from gudokeyi.web.forms import new_form
from gudokeyi.web.logins import FREE_BY_ADDRESS, FREE_BY_NAME, LONGEST, SECONDS, Throttle
from gudokeyi.web.request_threads import LOGINS_AT_ONCE, PASSWORDS_AT_ONCE
from serving.test_kept_accounts import guess
from serving.visitor import WORD, Served, Visitor, served_of, with_accounts

WRONG = "The name or the password is wrong."


def test_in_and_out(served: Served) -> None:
    """Whoever has an account gets in by name and password, and after logging out isn't in, also with the old cookie."""
    visitor = Visitor(served)
    assert visitor.get("/animals").headers["Location"] == "/login?to=%2Fanimals"
    answer = visitor.log_in("cARL ", to="/animals?words=mill")
    assert answer.headers["Location"] == "/animals?words=mill" and visitor.is_in()
    assert "<bdi>Carl</bdi> (clerk)" in visitor.page("/")
    cookie = served.app.config["SESSION_COOKIE_NAME"]
    kept = answer.headers["Set-Cookie"].partition(f"{cookie}=")[2].partition(";")[0]
    visitor.post("/logout")
    assert not visitor.is_in()
    stranger = served.app.test_client(use_cookies=False)
    assert stranger.get("/", headers={"Host": HOST, "Cookie": f"{cookie}={kept}"}).status_code == 302
    assert Visitor(served, "Carl").is_in()


@pytest.mark.parametrize(
    "to", ["//evil.example/", "/logout", "/book.sqlite", "/book%2esqlite", "/static/../book.sqlite", "/language/de", "/login", "/nothing"],
)
def test_way_back(served: Served, to: str) -> None:
    """A login leads to no other server, and to no page that does something by being read: a copy counts as a backup."""
    visitor = Visitor(served)
    assert visitor.log_in("Carl", to=to).headers["Location"] == "/" and visitor.is_in()
    assert visitor.get(f"/language/de?to={to}").headers["Location"] == ("/login" if to == "/login" else "/")


@pytest.mark.parametrize("name, password", [("Carl", "x"), ("Carl", ""), ("nobody", WORD), ("", ""), ("Carl", WORD + " "),
                                            ("Carl", "x" * 5000), ("Kim' OR 1=1 --", WORD), ("Carl\0", WORD), ("x" * 5000, WORD)])  # fmt: skip
def test_wrong(served: Served, name: str, password: str) -> None:
    """A wrong name and a wrong password are told alike, and of a long name the beginning is kept in mind alone."""
    answer = Visitor(served).log_in(name, password)
    assert answer.status_code == 401 and WRONG in shown(answer.get_data(as_text=True))
    assert all(len(text) <= 100 for _, text in served.gate.throttle.guesses)


def test_kept(monkeypatch: pytest.MonkeyPatch) -> None:
    """A password is kept by scrypt with a salt of its own; it costs as much where there is no account."""
    one, other = passwords.kept_of(WORD), passwords.kept_of(WORD)
    assert one.digest == hashlib.scrypt(WORD.encode(), salt=one.salt, n=1 << 15, r=8, p=3, maxmem=1 << 27, dklen=32)
    # few guesses at once need memory
    threads = LOGINS_AT_ONCE + PASSWORDS_AT_ONCE
    assert [passwords.AT_ONCE.acquire(blocking=False) for _ in range(threads + 1)] == [True] * 3 + [False]
    passwords.AT_ONCE.release(threads)
    monkeypatch.setattr(passwords, "AT_ONCE", turn := threading.Lock())
    assert len(one.salt) == 16 and one.salt != other.salt and one.digest != other.digest
    compared: list[object] = []
    costs: list[tuple[int, ...]] = []
    compare, scrypt = hmac.compare_digest, hashlib.scrypt

    def seen_compare(*values: bytes) -> bool:
        compared.append(values)
        return compare(*values)

    def seen_scrypt(text: bytes, *, salt: bytes, n: int, r: int, p: int, maxmem: int, dklen: int) -> bytes:
        costs.append((n, r, p) if turn.locked() else ())
        return scrypt(text, salt=salt, n=n, r=r, p=p, maxmem=maxmem, dklen=dklen)

    monkeypatch.setattr(hmac, "compare_digest", seen_compare)
    monkeypatch.setattr(hashlib, "scrypt", seen_scrypt)
    assert passwords.fits(WORD, one) and not passwords.fits("x", one)
    assert not passwords.fits(WORD, None) and not passwords.fits("x" * 10_000, one)
    assert len(compared) == 4 and costs == [passwords.COST] * 4
    # an accent typed as one letter or as two
    assert passwords.fits("cafe\u0301 au lait noir", passwords.kept_of("caf\u00e9 au lait noir"))


def test_a_day(served: Served, clerk: Visitor) -> None:
    """A login holds a day, however much is asked meanwhile."""
    served.clock.now += A_DAY - 1
    assert clerk.is_in()
    served.clock.now += 2
    assert not clerk.is_in()


@pytest.mark.parametrize("change", ["password", "role", "removed"])
def test_ended_by_a_change(served: Served, clerk: Visitor, change: str) -> None:
    """Another password, another role and the end of an account end its logins; those of others stay."""
    other, keeper = Visitor(served, "Clara"), Visitor(served, "Kim")
    path = "/accounts/remove" if change == "removed" else "/accounts/change"
    given: dict[str, str] = {
        "removed": dict[str, str](), "role": {"role": "inspector"},
        "password": {"password": "quite another word", "again": "quite another word"},
    }[change]  # fmt: skip
    for own in "", "wrong":
        answer = keeper.post(path, name="Carl", own=own, **given)
        assert "our own password is wrong: nothing is changed" in shown(answer.get_data(as_text=True)) and clerk.is_in()
    keeper.post(path, name="Carl", own=WORD, **given)
    assert not clerk.is_in() and other.is_in() and keeper.is_in()
    assert clerk.log_in("Carl").status_code == (302 if change == "role" else 401)
    assert clerk.get("/sheet").status_code == (403 if change == "role" else 302)


def test_given_password(served: Served) -> None:
    """Who got a password from a keeper, with an account or later, has no other page before it is changed."""
    keeper, given = Visitor(served, "Kim"), {"password": "a word of the keeper", "again": "a word of the keeper"}
    keeper.post("/accounts", name="Nora", role="clerk", own=WORD, **given)
    keeper.post("/accounts/change", name="Carl", own=WORD, **given)
    assert "account of Carl: password given" in served.log.getvalue()
    for name in "Nora", "Carl":
        visitor = Visitor(served)
        assert visitor.log_in(name, given["password"]).status_code == 302
        for path in "/", "/animals", "/sheet", "/book.sqlite", "/nothing":
            assert visitor.get(path).headers["Location"] == "/password", path
        assert "A keeper gave you the password" in shown(visitor.page("/password"))
        assert visitor.get("/static/desk.css").status_code == 200
        assert visitor.post("/file/exit", id="GK-17/472c", day="2024-05-01").headers["Location"] == "/password"
        same = visitor.post("/password", password=given["password"], new=given["password"], again=given["password"])
        assert "is the one that a keeper gave you" in shown(same.get_data(as_text=True))
        new = {"new": "a wholly new word", "again": "a wholly new word"}
        assert visitor.post("/password", password=given["password"], **new).status_code == 302
        assert visitor.is_in() and visitor.get("/sheet").status_code == 200
        assert Visitor(served).log_in(name, new["new"]).headers["Location"] == "/"


def test_society(served: Served) -> None:
    """Who logs in sees whose book it is, and whom to ask."""
    Visitor(served, "Kim").post("/settings", name="Holgrave Society", address="Office\n1 Mill Lane")
    page = shown(Visitor(served).page("/login"))
    assert "Holgrave Society" in page and "Whom to ask: Office, 1 Mill Lane" in page


CHECKED_ELSEWHERE = (
    "Without an account you can check a certificate too: by the program herdbook, on a machine of your own."
)


def test_certificates_of_strangers(served: Served) -> None:
    """Whoever isn't logged in has no file checked here, and is told where that is done."""
    visitor = Visitor(served)
    address = visitor.get("/seals").headers["Location"]
    assert address == "/login?to=%2Fseals"
    for language, told in zip(LANGUAGES, in_each(CHECKED_ELSEWHERE)):
        visitor.get(f"/language/{language}")
        assert told in shown(visitor.page(address)) and told not in shown(visitor.page("/login?to=%2Fanimals"))


def test_removal_is_asked(served: Served) -> None:
    keeper = Visitor(served, "Kim")
    assert 'href="/accounts/remove?name=Carl"' in keeper.page("/accounts")
    page = keeper.page("/accounts/remove?name=Carl")
    assert "Remove the account of Carl?" in shown(page) and 'name="own" type="password"' in page
    answer = keeper.get("/accounts/remove?name=Nobody")
    assert answer.status_code == 404 and "there is no account 'Nobody'" in shown(answer.get_data(as_text=True))
    assert Visitor(served).log_in("Carl").status_code == 302


def test_own_password(served: Served, clerk: Visitor) -> None:
    """Somebody's own new password ends what else is logged in, and wants the one of now."""
    elsewhere = Visitor(served, "Carl")
    new = {"new": "a wholly new word", "again": "a wholly new word"}
    assert clerk.post("/password", password="x", **new).status_code == 400
    assert clerk.post("/password", password=WORD, new="short", again="short").status_code == 400
    assert clerk.post("/password", password=WORD, new=new["new"], again="x").status_code == 400
    assert elsewhere.is_in()
    assert clerk.post("/password", password=WORD, **new).status_code == 302
    assert clerk.is_in() and not elsewhere.is_in()
    assert elsewhere.log_in("Carl", new["new"]).status_code == 302


def test_guesses_of_own_password(clerk: Visitor) -> None:
    """Whoever comes to a browser that is logged in guesses its password no faster than others."""
    new = {"new": "a wholly new word", "again": "a wholly new word"}
    for _ in range(FREE_BY_NAME):
        assert clerk.post("/password", password="x", **new).status_code == 400
    answer = clerk.post("/password", password=WORD, **new)
    assert answer.status_code == 400 and "There were too many wrong passwords. Wait 1 second, then try again." in shown(
        answer.get_data(as_text=True)
    )


def test_language_stays(served: Served) -> None:
    """Who chose a language before the login has it behind it too."""
    visitor = Visitor(served)
    visitor.get("/language/de")
    visitor.log_in("Carl")
    assert in_each("Log out")[1] in visitor.page("/")


def test_cookies(served: Served) -> None:
    """No script reads the cookie, no other site sends it with a form, and a browser forgets it after a day."""
    cookie = Visitor(served).log_in("Carl").headers["Set-Cookie"]
    ends = parsedate_to_datetime(cookie.partition("Expires=")[2].partition(";")[0]).timestamp() - time.time()
    assert A_DAY - SECONDS < ends <= A_DAY + 1
    assert cookie.startswith(f"herdbook-{PORT}=") and "HttpOnly" in cookie and "SameSite=Lax" in cookie and "Path=/" in cookie
    assert "Secure" not in cookie and "Domain" not in cookie


def test_two_ports(served: Served, program: str, tmp_path: pathlib.Path) -> None:
    """A browser that keeps its cookies for all ports of a host is in at two desks of it at once."""
    folder = tmp_path / "another book"
    folder.mkdir()
    with_accounts(folder)
    with served_of(folder, program, tmp_path / "other", ServerAddress((f"127.0.0.1:{PORT + 1}",))) as other:
        visitor, there = Visitor(served, "Carl"), other.app.test_client()
        there.cookie_jar = visitor.client.cookie_jar
        host = {"Host": f"127.0.0.1:{PORT + 1}"}
        page = there.get("/login", headers=host).get_data(as_text=True)
        token = page.partition('name="csrf_token" value="')[2].partition('"')[0]
        sent = {"csrf_token": token, "name": "Kim", "password": WORD}
        assert there.post("/login", data=sent, headers=host).status_code == 302
        assert visitor.is_in() and there.get("/accounts", headers=host).status_code == 200


def test_cookies_behind_a_proxy(proxied: Served) -> None:
    """There it goes in secret alone, and is taken from this server alone."""
    visitor = Visitor(proxied, address="10.0.0.2")
    headers = {"Host": "herd.example", "X-Forwarded-For": "1.2.3.4", "X-Forwarded-Proto": "https"}
    answer = visitor.client.get("/login", headers=headers, base_url="https://herd.example")
    cookie = answer.headers["Set-Cookie"]
    assert (
        cookie.startswith("__Host-herdbook=") and "Secure" in cookie and "HttpOnly" in cookie and "Domain" not in cookie
    )


def test_new_login_is_new(served: Served) -> None:
    """What a browser had before it logged in isn't what it has afterwards: nobody is given a known token."""
    visitor = Visitor(served)
    before = visitor.token()
    visitor.log_in("Carl")
    with visitor.client.session_transaction(base_url=f"http://{HOST}") as session:
        first = dict(session)
    visitor.log_in("Carl")
    with visitor.client.session_transaction(base_url=f"http://{HOST}") as session:
        second = dict(session)
    assert first["login"] != second["login"]
    assert not served.gate.accounts.person_of(first["login"])
    data = {"csrf_token": before, "form": new_form(), "id": "GK-17/472c", "day": "2024-05-01"}
    answer = visitor.client.post("/file/exit", data=data, headers={"Host": HOST})
    assert answer.status_code == 400 and "The form is too old: open the page anew, and send it again." in shown(
        answer.get_data(as_text=True)
    )


def test_guesses_by_name(served: Served) -> None:
    """After a few wrong guesses by a name, from wherever, each waits longer; the right password waits too."""
    for at, name in enumerate(("Carl", "CARL", "carl", " cArl ", "\uff23arl")[:FREE_BY_NAME]):
        assert Visitor(served, address=f"10.0.0.{at}").log_in(name, "x").status_code == 401
    waited = []
    for _ in range(4):
        answer = Visitor(served, address="10.0.1.1").log_in("Carl")
        assert answer.status_code == 429
        told = shown(answer.get_data(as_text=True))
        waited.append(next(s for s in range(1, LONGEST) if PageLanguage("en").ngettext(*WAIT, s) in told))
        served.clock.now += waited[-1]
        assert Visitor(served, address="10.0.1.1").log_in("Carl", "x").status_code == 401
    assert waited == [1, 2, 4, 8]
    assert Visitor(served, address="10.0.1.1").log_in("Clara").status_code == 302
    served.clock.now += SECONDS + 1
    assert Visitor(served).log_in("Carl").status_code == 302


def test_guesses_by_address(served: Served) -> None:
    """From one address, or one network of IPv6, the same for whatever names; other addresses don't wait."""
    for address in "10.0.0.1", "2001:db8::1":
        for at in range(FREE_BY_ADDRESS):
            assert Visitor(served, address=address).log_in(f"nobody {at} {address}", "x").status_code == 401
        assert Visitor(served, address=address).log_in("Kim").status_code == 429
    # what one household or office has: the rest of it is the same
    for address in "2001:db8::2", "2001:db8:0:ff::1":
        assert Visitor(served, address=address).log_in("Kim").status_code == 429
    assert Visitor(served, address="2001:db8:0:100::1").log_in("Kim").status_code == 302


def test_throttle_ends() -> None:
    """No wait is longer than the longest, what is right is forgotten, and what is kept in mind has a bound."""
    now = [0.0]
    throttle = Throttle(lambda: now[0])
    waited = []
    for _ in range(40):
        waited.append(guess(throttle, "a", "1.1.1.1"))
        now[0] += waited[-1]
    assert max(waited) == LONGEST
    assert guess(throttle, "a", "1.1.1.1", is_right=True) == 0 == guess(throttle, "a", "2.2.2.2")
    for at in range(30_000):
        guess(throttle, f"name {at}", f"10.{at >> 16}.{at >> 8 & 255}.{at & 255}")
    assert len(throttle.guesses) <= 20_000
