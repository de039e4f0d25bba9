"""Who gets in, and what a page of another site, a hostile name or a desk that is only to be read can't do."""
from __future__ import annotations

import contextlib
import html.parser
import re
import sqlite3

import pytest
from werkzeug.routing import Rule

from web.site import HOST, PORT, SECRET, Site, shown
from gudokeyi.web.access import OPEN_TO_ALL
from gudokeyi.web.addresses import is_safe_redirect
from gudokeyi.web.files import harmless

# what an address of a page may be made of
VALUES = {
    "number": "1",
    "token": "none",
    "kind": "exit",
    "language": "de",
    "form": "1",
    "secret": "x",
    "code": "1",
    "year": "2024",
    "filename": "desk.css",
}


def address_of(rule: Rule) -> str:
    return re.sub(r"<(?:[^:>]+:)?(\w+)>", lambda found: VALUES[found[1]], rule.rule)


def writing(site: Site) -> list[str]:
    """The address of each route of the application that writes."""
    return [address_of(rule) for rule in site.app.url_map.iter_rules() if "POST" in (rule.methods or ())]


def test_only_by_the_link(site: Site) -> None:
    """Whoever lacks the cookie of the link sees no page; a wrong secret gives none."""
    stranger = site.app.test_client()
    reading = [rule for rule in site.app.url_map.iter_rules() if "GET" in (rule.methods or ())]
    for rule in reading:
        if rule.endpoint not in OPEN_TO_ALL:
            answer = stranger.get(address_of(rule), headers={"Host": HOST})
            assert answer.status_code == 403, rule
            assert "Open the link that was shown when the desk was opened: it lets you in." in shown(
                answer.get_data(as_text=True)
            )
    for wrong in ("x", SECRET[:-1], SECRET + "x", SECRET.upper(), "ä"):
        assert stranger.get(f"/enter/{wrong}", headers={"Host": HOST}).status_code == 403
    assert stranger.get("/", headers={"Host": HOST}).status_code == 403
    assert stranger.get(f"/enter/{SECRET}", headers={"Host": HOST}).status_code == 302
    cookie = stranger.get(f"/enter/{SECRET}", headers={"Host": HOST}).headers["Set-Cookie"]
    assert "HttpOnly" in cookie and "SameSite=Strict" in cookie and cookie.startswith(f"desk-{PORT}=")
    assert stranger.get("/", headers={"Host": HOST}).status_code == 200


@pytest.mark.parametrize(
    "host",
    [
        "",
        "evil.example",
        f"evil.example:{PORT}",
        "127.0.0.1",
        f"127.0.0.1:{PORT + 1}",
        f"127.0.0.1:{PORT}.evil.example",
    ],
)
def test_other_hosts(site: Site, host: str) -> None:
    """A name that another site has made for this address isn't answered."""
    answer = site.client.get("/", headers={"Host": host})
    assert answer.status_code == 400
    assert "This server isn't asked by this name." in shown(answer.get_data(as_text=True))


@pytest.mark.parametrize(
    "headers",
    [
        {"Origin": "http://evil.example"},
        {"Origin": "null"},
        {"Origin": f"https://{HOST}"},
        {"Sec-Fetch-Site": "cross-site"},
        {"Sec-Fetch-Site": "same-site"},
    ],
)
def test_other_origins(site: Site, headers: dict[str, str]) -> None:
    """No page of another site files anything, though the browser has the cookie and the token."""
    before = site.get("/history").get_data()
    for address in writing(site):
        fields = {"csrf_token": site.token(), "looked": site.looked()}
        fields |= {"id": "GK-17/472c", "day": "2024-05-01", "name": "Mine"}
        answer = site.client.post(address, data=fields, headers={"Host": HOST} | headers)
        assert answer.status_code == 403, address
    assert site.get("/history").get_data() == before
    assert "Mine" not in site.page("/settings")


def test_tokens(site: Site) -> None:
    """A form without the token of the browser's own pages, or with another one, does nothing."""
    for address in writing(site):
        for token in None, "x":
            fields = {"name": "Mine"} | ({"csrf_token": token} if token else {})
            answer = site.client.post(address, data=fields, headers={"Host": HOST, "Origin": f"http://{HOST}"})
            assert answer.status_code == 400, address
            assert "The form is too old: open the page anew, and send it again." in shown(answer.get_data(as_text=True))
    assert "Mine" not in site.page("/settings")


def files_of(site: Site) -> dict[str, bytes]:
    """The folder's files, but what SQLite keeps beside a database while somebody reads it: memory that is shared, and
    an empty log."""
    kept = {path.name: path.read_bytes() for path in site.desk.folder.iterdir() if path.suffix != ".sqlite-shm"}
    return {name: content for name, content in kept.items() if content or not name.endswith(".sqlite-wal")}


def test_read_only(reading_site: Site) -> None:
    """Each route that writes answers 403, and no page has a button for one. A book of the version before stays one."""
    site = reading_site
    with contextlib.closing(sqlite3.connect(site.desk.folder / "book.sqlite")) as connection:
        connection.executescript(
            "DROP VIEW animals; DROP VIEW commands; DROP VIEW coefficients; DROP TABLE request; DROP TABLE note; "
            "DROP TABLE own_column; DROP TABLE own_value; DROP TABLE member; DROP TABLE former_id; DROP INDEX animal_digits; ALTER TABLE animal DROP COLUMN exit_reason; "
            "DROP INDEX change_form; ALTER TABLE change DROP COLUMN form; PRAGMA user_version = 1"
        )
    files = files_of(site)
    token = "x"
    assert len(writing(site)) >= 8
    for address in writing(site):
        answer = site.client.post(address, data={"csrf_token": token}, headers={"Host": HOST})
        assert answer.status_code == (400 if address in ("/seals/check", "/jobs/none/stop") else 403), address
    for address in ("/sheet", "/file", "/file/exit", "/history/0/undo", "/book.sqlite"):
        assert site.get(address).status_code == 403
    for address in (
        "/",
        "/animals",
        "/animal/HOLGBRM000000000402",
        "/history",
        "/history/1",
        "/settings",
        "/matings",
        "/matings/plan",
        "/breed",
    ):
        page = site.page(address)
        assert 'method="post"' not in page or "disabled" in page
        assert "This desk is only to be read: nothing can be changed here." in page
        assert "/sheet" not in page and "/file" not in page and "/undo" not in page
    assert files_of(site) == files


def test_headers(site: Site) -> None:
    """No page allows scripts or styles within it, nor to be framed; a page to print allows its own styles alone."""
    for address in ("/", "/animals", "/breed", "/nothing", "/animals.csv", "/search?words=a"):
        headers = site.get(address).headers
        policy = headers["Content-Security-Policy"]
        assert "default-src 'none'" in policy and "unsafe" not in policy and "sha256" not in policy
        assert "frame-ancestors 'none'" in policy and "form-action 'self'" in policy
        assert headers["X-Content-Type-Options"] == "nosniff"
        assert headers["Cache-Control"] == "no-store"
    for address in ("certificate", "pedigree", "pedigree?generations=8"):
        answer = site.get(f"/animal/HOLGBRM000000000402/{address}")
        assert answer.headers["Content-Security-Policy"].count("'sha256-") == 1
        assert "unsafe" not in answer.headers["Content-Security-Policy"]


class Marks(html.parser.HTMLParser):
    """The elements of a page, and their attributes that do something."""

    def __init__(self) -> None:
        super().__init__()
        self.elements: set[str] = set()
        self.acting: list[str] = []

    def handle_starttag(self, tag: str, attrs: list[tuple[str, str | None]]) -> None:
        self.elements.add(tag)
        self.acting += [name for name, _ in attrs if name.startswith("on") or name == "style"]
        self.acting += [
            value for _, value in attrs if value and value.lower().startswith(("javascript:", "http://evil"))
        ]


HOSTILE = [
    "<script>alert(1)</script>",
    '" onclick="alert(1)',
    "'); DROP TABLE animal; --",
    "../../etc/passwd",
    "{{ 7 * 7 }}",
    "a/b?c#d&e=f",
    "%00%2f",
]


def test_hostile_names(site: Site) -> None:
    """Names, ids, owners and files of any letters are shown as they are written, and do nothing."""
    rows = ["id,name,sex,birth,sire,dam,owner"]
    quoted = ['"' + one.replace('"', '""') + '"' for one in HOSTILE]
    rows += [f"{id},{id},f,20{at:02}-01-01,,,{id}" for at, id in enumerate(quoted)]
    address = site.drop("../<script>.csv", "\n".join(rows).encode())
    look = site.page(address)
    site.post(f"{address}/columns", anyway="1")
    page = site.take(address)
    pages = [look, page, site.page("/animals"), site.page("/history"), site.page("/")]
    for one in HOSTILE:
        with site.desk.opened() as book:
            assert book
            known = book.society_records[one]
        pages.append(site.page(f"/animal/{known.registration_number}"))
        assert one in shown(pages[-1])
        certificate = site.get(f"/animal/{known.registration_number}/certificate").get_data(as_text=True)
        pages.append(certificate)
        found = site.client.get("/animals", query_string={"words": one, "owner": one}, headers={"Host": HOST})
        assert found.status_code == 200
        pages.append(found.get_data(as_text=True))
        search = site.client.get("/search", query_string={"words": one}, headers={"Host": HOST})
        assert [animal["id"] for animal in search.get_json() or []] == [one]
    for text in pages:
        marks = Marks()
        marks.feed(text)
        assert not marks.acting
        assert "<script>alert" not in text
    assert not list(site.desk.folder.parent.glob("*script*"))
    assert harmless("../a\u202e\nb\x00\x1b.csv") == "ab.csv"
    # a very long one is cut at once
    assert harmless("ä" * 800_000 + ".xlsx") == "ä" * 57 + ".xlsx" and harmless("a" * 800_000 + ".x" * 9)[-2:] == ".x"


@pytest.mark.parametrize(
    "address",
    ["/animal/../../etc/passwd", "/animal/%2e%2e%2f", "/static/../app.py", "/static/%2e%2e/app.py", "/sheet/..%2f..",
     "/animal/' OR 1=1 --", "/history/99999999999999999999", "/answer/1",
     f"/history/{'1' * 5000}", f"/answer/{'1' * 5000}", f"/history/{'1' * 5000}/undo", "/file/nothing",
     "/language/xx?to=//evil.example"],
)  # fmt: skip
def test_addresses(site: Site, address: str) -> None:
    """No address reaches a file or a fault, and no page tells paths or traces."""
    answer = site.get(address)
    text = answer.get_data(as_text=True)
    assert answer.status_code in (302, 308, 404), answer.status
    assert "evil" not in answer.headers.get("Location", "")
    assert "Traceback" not in text and str(site.desk.folder.parent) not in text


@pytest.mark.parametrize("to", ["//evil.example", "/\\evil.example", "https://evil.example", "/\t/evil.example", ""])
def test_here(to: str) -> None:
    """What a browser takes for another server's address isn't led to."""
    assert not is_safe_redirect(to) and is_safe_redirect("/animals?words=mill")


def test_faults(site: Site, monkeypatch: pytest.MonkeyPatch) -> None:
    """A fault of the desk itself is told without what it was."""
    monkeypatch.setattr("gudokeyi.web.routes.history.last_that_changed", lambda connection: 1 / 0)
    answer = site.get("/history")
    assert answer.status_code == 500
    assert (
        "A fault of the desk itself: nothing is lost, and the window in which the desk was opened tells what it was."
        in shown(answer.get_data(as_text=True))
    )
    assert "division" not in answer.get_data(as_text=True)


def test_mistakes_without_paths(site: Site) -> None:
    """A mistake is told without the machine's paths."""
    page = site.page("/matings?dam=nobody")
    assert "the book has no animal 'nobody'" in shown(page)
    assert str(site.desk.folder) not in page
