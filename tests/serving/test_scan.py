"""All routes asked with hostile names, ids, files, fields and headers, by nobody and by each role: nothing is a fault,
acts in a page, reaches a file, or is told that nobody should know."""
from __future__ import annotations

import io
import pathlib
import re
import tempfile
from collections.abc import Iterator

import pytest
from werkzeug.routing import Rule
from werkzeug.test import TestResponse

from web.site import HOST, shown
from web.test_desk_security import Marks, address_of
from front_desk.desk import TOP
from gudokeyi.web.forms import new_form
from serving.visitor import WORD, Served, Visitor

SECRET = "one secret that is guessed"
HOSTILE = {
    "markup": '"><script>alert(1)</script><img src=x onerror=alert(1)>{{ 191 * 7 }}${191*7}',
    "path": "../../../../etc/passwd\0'); DROP TABLE animal; --",
    "lines": "\u202e\ufffd\u0600\r\nX-Evil: 1\r\n\r\n<script>alert(1)</script>",
    "address": f"//evil.example/\\@javascript:alert(1){'9' * 300}",
}
HEADERS = ("User-Agent", "Referer", "Accept-Language", "X-Forwarded-For", "X-Forwarded-Host", "X-Original-URL", "Range",
           "If-None-Match", "X-HTTP-Method-Override", "Authorization")  # fmt: skip
# the names of fields, as the pages' templates have them, and those that one may think of
FIELD = re.compile(r'name="([\w -]+)"|field\("([\w -]+)"|\.get\("(\w+)"')
MORE_FIELDS = (
    "kept to",
    "kept-id",
    "kept-csrf_token",
    "column-id",
    "understood-id",
    "option",
    "word",
    "page",
    "secret",
)
TEMPLATES = sorted((TOP / "src/gudokeyi/web/templates").glob("*.html"))
# what a page or the log may not have of the machine and the program
TOLD = (
    "Traceback",
    str(TOP),
    f"{tempfile.gettempdir()}/",
    "site-packages",
    "dist-packages",
    "sqlite3.",
    "root:x:0",
    "werkzeug",
    "jinja2",
)


def fields() -> set[str]:
    texts = (path.read_text(encoding="utf-8") for path in TEMPLATES)
    found = {name for text in texts for names in FIELD.findall(text) for name in names if name}
    return found.union(MORE_FIELDS) - {"csrf_token", "form"}


def rules_of(served: Served) -> Iterator[tuple[Rule, str]]:
    for rule in served.app.url_map.iter_rules():
        for method in sorted((rule.methods or set()) - {"HEAD", "OPTIONS"}):
            yield rule, method


def addresses_of(rule: Rule, hostile: str) -> list[str]:
    """A route's address as it is, and with something hostile in place of each part that varies."""
    hostile_one = re.sub(r"<[^>]+>", lambda _: hostile.replace("?", "").replace("#", ""), rule.rule)
    return [address_of(rule)] + [hostile_one] * ("<" in rule.rule)


class Scanner(Visitor):
    """Somebody who asks for all of it; whoever is logged out logs in again."""

    def __init__(self, served: Served, name: str) -> None:
        super().__init__(served, name)
        self.name, self.served, self.csrf = name, served, self.token()

    def asks(self, method: str, address: str, hostile: str) -> TestResponse:
        headers = {"Host": HOST} | {name: re.sub(r"[\r\n\0]", " ", hostile) for name in HEADERS}
        headers = {name: text.encode("utf-8", "replace").decode("latin-1") for name, text in headers.items()}
        given = {name: hostile for name in fields()}
        if method == "GET":
            return self.client.get(address, query_string=given, headers=headers)
        if address in ("/logout", "/password"):
            # these end what is asked for next
            given |= {"new": SECRET}
        data = given | {"csrf_token": self.csrf, "form": new_form(), "password": SECRET, "again": SECRET}
        for name in "sheet", "backup":
            data[name] = (io.BytesIO(b"id,name\n" + hostile.encode("utf-8", "replace")), f"{hostile}.csv")  # type: ignore[assignment]
        answer = self.client.post(address, data=data, headers=headers)
        if self.name and address == "/logout":
            self.log_in(self.name)
            self.csrf = self.token()
        return answer


@pytest.mark.parametrize("kind", HOSTILE)
@pytest.mark.parametrize("name", ["", "Ines", "Carl", "Kim"])
def test_scan(served: Served, name: str, kind: str) -> None:
    hostile, scanner = HOSTILE[kind], Scanner(served, name)
    room = str(served.desk.folder.parent)
    for rule, method in rules_of(served):
        for address in addresses_of(rule, hostile):
            answer = scanner.asks(method, address, hostile)
            text = answer.get_data().decode("utf-8", "replace")
            assert 200 <= answer.status_code < 500, (rule, method)
            # a backup has the whole history, also where sheets lay that a terminal took
            told = [] if rule.endpoint == "history.backup" else [one for one in (*TOLD, room) if one in text]
            assert not told and WORD not in text and SECRET not in text, (rule, method, told)
            assert "X-Evil" not in answer.headers and "evil" not in answer.headers.get("Location", "").partition("?")[0]
            if answer.mimetype == "text/html":
                marks = Marks()
                marks.feed(text)
                assert not marks.acting and "<script>alert" not in text and "1337" not in text, (rule, method)
    log = served.log.getvalue()
    assert scanner.csrf not in log and not any(one in log for one in (*TOLD, room, WORD, SECRET, hostile, "alert(1)"))
    assert all(re.match(r"\d{4}-\d\d-\d\dT[\d:]+Z \S+ \S+ ", line) for line in log.splitlines())


@pytest.mark.parametrize(
    "address", ["/file/exit id", "/file/birth sire", "/file/parents dam", "/matings dam", "/matings.csv dam"]
)
def test_words_of_files(served: Served, clerk: Visitor, tmp_path: pathlib.Path, address: str) -> None:
    """A word that names a file is answered as any other word that names no animal, however long it is."""
    there, (path, name) = tmp_path / "there", address.split()
    there.touch()
    told = set()
    # an address has at most 4 KB behind its question mark
    longest = 5000 if "file" in path else 4000
    for word in str(there), f"{tmp_path}/where", f"/{'9' * longest}":
        given = {"id": "GK-17/472c", "sex": "F", "day": "2024-05-01"} | {name: word}
        answer = (
            clerk.post(path, **given)
            if "file" in path
            else clerk.client.get(path, query_string=given, headers={"Host": HOST})
        )
        assert answer.status_code in (200, 400)
        told.add(shown(answer.get_data(as_text=True)).replace(word, "the word"))
    assert len(told) == 1 and "the word" in told.pop()
