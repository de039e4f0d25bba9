"""A browser without windows: it asks the application itself, and keeps cookies and what a form has."""
from __future__ import annotations

import html
import io
import os
import pathlib
import re
import signal
import time
from collections.abc import Iterator
from contextlib import contextmanager

from flask import Flask
from werkzeug.test import TestResponse

from gudokeyi.domain.changes import NO_MARK
from gudokeyi.services.book_session import BookSession
from gudokeyi.services.cache import mark_of
from gudokeyi.web.access import LinkLogins
from gudokeyi.web.app import web_app
from gudokeyi.web.files import Uploads
from gudokeyi.web.forms import mark_text, new_form
from gudokeyi.web.served_book import ServedBook
from gudokeyi.web.workers import Exports, Jobs
from web.prepared_workers import prepared_workers

SECRET, PORT = "a secret", 4711
HOST = f"127.0.0.1:{PORT}"
# so long a page may wait for work beside
SECONDS = 120


class Site:
    """The application with a browser that came by the link."""

    def __init__(self, desk: ServedBook, app: Flask, secret: str = SECRET) -> None:
        self.desk, self.app = desk, app
        self.client = app.test_client()
        self.get(f"/enter/{secret}")

    def get(self, path: str, headers: dict[str, str] | None = None) -> TestResponse:
        return self.client.get(path, headers={"Host": HOST} | (headers or {}))

    def page(self, path: str) -> str:
        """A page that is there; work beside is waited for, and links lead on."""
        until = time.monotonic() + SECONDS
        while time.monotonic() < until:
            answer = self.get(path)
            if answer.status_code in (302, 303):
                path = answer.headers["Location"]
                continue
            text = answer.get_data(as_text=True)
            assert answer.status_code in (200, 400), f"{path}: {answer.status}: {shown(text)}"
            if "http-equiv" not in text:
                return text
            time.sleep(0.1)
        raise AssertionError(f"{path} isn't done after {SECONDS} seconds")

    def token(self) -> str:
        found = re.search(r'name="csrf_token" value="([^"]+)"', self.get("/settings").get_data(as_text=True))
        found = found or re.search(r'name="csrf_token" value="([^"]+)"', self.get("/sheet").get_data(as_text=True))
        assert found
        return found[1]

    def post(self, path: str, **fields: str) -> TestResponse:
        """Sends a form with the tokens that its page has, another `form` each time but where one is named."""
        data = {"csrf_token": self.token(), "form": new_form(), **fields}
        return self.client.post(path, data=data, headers={"Host": HOST})

    def drop(self, name: str, text: bytes) -> str:
        """Drops a sheet, and answers the address of its page."""
        data = {"csrf_token": self.token(), "sheet": (io.BytesIO(text), name)}
        answer = self.client.post("/sheet", data=data, headers={"Host": HOST})
        assert answer.status_code == 302, shown(answer.get_data(as_text=True))
        return str(answer.headers["Location"])

    def take(self, address: str) -> str:
        """Takes a sheet as its page has it, and answers the page behind that."""
        return self.page(self.post(f"{address}/take", **looked_in(self.page(address))).headers["Location"])

    def looked(self) -> str:
        """What a form has of the book as it is now."""
        with self.desk.opened() as book:
            return mark_text(mark_of(book) if book else NO_MARK)

    def drop_backup(self, copy: bytes) -> str:
        """Drops a backup, and answers the address of its page."""
        data = {"csrf_token": self.token(), "backup": (io.BytesIO(copy), "copy.sqlite")}
        return str(self.client.post("/restore", data=data, headers={"Host": HOST}).headers["Location"])

    def restore(self, copy: bytes) -> str:
        """Restores a backup as its page has it, and answers the page behind that."""
        address = self.drop_backup(copy)
        return self.page(self.post(address, **looked_in(self.page(address))).headers["Location"])


def form_in(page: str) -> str:
    """The token of a page's form that changes the book."""
    found = re.search(r'name="form" value="([^"]+)"', page)
    assert found
    return found[1]


def looked_in(page: str) -> dict[str, str]:
    """What a page's form has of the book that the page shows."""
    found = dict(re.findall(r'name="(looked|reading)" value="([^"]*)"', page))
    assert found, shown(page)
    return found


def shown(text: str) -> str:
    """What a page says, without its menu."""
    content = text.partition('<main id="content"')[2].partition("</main>")[0] or text
    return html.unescape(re.sub(r"\s+", " ", re.sub(r"<[^>]*>", " ", content))).strip()


@contextmanager
def site_of(
    folder: pathlib.Path, program: str, room: pathlib.Path, read_only: bool = False, secret: str = SECRET
) -> Iterator[Site]:
    os.environ["HERDBOOK"] = program
    room.mkdir(mode=0o700)
    desk = ServedBook(folder, BookSession(), read_only, Uploads(room), Jobs(), Exports(folder))
    try:
        with prepared_workers():
            yield Site(desk, web_app(desk, LinkLogins(secret, PORT, read_only)), secret)
    finally:
        # a change of this process may have it ignored, and whoever is started later would ignore it too
        signal.signal(signal.SIGINT, signal.default_int_handler)
        desk.jobs.end()
        desk.exports.end()
        desk.program.close()
        desk.held.end()
