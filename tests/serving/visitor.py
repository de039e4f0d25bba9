"""A desk for several people without a server, and browsers without windows that ask it."""
from __future__ import annotations

import io
import os
import pathlib
from collections.abc import Iterator
from contextlib import contextmanager
from dataclasses import dataclass

from flask import Flask
from werkzeug.test import TestResponse

from web.prepared_workers import prepared_workers
from web.site import HOST, Site
from gudokeyi.domain.people import AccountRole
from gudokeyi.services.book_session import BookSession
from gudokeyi.store.accounts import Accounts
from gudokeyi.web.addresses import ServerAddress
from gudokeyi.web.app import web_app
from gudokeyi.web.files import Uploads
from gudokeyi.web.forms import new_form
from gudokeyi.web.logins import AccessLog, AccountLogins, Throttle
from gudokeyi.web.served_book import ServedBook
from gudokeyi.web.workers import Exports, Jobs

# the name of an account, and its role
PEOPLE = {
    "Ines": AccountRole.INSPECTOR,
    "Carl": AccountRole.CLERK,
    "Clara": AccountRole.CLERK,
    "Kim": AccountRole.KEEPER,
}
WORD = "correct horse battery"


class Clock:
    """A time that goes on as a test wishes."""

    def __init__(self) -> None:
        self.now = 1_700_000_000.0

    def __call__(self) -> float:
        return self.now


@dataclass
class Served:
    """The application, and what it is made of."""

    desk: ServedBook
    app: Flask
    gate: AccountLogins
    clock: Clock
    log: io.StringIO


class Visitor(Site):
    """A browser at an address, in which somebody logs in."""

    def __init__(self, served: Served, name: str = "", address: str = "127.0.0.1") -> None:
        self.desk, self.app = served.desk, served.app
        self.client = self.app.test_client()
        self.client.environ_base["REMOTE_ADDR"] = address
        if name:
            assert self.log_in(name).status_code == 302

    def token(self) -> str:
        page = self.get("/login").get_data(as_text=True)
        return page.partition('name="csrf_token" value="')[2].partition('"')[0]

    def log_in(self, name: str, password: str = WORD, **fields: str) -> TestResponse:
        return self.post("/login", name=name, password=password, **fields)

    def is_in(self) -> bool:
        return self.get("/").status_code == 200

    def sends(self, path: str, headers: dict[str, str] | None = None, **fields: str) -> TestResponse:
        """A form with some headers."""
        data = {"csrf_token": self.token(), "form": new_form(), **fields}
        return self.client.post(path, data=data, headers={"Host": HOST} | (headers or {}))


@contextmanager
def served_of(folder: pathlib.Path, program: str, room: pathlib.Path, way: ServerAddress) -> Iterator[Served]:
    os.environ["HERDBOOK"] = program
    room.mkdir(mode=0o700)
    clock, log = Clock(), io.StringIO()
    gate = AccountLogins(Accounts(folder, clock), way, Throttle(clock), AccessLog(log))
    desk = ServedBook(folder, BookSession(), False, Uploads(room), Jobs(), Exports(folder))
    try:
        with prepared_workers():
            yield Served(desk, web_app(desk, gate), gate, clock, log)
    finally:
        desk.jobs.end()
        desk.exports.end()
        desk.program.close()
        desk.held.end()


def with_accounts(folder: pathlib.Path) -> None:
    """Gives the people of the tests accounts, a keeper first."""
    accounts = Accounts(folder)
    for name, role in reversed(PEOPLE.items()):
        accounts.add(name, role, WORD, WORD)
