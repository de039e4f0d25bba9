"""The requests of other programs that were filed, each with what was asked and answered: asked again it isn't filed
again."""
from __future__ import annotations

import sqlite3
from collections.abc import Iterable
from typing import NamedTuple


class KeptRequest(NamedTuple):
    """A request by its name, and as JSON what was asked for and what was answered."""

    request: str
    command: str
    answer: str


def kept_request(connection: sqlite3.Connection, request: str) -> KeptRequest | None:
    """None where nothing was filed by it yet."""
    asked = "SELECT request, command, answer FROM request WHERE request = ?"
    row = connection.execute(asked, (request,)).fetchone()
    return KeptRequest(*row) if row else None


def keep_requests(connection: sqlite3.Connection, change: int, some: Iterable[KeptRequest]) -> None:
    rows = ((one.request, change, one.command, one.answer) for one in some)
    connection.executemany("INSERT INTO request (request, change, command, answer) VALUES (?, ?, ?, ?)", rows)
