"""Desks for several people of a book that is taken already."""
from __future__ import annotations

import pathlib
from collections.abc import Iterator

import pytest

from web.screen import chromium
from web.server import none_left
from web.site import HOST
from front_desk.conftest import desk, new_desk, society_desk, taken_society
from front_desk.desk import Desk
from gudokeyi.store import accounts as passwords
from gudokeyi.web.addresses import ServerAddress
from serving.visitor import Served, Visitor, served_of, with_accounts

__all__ = ["chromium", "desk", "new_desk", "none_left", "society_desk", "taken_society"]


@pytest.fixture
def cheap(monkeypatch: pytest.MonkeyPatch) -> None:
    """Passwords that are computed quickly, since there are many."""
    monkeypatch.setattr(passwords, "COST", (16, 8, 1))


@pytest.fixture
def served(cheap: None, society_desk: Desk, program: str, tmp_path: pathlib.Path) -> Iterator[Served]:
    """The desk of the society's book, with accounts."""
    folder = society_desk.room / "book"
    with_accounts(folder)
    with served_of(folder, program, tmp_path / "dropped", ServerAddress((HOST,))) as found:
        yield found


@pytest.fixture
def proxied(cheap: None, society_desk: Desk, program: str, tmp_path: pathlib.Path) -> Iterator[Served]:
    """The same behind a proxy."""
    folder = society_desk.room / "book"
    with_accounts(folder)
    with served_of(folder, program, tmp_path / "dropped", ServerAddress(("herd.example",), "10.0.0.2")) as found:
        yield found


@pytest.fixture
def clerk(served: Served) -> Visitor:
    return Visitor(served, "Carl")
