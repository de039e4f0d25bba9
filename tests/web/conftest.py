"""Desks of books that are taken already, asked without a browser."""
from __future__ import annotations

import pathlib
from collections.abc import Iterator

import pytest

from web.screen import chromium
from web.server import none_left
from web.site import Site, site_of
from front_desk.conftest import desk, new_desk, society_desk, taken_society, today
from front_desk.desk import Desk

__all__ = ["chromium", "desk", "new_desk", "none_left", "society_desk", "taken_society", "today"]


@pytest.fixture
def site(society_desk: Desk, program: str, tmp_path: pathlib.Path) -> Iterator[Site]:
    """The desk of the society's book, `examples/society.csv`."""
    with site_of(society_desk.room / "book", program, tmp_path / "dropped") as found:
        yield found


@pytest.fixture
def empty_site(desk: Desk, program: str, tmp_path: pathlib.Path) -> Iterator[Site]:
    """The desk of a folder without a book."""
    with site_of(desk.room / "book", program, tmp_path / "dropped") as found:
        yield found


@pytest.fixture
def reading_site(society_desk: Desk, program: str, tmp_path: pathlib.Path) -> Iterator[Site]:
    """The desk of the society's book that is only to be read."""
    with site_of(society_desk.room / "book", program, tmp_path / "dropped", read_only=True) as found:
        yield found
