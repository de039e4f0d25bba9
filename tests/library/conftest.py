"""A book that a program opens, with sixteen animals of two generations and more."""
from __future__ import annotations

import pathlib

import pytest

import gudokeyi
from front_desk.whole import FLOCK


@pytest.fixture
def empty(program: str, tmp_path: pathlib.Path, monkeypatch: pytest.MonkeyPatch) -> gudokeyi.Book:
    """A book in a folder where there is none yet."""
    monkeypatch.setenv("HERDBOOK", program)
    return gudokeyi.Book.open(tmp_path / "book")


@pytest.fixture
def sheet(tmp_path: pathlib.Path) -> pathlib.Path:
    path = tmp_path / "sheet.csv"
    path.write_text(FLOCK, encoding="utf-8")
    return path


@pytest.fixture
def book(empty: gudokeyi.Book, sheet: pathlib.Path) -> gudokeyi.Book:
    """The same, with the flock."""
    empty.import_sheet(sheet)
    return empty
