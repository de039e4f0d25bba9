"""Each kind of finding is stored as texts and read again as it was."""
from __future__ import annotations

import dataclasses
import datetime
import enum
import importlib
import typing
from typing import Any

import pytest

from gudokeyi.domain.changes import StoredFinding
from gudokeyi.domain.findings import KINDS, Entry, Finding
from gudokeyi.ingest.findings.cells import LikeASum
from gudokeyi.ingest.findings.same_ids import IdUsedAgain
from gudokeyi.reconcile.stored_findings import entry_of, modules_of_findings, told_of

for module in modules_of_findings():
    importlib.import_module(module)
STORED = [kind for kind in KINDS.values() if dataclasses.is_dataclass(kind)]
TEXT = "Müller; 'x=y', \"3.14\""


def value_of(kind: Any, is_full: bool) -> Any:
    """A value of a type: where it is full nothing of it is missing, else all that can be missing or empty is."""
    if dataclasses.is_dataclass(kind):
        hints = typing.get_type_hints(kind)
        return kind(*(value_of(hints[one.name], is_full) for one in dataclasses.fields(kind)))
    parts = typing.get_args(kind)
    if typing.get_origin(kind) is tuple:
        repeated = [parts[0]] * (2 if is_full else 0) if parts[-1] is Ellipsis else parts
        return tuple(value_of(part, is_full) for part in repeated)
    if parts:
        return value_of(parts[0], is_full) if is_full else None
    if issubclass(kind, enum.Enum):
        return list(kind)[-1 if is_full else 0]
    values: dict[Any, tuple[Any, Any]] = {
        str: (TEXT, ""),
        int: (1234, 0),
        bool: (True, False),
        datetime.date: (datetime.date(2012, 3, 4),) * 2,
    }
    return values[kind][0 if is_full else 1]


@pytest.mark.parametrize("is_full", [True, False])
@pytest.mark.parametrize("kind", STORED, ids=[kind.__name__ for kind in STORED])
def test_round_trip(kind: type[Finding], is_full: bool) -> None:
    finding = value_of(kind, is_full)
    entry = Entry(7, "DE 8", finding)
    told = told_of(entry)
    assert entry_of(told) == entry and told.part == (kind.part or "")


def test_more_than_ten_keep_their_order() -> None:
    day, lines = datetime.date(2012, 3, 4), tuple(range(40, 10, -1))
    entry = Entry(7, "DE 8", IdUsedAgain(day, "Eva", day, "Ida", lines))
    assert entry_of(told_of(entry)) == entry


def test_finding_of_an_earlier_version() -> None:
    """A text that a finding has got since is empty where an earlier version stored it."""
    assert entry_of(StoredFinding("like a sum", "", 3, "Summe", ())) == Entry(3, "Summe", LikeASum(""))
    assert LikeASum("").suggestions() == ()
