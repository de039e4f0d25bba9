"""Looks at one sheet again and again, which keep what the look before found: whatever button was pressed before, each
tells what a look tells that begins with nothing."""
from __future__ import annotations

import dataclasses
import pathlib
from collections.abc import Mapping

import pytest

from front_desk.desk import Desk
from front_desk.society_lists import GOATS, next_year, with_planted
from gudokeyi.domain.findings import Entry, Finding
from gudokeyi.services.book_program import BookProgram
from gudokeyi.services.imports import BookAfter, read_file
from gudokeyi.services.opening import to_look_at
from gudokeyi.services.sheet_imports import import_sheet_into
from gudokeyi.services.sheet_reading import LastReading
from gudokeyi.web.sheet_work import Chosen, changes_of, import_options_of

# what somebody presses, one after the other: the choices of the page's form, and the titles for fields
PRESSED: list[tuple[dict[str, str], dict[str, str]]] = [
    ({"drop_gone": "1"}, {}),
    ({"youngest": "800"}, {}),
    ({"apart": "400"}, {}),
    ({"unknown": "CH 120.1100.0, CH 120.1101.1"}, {}),
    ({"known": "fremd"}, {}),
    ({"sexes": "Kastrat=f"}, {}),
    ({"no_animal": "CH 120.1031.1"}, {}),
    ({"new_tag": "CH 120.1150.0=CH 120.9001.1"}, {}),
    ({"owner": "Meier Hans=Hof Meier"}, {}),
    ({"day": "2025-06-01"}, {}),
    ({"month_first": "1"}, {}),
    ({}, {"name": ""}),
    ({}, {"sex": ""}),
    ({}, {"sire": ""}),
    ({}, {"owner": ""}),
    ({}, {"exit": ""}),
]


@dataclasses.dataclass
class Told:
    """What a look tells."""

    entries: list[Entry]
    obstacles: tuple[Finding, ...]
    after: BookAfter | None
    changes: Mapping[str, bytes]


def told_of(folder: pathlib.Path, path: pathlib.Path, chosen: Chosen, last: LastReading) -> Told:
    """What a look tells that knows what the last ones kept."""
    program = BookProgram()
    options = dataclasses.replace(import_options_of(folder, chosen), preview=True)
    with to_look_at(folder, program) as book:
        outcome, _ = import_sheet_into(book, read_file(path), options, program, last=last)
    return Told(outcome.report.in_order(), outcome.obstacles, outcome.after, changes_of(outcome, chosen))


def test_looks_keep_what_they_found(desk: Desk, monkeypatch: pytest.MonkeyPatch) -> None:
    """Each button is pressed behind a look without any."""
    monkeypatch.setenv("HERDBOOK", desk.program)
    listed = with_planted(GOATS)
    desk.take(listed.text(), "--anyway")
    path = pathlib.Path(desk.room, desk.write("next.csv", next_year(listed).text()))
    last, folder = LastReading(), desk.room / "book"
    for options, columns in PRESSED:
        for chosen in (Chosen(), Chosen.of(columns, options)):
            assert told_of(folder, path, chosen, last) == told_of(folder, path, chosen, LastReading()), chosen
