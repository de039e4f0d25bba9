"""Rows that are read together, a column at a time: they say what each says that is read by itself."""
from __future__ import annotations

import csv
import dataclasses
import io
import pathlib
import random
from typing import Any

import pytest

from front_desk.society_lists import DOGS, GOATS, HORSES, Style, with_planted
from gudokeyi.domain.findings import Report
from gudokeyi.domain.kinds import Field
from gudokeyi.ingest.animals import SheetAnimal
from gudokeyi.ingest.columns import find_columns
from gudokeyi.ingest.files import GivenFile
from gudokeyi.ingest.plain_rows import with_words
from gudokeyi.ingest.sheet_animals import Rows
from gudokeyi.ingest.sheets import Sheet, read_sheet
from gudokeyi.ingest.texts import plain
from gudokeyi.ingest.titles import known_titles
from gudokeyi.ingest.unknown_parents import UnknownParents
from gudokeyi.services.sheet_reading import copied

# cells that people write instead of others
ODD = (
    "", "?", "verkauft an Huber", "verkauft an Meier Hans", "#REF!", "Total", "Summe 12", "MÃ¼ller", "x" * 70,
    "y" * 130, "31.12.2030", "2020-02-30", "12/31/2001", "01.02.03", "2001-02-03", "1850-01-01", "ja", "nein",
    "kastriert", "=A1", "unbekannt", "unbekannt (Weide 2)", "-", "0", "2015", "05.2015", "verkauft 3.4.2019", "tot",
    "lebt", "m", "w", "+1",
)  # fmt: skip
WORDS = ("Total", "unbekannt", "Chäspi", "m", "2015")
# so many sheets of each style
SHEETS = 6


def drawn_sheet(style: Style, draw: random.Random) -> Sheet:
    """A sheet with some odd cells, rows that are there twice, that end early, or that go on behind the titles."""
    rows = [[*style.titles], *(row[:] for row in with_planted(style).rows)]
    for _ in range(draw.choice((0, 5, 40))):
        row = draw.choice(rows[1:])
        row[draw.randrange(len(row))] = draw.choice(ODD)
    for _ in range(draw.choice((0, 4))):
        rows.insert(draw.randrange(1, len(rows)), [*draw.choice(rows)])
    for _ in range(draw.choice((0, 4))):
        at = draw.randrange(1, len(rows))
        rows[at] = [*rows[at], "", draw.choice(ODD)] if draw.random() < 0.5 else rows[at][: draw.randrange(1, 9)]
    text = io.StringIO()
    csv.writer(text, delimiter=";", lineterminator="\n").writerows(rows)
    return read_sheet(GivenFile(pathlib.Path("liste.csv"), text.getvalue().encode()), known_titles)


class Read:
    """The rows of a sheet, read by some words, and what comes of them."""

    def __init__(self, sheet: Sheet, draw: random.Random, before: Rows | None = None) -> None:
        self.words = {option: draw.sample(WORDS, draw.choice((0, 1, 2))) for option in ("unknown", "known", "none")}
        self.month_first, self.sheet = draw.random() < 0.3, sheet
        self.sexes = {"kastriert": "F"} if draw.random() < 0.5 else {}
        self.rows, self.report = self.read(before)
        self.animals = self.rows.animals()

    def read(self, before: Rows | None) -> tuple[Rows, Report]:
        unknown, report = UnknownParents(self.words["unknown"], self.words["known"]), Report()
        columns = find_columns(self.sheet, {}, {}, UnknownParents()).found
        columns = {name: at for name, at in columns.items() if name != Field.STATUS}
        rows = Rows(
            self.sheet, columns, unknown, self.sexes, report, self.month_first, {}, self.words["none"], {},
            before.plain if before else None,
        )  # fmt: skip
        return rows, report

    def one_by_one(self) -> object:
        """What comes of the rows where each is read by itself."""
        rows, report = self.read(None)
        rows.plain.odd = {*range(len(self.sheet.rows))}
        return told(rows, report, rows.animals())

    def told(self) -> object:
        return told(self.rows, self.report, self.animals)


def told(rows: Rows, report: Report, animals: dict[str, SheetAnimal]) -> object:
    found = {id: dataclasses.astuple(animal) for id, animal in animals.items()}
    counts = {field: count for field, count in rows.unread.read.items() if count}
    return [*found.items()], report.entries, rows.faults, rows.notes, counts


@pytest.mark.parametrize("style", [GOATS, HORSES, DOGS])
def test_read_together(style: Style) -> None:
    """What comes of the rows is the same where each is read by itself, and most aren't."""
    plain_rows, all_rows = 0, 0
    for seed in range(SHEETS):
        draw = random.Random(f"{style.seed} {seed}")
        sheet = drawn_sheet(style, draw)
        read = Read(sheet, draw)
        assert read.told() == read.one_by_one(), (style.seed, seed)
        plain_rows, all_rows = plain_rows + len(sheet.rows) - len(read.rows.plain.odd), all_rows + len(sheet.rows)
    assert 2 * plain_rows > all_rows


@pytest.mark.parametrize("style", [GOATS, HORSES, DOGS])
def test_read_again(style: Style) -> None:
    """So it is where they are read again by other words, one after the other, and those that were read together before
    are the same animals."""
    kept = 0
    for seed in range(SHEETS):
        draw = random.Random(f"{style.seed} again {seed}")
        sheet = drawn_sheet(style, draw)
        read = Read(sheet, draw)
        for _ in range(4):
            before, read = read, Read(sheet, draw, read.rows)
            assert read.told() == read.one_by_one(), (style.seed, seed)
            kept += read.rows.plain.animals is before.rows.plain.animals
    assert kept > SHEETS


def test_words_in_texts() -> None:
    """The texts that are one of some words, whatever signs and capitals they have."""
    texts = ["Total", "TOTAL:", " t-o-t a l", "Totale", "Tötal", "", "Summe", "_summe_", "12", "Été"]
    for words in ({"total"}, {"summe", "ete"}, {"12"}, set[str]()):
        assert with_words(texts, words) == {text for text in texts if plain(text) in words}


def test_copied_animals() -> None:
    """A copy has all that an animal has; what can't be read of one can be of the other."""
    values: dict[str, Any] = {one.name: object() for one in dataclasses.fields(SheetAnimal)} | {"unread": ["sex"]}
    [copy] = copied([SheetAnimal(**values)])
    assert {name: getattr(copy, name) for name in values} == values and copy.unread is not values["unread"]
