"""What is found of the society's own columns in a sheet: each kind as data, and in words."""
from __future__ import annotations

import enum
from collections.abc import Hashable, Mapping
from dataclasses import dataclass
from typing import ClassVar

from gudokeyi.domain.findings import (
    Finding, LeftOut, Part, PlausibilityWarning, Severity, Suggestion, What, kept_as,
)  # fmt: skip
from gudokeyi.domain.messages import Worded
from gudokeyi.domain.own_columns import OwnKind
from gudokeyi.domain.wording import Counted, Text
from gudokeyi.ingest.findings.columns import SheetFinding


class OwnCells(Finding):
    """So many cells of a column of which a screen tells by a word. `what_goes` where what the column had isn't there
    any more, or its cells aren't read: these are told first."""

    title: str
    word: ClassVar[str]
    what_goes: ClassVar[bool] = False

    def cells(self) -> int:
        raise NotImplementedError


@dataclass(frozen=True, slots=True)
class OwnColumnRead(OwnCells):
    """Values where there were none; in books of earlier versions also others."""

    title: str
    kind: OwnKind
    values_changed: int

    what = What.CHANGED
    word = "new"
    code = "own column read"
    message = Counted(
        "the column '{title}' ({kind}) has {values_changed} new value",
        "the column '{title}' ({kind}) has {values_changed} new values",
        "values_changed",
    )

    def cells(self) -> int:
        return self.values_changed


@dataclass(frozen=True, slots=True)
class OwnValuesChanged(OwnCells):
    """Other values in place of those that were there."""

    title: str
    kind: OwnKind
    values_changed: int

    what = What.CHANGED
    word = "changed"
    code = "own values changed"
    message = Counted(
        "the column '{title}' ({kind}) has {values_changed} changed value",
        "the column '{title}' ({kind}) has {values_changed} changed values",
        "values_changed",
    )

    def cells(self) -> int:
        return self.values_changed


@dataclass(frozen=True, slots=True)
class OwnValuesEmptied(OwnCells):
    """Values that were there until now, and whose cells are empty."""

    title: str
    kind: OwnKind
    values_emptied: int

    what = What.CHANGED
    word = "emptied"
    what_goes = True
    code = "own values emptied"
    message = Counted(
        "the column '{title}' ({kind}) has {values_emptied} emptied value",
        "the column '{title}' ({kind}) has {values_emptied} emptied values",
        "values_emptied",
    )

    def cells(self) -> int:
        return self.values_emptied


@dataclass(frozen=True, slots=True)
class OwnCellUnread(LeftOut):
    """A cell can't be a value of its column; the value stays as it was. `OwnCellsUnread` sums up those of a column."""

    title: str
    text: str
    kind: OwnKind

    part = Part.CELL
    code = "own cell unread"
    message = Text("its cell in '{title}' is left out: '{text}' can't be read as {kind}")


class OwnAdvice(Worded):
    """What to write where cells of a column can't be read."""

    TEXT = "text"
    NUMBER = "number"
    DAY = "day"
    YES_OR_NO = "yes-no"
    CHOICE = "choice"

    def words(self) -> str:
        return OWN_ADVICE[self]


OWN_ADVICE: dict[enum.Enum, str] = {
    OwnAdvice.TEXT: "write shorter texts, without invisible characters",
    OwnAdvice.NUMBER: "write numbers alone, as 12.5, or keep the column as text",
    OwnAdvice.DAY: "write days as 2001-03-01 or 01.03.2001, or keep the column as text",
    OwnAdvice.YES_OR_NO: "write yes or no, or keep the column as text",
    OwnAdvice.CHOICE: "write one of the column's choices, or keep it as text",
}


@dataclass(frozen=True, slots=True)
class OwnCellsUnread(OwnCells, PlausibilityWarning):
    """Of `said` cells of a column that say something so many can't be its values: the first of them."""

    title: str
    kind: OwnKind
    count: int
    said: int
    line: int
    text: str

    word = "unread"
    what_goes = True
    code = "own cells unread"
    message = Counted(
        "{count} of {said} cells of the column '{title}' ({kind}) can't be read, in line {line}: '{text}'; of this "
        "animal the book keeps what it has: {advice}",
        "{count} of {said} cells of the column '{title}' ({kind}) can't be read, the first in line {line}: '{text}'; "
        "of these animals the book keeps what it has: {advice}",
        "count",
    )

    def values(self) -> Mapping[str, object]:
        return {"advice": OwnAdvice(self.kind.value)}

    def suggestions(self) -> tuple[Suggestion, ...]:
        if self.kind is OwnKind.TEXT:
            return ()
        return (Suggestion(f"if '{self.title}' has texts", (kept_as(self.title, OwnKind.TEXT),)),)

    def theme(self) -> Hashable:
        return self.title

    def cells(self) -> int:
        return self.count


@dataclass(frozen=True, slots=True)
class OwnNumbersCut(LeftOut, OwnCells):
    """Long numbers that the spreadsheet has cut, as `2,76E+14`, how many and the first of them; the values stay as they
    were."""

    title: str
    count: int
    line: int
    text: str

    part = Part.CELL
    word = "cut"
    what_goes = True
    code = "own numbers cut"
    message = Counted(
        "{count} cell of the column '{title}' is left out, in line {line}: '{text}' is a long number that the "
        "spreadsheet has cut; the book keeps what it has: give the column the format text, or number without decimals, "
        "save the sheet again, and take that",
        "{count} cells of the column '{title}' are left out, the first in line {line}: '{text}' is a long number that "
        "the spreadsheet has cut; the book keeps what it has: give the column the format text, or number without "
        "decimals, save the sheet again, and take that",
        "count",
    )

    def times(self) -> int:
        return self.count

    def cells(self) -> int:
        return self.count


@dataclass(frozen=True, slots=True)
class OwnDaysAmongTexts(PlausibilityWarning):
    """Days in a column of texts, how many and the first of them: a spreadsheet makes days of some texts."""

    title: str
    count: int
    line: int
    text: str

    code = "own days among texts"
    message = Counted(
        "{count} cell of the column '{title}' reads like a day: '{text}' in line {line}; a spreadsheet makes a day of "
        "a text such as 5/4: if it is none, give the column the format text, and type it again",
        "{count} cells of the column '{title}' read like days, the first '{text}' in line {line}; a spreadsheet makes "
        "days of texts such as 5/4: if these are none, give the column the format text, and type them again",
        "count",
    )


@dataclass(frozen=True, slots=True)
class BreedersNotKept(SheetFinding):
    """A column of breeders that isn't kept, with so many others than the book finds in place of them."""

    title: str
    count: int
    line: int
    text: str

    severity = Severity.FACTS
    code = "breeders not kept"
    message = Counted(
        "the column '{title}' isn't kept, with '{text}' in line {line}: certificates name the owner of the dam at the "
        "birth as the breeder",
        "the column '{title}' isn't kept, with {count} other breeders, the first '{text}' in line {line}: "
        "certificates name the owner of the dam at the birth as the breeder",
        "count",
    )

    def suggestions(self) -> tuple[Suggestion, ...]:
        return (Suggestion("to have the breeders of the list", (kept_as(self.title, OwnKind.TEXT),)),)
