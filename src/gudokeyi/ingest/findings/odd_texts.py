"""What is found of names, ids and days that say something besides, or stand for nothing: each kind as data, and in
words."""
from __future__ import annotations

from collections.abc import Mapping
from dataclasses import dataclass

from gudokeyi.domain.findings import PlausibilityWarning, Severity
from gudokeyi.domain.wording import AllOf, Counted, OptionalPart, Text
from gudokeyi.ingest.findings.cells import OddId
from gudokeyi.ingest.findings.columns import SheetFinding
from gudokeyi.ingest.findings.files import lines_told
from gudokeyi.ingest.findings.sheets import TextCount

# so many lines of rows are told
MOST_LINES = 9


@dataclass(frozen=True, slots=True)
class DeathInBirth(PlausibilityWarning):
    """The cell of a birth tells of a death, and the animal counts as living."""

    text: str

    severity = Severity.FACTS
    code = "death in birth"
    message = Text(
        "its birth '{text}' tells of a death, and it counts as living: if it has left, enter that in a column for exits"
    )


@dataclass(frozen=True, slots=True)
class BirthOfBornDead(DeathInBirth):
    """The cell of a birth says that the animal was born dead, and it counts as living."""

    code = "birth of born dead"
    message = Text(
        "its birth '{text}' tells of a death, and it counts as living: if it was born dead, write stillborn, totgeboren or "
        "mort-né into a column for exits, and here its day alone"
    )


@dataclass(frozen=True, slots=True)
class NameTellsOfExit(PlausibilityWarning):
    """A name with a sign or a word by which animals leave, of one that counts as living."""

    name: str

    code = "name tells of exit"
    message = Text(
        "its name '{name}' seems to tell of an exit, and it counts as living: if it has left, enter that in the "
        "column for exits, and here only the name"
    )


@dataclass(frozen=True, slots=True)
class IdTellsOfExit(PlausibilityWarning):
    """The same of an id, which is read without that sign or word."""

    written: str
    id: str
    is_living: bool

    code = "id tells of exit"
    message = Text("its id '{written}' seems to tell of an exit, and is taken as {id}{maybe_living}")
    parts = {
        "maybe_living": OptionalPart(
            ", which counts as living: if it has left, enter that in the column for exits, and here only the id",
            when="is_living",
        ),
    }


@dataclass(frozen=True, slots=True)
class SexTellsOfExit(SheetFinding):
    """The same of cells for the sex, which is read without that: how many, and the first."""

    title: str
    count: int
    text: str
    line: int

    code = "sex tells of exit"
    message = Counted(
        "{count} cell of the column '{title}' seems to tell of an exit besides the sex, '{text}' in line {line}, and "
        "its animal counts as living: if it has left, enter that in the column for exits, and here only the sex",
        "{count} cells of the column '{title}' seem to tell of exits besides the sexes, the first '{text}' in line "
        "{line}, and their animals count as living: if they have left, enter that in the column for exits, and here "
        "only the sexes",
        "count",
    )


@dataclass(frozen=True, slots=True)
class TwoIds(OddId):
    """An id that has several within which are written as other ids of the sheet."""

    ids: tuple[str, ...]

    code = "two ids"
    message = Text(
        "is this row one animal? Its id has {each} in it. It is taken as one: give each animal a row of its own, and "
        "write only one id in its cell"
    )

    def values(self) -> Mapping[str, object]:
        return {"each": AllOf(self.ids)}


@dataclass(frozen=True, slots=True)
class FirstDays(SheetFinding):
    """Animals that count as living, and are born on the first day that spreadsheets have."""

    count: int
    lines: tuple[int, ...]

    code = "first days"
    message = Counted(
        "{count} animal that counts as living has the birth day 1900-01-01, which stands for nothing in many lists, in "
        "line {lines}: if the day isn't known, leave its cell empty",
        "{count} animals that count as living have the birth day 1900-01-01, which stands for nothing in many lists, "
        "in the lines {lines}{maybe_more}: if the days aren't known, leave their cells empty",
        "count",
    )
    parts = {"maybe_more": OptionalPart(" and {more} more")}

    def values(self) -> Mapping[str, object]:
        return lines_told(self.lines, self.count)


@dataclass(frozen=True, slots=True)
class NoNames(SheetFinding):
    """Texts in the column of names that are none: how many, the first line, and what they are."""

    title: str
    count: int
    line: int
    said: tuple[TextCount, ...]

    code = "no names"
    message = Counted(
        "{count} cell of the column '{title}' says that there is no name, {said} in line {line}: its animal counts as "
        "one without a name; leave the cell empty, or write the name",
        "{count} cells of the column '{title}' say that there is no name, the first in line {line}: {said}: their "
        "animals count as ones without a name; leave the cells empty, or write the names",
        "count",
    )