"""What is found of exits below a list, beside it or on another worksheet: each kind as data, and in words."""
from __future__ import annotations

from collections.abc import Mapping
from dataclasses import dataclass

from gudokeyi.domain.findings import Part, Severity, What
from gudokeyi.domain.wording import Counted, Joined
from gudokeyi.ingest.findings.columns import SheetFinding


@dataclass(frozen=True, slots=True)
class ExitsBelow(SheetFinding):
    """Rows below the animals that have an id of one of them again, and an exit alone: how many, and the first."""

    count: int
    line: int
    id: str
    text: str

    severity = Severity.FACTS
    code = "exits below"
    message = Counted(
        "{count} row, in line {line}, has the id of an animal above and says no more than an exit, as {id}: '{text}': it "
        "is read as the exit of that animal",
        "{count} rows, the first in line {line}, have the ids of animals above and say no more than exits, as {id}: "
        "'{text}': they are read as the exits of these animals",
        "count",
    )


@dataclass(frozen=True, slots=True)
class ExitsBelowUnread(ExitsBelow):
    """The same where no column has exits, or nothing tells that they are some: the rows are left out."""

    what = What.LEFT_OUT
    part = Part.ROW
    decides_much = True
    severity = Severity.ANIMALS
    code = "exits below unread"
    message = Counted(
        "{count} row is left out, in line {line}, that has the id of an animal above and looks like its exit, as {id}: "
        "'{text}': the animal counts as living; if it has left, write that into a column for exits, in the row above",
        "{count} rows are left out, the first in line {line}, that have the ids of animals above and look like their exits, "
        "as {id}: '{text}': these animals count as living; if they have left, write that into a column for exits, in the "
        "rows above",
        "count",
    )

    def times(self) -> int:
        return self.count


@dataclass(frozen=True, slots=True)
class ExitsBeside(SheetFinding):
    """Columns beside the list that are a table of animals that left: their titles, how many animals, and the first."""

    titles: tuple[str, ...]
    count: int
    id: str
    line: int

    decides_much = True
    severity = Severity.ANIMALS
    code = "exits beside"
    message = Counted(
        "the columns {said} aren't read: they look like a table of its own, with {count} animal that left, {id} in line "
        "{line}; if it has, write the day or the word into a column for exits, in the row of that animal",
        "the columns {said} aren't read: they look like a table of its own, with {count} animals that left, the first is "
        "{id} in line {line}; if they have, write the days or words into a column for exits, in the rows of these animals",
        "count",
    )

    def values(self) -> Mapping[str, object]:
        return {"said": Joined(tuple(f"'{title}'" for title in self.titles))}


@dataclass(frozen=True, slots=True)
class WorksheetOfExits(SheetFinding):
    """Another worksheet that seems to have animals that left, and which count as living: how many, and the first."""

    title: str
    count: int
    id: str
    first_line: int

    decides_much = True
    severity = Severity.ANIMALS
    code = "worksheet of exits"
    message = Counted(
        "the worksheet '{title}' isn't read, and has {count} animal that counts as living: {id} in its line {first_line}; "
        "if it has left, write the day or a word into a column for exits of the worksheet that is read",
        "the worksheet '{title}' isn't read, and has {count} animals that count as living, the first is {id} in its line "
        "{first_line}; if they have left, write the days or words into a column for exits of the worksheet that is read",
        "count",
    )
