"""What is found of rows between animals that say something of the rows below: as data, and in words."""
from __future__ import annotations

from collections.abc import Mapping
from dataclasses import dataclass

from gudokeyi.domain.findings import Severity
from gudokeyi.domain.wording import SEXES, Counted
from gudokeyi.ingest.findings.columns import SheetFinding


@dataclass(frozen=True, slots=True)
class SectionOfSex(SheetFinding):
    """A row that says a sex, above so many animals of which another one is inferred: the first of them, its line and
    its sex."""

    text: str
    said: str
    count: int
    first: str
    first_line: int
    sex: str

    severity = Severity.ANIMALS
    code = "section of sex"
    message = Counted(
        "'{text}' stands above {first} (line {first_line}), whose row says no sex, and it counts as {sex}: nothing is "
        "read from such a row; enter {said} in a column for the sex",
        "'{text}' stands above {count} animals whose rows say no sex, and they count as {sex}, the first is {first} "
        "(line {first_line}): nothing is read from such a row; enter {said} in a column for the sex",
        "count",
    )

    def values(self) -> Mapping[str, object]:
        return {"said": SEXES.get(self.said, self.said), "sex": SEXES.get(self.sex, self.sex)}


@dataclass(frozen=True, slots=True)
class SectionsOfOwners(SheetFinding):
    """Rows that may name owners, above so many animals without one: how many rows, and the first of them."""

    count: int
    text: str
    line: int
    animals: int

    code = "sections of owners"
    message = Counted(
        "'{text}' in line {line} stands above animals without an owner ({animals}): nothing is read from such a row; "
        "if it names their owner, enter that in a column for the owners",
        "{count} rows, the first is '{text}' in line {line}, stand above animals without an owner ({animals}): "
        "nothing is read from such rows; if they name their owners, enter these in a column for the owners",
        "count",
    )


@dataclass(frozen=True, slots=True)
class SectionOfExits(SheetFinding):
    """A row that tells of exits, above so many animals without one: the first of them, and its line."""

    text: str
    count: int
    first: str
    first_line: int

    severity = Severity.ANIMALS
    code = "section of exits"
    message = Counted(
        "'{text}' stands above {first} (line {first_line}), which counts as living: nothing is read from such a row; "
        "if it has left, enter a day, or a word such as sold, verkauft or vendu, in a column for exits",
        "'{text}' stands above {count} animals that count as living, the first is {first} (line {first_line}): "
        "nothing is read from such a row; if they have left, enter a day, or a word such as sold, verkauft or vendu, "
        "in a column for exits",
        "count",
    )


@dataclass(frozen=True, slots=True)
class SectionOfBirths(SheetFinding):
    """A row that says something of the rows below, where nothing shows the birth days of so many animals: the first of
    them, and its line."""

    text: str
    count: int
    first: str
    first_line: int

    code = "section of births"
    message = Counted(
        "'{text}' stands above {first} (line {first_line}), of which nothing shows the birth day: it gets 1900-01-01, "
        "the earliest that a book can have; enter its day in its own cell",
        "'{text}' stands above {count} animals of which nothing shows the birth days, the first is {first} (line "
        "{first_line}): they get 1900-01-01, the earliest that a book can have; enter their days in their own cells",
        "count",
    )
