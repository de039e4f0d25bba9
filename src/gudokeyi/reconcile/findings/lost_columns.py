"""What is found of columns that a sheet lacks, the society's own and that of the exits: as data, and in words."""
from __future__ import annotations

from dataclasses import dataclass

from gudokeyi.domain.findings import Severity, Suggestion
from gudokeyi.domain.kinds import Field
from gudokeyi.domain.wording import Counted, OptionalPart, Text
from gudokeyi.ingest.findings.columns import SheetFinding, column
from gudokeyi.reconcile.findings.plausibility import RowOf


@dataclass(frozen=True, slots=True)
class OwnColumnLost(SheetFinding):
    """A sheet lacks a column of the society's own that an earlier one had; `likely` is the title of one that may be
    it."""

    title: str
    likely: str

    code = "own column lost"
    message = Text(
        "no column '{title}' is found, which the book keeps and an earlier sheet had: the book keeps what it "
        "has{maybe_likely}"
    )
    parts = {"maybe_likely": OptionalPart("; if '{likely}' is the one, give it that title")}


@dataclass(frozen=True, slots=True)
class ExitsOfLostColumn(SheetFinding):
    """A sheet lacks a column of exits of the last one, and `other`, from which they are read, tells of none of some
    animals that had left: how many, and the first of them."""

    title: str
    other: str
    animals: int
    first: tuple[RowOf, ...]

    decides_much = True
    severity = Severity.ANIMALS
    code = "exits of lost column"
    message = Counted(
        "no column '{title}' is found, from which exits were read last time, and '{other}' tells of no exit of "
        "{animals} animal that had left, {first}: the book keeps what it has",
        "no column '{title}' is found, from which exits were read last time, and '{other}' tells of no exit of "
        "{animals} animals that had left, the first are {first}: the book keeps what it has",
        "animals",
    )

    def suggestions(self) -> tuple[Suggestion, ...]:
        return (Suggestion(f"if '{self.other}' has all exits", (column(Field.EXIT, self.other),)),)
