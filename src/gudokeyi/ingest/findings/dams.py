"""What is found of columns with other dams than those of birth, and of parents that a test of genes tells: each kind as
data, and in words."""
from __future__ import annotations

from dataclasses import dataclass

from gudokeyi.domain.findings import Severity, Suggestion
from gudokeyi.domain.kinds import Field
from gudokeyi.domain.wording import Counted, OptionalPart
from gudokeyi.ingest.findings.columns import SheetFinding, column
from gudokeyi.ingest.findings.columns_unread import SaysOtherwise


@dataclass(frozen=True, slots=True)
class GeneticDamsRead(SheetFinding):
    """A column of genetic dams, which is read beside that of the dams: in so many rows it has another one; the first of
    them, and what stands in the column of the dams there."""

    title: str
    beside: str
    count: int
    line: int
    text: str
    other: str

    severity = Severity.PARENTS
    code = "genetic dams read"
    message = Counted(
        "the dam of {count} animal is read from '{beside}', '{text}' in line {line}{maybe_other}",
        "the dams of {count} animals are read from '{beside}', the first '{text}' in line {line}{maybe_other}",
        "count",
    )
    parts = {
        "maybe_other": OptionalPart(": '{other}' in '{title}' carried it, and is no dam"),
    }


@dataclass(frozen=True, slots=True)
class CarriersAlone(SheetFinding):
    """Rows that have a carrier, and no dam: how many, and the first."""

    title: str
    beside: str
    count: int
    line: int
    text: str

    decides_much = True
    severity = Severity.PARENTS
    code = "carriers alone"
    message = Counted(
        "{count} row has no dam in '{title}', and '{text}' in '{beside}', in line {line}: the animal that carried the "
        "embryo isn't the dam, which counts as unknown; enter the dam in '{title}'",
        "{count} rows have no dam in '{title}', and something in '{beside}', the first '{text}' in line {line}: the "
        "animal that carried the embryo isn't the dam, which counts as unknown; enter the dams in '{title}'",
        "count",
    )

    def suggestions(self) -> tuple[Suggestion, ...]:
        return (Suggestion("if they are the dams where no other is given", (column(Field.DAM, self.beside),)),)


@dataclass(frozen=True, slots=True)
class GenesDiffer(SaysOtherwise):
    """Such a column that has parents by a test of genes."""

    severity = Severity.PARENTS
    code = "genes differ"
    message = Counted(
        "'{beside}' isn't read, and has another {field} than '{title}' in {count} row: '{text}' and not '{other}', in "
        "line {line}: where '{beside}' is right, enter that in '{title}'",
        "'{beside}' isn't read, and has another {field} than '{title}' in {count} rows: first '{text}' and not "
        "'{other}', in line {line}: where '{beside}' is right, enter that in '{title}'",
        "count",
    )
