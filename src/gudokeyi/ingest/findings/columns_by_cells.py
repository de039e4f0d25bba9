"""What is found of columns that are read for what their cells have, since their titles are letters alone: each kind as
data."""
from __future__ import annotations

from collections.abc import Mapping
from dataclasses import dataclass

from gudokeyi.domain.findings import Severity, Suggestion
from gudokeyi.domain.kinds import Field
from gudokeyi.domain.wording import Text
from gudokeyi.ingest.findings.columns import SheetFinding, column


@dataclass(frozen=True, slots=True)
class ParentsByCells(SheetFinding):
    """A column of a parent with a letter for a title: how many of its cells are ids of the list, and of how many."""

    field: Field
    title: str
    found: int
    count: int

    decides_much = True
    severity = Severity.PARENTS
    code = "parents by cells"
    message = Text(
        "{field} is read from '{title}', since {found} of its {count} cells are ids of this list, of animals of that sex"
    )

    def suggestions(self) -> tuple[Suggestion, ...]:
        return (Suggestion(f"if '{self.title}' is something else", (column(self.field, ""),)),)


@dataclass(frozen=True, slots=True)
class SexesByCells(SheetFinding):
    """A column of the sexes with a letter for a title, and its first words."""

    title: str
    texts: tuple[str, ...]

    decides_much = True
    code = "sexes by cells"
    message = Text("{field} is read from '{title}', since its cells are words for sexes: {said}")

    def values(self) -> Mapping[str, object]:
        return {"field": Field.SEX, "said": self.texts}

    def suggestions(self) -> tuple[Suggestion, ...]:
        return (Suggestion(f"if '{self.title}' is something else", (column(Field.SEX, ""),)),)
