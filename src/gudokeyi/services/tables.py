"""A table that is written as CSV: for spreadsheets, and for programs that read decimals."""
from __future__ import annotations

import enum
from collections.abc import Iterable, Iterator, Sequence
from dataclasses import dataclass
from typing import NamedTuple

from gudokeyi.domain.cells import (
    column_for_spreadsheets, csv_text, for_spreadsheets, joined, ordered, plain_text, texts_of,
)  # fmt: skip

# what stands in a cell
Cell = str | int


class Kind(enum.Enum):
    """What stands in a column."""

    # what somebody wrote, which may begin as a formula does
    TEXT = enum.auto()
    # numbers of animals, days, fractions and counts
    PLAIN = enum.auto()
    # numbers that are shown rounded, each as a text
    DECIMAL = enum.auto()


# of relationships of two animals
RELATIONSHIP_COLUMNS = (
    ("id", Kind.TEXT), ("with", Kind.TEXT), ("relationship", Kind.PLAIN), ("relationship_decimal", Kind.DECIMAL),
    ("kinship", Kind.PLAIN), ("kinship_decimal", Kind.DECIMAL),
)  # fmt: skip


class Begun(NamedTuple):
    """How the rows of a file begin that has commas: so many of their first columns, written before the others are
    known; none where a cell needs quotes."""

    columns: int
    rows: Sequence[str] | None

    @classmethod
    def of(cls, columns: Sequence[tuple[str, Kind]], cells: Sequence[Sequence[Cell]]) -> Begun:
        written = [texts_of(written_as(kind, column, False)) for (_, kind), column in zip(columns, cells)]
        rows = joined(written, ",")
        return cls(len(columns), None if plain_text(rows, len(columns) - 1, ",") is None else rows)


@dataclass(frozen=True)
class Table:
    """Columns, each with a title and what stands in it, and the cells of each. The rows are in the order of the cells,
    or in another one of their places. Their beginnings may be written already."""

    columns: Sequence[tuple[str, Kind]]
    cells: Sequence[Sequence[Cell]]
    order: Sequence[int] | None = None
    begun: Begun | None = None

    @classmethod
    def of_rows(cls, columns: Sequence[tuple[str, Kind]], rows: Iterable[Sequence[Cell]]) -> Table:
        return cls(columns, list(zip(*rows)) or [()] * len(columns))

    @property
    def titles(self) -> list[str]:
        return [title for title, _ in self.columns]

    @property
    def rows(self) -> list[tuple[Cell, ...]]:
        return list(ordered(zip(*self.cells), self.order))

    def __len__(self) -> int:
        """How many rows there are."""
        return len(self.cells[0])

    def text(self, semicolons: bool) -> str:
        """With semicolons decimals have a comma, as such spreadsheets want them."""
        titles = [*map(for_spreadsheets, self.titles)]
        rows = None if semicolons else self.begun_rows()
        if rows is not None:
            return csv_text(titles, [()] * len(titles)) + rows
        return csv_text(titles, self.written(semicolons), ";" if semicolons else ",", self.order)

    def begun_rows(self) -> str | None:
        """The rows behind their written beginnings; none where there are no such, or a cell needs quotes."""
        if self.begun is None or self.begun.rows is None:
            return None
        others = map(texts_of, self.written(False, self.begun.columns))
        return plain_text(joined([self.begun.rows, *others], ","), len(self.columns) - 1, ",", self.order)

    def written(self, semicolons: bool, behind: int = 0) -> Iterator[Sequence[object]]:
        """The cells of each column behind so many, as they are written."""
        columns = zip(self.columns[behind:], self.cells[behind:])
        return (written_as(kind, cells, semicolons) for (_, kind), cells in columns)


def written_as(kind: Kind, cells: Sequence[Cell], semicolons: bool) -> Sequence[object]:
    """The cells of a column as they are written."""
    if kind is Kind.TEXT:
        return column_for_spreadsheets(texts_of(cells))
    if kind is Kind.DECIMAL and semicolons:
        return [str(cell).replace(".", ",") for cell in cells]
    return cells
