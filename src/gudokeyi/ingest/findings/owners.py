"""What is found of columns beside that of the owners: each kind as data, and in words."""
from __future__ import annotations

from collections.abc import Mapping
from dataclasses import dataclass

from gudokeyi.domain.findings import Suggestion
from gudokeyi.domain.kinds import Field
from gudokeyi.domain.wording import Counted, Joined, OptionalPart, Quoted
from gudokeyi.ingest.findings.columns import SheetFinding, column


@dataclass(frozen=True, slots=True)
class OwnersBeside(SheetFinding):
    """Rows that have nothing in the column of the owners, and a keeper, or a first name, in another: how many, the
    first of them, and the lines of others. A column of first names can't be read instead."""

    title: str
    beside: str
    count: int
    line: int
    text: str
    others: tuple[int, ...]
    may_be_read: bool

    code = "owners beside"
    message = Counted(
        "{count} row has nothing in '{title}', and '{text}' in '{beside}', in line {line}: no owner is taken from "
        "there; if it is the owner, enter it in '{title}'",
        "{count} rows have nothing in '{title}', and a name in '{beside}', the first '{text}' in line {line}"
        "{maybe_others}{maybe_more}: no owner is taken from there; if they are the owners, enter them in '{title}'",
        "count",
    )
    parts = {
        "maybe_others": OptionalPart(", the others in {in_others}"),
        "maybe_more": OptionalPart(" and {more} more"),
    }

    def values(self) -> Mapping[str, object]:
        more = self.count - 1 - len(self.others)
        return {"in_others": Joined(tuple(map(str, self.others))), "more": more or None}

    def suggestions(self) -> tuple[Suggestion, ...]:
        if not self.may_be_read:
            return ()
        return (Suggestion(f"if '{self.beside}' has the owners", (column(Field.OWNER, self.beside),)),)


@dataclass(frozen=True, slots=True)
class OwnersOfOneName(SheetFinding):
    """Owners who stand beside several first names in a column that isn't read: how many, and two of these of the
    first."""

    title: str
    beside: str
    count: int
    owner: str
    first: str
    line: int
    other: str
    other_line: int

    decides_much = True
    code = "owners of one name"
    message = Counted(
        "'{owner}' in '{title}' stands beside '{first}' in line {line} and '{other}' in line {other_line}, in "
        "'{beside}', which isn't read: they count as one owner; if '{beside}' has the owners' first names, move that "
        "column to right after '{title}'",
        "{count} owners in '{title}' stand beside several names in '{beside}', which isn't read, as '{owner}' beside "
        "'{first}' in line {line} and '{other}' in line {other_line}: each counts as one owner; if '{beside}' has "
        "the owners' first names, move that column to right after '{title}'",
        "count",
    )


@dataclass(frozen=True, slots=True)
class OwnersInTurnRead(SheetFinding):
    """Rows in which later owners stand behind the first ones: the titles of the columns, how many rows, and the first
    of these owners."""

    title: str
    beside: tuple[str, ...]
    count: int
    line: int
    text: str

    code = "owners in turn"
    message = Counted(
        "{count} row has a later owner behind '{title}', '{text}' in line {line} in {titles}: the last one in the row "
        "is the owner of now",
        "{count} rows have later owners behind '{title}', in {titles}, the first '{text}' in line {line}: the last one "
        "in each row is the owner of now",
        "count",
    )

    def values(self) -> Mapping[str, object]:
        return {"titles": Quoted(self.beside)}
