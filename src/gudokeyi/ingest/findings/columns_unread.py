"""What is found of columns that aren't read, though they have what belongs to animals: each kind as data."""
from __future__ import annotations

from collections.abc import Mapping
from dataclasses import dataclass

from gudokeyi.domain.findings import Severity, Suggestion
from gudokeyi.domain.kinds import Field
from gudokeyi.domain.wording import Counted, Joined, OptionalPart, Text
from gudokeyi.ingest.findings.columns import SheetFinding, column
from gudokeyi.ingest.findings.rows import ExitsInRemarks


@dataclass(frozen=True, slots=True)
class SaidNone(SheetFinding):
    """A column that would be read for a field, had it not been said of an earlier sheet that none has that; how many of
    its cells have a text, and the first of them."""

    field: Field
    title: str
    count: int
    line: int
    text: str

    decides_much = True
    code = "said none"
    message = Counted(
        "'{title}' isn't read as {field}, since it was said of an earlier list that no column is that; it has {count} "
        "cell, '{text}' in line {line}",
        "'{title}' isn't read as {field}, since it was said of an earlier list that no column is that; it has {count} "
        "cells, the first '{text}' in line {line}",
        "count",
    )

    def suggestions(self) -> tuple[Suggestion, ...]:
        return (
            Suggestion("if it is the one", (column(self.field, self.title),)),
            Suggestion("if there is none", (column(self.field, ""),)),
        )


@dataclass(frozen=True, slots=True)
class ExitsSinceSaid(SheetFinding):
    """A column of which it was said that it doesn't have the exits, and that tells of more than then: of how many it
    told and tells, the first of these, and the lines of others."""

    field: Field
    title: str
    before: int
    count: int
    line: int
    text: str
    others: tuple[int, ...] = ()

    decides_much = True
    severity = Severity.ANIMALS
    code = "exits since said"
    message = Counted(
        "'{title}' isn't read as {field}, since that was said of an earlier list; it tells of {count} exit now, '{text}' "
        "in line {line}, and told of {before} then: animals that left count as living",
        "'{title}' isn't read as {field}, since that was said of an earlier list; it tells of {count} exits now, the "
        "first '{text}' in line {line}{maybe_others}{maybe_more}, and told of {before} then: animals that left count as "
        "living",
        "count",
    )
    parts = {
        "maybe_others": OptionalPart(", the others in {in_others}"),
        "maybe_more": OptionalPart(" and {more} more"),
    }

    def values(self) -> Mapping[str, object]:
        more = self.count - 1 - len(self.others) if self.others else 0
        return {"in_others": Joined(tuple(map(str, self.others))), "more": more or None}

    def suggestions(self) -> tuple[Suggestion, ...]:
        return (
            Suggestion("if it tells of exits", (column(self.field, self.title),)),
            Suggestion("if it tells of no exits", (column(self.field, ""),)),
        )


@dataclass(frozen=True, slots=True)
class MayBeExits(SheetFinding):
    """A column that isn't read, of days behind the births, where no column of exits is found: how many, and the
    first."""

    title: str
    count: int
    line: int
    text: str

    decides_much = True
    code = "may be exits"
    message = Text(
        "no column of exits is found, and '{title}' isn't read, whose {count} days are all later than the births, the "
        "first '{text}' in line {line}: animals that left then count as living"
    )

    def suggestions(self) -> tuple[Suggestion, ...]:
        return (
            Suggestion("if it tells of exits", (column(Field.EXIT, self.title),)),
            Suggestion("if no column tells of exits", (column(Field.EXIT, ""),)),
        )


@dataclass(frozen=True, slots=True)
class CausesUnread(ExitsInRemarks):
    """A column that isn't read, and whose title and codes may tell why animals left; for which field it can be read."""

    as_field: Field = Field.EXIT

    decides_much = True
    severity = Severity.ANIMALS
    code = "causes unread"
    message = Counted(
        "the column '{title}' isn't read for exits, and {count} cell of it may say why an animal left which has no exit: "
        "'{text}' in line {line}; the animal counts as living: if it left, write a word there, as died or sold, verendet "
        "or verkauft, mort or vendu",
        "the column '{title}' isn't read for exits, and {count} cells of it may say why animals left which have no exit, "
        "the first is '{text}' in line {line}{maybe_others}{maybe_more}; these animals count as living: if they left, "
        "write words there, as died or sold, verendet or verkauft, mort or vendu",
        "count",
    )

    def suggestions(self) -> tuple[Suggestion, ...]:
        """Codes alone aren't read as exits: as a status beside these each tells of one."""
        read = Suggestion("if each of its cells tells of an exit", (column(self.as_field, self.title),))
        none = Suggestion("if it tells of no exits", (column(self.as_field, ""),))
        return (read, none) if self.as_field is Field.STATUS else (none,)


@dataclass(frozen=True, slots=True)
class EntryDaysUnread(SheetFinding):
    """A column of entries that isn't read, where no column has the owners' first days: how many of its days are behind
    the births, and the first."""

    title: str
    count: int
    line: int
    text: str

    code = "entry days unread"
    message = Counted(
        "'{title}' isn't read, and its day '{text}' in line {line} is behind the birth: it may be that since when the "
        "owner has the animal, or that of an entry into a herd book",
        "'{title}' isn't read, and {count} of its days are behind the births, the first '{text}' in line {line}: they may "
        "be those since when owners have the animals, or those of entries into a herd book",
        "count",
    )

    def suggestions(self) -> tuple[Suggestion, ...]:
        return (
            Suggestion("if owners have the animals since then", (column(Field.SINCE, self.title),)),
            Suggestion("if no column says since when", (column(Field.SINCE, ""),)),
        )


@dataclass(frozen=True, slots=True)
class StillbornUnread(SheetFinding):
    """A column that isn't read, and says of animals without an exit that they were born dead: of how many, and the
    first."""

    title: str
    count: int
    line: int
    text: str

    decides_much = True
    code = "stillborn unread"
    message = Counted(
        "the column '{title}' isn't read, and has '{text}' in line {line}: if that animal was born dead, enter that "
        "in the column for exits, with its birth day: it counts as living",
        "the column '{title}' isn't read, and has {count} cells, the first '{text}' in line {line}: if these animals "
        "were born dead, enter that in the column for exits, with their birth days: they count as living",
        "count",
    )


@dataclass(frozen=True, slots=True)
class DeletedRows(SheetFinding):
    """A column that isn't read, and says of rows that they don't hold, whose animals have no exit: of how many, and the
    first."""

    title: str
    count: int
    line: int
    text: str

    decides_much = True
    severity = Severity.ANIMALS
    code = "deleted rows"
    message = Counted(
        "the column '{title}' isn't read, and has '{text}' in line {line}: the row is taken like all others; if it no "
        "longer applies, take it out of the list, and if its animal has left, write an exit",
        "the column '{title}' isn't read, and has {count} cells, the first '{text}' in line {line}: these rows are "
        "taken like all others; if one no longer applies, take it out of the list, and if its animal has left, write "
        "an exit",
        "count",
    )


@dataclass(frozen=True, slots=True)
class SaysOtherwise(SheetFinding):
    """A column that isn't read, and says otherwise than the one that is: in how many rows, the first of them, and what
    is read there, empty for nothing; `is_full` where it has no fewer cells."""

    field: Field
    title: str
    beside: str
    count: int
    line: int
    text: str
    other: str
    is_full: bool

    decides_much = True

    def suggestions(self) -> tuple[Suggestion, ...]:
        likely = Suggestion(f"if '{self.beside}' is the one", (column(self.field, self.beside),))
        return (likely,) if self.is_full else ()


@dataclass(frozen=True, slots=True)
class CorrectionsUnread(SaysOtherwise):
    """Such a column that corrects the other one."""

    code = "corrections unread"
    message = Counted(
        "'{beside}' isn't read, and says '{text}'{maybe_other} in line {line}: where it is right, enter that in "
        "'{title}'",
        "'{beside}' isn't read, and differs from '{title}' in {count} rows, first '{text}'{maybe_other} in line "
        "{line}: where it is right, enter that in '{title}'",
        "count",
    )
    parts = {"maybe_other": OptionalPart(" and not '{other}'")}


@dataclass(frozen=True, slots=True)
class SecondOwnersUnread(SheetFinding):
    """A column with a second owner, which isn't read: in how many rows it has another one, the first of them, and who
    is read there, empty for nobody."""

    title: str
    beside: str
    count: int
    line: int
    text: str
    other: str

    decides_much = True
    code = "second owners unread"
    message = Counted(
        "'{beside}' isn't read, and has '{text}' in line {line}: {maybe_other}{maybe_nobody}; if the animal has gone "
        "to '{text}', enter that in '{title}'",
        "'{beside}' isn't read, and has {count} owners, the first '{text}' in line {line}: "
        "{maybe_other}{maybe_nobody}; where an animal has gone to the second one, enter that one in '{title}'",
        "count",
    )
    parts = {
        "maybe_other": OptionalPart("the owner is '{other}', as '{title}' has it"),
        "maybe_nobody": OptionalPart("nobody owns it, as '{title}' has nothing", when="is_nobody"),
    }

    def values(self) -> Mapping[str, object]:
        return {"is_nobody": not self.other}
