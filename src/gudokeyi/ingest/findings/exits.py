"""What is found of cells that tell of exits, or of something that is none: each kind as data, and in words."""
from __future__ import annotations

import datetime
from collections.abc import Mapping, Sequence
from dataclasses import dataclass
from typing import NamedTuple

from gudokeyi.domain.findings import Finding, Severity, Suggestion, What, tells_of_no_exit
from gudokeyi.domain.provenance import ExitBasis
from gudokeyi.domain.wording import Counted, Joined, OptionalPart, Quoted, Text
from gudokeyi.ingest.exit_places import has_day
from gudokeyi.ingest.findings.columns import SheetFinding
from gudokeyi.ingest.findings.sheets import MOST_SHOWN, Cells
from gudokeyi.ingest.exit_words import exit_word, is_still_there, state_exit

# so many lines are named
MOST_LINES = 20


@dataclass(frozen=True, slots=True)
class ExitInferred(Finding):
    """An exit on the last day of a month or a year, or one whose day stands within a text, which is empty where the
    cell has nothing else."""

    day: datetime.date
    basis: ExitBasis
    text: str

    what = What.INFERRED
    code = "exit inferred"
    message = Text("exit on {day}{maybe_basis_period}{maybe_unended}{maybe_text}")
    parts = {
        "maybe_basis_period": OptionalPart(", the last day of {basis_period}", when="has_ended"),
        "maybe_unended": OptionalPart(", the day of the import, as {basis_period} hasn't ended", when="is_unended"),
        "maybe_text": OptionalPart(", from '{text}'"),
    }

    def values(self) -> Mapping[str, object]:
        period, after = self.basis.period, self.day + datetime.timedelta(1)
        has_ended = after.day == 1 and (after.month == 1 or period is not None and "-" in period.text)
        return {"has_ended": has_ended, "is_unended": period is not None and not has_ended}


@dataclass(frozen=True, slots=True)
class ExitsWithoutDay(SheetFinding):
    """Cells such as `sold`."""

    cells: Cells

    code = "exits without day"
    message = Text(
        "an exit without a day stands in {cells}, the first in line {cells_line}: {cells_texts}{maybe_cells_more}: "
        "such an animal counts as gone, on a day that isn't known unless the book has it; where you know the day, "
        "write it as 01.03.2001, or after the word, as {word} 01.03.2001",
        "cells_count",
    )
    parts = {
        "maybe_cells_more": OptionalPart(" and {cells_more} more"),
    }

    def values(self) -> Mapping[str, object]:
        return {"word": exit_word(self.cells.texts[0].text) if self.cells.texts else ""}


@dataclass(frozen=True, slots=True)
class ExitsInOtherWords(SheetFinding):
    """Cells such as `licensed 2020`, which have a day beside words of which none tells of an exit."""

    cells: Cells

    code = "exits in other words"
    message = Text(
        "a day, a month or a year beside words that tell of no exit stands in {cells}, the first in line {cells_line}: "
        "{cells_texts}{maybe_cells_more}: each counts as an exit then; where the animal hasn't left, write nothing or "
        "alive, lebt or vivant",
        "cells_count",
    )
    parts = {
        "maybe_cells_more": OptionalPart(" and {cells_more} more"),
    }

    def suggestions(self) -> tuple[Suggestion, ...]:
        return (tells_of_no_exit(self.cells.texts[0].text),)


@dataclass(frozen=True, slots=True)
class ExitInDoubt(Finding):
    """A cell such as `verkauft? 2020`, or `verk. 1.5.20 (zurück 3.6.20)`."""

    text: str

    what = What.WARNING
    severity = Severity.FACTS
    code = "exit in doubt"
    message = Text(
        "'{text}' tells of an exit that isn't certain, or after which the animal came back: it counts as gone; if it "
        "is there, write nothing or alive, lebt or vivant"
    )


@dataclass(frozen=True, slots=True)
class ExitDaysRead(SheetFinding):
    """A column such as `geschlachtet am`, which is read beside that of the exits: in so many rows it alone has one."""

    title: str
    of_exits: str
    count: int

    severity = Severity.FACTS
    code = "exit days read"
    message = Counted(
        "the column '{title}' has an exit in {count} row where '{of_exits}' has none: it is taken from there",
        "the column '{title}' has exits in {count} rows where '{of_exits}' has none: they are taken from there",
        "count",
    )


@dataclass(frozen=True, slots=True)
class BuyersRead(SheetFinding):
    """A column that says to whom animals were sold, in so many rows whose exits don't say so."""

    title: str
    count: int

    severity = Severity.FACTS
    code = "buyers read"
    message = Counted(
        "the column '{title}' says to whom an animal was sold, in {count} row: that is read as a part of its exit",
        "the column '{title}' says to whom animals were sold, in {count} rows: that is read as a part of their exits",
        "count",
    )


@dataclass(frozen=True, slots=True)
class BuyerDisagrees(Finding):
    """A column says to whom the animal was sold, and a status that it is there."""

    title: str
    buyer: str
    status_title: str
    status: str

    what = What.WARNING
    severity = Severity.FACTS
    code = "buyer disagrees"
    message = Text(
        "'{title}' says '{buyer}', and '{status_title}' says '{status}': the animal counts as living, with its owner; "
        "if it was sold, write sold, verkauft or vendu in place of '{status}'"
    )


class Remark(NamedTuple):
    """A cell that tells of something which no field has: it is kept as a note."""

    line: int
    title: str
    text: str


@dataclass(frozen=True, slots=True)
class NoExits(SheetFinding):
    """Cells of a column such as `retired 2019` or `on loan`, which tell of something else than an exit: the first line,
    and the first texts; `more` aren't here."""

    title: str
    count: int
    line: int
    texts: tuple[str, ...]
    more: int

    severity = Severity.FACTS
    code = "no exits"
    message = Counted(
        "{count} cell of the column '{title}' tells of something other than an exit, in line {line}: {said}: the "
        "animal stays, and what the cell says is kept as a note; if it has left, write a day, or a word such as sold, "
        "verkauft or vendu",
        "{count} cells of the column '{title}' tell of something other than exits, the first in line {line}: "
        "{said}{maybe_more}: these animals stay, and what the cells say is kept as notes; if one has left, write a "
        "day, or a word such as sold, verkauft or vendu",
        "count",
    )
    parts = {
        "maybe_more": OptionalPart(" and {more} more"),
    }

    @classmethod
    def of(cls, remarks: Sequence[Remark]) -> NoExits:
        texts = [*dict.fromkeys(one.text for one in remarks)]
        first = remarks[0]
        return cls(first.title, len(remarks), first.line, tuple(texts[:MOST_SHOWN]), len(texts[MOST_SHOWN:]))

    def values(self) -> Mapping[str, object]:
        return {"said": Quoted(self.texts)}


@dataclass(frozen=True, slots=True)
class StatesInDoubt(NoExits):
    """Cells of such a column that have a day beside words which aren't known, as `Zirkus 3.4.2022`; and the lines of
    others."""

    others: tuple[int, ...] = ()

    code = "states in doubt"
    message = Counted(
        "{count} cell of the column '{title}' has a day beside words that aren't known to tell of an exit, in line {line}: "
        "{said}: the animal counts as living, and what the cell says is kept as a note; if it has left, write the day "
        "alone, or a word such as sold, verkauft or vendu before it",
        "{count} cells of the column '{title}' have a day beside words that aren't known to tell of an exit, the first in "
        "line {line}{maybe_others}{maybe_more_lines}: {said}{maybe_more}: these animals count as living, and what the "
        "cells say is kept as notes; if one has left, write the day alone, or a word such as sold, verkauft or vendu "
        "before it",
        "count",
    )
    parts = {
        "maybe_others": OptionalPart(", the others in {in_others}"),
        "maybe_more_lines": OptionalPart(" and {more_lines} more"),
        "maybe_more": OptionalPart(" and {more} more"),
    }

    @classmethod
    def of(cls, remarks: Sequence[Remark]) -> StatesInDoubt:
        told = NoExits.of(remarks)
        others = tuple(one.line for one in remarks[1:MOST_LINES])
        return cls(told.title, told.count, told.line, told.texts, told.more, others)

    def values(self) -> Mapping[str, object]:
        more_lines = self.count - 1 - len(self.others)
        lines = Joined(tuple(map(str, self.others)))
        return {"said": Quoted(self.texts), "in_others": lines, "more_lines": more_lines or None}


def told_of_remarks(remarks: Sequence[Remark]) -> list[NoExits]:
    """What is told of some cells of a column that are kept as notes; those with a day beside words that aren't known
    may tell of exits."""
    in_doubt = [has_day(one.text) and not (is_still_there(one.text) or state_exit(one.text)) for one in remarks]
    known = [one for one, is_one in zip(remarks, in_doubt) if not is_one]
    unknown = [one for one, is_one in zip(remarks, in_doubt) if is_one]
    kinds: tuple[tuple[type[NoExits], list[Remark]], ...] = ((StatesInDoubt, unknown), (NoExits, known))
    return [kind.of(those) for kind, those in kinds if those]
