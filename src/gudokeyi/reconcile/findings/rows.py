"""Rows that don't fit what a book has: each kind as data, and in words."""
from __future__ import annotations

import datetime
from collections.abc import Hashable, Mapping
from dataclasses import dataclass

from gudokeyi.domain.findings import ANYWAY, Finding, LeftOut, Part, Severity, Suggestion, What
from gudokeyi.domain.kinds import CommandKind
from gudokeyi.domain.provenance import Period
from gudokeyi.domain.refusals import Refusal
from gudokeyi.domain.wording import OptionalPart, Text
from gudokeyi.ingest.findings.same_ids import IdUsedAgain


@dataclass(frozen=True, slots=True)
class BornAfterOffspring(LeftOut):
    """The row has the name and the sex that the book has, but a birth day years later, and after that of an
    offspring."""

    born_there: datetime.date
    born_here: datetime.date
    offspring: str
    offspring_born: datetime.date

    part = Part.ROW
    severity = Severity.ANIMALS

    code = "born after offspring"
    message = Text(
        "the row is left out: born {born_here}, it would be younger than its offspring {offspring}, born "
        "{offspring_born}; the book has born {born_there}: if the day is mistyped, correct it; if the tag was used "
        "again, give this animal an id of its own, also where its offspring name it"
    )

    def suggestions(self) -> tuple[Suggestion, ...]:
        return (Suggestion("if it is the same animal, born on this day", (ANYWAY,)),)


@dataclass(frozen=True, slots=True)
class IdOfAnother(IdUsedAgain):
    """The id of a pedigree's line is that of another animal of the book."""

    part = Part.LINE

    code = "id of another"
    message = Text(
        "the line is left out: {maybe_line}{maybe_of_book} has this id for another animal ({maybe_name_there}born "
        "{born_there}; here {maybe_name_here}born {born_here}){maybe_named_in}: if these are two animals, give this "
        "one an id of its own, also where its offspring name it"
    )
    parts = {
        "maybe_line": OptionalPart("line {line}"),
        "maybe_of_book": OptionalPart("the book", when="is_of_book"),
        "maybe_name_there": OptionalPart("'{name_there}', "),
        "maybe_name_here": OptionalPart("'{name_here}', "),
        "maybe_named_in": OptionalPart("; as a parent in line {named_in} it means the first"),
    }


@dataclass(frozen=True, slots=True)
class LineAfterOffspring(BornAfterOffspring):
    """The same of a pedigree's line."""

    part = Part.LINE

    code = "line after offspring"
    message = Text(
        "the line is left out: born {born_here}, it would be younger than its offspring {offspring}, born "
        "{offspring_born}; the book has born {born_there}: if the day is mistyped, correct it; if these are two "
        "animals, give this animal an id of its own, also where its offspring name it"
    )


@dataclass(frozen=True, slots=True)
class BirthMovedByYears(Finding):
    """The birth day of the book and that of the sheet are years apart, and nothing else tells that these are two
    animals."""

    before: datetime.date
    now: datetime.date

    what = What.WARNING
    severity = Severity.ANIMALS
    code = "birth moved by years"
    message = Text(
        "its birth day is {now}, and was {before}: is this another animal, whose tag was used again? Then undo "
        "this, and give it an id of its own, also where its offspring name it"
    )


@dataclass(frozen=True, slots=True)
class CommandLeftOut(LeftOut):
    """An exit or a transfer that the program refuses, and the offspring for which an exit is."""

    command: CommandKind
    day: str
    refusal: Refusal
    offspring: str
    line: int

    part = Part.CELL
    code = "command left out"
    message = Text(
        "its {command} on {day} is left out: {refusal}{maybe_offspring}{maybe_offspring_of_book} (refusal "
        "{number}){maybe_gone}"
    )
    parts = {
        "maybe_offspring": OptionalPart(" ({offspring} in line {line})"),
        "maybe_offspring_of_book": OptionalPart(" ({offspring_of_book})"),
        "maybe_gone": OptionalPart("; the animal counts as gone", when="is_gone"),
        "maybe_offspring_told": OptionalPart(" ({offspring})"),
    }

    def values(self) -> Mapping[str, object]:
        return {
            "offspring_of_book": "" if self.line else self.offspring,
            "number": int(self.refusal),
            "is_gone": self.command is CommandKind.EXIT,
        }

    def theme(self) -> Hashable:
        return self.command, self.refusal


@dataclass(frozen=True, slots=True)
class OwnerDayMoved(Finding):
    """The day since which an owner has an animal can't be that of the book or of the sheet."""

    owner: str
    before: datetime.date
    now: datetime.date

    what = What.WARNING
    severity = Severity.FACTS
    code = "owner day moved"
    message = Text(
        "it has been of '{owner}' since {now}, and not since {before}, which can't be with its birth, its exit or "
        "its owner before"
    )


@dataclass(frozen=True, slots=True)
class OwnerDayBack(Finding):
    """The day since which an owner before the last had an animal is the one that was given again: what made it
    impossible is mended."""

    owner: str
    before: datetime.date
    now: datetime.date

    what = What.CHANGED
    code = "owner day back"
    message = Text("its first day with '{owner}' is {now} again, as was given, and not {before}")


@dataclass(frozen=True, slots=True)
class OwnerDayInferred(Finding):
    """Of the day since which an owner has the animal the sheet says the month or the year alone."""

    day: datetime.date
    period: Period

    what = What.INFERRED
    code = "owner day inferred"
    message = Text("owner since {day}, from {period}")


@dataclass(frozen=True, slots=True)
class OwnerDayOfImport(Finding):
    """An animal has another owner, and no cell says since when: the day of the import is taken."""

    owner: str
    day: datetime.date

    what = What.INFERRED
    code = "owner day of import"
    message = Text("owner {owner} since {day}, which is taken since no cell says the day")


@dataclass(frozen=True, slots=True)
class OwnerDayOfOther(Finding):
    """The cell of the day since which the owner has the animal says what it said for another owner before."""

    text: str
    before: str
    owner: str

    what = What.INFERRED
    code = "owner day of other"
    message = Text(
        "'{text}' isn't taken as the first day of the owner '{owner}': it stood there for '{before}' too"
    )


@dataclass(frozen=True, slots=True)
class OwnerAfterSale(Finding):
    """A sale to an owner of the society without a day, that stood there when the row had another owner than now."""

    text: str
    taker: str
    owner: str

    what = What.WARNING
    severity = Severity.FACTS
    code = "owner after sale"
    message = Text(
        "'{text}' stood there already, and {owner} is written as its owner since: {owner} is taken, and {taker} as one of "
        "before; if {taker} has it, write that as its owner"
    )
