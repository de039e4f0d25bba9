"""What is found of a command that is filed by hand, where a sheet has the same too: each kind as data, and in words. A
call that files one needs no other kinds, and waits for none."""
from __future__ import annotations

import datetime
from collections.abc import Mapping
from dataclasses import dataclass

from gudokeyi.domain.changes import Option
from gudokeyi.domain.findings import Finding, PlausibilityWarning, Severity, Suggestion, What
from gudokeyi.domain.kinds import ChangeKind, Field, Role
from gudokeyi.domain.refusals import Refusal
from gudokeyi.domain.wording import SEXES, Counted, OptionalPart, Text, Told, Word

# what a book writes for what isn't a text of a sheet, and the facts that it writes so, where a name may be any word
WORDS_OF_BOOK: dict[str, Word] = {Word.NO_DAY.value: Word.NO_DAY, Word.YES.value: Word.YES}
OF_BOOK = ("exit", "stored embryo", "castrated")
WORDS_OF_SEX: dict[str, Word] = {word.value: word for word in SEXES.values()}


@dataclass(frozen=True, slots=True)
class NewAnimal(Finding):
    number: str

    what = What.NEW
    code = "new animal"
    message = Text("a new animal, with the number {number}")


@dataclass(frozen=True, slots=True)
class ValueChanged(Finding):
    """What a word for a field stood for before, and what it stands for now; empty for none."""

    name: str
    after: str
    before: str

    what = What.CHANGED
    code = "value changed"
    message = Text("{name}: {now}, before {former}")

    def values(self) -> Mapping[str, object]:
        said = WORDS_OF_SEX if self.name == Field.SEX else WORDS_OF_BOOK if self.name in OF_BOOK else {}
        return {
            "now": self.after or Word.NONE,
            "former": self.before or Word.NONE,
            "after": said.get(self.after, self.after),
            "before": said.get(self.before, self.before),
        }


@dataclass(frozen=True, slots=True)
class WhyRefused(Told):
    """Why a command is refused, with its owner's first day, where only that forbids it, and is inferred."""

    refusal: Refusal
    owner_since: datetime.date | None

    message = Text("{refusal} (refusal {number}){maybe_owner_since}")
    page_message = Text("{refusal}{maybe_owner_since}")
    parts = {
        "maybe_owner_since": OptionalPart(
            "; its owner's first day, {owner_since}, is inferred, and gives way to a sheet's"
        )
    }

    def values(self) -> Mapping[str, object]:
        return {"number": int(self.refusal)}


@dataclass(frozen=True, slots=True)
class CommandRefused(Finding):
    """A command that was filed by hand is refused. `owner_since` is its owner's first day, where only that forbids it,
    and is inferred."""

    command: ChangeKind
    day: str
    refusal: Refusal
    owner_since: datetime.date | None = None

    what = What.LEFT_OUT
    severity = Severity.FACTS
    code = "command refused"
    message = Text("the {command}{maybe_day} is refused: {reason}")
    parts = {
        "maybe_day": OptionalPart(" on {day}"),
    }

    def values(self) -> Mapping[str, object]:
        return {"reason": self.why()}

    def why(self) -> WhyRefused:
        return WhyRefused(self.refusal, self.owner_since)


@dataclass(frozen=True, slots=True)
class IdsAlike(PlausibilityWarning):
    """Two animals have ids that differ in case, blanks or leading zeros alone."""

    other: str
    line: int

    severity = Severity.ANIMALS
    code = "ids alike"
    message = Text(
        "its id differs from {other} ({maybe_line}{maybe_of_book}) only in case, blanks or zeros: are they one animal?"
    )
    parts = {
        "maybe_line": OptionalPart("line {line}"),
        "maybe_of_book": OptionalPart("in the book", when="is_of_book"),
    }

    def values(self) -> Mapping[str, object]:
        return {"is_of_book": not self.line}


@dataclass(frozen=True, slots=True)
class OwnerMeant(PlausibilityWarning):
    """A command names an owner whom the book didn't have, and whose name is near that of one."""

    owner: str
    meant: str

    code = "owner meant"
    message = Text("the book had no owner '{owner}' before: is '{meant}' meant?")


@dataclass(frozen=True, slots=True)
class YoungParent(PlausibilityWarning):
    """A parent that was younger than a limit when its offspring was born."""

    role: Role
    parent: str
    line: int
    days: int
    limit: int

    severity = Severity.PARENTS
    code = "young parent"
    message = Counted(
        "its {role} {parent}{maybe_line} was {days} day old at its birth, less than {limit}",
        "its {role} {parent}{maybe_line} was {days} days old at its birth, less than {limit}",
        "days",
    )
    parts = {
        "maybe_line": OptionalPart(" (line {line})"),
    }

    def suggestions(self) -> tuple[Suggestion, ...]:
        return (Suggestion("if that can be", (Option("--youngest", str(max(self.days, 0))),)),)
