"""What is told of sales within the society, and of their takers."""
from __future__ import annotations

import datetime
from collections.abc import Mapping
from dataclasses import dataclass

from gudokeyi.domain.findings import Finding, Severity, What
from gudokeyi.domain.messages import AnyOf
from gudokeyi.domain.wording import OptionalPart, Text


@dataclass(frozen=True, slots=True)
class TakerUnclear(Finding):
    """An animal was sold to somebody who may be an owner, or one or another."""

    text: str
    owners: tuple[str, ...]

    what = What.WARNING
    severity = Severity.FACTS
    code = "taker unclear"
    message = Text(
        "'{text}' may mean {which}: the animal counts as gone; if it is with {maybe_one}{maybe_several}, write that "
        "name in full"
    )
    parts = {
        "maybe_one": OptionalPart("this owner", when="is_one"),
        "maybe_several": OptionalPart("one of them", when="are_several"),
    }

    def values(self) -> Mapping[str, object]:
        is_one = len(self.owners) == 1
        return {"which": AnyOf(self.owners), "is_one": is_one, "are_several": not is_one}


@dataclass(frozen=True, slots=True)
class OwnerInExit(Finding):
    """A cell for an exit has the name of an owner of the society, and doesn't say that this one took the animal."""

    text: str
    owners: tuple[str, ...]

    what = What.WARNING
    severity = Severity.FACTS
    code = "owner in exit"
    message = Text(
        "'{text}' has the name of an owner in it, {which}: the animal counts as gone; if it is with that owner, write "
        "sold to, verkauft an or vendu à before the name"
    )

    def values(self) -> Mapping[str, object]:
        return {"which": AnyOf(self.owners)}


@dataclass(frozen=True, slots=True)
class SoldWithin(Finding):
    """An animal that was sold to an owner of the list, or of the book: it hasn't left the society."""

    owner: str
    before: str
    text: str

    what = What.INFERRED
    severity = Severity.FACTS
    code = "sold within"
    message = Text("owner {owner}{maybe_before}: '{text}' names an owner of the society, so it hasn't left")
    parts = {
        "maybe_before": OptionalPart(", before {before}"),
    }


@dataclass(frozen=True, slots=True)
class SoldThenLeft(Finding):
    """An animal that was sold to an owner of the list, or of the book, and left later."""

    owner: str
    before: str
    text: str
    behind: str

    what = What.INFERRED
    severity = Severity.FACTS
    code = "sold then left"
    message = Text(
        "owner {owner}{maybe_before}: '{text}' names an owner of the society, and its exit is '{behind}'"
    )
    parts = {
        "maybe_before": OptionalPart(", before {before}"),
    }


@dataclass(frozen=True, slots=True)
class SoldEarlier(Finding):
    """A sale to an owner of the list, or of the book, before the day since when the row's owner has the animal."""

    text: str
    taker: str
    owner: str
    since: datetime.date

    what = What.WARNING
    severity = Severity.FACTS
    code = "sold earlier"
    message = Text(
        "'{text}' tells of a sale before {since}, since when the row says that {owner} has it: {owner} stays its "
        "owner, and {taker} counts as an earlier owner; if {taker} has it, write that as its owner"
    )


@dataclass(frozen=True, slots=True)
class OwnerSold(Finding):
    """What stands for an owner tells to whom the animal was sold, or who has it now: that is an owner of others."""

    text: str
    owner: str

    what = What.WARNING
    severity = Severity.FACTS
    code = "owner sold"
    message = Text(
        "its owner is written '{text}': {owner} is taken as its owner; if that isn't so, write only the name of the "
        "one who has it"
    )
