"""Parents without a row that may be words for unknown ones, or names of other animals: each kind as data, and in
words."""
from __future__ import annotations

from collections.abc import Mapping
from dataclasses import dataclass

from gudokeyi.domain.changes import Option
from gudokeyi.domain.findings import PlausibilityWarning, Severity, Suggestion
from gudokeyi.domain.messages import MOST_NAMED
from gudokeyi.domain.wording import Counted, Joined, OptionalPart, Text


@dataclass(frozen=True, slots=True)
class MayBeUnknown(PlausibilityWarning):
    """A parent without a row, of several animals, that may be a word for an unknown one."""

    word: str
    sire_of: int
    dam_of: int

    severity = Severity.PARENTS
    code = "may be unknown"
    message = Text("{word} has no row, and is {maybe_sire_of}{maybe_has_both}{maybe_dam_of}")
    page_message = Text(
        "'{word}' has no row, and stands with several animals{maybe_sire_of_on_page}{maybe_dam_of_on_page}: is an "
        "unknown animal meant?"
    )
    parts = {
        "maybe_sire_of": OptionalPart("the sire of {sire_of}"),
        "maybe_has_both": OptionalPart(" and ", when="has_both"),
        "maybe_dam_of": OptionalPart("the dam of {dam_of}"),
        "maybe_sire_of_on_page": OptionalPart(", as the sire of {sire_of}"),
        "maybe_dam_of_on_page": OptionalPart(", as the dam of {dam_of}"),
    }

    def values(self) -> Mapping[str, object]:
        return {"has_both": bool(self.sire_of and self.dam_of)}

    def suggestions(self) -> tuple[Suggestion, ...]:
        return (Suggestion("if it means an unknown parent", (Option("--unknown", self.word),)),)


@dataclass(frozen=True, slots=True)
class LikeNoId(MayBeUnknown):
    """A parent without a row that is written like no id of the sheet."""

    code = "like no id"
    message = Text("{word} has no row and is written like no id, and is {maybe_sire_of}{maybe_has_both}{maybe_dam_of}")
    page_message = Text(
        "'{word}' has no row, and is written like no id{maybe_sire_of_on_page}{maybe_dam_of_on_page}: is an unknown "
        "animal meant?"
    )


@dataclass(frozen=True, slots=True)
class TitleAsParent(MayBeUnknown):
    """A parent without a row that is called as columns of parents are."""

    code = "title as parent"
    message = Text(
        "{word} has no row and is what a column of parents is called, and is {maybe_sire_of}{maybe_has_both}"
        "{maybe_dam_of}: it may be no animal"
    )
    page_message = Text(
        "'{word}' has no row, and is what a column of parents is called{maybe_sire_of_on_page}{maybe_dam_of_on_page}: "
        "it may be no animal"
    )


@dataclass(frozen=True, slots=True)
class NameOfAnimals(PlausibilityWarning):
    """A parent without a row, whose text is the name of other animals."""

    word: str
    sire_of: int
    dam_of: int
    named: tuple[str, ...]

    severity = Severity.PARENTS
    code = "name of animals"
    message = Text(
        "{word} has no row, and is {maybe_sire_of}{maybe_has_both}{maybe_dam_of}{maybe_likely}{maybe_named}"
    )  # fmt: skip
    page_message = Text(
        "'{word}' has no row, and stands there{maybe_sire_of_on_page}{maybe_dam_of_on_page}{maybe_likely}{maybe_named}"
    )
    parts = MayBeUnknown.parts | {
        "maybe_likely": OptionalPart(": is {meant} meant? If so, write that id"),
        "maybe_named": OptionalPart(": {have} animals have this name, {first}: write the id of the one that is meant"),
    }

    def values(self) -> Mapping[str, object]:
        return {
            "has_both": bool(self.sire_of and self.dam_of),
            "meant": self.named[0] if len(self.named) == 1 else "",
            "have": len(self.named) if len(self.named) > 1 else None,
            "first": Joined(self.named[:MOST_NAMED]),
        }


@dataclass(frozen=True, slots=True)
class MoreMayBeUnknown(PlausibilityWarning):
    """More such parents than are told one by one."""

    count: int

    severity = Severity.PARENTS
    code = "more may be unknown"
    message = Counted(
        "{count} more parent without a row looks like a word and not like an id, and stands with several animals: the "
        "report has all that were added",
        "{count} more parents without a row look like words and not like ids, and stand with several animals: the report "
        "has all that were added",
        "count",
    )
