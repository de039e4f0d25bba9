"""What is found of several ids that are written unlike the others in one way: each kind as data, and in words."""
from __future__ import annotations

from collections.abc import Mapping, Sequence
from dataclasses import dataclass

from gudokeyi.domain.findings import Severity, Suggestion, is_no_animal
from gudokeyi.domain.messages import MOST_NAMED
from gudokeyi.domain.wording import Counted, Joined, OptionalPart
from gudokeyi.ingest.findings.columns import SheetFinding
from gudokeyi.ingest.findings.sheets import MOST_SHOWN


@dataclass(frozen=True, slots=True)
class OddIds(SheetFinding):
    """Ids that are taken as they stand, and may be written wrongly: how many, the first line, the first ones, and a
    usual one."""

    count: int
    line: int
    ids: tuple[str, ...]
    usual: str

    severity = Severity.ANIMALS
    parts = {"maybe_more": OptionalPart(" and {more} more")}

    def values(self) -> Mapping[str, object]:
        return {"said": Joined(self.ids[:MOST_SHOWN]), "more": self.count - len(self.ids[:MOST_SHOWN])}


@dataclass(frozen=True, slots=True)
class IdsWithFewerDigits(OddIds):
    """Ids whose numbers may have lost their zeros."""

    code = "ids with fewer digits"
    message = Counted(
        "{count} id has fewer digits than nearly all others, such as {usual}: {said}{maybe_more}, in line {line}: did a "
        "spreadsheet take its zeros? Give the column the format text, and write it anew",
        "{count} ids have fewer digits than nearly all others, such as {usual}: {said}{maybe_more}, the first in line "
        "{line}: did a spreadsheet take their zeros? Give the column the format text, and write them anew",
        "count",
    )


@dataclass(frozen=True, slots=True)
class IdsOfOtherAlphabet(OddIds):
    """Ids with letters that look like those of the others, and are none of them."""

    code = "ids of other alphabet"
    message = Counted(
        "{count} id has a letter of another alphabet that looks like one of nearly all others, such as {usual}: {said}"
        "{maybe_more}, in line {line}: write it anew",
        "{count} ids have letters of another alphabet that look like those of nearly all others, such as {usual}: {said}"
        "{maybe_more}, the first in line {line}: write them anew",
        "count",
    )


@dataclass(frozen=True, slots=True)
class IdsUnlikeOthers(OddIds):
    """Ids that are written in one way unlike nearly all others."""

    code = "ids unlike others"
    message = Counted(
        "{count} id is written unlike nearly all others, such as {usual}: {said}{maybe_more}, in line {line}: is that row "
        "one animal? It is taken as one",
        "{count} ids are written unlike nearly all others, such as {usual}: {said}{maybe_more}, the first in line {line}: "
        "is each of these rows one animal? They are taken as such",
        "count",
    )

    def suggestions(self) -> tuple[Suggestion, ...]:
        are_all = self.count == len(self.ids) <= MOST_NAMED
        return (Suggestion("if none of them is one", tuple(map(is_no_animal, self.ids))),) if are_all else ()


@dataclass(frozen=True, slots=True)
class IdsWithMore(OddIds):
    """Ids with a sign or a letter more than the others, without which parents' cells have them."""

    written: str

    decides_much = True
    code = "ids with more"
    message = Counted(
        "{count} id has a letter, a sign or a blank more than the others: {said}{maybe_more}, in line {line}; parents' cells "
        "have it without, as {written}: write it alike in both",
        "{count} ids have a letter, a sign or a blank more than the others: {said}{maybe_more}, the first in line {line}; "
        "parents' cells have such ids without, as {written}: write them alike in both",
        "count",
    )


def first_of(ids: Sequence[str]) -> tuple[str, ...]:
    """So many as are kept of several ids."""
    return tuple(ids[:MOST_NAMED])
