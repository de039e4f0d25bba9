"""What an import finds of an animal's parents: each kind as data, and in words."""
from __future__ import annotations

import datetime
from collections.abc import Hashable, Iterator, Mapping
from dataclasses import dataclass

from gudokeyi.domain.findings import Finding, LeftOut, Part, Severity, What
from gudokeyi.domain.kinds import Role
from gudokeyi.domain.messages import MOST_NAMED
from gudokeyi.domain.provenance import SexSource
from gudokeyi.domain.refusals import Refusal
from gudokeyi.domain.wording import SEXES, Counted, Joined, OptionalPart, Text, Told, Word


@dataclass(frozen=True, slots=True)
class FoundByName(Finding):
    """A parent that is written by its name."""

    role: Role
    written: str
    id: str

    what = What.INFERRED
    code = "found by name"
    message = Text(
        "its {role} '{written}' is {id} by its name: if another is meant, write the id of that one"
    )


@dataclass(frozen=True, slots=True)
class FoundInBook(Finding):
    """A parent whose cell is as in the last sheet, where it was the name of an animal that has another one now."""

    role: Role
    written: str
    id: str

    what = What.INFERRED
    code = "found in book"
    message = Text(
        "its {role} '{written}' is {id} as before, which has another name now: if another is meant, write the id "
        "of that one"
    )


@dataclass(frozen=True, slots=True)
class FoundByNearId(Finding):
    """A parent whose cell differs from just one id in case, blanks or leading zeros."""

    role: Role
    written: str
    id: str

    what = What.INFERRED
    code = "found by near id"
    message = Text(
        "its {role} '{written}' is {id}, whose id differs only in case, blanks or zeros: if another is meant, "
        "give that one a row"
    )


@dataclass(frozen=True, slots=True)
class FoundByDigits(Finding):
    """A parent whose cell has the digits of just one id, with other signs between them, or with or without its
    country."""

    role: Role
    written: str
    id: str

    what = What.INFERRED
    code = "found by digits"
    message = Text(
        "its {role} '{written}' is {id}, the only id with all of these digits: if another is meant, give that one a row"
    )


@dataclass(frozen=True, slots=True)
class FoundWithin(Finding):
    """A parent whose cell has its id beside its name, or beside something else."""

    role: Role
    written: str
    id: str

    what = What.INFERRED
    code = "found within"
    message = Text("its {role} '{written}' is {id}, whose id stands there: if another is meant, write that id alone")


@dataclass(frozen=True, slots=True)
class AddedAsParent(Finding):
    """A parent without a row. It may be an animal with a row that is written otherwise: `meant` is that one, or
    `named` are those that have its text as their name."""

    role: Role
    offspring: str
    more_offspring: int
    meant: str
    named: tuple[str, ...]

    what = What.ADDED
    code = "added as parent"
    stored_fields = {"offspring": "calf", "more_offspring": "more_calves"}
    message = Counted(
        "the {role} of {offspring}{maybe_more} has no row: added without parents{maybe_have}{maybe_likely}",
        "the {role} of {offspring}{maybe_more} has no row: added without parents{maybe_have}{maybe_likely}",
        "have",
    )
    parts = {
        "maybe_more": OptionalPart(" and of {more} more"),
        "maybe_have": OptionalPart(
            " ({have} animals have this name, {first}: write the id of the one that is meant)",
            one=" ({have} animal has this name, {first}: write the id of the one that is meant)",
            value="have",
        ),
        "maybe_likely": OptionalPart(" (is {likely} meant?)"),
        "maybe_meant": OptionalPart("; is {meant} meant?"),
        "maybe_named": OptionalPart("; {named} have this name: write the id"),
    }

    def values(self) -> Mapping[str, object]:
        return {
            "more": self.more_offspring,
            "have": len(self.named) or None,
            "first": Joined(self.named[:MOST_OF_NAME]),
            "likely": "" if self.named else self.meant,
        }

    def does(self) -> Severity:
        return Severity.PARENTS if self.meant or self.named else Severity.NONE


class ParentLeftOut(LeftOut):
    part = Part.PARENT
    severity = Severity.PARENTS


@dataclass(frozen=True, slots=True)
class OwnAncestor(ParentLeftOut):
    """An animal that would be its own ancestor: the path leads from it to a parent, and on to itself."""

    role: Role
    parent: str
    path: tuple[str, ...]

    code = "own ancestor"
    message = Text("its {role} {parent} is left out: {first} would be its own ancestor ({steps})")

    def values(self) -> Mapping[str, object]:
        return {"first": Joined(self.path[:1]), "steps": path_of(self.path)}


@dataclass(frozen=True, slots=True)
class SameParentTwice(ParentLeftOut):
    parent: str

    code = "same parent twice"
    message = Text(
        "its dam {parent} is left out: {parent} is its sire too, and no animal has one parent twice"
    )


@dataclass(frozen=True, slots=True)
class DayFact(Told):
    """A day, and whether it is inferred."""

    day: datetime.date
    is_inferred: bool

    message = Text("{day}{maybe_inferred}")
    parts = {
        "maybe_inferred": OptionalPart(" (inferred)", when="is_inferred"),
    }


@dataclass(frozen=True, slots=True)
class OnLine(Told):
    line: int

    message = Text("line {line}")


@dataclass(frozen=True, slots=True)
class Born(Told):
    day: DayFact

    message = Text("born {day}")


@dataclass(frozen=True, slots=True)
class Left(Told):
    day: DayFact

    message = Text("left {day}")


# what is wrong with a parent that the program refuses
WRONG = {
    Refusal.SIRE_NOT_MALE: "it isn't male",
    Refusal.DAM_NOT_FEMALE: "it isn't female",
    Refusal.SIRE_NOT_OLDER: "it isn't at least a day older",
    Refusal.DAM_NOT_OLDER: "it isn't at least a day older",
    Refusal.DAM_LEFT_BEFORE: "it left on a day before the birth",
}


@dataclass(frozen=True, slots=True)
class ParentRefused(ParentLeftOut):
    """A parent that the program refuses, with the facts about it and about its offspring."""

    role: Role
    refusal: Refusal
    parent: str
    line: int
    sex: str
    sex_source: SexSource
    born: DayFact
    left: DayFact | None
    offspring: str
    offspring_born: DayFact

    code = "parent refused"
    stored_fields = {"offspring": "calf", "offspring_born": "calf_born"}
    message = Text(
        "its {role} {parent}{maybe_facts} is left out: {wrong} (refusal "
        "{number}){maybe_sex}{maybe_offspring}{maybe_needs_embryo}"
    )
    parts = {
        "maybe_facts": OptionalPart(" ({facts})"),
        "maybe_sex": OptionalPart("; its sex is inferred: {sex}, {sex_source}", when="sex_is_inferred"),
        "maybe_offspring": OptionalPart("; {offspring} was born {offspring_born}"),
        "maybe_needs_embryo": OptionalPart(
            "; offspring from a stored embryo needs 1 in the column embryo",
            when="needs_embryo",
        ),
        "maybe_line": OptionalPart(" (line {line})"),
        "maybe_parent_born": OptionalPart("; born on {parent_born}"),
        "maybe_parent_left": OptionalPart("; left on {parent_left}"),
    }

    def values(self) -> Mapping[str, object]:
        is_late, has_days = self.refusal is Refusal.DAM_LEFT_BEFORE, not self.is_of_sex()
        return {
            "facts": Joined(tuple(self.facts())),
            "wrong": WRONG.get(self.refusal, self.refusal),
            "number": int(self.refusal),
            "sex": SEXES.get(self.sex, self.sex),
            "sex_is_inferred": self.is_of_sex() and self.sex_source.is_inferred,
            "parent_born": self.born if has_days and not is_late else None,
            "parent_left": self.left if is_late else None,
            "offspring_born": self.offspring_born if has_days else None,
            "needs_embryo": is_late,
        }

    def facts(self) -> Iterator[Told]:
        """Of the parent, that show what is wrong."""
        if self.line:
            yield OnLine(self.line)
        if self.refusal is Refusal.DAM_LEFT_BEFORE and self.left:
            yield Left(self.left)
        elif not self.is_of_sex():
            yield Born(self.born)

    def theme(self) -> Hashable:
        return self.refusal

    def is_of_sex(self) -> bool:
        return self.refusal in (Refusal.SIRE_NOT_MALE, Refusal.DAM_NOT_FEMALE)


@dataclass(frozen=True, slots=True)
class Couple(Told):
    """Two parents of an offspring, and its line, 0 where it stands in the book alone."""

    one: str
    mate: str
    line: int

    message = Text("{one} and {mate} ({maybe_line}{maybe_of_book})")
    parts = {
        "maybe_line": OptionalPart("line {line}"),
        "maybe_of_book": OptionalPart("the book", when="is_of_book"),
    }

    def values(self) -> Mapping[str, object]:
        return {"is_of_book": not self.line}


@dataclass(frozen=True, slots=True)
class NoSexesFit(ParentLeftOut):
    """An odd number of couples in a ring; of many the last ones are here, and how many there are more."""

    dam: str
    couples: tuple[Couple, ...]
    more: int

    code = "no sexes fit"
    message = Text("its dam {dam} is left out: no choice of sexes fits all of the couples {couples}{maybe_more}")
    parts = {
        "maybe_more": OptionalPart(" and {more} more"),
    }


@dataclass(frozen=True, slots=True)
class ParentsSwapped(Finding):
    """The parents of a pedigree that are taken in each other's place, since an animal is a sire in one line and a dam
    in another; `joined_to` is the parent that couples join to it, if it isn't one itself."""

    sire: str
    dam: str
    both: str
    joined_to: str
    sire_line: int
    dam_line: int

    what = What.CHANGED
    code = "parents swapped"
    message = Text(
        "taken with the sire {its_sire} and the dam {its_dam}, since {both}{maybe_joined_to} is a sire "
        "{maybe_sire_line}{maybe_sire_of_book} and a dam {maybe_dam_line}{maybe_dam_of_book}"
    )
    parts = {
        "maybe_joined_to": OptionalPart(", which couples join to {joined_to},"),
        "maybe_sire_line": OptionalPart("in line {sire_line}"),
        "maybe_sire_of_book": OptionalPart("in the book", when="sire_of_book"),
        "maybe_dam_line": OptionalPart("in line {dam_line}"),
        "maybe_dam_of_book": OptionalPart("in the book", when="dam_of_book"),
        "maybe_sire": OptionalPart(" (sire {sire})"),
        "maybe_dam": OptionalPart(" (dam {dam})"),
    }

    def values(self) -> Mapping[str, object]:
        return {
            "its_sire": self.sire or Word.UNKNOWN,
            "its_dam": self.dam or Word.UNKNOWN,
            "sire_of_book": not self.sire_line,
            "dam_of_book": not self.dam_line,
        }


# so many of those that have a name are told
MOST_OF_NAME = 5


def path_of(ids: tuple[str, ...]) -> str:
    """The steps of a path; of a long one the first and the last."""
    more = len(ids) - MOST_NAMED
    return " > ".join(ids if more <= 0 else [*ids[: MOST_NAMED - 1], f"{more} more", ids[-1]])

