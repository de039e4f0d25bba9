"""What keeps a sheet or a pedigree from being taken, though it can be read: each kind as data, and in words."""
from __future__ import annotations

import enum
from collections.abc import Mapping
from dataclasses import dataclass

from gudokeyi.domain.findings import ANYWAY, APPEND, LEAVE_OUT, Obstacle, Suggestion, columns
from gudokeyi.domain.kinds import Field
from gudokeyi.domain.messages import Worded
from gudokeyi.domain.wording import Counted, OptionalPart, Quoted, Text
from gudokeyi.reconcile.findings.plausibility import RowOf

# What keeps a sheet from being taken, though it can be read: each kind as data, and in words.

STRICT = "--strict"


class LooksLike(Worded):
    """What a sheet looks like."""

    ANOTHER_FLOCK = "another flock"
    ANOTHER_ID = "another id"
    OLDER_SHEET = "older sheet"
    PART = "part"
    PARENTS_BY_NAME = "parents by name"
    PARENTS_BY_ANOTHER_ID = "parents by another id"
    IDS_AND_MORE = "ids and more"
    SORTED_APART = "sorted apart"
    IDS_OTHERWISE = "ids written otherwise"

    def words(self) -> str:
        return LIKE_WORDS[self]


LIKE_WORDS = {
    LooksLike.ANOTHER_FLOCK: "it looks like the sheet of another flock: name its book by --book",
    LooksLike.ANOTHER_ID: (
        "it looks like the same animals with another id: name the column that has the book's ids by --columns, with "
        "id= and its title"
    ),
    LooksLike.OLDER_SHEET: (
        "it looks like an older sheet: each of its animals is in the book, and the youngest are missing; if it is "
        "another part of the list, as a second worksheet, say --append, by which the others stay"
    ),
    LooksLike.PART: "it looks like a part of the flock: if it is one, say --append, by which the others stay",
    LooksLike.PARENTS_BY_NAME: (
        "the parents seem to be written by their names: name the column that has the animals' names by "
        "--columns, with name= and its title, or write the parents' ids"
    ),
    LooksLike.PARENTS_BY_ANOTHER_ID: (
        "it looks like another id than that of the column that is read: name the one in which the parents' cells are "
        "found by --columns, with id= and its title, or the parents' columns"
    ),
    LooksLike.IDS_AND_MORE: "the cells seem to have both an id and a name: write only the ids in the parents' columns",
    LooksLike.IDS_OTHERWISE: (
        "it looks like the same animals, whose ids differ in case, blanks or zeros: write them as in the book"
    ),
    LooksLike.SORTED_APART: (
        "it looks like a sheet some of whose columns were sorted without the others, or like that of another flock: "
        "compare these rows with the book"
    ),
}


class Guard(Obstacle):
    """The sheet looks like another one than the book's. It is taken where that is wished all the same."""

    like: LooksLike

    def suggestions(self) -> tuple[Suggestion, ...]:
        return (Suggestion("if it is right all the same", (ANYWAY,)),)


@dataclass(frozen=True, slots=True)
class IdsLack(Guard):
    """No column has the ids of the book; `title` is that of the column that had them."""

    title: str
    like: LooksLike

    code = "ids lack"
    message = Text(
        "the sheet lacks the column '{title}', which had the book's ids, and no other column has them: {like}"
    )
    page_message = message


@dataclass(frozen=True, slots=True)
class ManyGone(Guard):
    """Of those that had a row in the last sheet."""

    gone: int
    had_row: int
    like: LooksLike

    code = "many gone"
    message = Counted(
        "{gone} of the {had_row} animal that had a row in the last sheet have none in this one: {like}",
        "{gone} of the {had_row} animals that had a row in the last sheet have none in this one: {like}",
        "had_row",
    )
    page_message = message

    def suggestions(self) -> tuple[Suggestion, ...]:
        is_part = self.like in (LooksLike.OLDER_SHEET, LooksLike.PART)
        part = Suggestion("if it is a part of the list, as another worksheet", (APPEND,))
        return (part,) * is_part + Guard.suggestions(self)


@dataclass(frozen=True, slots=True)
class ManyDropped(Guard):
    """More animals would be dropped than may be gone, though not all of them at once."""

    dropped: int
    had_row: int
    like: LooksLike

    code = "many dropped"
    message = Counted(
        "{dropped} of the {had_row} animal that had a row would be dropped from the book: {like}",
        "{dropped} of the {had_row} animals that had a row would be dropped from the book: {like}",
        "had_row",
    )
    page_message = message


class Changed(enum.Enum):
    """What many animals have otherwise than in the book."""

    NAMES_AND_BIRTH_DAYS = "names and birth days"
    BIRTH_DAYS = "birth days"
    # the name of one is that of another in the book
    NAMES = "names, which are those of others,"
    PARENTS = "parents, or none,"
    SEXES = "sexes"


@dataclass(frozen=True, slots=True)
class ManyOthers(Guard):
    """Animals that have something otherwise than in the book, of those that are in both."""

    what_changed: Changed
    changed: int
    both: int
    first: tuple[RowOf, ...]
    like: LooksLike

    code = "many others"
    message = Counted(
        "{changed} of {both} animal have other {what_changed} than in the book, the first are {first}: {like}",
        "{changed} of {both} animals have other {what_changed} than in the book, the first are {first}: {like}",
        "both",
    )
    page_message = message


@dataclass(frozen=True, slots=True)
class ExitsEmptied(Guard):
    """The column of exits tells of none, and many of the animals have left in the book: how many, and the first."""

    title: str
    animals: int
    first: tuple[RowOf, ...]

    code = "exits emptied"
    message = Counted(
        "the column '{title}' tells of no exit, and {animals} animal that had left would count as living again, "
        "{first}: was it emptied?",
        "the column '{title}' tells of no exit, and {animals} animals that had left would count as living again, the "
        "first are {first}: was it emptied?",
        "animals",
    )
    page_message = message

    def suggestions(self) -> tuple[Suggestion, ...]:
        of_none = Suggestion("if the sheet doesn't tell of exits", (columns({Field.EXIT: ""}),))
        return (of_none, *Guard.suggestions(self))


@dataclass(frozen=True, slots=True)
class ParentsLack(Guard):
    """Most parents have neither a row nor a place in the book; `title` is that of a column in which they are found."""

    lost: int
    links: int
    texts: tuple[str, ...]
    like: LooksLike
    title: str

    code = "parents lack"
    message = Text("{lost} of {links} parents have no row, the first are {first}: {like}")
    page_message = Text("{lost} of {links} parents have no row, the first are {texts}: {like}")

    def values(self) -> Mapping[str, object]:
        return {"first": Quoted(self.texts)}

    def suggestions(self) -> tuple[Suggestion, ...]:
        anyway = Guard.suggestions(self)
        if not self.title:
            return anyway
        option = columns({Field.NAME: self.title})
        return (Suggestion(f"if '{self.title}' has the names", (option,)), *anyway)


@dataclass(frozen=True, slots=True)
class LettersUnsaid(Obstacle):
    """Nobody said with what the numbers of a new book begin."""

    has_breed: bool
    has_country: bool

    code = "letters unsaid"
    message = Text(
        "each animal gets a number that begins with its breed and country, which nobody said yet: say them once by "
        "--breed and --country, three letters each, as --breed SKU --country DEU"
    )
    page_message = Text(
        "each animal gets a number that begins with its breed and country, which nobody said yet: write both, and look "
        "anew"
    )


@dataclass(frozen=True, slots=True)
class NoRowTaken(Obstacle):
    """Each row is left out."""

    path: str

    code = "no row taken"
    message = Text("{path} has no row that can be taken")


@dataclass(frozen=True, slots=True)
class StrictlyNothing(Obstacle):
    """Something would be left out, and `--strict` is wished."""

    left_out: str

    code = "strictly nothing"
    message = Text("{left_out}: with --strict nothing is taken")
    page_message = Text("nothing is taken, since something would be left out")

    def suggestions(self) -> tuple[Suggestion, ...]:
        return (Suggestion("to take the rest", without=(STRICT,)),)


# What keeps a pedigree from being taken, since coefficients would change: each kind as data, and in words.


@dataclass(frozen=True, slots=True)
class LinksLost(Obstacle):
    """Links of a pedigree that can't stand in a book."""

    links: int

    code = "links lost"
    message = Counted(
        "{links} link can't stand in a book, and to leave a link out changes coefficients: correct the lines, or take "
        "the pedigree without",
        "{links} links can't stand in a book, and to leave a link out changes coefficients: correct the lines, or "
        "take the pedigree without",
        "links",
    )

    def suggestions(self) -> tuple[Suggestion, ...]:
        return (Suggestion("to take it without them", (LEAVE_OUT,)),)


@dataclass(frozen=True, slots=True)
class IdsUsedAgain(Obstacle):
    """Lines whose ids the book has for other animals."""

    lines: int

    code = "ids used again"
    message = Counted(
        "{lines} line has an id that the book has for another animal, and to take one for the other changes "
        "coefficients",
        "{lines} lines have ids that the book has for another animal, and to take one for the other changes "
        "coefficients",
        "lines",
    )

    def suggestions(self) -> tuple[Suggestion, ...]:
        return (Suggestion("if they are the same animals", (ANYWAY,)),)


@dataclass(frozen=True, slots=True)
class SiresAndDams(Obstacle):
    """Animals of a pedigree that are both; the first of them are told."""

    animals: int
    told: str

    code = "sires and dams"
    message = Counted(
        "{animals} animal is both sire and dam: {told}. A book has each animal as a male or as a female, and to "
        "leave a link out changes coefficients",
        "{animals} animals are both sire and dam: {told}. A book has each animal as a male or as a female, and to "
        "leave a link out changes coefficients",
        "animals",
    )

    def suggestions(self) -> tuple[Suggestion, ...]:
        case = "to exchange parents where that changes no coefficient, and to leave out the links that no choice of sexes fits"
        return (Suggestion(case, (LEAVE_OUT,)),)


@dataclass(frozen=True, slots=True)
class ParentsAlike(Obstacle):
    """Parents without a line that differ from an animal's id in how they are written alone; the first of them are told.
    Some of them may be numbers as programs write them."""

    parents: int
    told: str
    are_numbers: bool

    code = "parents alike"
    message = Counted(
        (
            "{parents} parent has no line, and an animal that has one differs in capitals, blanks, signs, zeros, "
            "look-alike letters or the form of a number: {told}. To take a founder in its place changes "
            "coefficients: {maybe_are_numbers}{maybe_are_words}"
        ),
        (
            "{parents} parents have no line, and an animal that has one differs in capitals, blanks, signs, zeros, "
            "look-alike letters or the form of a number: {told}. To take a founder in its place changes "
            "coefficients: {maybe_are_numbers}{maybe_are_words}"
        ),
        "parents",
    )
    parts = {
        "maybe_are_numbers": OptionalPart(
            "write them as whole numbers, without a point or an exponent", when="are_numbers"
        ),
        "maybe_are_words": OptionalPart("write them the same way", when="are_words"),
    }

    def values(self) -> Mapping[str, object]:
        return {"are_words": not self.are_numbers}

    def suggestions(self) -> tuple[Suggestion, ...]:
        return (Suggestion("if they are other animals, to take them as founders", (LEAVE_OUT,)),)


@dataclass(frozen=True, slots=True)
class ParentsNamed(Obstacle):
    """Parents without a line that are names of animals of the book; the first of them are told."""

    parents: int
    told: str

    code = "parents named"
    message = Counted(
        "{parents} parent has no line and is the name of an animal of the book: {told}. To take another animal for "
        "a parent changes coefficients: write the ids",
        "{parents} parents have no line and are names of an animal of the book: {told}. To take another animal for "
        "a parent changes coefficients: write the ids",
        "parents",
    )

    def suggestions(self) -> tuple[Suggestion, ...]:
        return (Suggestion("to take those of these names where they can be the parents", (LEAVE_OUT,)),)


@dataclass(frozen=True, slots=True)
class NumbersShortened(Obstacle):
    """Ids and parents that are numbers in their short form, as `1.23457E+11`; the first of them are told."""

    cells: int
    told: str

    code = "numbers shortened"
    message = Counted(
        "{cells} id is a number in the short form, in which digits may be lost: {told}. To take one animal for "
        "another changes coefficients: read ids as texts, and write these (in pandas by dtype=str, in R by colClasses)",
        "{cells} ids are numbers in the short form, in which digits may be lost: {told}. To take one animal for "
        "another changes coefficients: read ids as texts, and write these (in pandas by dtype=str, in R by colClasses)",
        "cells",
    )

    def suggestions(self) -> tuple[Suggestion, ...]:
        return (Suggestion("to take them as they are written", (LEAVE_OUT,)),)


@dataclass(frozen=True, slots=True)
class NumbersTwice(Obstacle):
    """Ids that are those of others as numbers; the first of them are told."""

    ids: int
    told: str

    code = "numbers twice"
    message = Counted(
        "{ids} id is the number of another animal in another form: {told}. To take one animal for two changes "
        "coefficients: write ids as whole numbers, without a point or an exponent",
        "{ids} ids are numbers of another animal in another form: {told}. To take one animal for two changes "
        "coefficients: write ids as whole numbers, without a point or an exponent",
        "ids",
    )

    def suggestions(self) -> tuple[Suggestion, ...]:
        return (Suggestion("to take them as they are written", (LEAVE_OUT,)),)
