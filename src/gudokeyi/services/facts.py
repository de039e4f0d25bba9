"""What a book has of an animal, by what it is called: values that a terminal and a page word in their languages."""
from __future__ import annotations

import enum
from collections.abc import Mapping
from dataclasses import dataclass

from gudokeyi.domain.animals import NO_OWNER
from gudokeyi.domain.kinds import ExitReason, Field
from gudokeyi.domain.wording import SEXES, Joined, OptionalPart, Text, Told, Word
from gudokeyi.reconcile.owner_day_known import owner_day_known
from gudokeyi.store.animal_rows import AnimalRow, birth_basis, exit_basis, society_record_of
from gudokeyi.store.book import Book


class Fact(enum.StrEnum):
    """What is had of an animal, as a terminal calls it."""

    ID = "id"
    STANDING = "standing"
    SEX = "sex"
    NUMBER = "number"
    NAME = "name"
    BIRTH_DAY = "birth day"
    SIRE = "sire"
    DAM = "dam"
    OWNER = "owner"
    OWNER_SINCE = "owner since"
    EXIT = "exit"
    EXIT_REASON = "exit reason"
    EMBRYO = "stored embryo"
    CASTRATED = "castrated"
    BIRTH_BASIS = "basis of the birth day"
    SEX_BASIS = "basis of the sex"
    WRITTEN_SIRE = "sire in the sheet"
    WRITTEN_DAM = "dam in the sheet"
    WRITTEN_EXIT = "exit in the sheet"
    BY_HAND = "filed by hand"


# each with its value, an empty text for none
Facts = Mapping[Fact, object]


@dataclass(frozen=True, slots=True)
class MarkedDay(Told):
    """A day as `2001-03-01`, with a mark behind one that the sheet doesn't give; empty for none."""

    day: str
    is_inferred: bool = False
    is_invented: bool = False

    message = Text("{day}{maybe_inferred}{maybe_invented}")
    parts = {
        "maybe_inferred": OptionalPart(" (inferred)", when="is_inferred"),
        "maybe_invented": OptionalPart(" (invented)", when="is_invented"),
    }

    def values(self) -> Mapping[str, object]:
        return {"is_inferred": self.is_inferred and not self.is_invented}


@dataclass(frozen=True, slots=True)
class UnknownExitDay(Told):
    """An exit whose day isn't known, with the cell that tells of it."""

    text: str

    message = Text("day unknown{maybe_text} (inferred)")
    page_message = Text("has left, day unknown{maybe_text_on_page}")
    parts = {
        "maybe_text": OptionalPart(": '{text}'"),
        "maybe_text_on_page": OptionalPart(" ({text})"),
    }


@dataclass(frozen=True, slots=True)
class FiledFields(Told):
    """The fields that were filed by hand."""

    fields: tuple[Field, ...]

    message = Text("{in_words}")
    page_message = Text("{fields}")

    def values(self) -> Mapping[str, object]:
        return {"in_words": Joined(sorted(self.fields), " ")}


def facts_of(row: AnimalRow, ids: Mapping[str, str], owners: Mapping[int, str]) -> Facts:
    """Those of a row, with the ids that numbers stand for, and the names of owners."""
    animal = society_record_of(row)
    return {
        Fact.ID: row.id,
        Fact.STANDING: animal.standing,
        Fact.SEX: SEXES[row.registration_number[6]],
        Fact.NUMBER: row.registration_number,
        Fact.NAME: row.name,
        Fact.BIRTH_DAY: birth_of(row),
        Fact.SIRE: ids.get(row.sire or "", row.sire or ""),
        Fact.DAM: ids.get(row.dam or "", row.dam or ""),
        Fact.OWNER: owners.get(row.owner_code or NO_OWNER, str(row.owner_code)),
        Fact.OWNER_SINCE: owner_day_of(row),
        Fact.EXIT: exit_of(row),
        Fact.EXIT_REASON: ExitReason(row.exit_reason) if row.exit_reason else "",
        Fact.EMBRYO: Word.YES if row.embryo else "",
        Fact.CASTRATED: Word.YES if animal.castrated else "",
        Fact.BIRTH_BASIS: animal.birth if animal.birth.is_inferred else "",
        Fact.SEX_BASIS: animal.sex if animal.sex.is_inferred else "",
        Fact.WRITTEN_SIRE: row.written_sire,
        Fact.WRITTEN_DAM: row.written_dam,
        Fact.WRITTEN_EXIT: exit_in_sheet(row),
        Fact.BY_HAND: FiledFields(tuple(field for field in Field if field in animal.by_hand)) if animal.by_hand else "",
    }


def birth_of(row: AnimalRow) -> MarkedDay:
    basis = birth_basis(row.birth_source, row.birth_period, row.birth_no_such_day)
    return MarkedDay(row.born or "", basis.is_inferred, basis.is_invented)


def exit_of(row: AnimalRow) -> Told | str:
    """The day of the exit, or that it is unknown; empty for an animal that hasn't left."""
    basis = exit_basis(row.exit_source, row.exit_period, row.exit_no_such_day, row.exit_text)
    if row.departed:
        return MarkedDay(row.departed, basis.is_inferred)
    return UnknownExitDay(basis.text) if basis.day_is_unknown else ""


def exit_in_sheet(row: AnimalRow) -> str:
    """What a sheet says beside the day of an exit of why the animal left."""
    return row.exit_text or "" if row.departed else ""


def owner_day_of(row: AnimalRow) -> MarkedDay:
    """The day since which the owner has it; one from the birth on has that day."""
    return MarkedDay(row.owned_since or "", bool(row.from_owner) and society_record_of(row).owner_day.is_inferred)


def owner_day_said(book: Book, row: AnimalRow) -> MarkedDay | None:
    """The same where it is known."""
    return owner_day_of(row) if owner_day_known(book, society_record_of(row), row.from_owner, row.owned_since) else None
