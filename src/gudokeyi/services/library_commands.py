"""The commands that a program files, as values, and as use cases have them."""
from __future__ import annotations

import datetime
from dataclasses import dataclass

from gudokeyi.domain.animals import SocietyRecord
from gudokeyi.services.filing import FiledCommand, Offspring, born, departed, parent_named, transferred, with_parents
from gudokeyi.services.search import find
from gudokeyi.store.book import Book


@dataclass(frozen=True, slots=True)
class Birth:
    """A birth to be filed: the newborn's id, its sex, M or F, and its birth day, which may not be after today. `sire`
    and `dam` are ids, numbers or names, empty for an unknown one. An owner that the book doesn't have is a new one."""

    id: str
    sex: str
    day: datetime.date
    name: str = ""
    sire: str = ""
    dam: str = ""
    owner: str = ""
    is_embryo: bool = False


@dataclass(frozen=True, slots=True)
class Parents:
    """Other parents of an animal, each by id, number or name: empty for an unknown one, and none for the one that the
    book has."""

    animal: str
    sire: str | None = None
    dam: str | None = None


@dataclass(frozen=True, slots=True)
class Transfer:
    """Another owner of an animal from a day on. `from_owner` is who gives it, empty for the owner that the book has."""

    animal: str
    day: datetime.date
    to_owner: str
    from_owner: str = ""


@dataclass(frozen=True, slots=True)
class Exit:
    """The day on which an animal left, by death or sale."""

    animal: str
    day: datetime.date


Command = Birth | Parents | Transfer | Exit


def filed_command(stored: Book, command: Command) -> FiledCommand:
    match command:
        case Birth():
            sire, dam = (named_parent(stored, word) for word in (command.sire, command.dam))
            text = (command.id, command.sex, command.day, command.name)
            return born(stored, Offspring(*text, sire, dam, command.owner, command.is_embryo))
        case Parents():
            animal = find(stored, command.animal, may_be_file=False)
            parents = (
                None if word is None else named_parent(stored, word) or "" for word in (command.sire, command.dam)
            )
            return with_parents(stored, animal, *parents)
        case Transfer():
            animal = find(stored, command.animal, may_be_file=False)
            return transferred(stored, animal, command.day, command.to_owner, command.from_owner or None)
        case Exit():
            return departed(stored, find(stored, command.animal, may_be_file=False), command.day)


def named_parent(stored: Book, word: str) -> SocietyRecord | None:
    """None for an unknown one."""
    return parent_named(stored, word, may_be_file=False) if word else None
