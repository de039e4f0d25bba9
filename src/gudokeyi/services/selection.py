"""Which animals somebody asks for: all of them, or those that live, of a sex, of an owner, or born within some days."""
from __future__ import annotations

import datetime
from collections.abc import Mapping
from typing import Any, NamedTuple

from gudokeyi.domain.animals import SocietyRecord
from gudokeyi.domain.messages import AnyOf
from gudokeyi.domain.mistakes import OwnerNotFound
from gudokeyi.domain.requests import Naming
from gudokeyi.domain.spelling import closest
from gudokeyi.ingest.texts import as_known as as_known
from gudokeyi.store.animal_rows import AnimalRow, society_record_of
from gudokeyi.store.book import Book
from gudokeyi.store.conditions import LIVING, Condition, all_of, born_between, of_owner, of_sex

# so many owners are named where one isn't known
MOST_NAMED = 5


class Choice(NamedTuple):
    """What an animal has to be. `sex` is M or F, and empty for both; `born` has the first and the last day."""

    living: bool = False
    sex: str = ""
    owner: str = ""
    born: tuple[datetime.date, datetime.date] | None = None

    @classmethod
    def of(cls, given: Mapping[str, Any]) -> Choice:
        """What is given for the options of a list, by their names in the code; nothing for one is no choice."""
        return cls(**{name: value for name, value in given.items() if value})

    @property
    def is_everything(self) -> bool:
        return self == Choice()


def chosen(book: Book, choice: Choice) -> list[AnimalRow]:
    """The animals, in age order."""
    return book.rows(condition_of(book, choice), in_age_order=True)


def animals_chosen(book: Book, choice: Choice) -> list[SocietyRecord]:
    """What the society knows of each of them."""
    return [society_record_of(row) for row in chosen(book, choice)]


def condition_of(book: Book, choice: Choice) -> Condition:
    """What holds for each of the animals."""
    wanted = [LIVING] * choice.living
    if choice.sex:
        wanted.append(of_sex(choice.sex))
    if choice.owner:
        wanted.append(of_owner(owner_code_named(book, choice.owner)))
    if choice.born:
        wanted.append(born_between(*choice.born))
    return all_of(wanted)


def owner_code_named(book: Book, owner: str) -> int:
    """The herd of an owner, written as in the book or with other capitals."""
    name = as_known(owner, book.owners)
    if name in book.owners:
        return book.owners[name]
    alike = [one for one in book.owners if one.casefold() == name.casefold()]
    if len(alike) == 1:
        return book.owners[alike[0]]
    parts = [one for one in book.owners if name.casefold() in one.casefold()]
    near = alike or parts[:MOST_NAMED] or closest(name, list(book.owners))
    hint = Naming.MEANT.said(names=AnyOf(near)) if near else Naming.FIND_OWNERS.said()
    raise OwnerNotFound(Naming.NO_OWNER.said(name=name, hint=hint))
