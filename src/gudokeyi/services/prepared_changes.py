"""A change that is prepared while others work: what it writes, and what it stands on."""
from __future__ import annotations

from collections.abc import Mapping
from dataclasses import dataclass

from gudokeyi.domain.changes import Change, ChangeDetails
from gudokeyi.domain.settings import Setting
from gudokeyi.services.book_program import BookProgram
from gudokeyi.services.writing import FindState, write
from gudokeyi.store.book import Book
from gudokeyi.store.journal import Filed
from gudokeyi.store.state import State


@dataclass(frozen=True)
class Basis:
    """What a change stands on that may be put behind what others file meanwhile: the state that it makes, of each table
    with the rows that change alone; the greatest digits of a number before it, how many animals the book has behind it,
    the settings, the owners by the names by which they came, and whether it says how owners are called."""

    state: State
    greatest: int
    animals: int
    settings: Mapping[Setting, str]
    owners: Mapping[str, int]
    names_owners: bool


@dataclass(frozen=True)
class Prepared:
    """A change that is to be made of the book after the change `before`, or of one that isn't there. Without a basis it
    stands behind no other change."""

    before: Change | None
    filed: Filed
    state: FindState
    made: ChangeDetails
    basis: Basis | None = None


def save(book: Book, program: BookProgram, prepared: Prepared) -> Change:
    """The change, after which `book`, the book before it, is read no more."""
    return write(book, program, prepared.filed, prepared.state, prepared.made)
