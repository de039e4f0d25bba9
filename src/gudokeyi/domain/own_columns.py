"""The society's own columns: what it keeps of its animals beside what a herd book has, and how a value of each kind is
kept."""
from __future__ import annotations

import enum
from typing import NamedTuple

# so many columns a society has, so many letters a title and a value have, and so many choices a column has
MOST_COLUMNS, MOST_IN_TITLE, MOST_IN_VALUE, MOST_CHOICES = 60, 100, 2_000, 100
# so many letters a note has
MOST_IN_NOTE = 2_000
YES, NO = "yes", "no"


class OwnKind(enum.StrEnum):
    """What stands in a column."""

    TEXT = "text"
    NUMBER = "number"
    DAY = "day"
    YES_OR_NO = "yes-no"
    CHOICE = "choice"
    # somebody was asked for it, and it isn't kept
    NONE = "none"


KEPT = tuple(kind for kind in OwnKind if kind is not OwnKind.NONE)


class OwnColumn(NamedTuple):
    """A column by its place, which stays whatever it is called. `choices` are what stands in one of choices; one that
    is `certified` stands on certificates."""

    place: int
    title: str
    kind: OwnKind
    choices: tuple[str, ...] = ()
    is_certified: bool = False

    @property
    def is_kept(self) -> bool:
        return self.kind is not OwnKind.NONE


class OwnValue(NamedTuple):
    """A value of an animal, with the column's."""

    column: OwnColumn
    value: str


class Note(NamedTuple):
    """What somebody wrote of an animal on a day."""

    number: int
    day: str
    author: str
    text: str


class OtherDifference(NamedTuple):
    """What a change made of something beside the register: a value of a column, or a note where there is no title. Each
    is empty where there is none."""

    title: str
    kind: OwnKind
    before: str
    after: str
