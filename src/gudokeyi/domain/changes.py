"""The changes of a book: each has a number, and what is kept of how it came."""
from __future__ import annotations

import datetime
from dataclasses import dataclass, field
from typing import NamedTuple

from gudokeyi.domain.kinds import ChangeKind

# by which a state of a book is known: its last change, and when that was made, since where a copy was restored another
# change may have the number
Mark = tuple[int, int]
NO_MARK: Mark = (0, 0)


class Source(NamedTuple):
    """The file that a change came from: its name, where it was, and its digest (SHA-256)."""

    name: str
    path: str
    digest: str


class StoredFinding(NamedTuple):
    """What a change told: its kind and part, the line of the sheet (0 for none), the animal's id, and what else it
    says, each with its name."""

    kind: str
    part: str
    line: int
    id: str
    fields: tuple[tuple[str, str], ...]


class Option(NamedTuple):
    """An option with which a change was made, and its word, empty for one that has none."""

    option: str
    word: str = ""


class ChangeDetails(NamedTuple):
    """How a change is made: what is kept of it beside the state."""

    kind: ChangeKind
    source: Source | None = None
    options: tuple[Option, ...] = ()
    counts: tuple[tuple[str, int], ...] = ()
    told: tuple[StoredFinding, ...] = ()
    # for an undo the change whose state it brings back
    undone_to: int | None = None
    # who makes it, empty for whom the system names
    login: str = ""
    # the token of the form by which it is made, empty for none
    form: str = ""


@dataclass(frozen=True, slots=True)
class Change:
    """A change as the book has it: its number, from 1 on, what it was, when, and who made it. After it the journal is
    that of an edition up to a length. `source` is the file that it came from, `counts` how much it did of what, and
    `undone_to` of an undo the change whose state it brought back, 0 for the empty book."""

    number: int
    kind: ChangeKind
    time: datetime.datetime
    login: str
    edition: int
    length: int
    source: Source | None = None
    options: tuple[Option, ...] = ()
    counts: dict[str, int] = field(default_factory=dict)
    undone_to: int | None = None

    @property
    def moment(self) -> int:
        """Its time in nanoseconds since 1970 began, which its exports have as the time when they were changed."""
        return round(self.time.timestamp() * 1_000_000) * 1000

    @property
    def mark(self) -> Mark:
        return self.number, self.moment
