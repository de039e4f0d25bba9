"""What is told of a command that is filed by hand beside the book: an id or an owner that is nearly another one, and a
parent that was young."""
from __future__ import annotations

import collections
import datetime
import re
from collections.abc import Iterator

from gudokeyi.domain.animals import SocietyRecord
from gudokeyi.domain.kinds import Remembered, Role
from gudokeyi.domain.spelling import closest
from gudokeyi.ingest.texts import nearly, plain
from gudokeyi.reconcile.findings.by_hand import IdsAlike, OwnerMeant, YoungParent
from gudokeyi.reconcile.limits import YOUNGEST
from gudokeyi.store.book import Book
from gudokeyi.store.conditions import ANY, likeness

# Ids that differ in case, blanks or leading zeros alone.


def id_alike(book: Book, id: str, before: str = "") -> list[IdsAlike]:
    """The animal of the book whose id differs so from that of one that is filed by hand, and had another before."""
    likely = book.rows_like(id)
    alike = sorted(row.id for row in likely if row.id not in (id, before) and nearly(row.id) == nearly(id))
    return [IdsAlike(one, 0) for one in alike[:1]]


class IdsByLikeness:
    """The same for many that are filed one after the other: the book's ids are read once."""

    def __init__(self, book: Book) -> None:
        self.near: collections.defaultdict[str, set[str]] = collections.defaultdict(set)
        for _, id in book.numbers_and_ids(ANY):
            self.near[likeness(id)].add(id)

    def alike_to(self, id: str) -> list[IdsAlike]:
        """Of an id that the next ones are seen beside too."""
        likely = self.near[likeness(id)]
        alike = sorted(one for one in likely if one != id and nearly(one) == nearly(id))
        likely.add(id)
        return [IdsAlike(one, 0) for one in alike[:1]]


# An owner whom a book doesn't have: it is filed, and told where another owner may be meant.


def new_owner(book: Book, owner: str) -> Iterator[OwnerMeant]:
    meant = owner_meant(book, owner) if owner and owner not in book.owners else ""
    if meant:
        yield OwnerMeant(owner, meant)


def owner_meant(book: Book, owner: str) -> str:
    """The owner of the book whose name is nearest, empty where none is near. Numbers tell owners apart, as in `Hof
    2`."""
    numbers = re.findall(r"\d+", owner)
    by_letters = {plain(name): name for name in sorted(book.owners) if re.findall(r"\d+", name) == numbers}
    near = closest(plain(owner), [*by_letters], 1)
    return by_letters[near[0]] if near else ""


# Parents that were young.


def young_parents(
    book: Book, born: datetime.date, sire: SocietyRecord | None, dam: SocietyRecord | None
) -> Iterator[YoungParent]:
    """Those that were at least a day old, as the program refuses others, and younger than the book says. Days that were
    inferred tell nothing."""
    limit = youngest_of(book)
    for role, parent in ((Role.SIRE, sire), (Role.DAM, dam)):
        if parent and not parent.birth.is_inferred:
            days = (born - book.records[parent.registration_number].born).days
            if 0 < days < limit:
                yield YoungParent(role, parent.id, 0, days, limit)


def youngest_of(book: Book) -> int:
    """How many days old a parent is at least."""
    said = [one.word for one in book.remembered if one.what is Remembered.YOUNGEST]
    return int(said[-1]) if said else YOUNGEST
