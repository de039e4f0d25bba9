"""The herd book once more, in a few lines and without any care for speed: its records, and which commands it refuses.

Relationships are the entries of the tabular method, as fractions. A command file is taken apart by Python's `csv`, so
this speaks only of files without a line fault.
"""
from __future__ import annotations

import csv
import datetime
import functools
import io
from collections.abc import Callable, Iterable
from fractions import Fraction

MOST_ANIMALS, MOST_DEPTH = 60_000, 60

# a number and whether it is the answer
Test = tuple[int, object]
# of two animals, or of none: their entry of the tabular method
Relationship = Callable[[str | None, str | None], Fraction]


class Animal:
    """A record."""

    def __init__(self, birth: datetime.date, sire: str | None, dam: str | None, herd: str, embryo: bool) -> None:
        self.birth, self.sire, self.dam, self.herd, self.embryo = birth, sire, dam, herd, embryo
        self.since = birth
        self.left: datetime.date | None = None


def day(text: str) -> datetime.date:
    return datetime.date.fromisoformat(text)


def parent(text: str) -> str | None:
    return None if text in ("", "0") else text


def first_of(tests: Iterable[Test]) -> int | None:
    """The number of the first test that holds."""
    return next((code for code, holds in tests if holds), None)


class Book:
    """The records, by number, in order of registration."""

    def __init__(self) -> None:
        self.animals: dict[str, Animal] = {}

    def depth_with(self, number: str, sire: str | None, dam: str | None) -> int:
        """The longest line of known parents in the book in which the number has these parents."""
        parents = {it: (animal.sire, animal.dam) for it, animal in self.animals.items()}
        parents[number] = (sire, dam)
        depths: dict[str, int] = {}

        def depth(one: str, above: frozenset[str]) -> int:
            if one in above:
                return MOST_DEPTH + 1
            if one not in depths:
                depths[one] = max([0] + [1 + depth(it, above | {one}) for it in parents.get(one, ()) if it])
            return depths[one]

        return max(depth(one, frozenset()) for one in parents)

    def fault_of_parents(
        self, number: str, birth: datetime.date, sire: str | None, dam: str | None, embryo: bool
    ) -> int | None:
        father, mother = self.animals.get(sire or ""), self.animals.get(dam or "")
        fault = first_of([
            (3, sire and not father),
            (4, dam and not mother),
            (5, sire and sire[6] != "M"),
            (6, dam and dam[6] != "F"),
            (7, father and father.birth >= birth),
            (8, mother and mother.birth >= birth),
            (9, mother and not embryo and mother.left and mother.left < birth),
        ])  # fmt: skip
        return fault or (10 if self.depth_with(number, sire, dam) > MOST_DEPTH else None)

    def birth(self, fields: dict[str, str]) -> int | None:
        number, birth, herd, embryo = fields["animal"], day(fields["day"]), fields["to"], fields.get("embryo") == "1"
        sire, dam = parent(fields["sire"]), parent(fields["dam"])
        if number in self.animals:
            return 1
        if len(self.animals) >= MOST_ANIMALS:
            return 2
        fault = self.fault_of_parents(number, birth, sire, dam, embryo)
        if not fault:
            self.animals[number] = Animal(birth, sire, dam, herd, embryo)
        return fault

    def parents(self, fields: dict[str, str]) -> int | None:
        animal = self.animals.get(fields["animal"])
        if animal is None:
            return 11
        sire, dam = parent(fields["sire"]), parent(fields["dam"])
        fault = self.fault_of_parents(fields["animal"], animal.birth, sire, dam, animal.embryo)
        if not fault:
            animal.sire, animal.dam = sire, dam
        return fault

    def transfer(self, fields: dict[str, str]) -> int | None:
        animal, on = self.animals.get(fields["animal"]), day(fields["day"])
        if animal is None:
            return 11
        fault = first_of([
            (12, animal.left),
            (13, animal.herd != fields["from"]),
            (15, fields["from"] == fields["to"]),
            (14, on < animal.since),
        ])  # fmt: skip
        if not fault:
            animal.herd, animal.since = fields["to"], on
        return fault

    def exit(self, fields: dict[str, str]) -> int | None:
        animal, on = self.animals.get(fields["animal"]), day(fields["day"])
        if animal is None:
            return 11
        calves = [it for it in self.animals.values() if it.dam == fields["animal"] and not it.embryo]
        fault = first_of([(12, animal.left), (14, on < animal.since), (16, any(it.birth > on for it in calves))])
        if not fault:
            animal.left = on
        return fault

    def by_age(self) -> list[str]:
        return sorted(self.animals, key=lambda it: (self.animals[it].birth, it))

    def ranks(self) -> dict[str, int]:
        return {number: rank for rank, number in enumerate(self.by_age())}

    def relationships(self) -> Relationship:
        ranks = self.ranks()

        @functools.cache
        def entry(one: str | None, other: str | None) -> Fraction:
            if one is None or other is None:
                return Fraction(0)
            if one == other:
                return 1 + entry(self.animals[one].sire, self.animals[one].dam) / 2
            older, younger = sorted((one, other), key=ranks.__getitem__)
            animal = self.animals[younger]
            return (entry(older, animal.sire) + entry(older, animal.dam)) / 2

        return entry


def commands(text: str) -> list[dict[str, str]]:
    return list(csv.DictReader(io.StringIO(text)))


# many runs ask for the same file
@functools.lru_cache(maxsize=4)
def filed(text: str) -> tuple[Book, list[int | None]]:
    """The book after the commands of a file, and the refusal of each, or none. Neither is to be changed."""
    book = Book()
    return book, [getattr(book, fields["kind"])(fields) for fields in commands(text)]
