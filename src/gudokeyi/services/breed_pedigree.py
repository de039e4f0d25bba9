"""The pedigree of a book, as the measures of its breed read it, and who of it is the reference population."""
from __future__ import annotations

import datetime
from collections.abc import Callable, Collection, Sequence
from dataclasses import dataclass
from fractions import Fraction

from gudokeyi.domain.animals import SocietyRecord
from gudokeyi.domain.kinds import ChangeKind, Standing
from gudokeyi.domain.mistakes import OwnerNotFound
from gudokeyi.domain.provenance import BirthSource, ExitSource
from gudokeyi.domain.requests import Naming
from gudokeyi.genetics.breed_state import State
from gudokeyi.genetics.pedigree import COEFFICIENT_BITS, UNKNOWN, Pedigree
from gudokeyi.ingest.texts import as_known
from gudokeyi.store.animal_rows import AnimalRow, society_record_of
from gudokeyi.store.book import Book
from gudokeyi.store.coefficients import kept_coefficients
from gudokeyi.store.history import all_changes


@dataclass(frozen=True)
class Breed:
    """A book's animals by rank, as its rows have them, and their pedigree."""

    book: Book
    rows: list[AnimalRow]
    ranks: dict[str, int]
    pedigree: Pedigree

    def animal(self, rank: int) -> SocietyRecord:
        return society_record_of(self.rows[rank])

    def born(self, rank: int) -> datetime.date:
        """Its birth day, which may be inferred."""
        return day_of(self.rows[rank])

    def is_living(self, rank: int) -> bool:
        """Is it there, and one that the society has a row for?"""
        row = self.rows[rank]
        return Standing(row.standing).is_listed() and not has_left(row)


def has_left(row: AnimalRow) -> bool:
    return row.departed is not None or row.exit_source == ExitSource.UNKNOWN_DAY.value


def day_of(row: AnimalRow) -> datetime.date:
    return datetime.date.fromisoformat(row.born or "")


def breed_of(book: Book) -> Breed:
    by_number = {row.registration_number: row for row in book.all_rows}
    inbred = kept_coefficients(book)
    ranks = {number: rank for rank, number in enumerate(inbred)}
    rows = [by_number[number] for number in ranks]
    given = BirthSource.GIVEN.value
    return Breed(
        book,
        rows,
        ranks,
        Pedigree(
            [row.id for row in rows],
            [ranks[row.sire] if row.sire else UNKNOWN for row in rows],
            [ranks[row.dam] if row.dam else UNKNOWN for row in rows],
            [units_of(one.fraction) for one in inbred.values()],
            [day_of(row) if row.birth_source == given else None for row in rows],
            [row.registration_number[6] == "M" for row in rows],
        ),
    )


def units_of(fraction: str) -> int:
    """A coefficient in units of 2^-120."""
    numerator, _, denominator = fraction.partition("/")
    return (int(numerator) << COEFFICIENT_BITS) // int(denominator or 1)


def living(breed: Breed) -> list[int]:
    """The living animals that the society has a row for."""
    return [rank for rank in range(len(breed.rows)) if breed.is_living(rank)]


def all_seem_living(breed: Breed) -> bool:
    """Is it a pedigree that says nothing of exits, so that each animal that has a line counts as living?"""
    taken = {change.kind for change in all_changes(breed.book.connection)} & {ChangeKind.TAKE, ChangeKind.PEDIGREE}
    return taken == {ChangeKind.PEDIGREE} and not any(map(has_left, breed.rows))


def born_between(breed: Breed, first: datetime.date, last: datetime.date) -> list[int]:
    """The animals born in these days; of an inferred birth day at least the year is known."""
    with_year = (BirthSource.GIVEN.value, BirthSource.PERIOD.value)
    return [
        rank for rank, row in enumerate(breed.rows) if row.birth_source in with_year and first <= day_of(row) <= last
    ]


def owned_by(breed: Breed, owner: str) -> list[int]:
    """The owner's living animals."""
    name = as_known(owner, breed.book.owners)
    owner_code = breed.book.owners.get(name)
    if owner_code is None:
        raise OwnerNotFound(Naming.NO_OWNER.said(name=name, hint=Naming.AS_IN_SHEET.said()))
    return [rank for rank in living(breed) if breed.rows[rank].owner_code == owner_code]


def among(breed: Breed, animals: Collection[SocietyRecord]) -> list[int]:
    return sorted({breed.ranks[animal.registration_number] for animal in animals})


def mean_kinships_of(breed: Breed, population: Sequence[int]) -> dict[str, Fraction]:
    """Each animal's mean kinship with a population, by its number."""
    from gudokeyi.genetics.kinship import Kinship

    of_each = Kinship.of(breed.pedigree).mean_of_each(population)
    return {row.registration_number: of_each[at] for at, row in enumerate(breed.rows)}


def state_of_breed(breed: Breed, population: Sequence[int], tell: Callable[[str], None]) -> State:
    """The measures of a reference population, by the animals' ranks. `tell` is told of each step of the work."""
    from gudokeyi.genetics.breed_state import state_of

    return state_of(breed.pedigree, population, tell)
