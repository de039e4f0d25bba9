"""The answers that a program gets of a book, made of what use cases find."""
from __future__ import annotations

import datetime
from collections.abc import Sequence
from typing import TYPE_CHECKING

from gudokeyi.domain.animals import SocietyRecord
from gudokeyi.services.library_values import Animal, BreedState, Contribution, Imported
from gudokeyi.store.animal_rows import AnimalRow, society_record_of
from gudokeyi.store.book import Book
from gudokeyi.store.coefficients import Coefficient, kept_coefficients

if TYPE_CHECKING:
    from gudokeyi.reconcile.outcome import Outcome
    from gudokeyi.services.breed_pedigree import Breed


def breed_state(breed: Breed, ranks: Sequence[int]) -> BreedState:
    from gudokeyi.services.breed_pedigree import state_of_breed

    found, ids = state_of_breed(breed, ranks, lambda _: None), breed.pedigree.ids
    founders, ancestors = (
        tuple(Contribution(ids[one.rank], one.is_parent_of, one.share) for one in those)
        for those in (found.founders, found.ancestors.ancestors)
    )
    return BreedState(
        tuple(ids[rank] for rank in ranks), {name.value: one for name, one in found.measures.items()},
        tuple(found.years), tuple(found.completeness), found.intervals, founders, ancestors,
        {ids[rank]: kinship for rank, kinship in found.mean_kinships},
    )  # fmt: skip


def imported_value(outcome: Outcome, notes: Sequence[str]) -> Imported:
    """What an import made, or would make."""
    after = outcome.after
    return Imported(
        outcome.call.change, after.animals if after else 0, after.new if after else 0,
        tuple(outcome.report.in_order()), outcome.obstacles, tuple(notes),
    )  # fmt: skip


def animals_of(stored: Book, rows: Sequence[AnimalRow]) -> tuple[Animal, ...]:
    """The animals of rows."""
    from gudokeyi.store.queries import check_coefficients

    check_coefficients(stored)
    coefficients = kept_coefficients(stored)
    return tuple(animal_of(stored, row, coefficients[row.registration_number]) for row in rows)


def animal_of(stored: Book, row: AnimalRow, coefficient: Coefficient) -> Animal:
    animal: SocietyRecord = society_record_of(row)
    day, ids = datetime.date.fromisoformat, stored.ids
    left = day(row.departed) if row.departed else None
    return Animal(
        id=row.id,
        registration_number=row.registration_number,
        name=row.name,
        sex=row.registration_number[6],
        born=day(row.born or ""),
        sire=ids[row.sire] if row.sire else "",
        dam=ids[row.dam] if row.dam else "",
        owner=stored.owner_of(row.owner_code or 0),
        owner_since=day(row.owned_since or ""),
        left=left,
        has_left=left is not None or animal.exit.day_is_unknown,
        is_embryo=row.embryo == 1,
        is_castrated=animal.castrated,
        standing=animal.standing,
        coefficient=coefficient,
        birth_basis=animal.birth,
        exit_basis=animal.exit,
        sex_source=animal.sex,
    )


def ways_of(count: int) -> tuple[str, ...]:
    """The ways to ancestors so many parents away, sires first."""
    return tuple(way + letter for way in ways_of(count - 1) for letter in "SD") if count else ("",)
