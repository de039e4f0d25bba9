"""An animal's parents, offspring and sibs, and who bred it."""
from __future__ import annotations

import datetime
import functools
import itertools
from collections.abc import Iterable, Mapping, Sequence
from dataclasses import dataclass
from typing import TYPE_CHECKING

from gudokeyi.domain.animals import LETTERS, SocietyRecord
from gudokeyi.domain.kinds import Role
from gudokeyi.domain.own_columns import OwnColumn
from gudokeyi.store.animal_rows import (
    SEX_SOURCES as SEX_SOURCES, AnimalRow as AnimalRow, society_record_of as society_record_of,
)  # fmt: skip
from gudokeyi.store.book import Book
from gudokeyi.store.coefficients import (
    Coefficient as Coefficient, coefficients_among as coefficients_among, kept_coefficients as kept_coefficients,
)  # fmt: skip
from gudokeyi.store.conditions import among, descends_to, offspring_of, with_digits
from gudokeyi.store.former_ids import former_ids_of
from gudokeyi.store.journal import commands_of
from gudokeyi.store.own_data import columns_now, values_at

if TYPE_CHECKING:
    from gudokeyi.reconcile.rewriting import Life

# so many generations further back it is looked whether an ancestor stands on both sides
MORE_GENERATIONS = 3


@dataclass(frozen=True)
class Relatives:
    """Each list is in age order. A parent that isn't known has no row; offspring go by the number of the other parent,
    empty where that isn't known."""

    parents: dict[Role, AnimalRow | None]
    offspring: dict[str, list[AnimalRow]]
    full_sibs: list[AnimalRow]
    half_sibs: dict[Role, list[AnimalRow]]


def relatives_of(book: Book, animal: SocietyRecord) -> Relatives:
    record = book.records[animal.registration_number]
    parents = {role: record.parent(role) for role in Role}
    rows = {role: book.row_of(number) for role, number in parents.items()}
    with_parent = {role: offspring_rows(book, number, role) if number else [] for role, number in parents.items()}
    sibs = [row for row in with_parent[Role.SIRE] if row.registration_number != animal.registration_number]
    full = [row for row in sibs if row.dam and row.dam == record.dam]
    are_full = {row.registration_number for row in full} | {animal.registration_number}
    halves = {role: [row for row in with_parent[role] if row.registration_number not in are_full] for role in Role}
    own = Role.SIRE if animal.is_male else Role.DAM
    return Relatives(rows, by_partner(offspring_rows(book, animal.registration_number, own), own), full, halves)


def read_line(book: Book, number: str, generations: int) -> None:
    """Reads an animal and its ancestors at once, so many generations of them and those that may stand there too, for
    whoever shows them."""
    book.read_at_once(descends_to(number, generations + MORE_GENERATIONS))


def family_coefficients(book: Book, relatives: Relatives) -> Mapping[str, Coefficient]:
    """The coefficients, of which those of the animals that were read, of relatives and of partners are read at once,
    with the partners themselves."""
    book.read_at_once(among([*filter(None, relatives.offspring)]))
    rows = [*itertools.chain(*relatives.offspring.values(), relatives.full_sibs, *relatives.half_sibs.values())]
    return kept_coefficients(book, [*book.rows_read, *(row.registration_number for row in rows)])


def former_ids(book: Book, known: SocietyRecord) -> list[str]:
    """The ids that an animal had before its was corrected, the first one first."""
    return former_ids_of(book, known.digits)


def animal_numbered(book: Book, number: str) -> SocietyRecord | None:
    """The animal with a number, also with one that it had while its sex, breed or country was another; none where there
    is none."""
    digits = number[LETTERS:]
    return book.read_numbered(number) or next((society_record_of(row) for row in book.rows(with_digits(digits))), None)


def offspring_rows(book: Book, number: str, role: Role) -> list[AnimalRow]:
    """Those of which an animal is the sire, or the dam, in age order."""
    return book.rows(offspring_of(number, role), in_age_order=True)


def by_partner(offspring: Sequence[AnimalRow], role: Role) -> dict[str, list[AnimalRow]]:
    found: dict[str, list[AnimalRow]] = {}
    for row in offspring:
        partner = row.dam if role is Role.SIRE else row.sire
        found.setdefault(partner or "", []).append(row)
    return found


# Who bred an animal: whom the society's own column names, or else who had its dam when it was born.

# how such a column is called
OF_BREEDERS = {
    "breeder", "bred by", "breeder name", "name of breeder", "breeder's name", "züchter", "züchterin", "gezüchtet von",
    "züchtername", "name des züchters", "éleveur", "eleveur", "éleveuse", "naisseur", "naisseuse", "nom de l'éleveur",
    "nom du naisseur",
}


def is_of_breeders(title: str) -> bool:
    return title.strip().casefold() in OF_BREEDERS


def column_of_breeders(book: Book) -> OwnColumn | None:
    """The column by which the society says who bred an animal, if it has one."""
    columns = columns_now(book.connection)
    return next((one for one in columns if one.is_kept and is_of_breeders(one.title)), None)


def breeders_of(book: Book, numbers: Iterable[str]) -> dict[str, str]:
    """Who bred each of these animals, by their numbers; empty where that isn't known."""
    column = column_of_breeders(book)
    if column is None:
        return owners_of_dams(book, numbers)
    said = values_at(book.connection, column.place)
    return {number: said.get(number[LETTERS:], "") for number in numbers}


def owners_of_dams(book: Book, numbers: Iterable[str]) -> dict[str, str]:
    """Who had the dam of each of these animals on the day of its birth, by the animals' numbers; empty where the dam
    or that isn't known."""
    from gudokeyi.reconcile.rewriting import lives_of

    records = {number: book.records[number] for number in numbers}
    dams = {record.dam: book.records[record.dam] for record in records.values() if record.dam}
    # one that was never given on has the owner of its birth, and the journal isn't looked through for it
    given = [number for number, dam in dams.items() if dam.from_owner]
    lives = lives_of(commands_of(book.connection, book.journal, given)) if given else {}
    found = dict.fromkeys(records, "")
    for number, record in records.items():
        if record.dam:
            life = lives.get(record.dam)
            found[number] = book.owner_of(owner_on(life, record.born) if life else dams[record.dam].owner_code)
    return found


def owner_on(life: Life, day: datetime.date) -> int:
    """The code of who had an animal on a day."""
    given = (one for one in life.transfers if one.day <= day.isoformat())
    return int(functools.reduce(lambda _, one: one.to_owner, given, life.birth.to_owner))
