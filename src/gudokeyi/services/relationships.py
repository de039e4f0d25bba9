"""Relationships and kinships of named animals, and what the program says of the offspring of all pairs: their
coefficients, and which matings it refuses."""
from __future__ import annotations

import itertools
from collections.abc import Iterator, Sequence
from dataclasses import dataclass
from typing import TYPE_CHECKING, NamedTuple

from gudokeyi.domain.animals import SocietyRecord
from gudokeyi.domain.decimals import decimal_of_text
from gudokeyi.domain.messages import Mistake
from gudokeyi.domain.mistakes import MatingImpossible
from gudokeyi.domain.requests import Mating
from gudokeyi.engine.answers import mating_answers, relationships_told
from gudokeyi.genetics.pedigree import MOST_STEPS
from gudokeyi.services.book_program import MOST_NUMBERS, BookProgram
from gudokeyi.services.tables import RELATIONSHIP_COLUMNS, Cell, Kind, Table
from gudokeyi.store.book import Book
from gudokeyi.store.coefficients import Coefficient, of_offspring
from gudokeyi.store.queries import selected

if TYPE_CHECKING:
    from gudokeyi.genetics.plans import Pair
    from gudokeyi.services.matings import Candidate

# What the program says of the offspring of all pairs: their coefficients, and which matings it refuses.

# so many pairs are asked for
MOST_PAIRS = 2_000_000
# of so many pairs the program is asked at once for what is told of a few
PAIRS_AT_ONCE = 100


@dataclass(frozen=True)
class Pairs:
    """The coefficients by the numbers of the dam and the sire, dam by dam, and the pairs that the program refuses,
    which have none."""

    coefficients: dict[Pair, Coefficient]
    refused: list[Pair]

    def of(self, dam: Candidate, sire: Candidate) -> Coefficient | None:
        """That of two animals; none where the program refuses them."""
        return self.coefficients.get((dam.registration_number, sire.registration_number))


def pairs_of(book: Book, program: BookProgram, dams: Sequence[str], sires: Sequence[str]) -> Pairs:
    """All pairs of some dams and sires, by their numbers."""
    found = offspring_coefficients(book, program, dams, sires)
    refused = list(refused_pairs(book, program, too_deep(book, dams, sires)))
    for pair in refused:
        del found[pair]
    return Pairs(found, refused)


def offspring_coefficients(
    book: Book, program: BookProgram, dams: Sequence[str], sires: Sequence[str]
) -> dict[Pair, Coefficient]:
    """By the numbers of a dam and a sire, dam by dam."""
    found = relationships(book, program, dams, sires)
    return {(dam, sire): of_offspring(found[dam, sire]) for dam in dams for sire in sires}


def relationships(book: Book, program: BookProgram, some: Sequence[str], others: Sequence[str]) -> dict[Pair, str]:
    """Those of each of some animals with each of the others, by their numbers, as the program writes the fractions."""
    count = len(some) * len(others)
    if count > MOST_PAIRS:
        raise MatingImpossible(Mating.TOO_MANY_PAIRS.said(pairs=count, most=MOST_PAIRS))
    # the program goes through the pedigree once for each of those that it is given first
    few, many = (some, others) if len(some) < len(others) else (others, some)
    found: dict[Pair, str] = {}
    at_once = max(1, MOST_NUMBERS - len(few))
    for first in range(0, len(many), at_once):
        words = ["relationships", *few, "--with", *many[first : first + at_once]]
        for one, other, relationship in relationships_told(program.ask(words, book)):
            found[(one, other) if few is some else (other, one)] = relationship
    return found


def too_deep(book: Book, dams: Sequence[str], sires: Sequence[str]) -> list[Pair]:
    """The pairs whose offspring may have a path of parents that is too long: the program decides."""
    deep = deep_animals(book)
    return [(dam, sire) for dam in dams for sire in sires if dam in deep or sire in deep] if deep else []


def deep_animals(book: Book) -> set[str]:
    return {number for number, steps in depths(book).items() if steps >= MOST_STEPS}


def depths(book: Book) -> dict[str, int]:
    """The longest path of known parents of each animal, by its number."""
    found: dict[str, int] = {}
    for number, sire, dam in selected(book, ("number", "sire", "dam")):
        by_sire, by_dam = found[sire] + 1 if sire else 0, found[dam] + 1 if dam else 0
        found[number] = by_sire if by_sire > by_dam else by_dam
    return found


def refused_pairs(book: Book, program: BookProgram, pairs: Sequence[Pair]) -> Iterator[Pair]:
    """Those of the pairs that the program refuses to mate."""
    for dam, of_dam in itertools.groupby(pairs, key=lambda pair: pair[0]):
        words = ["mating", "--dam", dam, *(sire for _, sire in of_dam)]
        yield from ((dam, one.sire) for one in mating_answers(program.ask(words, book)) if one.is_refused)


def coefficients_told(book: Book, program: BookProgram, pairs: Sequence[Pair]) -> Iterator[tuple[Pair, str]]:
    """The pairs, each with what the program says that their offspring would have, as a fraction; nothing where it
    refuses them. It is asked for many at once, and answers for all pairs of the animals that are named."""
    deep = deep_animals(book)
    for first in range(0, len(pairs), PAIRS_AT_ONCE):
        some = pairs[first : first + PAIRS_AT_ONCE]
        named = dict.fromkeys(itertools.chain.from_iterable(some))
        told = relationships_told(program.ask(["relationships", *named], book))
        found = {frozenset((one, other)): relationship for one, other, relationship in told}
        refused = {*refused_pairs(book, program, [pair for pair in some if not deep.isdisjoint(pair)])}
        for pair in some:
            yield pair, "" if pair in refused else of_offspring(found[frozenset(pair)]).fraction


# Relationships and kinships of named animals, which the program computes.


class Related(NamedTuple):
    """Two animals by their numbers, and the entry of the numerator relationship matrix, as the program writes it."""

    one: str
    other: str
    relationship: str

    @property
    def kinship(self) -> str:
        return of_offspring(self.relationship).fraction


def related(
    book: Book, program: BookProgram, animals: Sequence[SocietyRecord], others: Sequence[SocietyRecord] | None
) -> list[Related]:
    """All pairs of some animals, each with itself too; or else each of them with each of the others."""
    numbers = [animal.registration_number for animal in animals]
    if others is not None:
        of_others = [animal.registration_number for animal in others]
        found = relationships(book, program, numbers, of_others)
        return [Related(one, other, found[one, other]) for one in numbers for other in of_others]
    count = len(animals) * (len(animals) + 1) // 2
    if count > MOST_PAIRS:
        raise Mistake(f"these are {count:,} pairs, and at most {MOST_PAIRS:,} are written: name fewer animals")
    return [Related(*found) for found in relationships_told(program.ask(["relationships", *numbers], book))]


def kinship_table(book: Book, pairs: Sequence[Related]) -> Table:
    ids = book.ids
    rows = [
        (
            ids[pair.one], ids[pair.other], pair.relationship, decimal_of_text(pair.relationship), pair.kinship,
            decimal_of_text(pair.kinship),
        )
        for pair in pairs
    ]  # fmt: skip
    return Table.of_rows(RELATIONSHIP_COLUMNS, rows)


def kinship_matrix(
    pairs: Sequence[Related], animals: Sequence[SocietyRecord], others: Sequence[SocietyRecord] | None, kinships: bool
) -> Table:
    """A row for each animal and a column for each of the others, or of the same; of kinships or of relationships."""
    columns = animals if others is None else others
    values = {(pair.one, pair.other): pair.kinship if kinships else pair.relationship for pair in pairs}
    if others is None:
        values |= {(other, one): value for (one, other), value in values.items()}
    numbers = [other.registration_number for other in columns]
    rows: list[Sequence[Cell]] = [
        (one.id, *(decimal_of_text(values[one.registration_number, number]) for number in numbers)) for one in animals
    ]
    return Table.of_rows([("id", Kind.TEXT), *((animal.id, Kind.DECIMAL) for animal in columns)], rows)


def each_once(animals: Sequence[SocietyRecord]) -> list[SocietyRecord]:
    return list({animal.registration_number: animal for animal in animals}.values())
