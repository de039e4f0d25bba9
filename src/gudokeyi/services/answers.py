"""What a program asks a book by a word with `--json`: each answer is a value of its own, and SCHEMAS names its kind."""
from __future__ import annotations

import collections
from collections.abc import Mapping, Sequence
from dataclasses import dataclass
from fractions import Fraction
from typing import TYPE_CHECKING

from gudokeyi.domain.batches import Answer
from gudokeyi.domain.changes import Change
from gudokeyi.domain.findings import Entry
from gudokeyi.domain.refusals import MatingFault
from gudokeyi.domain.seals import PublishedSeal, PublishedSeals, Seal
from gudokeyi.engine.answers import inverse_elements
from gudokeyi.services.facts import Facts
from gudokeyi.services.library_answers import animals_of
from gudokeyi.services.library_values import (
    Animal, BreedState, Certificate, Imported, Kinship, MatingAdvice, MatingPlan, PlannedMating,
)  # fmt: skip
from gudokeyi.services.search import find
from gudokeyi.services.trends import Trend
from gudokeyi.store.animal_rows import AnimalRow
from gudokeyi.store.book import Book
from gudokeyi.store.conditions import among

if TYPE_CHECKING:
    from gudokeyi.services.book_program import BookProgram
    from gudokeyi.services.matings import Candidates
    from gudokeyi.services.relationships import Pairs


@dataclass(frozen=True, slots=True)
class Listed:
    """Animals in age order, or in that in which they were named."""

    animals: tuple[Animal, ...]


@dataclass(frozen=True, slots=True)
class Shown:
    """An animal, the ids that it had before, its relatives in age order, and each change that changed it or told of
    it."""

    animal: Animal
    former_ids: tuple[str, ...]
    offspring: tuple[Animal, ...]
    full_sibs: tuple[Animal, ...]
    half_sibs: tuple[Animal, ...]
    history: tuple[OwnHistory, ...]


@dataclass(frozen=True, slots=True)
class OwnHistory:
    """A change, and of one animal what it had before and after, and what was told; none where it isn't in the book, or
    nothing changed."""

    change: Change
    before: Facts | None
    after: Facts | None
    told: tuple[Entry, ...]


@dataclass(frozen=True, slots=True)
class Related:
    """The pairs of animals."""

    pairs: tuple[Kinship, ...]


@dataclass(frozen=True, slots=True)
class Certificates:
    """Animals with three generations of ancestors."""

    certificates: tuple[Certificate, ...]


@dataclass(frozen=True, slots=True)
class Pedigree:
    """An animal with its known ancestors, by the way to them from the animal on: `S` is the sire, `SD` its dam."""

    animal: Animal
    ancestors: Mapping[str, Animal]


@dataclass(frozen=True, slots=True)
class History:
    """All changes, the first one first."""

    changes: tuple[Change, ...]


@dataclass(frozen=True, slots=True)
class ChangedAnimal:
    """What the book had of an animal before a change and after it; none where it isn't in the book."""

    id: str
    before: Facts | None
    after: Facts | None


@dataclass(frozen=True, slots=True)
class ChangeShown:
    """A change, what it did of each animal, and what it told."""

    change: Change
    animals: tuple[ChangedAnimal, ...]
    told: tuple[Entry, ...]


@dataclass(frozen=True, slots=True)
class Verified:
    """Whether the book is whole: how much it has, and each fault, of which there is none in one that is."""

    is_whole: bool
    changes: int
    commands: int
    animals: int
    faults: tuple[str, ...] = ()


@dataclass(frozen=True, slots=True)
class RefusedPair:
    """A dam and a sire by their ids, and why the register would refuse their offspring."""

    dam: str
    sire: str
    fault: MatingFault


@dataclass(frozen=True, slots=True)
class Matings:
    """Pairs of dams and sires, of each dam the least coefficient first; the pairs that the register would refuse; and
    the ids of who was passed over, being castrated or without a row."""

    matings: tuple[PlannedMating, ...]
    refused: tuple[RefusedPair, ...]
    castrated: tuple[str, ...]
    without_row: tuple[str, ...]


@dataclass(frozen=True, slots=True)
class Element:
    """An element of a matrix by the ids of its row and its column."""

    row: str
    column: str
    value: Fraction


@dataclass(frozen=True, slots=True)
class Inverse:
    """The inverse of the numerator relationship matrix: the ids of its rows, and the elements of its lower triangle
    that aren't 0."""

    ids: tuple[str, ...]
    elements: tuple[Element, ...]


# the answers by the names of their schemas, which are those of the words
SCHEMAS: dict[str, object] = {
    "list": Listed, "find": Listed, "export": Listed, "show": Shown, "kinship": Related, "mating": MatingAdvice,
    "certificate": Certificates, "breed": BreedState, "plan": MatingPlan, "history": History, "change": ChangeShown,
    "pedigree": Pedigree, "verify": Verified, "import": Imported, "file": Answer,
    "matings": Matings, "trend": Trend, "seal": Seal | PublishedSeal | PublishedSeals, "inverse": Inverse,
}  # fmt: skip


def listed(book: Book, rows: Sequence[AnimalRow]) -> Listed:
    return Listed(animals_of(book, rows))


def shown(book: Book, word: str) -> Shown:
    from gudokeyi.services.animals import former_ids, relatives_of
    from gudokeyi.services.history import history_of

    known = find(book, word)
    its = relatives_of(book, known)
    some = [row for rows in its.offspring.values() for row in rows]
    half = [row for rows in its.half_sibs.values() for row in rows]
    offspring, full_sibs, half_sibs = (
        animals_of(book, sorted(rows, key=lambda row: (row.born or "", row.registration_number)))
        for rows in (some, its.full_sibs, half)
    )
    history = tuple(
        OwnHistory(one.change, *((one.did.before, one.did.after) if one.did else (None, None)), tuple(one.told))
        for one in history_of(book, known.id)
    )
    animal = animals_of(book, [book.row(known)])[0]
    return Shown(animal, tuple(former_ids(book, known)), offspring, full_sibs, half_sibs, history)


def pedigree(book: Book, word: str, generations: int) -> Pedigree:
    """So many generations of ancestors."""
    number = find(book, word).registration_number
    numbers, last = dict[str, str](), {"": number}
    for _ in range(generations):
        records = {way: book.records[one] for way, one in last.items()}
        sires = {f"{way}S": its.sire for way, its in records.items() if its.sire}
        dams = {f"{way}D": its.dam for way, its in records.items() if its.dam}
        last = sires | dams
        numbers |= last
    rows = book.rows(among(sorted({number, *numbers.values()})))
    animals = {one.registration_number: one for one in animals_of(book, rows)}
    return Pedigree(animals[number], {way: animals[one] for way, one in numbers.items()})


def change_shown(book: Book, change: Change) -> ChangeShown:
    from gudokeyi.services.history import animals_changed, entries_of

    _, changed = animals_changed(book, change.number)
    animals = tuple(ChangedAnimal(one.id, one.before, one.after) for one in changed)
    return ChangeShown(change, animals, tuple(entries_of(book, change.number)))


def verified(book: Book, faults: Sequence[str] = ()) -> Verified:
    changes = book.change.number if book.change else 0
    return Verified(not faults, changes, book.journal.length, len(book.society_records), tuple(map(str, faults)))


def matings(dams: Candidates, sires: Candidates, pairs: Pairs) -> Matings:
    """All pairs that a table has."""
    from gudokeyi.services.matings import least_first

    ids = {one.registration_number: one.id for one in (*dams.animals, *sires.animals)}
    refused = tuple(RefusedPair(ids[dam], ids[sire], MatingFault.PATH_TOO_LONG) for dam, sire in pairs.refused)
    found = tuple(PlannedMating(dam, sire, one) for dam, sire, one in least_first(dams, sires, pairs))
    castrated, without_row = ((*dams.castrated, *sires.castrated), (*dams.without_row, *sires.without_row))
    return Matings(found, refused, castrated, without_row)


def inverse(book: Book, program: BookProgram) -> Inverse:
    """That of all animals, in age order."""
    order, found = dict[str, int](), collections.defaultdict[tuple[int, int], Fraction](Fraction)
    for animal, row, column, value in inverse_elements(program.ask(["inverse"], book)):
        order.setdefault(animal, len(order))
        found[order[row], order[column]] += Fraction(value)
    ids = tuple(book.ids[number] for number in order)
    return Inverse(ids, tuple(Element(ids[row], ids[column], found[row, column]) for row, column in sorted(found)))
