"""What a book answers to programs: values that don't change, and that nothing of a database stands behind any more."""
from __future__ import annotations

import datetime
from collections.abc import Mapping
from dataclasses import dataclass, field
from fractions import Fraction

from gudokeyi.domain.changes import Change
from gudokeyi.domain.findings import Entry, Finding
from gudokeyi.domain.kinds import Standing
from gudokeyi.domain.provenance import BirthBasis, ExitBasis, SexSource
from gudokeyi.domain.refusals import MatingFault, Refusal
from gudokeyi.genetics.breed_state import Year
from gudokeyi.genetics.generations import Interval, Path
from gudokeyi.genetics.measures import Measure
from gudokeyi.genetics.plans import Unmated
from gudokeyi.store.coefficients import Coefficient


@dataclass(frozen=True, slots=True)
class Animal:
    """An animal as the book has it now.

    `id` is the society's, `registration_number` the international one of nineteen characters. `sire` and `dam` are ids,
    empty for an unknown parent; `owner` is a name, empty where none is known. A day that no sheet gave is inferred, as
    its basis says. `left` is the day of the exit; of an animal that left on a day that nobody knows it is none, and
    `has_left` is true. `coefficient` is that of inbreeding.
    """

    id: str
    registration_number: str
    name: str
    sex: str
    born: datetime.date
    sire: str
    dam: str
    owner: str
    owner_since: datetime.date
    left: datetime.date | None
    has_left: bool
    is_embryo: bool
    is_castrated: bool
    standing: Standing
    coefficient: Coefficient
    birth_basis: BirthBasis
    exit_basis: ExitBasis
    sex_source: SexSource


@dataclass(frozen=True, slots=True)
class Certificate:
    """An animal with three generations of its ancestors.

    `ancestors` are by the way to them from the animal on: `S` is the sire, `D` the dam, `SD` the sire's dam, and so on,
    14 in all; none stands for one that isn't known.
    """

    animal: Animal
    ancestors: Mapping[str, Animal | None]


@dataclass(frozen=True, slots=True)
class Mating:
    """A sire, by his id, number and name, and the coefficient of inbreeding that an offspring of his would have."""

    sire: str
    registration_number: str
    name: str
    coefficient: Coefficient


@dataclass(frozen=True, slots=True)
class MatingAdvice:
    """The matings of a dam, the least coefficient first, and of the same by the sires' ids; the sires that the program
    refuses, each with its fault; and who was passed over: castrated males, males without a row, and how many left."""

    dam: str
    matings: tuple[Mating, ...]
    refused: Mapping[str, MatingFault]
    castrated: tuple[str, ...] = ()
    without_row: tuple[str, ...] = ()
    left: int = 0


@dataclass(frozen=True, slots=True)
class Contribution:
    """What a founder or an ancestor adds to a population: its share of the genes, from 0 to 1. `id` is its own, or with
    `is_unknown_parent` that of the offspring of which it is the unknown parent."""

    id: str
    is_unknown_parent: bool
    share: Fraction


@dataclass(frozen=True, slots=True)
class BreedState:
    """The state of a breed, of a reference population.

    `measures` has each by its name, as the column `measure` of `measures.csv`: a value with its fraction where there is
    one, or why it can't be had. Coefficients, kinships and shares are from 0 to 1, intervals are years. `years` are
    those in which animals of known birth days were born; `completeness` is the part of ancestors that is known, of
    parents first; `intervals` are those of the four paths. `founders` and `ancestors` are those that contribute, the
    greatest first; `mean_kinships` are with the population, by id, the least first. docs/GENETICS.md has each formula's
    source. """

    population: tuple[str, ...]
    measures: Mapping[str, Measure]
    years: tuple[Year, ...]
    completeness: tuple[Fraction, ...]
    intervals: Mapping[Path, Interval]
    founders: tuple[Contribution, ...]
    ancestors: tuple[Contribution, ...]
    mean_kinships: Mapping[str, Fraction]


@dataclass(frozen=True, slots=True)
class PlannedMating:
    """A dam and a sire by their ids, and the coefficient of inbreeding that their offspring would have."""

    dam: str
    sire: str
    coefficient: Coefficient


@dataclass(frozen=True, slots=True)
class MatingPlan:
    """For each dam the sire, so that the mean coefficient of the offspring is least: first of all as many dams as can
    be are mated. `unmated` are the others, by id, each with why; `allowed` is how many pairs the rules allow, and
    `mean_of_allowed` their mean coefficient. `assumed` are sentences on bounds that nobody gave."""

    matings: tuple[PlannedMating, ...]
    unmated: Mapping[str, Unmated]
    mean: Fraction | None
    allowed: int
    mean_of_allowed: Fraction | None
    assumed: tuple[str, ...] = ()


@dataclass(frozen=True, slots=True)
class Kinship:
    """Two animals by their ids, and their entry of the numerator relationship matrix; of an animal with itself that is
    1 and its coefficient of inbreeding. Their kinship is half of it."""

    one: str
    other: str
    relationship: Fraction

    @property
    def kinship(self) -> Fraction:
        return self.relationship / 2


@dataclass(frozen=True, slots=True)
class Filed:
    """A command that was filed: the change that it made, and why the program refused it, if it did. A refused one
    stands in the history too, and leaves the animals as they were. `findings` are what is to be seen of one that was
    accepted; `notes` are sentences on what else happened."""

    change: Change
    id: str
    registration_number: str
    refusal: Refusal | None = None
    findings: tuple[Finding, ...] = ()
    notes: tuple[str, ...] = ()

    @property
    def is_accepted(self) -> bool:
        return self.refusal is None


@dataclass(frozen=True, slots=True)
class Imported:
    """What an import made of the book, or for a preview would make: the number of its change, 0 for a preview; how many
    animals the book has then, and how many of them are new; and what was found, in the order of the lines. `obstacles`
    keep a preview's sheet from being taken. `notes` are sentences on what else happened."""

    change: int
    animals: int = 0
    new: int = 0
    findings: tuple[Entry, ...] = ()
    obstacles: tuple[Finding, ...] = ()
    notes: tuple[str, ...] = ()


@dataclass(frozen=True, slots=True)
class Restored:
    """The change that tells of a restoring, and sentences on what else happened."""

    change: Change
    notes: tuple[str, ...] = field(default=())
