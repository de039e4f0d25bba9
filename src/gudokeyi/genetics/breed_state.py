"""The state of a breed: all measures of a reference population, and the tables behind them."""
from __future__ import annotations

import collections
import enum
from collections.abc import Callable, Sequence
from dataclasses import dataclass
from fractions import Fraction

from gudokeyi.genetics import measures
from gudokeyi.genetics.founders import (
    AncestorNumber, Ancestors, Contribution, FoundedPedigree, effective_ancestors, founder_contributions,
)  # fmt: skip
from gudokeyi.genetics.generations import (
    Generations, Interval, Path, completeness_by_generation, generation_interval, generations_of, intervals_of,
)  # fmt: skip
from gudokeyi.genetics.kinship import Kinship
from gudokeyi.genetics.measures import Measure, Name
from gudokeyi.genetics.pedigree import COEFFICIENT_BITS, UNKNOWN, Pedigree

# The parts of the work on a breed's measures, of which is told as each begins.


class Step(enum.StrEnum):
    MEAN_KINSHIPS = "mean kinships"
    BIRTH_YEARS = "birth years"
    GENERATIONS = "generations"
    FOUNDERS = "founders and ancestors"


# What the animals born in each year are: how many, of how many parents, how inbred and how related.


@dataclass(frozen=True)
class Parents:
    """How many sires or dams the animals of a year have, and the most animals that one of them has among these."""

    in_use: int
    offspring: int
    most: int

    @property
    def mean(self) -> Fraction | None:
        return Fraction(self.offspring, self.in_use) if self.in_use else None


@dataclass(frozen=True)
class Year:
    """The animals born in a year."""

    year: int
    animals: int
    sires: Parents
    dams: Parents
    inbred: int
    mean_inbreeding: Fraction
    mean_kinship: Fraction


def parents_of(ranks: list[int], parents: Sequence[int]) -> Parents:
    counts = collections.Counter(parents[rank] for rank in ranks if parents[rank] != UNKNOWN)
    return Parents(len(counts), counts.total(), max(counts.values(), default=0))


def years_of(pedigree: Pedigree, kinship: Kinship) -> list[Year]:
    """Each year in which an animal of known birth day was born."""
    born: dict[int, list[int]] = collections.defaultdict(list)
    for rank, day in enumerate(pedigree.births):
        if day is not None:
            born[day.year].append(rank)
    return [year_of(year, ranks, pedigree, kinship) for year, ranks in sorted(born.items())]


def year_of(year: int, ranks: list[int], pedigree: Pedigree, kinship: Kinship) -> Year:
    inbred = [pedigree.coefficients[rank] for rank in ranks]
    return Year(
        year,
        len(ranks),
        parents_of(ranks, pedigree.sires),
        parents_of(ranks, pedigree.dams),
        sum(one > 0 for one in inbred),
        Fraction(sum(inbred), len(ranks) << COEFFICIENT_BITS),
        kinship.mean(ranks),
    )


# The state of a breed: all measures of a reference population, and the tables behind them.

# populations of so many animals have an exact number of ancestors; of others so many ancestors are gone through
MOST_EXACT = 5_000
MOST_ANCESTORS = 200


@dataclass(frozen=True)
class State:
    """The tables: a year's animals, what founders and ancestors contribute, and each animal of the population with
    its mean kinship, the least first."""

    pedigree: Pedigree
    population: Sequence[int]
    generations: Generations
    measures: dict[Name, Measure]
    years: list[Year]
    completeness: list[Fraction]
    intervals: dict[Path, Interval]
    founders: list[Contribution]
    ancestors: AncestorNumber
    mean_kinships: list[tuple[int, Fraction]]


# told as a part of the work begins
Progress = Callable[[str], None]


def state_of(pedigree: Pedigree, population: Sequence[int], tell: Progress) -> State:
    """The state of a population that has an animal, by ranks in age order."""
    tell(Step.MEAN_KINSHIPS)
    kinship = Kinship.of(pedigree)
    of_each = kinship.mean_of_each(population)
    mean_kinships = sorted(((rank, of_each[rank]) for rank in population), key=lambda pair: pair[1])
    mean_kinship = sum((of_each[rank] for rank in population), Fraction(0)) / len(population)
    tell(Step.BIRTH_YEARS)
    years = years_of(pedigree, kinship)
    tell(Step.GENERATIONS)
    generations = generations_of(pedigree)
    intervals = intervals_of(pedigree, population)
    tell(Step.FOUNDERS)
    founded = FoundedPedigree(pedigree)
    founders = founder_contributions(founded, population)
    most = None if len(population) <= MOST_EXACT else MOST_ANCESTORS
    ancestors = effective_ancestors(Ancestors(founded, population), len(founders), most)
    found = [
        *measures.of_inbreeding(pedigree, population),
        *measures.of_kinship(mean_kinship),
        *measures.of_founders(founders, ancestors),
        *measures.of_generations(pedigree, generations, population),
        *measures.of_intervals(intervals),
        *measures.of_rates(pedigree, generations, population, generation_interval(intervals)),
    ]
    return State(
        pedigree,
        population,
        generations,
        {measure.name: measure for measure in found},
        years,
        completeness_by_generation(pedigree, population),
        intervals,
        founders,
        ancestors,
        mean_kinships,
    )
