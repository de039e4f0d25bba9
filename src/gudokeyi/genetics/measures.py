"""The measures of a reference population, each with its value, exact where a fraction can be had."""
from __future__ import annotations

import enum
from collections.abc import Collection
from dataclasses import dataclass
from fractions import Fraction

from gudokeyi.genetics.effective_size import Rate, individual_increase, rate_by_years, yearly_rate
from gudokeyi.genetics.founders import AncestorNumber, Contribution, effective_number
from gudokeyi.genetics.generations import Generations, Interval, Path, generation_interval, maccluer_indices
from gudokeyi.genetics.pedigree import COEFFICIENT_BITS, MOST_STEPS, Pedigree


class Name(enum.Enum):
    """A measure, by the name that it has in `measures.csv`."""

    ANIMALS = "animals"
    INBRED_ANIMALS = "inbred_animals"
    MEAN_INBREEDING = "mean_inbreeding"
    MEAN_KINSHIP = "mean_kinship"
    FOUNDERS = "founders"
    EFFECTIVE_FOUNDERS = "effective_founders"
    EFFECTIVE_ANCESTORS = "effective_ancestors"
    EFFECTIVE_ANCESTORS_LEAST = "effective_ancestors_least"
    EFFECTIVE_ANCESTORS_GREATEST = "effective_ancestors_greatest"
    FOUNDER_GENOME_EQUIVALENTS = "founder_genome_equivalents"
    EQUIVALENT_GENERATIONS = "equivalent_generations"
    FULLY_TRACED = "full_generations"
    MAXIMUM_GENERATIONS = "greatest_generations"
    MACCLUER_INDEX = "maccluer_index"
    GENERATION_INTERVAL = "generation_interval"
    GENERATION_INTERVAL_SIRE_TO_SON = "generation_interval_sire_to_son"
    GENERATION_INTERVAL_SIRE_TO_DAUGHTER = "generation_interval_sire_to_daughter"
    GENERATION_INTERVAL_DAM_TO_SON = "generation_interval_dam_to_son"
    GENERATION_INTERVAL_DAM_TO_DAUGHTER = "generation_interval_dam_to_daughter"
    RATE_OF_INBREEDING = "rate_of_inbreeding"
    EFFECTIVE_SIZE = "effective_size"
    EFFECTIVE_SIZE_STANDARD_ERROR = "effective_size_standard_error"
    RATE_OF_INBREEDING_A_YEAR = "rate_of_inbreeding_a_year"
    RATE_OF_INBREEDING_BY_YEARS = "rate_of_inbreeding_by_years"
    EFFECTIVE_SIZE_BY_YEARS = "effective_size_by_years"


class Lack(enum.Enum):
    """Why a measure can't be had."""

    NO_PATH = "no pair of a parent and an offspring with offspring of its own, both of known birth days"
    NOT_ALL_PATHS = "not each of the four paths has a pair of known birth days"
    ONE_GENERATION = "no animal has more than one equivalent complete generation"
    ONE_ANIMAL = "only one animal has more than one equivalent complete generation"
    ONE_YEAR = "the animals weren't born in two known years, or one of them is wholly inbred"
    NO_RISE = "inbreeding doesn't rise"
    NOT_ALL_FOUND = "the ancestors are so many that only bounds are given"


@dataclass(frozen=True)
class Measure:
    """A value, its fraction where there is one, or why there is none."""

    name: Name
    value: float | None
    exact: Fraction | None = None
    lack: Lack | None = None


def exactly(name: Name, value: Fraction | int) -> Measure:
    return Measure(name, float(value), Fraction(value))


def lacking(name: Name, why: Lack) -> Measure:
    return Measure(name, None, None, why)


def mean(values: Collection[int], unit: int = 1) -> Fraction:
    return Fraction(sum(values), len(values) * unit)


def of_inbreeding(pedigree: Pedigree, population: Collection[int]) -> list[Measure]:
    inbred = [pedigree.coefficients[rank] for rank in population]
    return [
        exactly(Name.ANIMALS, len(population)),
        exactly(Name.INBRED_ANIMALS, sum(one > 0 for one in inbred)),
        exactly(Name.MEAN_INBREEDING, mean(inbred, 1 << COEFFICIENT_BITS)),
    ]


def of_kinship(mean_kinship: Fraction) -> list[Measure]:
    """Mean kinship, and how many founders, related to nobody, would have as little (Lacy 1989; Caballero and Toro
    2000)."""
    return [
        exactly(Name.MEAN_KINSHIP, mean_kinship),
        exactly(Name.FOUNDER_GENOME_EQUIVALENTS, 1 / (2 * mean_kinship)),
    ]


def of_founders(founders: Collection[Contribution], ancestors: AncestorNumber) -> list[Measure]:
    found = [
        exactly(Name.FOUNDERS, len(founders)),
        exactly(Name.EFFECTIVE_FOUNDERS, effective_number(founders)),
    ]
    if ancestors.is_exact:
        return [*found, exactly(Name.EFFECTIVE_ANCESTORS, ancestors.least)]
    return [
        *found,
        lacking(Name.EFFECTIVE_ANCESTORS, Lack.NOT_ALL_FOUND),
        exactly(Name.EFFECTIVE_ANCESTORS_LEAST, ancestors.least),
        exactly(Name.EFFECTIVE_ANCESTORS_GREATEST, ancestors.greatest),
    ]


def of_generations(pedigree: Pedigree, generations: Generations, population: Collection[int]) -> list[Measure]:
    indices = maccluer_indices(pedigree)
    index = sum((indices[rank] for rank in population), Fraction(0)) / len(population)
    equivalents = [generations.equivalents[rank] for rank in population]
    return [
        exactly(Name.EQUIVALENT_GENERATIONS, mean(equivalents, 1 << MOST_STEPS)),
        exactly(Name.FULLY_TRACED, mean([generations.full[rank] for rank in population])),
        exactly(Name.MAXIMUM_GENERATIONS, mean([generations.greatest[rank] for rank in population])),
        exactly(Name.MACCLUER_INDEX, index),
    ]


def of_intervals(intervals: dict[Path, Interval]) -> list[Measure]:
    whole = generation_interval(intervals)
    missing = lacking(Name.GENERATION_INTERVAL, Lack.NOT_ALL_PATHS)
    found = [missing if whole is None else exactly(Name.GENERATION_INTERVAL, whole)]
    for path, interval in intervals.items():
        name = Name(f"generation_interval_{path.value}")
        found.append(lacking(name, Lack.NO_PATH) if interval.years is None else exactly(name, interval.years))
    return found


def of_rates(
    pedigree: Pedigree, generations: Generations, population: Collection[int], interval: Fraction | None
) -> list[Measure]:
    rate = individual_increase(pedigree, generations, population)
    yearly = yearly_rate(pedigree, population)
    return [*of_increase(rate), *of_years(yearly, interval, len(population))]


def of_increase(rate: Rate | None) -> list[Measure]:
    names = (Name.RATE_OF_INBREEDING, Name.EFFECTIVE_SIZE, Name.EFFECTIVE_SIZE_STANDARD_ERROR)
    if rate is None:
        return [lacking(name, Lack.ONE_GENERATION) for name in names]
    found = Measure(Name.RATE_OF_INBREEDING, rate.rate)
    if rate.size is None:
        return [found, *(lacking(name, Lack.NO_RISE) for name in names[1:])]
    error = Measure(Name.EFFECTIVE_SIZE_STANDARD_ERROR, rate.standard_error)
    if rate.standard_error is None:
        error = lacking(error.name, Lack.ONE_ANIMAL)
    return [found, Measure(Name.EFFECTIVE_SIZE, rate.size), error]


def of_years(yearly: float | None, interval: Fraction | None, animals: int) -> list[Measure]:
    names = (Name.RATE_OF_INBREEDING_A_YEAR, Name.RATE_OF_INBREEDING_BY_YEARS, Name.EFFECTIVE_SIZE_BY_YEARS)
    if yearly is None:
        return [lacking(name, Lack.ONE_YEAR) for name in names]
    found = Measure(Name.RATE_OF_INBREEDING_A_YEAR, yearly)
    if interval is None:
        return [found, *(lacking(name, Lack.NOT_ALL_PATHS) for name in names[1:])]
    rate = rate_by_years(yearly, interval, animals)
    by_years = Measure(Name.RATE_OF_INBREEDING_BY_YEARS, rate.rate)
    if rate.size is None:
        return [found, by_years, lacking(Name.EFFECTIVE_SIZE_BY_YEARS, Lack.NO_RISE)]
    return [found, by_years, Measure(Name.EFFECTIVE_SIZE_BY_YEARS, rate.size)]
