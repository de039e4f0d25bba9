"""The rate of inbreeding, and the effective population size that goes with it."""
from __future__ import annotations

import math
from collections.abc import Collection
from dataclasses import dataclass
from fractions import Fraction

from gudokeyi.genetics.generations import Generations
from gudokeyi.genetics.pedigree import COEFFICIENT_BITS, Pedigree


@dataclass(frozen=True)
class Rate:
    """A rate of inbreeding a generation, the effective size, and its standard error where there is one. The size is
    none where inbreeding doesn't rise. `animals` is how many the rate was had from."""

    animals: int
    rate: float
    size: float | None
    standard_error: float | None = None


def size_of(rate: float) -> float | None:
    return 1 / (2 * rate) if rate > 0 else None


def outbred_part(pedigree: Pedigree, rank: int) -> float:
    """1 - F, rounded once."""
    return float(Fraction((1 << COEFFICIENT_BITS) - pedigree.coefficients[rank], 1 << COEFFICIENT_BITS))


def individual_increase(pedigree: Pedigree, generations: Generations, population: Collection[int]) -> Rate | None:
    """From the individual increase in inbreeding, 1 - (1 - F)^(1 / (t - 1)), with t equivalent complete generations
    (Gutiérrez, Cervantes and Goyache 2009). Animals of one generation or less have none, and aren't counted."""
    counted = [rank for rank in population if generations.equivalent(rank) > 1]
    if not counted:
        return None
    increases = [1 - outbred_part(pedigree, rank) ** (1 / float(generations.equivalent(rank) - 1)) for rank in counted]
    mean = math.fsum(increases) / len(increases)
    size = size_of(mean)
    if size is None or len(increases) < 2:
        return Rate(len(counted), mean, size)
    deviation = math.sqrt(math.fsum((one - mean) ** 2 for one in increases) / (len(increases) - 1))
    return Rate(len(counted), mean, size, 2 * size**2 * deviation / math.sqrt(len(increases)))


def yearly_rate(pedigree: Pedigree, population: Collection[int]) -> float | None:
    """The rate of inbreeding a year: from the regression of the logarithm of 1 - F on the birth year (Pérez-Enciso
    1995), over the animals whose birth day is known; none where all were born in one year, or one is wholly inbred."""
    dated = [(born.year, rank) for rank in population if (born := pedigree.births[rank]) is not None]
    if len({year for year, _ in dated}) < 2:
        return None
    outbred = [outbred_part(pedigree, rank) for _, rank in dated]
    if min(outbred) <= 0:
        return None
    mean_year = Fraction(sum(year for year, _ in dated), len(dated))
    apart = [float(year - mean_year) for year, _ in dated]
    slope = math.fsum(one * math.log(part) for one, part in zip(apart, outbred)) / math.fsum(one**2 for one in apart)
    return -math.expm1(slope)


def rate_by_years(yearly: float, interval: Fraction, animals: int) -> Rate:
    """The rate a generation, by the rate a year and the generation interval in years."""
    rate = -math.expm1(float(interval) * math.log1p(-yearly)) if yearly < 1 else 1.0
    return Rate(animals, rate, size_of(rate))
