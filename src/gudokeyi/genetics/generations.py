"""How far a pedigree is known, generations and completeness of each animal and of a population; and the generation
interval, parents' ages at the birth of offspring that became parents themselves (James 1977)."""
from __future__ import annotations

import enum
from collections.abc import Collection
from dataclasses import dataclass
from fractions import Fraction

from gudokeyi.genetics.pedigree import MOST_STEPS, UNKNOWN, Pedigree

# How far a pedigree is known: generations and completeness of each animal, and of a population.

# MacCluer's index goes back so many generations
INDEX_GENERATIONS = 5


@dataclass(frozen=True)
class Generations:
    """Of each animal: the generations back that are known in full, the greatest one in which any ancestor is known,
    and the equivalent complete generations, the sum of 1/2^n over all known ancestors, n generations back (Maignel,
    Boichard and Verrier 1996). `equivalents` are whole numbers of 2^-60."""

    full: list[int]
    greatest: list[int]
    equivalents: list[int]

    def equivalent(self, rank: int) -> Fraction:
        return Fraction(self.equivalents[rank], 1 << MOST_STEPS)


def generations_of(pedigree: Pedigree) -> Generations:
    full: list[int] = []
    greatest: list[int] = []
    equivalents: list[int] = []
    for rank in range(len(pedigree)):
        parents = pedigree.known_parents(rank)
        full.append(1 + min(full[parent] for parent in parents) if len(parents) == 2 else 0)
        greatest.append(max((1 + greatest[parent] for parent in parents), default=0))
        equivalents.append(sum(equivalents[parent] + (1 << MOST_STEPS) >> 1 for parent in parents))
    return Generations(full, greatest, equivalents)


def completeness_by_generation(pedigree: Pedigree, population: Collection[int]) -> list[Fraction]:
    """For each generation back, from the parents on, the share of ancestors that are known, in the mean of the
    population; up to the last generation in which any is."""
    found: list[Fraction] = []
    # of each ancestor in this generation: how often it stands there, in parts of the whole generation
    shares = {rank: 1 << MOST_STEPS for rank in population}
    while True:
        before: dict[int, int] = {}
        for rank, share in shares.items():
            for parent in pedigree.known_parents(rank):
                before[parent] = before.get(parent, 0) + (share >> 1)
        if not before:
            return found
        found.append(Fraction(sum(before.values()), len(population) << MOST_STEPS))
        shares = before


def maccluer_indices(pedigree: Pedigree) -> list[Fraction]:
    """Of each animal the harmonic mean of its sire's and its dam's completeness over five generations, in each the
    share of ancestors that are known, the parent itself the first (MacCluer et al. 1983)."""
    sums = line_sums(pedigree)
    whole = INDEX_GENERATIONS << INDEX_GENERATIONS
    found = []
    for sire, dam in zip(pedigree.sires, pedigree.dams):
        of_sire, of_dam = (sums[parent] if parent != UNKNOWN else 0 for parent in (sire, dam))
        both = of_sire + of_dam
        found.append(Fraction(2 * of_sire * of_dam, both * whole) if both else Fraction(0))
    return found


def line_sums(pedigree: Pedigree) -> list[int]:
    """Of each animal the sum of the shares known in five generations, itself the first, in units of 2^-5."""
    total = [1 << INDEX_GENERATIONS] * len(pedigree)
    known = total
    for _ in range(INDEX_GENERATIONS - 1):
        known = [
            ((known[sire] if sire != UNKNOWN else 0) + (known[dam] if dam != UNKNOWN else 0)) >> 1
            for sire, dam in zip(pedigree.sires, pedigree.dams)
        ]
        total = [so_far + one for so_far, one in zip(total, known)]
    return total


# The generation interval: parents' ages at the birth of offspring that became parents themselves (James 1977).

# a year of the calendar, in days
YEAR = Fraction(36525, 100)


class Path(enum.Enum):
    """From which parent to which offspring."""

    SIRE_TO_SON = "sire_to_son"
    SIRE_TO_DAUGHTER = "sire_to_daughter"
    DAM_TO_SON = "dam_to_son"
    DAM_TO_DAUGHTER = "dam_to_daughter"


PATHS = {
    (True, True): Path.SIRE_TO_SON,
    (True, False): Path.SIRE_TO_DAUGHTER,
    (False, True): Path.DAM_TO_SON,
    (False, False): Path.DAM_TO_DAUGHTER,
}


@dataclass(frozen=True)
class Interval:
    """The mean age in years of so many parents, each counted with each of the offspring; none where there are none."""

    pairs: int
    years: Fraction | None


def intervals_of(pedigree: Pedigree, population: Collection[int]) -> dict[Path, Interval]:
    """The interval of each path, over the animals of the population that have offspring, where both birth days are
    known."""
    ages: dict[Path, list[int]] = {path: [] for path in Path}
    for rank in population:
        born = pedigree.births[rank]
        if born is None or not pedigree.offspring[rank]:
            continue
        for is_sire, parent in ((True, pedigree.sires[rank]), (False, pedigree.dams[rank])):
            before = pedigree.births[parent] if parent != UNKNOWN else None
            if before is not None:
                ages[PATHS[is_sire, pedigree.are_male[rank]]].append((born - before).days)
    return {path: Interval(len(days), sum(days) / (len(days) * YEAR) if days else None) for path, days in ages.items()}


def generation_interval(intervals: dict[Path, Interval]) -> Fraction | None:
    """The mean of the four paths; none where a path has nobody."""
    found = [interval.years for interval in intervals.values() if interval.years is not None]
    return sum(found, Fraction(0)) / len(found) if len(found) == len(Path) else None
