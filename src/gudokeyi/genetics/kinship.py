"""Mean kinships by two passes over the pedigree (Colleau 2002), never from all pairs.

The numerator relationship matrix is A = T D T', where T has each animal's shares of its ancestors' genes and D the
Mendelian sampling variances. So A x is had by a pass from the youngest to the oldest (T' x), a product, and a pass
back. Kinship is half of the relationship. An animal counts as a pair with itself.
"""
from __future__ import annotations

from collections.abc import Collection
from dataclasses import dataclass
from fractions import Fraction

from gudokeyi.genetics.pedigree import COEFFICIENT_BITS, MOST_STEPS, UNKNOWN, Pedigree

# variances are whole numbers of 2^-122, and relationships of 2^-242: each of both passes halves sixty times at most
VARIANCE_BITS = COEFFICIENT_BITS + 2
RELATIONSHIP_BITS = 2 * MOST_STEPS + VARIANCE_BITS


def sampling_variances(pedigree: Pedigree) -> list[int]:
    """The Mendelian sampling variance of each animal, in units of 2^-122 (Henderson 1976)."""
    whole = 1 << VARIANCE_BITS
    inbred = pedigree.coefficients
    found = []
    for sire, dam in zip(pedigree.sires, pedigree.dams):
        variance = whole
        for parent in (sire, dam):
            if parent != UNKNOWN:
                variance -= (whole >> 2) + inbred[parent]
        found.append(variance)
    return found


@dataclass(frozen=True)
class Kinship:
    """Sums of relationships with a population, in a pedigree whose sampling variances were found once."""

    pedigree: Pedigree
    variances: list[int]

    @classmethod
    def of(cls, pedigree: Pedigree) -> Kinship:
        return cls(pedigree, sampling_variances(pedigree))

    def shares(self, population: Collection[int]) -> list[int]:
        """For each animal the sum of the population's shares of its genes, in units of 2^-60."""
        found = [0] * len(self.pedigree)
        for rank in population:
            found[rank] += 1 << MOST_STEPS
        sires, dams = self.pedigree.sires, self.pedigree.dams
        for rank in range(max(population, default=-1), -1, -1):
            share = found[rank]
            if share:
                half = share >> 1
                if sires[rank] != UNKNOWN:
                    found[sires[rank]] += half
                if dams[rank] != UNKNOWN:
                    found[dams[rank]] += half
        return found

    def relationships(self, population: Collection[int], last: int | None = None) -> list[int]:
        """For each animal, up to a last one, the sum of its relationships with the population, in units of 2^-242."""
        shares = self.shares(population)
        count = len(shares) if last is None else last + 1
        sires, dams = self.pedigree.sires, self.pedigree.dams
        found = [0] * count
        for rank in range(count):
            sire, dam = sires[rank], dams[rank]
            of_parents = (found[sire] if sire != UNKNOWN else 0) + (found[dam] if dam != UNKNOWN else 0)
            share = shares[rank]
            own = share * self.variances[rank] << MOST_STEPS if share else 0
            found[rank] = own + (of_parents >> 1)
        return found

    def mean_of_each(self, population: Collection[int]) -> list[Fraction]:
        """Each animal's mean kinship with the population (Ballou and Lacy 1995)."""
        of_one = len(population) << RELATIONSHIP_BITS + 1
        return [Fraction(sum_of_all, of_one) for sum_of_all in self.relationships(population)]

    def mean(self, population: Collection[int]) -> Fraction:
        """The mean kinship of all ordered pairs of the population, each with itself too."""
        sums = self.relationships(population, max(population))
        total = sum(sums[rank] for rank in population)
        return Fraction(total, len(population) ** 2 << RELATIONSHIP_BITS + 1)
