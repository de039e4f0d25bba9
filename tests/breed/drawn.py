"""Drawn pedigrees, and the definitions of the measures read slowly: the tabular matrix, and all paths one by one."""
from __future__ import annotations

import datetime
import random
from collections.abc import Sequence
from fractions import Fraction

from gudokeyi.genetics.founders import FoundedPedigree
from gudokeyi.genetics.pedigree import COEFFICIENT_BITS, UNKNOWN, Pedigree

Matrix = list[list[Fraction]]


def pedigree_of(pairs: Sequence[tuple[int, int]], are_male: Sequence[bool], days: int = 200) -> Pedigree:
    """A pedigree of sires and dams by rank, with the coefficients of its tabular matrix, each so many days younger
    than the one before it."""
    sires, dams = [sire for sire, _ in pairs], [dam for _, dam in pairs]
    matrix = tabular(sires, dams)
    coefficients = [int((matrix[rank][rank] - 1) * (1 << COEFFICIENT_BITS)) for rank in range(len(pairs))]
    births = [datetime.date(1990, 1, 1) + datetime.timedelta(days=days * rank) for rank in range(len(pairs))]
    return Pedigree([str(rank) for rank in range(len(pairs))], sires, dams, coefficients, births, are_male)


def drawn(seed: int, animals: int = 40, unknown: float = 0.15, back: int = 15) -> Pedigree:
    """Generations overlap, animals are inbred, and of some one parent is unknown or both are."""
    draw = random.Random(seed)
    are_male = [draw.random() < 0.5 for _ in range(animals)]
    pairs = []
    for rank in range(animals):
        parents = []
        for sex in (True, False):
            able = [one for one in range(max(0, rank - back), rank) if are_male[one] is sex]
            parents.append(draw.choice(able) if able and draw.random() > unknown else UNKNOWN)
        pairs.append((parents[0], parents[1]))
    return pedigree_of(pairs, are_male)


def tabular(sires: Sequence[int], dams: Sequence[int]) -> Matrix:
    """The numerator relationship matrix, row by row (Emik and Terrill 1949)."""
    matrix: Matrix = [[Fraction(0)] * len(sires) for _ in sires]
    for row, (sire, dam) in enumerate(zip(sires, dams)):
        parents = [parent for parent in (sire, dam) if parent != UNKNOWN]
        for column in range(row):
            matrix[row][column] = sum((matrix[parent][column] for parent in parents), Fraction(0)) / 2
            matrix[column][row] = matrix[row][column]
        matrix[row][row] = 1 + (matrix[sire][dam] / 2 if len(parents) == 2 else Fraction(0))
    return matrix


def ancestors_back(pedigree: Pedigree, rank: int, generations: int) -> list[int]:
    """The known ancestors so many generations back, one for each path."""
    found = [rank]
    for _ in range(generations):
        found = [parent for one in found for parent in pedigree.known_parents(one)]
    return found


def generations_back(pedigree: Pedigree, rank: int) -> list[list[int]]:
    """The same for each generation from the parents on, while there are any."""
    found: list[list[int]] = []
    while ancestors := ancestors_back(pedigree, rank, len(found) + 1):
        found.append(ancestors)
    return found


def path_shares(pedigree: Pedigree, rank: int) -> dict[tuple[int, bool], Fraction]:
    """Each founder's share of an animal's genes, path by path; the unknown parent beside a known one is a founder."""
    parents = pedigree.known_parents(rank)
    if not parents:
        return {(rank, False): Fraction(1)}
    found: dict[tuple[int, bool], Fraction] = {}
    if len(parents) == 1:
        found[rank, True] = Fraction(1, 2)
    for parent in parents:
        for founder, share in path_shares(pedigree, parent).items():
            found[founder] = found.get(founder, Fraction(0)) + share / 2
    return found


def ancestors_in_turn(pedigree: Pedigree, population: Sequence[int]) -> list[tuple[tuple[int, bool], Fraction]]:
    """Ancestors with their marginal contributions, each found anew by two passes over all (Boichard, Maignel and
    Verrier 1997)."""
    founded = FoundedPedigree(pedigree)
    parents = list(founded.parents)
    taken: set[int] = set()
    found: list[tuple[tuple[int, bool], Fraction]] = []
    while True:
        marginal = marginal_contributions(parents, [founded.places[rank] for rank in population], taken)
        greatest = max(marginal)
        if not greatest:
            return found
        place = marginal.index(greatest)
        found.append((founded.animals[place], greatest))
        taken.add(place)
        parents[place] = ()


def marginal_contributions(parents: list[tuple[int, ...]], population: list[int], taken: set[int]) -> list[Fraction]:
    shares = [Fraction(population.count(place), len(population)) for place in range(len(parents))]
    for place in reversed(range(len(parents))):
        for parent in parents[place]:
            shares[parent] += shares[place] / 2
    of_taken: list[Fraction] = []
    for place, its in enumerate(parents):
        of_parents = sum((of_taken[parent] for parent in its), Fraction(0)) / 2
        of_taken.append(Fraction(1) if place in taken else of_parents)
    return [share * (1 - part) for share, part in zip(shares, of_taken)]
