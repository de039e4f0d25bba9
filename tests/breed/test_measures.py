"""Each measure of a breed beside a slow reading of its definition, a published example, SciPy and dropped genes."""
from __future__ import annotations

import collections
import math
import random
from fractions import Fraction

import pytest

from breed.drawn import ancestors_in_turn, drawn, generations_back, path_shares, pedigree_of, tabular
from gudokeyi.genetics.breed_state import state_of, years_of
from gudokeyi.genetics.effective_size import individual_increase, yearly_rate
from gudokeyi.genetics.founders import (
    Ancestors, FoundedPedigree, effective_ancestors, effective_number, founder_contributions,
)  # fmt: skip
from gudokeyi.genetics.generations import (
    completeness_by_generation, generation_interval, generations_of, intervals_of, maccluer_indices,
)  # fmt: skip
from gudokeyi.genetics.kinship import Kinship
from gudokeyi.genetics.measures import Lack, Name
from gudokeyi.genetics.pedigree import UNKNOWN, Pedigree

SEEDS = range(8)
POPULATION = range(22, 40)


@pytest.fixture(params=SEEDS)
def pedigree(request: pytest.FixtureRequest) -> Pedigree:
    seed: int = request.param
    return drawn(seed)


def quiet(what: str) -> None:
    """Tells nothing of the work."""


def test_mean_kinships(pedigree: Pedigree) -> None:
    matrix = tabular(pedigree.sires, pedigree.dams)
    kinship = Kinship.of(pedigree)
    count = len(POPULATION)
    assert kinship.mean_of_each(POPULATION) == [
        sum(matrix[rank][other] for other in POPULATION) / 2 / count for rank in range(len(pedigree))
    ]
    pairs = sum(matrix[one][other] for one in POPULATION for other in POPULATION)
    assert kinship.mean(POPULATION) == pairs / 2 / count**2


def test_generations(pedigree: Pedigree) -> None:
    generations = generations_of(pedigree)
    for rank in range(len(pedigree)):
        back = generations_back(pedigree, rank)
        assert generations.equivalent(rank) == sum(
            (Fraction(len(ancestors), 2**at) for at, ancestors in enumerate(back, 1)), Fraction(0)
        )
        complete = [at for at, ancestors in enumerate(back, 1) if len(ancestors) == 2**at]
        assert generations.full[rank] == max(complete, default=0)
        assert generations.greatest[rank] == len(back)


def test_completeness(pedigree: Pedigree) -> None:
    back = [generations_back(pedigree, rank) for rank in POPULATION]
    counts = [sum(len(one[at]) for one in back if at < len(one)) for at in range(max(map(len, back)))]
    wanted = [Fraction(count, 2**at * len(POPULATION)) for at, count in enumerate(counts, 1)]
    assert completeness_by_generation(pedigree, POPULATION) == wanted


def test_maccluer_index(pedigree: Pedigree) -> None:
    def line(parent: int) -> Fraction:
        """A parent's completeness over five generations, itself the first."""
        if parent == UNKNOWN:
            return Fraction(0)
        known = [[parent], *generations_back(pedigree, parent)][:5]
        return sum((Fraction(len(ancestors), 2**at) for at, ancestors in enumerate(known)), Fraction(0)) / 5

    for rank, index in enumerate(maccluer_indices(pedigree)):
        of_sire, of_dam = line(pedigree.sires[rank]), line(pedigree.dams[rank])
        assert index == (2 / (1 / of_sire + 1 / of_dam) if of_sire and of_dam else 0)


def test_founders(pedigree: Pedigree) -> None:
    wanted: dict[tuple[int, bool], Fraction] = {}
    for rank in POPULATION:
        for founder, share in path_shares(pedigree, rank).items():
            wanted[founder] = wanted.get(founder, Fraction(0)) + share / len(POPULATION)
    found = founder_contributions(FoundedPedigree(pedigree), POPULATION)
    assert {(one.rank, one.is_parent_of): one.share for one in found} == wanted
    assert effective_number(found) == 1 / sum((share**2 for share in wanted.values()), Fraction(0))


def test_ancestors(pedigree: Pedigree) -> None:
    founded = FoundedPedigree(pedigree)
    founders = len(founder_contributions(founded, POPULATION))
    exact = effective_ancestors(Ancestors(founded, POPULATION), founders, None)
    wanted = ancestors_in_turn(pedigree, POPULATION)
    assert [((one.rank, one.is_parent_of), one.share) for one in exact.ancestors] == wanted
    assert exact.is_exact and exact.least == 1 / sum(share**2 for _, share in wanted)
    for most in (1, 3, 6):
        bounds = effective_ancestors(Ancestors(founded, POPULATION), founders, most)
        assert bounds.least <= exact.least <= bounds.greatest


def test_intervals(pedigree: Pedigree) -> None:
    parents = {parent for pair in zip(pedigree.sires, pedigree.dams) for parent in pair}
    found = intervals_of(pedigree, POPULATION)
    for path, interval in found.items():
        of_sire, to_son = path.value.startswith("sire"), path.value.endswith("son")
        ages = []
        for rank in POPULATION:
            parent = pedigree.sires[rank] if of_sire else pedigree.dams[rank]
            born, before = pedigree.births[rank], pedigree.births[parent]
            if rank in parents and parent != UNKNOWN and pedigree.are_male[rank] is to_son and born and before:
                ages.append((born - before).days)
        assert interval.pairs == len(ages)
        assert interval.years == (Fraction(sum(ages) * 100, len(ages) * 36525) if ages else None)
    whole = generation_interval(found)
    assert whole is None or whole == sum(one.years or 0 for one in found.values()) / 4


def test_individual_increase(pedigree: Pedigree) -> None:
    generations = generations_of(pedigree)
    increases = []
    for rank in POPULATION:
        equivalent = float(generations.equivalent(rank))
        if equivalent > 1:
            increases.append(1 - (1 - pedigree.coefficients[rank] / 2**120) ** (1 / (equivalent - 1)))
    rate = individual_increase(pedigree, generations, POPULATION)
    mean = sum(increases) / len(increases)
    deviation = math.sqrt(sum((one - mean) ** 2 for one in increases) / (len(increases) - 1))
    assert rate and rate.size and rate.standard_error and rate.animals == len(increases)
    assert rate.rate == pytest.approx(mean) and rate.size == pytest.approx(1 / (2 * mean))
    assert rate.standard_error == pytest.approx(2 * rate.size**2 * deviation / math.sqrt(len(increases)))


def test_yearly_rate_by_scipy(pedigree: Pedigree) -> None:
    from scipy import stats

    years = [born.year for rank in POPULATION if (born := pedigree.births[rank])]
    logs = [math.log(1 - pedigree.coefficients[rank] / 2**120) for rank in POPULATION]
    rate = yearly_rate(pedigree, POPULATION)
    assert rate == pytest.approx(1 - math.exp(stats.linregress(years, logs).slope))


def test_relationships_by_scipy(pedigree: Pedigree) -> None:
    """The inverse of the numerator relationship matrix by Henderson's rules, solved for the population."""
    import numpy
    from scipy.sparse import csc_matrix
    from scipy.sparse.linalg import spsolve

    count = len(pedigree)
    inverse = numpy.zeros((count, count))
    for rank in range(count):
        parents = pedigree.known_parents(rank)
        variance = 1 - sum(0.25 * (1 + pedigree.coefficients[parent] / 2**120) for parent in parents)
        row = numpy.zeros(count)
        row[[rank, *parents]] = [1, *[-0.5] * len(parents)]
        inverse += numpy.outer(row, row) / variance
    wanted = numpy.zeros(count)
    wanted[list(POPULATION)] = 1 / (2 * len(POPULATION))
    solved = spsolve(csc_matrix(inverse), wanted)
    assert [float(one) for one in Kinship.of(pedigree).mean_of_each(POPULATION)] == pytest.approx(solved)


@pytest.mark.parametrize("seed", [0, 1])
def test_dropped_genes(seed: int) -> None:
    """Founders' contributions and founder genome equivalents beside genes that are dropped down the pedigree."""
    pedigree, draw, times = drawn(seed), random.Random(seed), 2_000
    alike = 0
    origins: collections.Counter[tuple[int, bool]] = collections.Counter()
    for _ in range(times):
        genes = dropped(pedigree, draw)
        one, other = (draw.choice(genes[draw.choice(POPULATION)]) for _ in range(2))
        alike += one == other
        origins[one[:2]] += 1
    kinship = float(Kinship.of(pedigree).mean(POPULATION))
    assert abs(alike / times - kinship) < 4 * math.sqrt(kinship * (1 - kinship) / times)
    for founder in founder_contributions(FoundedPedigree(pedigree), POPULATION):
        share = float(founder.share)
        found = origins[founder.rank, founder.is_parent_of] / times
        assert abs(found - share) < 4.5 * math.sqrt(share * (1 - share) / times)


# a founder's gene: the founder, whether it is the unknown parent of that animal, and which of its two genes
Gene = tuple[int, bool, int]


def dropped(pedigree: Pedigree, draw: random.Random) -> list[tuple[Gene, Gene]]:
    """The two genes of each animal: one of each parent's at random, those of a founder's own."""
    genes: list[tuple[Gene, Gene]] = []
    for rank, (sire, dam) in enumerate(zip(pedigree.sires, pedigree.dams)):
        is_founder = sire == dam == UNKNOWN
        own: list[Gene] = []
        for at, parent in enumerate((sire, dam)):
            of_founder = (rank, not is_founder, at if is_founder else draw.randrange(2))
            own.append(of_founder if parent == UNKNOWN else draw.choice(genes[parent]))
        genes.append((own[0], own[1]))
    return genes


# the numerator relationship matrix of six animals as Mrode prints it (Linear Models for the Prediction of Animal
# Breeding Values, second edition, 2005, example 2.1)
PRINTED = [
    [1.0, 0.0, 0.5, 0.5, 0.5, 0.25],
    [0.0, 1.0, 0.5, 0.0, 0.25, 0.625],
    [0.5, 0.5, 1.0, 0.25, 0.625, 0.5625],
    [0.5, 0.0, 0.25, 1.0, 0.625, 0.3125],
    [0.5, 0.25, 0.625, 0.625, 1.125, 0.6875],
    [0.25, 0.625, 0.5625, 0.3125, 0.6875, 1.125],
]


def test_published_example() -> None:
    pairs = [(UNKNOWN, UNKNOWN), (UNKNOWN, UNKNOWN), (0, 1), (0, UNKNOWN), (3, 2), (4, 1)]
    pedigree = pedigree_of(pairs, [True, False, False, True, True, False])
    state = state_of(pedigree, range(6), quiet)
    assert sorted(state.mean_kinships) == [(rank, Fraction(sum(row)) / 12) for rank, row in enumerate(PRINTED)]
    assert state.measures[Name.MEAN_KINSHIP].exact == Fraction(sum(sum(row) for row in PRINTED)) / 72
    assert state.measures[Name.MEAN_INBREEDING].exact == Fraction(sum(PRINTED[at][at] - 1 for at in range(6))) / 6


def test_founders_alone() -> None:
    """Animals without parents are all founders, related to themselves alone, and no rate can be had."""
    state = state_of(pedigree_of([(UNKNOWN, UNKNOWN)] * 4, [True, False] * 2), range(4), quiet)
    found = state.measures
    for name in Name.EFFECTIVE_FOUNDERS, Name.EFFECTIVE_ANCESTORS, Name.FOUNDER_GENOME_EQUIVALENTS:
        assert found[name].exact == 4
    assert found[Name.MACCLUER_INDEX].exact == 0 and state.completeness == []
    assert found[Name.EFFECTIVE_SIZE].lack is Lack.ONE_GENERATION
    assert found[Name.GENERATION_INTERVAL].lack is Lack.NOT_ALL_PATHS
    assert found[Name.EFFECTIVE_SIZE_BY_YEARS].lack is Lack.NOT_ALL_PATHS


def test_years(pedigree: Pedigree) -> None:
    matrix = tabular(pedigree.sires, pedigree.dams)
    for year in years_of(pedigree, Kinship.of(pedigree)):
        ranks = [rank for rank, born in enumerate(pedigree.births) if born and born.year == year.year]
        assert year.animals == len(ranks)
        assert year.mean_inbreeding == sum(matrix[rank][rank] - 1 for rank in ranks) / len(ranks)
        pairs = sum(matrix[one][other] for one in ranks for other in ranks)
        assert year.mean_kinship == pairs / 2 / len(ranks) ** 2
        dams = [pedigree.dams[rank] for rank in ranks if pedigree.dams[rank] != UNKNOWN]
        assert (year.dams.in_use, year.dams.offspring) == (len(set(dams)), len(dams))
        assert year.dams.most == max(map(dams.count, dams), default=0)
