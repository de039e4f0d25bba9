"""Founders' and ancestors' contributions to a population, and the effective numbers of both.

Where one parent of an animal is known and the other isn't, the unknown one counts as a founder of its own.
"""
from __future__ import annotations

import heapq
import itertools
import math
from collections.abc import Collection, Iterator
from dataclasses import dataclass
from fractions import Fraction

from gudokeyi.genetics.pedigree import MOST_STEPS, Pedigree

WHOLE = 1 << MOST_STEPS


@dataclass(frozen=True)
class Contribution:
    """What a founder or an ancestor adds to the population: of itself, or, where `is_parent_of`, the unknown parent of
    an animal of this rank."""

    rank: int
    is_parent_of: bool
    share: Fraction


class FoundedPedigree:
    """A pedigree in which each unknown parent beside a known one has a place of its own, just before its offspring."""

    def __init__(self, pedigree: Pedigree) -> None:
        self.parents: list[tuple[int, ...]] = []
        # the animal of a place, and whether its unknown parent stands there
        self.animals: list[tuple[int, bool]] = []
        places: list[int] = []
        for rank in range(len(pedigree)):
            known = [places[parent] for parent in pedigree.known_parents(rank)]
            if len(known) == 1:
                known.append(self.add((), rank, True))
            places.append(self.add(tuple(known), rank, False))
        self.places = places

    def add(self, parents: tuple[int, ...], rank: int, is_parent: bool) -> int:
        self.parents.append(parents)
        self.animals.append((rank, is_parent))
        return len(self.parents) - 1

    def shares(self, population: Collection[int]) -> list[int]:
        """For each place the sum of the population's shares of its genes, in units of 2^-60."""
        found = [0] * len(self.parents)
        for rank in population:
            found[self.places[rank]] += WHOLE
        for place in range(len(found) - 1, -1, -1):
            if found[place]:
                for parent in self.parents[place]:
                    found[parent] += found[place] >> 1
        return found

    def contribution(self, place: int, share: Fraction) -> Contribution:
        rank, is_parent = self.animals[place]
        return Contribution(rank, is_parent, share)


def founder_contributions(founded: FoundedPedigree, population: Collection[int]) -> list[Contribution]:
    """What each founder adds to the population (Lacy 1989), in age order; together they are one."""
    shares = founded.shares(population)
    of_all = len(population) << MOST_STEPS
    founders = (place for place, parents in enumerate(founded.parents) if not parents and shares[place])
    return [founded.contribution(place, Fraction(shares[place], of_all)) for place in founders]


def effective_number(contributions: Collection[Contribution]) -> Fraction:
    """How many equal contributions would give the same chance that two genes come from one: one by the sum of the
    squares."""
    # over one denominator, so that no fraction is reduced again and again
    below = math.lcm(*{one.share.denominator for one in contributions})
    squares = sum((one.share.numerator * (below // one.share.denominator)) ** 2 for one in contributions)
    return Fraction(below**2, squares)


class Ancestors:
    """The ancestors of a population by what each adds beyond those before it, the greatest first; ties go by age order
    (Boichard, Maignel and Verrier 1997)."""

    def __init__(self, founded: FoundedPedigree, population: Collection[int]) -> None:
        self.founded, self.count = founded, len(population)
        # the population's shares of each one's genes, where paths through those that were taken aren't counted
        self.shares = founded.shares(population)
        self.parents = list(founded.parents)
        # of those alone that the population has genes of
        self.offspring: list[list[int]] = [[] for _ in self.parents]
        for place, parents in enumerate(self.parents):
            for parent in parents if self.shares[place] else ():
                self.offspring[parent].append(place)
        # the part of each one's genes that comes from those that were taken, in units of 2^-60
        self.taken = [0] * len(self.parents)

    def in_turn(self) -> Iterator[Contribution]:
        """Each ancestor with its marginal contribution, until there are none left."""
        waiting = [(-share * WHOLE, place) for place, share in enumerate(self.shares) if share]
        heapq.heapify(waiting)
        of_all = self.count << 2 * MOST_STEPS
        while waiting:
            before, place = heapq.heappop(waiting)
            # what an ancestor adds never grows, so the first whose value still holds is the greatest
            now = self.shares[place] * (WHOLE - self.taken[place])
            if now and now == -before:
                yield self.founded.contribution(place, Fraction(now, of_all))
                self.take(place)
            elif now:
                heapq.heappush(waiting, (-now, place))

    def take(self, place: int) -> None:
        self.take_from_ancestors(place)
        self.parents[place] = ()
        self.give_to_offspring(place)

    def take_from_ancestors(self, place: int) -> None:
        """What the population has of the ancestors' genes through this one isn't counted any more."""
        less = {place: self.shares[place]}
        reached = [-place]
        while reached:
            one = -heapq.heappop(reached)
            half = less.pop(one) >> 1
            for parent in self.parents[one]:
                self.shares[parent] -= half
                if parent not in less:
                    heapq.heappush(reached, -parent)
                less[parent] = less.get(parent, 0) + half

    def give_to_offspring(self, place: int) -> None:
        """The descendants' genes that come from this one count as taken, but through those that were taken before."""
        more = {place: WHOLE - self.taken[place]}
        reached = [place]
        while reached:
            one = heapq.heappop(reached)
            gained = more.pop(one)
            self.taken[one] += gained
            for offspring in self.offspring[one]:
                if one in self.parents[offspring]:
                    if offspring not in more:
                        heapq.heappush(reached, offspring)
                    more[offspring] = more.get(offspring, 0) + (gained >> 1)


@dataclass(frozen=True)
class AncestorNumber:
    """The effective number of ancestors: exact where all were gone through, else two bounds between which it lies."""

    ancestors: list[Contribution]
    least: Fraction
    greatest: Fraction

    @property
    def is_exact(self) -> bool:
        return self.least == self.greatest


def effective_ancestors(ancestors: Ancestors, founders: int, most: int | None) -> AncestorNumber:
    """Goes through all ancestors, or through so many at most. Those that are left contribute what is missing of one,
    each no more than the last that was found, and there are no more of them than founders: that bounds the sum of
    their squares."""
    found = list(itertools.islice(ancestors.in_turn(), most))
    below = math.lcm(*{one.share.denominator for one in found})
    parts = [one.share.numerator * (below // one.share.denominator) for one in found]
    squares = Fraction(sum(part**2 for part in parts), below**2)
    left = 1 - Fraction(sum(parts), below)
    evenly = left**2 / max(1, founders - len(found))
    return AncestorNumber(found, 1 / (squares + left * found[-1].share), 1 / (squares + evenly))
