"""A pedigree in age order, as the measures of a breed read it."""
from __future__ import annotations

import datetime
from collections.abc import Iterable, Sequence
from dataclasses import dataclass
from functools import cached_property

# the rank of a parent that isn't known
UNKNOWN = -1
# no path of parents has more steps: a share of genes is a whole number of 2^-60
MOST_STEPS = 60
# a coefficient of inbreeding is a whole number of 2^-120
COEFFICIENT_BITS = 120


@dataclass(frozen=True)
class Pedigree:
    """Animals by rank, parents before their offspring: a list for each thing that is known of them.

    `coefficients` are whole numbers of 2^-120. A birth day that isn't known is none, also where one was inferred.
    """

    ids: Sequence[str]
    sires: Sequence[int]
    dams: Sequence[int]
    coefficients: Sequence[int]
    births: Sequence[datetime.date | None]
    are_male: Sequence[bool]

    def __len__(self) -> int:
        return len(self.ids)

    @cached_property
    def offspring(self) -> Sequence[Sequence[int]]:
        """The offspring of each animal, the oldest first."""
        found: list[list[int]] = [[] for _ in self.ids]
        for rank, parents in enumerate(zip(self.sires, self.dams)):
            for parent in set(parents) - {UNKNOWN}:
                found[parent].append(rank)
        return found

    def known_parents(self, rank: int) -> list[int]:
        return [parent for parent in (self.sires[rank], self.dams[rank]) if parent != UNKNOWN]

    def ancestry(self, ranks: Iterable[int]) -> list[int]:
        """The animals named and all their ancestors, by rank."""
        is_in = bytearray(len(self))
        for rank in ranks:
            is_in[rank] = True
        for rank in range(len(self) - 1, -1, -1):
            if is_in[rank]:
                for parent in self.known_parents(rank):
                    is_in[parent] = True
        return [rank for rank, one in enumerate(is_in) if one]
