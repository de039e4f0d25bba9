"""Animals by their places with the places of their parents, as arrays: parents before their offspring, ancestors,
cycles and paths that are too long. One animal may be sire and dam, of others and of one."""
from __future__ import annotations

from dataclasses import dataclass
from functools import cached_property

import numpy as np
import numpy.typing as npt

from gudokeyi.genetics.pedigree import MOST_STEPS, UNKNOWN

Places = npt.NDArray[np.int64]


@dataclass(frozen=True)
class Lineage:
    """The places of each animal's sire and dam, `UNKNOWN` for none."""

    sires: Places
    dams: Places

    def __len__(self) -> int:
        return len(self.sires)

    @cached_property
    def is_in_order(self) -> bool:
        """Does each parent stand before its offspring?"""
        places = np.arange(len(self))
        return bool((self.sires < places).all() and (self.dams < places).all())

    @cached_property
    def depths(self) -> Places:
        """The steps of each animal's longest path of known parents; `UNKNOWN` where it is in or below a cycle, or
        longer than a path may be."""
        # the last one stands for parents that aren't known
        is_placed = np.zeros(len(self) + 1, bool)
        is_placed[UNKNOWN] = True
        found = np.full(len(self), UNKNOWN)
        left = np.arange(len(self))
        for depth in range(MOST_STEPS + 1):
            are_free = is_placed[self.sires[left]] & is_placed[self.dams[left]]
            free = left[are_free]
            found[free] = depth
            is_placed[free] = True
            left = left[~are_free]
            if not len(free) or not len(left):
                break
        return found

    @cached_property
    def order(self) -> Places:
        """The places of all animals, parents before their offspring, where none is in a cycle or too deep."""
        return np.arange(len(self)) if self.is_in_order else np.argsort(self.depths, kind="stable")

    def ancestry(self, places: Places) -> Places:
        """The places of some animals and of all their ancestors."""
        is_in = np.zeros(len(self) + 1, bool)
        # the unknown parents of animals are there already
        is_in[UNKNOWN] = True
        new = np.unique(places)
        while len(new):
            is_in[new] = True
            parents = np.concatenate([self.sires[new], self.dams[new]])
            new = np.unique(parents[~is_in[parents]])
        return np.flatnonzero(is_in[:-1])

    def cut(self, places: Places) -> Lineage:
        """The animals of some places, to which all their parents belong, in this order."""
        new = np.full(len(self) + 1, UNKNOWN)
        new[places] = np.arange(len(places))
        return Lineage(new[self.sires[places]], new[self.dams[places]])

    def parents_of(self, place: int) -> list[int]:
        return [int(parent) for parent in (self.sires[place], self.dams[place]) if parent != UNKNOWN]

    def cycle(self) -> list[int]:
        """The animals of a cycle, each a parent of the one before it; none where there is no cycle."""
        left = self.never_placed()
        path: dict[int, int] = {}
        place = min(left, default=UNKNOWN)
        while left and place not in path:
            path[place] = len(path)
            place = next(parent for parent in self.parents_of(place) if parent in left)
        return list(path)[path[place] :] if left else []

    def never_placed(self) -> set[int]:
        """The animals in or below a cycle: those that stay when each is taken away whose parents are."""
        left = {int(place) for place in np.flatnonzero(self.depths == UNKNOWN)}
        waiting = {place: sum(parent in left for parent in self.parents_of(place)) for place in left}
        offspring: dict[int, list[int]] = {}
        for place in left:
            for parent in self.parents_of(place):
                offspring.setdefault(parent, []).append(place)
        free = [place for place, count in waiting.items() if not count]
        for place in free:
            left.discard(place)
            for one in offspring.get(place, ()):
                waiting[one] -= 1
                if not waiting[one]:
                    free.append(one)
        return left

    def first_too_deep(self) -> list[int]:
        """The animals with a path that is too long and no parent with one, where there is no cycle."""
        are_left = np.append(self.depths == UNKNOWN, False)
        first = np.flatnonzero(are_left[:-1] & ~are_left[self.sires] & ~are_left[self.dams])
        return [int(place) for place in first]

    def longest_path(self, place: int) -> list[int]:
        """An animal that is the first too deep one, the parent with the longest path, that one's, and so on."""
        path = [place]
        while parents := self.parents_of(path[-1]):
            path.append(max(parents, key=lambda parent: int(self.depths[parent])))
        return path
