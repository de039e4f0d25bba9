"""The order of a pedigree: parents before their offspring, cycles, ancestors and longest paths.

A pedigree is a table of the known parents of each animal, by ids or by numbers. Parents that have no line in it are
passed over.
"""
from __future__ import annotations

import collections
from collections.abc import Callable, Collection, Iterable, Mapping

# the known parents of each animal
Parents = Mapping[str, Collection[str]]


def offspring_by_parent(parents: Parents) -> dict[str, list[str]]:
    """The offspring of each parent, twice where it is both parents."""
    found = collections.defaultdict[str, list[str]](list)
    for id, its in parents.items():
        for parent in its:
            found[parent].append(id)
    return found


class Waiting:
    """The animals that wait for their parents to be placed. `free` are those that wait for none."""

    def __init__(self, parents: Parents) -> None:
        self.offspring = offspring_by_parent(parents)
        self.missing = {id: sum(map(parents.__contains__, its)) for id, its in parents.items()}
        self.free = [id for id, missing in self.missing.items() if not missing]

    def place(self, id: str) -> list[str]:
        """Places an animal; answers the offspring that waited for it alone."""
        found = []
        for one in self.offspring.get(id, ()):
            self.missing[one] -= 1
            if not self.missing[one]:
                found.append(one)
        return found


def in_order(parents: Parents) -> list[str]:
    """The animals, parents before their offspring. Those in or below a cycle are absent."""
    waiting = Waiting(parents)
    order = waiting.free
    for id in order:
        order += waiting.place(id)
    return order


def ancestors(ids: Iterable[str], parents: Callable[[str], Iterable[str]]) -> set[str]:
    """All ancestors of some animals, each reached from parent to parent."""
    found: set[str] = set()
    new = list(ids)
    for id in new:
        further = [parent for parent in parents(id) if parent not in found]
        found.update(further)
        new += further
    return found


def longest_paths(order: Iterable[str], further: Callable[[str], Iterable[str]]) -> dict[str, int]:
    """How many steps the longest path has from each animal on; those further on a path come before it in the order."""
    steps: dict[str, int] = {}
    for id in order:
        steps[id] = max((steps[one] + 1 for one in further(id)), default=0)
    return steps


def round_from(id: str, parent: Callable[[str], str]) -> list[str]:
    """The animals of the cycle to which the way from an animal leads, each with the next as its parent."""
    path: dict[str, int] = {}
    while id not in path:
        path[id] = len(path)
        id = parent(id)
    return list(path)[path[id] :]
