"""The order in which the days of animals without one are inferred: parents before their offspring."""
from __future__ import annotations

import datetime
import itertools
import operator
from collections.abc import Set
from typing import NamedTuple

from gudokeyi.domain.pedigree_order import in_order
from gudokeyi.ingest.animals import BIRTH_OF, DAM_OF, SIRE_OF, SheetAnimal, ancestors_among, parents_of_all
from gudokeyi.ingest.days import Precision, Span
from gudokeyi.reconcile.last_found import changed_ids

FIRST, LAST, PRECISION = map(operator.attrgetter, ("first", "last", "precision"))


class Births(NamedTuple):
    """The ids of all animals, their births, their sires and their dams: by these the order is found."""

    ids: list[str]
    births: list[Span]
    sires: list[str]
    dams: list[str]

    @classmethod
    def of(cls, animals: dict[str, SheetAnimal]) -> Births:
        those = animals.values()
        return cls([*animals], [*map(BIRTH_OF, those)], [*map(SIRE_OF, those)], [*map(DAM_OF, those)])

    def not_surely_older(self) -> list[str]:
        """The animals with a parent that may not be older by the days of both: in each cycle there is one."""
        last = dict(zip(self.ids, map(LAST, self.births)))
        last[""] = datetime.date.min
        first = [*map(FIRST, self.births)]
        by_sires, by_dams = (
            map(operator.ge, map(last.__getitem__, parents), first) for parents in (self.sires, self.dams)
        )
        return [*itertools.compress(self.ids, map(operator.or_, by_sires, by_dams))]

    def undated(self) -> list[str]:
        """The animals without a day."""
        are_open = map(operator.is_not, map(PRECISION, self.births), itertools.repeat(Precision.DAY))
        return [*itertools.compress(self.ids, are_open)]

    def with_offspring(self, ids: Set[str]) -> set[str]:
        """Some animals and all that have one of them as a parent."""
        of_sires, of_dams = (itertools.compress(self.ids, map(ids.__contains__, of)) for of in (self.sires, self.dams))
        return {*ids, *of_sires, *of_dams}


class UndatedOrder(NamedTuple):
    """The animals without a day in their order, none where any would be its own ancestor; and among which animals that
    was found, as all stand: these, those whose parents may not be older, and the ancestors of both."""

    order: list[str] | None
    among: list[str]

    @classmethod
    def of(cls, animals: dict[str, SheetAnimal], by: Births) -> UndatedOrder:
        undated = {id: animals[id] for id in by.undated()}
        younger = by.not_surely_older()
        # these stand in one order, whether the others do or not
        some = with_ancestors(animals, {*undated, *younger})
        if not younger:
            return cls(by_age(undated), [*some])
        order = in_order(parents_of_all(some))
        return cls([id for id in order if id in undated] if len(order) == len(some) else None, [*some])

    def again(self, animals: dict[str, SheetAnimal], before: Births, by: Births) -> UndatedOrder | None:
        """The same, where none of these animals is otherwise and no others come to them; else none."""
        changed, among = changed_ids(before, by), {*self.among}
        if changed is None or [*filter(among.__contains__, by.ids)] != self.among:
            return None
        some = by.with_offspring(changed)
        come = (id for id in some if id in animals and comes_to_them(animals, animals[id]))
        return self if some.isdisjoint(among) and not any(come) else None


def comes_to_them(animals: dict[str, SheetAnimal], animal: SheetAnimal) -> bool:
    """Has it no day, or a parent that may not be older?"""
    parents = map(animals.__getitem__, animal.parent_ids())
    return not animal.has_day() or any(parent.birth.last >= animal.birth.first for parent in parents)


def with_ancestors(animals: dict[str, SheetAnimal], ids: set[str]) -> dict[str, SheetAnimal]:
    """Some animals and their ancestors, in the order of all."""
    found = ids | ancestors_among(map(animals.__getitem__, ids), animals)
    return dict(itertools.compress(animals.items(), map(found.__contains__, animals)))


def by_age(animals: dict[str, SheetAnimal]) -> list[str]:
    """Animals whose parents are older: the founders in their order, and behind them the others by age."""
    if not animals:
        return []
    founders = [id for id, animal in animals.items() if not animal.sire and not animal.dam]
    born = {id: animal.birth.first for id, animal in animals.items() if animal.sire or animal.dam}
    return founders + sorted(born, key=born.__getitem__)
