"""What was found of all animals by some of what is said of them, kept for the next look at the same sheet: it is found
anew where any of that is another."""
from __future__ import annotations

import collections
import enum
import itertools
import operator
from collections.abc import Callable, Collection, Sequence, Set
from typing import TypeVar, cast

from gudokeyi.ingest.animals import ParentsOutside
from gudokeyi.reconcile.ids_by_name import IdsByName, NamesEver

Value = TypeVar("Value")
# by what something was found: lists of many values, most of which are the same objects as at the last look
FoundBy = tuple[object, ...]


class Kept(enum.Enum):
    """What is kept."""

    # the ids of the book that no row has, and those of rows or of the book that were given
    WITHOUT_ROW = enum.auto()
    GIVEN_IDS = enum.auto()
    # the parents of rows that have no row: as cells name them, and once they are found
    PARENTS_WRITTEN = enum.auto()
    PARENTS_FOUND = enum.auto()
    # those of all animals
    PARENTS_WITHOUT_ROW = enum.auto()
    NEAR_IDS = enum.auto()
    IDS_IN_TEXTS = enum.auto()
    # the places of animals, and those whose ids were given by their names
    PLACES = enum.auto()
    GIVEN_NAMES = enum.auto()
    # the ids that were given by the days that they may be, and by the other forms that they may have
    DAYS_FOR_IDS = enum.auto()
    NEAR_TAGS = enum.auto()
    # whether those of rows have digits
    HAVE_DIGITS = enum.auto()
    # the animals that the book hasn't, and the numbers that others have or had there, and in which herds they are
    NEW = enum.auto()
    NUMBERS = enum.auto()
    HERDS = enum.auto()
    # the places of the animals in the order of their birth
    BY_BIRTH = enum.auto()
    # which commands the program refuses
    REFUSED = enum.auto()
    REFUSED_ANEW = enum.auto()
    # the births without parents, and the exits, as it is told of them
    WITHOUT_PARENTS = enum.auto()
    # whose parents it refuses, of all and of some of them, and whether it refuses any
    FAULTS = enum.auto()
    FAULTS_OF_SOME = enum.auto()
    ANY_FAULT = enum.auto()
    # the animals without a day, parents before their offspring
    UNDATED = enum.auto()
    # what is told of parents' ages, of births of one dam, and of animals that are there twice
    YOUNG_PARENTS = enum.auto()
    BIRTHS_OF_DAMS = enum.auto()
    TWICE = enum.auto()


By = TypeVar("By", bound=FoundBy)
# what comes of something that was found before by other values, none where too much is otherwise
FindAgain = Callable[[By, Value], Value | None]


# a look asks for some kinds twice: with parents that can't be, and once these are left out
MOST_KEPT = 2


class LastFound:
    """What was found last of each kind, and by what. Nobody changes what is kept."""

    # whether anything is: else nobody needs to say by what it is found
    keeps = True

    def __init__(self) -> None:
        self.kept = collections.defaultdict[Kept, list[tuple[FoundBy, object]]](list)
        self.names: NamesEver | None = None
        # whether the program refused the parents of any
        self.are_parents_refused = False

    def of(
        self, what: Kept, by: By, find: Callable[[], Value], again: FindAgain[By, Value] | None = None
    ) -> Value:
        """What was found by the same; else what comes of it `again`, where few of the values are others, or is found
        anew."""
        last = self.kept[what]
        for one in last:
            if one[0] == by:
                last.remove(one)
                last.append(one)
                return cast(Value, one[1])
        found = again(cast(By, last[-1][0]), cast(Value, last[-1][1])) if again and last else None
        found = find() if found is None else found
        del last[: len(last) + 1 - MOST_KEPT]
        last.append((by, found))
        return found

    def parents_outside(
        self, what: Kept, sires: list[str], dams: list[str], ids: Collection[str]
    ) -> ParentsOutside:
        """The parents of animals that aren't among some ids."""
        return self.of(what, (sires, dams, [*ids]), lambda: ParentsOutside.of(sires, dams, {*ids}))

    def by_name(self, ids: Sequence[str], names: Sequence[str]) -> IdsByName:
        """The animals that are there by their names."""
        found = IdsByName(ids, names, self.names)
        self.names, found.places = found.ever, self.of(Kept.PLACES, (ids,), lambda: found.places)
        return found


class NothingKept(LastFound):
    """For whoever looks once: it is found where it is asked for, and goes behind that."""

    keeps = False

    def of(
        self, what: Kept, by: By, find: Callable[[], Value], again: FindAgain[By, Value] | None = None
    ) -> Value:
        return find()

    def by_name(self, ids: Sequence[str], names: Sequence[str]) -> IdsByName:
        return IdsByName(ids, names)


# more than one of so many that are otherwise aren't few
FEW = 10
Columns = Sequence[Sequence[object]]


def changed_ids(before: Columns, now: Columns) -> set[str] | None:
    """The ids of the animals of which some values are others, or that aren't among both, in columns of which the first
    are the ids; none where these aren't few, or where animals stand in another order."""
    ids_before, ids = cast(tuple[Sequence[str], Sequence[str]], (before[0], now[0]))
    changed = set[str]()
    if ids_before != ids:
        changed = {*ids_before} ^ {*ids}
        before, now = (without(changed, columns) for columns in (before, now))
        if before[0] != now[0]:
            return None
    for was, values in zip(before[1:], now[1:]):
        if was != values:
            changed.update(itertools.compress(cast(Sequence[str], now[0]), map(operator.ne, was, values)))
    return changed if FEW * len(changed) <= len(ids) else None


def without(ids: Set[object], columns: Columns) -> Columns:
    """Columns without the values of some animals."""
    stay = [*map(operator.not_, map(ids.__contains__, columns[0]))]
    return [[*itertools.compress(values, stay)] for values in columns]
