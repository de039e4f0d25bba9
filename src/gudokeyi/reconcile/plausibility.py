"""What may be wrong of animals that are taken as they stand: ages, births of one dam, sires that left or are castrated,
animals that are there twice or must have left, and columns that were swapped. The rules are those of sheets, forms and
words alike."""
from __future__ import annotations

import collections
import datetime
import functools
import itertools
import operator
from collections.abc import Callable, Collection, Iterable, Iterator, Mapping, Sequence
from typing import TYPE_CHECKING, Any, NamedTuple, TypeVar

from gudokeyi.domain.findings import Entry, Finding, Report
from gudokeyi.domain.kinds import Field, Role
from gudokeyi.ingest.animals import (
    BIRTH_OF, BORN_OF, CASTRATED_OF, DAM, DAM_OF, EMBRYO_OF, ID_OF, LEFT_OF, LINE_OF, NAME_OF, SIRE, SIRE_OF,
    YEARS_LATER, Castration, SheetAnimal,
)  # fmt: skip
from gudokeyi.ingest.days import Precision
from gudokeyi.ingest.years_as_days import years_shown
from gudokeyi.reconcile.findings.by_hand import YoungParent
from gudokeyi.reconcile.findings.plausibility import (
    BirthsNearerThanUsual, BirthsTooNear, CastratedSire, ColumnsSwapped, ManyOldAsLiving, NameAndDayTwice,
    NewTagBesideRow, OldAsLiving, OldParent, RowOfFormerId, SireLeftLongBefore,
)  # fmt: skip
from gudokeyi.reconcile.findings.same_animals import NewTag
from gudokeyi.reconcile.last_found import Kept, LastFound, NothingKept, changed_ids
from gudokeyi.reconcile.limits import OLDEST, Limits
from gudokeyi.store.book import Book
from gudokeyi.store.former_ids import ids_now

if TYPE_CHECKING:
    from gudokeyi.reconcile.next_book import NextBook
    from gudokeyi.reconcile.outcome import Understood

Value = TypeVar("Value")
# the place of the dams among the values by which births are told of
DAMS = 3
# births of one litter or of twins may be so many days from one another
LITTER = 3
# of so many births behind another one of their dam it is seen how far they are apart: all but one of so many are as far
# as is usual, and not more than one of so many is less than half as far
FEW_BIRTHS, NEARLY_ALL, RARE = 20, 20, 50
YEAR = 365
# no animal is carried for so many days
LONGEST_CARRIED = datetime.timedelta(400)
# the day of birth of a parent that isn't known is long before all others
NEVER = -(10**9)
# an animal that is so many years older than half of the living ones has probably left
DECADES = 20
# more than so many, and than one of fifty, are no odd ones
FEW_OLD = 3
# of fewer living animals the median says little
FEW_OLD_ONES = 10


def may_be_begotten_before(animal: SheetAnimal, castration: Castration | None) -> bool:
    """Leaves its day of birth open that it was begotten before its sire was castrated?"""
    if castration is None or castration.last is None:
        return False
    return animal.birth.first <= castration.last + LONGEST_CARRIED


class ToldBy(NamedTuple):
    """By what is told of all animals: some of their values, of which the first are their ids, and the limits."""

    values: tuple[list[Any], ...]
    limits: object

    def changed_since(self, before: ToldBy) -> set[str] | None:
        """The ids of the animals that are otherwise; none where these aren't few, or the limits are others."""
        return changed_ids(before.values, self.values) if before.limits == self.limits else None

    def dams_of(self, ids: Collection[str]) -> set[str]:
        """The dams of some, where these are told by."""
        return {*itertools.compress(self.values[DAMS], map(ids.__contains__, self.values[0]))}


class BirthsOfDams(NamedTuple):
    """How many days are between the litters of each dam with several births, how many are usual, and what is told."""

    between: dict[str, list[int]]
    usual: int
    entries: dict[str, list[Entry]]


class PlausibilityChecks:
    """Looks at all animals, whose days and parents are found. Days that were inferred tell nothing. What is told is
    about animals of the sheet, or about those that somebody files, whose ids are `filed`."""

    def __init__(
        self, animals: dict[str, SheetAnimal], limits: Limits, report: Report, filed: Collection[str] = (),
        last: LastFound | None = None, usual: Callable[[Collection[Sequence[int]]], int] | None = None,
    ) -> None:  # fmt: skip
        """`last` is what was found of the same sheet at the last look; `usual` says how far nearly all litters of one
        dam are from one another, where others tell that than those of these animals."""
        self.animals, self.limits, self.report, self.filed = animals, limits, report, filed
        self.last, self.usual = last or NothingKept(), usual or usual_days
        # a value of all animals, made once for all that is told by it
        self.all_of = functools.cache(lambda value: [*map(value, animals.values())])

    def is_new(self, animal: SheetAnimal) -> bool:
        return bool(animal.line) or animal.id in self.filed

    def tell_births(self, book: Book, rows: Iterable[SheetAnimal]) -> None:
        """Birth days of rows that are years from those of the book."""
        # of sheets alone
        from gudokeyi.reconcile.findings.rows import BirthMovedByYears

        for animal in rows if book.society_records else ():
            in_book = book.society_records.get(animal.id)
            before = book.records[in_book.registration_number].born if in_book else animal.born
            if in_book and before != animal.born and animal.line and animal.has_day() and not in_book.birth.is_inferred:
                if abs((animal.born - before).days) >= YEARS_LATER:
                    self.report.add(animal.line, animal.id, BirthMovedByYears(before, animal.born))

    def tell(self, book: Book, exits_are_given: bool) -> None:
        self.tell_families(book)
        if exits_are_given:
            self.look_at_living()

    def tell_families(self, book: Book) -> None:
        """What is told of parents, offspring, and animals that are there twice."""
        self.tell_young_parents()
        self.tell_births_of_dams()
        self.look_at_castrated()
        self.tell_twice(book)

    def told_by(self, limits: object, *values: Callable[[SheetAnimal], object]) -> ToldBy:
        """Some values of all animals, beside those by which all of them are told of: days that are inferred tell
        nothing."""
        if not self.last.keeps:
            return ToldBy((), limits)
        return ToldBy(([*self.animals], *map(self.all_of, (LINE_OF, BIRTH_OF, *values))), limits)

    def told(self, look: Callable[[Value], None], at: Value) -> list[Entry]:
        """What a look tells, which the report hasn't then."""
        told_before = len(self.report.entries)
        look(at)
        return self.report.cut_off(told_before)

    @functools.cached_property
    def dated(self) -> list[SheetAnimal]:
        return [animal for animal in self.animals.values() if animal.birth.precision is Precision.DAY]

    def tell_young_parents(self) -> None:
        """Parents that were young at a birth, or very old, and sires that left long before."""
        by = self.told_by(self.limits.youngest, SIRE_OF, DAM_OF, LEFT_OF)

        def again(before: ToldBy, entries: list[Entry]) -> list[Entry] | None:
            changed = by.changed_since(before)
            if changed is None:
                return None
            some = changed | {*self.offspring_of(changed)}
            return [one for one in entries if one.id not in some] + self.told(self.look_at_young, some)

        found = self.last.of(Kept.YOUNG_PARENTS, by, lambda: self.told(self.look_at_young, self.animals), again)
        self.report.entries += found

    def offspring_of(self, ids: Collection[str]) -> Iterator[str]:
        """The ids of those that have one of these as a parent, some twice."""
        for parents in map(self.all_of, (SIRE_OF, DAM_OF)) if ids else ():
            yield from itertools.compress(self.animals, map(ids.__contains__, parents))

    def look_at_young(self, ids: Collection[str]) -> None:
        family = self.animals if ids is self.animals else self.with_parents(ids)
        days = dict(zip(family, map(datetime.date.toordinal, map(BORN_OF, family.values()))))
        dated = [animal for id, animal in family.items() if id in ids and animal.birth.precision is Precision.DAY]
        left = {id: animal.left for id, animal in family.items() if animal.left}
        for animal in self.likely_too_young(dated, days, left):
            if animal.line or animal.id in self.filed:
                self.look_at_parents(animal, days, left)

    def with_parents(self, ids: Iterable[str]) -> dict[str, SheetAnimal]:
        """Those animals that are there, and their parents."""
        some = [*filter(None, map(self.animals.get, ids))]
        return {id: self.animals[id] for one in some for id in (one.id, one.sire, one.dam) if id}

    def likely_too_young(
        self, dated: Sequence[SheetAnimal], days: Mapping[str, int], left: Mapping[str, datetime.date]
    ) -> list[SheetAnimal]:
        """Those with a parent that was young at the birth, or not older, or very old, or with a sire that left long
        before."""
        never, youngest = itertools.repeat(NEVER), self.limits.youngest
        gone = dict(zip(left, map(datetime.date.toordinal, left.values())))
        sires, stays = [*map(SIRE_OF, dated)], itertools.repeat(-NEVER)
        parents = (map(days.get, of, never) for of in (sires, map(DAM_OF, dated)))
        ages = zip(dated, map(days.__getitem__, map(ID_OF, dated)), *parents, map(gone.get, sires, stays))
        return [
            animal for animal, day, of_sire, of_dam, of_exit in ages
            if day - of_sire < youngest or day - of_dam < youngest or day - of_exit > YEAR
            or OLDEST < day - of_sire < -NEVER // 2 or OLDEST < day - of_dam < -NEVER // 2
        ]  # fmt: skip

    def look_at_parents(
        self, offspring: SheetAnimal, days: Mapping[str, int], left: Mapping[str, datetime.date]
    ) -> None:
        """`days` are those of all births, and `left` those of exits."""
        born, sire, dam, youngest = days[offspring.id], offspring.sire, offspring.dam, self.limits.youngest
        if sire and 0 < born - days[sire] < youngest:
            self.tell_young(offspring, SIRE, sire, born - days[sire])
        if sire in left and offspring.born > left[sire] + datetime.timedelta(YEAR):
            found = SireLeftLongBefore(sire, self.animals[sire].line, left[sire], offspring.born)
            self.report.add(offspring.line, offspring.id, found)
        if dam and 0 < born - days[dam] < youngest:
            self.tell_young(offspring, DAM, dam, born - days[dam])
        for role, parent in offspring.parents():
            if born - days[parent] > OLDEST and self.animals[parent].has_day():
                years = (born - days[parent]) * 100 // 36525
                told = OldParent(role, parent, self.animals[parent].line, years)
                self.report.add(offspring.line, offspring.id, told)

    def tell_young(self, offspring: SheetAnimal, role: Role, id: str, days: int) -> None:
        parent = self.animals[id]
        if parent.has_day():
            found = YoungParent(role, id, parent.line, days, self.limits.youngest)
            self.report.add(offspring.line, offspring.id, found)

    def tell_births_of_dams(self) -> None:
        """Births of one dam that are too near to one another, or nearer than is usual."""
        by = self.told_by((self.limits.apart, self.limits.is_apart_said), DAM_OF, EMBRYO_OF)

        def again(before: ToldBy, found: BirthsOfDams) -> BirthsOfDams | None:
            changed = by.changed_since(before)
            return None if changed is None else self.births_again(found, before.dams_of(changed) | by.dams_of(changed))

        found = self.last.of(Kept.BIRTHS_OF_DAMS, by, self.births_of_dams, again)
        self.report.entries += itertools.chain.from_iterable(found.entries.values())

    def births_of_dams(self) -> BirthsOfDams:
        progeny = several_births(filter(is_borne, self.animals.values()))
        between = self.between_births(progeny)
        usual = 0 if self.limits.is_apart_said else self.usual(between.values())
        return BirthsOfDams(between, usual, self.told_of_dams(progeny, between, usual))

    def births_again(self, before: BirthsOfDams, dams: Collection[str]) -> BirthsOfDams | None:
        """The same where these dams have other births; none where another distance is usual therefore."""
        of_these = itertools.compress(self.animals.values(), map(dams.__contains__, self.all_of(DAM_OF)))
        progeny = several_births(filter(is_borne, of_these))
        found = self.between_births(progeny)
        between = {dam: days for dam, days in before.between.items() if dam not in dams} | found
        if not self.limits.is_apart_said and self.usual(between.values()) != before.usual:
            return None
        others = {dam: told for dam, told in before.entries.items() if dam not in dams}
        return BirthsOfDams(between, before.usual, others | self.told_of_dams(progeny, found, before.usual))

    def between_births(self, progeny: Mapping[str, Sequence[SheetAnimal]]) -> dict[str, list[int]]:
        """The days between litters, by the dam."""
        return {dam: days_between([animal.born.toordinal() for animal in its]) for dam, its in progeny.items()}

    def told_of_dams(
        self, progeny: Mapping[str, list[SheetAnimal]], between: Mapping[str, Sequence[int]], usual: int
    ) -> dict[str, list[Entry]]:
        """What is told of births that are nearer than the limit, or than half of what is usual."""
        limit, found = self.limits.apart, dict[str, list[Entry]]()
        for dam, its in progeny.items():
            if any(days < limit or 2 * days < usual for days in between[dam]):
                found[dam] = self.told(lambda births: self.look_at_births(dam, births, usual), its)
        return found

    def look_at_births(self, dam: str, births: list[SheetAnimal], usual: int) -> None:
        """The births of one dam, one after the other."""
        limit = self.limits.apart
        births.sort(key=operator.attrgetter("born", "line"))
        for before, offspring in zip(births, births[1:]):
            days = (offspring.born - before.born).days
            if days <= LITTER or not (self.is_new(offspring) or self.is_new(before)):
                continue
            if days < limit:
                found = BirthsTooNear(dam, before.id, before.line, days, limit)
                self.report.add(offspring.line, offspring.id, found)
            elif 2 * days < usual:
                likely = BirthsNearerThanUsual(dam, before.id, before.line, days, usual)
                self.report.add(offspring.line, offspring.id, likely)

    def look_at_castrated(self) -> None:
        """Castrated males that have offspring, but for such as may have been begotten before."""
        castrated = {*itertools.compress(self.animals, map(CASTRATED_OF, self.animals.values()))}
        progeny = collections.defaultdict(list)
        for animal in self.animals.values() if castrated else ():
            if animal.sire in castrated and not may_be_begotten_before(animal, self.animals[animal.sire].castration):
                progeny[animal.sire].append(animal)
        for sire, its in progeny.items():
            animal = self.animals[sire]
            title, word = animal.castration[:2] if animal.castration else ("", animal.cells.get(Field.SEX, ""))
            self.report.add(animal.line, sire, CastratedSire(word, len(its), its[0].id, its[0].line, title))

    def tell_twice(self, book: Book) -> None:
        """Animals with one name and birth day, which may be one, but for those of which that is told already."""
        twice = self.last.of(Kept.TWICE, self.told_by((), NAME_OF), self.find_twice)
        have_rows = [pair for pair in twice if self.animals[pair[0]].line]
        told = self.new_tags_told() if len(have_rows) < len(twice) else set()
        former = former_ids(book) if have_rows else {}
        for pair in twice:
            first, second = (self.animals[id] for id in pair)
            if pair not in told:
                self.tell_pair(first, second, former, book)

    def new_tags_told(self) -> set[tuple[str, str]]:
        """The ids of before and of now of which is told that an animal may have a new tag."""
        findings = (entry.finding for entry in self.report.entries)
        return {(one.before, one.now) for one in findings if isinstance(one, NewTag)}

    def find_twice(self) -> list[tuple[str, str]]:
        """The ids of two with one name and birth day, the new one last. Many sheets have names that stand for none, as
        `Lamm`, at each."""
        alike = collections.defaultdict[tuple[str, datetime.date], list[SheetAnimal]](list)
        names = [*map(str.casefold, map(NAME_OF, self.dated))]
        counts = collections.Counter(names)
        for animal, name in zip(self.dated, names):
            if name and counts[name] > 1:
                alike[name, animal.born].append(animal)
        pairs = (sorted(pair, key=self.is_new) for pair in alike.values() if len(pair) == 2)
        return [(first.id, second.id) for first, second in pairs if self.is_new(second)]

    def tell_pair(self, first: SheetAnimal, second: SheetAnimal, former: Mapping[str, str], book: Book) -> None:
        """Where both have a row it is told which one is to go, if the book shows it; `former` are the ids of now by
        those of before."""
        known = book.society_records if first.line else {}
        are_known = first.id in known, second.id in known
        if former.get(second.id) == first.id or former.get(first.id) != second.id and are_known == (False, True):
            first, second = second, first
        found: Finding = NameAndDayTwice(first.id, first.line)
        if former.get(first.id) == second.id:
            found = RowOfFormerId(first.id, first.line)
        elif first.id in known and second.id not in known:
            found = NewTagBesideRow(first.id, first.line, second.id)
        self.report.add(second.line, second.id, found)

    def look_at_living(self) -> None:
        # an import of a sheet without exits would wait for it
        import statistics

        living = [one for one in self.animals.values() if one.line and not one.left and not one.exit_basis.is_inferred]
        dated = [one for one in living if one.has_day()]
        if len(dated) < FEW_OLD_ONES:
            return
        median = int(statistics.median(one.born.year for one in dated))
        old = [animal for animal in dated if animal.born.year <= median - DECADES]
        if len(old) > max(FEW_OLD, len(dated) // 50):
            self.report.add(0, "", ManyOldAsLiving(len(old), DECADES))
            return
        # of years that are shown as days it is told that they may be these
        years = years_shown({one.born for one in old})
        for animal in (one for one in old if one.born not in years):
            found = OldAsLiving(animal.born, median - animal.born.year, median)
            self.report.add(animal.line, animal.id, found)


def is_borne(animal: SheetAnimal) -> bool:
    """Was it born by its dam, on a day that is known?"""
    return bool(animal.dam) and animal.birth.precision is Precision.DAY and not animal.embryo


def several_births(borne: Iterable[SheetAnimal]) -> dict[str, list[SheetAnimal]]:
    """The offspring of each dam that has several."""
    progeny = collections.defaultdict[str, list[SheetAnimal]](list)
    for animal in borne:
        progeny[animal.dam].append(animal)
    return {dam: its for dam, its in progeny.items() if len(its) > 1}


def former_ids(book: Book) -> dict[str, str]:
    """The ids of now by those that animals had before, also of the tags that are new with this sheet."""
    return (ids_now(book) if book.society_records else {}) | book.new_tags


def days_between(births: Iterable[int]) -> list[int]:
    """The days between litters of one dam that follow one another."""
    days = sorted(births)
    return [after - before for before, after in zip(days, days[1:]) if after - before > LITTER]


def usual_days(between: Collection[Sequence[int]]) -> int:
    """How far nearly all litters of one dam are from one another, as the births tell that are there; 0 where they are
    few, or where some are much nearer, as of kinds that bear twice a year."""
    days = sorted(itertools.chain.from_iterable(between))
    if len(days) < FEW_BIRTHS:
        return 0
    usual = days[len(days) // NEARLY_ALL]
    near = sum(2 * one < usual for one in days[: len(days) // NEARLY_ALL])
    return usual if near <= max(1, len(days) // RARE) else 0


# Sires and dams in each other's columns: most parents would be of the wrong sex.

# so few parents of the wrong sex are mistakes of their own
FEW_REFUSED = 5


def tell_swapped_columns(next_book: NextBook, understood: Understood) -> None:
    """The parents that are refused for their sex are told one by one; that they are most of all is told besides."""
    # of sheets alone
    from gudokeyi.reconcile.findings.parents import ParentRefused

    findings = [entry.finding for entry in next_book.report.entries]
    refused = sum(isinstance(one, ParentRefused) and one.is_of_sex() for one in findings)
    titles = {one.field: one.title for one in understood.columns}
    if refused <= FEW_REFUSED or Field.SIRE not in titles or Field.DAM not in titles:
        return
    kept = sum(len(animal.parent_ids()) for animal in next_book.animals.values() if animal.line)
    if refused > kept:
        found = ColumnsSwapped(refused, refused + kept, titles[Field.SIRE], titles[Field.DAM])
        next_book.report.add(0, "", found)
