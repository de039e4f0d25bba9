"""Days for animals without one, each between its parents' and its offspring's; for a geneticist's pedigree they are
invented."""
from __future__ import annotations

import datetime
import heapq
import itertools

from gudokeyi.domain.findings import Report
from gudokeyi.domain.kinds import Field
from gudokeyi.domain.pedigree_order import Waiting, offspring_by_parent
from gudokeyi.domain.provenance import GIVEN_BIRTH, BirthBasis, BirthSource, Period
from gudokeyi.ingest.animals import DAM_OF, SIRE_OF, SheetAnimal, parents_of_all
from gudokeyi.ingest.days import FIRST_DAY, Precision, Span
from gudokeyi.reconcile.findings.animals import BirthDayInferred
from gudokeyi.reconcile.impossible_parents import cut_cycles
from gudokeyi.reconcile.next_book import NextBook

# days between a parent's birth and an offspring's, where only one of the two is known
GENERATION = 730
FROM_OFFSPRING, FROM_PARENTS = BirthBasis(BirthSource.OFFSPRING), BirthBasis(BirthSource.PARENTS)


# Days for animals without one, each between its parents' and its offspring's.


def unread_cell(animal: SheetAnimal) -> str:
    """What the cell of its birth day has where nobody could read it; a day that can't be is told by itself."""
    cell = animal.cells.get(Field.BIRTH, "") if Field.BIRTH in animal.unread else ""
    try:
        datetime.date.fromisoformat(cell)
    except ValueError:
        return cell
    return ""


def find_days(next_book: NextBook) -> None:
    """Birth days of all animals, of which none is its own ancestor any more."""
    animals, report = next_book.animals, next_book.report
    undated = cut_cycles(animals, report, next_book.has_in_book, next_book.last_found)
    Days(animals, undated, next_book.in_book.inferred).infer(report)


class Days:
    """Infers the days that the sheet doesn't give. Days are counted here, as `date.toordinal` counts them."""

    def __init__(
        self, animals: dict[str, SheetAnimal], undated: list[str], kept: dict[str, tuple[int, BirthBasis]]
    ) -> None:
        """`undated` are those without a day, parents before their offspring."""
        self.animals = animals
        self.undated = undated
        # the offspring of each
        self.progeny = offspring_of(animals, self.undated)
        # no day that is inferred is after it
        self.today = datetime.date.today().toordinal()
        # the day that was inferred for an animal of the book, and from what
        self.kept = kept
        # of each that has no day the first and the last day that are open, and a likely one, and from what
        self.low: dict[str, int] = {}
        self.high: dict[str, int] = {}
        self.likely: dict[str, tuple[int, BirthBasis]] = {}

    def infer(self, report: Report) -> None:
        """Sets `born` of all animals, which have no cycle, and tells each day that was inferred."""
        for animal in self.animals.values():
            birth = animal.birth
            if birth.precision is Precision.DAY:
                animal.born = birth.first
        for id in self.undated:
            self.set_low(id)
        for id in reversed(self.undated):
            self.set_high(id)
        for id in self.undated:
            animal = self.animals[id]
            animal.born, animal.birth_basis = self.day_for(animal)
            is_kept = self.stays(animal, animal.born.toordinal())
            within = animal.birth.text if animal.birth.is_open else ""
            text = "" if is_kept or within else animal.birth.text
            unread = "" if within else unread_cell(animal)
            found = BirthDayInferred(animal.born, animal.birth_basis, is_kept, animal.named_in, text, unread, within)
            report.add(animal.line, id, found)

    def stays(self, animal: SheetAnimal, day: int) -> bool:
        """Is it the day that was inferred for the book, where no cell has a month or a year, or one has this day as a
        list marks it?"""
        kept, basis = self.kept.get(animal.id, (0, GIVEN_BIRTH))
        if kept != day or not animal.line or animal.birth.is_open:
            return kept == day
        return animal.birth.text == f"{datetime.date.fromordinal(day)}{basis.mark()}"

    def day_of(self, id: str, open_days: dict[str, int]) -> int:
        """The day of an animal, or of one that has none that which is found of it."""
        return open_days[id] if id in open_days else self.animals[id].birth.first.toordinal()

    def set_low(self, id: str) -> None:
        animal = self.animals[id]
        above = (self.day_of(parent, self.low) + 1 for parent in animal.parent_ids())
        self.low[id] = max([animal.birth.first.toordinal(), *above])

    def set_high(self, id: str) -> None:
        """The last day that offspring, its own exit and its dam's leave open, and a likely one."""
        animal, progeny = self.animals[id], self.progeny[id]
        last = animal.birth.last.toordinal()
        dam = self.animals.get(animal.dam) if not animal.embryo else None
        exits = [animal.left, dam.left if dam else None]
        before = [self.day_of(offspring, self.high) - 1 for offspring in progeny] + [
            left.toordinal() for left in exits if left
        ]
        self.high[id] = min([last, self.today, *before])
        by_calves = [self.likely_day(offspring) - GENERATION for offspring in progeny if self.has_likely_day(offspring)]
        dated = [parent for _, parent in animal.parents() if not self.animals[parent].birth.is_open]
        if not animal.birth.is_open:
            self.likely[id] = likeliest(animal.birth), BirthBasis(BirthSource.PERIOD, animal.birth.period())
        elif by_calves:
            self.likely[id] = min(by_calves), FROM_OFFSPRING
        elif dated:
            youngest = max(likeliest(self.animals[parent].birth) for parent in dated)
            self.likely[id] = youngest + GENERATION, FROM_PARENTS

    def has_likely_day(self, id: str) -> bool:
        return id in self.likely or self.animals[id].has_day()

    def likely_day(self, id: str) -> int:
        return self.likely[id][0] if id in self.likely else self.animals[id].birth.first.toordinal()

    def day_for(self, animal: SheetAnimal) -> tuple[datetime.date, BirthBasis]:
        parents = [self.animals[parent].born.toordinal() for _, parent in animal.parents()]
        low = max([self.low[animal.id], *(day + 1 for day in parents)])
        kept, basis_before = self.kept.get(animal.id, (0, GIVEN_BIRTH))
        if animal.id in self.likely:
            day, basis = self.likely[animal.id]
        elif parents:
            day, basis = max(parents) + GENERATION, FROM_PARENTS
        else:
            day, basis = FIRST_DAY.toordinal(), BirthBasis(BirthSource.EARLIEST)
        if animal.birth.first.toordinal() <= kept <= animal.birth.last.toordinal():
            day = kept
            basis = basis if parents or animal.id in self.likely else BirthBasis(BirthSource.NEAREST)
        day = min(max(day, low), self.high[animal.id])
        if animal.since and animal.since.is_day and low <= animal.since.last.toordinal():
            # a day since which an owner has it is said, and the birth was before
            day = min(day, animal.since.last.toordinal())
        # where parents and offspring leave no day open, that of the cell holds, and the program refuses a parent
        day = min(max(day, animal.birth.first.toordinal()), animal.birth.last.toordinal())
        # a day that stays has the reason that it had, whatever is known today
        if self.stays(animal, day):
            basis = basis_before
        return datetime.date.fromordinal(day), of_month(basis, datetime.date.fromordinal(day), animal.birth)


def offspring_of(animals: dict[str, SheetAnimal], some: list[str]) -> dict[str, list[str]]:
    """The offspring of some animals."""
    found: dict[str, list[str]] = {id: [] for id in some}
    both = zip(animals, map(SIRE_OF, animals.values()), map(DAM_OF, animals.values())) if found else ()
    for id, sire, dam in both:
        if sire in found:
            found[sire].append(id)
        if dam in found:
            found[dam].append(id)
    return found


def of_month(basis: BirthBasis, day: datetime.date, span: Span) -> BirthBasis:
    """Of a few days of two months the month is that of the day which is taken; of two years its year."""
    if span.precision is not Precision.DAYS or basis.period is None:
        return basis
    return BirthBasis(basis.source, Period(str(day.year) if span.is_of_years else f"{day:%Y-%m}"))


def likeliest(span: Span) -> int:
    """The middle of a month or a year, and the first of a few days, of which it is one."""
    if span.precision is Precision.DAYS:
        return span.first.toordinal()
    return (span.first.toordinal() + span.last.toordinal() + 1) // 2


# Birth days for a geneticist's pedigree, invented so that parents are older than their offspring.

INVENTED = BirthBasis(BirthSource.INVENTED)


def invent_days(animals: dict[str, SheetAnimal]) -> None:
    """A day for each animal, one after the other, in the order of the lines wherever parents allow it."""
    parents = parents_of_all(animals)
    key = {id: (animal.line, 1) for id, animal in animals.items()}
    for parent, its in offspring_by_parent(parents).items():
        if not animals[parent].line:
            key[parent] = (min(animals[offspring].line for offspring in its), 0)
    by_line = sorted(animals, key=lambda id: (key[id], id))
    place = {id: at for at, id in enumerate(by_line)}
    waiting = Waiting(parents)
    ready = [place[id] for id in waiting.free]
    heapq.heapify(ready)
    for day in itertools.count(FIRST_DAY.toordinal()):
        if not ready:
            return
        animal = animals[by_line[heapq.heappop(ready)]]
        animal.born, animal.birth_basis = datetime.date.fromordinal(day), INVENTED
        for offspring in waiting.place(animal.id):
            heapq.heappush(ready, place[offspring])
