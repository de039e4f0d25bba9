"""Parents that can't be: those that the program refuses, of each cycle one, and paths that are too long."""
from __future__ import annotations

import itertools
from collections.abc import Callable, Sequence

from gudokeyi.domain.animals import SocietyRecord
from gudokeyi.domain.commands import HEADER, lines_of
from gudokeyi.domain.findings import Report
from gudokeyi.domain.kinds import Field, Role
from gudokeyi.domain.messages import MessageText, Mistake, Some, why
from gudokeyi.domain.pedigree_order import in_order, longest_paths, offspring_by_parent, round_from
from gudokeyi.domain.refusals import Refusal
from gudokeyi.engine.program import Herdbook
from gudokeyi.ingest.animals import DAM_OF, ID_OF, SIRE_OF, SheetAnimal, parents_of_all
from gudokeyi.ingest.messages import Where
from gudokeyi.reconcile.findings.parents import DayFact, OwnAncestor, ParentRefused
from gudokeyi.reconcile.last_found import Kept, LastFound, NothingKept
from gudokeyi.reconcile.messages import ImportFault
from gudokeyi.reconcile.next_book import NextBook, ToldOfAnimals, in_places
from gudokeyi.reconcile.parents import take_back
from gudokeyi.reconcile.undated_order import Births, UndatedOrder
from gudokeyi.store.book import Book

# Animals that would be their own ancestors: of each cycle one parent is left out.

Link = tuple[str, Role, str]
# has an offspring a parent in the book?
InBook = Callable[[str, str], bool]


def in_no_book(offspring: str, parent: str) -> bool:
    return False


def cut_cycles(
    animals: dict[str, SheetAnimal], report: Report, in_book: InBook = in_no_book, found: LastFound | None = None
) -> list[str]:
    """Leaves out one parent of each animal that would be its own ancestor: of a cycle a link that the book doesn't
    have, one whose days can't be, or else that of the latest row. Answers the animals without a day, parents before
    their offspring."""
    by = Births.of(animals)

    def again(before: Births, last: UndatedOrder) -> UndatedOrder | None:
        return last.again(animals, before, by)

    undated = (found or NothingKept()).of(Kept.UNDATED, by, lambda: UndatedOrder.of(animals, by), again)
    if undated.order is not None:
        return undated.order
    order = in_order(parents_of_all(animals))
    cut_all(animals, animals.keys() - order, report, in_book)
    return [id for id in in_order(parents_of_all(animals)) if not animals[id].has_day()]


def cut_all(animals: dict[str, SheetAnimal], left: set[str], report: Report, in_book: InBook) -> None:
    """Cuts the cycles of those left, which no order reached."""
    while left:
        cycle = find_cycle(animals, left)
        offspring, role, parent = faulty_link(animals, cycle, in_book)
        path = (offspring, *ancestors_round(cycle, offspring))
        animals[offspring].set_parent(role, "")
        report.add(animals[offspring].line, offspring, OwnAncestor(role, parent, path))
        left -= set(in_order(parents_of_all({id: animals[id] for id in left})))


def find_cycle(animals: dict[str, SheetAnimal], left: set[str]) -> list[Link]:
    """A cycle of links (offspring, role, parent). Each of those left, which no order reached, has a parent among
    them."""

    def link(id: str) -> Link:
        role, parent = next((role, parent) for role, parent in animals[id].parents() if parent in left)
        return id, role, parent

    first = min(left, key=lambda one: (animals[one].line, one))
    return [link(id) for id in round_from(first, lambda id: link(id)[2])]


def faulty_link(animals: dict[str, SheetAnimal], cycle: list[Link], in_book: InBook) -> Link:
    def is_younger(link: Link) -> bool:
        offspring, parent = animals[link[0]], animals[link[2]]
        return parent.birth.first >= offspring.birth.last

    new = [link for link in cycle if not in_book(link[0], link[2])] or cycle
    candidates = [link for link in new if is_younger(link)] or new
    return max(candidates, key=lambda link: animals[link[0]].line)


def ancestors_round(cycle: list[Link], offspring: str) -> list[str]:
    """The parents along a cycle, from an offspring back to it."""
    begin = next(at for at, link in enumerate(cycle) if link[0] == offspring)
    return [parent for _, _, parent in cycle[begin:] + cycle[:begin]]


# Paths of parents that are longer than a book takes: how long, and which parents to set to unknown.

MOST_STEPS = 60


class Paths:
    """The longest paths of animals without a cycle: up through parents, and down through offspring."""

    def __init__(self, animals: dict[str, SheetAnimal]) -> None:
        self.animals = animals
        parents = parents_of_all(animals)
        order, progeny = in_order(parents), offspring_by_parent(parents)
        self.up = longest_paths(order, lambda id: parents[id])
        self.down = longest_paths(reversed(order), lambda id: progeny.get(id, ()))

    def longest(self) -> list[str]:
        """The animals of a longest path, the youngest first."""
        path = [max(self.up, key=lambda id: self.up[id])]
        while parents := self.animals[path[-1]].parent_ids():
            path.append(max(parents, key=lambda id: self.up[id]))
        return path

    def to_cut(self) -> list[str]:
        """The animals without whose parents no path is too long. Along a path `down` grows from parent to parent, so
        one that is too long comes to a parent in a higher band of `MOST_STEPS + 1` values; and within a band none
        is."""
        band = MOST_STEPS + 1
        return [
            id
            for id, animal in self.animals.items()
            for _, parent in animal.parents()
            if self.down[parent] // band > self.down[id] // band and self.up[parent] + 1 + self.down[id] > MOST_STEPS
        ]


def too_deep(animals: dict[str, SheetAnimal], refused: list[SheetAnimal], is_pedigree: bool) -> Mistake:
    """What is told where the program refuses parents for their depth."""
    paths = Paths(animals)
    path = paths.longest()
    steps = len(path) - 1
    cut = list(dict.fromkeys(paths.to_cut()))
    youngest, oldest = (named(animals, [id]) for id in (path[0], path[-1]))
    more = steps - MOST_STEPS
    top = path[-more:][::-1]
    longest = ImportFault.LONGEST_PATHS if more > 1 else ImportFault.LONGEST_PATH
    to_cut = ImportFault.TO_CUT_MANY if len(cut) > 1 else ImportFault.TO_CUT
    return Mistake(
        ImportFault.TOO_DEEP.said(where=refused[0].where(), most=MOST_STEPS),
        longest.said(
            steps=steps, more=more, most=MOST_STEPS, youngest=youngest, oldest=oldest, top=named(animals, top)
        ),
        to_cut.said(cut=named(animals, cut)),
        *[ImportFault.KEEP_FEWER.said()] * is_pedigree,
    )


def named(animals: dict[str, SheetAnimal], ids: list[str]) -> Some:
    return Some([with_line(animals[id]) for id in ids])


def with_line(animal: SheetAnimal) -> MessageText:
    named = Where.AT_LINE if animal.line else Where.WITHOUT_LINE
    return named.said(id=animal.id, line=animal.line)


# Parents that the program refuses: each is left out, alone, and told.

# whom a refusal is about
ROLES = {
    Refusal.SIRE_NOT_MALE: Role.SIRE,
    Refusal.SIRE_NOT_OLDER: Role.SIRE,
    Refusal.DAM_NOT_FEMALE: Role.DAM,
    Refusal.DAM_NOT_OLDER: Role.DAM,
    Refusal.DAM_LEFT_BEFORE: Role.DAM,
}


def leave_out_faulty_parents(next_book: NextBook, program: Herdbook, is_refused: bool = False) -> bool:
    """Files all animals with their parents, the oldest first, where it isn't likely that anything is refused. Then it
    files them without, and asks for the parents of each until none is refused; answers whether any was."""
    are_refused = False
    if not is_refused and not is_any_refused(next_book, program):
        return False
    while faults := all_refused_parents(next_book, program):
        # paths come last: without a parent that is refused they may be shorter
        deep = [animal for animal, refusal in faults if refusal is Refusal.PATH_TOO_LONG]
        if len(deep) == len(faults) and not take_back(next_book):
            raise too_deep(next_book.animals, deep, next_book.is_pedigree)
        leave_out_parents(next_book, program, faults)
        are_refused = True
        if not deep:
            break
    return are_refused


# an animal whose parents the program refuses, and why
Fault = tuple[SheetAnimal, Refusal]


def is_any_refused(next_book: NextBook, program: Herdbook) -> bool:
    """Does the program refuse any birth with its parents, or an exit?"""
    told = next_book.told_of_all()
    return next_book.last_found.of(Kept.ANY_FAULT, told, lambda: refuses_any(next_book, program, told))


def refuses_any(next_book: NextBook, program: Herdbook, told: ToldOfAnimals) -> bool:
    births = told.births(next_book.numbers.__getitem__, itertools.repeat(1))
    text = HEADER + lines_of(in_places(births, next_book.places)) + lines_of(told.exits())
    return bool(program.file_text(text, len(told.ids) + told.count_exits()))


def all_refused_parents(next_book: NextBook, program: Herdbook) -> list[Fault]:
    """Which animals have parents that the program refuses, once all are filed without."""
    told, places = next_book.told_of_all(), next_book.places

    def found() -> list[tuple[str, Refusal]]:
        alone = next_book.last_found.of(Kept.WITHOUT_PARENTS, told.without_parents, told.lines_without_parents)
        return asked_about(program, told, alone, places, next_book.numbers.__getitem__)

    refused = next_book.last_found.of(Kept.FAULTS, told, found)
    return [(next_book.animals[id], refusal) for id, refusal in refused]


def refused_parents(next_book: NextBook, program: Herdbook, progeny: Sequence[SheetAnimal]) -> list[Fault]:
    """Which of these have some, once they and all whom they name are filed without."""
    ids = dict.fromkeys([*map(ID_OF, progeny), *map(SIRE_OF, progeny), *map(DAM_OF, progeny)])
    told = ToldOfAnimals.of([next_book.animals[id] for id in ids if id])

    def found() -> list[tuple[str, Refusal]]:
        return asked_about(program, told, told.lines_without_parents(), range(len(progeny)), next_book.number_of)

    refused = next_book.last_found.of(Kept.FAULTS_OF_SOME, (*told, len(progeny)), found)
    return [(next_book.animals[id], refusal) for id, refusal in refused]


def asked_about(
    program: Herdbook, told: ToldOfAnimals, alone: bytes, places: Sequence[int], number_of: Callable[[str], str]
) -> list[tuple[str, Refusal]]:
    """The ids of the offspring at some places whose parents the program refuses, one after the other, where all those
    of whom it is told are filed without, by the lines `alone`; these and their exits are filed in any order."""
    asked = told.with_parents(places)
    text = HEADER + alone + lines_of(told.links(asked, number_of))
    first = len(told.ids) + told.count_exits()
    refused = program.file_text(text, first + len(asked))
    # an exit may be refused too: that is told when the book itself is filed
    return [(told.ids[asked[place - first]], refusal) for place, refusal in refused.items() if place >= first]


def leave_out_parents(next_book: NextBook, program: Herdbook, faults: list[Fault]) -> None:
    """Leaves out what is refused of each, and then of its other parent. Whom else a refusal was about has stayed as it
    was, but for paths: they may be shorter now."""
    while faults:
        for animal, refusal in faults:
            if refusal is not Refusal.PATH_TOO_LONG:
                leave_out_parent(next_book, animal, refusal)
        left = [animal for animal, refusal in faults if refusal is not Refusal.PATH_TOO_LONG]
        faults = refused_parents(next_book, program, left) if left else []


def leave_out_parent(next_book: NextBook, animal: SheetAnimal, refusal: Refusal) -> None:
    if refusal not in ROLES:
        raise Mistake(ImportFault.PARENT_REFUSED.said(where=animal.where(), **why(refusal)))
    role = ROLES[refusal]
    if (animal.id, role) not in next_book.tried:
        tell_left_out(next_book, animal, role, refusal)
    animal.set_parent(role, "")


def tell_left_out(next_book: NextBook, animal: SheetAnimal, role: Role, refusal: Refusal) -> None:
    parent = next_book.animals[animal.parent(role)]
    found = ParentRefused(
        role, refusal, parent.id, parent.line, parent.sex, parent.sex_source,
        DayFact(parent.born, parent.birth_basis.is_inferred),
        DayFact(parent.left, parent.exit_basis.is_inferred) if parent.left else None,
        animal.id, DayFact(animal.born, animal.birth_basis.is_inferred),
    )  # fmt: skip
    next_book.report.add(animal.line, animal.id, found)
    # of an animal without a row it is kept too
    next_book.texts.setdefault(animal.id, (animal.sire, animal.dam))


def tried_again(book: Book, in_book: SocietyRecord, role: Role, parent: str) -> str:
    """The parent that an animal has in the book; where it has none, the one by hand that is left out, since a sheet
    made it impossible: a later sheet may say otherwise."""
    left_out = in_book.written(role)
    is_by_hand = not parent and Field(role.value) in in_book.by_hand and left_out in book.society_records
    return left_out if is_by_hand else parent
