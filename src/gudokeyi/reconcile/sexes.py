"""Sexes of animals whose rows don't say them: as parents they are, or as in the book; for a geneticist's pedigree they
are invented so that nothing is refused for them."""
from __future__ import annotations

import collections
import functools
import itertools
import operator
from collections.abc import Iterator, Mapping, Set
from typing import NamedTuple

from gudokeyi.domain.findings import Finding, Report
from gudokeyi.domain.kinds import Field, Role
from gudokeyi.domain.provenance import SexSource
from gudokeyi.ingest.animals import (
    DAM_OF, ID_OF, NAME_OF, SEX_OF, SIRE_OF, Link, SheetAnimal, links_outside,
)  # fmt: skip
from gudokeyi.ingest.sexes import is_unsure
from gudokeyi.reconcile.findings.animals import SexInferred, SexNotKnown, SexUnsure
from gudokeyi.reconcile.findings.by_hand import ValueChanged
from gudokeyi.reconcile.findings.parents import Couple, NoSexesFit, ParentsSwapped
from gudokeyi.reconcile.findings.same_animals import SexAgainstOffspring, SexOfAnother
from gudokeyi.reconcile.next_book import NextBook
from gudokeyi.reconcile.parents import Names
from gudokeyi.reconcile.plausibility import FEW_REFUSED

# Sexes of animals whose rows don't say them: as parents they are, or as in the book.

PARENTS = (Role.SIRE, SIRE_OF), (Role.DAM, DAM_OF)


def leave_out_unread_sexes(
    next_book: NextBook, lacking: Mapping[str, SheetAnimal], are_all_there: bool
) -> None:
    """The row of an animal whose sex can't be read is left out, where neither the book nor any offspring says it; where
    all parents are there, and each animal has a sex, nobody is asked for one. `lacking` are the rows that name a parent
    without one."""
    animals, roles = next_book.animals, next_book.roles
    # rows that say what the book has are read
    unread = [row.id for row in next_book.rows_otherwise() if row.unread]
    without = {*itertools.compress(animals, map(operator.not_, map(SEX_OF, animals.values())))}
    if are_all_there and not unread and not without:
        return
    asked = without.union(unread, *(row.parent_ids() for row in lacking.values()))
    sires, dams = (
        collections.Counter(filter(asked.__contains__, map(parent_of, animals.values()))) for _, parent_of in PARENTS
    )
    roles |= dict.fromkeys(sires, Role.SIRE) | dict.fromkeys(dams, Role.DAM)
    for parent in sires.keys() & dams.keys():
        roles[parent] = role_of_both(next_book, parent, sires[parent], dams[parent])
    for id in unread:
        # an error value of a spreadsheet counts as empty
        is_unread = "sex" in animals[id].unread and animals[id].cells.get(Field.SEX)
        if is_unread and not roles.get(id) and not next_book.book.society_records.get(id):
            next_book.report.add(animals[id].line, id, SexNotKnown())
            del animals[id]


def role_of_both(next_book: NextBook, id: str, sires: int, dams: int) -> Role:
    """Of an animal that is both what it is in the book is preferred, and then what it is more often."""
    in_book = next_book.book.society_records.get(id)
    if in_book:
        return Role.SIRE if in_book.is_male else Role.DAM
    return Role.SIRE if sires >= dams else Role.DAM


class Contradiction(NamedTuple):
    """The offspring that speak against the cell of a sex, and whether the book does too."""

    animal: SheetAnimal
    role: Role
    progeny: set[str]
    in_book: bool


def mend_sexes(
    next_book: NextBook, gone: Mapping[str, SheetAnimal], lacking: Mapping[str, SheetAnimal], names: Names
) -> None:
    """Where more speaks against the cell of a sex than for it, that is what may be wrong: the parent stays one. Each
    offspring, and the book, speak as much as the cell. `lacking` are the rows that name a parent without one; `names`
    are those of all animals."""
    # most sheets have nothing of the kind, and large ones aren't looked at closer
    if not may_disagree(next_book, gone):
        return
    parents = ParentsMeant(next_book, gone, lacking, names)
    evidence = parents.progeny(parents.of_other_sex())
    found = [one for id, by_role in evidence.items() if (one := contradiction(next_book, id, by_role))]
    # sires in the column of dams are told as such
    new = sum(len(one.progeny) for one in found if not one.in_book)
    if new > FEW_REFUSED and 2 * new > parents.count():
        found = [one for one in found if one.in_book]
    for animal, role, its, in_book in found:
        written = animal.cells.get(Field.SEX, "") or animal.sex
        told = SexAgainstOffspring(written, role.sex, role, len(its), min(its), in_book)
        next_book.report.add(animal.line, animal.id, told)
        # what somebody gave the book stays given, or it would count no more when the sheet is taken again
        known = next_book.book.society_records.get(animal.id) if in_book else None
        source = known.sex if known and not known.sex.is_inferred else SexSource(role.value)
        animal.sex, animal.sex_source, animal.castrated = role.sex, source, False


def tell_sexes_of_others(next_book: NextBook) -> None:
    """Females that are castrated males now, and castrated males that are females, once it is told what changed."""
    known, report = next_book.book.society_records, next_book.report
    changed = [one for one in report.entries if isinstance(one.finding, ValueChanged) and one.finding.name == "sex"]
    for line, id in [(one.line, one.id) for one in changed if one.line]:
        animal, in_book = next_book.animals[id], known[id]
        are_given = not animal.sex_source.is_inferred and not in_book.sex.is_inferred
        if are_given and (animal.castrated or in_book.castrated):
            report.add(line, id, SexOfAnother(animal.cells.get(Field.SEX, ""), in_book.castrated))


def contradiction(next_book: NextBook, id: str, by_role: Mapping[Role, set[str]]) -> Contradiction | None:
    """What speaks against the sex of an animal's cell, where that is more than what speaks for it."""
    animal, in_book = next_book.animals.get(id), next_book.book.society_records.get(id)
    if animal is None or not animal.sex or not animal.line or animal.sex_source.is_inferred:
        return None
    role, own = (Role.DAM, Role.SIRE) if animal.sex == Role.SIRE.sex else (Role.SIRE, Role.DAM)
    in_book_too = in_book is not None and in_book.registration_number[6] == role.sex
    is_known = in_book is not None and not in_book.sex.is_inferred
    against = len(by_role[role]) + (in_book_too and is_known)
    for_it = 1 + len(by_role[own]) + (is_known and not in_book_too)
    return Contradiction(animal, role, by_role[role], in_book_too) if by_role[role] and against > for_it else None


def may_disagree(next_book: NextBook, gone: Mapping[str, SheetAnimal]) -> bool:
    """Is any animal named as a parent of the other sex, or of another one in the book?"""
    if next_book.rows_of_book:
        return next_book.rows_of_book.may_disagree(next_book.otherwise.values())
    all_animals, known = [*next_book.animals.values(), *gone.values()], next_book.book.society_records
    texts = {role.sex: {text.casefold() for text in {*map(parent_of, all_animals)}} for role, parent_of in PARENTS}
    animals = next_book.animals.values()
    for sex, other in ("M", "F"), ("F", "M"):
        those = [animal for animal in animals if animal.sex == sex]
        own = {*map(str.casefold, map(ID_OF, those)), *map(str.casefold, map(NAME_OF, those))} - {""}
        if not own.isdisjoint(texts[other]):
            return True
        if known and any(one.id in known and known[one.id].registration_number[6] != sex for one in those):
            return True
    return False


class ParentsMeant:
    """The parents of all animals, as cells name them by their ids or by a name that one has alone; where a cell names
    none so, as the book has them."""

    def __init__(
        self, next_book: NextBook, gone: Mapping[str, SheetAnimal], lacking: Mapping[str, SheetAnimal], names: Names
    ) -> None:
        self.next_book, self.animals, self.lacking, self.names = next_book, next_book.animals | gone, lacking, names

    @functools.cached_property
    def by_other_texts(self) -> list[Link]:
        """Those whose cells have none of the ids: first the sires."""
        links = links_outside(self.lacking.values(), self.animals)
        meant = ((offspring, role, self.meant(offspring, role, text)) for offspring, role, text in links)
        return sorted((link for link in meant if link[2]), key=lambda link: link[1] is Role.DAM)

    def meant(self, offspring: SheetAnimal, role: Role, text: str) -> str:
        named, record = self.names.with_name(text), self.next_book.record(offspring.id)
        of_book = self.next_book.id_of(record.parent(role)) if record else ""
        return named[0] if len(named) == 1 else of_book

    def of_other_sex(self) -> set[str]:
        """Those whose rows say another sex than that of their role, or than the book. Rows that say what the book has
        name those alone of whom the book says the sex of their role."""
        rows, others = self.next_book.animals, self.next_book.otherwise
        are_compared = self.next_book.rows_of_book is not None
        found = {id for id, row in others.items() if self.is_of_other_sex(row)} if are_compared else set()
        those = others if are_compared else self.animals
        for role, parent_of in PARENTS:
            parents = {*map(parent_of, those.values())}.union(one for _, of, one in self.by_other_texts if of is role)
            found.update(id for id in parents if (row := rows.get(id)) and row.sex not in ("", role.sex))
        return found

    def is_of_other_sex(self, row: SheetAnimal) -> bool:
        """Does the row of an animal of the book say another sex than this?"""
        in_book = self.next_book.book.society_records.get(row.id)
        return in_book is not None and row.sex not in ("", in_book.registration_number[6])

    def progeny(self, parents: Set[str]) -> dict[str, dict[Role, set[str]]]:
        """The offspring of some of them in each role."""
        found: dict[str, dict[Role, set[str]]] = {}
        by_texts = (link for link in self.by_other_texts if link[2] in parents)
        for offspring, role, parent in itertools.chain(self.by_ids(parents), by_texts):
            found.setdefault(parent, {Role.SIRE: set(), Role.DAM: set()})[role].add(offspring.id)
        return found

    def by_ids(self, parents: Set[str]) -> Iterator[Link]:
        """Some of them whose cells have their ids: first the sires."""
        for role, parent_of in PARENTS if parents else ():
            cells = [*map(parent_of, self.animals.values())]
            having = itertools.compress(zip(self.animals.values(), cells), map(parents.__contains__, cells))
            yield from ((offspring, role, text) for offspring, text in having)

    def count(self) -> int:
        """How many links to them there are."""
        cells = itertools.chain.from_iterable(map(parent_of, self.animals.values()) for _, parent_of in PARENTS)
        return len(self.by_other_texts) + sum(map(self.animals.__contains__, cells))


def find_sexes(next_book: NextBook) -> None:
    """An animal without a sex has that of the parent that it is, or else that of the book, or the likely one of its
    cell; else it is taken for a female, and stays one for that reason. One that was invented stays so where no row has
    the animal as a parent."""
    animals, known = next_book.animals, next_book.book.society_records
    without = [*itertools.compress(animals.items(), map(operator.not_, map(SEX_OF, animals.values())))]
    are_invented = any(id in known and known[id].sex is SexSource.INVENTED for id, _ in without)
    rows = [animal for animal in animals.values() if animal.line] if are_invented else []
    parents_of_rows = {*map(SIRE_OF, rows), *map(DAM_OF, rows)}
    for id, animal in without:
        role, in_book = next_book.roles.get(id), known.get(id)
        if role:
            animal.sex, animal.sex_source = role.sex, SexSource(role.value)
        elif in_book and in_book.sex is not SexSource.NOTHING:
            animal.sex, animal.sex_source = in_book.registration_number[6], SexSource.BOOK
        else:
            of_book = in_book.registration_number[6] if in_book else "F"
            animal.sex, animal.sex_source = animal.likely_sex or of_book, SexSource.NOTHING
        animal.castrated = animal.castrated and animal.sex == "M"
        if animal.line:
            next_book.report.add(animal.line, id, sex_found(animal))
        is_invented = in_book is not None and in_book.sex is SexSource.INVENTED
        if in_book and is_invented and in_book.registration_number[6] == animal.sex and id not in parents_of_rows:
            animal.sex_source = SexSource.INVENTED


def sex_found(animal: SheetAnimal) -> Finding:
    if animal.likely_sex and is_unsure(animal.cells[Field.SEX]):
        return SexUnsure(animal.sex, animal.sex_source, animal.cells[Field.SEX])
    return SexInferred(animal.sex, animal.sex_source, "sex" in animal.unread)


# Sexes for a geneticist's pedigree, `id sire dam`: invented so that nothing is refused for them.

# so many couples that no sexes fit are named
MOST_COUPLES = 9


def invent_sexes(animals: dict[str, SheetAnimal], report: Report) -> None:
    """A sire is a male and a dam a female. Where an animal is both, sexes are sought that make a male and a female of
    each couple, and the parents of some are swapped, which changes no coefficient. No offspring has one parent twice.
    Sexes that are there stay."""
    for animal in animals.values():
        if not animal.sex:
            animal.sex_source = SexSource.INVENTED
    sexes = Sexes(animals)
    for animal in animals.values():
        sexes.place_parents(animal, report)


class Sexes:
    """The sexes of all animals, couple by couple: the mates of a male are females, and theirs are males."""

    def __init__(self, animals: dict[str, SheetAnimal]) -> None:
        self.animals = animals
        # the first offspring of each parent in each role, and the mates of each with their first offspring
        self.offspring: dict[Role, dict[str, SheetAnimal]] = {role: {} for role in Role}
        self.mates: dict[str, dict[str, SheetAnimal]] = {}
        for animal in animals.values():
            for role, parent in animal.parents():
                self.offspring[role].setdefault(parent, animal)
            if animal.sire and animal.dam:
                self.mates.setdefault(animal.sire, {}).setdefault(animal.dam, animal)
                self.mates.setdefault(animal.dam, {}).setdefault(animal.sire, animal)
        # for each animal the mate by which its sex was found
        self.found_by: dict[str, str] = {}
        given = [id for id, animal in animals.items() if animal.sex]
        for id in given:
            if any(id in self.offspring[role] and self.fits(role, id) for role in Role):
                self.colour(id)
        for id, animal in animals.items():
            if not animal.sex:
                self.colour(id)
        both = self.offspring[Role.SIRE].keys() & self.offspring[Role.DAM].keys()
        # for each animal one that is both, the nearest by mates, and how far it is
        self.both: dict[str, tuple[int, str]] = {id: (0, id) for id in animals if id in both}
        self.spread_both()

    def colour(self, first: str) -> None:
        """Gives an animal the sex of its role where it has none, and all that are joined to it by couples theirs."""
        self.animals[first].sex = self.animals[first].sex or ("M" if first in self.offspring[Role.SIRE] else "F")
        reached = [first]
        for one in reached:
            for mate in self.mates.get(one, ()):
                if not self.animals[mate].sex:
                    self.animals[mate].sex = "F" if self.animals[one].sex == "M" else "M"
                    self.found_by[mate] = one
                    reached.append(mate)

    def fits(self, role: Role, id: str) -> bool:
        """Is the sex of an animal its role's, or invented?"""
        animal = self.animals[id]
        return animal.sex_source is SexSource.INVENTED or animal.sex == role.sex

    def spread_both(self) -> None:
        reached = list(self.both)
        for one in reached:
            steps, both = self.both[one]
            for mate in self.mates.get(one, ()):
                if mate not in self.both:
                    self.both[mate] = steps + 1, both
                    reached.append(mate)

    def place_parents(self, animal: SheetAnimal, report: Report) -> None:
        """Puts the male parent in the sire's place and the female one in the dam's. One whose sex isn't invented is
        left to the program, which refuses it."""
        if not all(self.fits(role, parent) for role, parent in animal.parents()):
            return
        sexes = [self.animals[parent].sex for _, parent in animal.parents()]
        if len(sexes) == 2 and sexes[0] == sexes[1]:
            report.add(animal.line, animal.id, self.no_sexes_fit(animal))
            animal.dam = ""
        if any(role.sex != self.animals[parent].sex for role, parent in animal.parents()):
            report.add(animal.line, animal.id, self.swapped(animal))
            animal.sire, animal.dam = animal.dam, animal.sire

    def swapped(self, animal: SheetAnimal) -> ParentsSwapped:
        """With the animal that is a sire in one line and a dam in another: a parent of this one, or one that couples
        join to it."""
        found = [(*self.both[parent], role, parent) for role, parent in animal.parents()]
        steps, both, role, parent = min(found, key=lambda one: one[0])
        progeny = {one: self.offspring[one][both] for one in self.offspring}
        if not steps:
            progeny[role] = animal
        lines = progeny[Role.SIRE].line, progeny[Role.DAM].line
        return ParentsSwapped(animal.dam, animal.sire, both, parent if steps else "", *lines)

    def no_sexes_fit(self, animal: SheetAnimal) -> NoSexesFit:
        """With the couples that lead from the sire by mates to the dam, and with this animal's back: an odd number of
        them."""
        up, down = self.path(animal.sire), self.path(animal.dam)
        while len(up) > 1 and len(down) > 1 and up[-2] == down[-2]:
            del up[-1], down[-1]
        path = up + down[-2::-1]
        couples = [Couple(one, mate, self.mates[one][mate].line) for one, mate in zip(path, path[1:])]
        couples.append(Couple(animal.dam, animal.sire, animal.line))
        return NoSexesFit(animal.dam, tuple(couples[-MOST_COUPLES:]), max(0, len(couples) - MOST_COUPLES))

    def path(self, id: str) -> list[str]:
        """From an animal by mates to the first of those that are joined to it."""
        path = [id]
        while path[-1] in self.found_by:
            path.append(self.found_by[path[-1]])
        return path
