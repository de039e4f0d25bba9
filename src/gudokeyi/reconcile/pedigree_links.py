"""Links of a pedigree's lines: to be cut down to some animals, and those that would be lost or go to other animals,
since that changes coefficients."""
from __future__ import annotations

import pathlib
from collections.abc import Collection, Mapping, Sequence

from gudokeyi.domain.findings import Entry, ImportRefused, Obstacle, Part, Report, What
from gudokeyi.domain.kinds import Role
from gudokeyi.domain.messages import MOST_NAMED, Mistake, some_of
from gudokeyi.domain.pedigree_order import ancestors
from gudokeyi.ingest.animals import SheetAnimal, links_outside
from gudokeyi.ingest.findings.same_ids import IdAgain
from gudokeyi.ingest.pedigree_files import read_ids
from gudokeyi.ingest.spellings import CUT, Spellings, is_as_number, number_of
from gudokeyi.reconcile.findings.obstacles import (
    IdsUsedAgain, LinksLost, NumbersShortened, NumbersTwice, ParentsAlike, ParentsNamed, SiresAndDams,
)  # fmt: skip
from gudokeyi.reconcile.findings.parents import SameParentTwice
from gudokeyi.reconcile.findings.rows import IdOfAnother, LineAfterOffspring
from gudokeyi.reconcile.ids import leave_out_used_tags
from gudokeyi.reconcile.parents import may_be_unknown
from gudokeyi.store.book import Book

# Cuts a pedigree down to some animals and their ancestors, which changes no coefficient of theirs.


def keep_with_ancestors(animals: dict[str, SheetAnimal], path: pathlib.Path) -> str:
    """Takes out all but the animals that a file names and their ancestors, and tells how many those are."""
    wanted = read_ids(path, animals.__contains__)
    missing = [id for id in wanted if id not in animals]
    if missing:
        raise Mistake(f"{path} names animals that have no line in the pedigree: {some_of(missing)}")
    before = len(animals)
    kept = ancestors(wanted, lambda id: (parent for parent in animals[id].parent_ids() if parent in animals))
    for id in animals.keys() - kept - set(wanted):
        del animals[id]
    named = f"{len(wanted):,} animal{'s' * (len(wanted) != 1)}"
    return f"kept: {named} of {path} with their ancestors, {len(animals):,} of {before:,} lines"


# Parents of a pedigree that have no line as they are written, and have one otherwise: to take founders in their place
# changes coefficients.


def refuse_alike(animals: Mapping[str, SheetAnimal], ids: Collection[str]) -> None:
    """A mistake where a parent is none of the ids, and differs from one in how it is written alone; and where a number
    is shortened."""
    lacking = parents_outside(animals, ids)
    find = Spellings(ids)
    alike = {parent: id for parent in lacking if (id := find.meant(parent))}
    if alike:
        raise ImportRefused(ParentsAlike(len(alike), told_elsewhere(alike, lacking), any(map(is_as_number, alike))))
    refuse_shortened(animals)
    refuse_twice(animals, ids)


def parents_outside(animals: Mapping[str, SheetAnimal], ids: Collection[str]) -> dict[str, SheetAnimal]:
    """The known parents that are none of the ids, each with its first offspring."""
    found: dict[str, SheetAnimal] = {}
    for offspring, _, parent in links_outside(animals.values(), ids):
        found.setdefault(parent, offspring)
    return found


def refuse_named(animals: Mapping[str, SheetAnimal], ids: Collection[str], book: Book) -> None:
    """A mistake where a parent is none of the ids, and the name of an animal of the book."""
    lacking = parents_outside(animals, ids)
    names = {in_book.name.casefold(): in_book.id for in_book in book.society_records.values()}
    named = {parent: names[parent.casefold()] for parent in lacking if parent.casefold() in names}
    if named:
        raise ImportRefused(ParentsNamed(len(named), told_elsewhere(named, lacking)))


def refuse_shortened(animals: Mapping[str, SheetAnimal]) -> None:
    """A mistake where a number is written in a form in which digits may be lost: two animals may have one id then."""
    found: dict[str, SheetAnimal] = {}
    for animal in animals.values():
        for text in (animal.id, animal.sire, animal.dam):
            if "+" in text and CUT.fullmatch(text):
                found.setdefault(text, animal)
    if found:
        first = some_of([f"{text} (line {animal.line})" for text, animal in found.items()])
        raise ImportRefused(NumbersShortened(len(found), first))


def refuse_twice(animals: Mapping[str, SheetAnimal], ids: Collection[str]) -> None:
    """A mistake where an animal has a number that is the id of another one in another form: both are one."""
    pairs = ((id, number_of(id)) for id in animals if is_as_number(id))
    twice = {id: number for id, number in pairs if number != id and number in ids}
    if twice:
        first = some_of([f"{id} (line {animals[id].line}; is {number} meant?)" for id, number in twice.items()])
        raise ImportRefused(NumbersTwice(len(twice), first))


def told_elsewhere(meant: Mapping[str, str], progeny: Mapping[str, SheetAnimal]) -> str:
    """Parents with the ids that may be meant, each with an offspring of its."""
    lines = {parent: f"of {progeny[parent].id} in line {progeny[parent].line}" for parent in meant}
    return some_of([f"{parent} ({lines[parent]}; is {id} meant?)" for parent, id in meant.items()])


# Links of a pedigree that would be left out, or be those of other animals: each changes coefficients, so nothing is
# taken unless that is wished.


def refuse_lost_links(report: Report) -> None:
    lost = [entry for entry in report.in_order() if is_lost_link(entry)]
    if lost:
        raise ImportRefused(LinksLost(len(lost)), told=first_of(lost))


def refuse_used_ids(animals: dict[str, SheetAnimal], book: Book, others: Sequence[Obstacle]) -> None:
    """A mistake where the book has ids of the pedigree for other animals: offspring would have these as parents. What
    else is answered by the same option is told with it."""
    report = Report()
    if leave_out_used_tags(dict(animals), book, report, IdOfAnother, LineAfterOffspring):
        raise ImportRefused(IdsUsedAgain(len(report.entries)), *others, told=first_of(report.in_order()))


def first_of(entries: list[Entry]) -> list[str]:
    """The sentences of the first ones, and how many there are besides."""
    more = [f"and {len(entries) - MOST_NAMED} more"] * (len(entries) > MOST_NAMED)
    return [entry.sentence() for entry in entries[:MOST_NAMED]] + more


def is_lost_link(entry: Entry) -> bool:
    """Does a parent go, or a line whose parents aren't those that are taken?"""
    if isinstance(entry.finding, IdAgain):
        return entry.finding.parents_there != entry.finding.parents_here
    return entry.what is What.LEFT_OUT and entry.part is Part.PARENT


# Animals of a pedigree that are both sire and dam, as trees and some fish: a book has each as a male or a female.


def refuse_both(animals: dict[str, SheetAnimal], report: Report) -> None:
    """A mistake where an animal is a sire and a dam, or both parents of one."""
    first: dict[Role, dict[str, SheetAnimal]] = {role: {} for role in Role}
    for animal in animals.values():
        for role, parent in animal.parents():
            first[role].setdefault(parent, animal)
    both = [id for id in first[Role.SIRE] if id in first[Role.DAM]]
    if not both:
        return
    named = some_of([told_of_both(id, first[Role.SIRE][id], first[Role.DAM][id]) for id in both])
    raise ImportRefused(SiresAndDams(len(both), named), *may_be_unknown(report))


def leave_out_same_parent(animals: dict[str, SheetAnimal], report: Report) -> None:
    """An offspring that has one parent twice has it as its sire alone."""
    for animal in animals.values():
        if animal.sire and animal.sire == animal.dam:
            report.add(animal.line, animal.id, SameParentTwice(animal.sire))
            animal.dam = ""


def told_of_both(id: str, of_sire: SheetAnimal, of_dam: SheetAnimal) -> str:
    """Where it is a sire, and where a dam."""
    if of_sire is of_dam:
        return f"{id} (both parents of {of_sire.id} in line {of_sire.line})"
    return f"{id} (a sire {place_of_both(of_sire)}, a dam {place_of_both(of_dam)})"


def place_of_both(offspring: SheetAnimal) -> str:
    """Where an animal's parents stand: in a line of the file, or in the book alone."""
    return f"in line {offspring.line}" if offspring.line else f"of {offspring.id} in the book"
