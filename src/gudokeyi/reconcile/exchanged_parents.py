"""Rows whose sire is a female of the list and whose dam is a male: they may stand in each other's column."""
from __future__ import annotations

import collections
from collections.abc import Iterator
from typing import NamedTuple

from gudokeyi.domain.kinds import Role
from gudokeyi.ingest.animals import ID_OF, SEX_OF, SheetAnimal
from gudokeyi.reconcile.findings.parents_in_texts import ParentsExchanged
from gudokeyi.reconcile.next_book import NextBook
from gudokeyi.reconcile.parents import Names, can_be
from gudokeyi.reconcile.plausibility import FEW_REFUSED


class Exchanged(NamedTuple):
    """A row, the female that it names as its sire, and the male that it names as its dam."""

    row: SheetAnimal
    female: SheetAnimal
    male: SheetAnimal


def leave_out_exchanged_parents(next_book: NextBook, names: Names) -> None:
    """Both parents are unknown then. Where most rows are such, the columns are exchanged, which is told by itself; and
    an animal that stands so several times, and no more often as what it is, may have a wrong sex."""
    rows = [row for row in next_book.animals.values() if row.line and row.sire and row.dam]
    found = [*exchanged(rows, names)]
    if not found or (len(found) > FEW_REFUSED and 2 * len(found) > len(rows)):
        return
    counts = collections.Counter(one.id for _, *both in found for one in both)
    sires, dams = collections.Counter(row.sire for row in rows), collections.Counter(row.dam for row in rows)
    for row, female, male in found:
        are_right = named(dams, female) >= counts[female.id] and named(sires, male) >= counts[male.id]
        if are_right or counts[female.id] == counts[male.id] == 1:
            row.sire = row.dam = ""
            next_book.report.add(row.line, row.id, ParentsExchanged(female.id, male.id))


def exchanged(rows: list[SheetAnimal], names: Names) -> Iterator[Exchanged]:
    sexes = dict(zip(map(ID_OF, names.animals.values()), map(SEX_OF, names.animals.values())))
    # a text that is no id may be a name
    likely = [row for row in rows if sexes.get(row.sire, "F") == "F" and sexes.get(row.dam, "M") == "M"]
    for row in likely:
        female, male = meant(row.sire, names), meant(row.dam, names)
        if female and male and (female.sex, male.sex) == ("F", "M"):
            if can_be(female, Role.DAM, row) and can_be(male, Role.SIRE, row):
                yield Exchanged(row, female, male)


def meant(text: str, names: Names) -> SheetAnimal | None:
    """The animal that has a text as its id, or alone as its name."""
    if text in names.animals:
        return names.animals[text]
    named = names.with_name(text)
    return names.animals.get(named[0]) if len(named) == 1 else None


def named(counts: collections.Counter[str], animal: SheetAnimal) -> int:
    """How often an animal is named in a column."""
    return counts[animal.id] + (counts[animal.name] if animal.name else 0)
