"""Rows of a sheet that have one id: which of them is taken, and what the others say otherwise."""
from __future__ import annotations

import collections
import datetime
from collections.abc import Mapping
from typing import Container

from gudokeyi.domain.findings import Report
from gudokeyi.domain.kinds import Field, Role
from gudokeyi.domain.spelling import are_other_names
from gudokeyi.ingest.animals import ROLES, WEEKS_LATER, YEARS_LATER, SheetAnimal, lines_that_name
from gudokeyi.ingest.days import Span, Unreadable, read_span
from gudokeyi.ingest.findings.same_ids import MOST_LINES, IdAgain, IdUsedAgain, IdUsedOften

# so many animals with the id of one are told together: no tag is used so often
OFTEN = 3


class SameIds:
    """Compares rows of one id. `born` are the birth days that animals of the book have by their ids."""

    def __init__(self, unknown: Container[str], month_first: bool, born: Mapping[str, datetime.date]) -> None:
        self.unknown, self.month_first, self.born = unknown, month_first, born

    def is_of_book(self, id: str, cells: dict[str, str]) -> bool:
        """Has the row the birth day that the book has of this id?"""
        span = self.birth(cells)
        return span is not None and span.is_day and self.born.get(id) == span.first

    def birth(self, cells: dict[str, str]) -> Span | None:
        try:
            return read_span(cells.get(Field.BIRTH, ""), self.month_first)
        except Unreadable:
            return None

    def again(self, animal: SheetAnimal, first: dict[str, str], cells: dict[str, str]) -> IdAgain:
        """What a second row of an id says otherwise than the first, which became an animal."""
        fields = [name for name in cells if name not in ROLES]
        differing = tuple((name, cells[name], first[name]) for name in fields if cells[name] != first[name])
        here = self.parent(cells, Role.SIRE), self.parent(cells, Role.DAM)
        births = [span for span in (self.birth(first), self.birth(cells)) if span]
        is_born_otherwise = len(births) == 2 and not births[0].meets(births[1])
        return IdAgain(animal.line, (animal.sire, animal.dam), here, differing, is_born_otherwise or None)

    def parent(self, cells: dict[str, str], role: Role) -> str:
        text = cells.get(role, "")
        return "" if text in self.unknown else text

    def are_two(self, animal: SheetAnimal, cells: dict[str, str]) -> bool:
        """Was the animal of a second row of an id born years before or after that of the first, or weeks with another
        name?"""
        here, name = self.birth(cells), cells.get(Field.NAME, "")
        if here is None or not (here.is_day and animal.has_day()):
            return False
        days = abs((here.first - animal.birth.first).days)
        is_named = days >= WEEKS_LATER and bool(name and animal.name)
        return days >= YEARS_LATER or is_named and are_other_names(name, animal.name)

    def is_preferred(self, first: SheetAnimal, second: SheetAnimal) -> bool:
        """Of two animals with one id the one that the book has is taken, else the one that was born first: is it the
        second?"""
        born, days = self.born.get(second.id), [animal.birth.first for animal in (first, second)]
        return born == days[1] or (born != days[0] and days[1] < days[0])


def tell_used_again(
    animals: dict[str, SheetAnimal], others: list[SheetAnimal], report: Report, born: Mapping[str, datetime.date]
) -> None:
    """The animals of a sheet, and those that have the id of another one there; `born` are the birth days of the
    book."""
    often = tell_used_often(animals, others, report)
    for other in [other for other in others if other.id not in often]:
        first = animals[other.id]
        values = first.birth.first, first.name, other.birth.first, other.name, lines_that_name(animals, other)
        is_first_born = born.get(other.id) != first.birth.first
        report.add(other.line, other.id, IdUsedAgain(*values, first.line, is_first_born))


def tell_used_often(animals: Mapping[str, SheetAnimal], others: list[SheetAnimal], report: Report) -> set[str]:
    """Answers the ids that so many animals have that no tag is used so often: their rows are told together."""
    lines = collections.defaultdict[str, list[int]](list)
    for entry in report.entries:
        if isinstance(entry.finding, IdAgain) and entry.finding.is_born_otherwise:
            lines[entry.id].append(entry.line)
    for other in others:
        lines[other.id].append(other.line)
    often = {id: sorted(its) for id, its in lines.items() if len(its) >= OFTEN}
    if often:
        report.entries = [one for one in report.entries if not (one.id in often and isinstance(one.finding, IdAgain))]
    for id, its in often.items():
        report.add(0, "", IdUsedOften(id, len(its), animals[id].line, tuple(its[:MOST_LINES])))
    return {*often}
