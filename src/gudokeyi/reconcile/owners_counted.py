"""Owners whose numbers count up from row to row, as a spreadsheet makes them where a cell is pulled down."""
from __future__ import annotations

import functools
import re
from collections.abc import Container, Iterator, Mapping, Sequence
from typing import NamedTuple

from gudokeyi.ingest.animals import LINE_OF, OWNER_OF
from gudokeyi.reconcile.findings.owners import OwnersCountUp
from gudokeyi.reconcile.next_book import NextBook

# so many rows below the first one have an owner of their own
LEAST = 4
# in a list that is sorted by owners so great a part of the steps goes up
SORTED = 0.9
# a name with a number behind it
NUMBERED = re.compile(r"(?P<name>.*[^\W\d_].*?)(?P<number>\d{1,6})")


class Numbered(NamedTuple):
    name: str
    number: int


def tell_owners_counted(next_book: NextBook, owners_before: Container[str], rows: Mapping[str, int]) -> None:
    """Owners of one row each, whom the book didn't have, in rows that follow one another; `rows` are the owners' of the
    sheet."""
    alone = {one for one, count in rows.items() if count == 1 and one not in owners_before and numbered(one)}
    if len(alone) < LEAST:
        return
    animals = sorted(filter(LINE_OF, next_book.animals.values()), key=LINE_OF)
    owners = [*map(OWNER_OF, animals)]
    for run in runs_of(owners):
        if len(alone.intersection(owners[at] for at in run[1:])) >= LEAST and not is_sorted_list(owners, run):
            first, next_one, last = (animals[at] for at in (run[0], run[1], run[-1]))
            found = OwnersCountUp(
                first.owner, first.line, len(run) - 1, next_one.owner, next_one.line, last.owner, last.line
            )
            next_book.report.add(0, "", found)


@functools.lru_cache(10_000)
def numbered(owner: str) -> Numbered | None:
    found = NUMBERED.fullmatch(owner)
    return Numbered(found["name"], int(found["number"])) if found else None


def runs_of(owners: Sequence[str]) -> Iterator[range]:
    """The places of rows whose numbers count up by one, each with that of the row from which they do."""
    begin = 0
    for at in range(1, len(owners) + 1):
        if at == len(owners) or not counts_up(owners[at - 1], owners[at]):
            if at - begin > LEAST:
                yield range(begin, at)
            begin = at


def counts_up(before: str, owner: str) -> bool:
    one, other = numbered(before), numbered(owner)
    return one is not None and other == Numbered(one.name, one.number + 1)


def is_sorted_list(owners: Sequence[str], run: range) -> bool:
    """Do the numbers of the other rows go up too, or are all rows numbered from the beginning?"""
    first = numbered(owners[run[0]])
    others = [numbered(owner) for at, owner in enumerate(owners) if at not in run]
    numbers = [one.number for one in others if one and first and one.name == first.name]
    if not numbers:
        return len(run) == len(owners) and first is not None and first.number <= 1
    steps = [after - before for before, after in zip(numbers, numbers[1:]) if before != after]
    return bool(steps) and sum(step > 0 for step in steps) >= SORTED * len(steps)
