"""Rows of titles within a sheet that have them in another order than the first one, or others: the cells of the rows
below are put where the first one has their titles, and those of other titles behind them."""
from __future__ import annotations

import collections
import functools
from collections.abc import Collection, Iterable, Mapping, Sequence
from typing import NamedTuple, TypeVar

from gudokeyi.domain.kinds import Field
from gudokeyi.domain.spelling import closest
from gudokeyi.ingest.findings.cells import TitleFor
from gudokeyi.ingest.texts import plain
from gudokeyi.ingest.titles import ALL_KNOWN_TITLES, KNOWN_PAIRS, KNOWN_TITLES, NEEDED
from gudokeyi.ingest.words import KNOWN_EXITS, KNOWN_NO_EXITS, KNOWN_SEXES, KNOWN_STAYS

Cell = TypeVar("Cell")
# where the cells of a row belong, by their places
Order = Mapping[int, int]
# a title as it is compared, and how often it stands before
Title = tuple[str, int]
# so many titles are looked for before rows are looked at one by one
SOME = 3
# so many titles at least that are no values of animals, and so many for each cell that is no title
LEAST, FOR_EACH = 3, 2
# the place of a title that no column has
NOWHERE = -1
# how alike two titles of one place are that are one, unless one begins with the other, which has so many letters
ALIKE, SHORTEST = 0.85, 3
# the titles of the columns that a sheet has to have; those of a pair, as `Hengst` and `Stute`, are values of animals
OF_NEEDED = {field: {*KNOWN_TITLES[field]} - KNOWN_PAIRS.get(field, set()) for field in NEEDED}
OF_PARENTS = OF_NEEDED[Field.SIRE] | OF_NEEDED[Field.DAM]
# others that are values too, as `verkauft`
VALUES = ({*KNOWN_SEXES} | KNOWN_EXITS | KNOWN_STAYS | KNOWN_NO_EXITS) - OF_PARENTS


class Ordered(NamedTuple):
    """The titles of all columns, and the lines of those that later rows of titles add behind the first ones, by their
    places; the orders of the rows whose cells stand elsewhere, by their lines; the lines of rows of titles, and of
    those that have them in another order the titles that stand for others."""

    titles: list[str]
    added: dict[int, int]
    orders: dict[int, Order]
    again: frozenset[int]
    moved: dict[int, tuple[TitleFor, ...]]

    def cells(self, line: int, cells: list[str]) -> list[str]:
        """The cells of a row where they belong. One without a title stands behind all others."""
        if line in self.again:
            return [*self.titles]
        order = self.orders[line]
        known = {order[at]: cell for at, cell in enumerate(cells) if at in order}
        others = [cell for at, cell in enumerate(cells) if cell and at not in order]
        return [*(known.get(at, "") for at in range(len(self.titles))), *others]

    def places(self, cells: dict[tuple[int, int], Cell]) -> dict[tuple[int, int], Cell]:
        """The same of cells that are known by their lines and places."""
        if not self.orders:
            return cells
        return {(line, self.orders.get(line, {}).get(at, at)): cell for (line, at), cell in cells.items()}

    def columns(self, lines: Mapping[int, list[int]]) -> Mapping[int, list[int]]:
        """The same of lines that are known by their places."""
        if not self.orders:
            return lines
        found = collections.defaultdict[int, list[int]](list)
        for at, its in lines.items():
            for line in its:
                found[self.orders.get(line, {}).get(at, at)].append(line)
        return {at: sorted(its) for at, its in found.items()}


def in_order(rows: Sequence[tuple[int, list[str]]], titles: Sequence[str], together: str) -> Ordered:
    """The rows below the first titles. `together` has all cells, each between tabulators: few sheets have titles
    twice."""
    titles_below = TitlesBelow(titles)
    if not titles_below.may_be_within(together):
        return Ordered(titles_below.titles, {}, {}, frozenset(), {})
    orders, again, order = dict[int, Order](), set[int](), dict[int, int]()
    moved = dict[int, tuple[TitleFor, ...]]()
    for line, cells in rows:
        if found := titles_below.order_of(line, cells):
            again.add(line)
            is_moved = any(at != place < len(titles) for at, place in found.items())
            order = found if is_moved or max(found.values()) >= len(titles) else {}
            if is_moved:
                moved[line] = titles_below.for_others(cells, found)
        if order:
            orders[line] = order
    if titles_below.added:
        orders |= of_long_rows(rows, orders, len(titles))
    return Ordered(titles_below.titles, titles_below.added, orders, frozenset(again), moved)


def of_long_rows(rows: Sequence[tuple[int, list[str]]], orders: Collection[int], width: int) -> dict[int, Order]:
    """What rows in the order of the first titles have behind these stands below none that is added."""
    order = {at: at for at in range(width)}
    return {line: order for line, cells in rows if len(cells) > width and line not in orders}


class TitlesBelow:
    """Finds the rows of titles below the first one, and the titles that they add."""

    def __init__(self, titles: Sequence[str]) -> None:
        self.titles, self.places, self.added = [*titles], places_of(titles), dict[int, int]()
        self.first, self.named = {*self.places}, {*titles} - {""}

    def may_be_within(self, together: str) -> bool:
        """Does one of some titles stand in these cells again? Those of parents stand in most rows of titles."""
        counts = collections.Counter(filter(None, self.titles))
        likely = sorted(counts, key=lambda title: plain(title) not in OF_PARENTS)[:SOME]
        return any(together.count(f"\t{title}\t") > counts[title] for title in likely)

    def order_of(self, line: int, cells: Sequence[str]) -> dict[int, int]:
        """Where the cells below a row of titles belong; empty of any other row."""
        # few rows have the text of a title
        named = {} if self.named.isdisjoint(cells) else places_of(cells)
        if not self.are_titles(named):
            return {}
        order = dict[int, int]()
        for title, at in named.items():
            meant = self.meant(title, at, named)
            if self.places.get(meant, NOWHERE) in {NOWHERE, *order.values()}:
                meant = title
                self.places[title] = len(self.titles)
                self.added[len(self.titles)] = line
                self.titles.append(cells[at])
            order[at] = self.places[meant]
        return order

    def are_titles(self, named: Mapping[Title, int]) -> bool:
        """Has a row nearly all of the first titles, or those of the columns that a sheet has to have? No animal reads
        like that, unless these are values too."""
        are_most = bool(named) and 4 * len(self.first & named.keys()) >= 3 * len(self.first)
        if are_most and named.keys() <= self.first:
            return True
        others = {title for title in named.keys() - self.places.keys() if title[0] not in ALL_KNOWN_TITLES}
        sure = len([title for title in named.keys() - others if title[0] not in VALUES])
        needed = needed_in(text for text, _ in named)
        if are_most or needed == len(OF_NEEDED):
            return sure >= LEAST
        has_digits = any(map(str.isdigit, "".join(text for text, _ in others)))
        return min(sure, needed) >= LEAST and sure >= FOR_EACH * len(others) and not has_digits

    def meant(self, title: Title, at: int, named: Mapping[Title, int]) -> Title:
        """The one of the first titles that it is, or for which it stands: the only one of its field, as `Halter` for
        `Besitzer`, or one at its place that is written nearly so; itself where there is none."""
        if title in self.places:
            return title
        lacking, fields = self.first - named.keys(), fields_of(title)
        if not fields:
            return next((one for one in lacking if self.places[one] == at and are_alike(one[0], title[0])), title)
        alike = [one for one in lacking if not fields.isdisjoint(fields_of(one))]
        beside = [one for one in named if not fields.isdisjoint(fields_of(one))]
        return alike[0] if len(alike) == len(beside) == 1 else title

    def for_others(self, cells: Sequence[str], order: Order) -> tuple[TitleFor, ...]:
        """Those of a row that stand for others."""
        both = [(cells[at], self.titles[place]) for at, place in order.items()]
        return tuple(TitleFor(title, other) for title, other in both if plain(title) != plain(other))


def needed_in(titles: Iterable[str]) -> int:
    """How many of the columns that a sheet has to have are among those with these titles."""
    texts = {*map(plain, titles)}
    return sum(not known.isdisjoint(texts) for known in OF_NEEDED.values())


def places_of(titles: Sequence[str]) -> dict[Title, int]:
    """Where each title stands."""
    counts, found = collections.Counter[str](), dict[Title, int]()
    for at, title in enumerate(titles):
        if title:
            text = plain(title) or title
            found[text, counts[text]] = at
            counts[text] += 1
    return found


@functools.cache
def fields_of(title: Title) -> frozenset[str]:
    """The fields whose columns have such a title."""
    return frozenset(field for field, known in KNOWN_TITLES.items() if title[0] in known)


def are_alike(one: str, other: str) -> bool:
    """Is one title written for the other, as `Bem.` for `Bemerkung`?"""
    shorter, longer = sorted((one, other), key=len)
    return len(shorter) >= SHORTEST and longer.startswith(shorter) or bool(closest(one, [other], least=ALIKE))
