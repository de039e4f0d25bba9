"""A pedigree by itself, without a book: its animals by place, and what keeps it from being taken. No link is ever left
out."""
from __future__ import annotations

import functools
import itertools
from collections.abc import Collection, Mapping, Sequence
from dataclasses import dataclass
from typing import TYPE_CHECKING

import numpy as np

from gudokeyi.domain.cells import FIRST_LETTER
from gudokeyi.domain.findings import ImportRefused
from gudokeyi.domain.kinds import Field
from gudokeyi.domain.messages import Mistake, counted, some_of
from gudokeyi.genetics.lineage import Lineage, Places
from gudokeyi.genetics.pedigree import UNKNOWN
from gudokeyi.ingest.pedigree_table import PedigreeTable
from gudokeyi.ingest.plain_cells import Numbers, numbered_texts
from gudokeyi.ingest.spellings import CUT, is_as_number
from gudokeyi.ingest.unknown_parents import UnknownParents

if TYPE_CHECKING:
    from gudokeyi.ingest.animals import SheetAnimal
    from gudokeyi.reconcile.doubtful_founders import Counts

# with these a number may begin that isn't written as an id usually is
OF_NUMBERS = frozenset("0123456789+-")


@dataclass(frozen=True)
class Founders:
    """What is asked of parents without a line: whether they differ from an id in how they are written alone, and
    whether they are founders."""

    may_be_alike: bool = False
    may_be_any: bool = False


@dataclass(frozen=True)
class BarePedigree:
    """Animals in the order of their lines, then the parents that have none; the places of all, and the lines."""

    ids: list[str]
    lineage: Lineage
    lines: Sequence[int]
    told: tuple[str, ...]

    @functools.cached_property
    def places(self) -> dict[str, int]:
        return dict(zip(self.ids, itertools.count()))

    def where(self, place: int) -> str:
        """An animal with its line."""
        return f"{self.ids[place]} (line {self.lines[place]})" if place < len(self.lines) else self.ids[place]


def bare_pedigree(table: PedigreeTable, unknown: UnknownParents, founders: Founders) -> BarePedigree:
    """The animals of a table, or a mistake."""
    refuse_unknown(table, unknown)
    told = [table.told] * bool(table.told)
    links = links_of(table)
    if (links.places[links.ids] != np.arange(len(table.ids))).any():
        told.append(take_once(table, unknown))
        links = links_of(table)
    lacking = without_line(table, links, unknown)
    look_at(table, links.rows_with(lacking), [*lacking], unknown, founders)
    if lacking:
        links.places[[*lacking.values()]] = np.arange(len(table.ids), len(table.ids) + len(lacking))
        told.append(f"{counted(len(lacking), 'parent')} without a line {are(lacking)}: {some_of([*lacking])}")
    none = np.full(len(lacking), UNKNOWN)
    lineage = Lineage(*(np.concatenate([links.places[parents], none]) for parents in (links.sires, links.dams)))
    found = BarePedigree([*table.ids, *lacking] if lacking else table.ids, lineage, table.lines, tuple(told))
    refuse_cycle(found)
    return found


@dataclass(frozen=True)
class Links:
    """The texts of ids, sires and dams by their numbers, and the place of each number: the row with this id, `UNKNOWN`
    where there is none."""

    ids: Numbers
    sires: Numbers
    dams: Numbers
    # a cell of each number, the columns one after the other
    cells: Numbers
    places: Places

    def rows_with(self, parents: Mapping[str, int]) -> list[int]:
        """The rows that have one of some parents, by their numbers."""
        are_those = np.zeros(len(self.cells), bool)
        are_those[[*parents.values()]] = True
        rows: list[int] = np.flatnonzero(are_those[self.sires] | are_those[self.dams]).tolist() if parents else []
        return rows


def links_of(table: PedigreeTable) -> Links:
    numbered = table.numbered or numbered_texts([*table.ids, *table.sires, *table.dams])
    ids, sires, dams = numbered.numbers.reshape(3, -1)
    places = np.full(len(numbered), UNKNOWN)
    # of several rows with one id the first
    places[ids[::-1]] = np.arange(len(ids))[::-1]
    return Links(ids, sires, dams, numbered.cells, places)


def are(lacking: Collection[str]) -> str:
    return "is a founder" if len(lacking) == 1 else "are founders"


def refuse_unknown(table: PedigreeTable, unknown: UnknownParents) -> None:
    """A mistake where an id is a word for an unknown parent."""
    words = unknown.among(table.ids)
    row = next((row for row, id in enumerate(table.ids) if id in words), None) if words else None
    if row is not None:
        where = f"line {table.lines[row]}: '{table.ids[row]}'"
        raise Mistake(f"{where} is a word for an unknown parent, and stands for an animal: give it another id")


def take_once(table: PedigreeTable, unknown: UnknownParents) -> str:
    """Takes the later lines of an animal out, where they have the parents of the first one; tells which those are."""
    first: dict[str, int] = {}
    again = [row for row, id in enumerate(table.ids) if first.setdefault(id, row) != row]
    others = [row for row in again if not is_same(table, first[table.ids[row]], row, unknown)]
    if others:
        lines = [line_again(table, first[table.ids[row]], row) for row in others]
        more = [f"and {len(lines) - 12} more"] * (len(lines) > 12)
        raise Mistake(
            *lines[:12], *more, "an animal has one line: leave the wrong ones out, or give each animal its own id"
        )
    told = [f"{table.ids[row]} in line {table.lines[row]}" for row in again]
    is_again = set(again)
    rows = [row for row in range(len(table.ids)) if row not in is_again]
    table.ids, table.sires, table.dams = (
        [column[row] for row in rows] for column in (table.ids, table.sires, table.dams)
    )
    table.lines = [table.lines[row] for row in rows]
    table.numbered = None
    are_there = "is" if len(told) == 1 else "are"
    return f"{counted(len(told), 'line')} that {are_there} there before, with the same parents: {some_of(told)}"


def is_same(table: PedigreeTable, one: int, other: int, unknown: UnknownParents) -> bool:
    """Have two lines the same parents, in the same family if there are any?"""
    pairs = [(column[one], column[other]) for column in (table.sires, table.dams)]
    is_family = not table.families or table.families[one] == table.families[other]
    return is_family and all(there == here or (there in unknown and here in unknown) for there, here in pairs)


def line_again(table: PedigreeTable, one: int, other: int) -> str:
    there, here = (f"{table.sires[row] or '0'} and {table.dams[row] or '0'}" for row in (one, other))
    if table.families and table.families[one] != table.families[other]:
        there, here = (f"family {table.families[row]}" for row in (one, other))
    return f"line {table.lines[other]}: {table.ids[other]} has another line, {table.lines[one]} (there {there}; here {here})"


def without_line(table: PedigreeTable, links: Links, unknown: UnknownParents) -> dict[str, int]:
    """The parents that have no line and aren't unknown, in the order of the lines, each with its number."""
    parents = np.column_stack([links.sires, links.dams]).ravel()
    numbers, first = np.unique(parents[links.places[parents] == UNKNOWN], return_index=True)
    ordered = numbers[np.argsort(first)].tolist()
    columns = (table.ids, table.sires, table.dams)
    cells = (divmod(cell, len(table.ids)) for cell in links.cells[ordered].tolist())
    texts = dict(zip((columns[column][row] for column, row in cells), ordered))
    words = unknown.among(texts.keys())
    return {text: number for text, number in texts.items() if text not in words}


def look_at(
    table: PedigreeTable, rows: list[int], lacking: Sequence[str], unknown: UnknownParents, founders: Founders
) -> None:
    """A mistake where parents without a line may be other animals, or no animals. `rows` are those that have such
    ones."""
    comment = next((parent for parent in lacking if parent.startswith("#")), None)
    if comment:
        raise Mistake(
            f"the parent '{comment}' has no line, since a line that begins with # is a comment: put its id into "
            "quotation marks where its line begins, or write it otherwise"
        )
    refuse_other_column(table, lacking)
    if not founders.may_be_alike:
        refuse_spelled(table, {*rows, *odd_numbers(table.ids)}, unknown)
    if lacking and not (founders.may_be_alike or founders.may_be_any):
        refuse_doubtful(table, rows, unknown)


def refuse_spelled(table: PedigreeTable, rows: set[int], unknown: UnknownParents) -> None:
    """A mistake where a parent may be an animal whose id is written otherwise."""
    if rows:
        from gudokeyi.reconcile.pedigree_links import refuse_alike

        refuse_alike(
            {table.ids[row]: animal_of(table, row, unknown) for row in sorted(rows)}, dict.fromkeys(table.ids).keys()
        )


def refuse_doubtful(table: PedigreeTable, rows: list[int], unknown: UnknownParents) -> None:
    """A mistake where parents without a line may be no founders."""
    from gudokeyi.reconcile.doubtful_founders import founders_in_doubt

    animals = [animal_of(table, row, unknown) for row in rows]
    doubtful = founders_in_doubt(animals, counts_of(table, unknown), dict.fromkeys(table.ids).keys(), unknown)
    if doubtful:
        raise ImportRefused(*doubtful)


def odd_numbers(ids: Sequence[str]) -> list[int]:
    """The rows whose ids are numbers that aren't written as ids usually are."""
    if OF_NUMBERS.isdisjoint({*map(FIRST_LETTER, ids)}) or "".join(ids).isdigit():
        return []
    return [row for row, id in enumerate(ids) if id[0] in OF_NUMBERS and not id.isdigit() and is_odd(id)]


def is_odd(id: str) -> bool:
    return is_as_number(id) or CUT.fullmatch(id) is not None


def animal_of(table: PedigreeTable, row: int, unknown: UnknownParents) -> SheetAnimal:
    from gudokeyi.ingest.animals import SheetAnimal

    sire, dam = ("" if parent in unknown else parent for parent in (table.sires[row], table.dams[row]))
    return SheetAnimal(table.ids[row], table.lines[row], sire=sire, dam=dam)


def counts_of(table: PedigreeTable, unknown: UnknownParents) -> Counts:
    from gudokeyi.reconcile.doubtful_founders import Counts

    parents = {*table.sires, *table.dams}
    words = unknown.among(parents)
    with_parents = sum(sire not in words or dam not in words for sire, dam in zip(table.sires, table.dams))
    return Counts(len(table.ids), with_parents, len(parents - words))


def refuse_other_column(table: PedigreeTable, lacking: Sequence[str]) -> None:
    """A mistake where a column that isn't read has more of the parents than that of the ids."""
    if not lacking or not table.others:
        return
    found = {*table.sires, *table.dams}.intersection(table.ids)
    parents = found.union(lacking)
    counts = {title: len(parents.intersection(cells)) for title, cells in table.others().items()}
    best = max(counts, key=lambda title: counts[title], default="")
    if counts.get(best, 0) > len(found):
        from gudokeyi.ingest.findings.files import ParentsInColumn

        raise ImportRefused(ParentsInColumn(best, counts[best], table.titles[Field.ID], len(found), len(parents)))


def refuse_cycle(pedigree: BarePedigree) -> None:
    lineage = pedigree.lineage
    if lineage.is_in_order or not (lineage.depths == UNKNOWN).any():
        return
    cycle = lineage.cycle()
    if len(cycle) == 1:
        raise Mistake(f"{pedigree.where(cycle[0])} is a parent of itself: mend its line")
    if cycle:
        named = some_of([pedigree.where(place) for place in cycle])
        raise Mistake(
            f"{counted(len(cycle), 'animal')} are their own ancestors, each a parent of the one before: {named}"
        )
