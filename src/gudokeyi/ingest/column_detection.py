"""Which columns have the ids, and which may have a field that no title tells of, as their cells show."""
from __future__ import annotations

import collections
import functools
from collections.abc import Collection
from typing import TYPE_CHECKING, Container, NamedTuple

from gudokeyi.domain.kinds import Field
from gudokeyi.domain.spelling import closest
from gudokeyi.ingest.days import DayFault, Unreadable, read_span
from gudokeyi.ingest.findings.columns import IdsCountRows, IdsFromOther, IdsMoved, LikelyColumn
from gudokeyi.ingest.owners_by_cells import names_owners
from gudokeyi.ingest.parent_titles import PARENTS, names_parent
from gudokeyi.ingest.titles import KNOWN_TITLES
from gudokeyi.ingest.texts import nearly, plain
from gudokeyi.ingest.words import KNOWN_EXITS, KNOWN_SEXES, KNOWN_STAYS, has_word, sex_word

if TYPE_CHECKING:
    from gudokeyi.ingest.columns import Columns

# Which column has the ids: in a first sheet the one in which the parents' cells are found, later the one that has the
# ids of the book.

# of so many rows row numbers can be told
FEW = 3
# so many of the cells of a column of ids are different ones
MOSTLY = 0.95
# no number of a row has so many digits
MOST_DIGITS = 10


class Fit(NamedTuple):
    """How well a column of ids fits: how many of the parents' cells are found in it, in these columns; whether it isn't
    one of row numbers; and how likely its title is."""

    found: int
    is_no_row_number: bool
    likely: int
    at: int
    parents: dict[str, int]


class Ids:
    """The cells of a column, among which others are sought as ids are compared."""

    def __init__(self, texts: list[str]) -> None:
        self.texts = texts

    @functools.cached_property
    def cells(self) -> set[str]:
        return {*self.texts} - {""}

    @functools.cached_property
    def near(self) -> set[str]:
        return {nearly(cell) for cell in self.cells}

    def has(self, cell: str) -> bool:
        return cell in self.cells or nearly(cell) in self.near


class IdColumn:
    """Finds the column of the ids of a sheet, and those of the parents that are wanted. `ids` are those of the book,
    and `before` the title that their column had."""

    def __init__(
        self, columns: Columns, wanted: list[Field], unknown: Container[str], ids: Collection[str], before: str
    ) -> None:
        self.columns, self.wanted, self.unknown = columns, wanted, unknown
        self.ids, self.before = ids, before
        # a sheet may have very many columns
        self.titled = {name: parent_columns(columns, name) for name in wanted}

    def find(self) -> None:
        at = self.columns.found.get(Field.ID)
        if at is None and self.ids:
            at = self.of_book()
        if at is not None:
            self.take(at, self.parents(at))
        elif fit := self.best():
            self.take(fit.at, fit.parents)
        else:
            for name in self.wanted:
                self.columns.found |= {name: at for at in self.columns.of_parent(name)[:1]}

    def take(self, at: int, parents: dict[str, int]) -> None:
        self.columns.found[Field.ID] = at
        self.columns.found |= parents

    # -- the ids of the book

    def of_book(self) -> int | None:
        """The column that has the most ids of the book, where these are most of its cells; else the one with the
        title that the book's has."""
        columns = self.columns
        parents = {at for role in PARENTS for at in columns.of_parent(role)}
        # the number that French horses have is called `SIRE`
        parents = {at for at in parents if plain(columns.title(at)) != plain(self.before)}
        free = [at for at, title in enumerate(columns.sheet.titles) if title and columns.is_free(at)]
        free = [at for at in free if at not in parents]
        of_name = columns.found.get(Field.NAME)
        free += [of_name] if of_name is not None and plain(columns.title(of_name)) == plain(self.before) else []
        ids = frozenset(self.ids)
        matches = {at: len(ids.intersection(columns.cells(at))) for at in free}
        titled = [at for at in free if plain(columns.title(at)) == plain(self.before)]
        best = max(free, key=lambda at: (matches[at], at in titled), default=None)
        if best is not None and 2 * matches[best] >= min(len(columns.sheet.rows), len(self.ids)):
            if best not in titled and self.before:
                columns.notes.append(IdsMoved(columns.title(best), self.before))
            return best
        if titled:
            return titled[0]
        columns.lacks_ids = self.before
        return None

    # -- the ids of a first sheet

    def best(self) -> Fit | None:
        """The best of the columns with a usual title; another one where hardly a parent is found in these."""
        columns = self.columns
        usual = columns.titled(KNOWN_TITLES[Field.ID])
        fits = [self.fit(at, -likely) for likely, at in enumerate(usual)]
        parents = {at for fit in fits for at in fit.parents.values()}
        name = columns.found.get(Field.NAME)
        others = [at for at, title in enumerate(columns.sheet.titles) if title and columns.is_free(at)]
        others = [at for at in others if at not in usual and at not in parents]
        best = max(fits, default=None, key=lambda fit: fit[:3])
        more = [self.fit(at, -len(usual)) for at in others if self.are_different(at)]
        other = max(more, default=None, key=lambda fit: fit[:3])
        if other and 2 * other.found > self.links(other) and other.found > 9 * (best.found if best else 0):
            best = other
        if best and usual and best.at != usual[0]:
            columns.notes.append(IdsFromOther(columns.title(best.at), best.found, columns.title(usual[0])))
        # names are no ids unless somebody says so
        if name is not None and self.are_different(name):
            more.append(self.fit(name, -len(usual)))
        texts = [fit.at for fit in more if fit.is_no_row_number and "" not in columns.cells(fit.at)]
        if best and not best.is_no_row_number and not best.found and texts:
            columns.notes.append(IdsCountRows(columns.title(best.at), columns.title(texts[0])))
        return best

    def fit(self, at: int, likely: int) -> Fit:
        ids, parents = Ids(self.columns.cells(at)), self.parents(at)
        named = [self.columns.found.get(name) for name in PARENTS if name not in self.wanted]
        places = [*parents.values(), *(one for one in named if one is not None)]
        return Fit(sum(self.count(one, ids) for one in places), not self.are_row_numbers(at), likely, at, parents)

    def parents(self, at: int) -> dict[str, int]:
        """Beside a column of ids the one of each parent that is wanted: of several the one with the most of these."""
        ids = Ids(self.columns.cells(at))
        likely = {str(name): [one for one in self.titled[name] if one != at] for name in self.wanted}
        return {
            name: max(places, key=lambda one: self.count(one, ids)) if len(places) > 1 else places[0]
            for name, places in likely.items() if places
        }  # fmt: skip

    def count(self, at: int, ids: Ids) -> int:
        """How many parents' cells of a column are ids."""
        # most parents have several offspring
        counts = collections.Counter(self.columns.cells(at))
        return sum(count for cell, count in counts.items() if cell not in self.unknown and ids.has(cell))

    def links(self, fit: Fit) -> int:
        """How many cells name a parent."""
        places = {name: at for name, at in self.columns.found.items() if name in PARENTS} | fit.parents
        return sum(cell not in self.unknown for at in places.values() for cell in self.columns.cells(at))

    def are_different(self, at: int) -> bool:
        return are_different(self.columns.cells(at))

    def are_row_numbers(self, at: int) -> bool:
        return are_row_numbers(self.columns.cells(at))


def parent_columns(columns: Columns, parent: Field) -> list[int]:
    """Those with a usual title, and beside them others that name the parent alone, as `Sire IAR no.`."""
    usual = columns.of_parent(parent)
    titles = enumerate(columns.sheet.titles) if usual else ()
    return usual + [at for at, title in titles if at not in usual and columns.is_free(at) and names_parent(title, parent)]


def are_different(cells: list[str]) -> bool:
    return len({*cells} - {""}) >= MOSTLY * len(cells)


def are_row_numbers(cells: list[str]) -> bool:
    """Does each row have a number that is one more than that of the row above?"""
    cells = [cell for cell in cells if cell]
    numbers = [int(cell) for cell in cells if cell.isdecimal() and len(cell) < MOST_DIGITS]
    steps = sum(after == before + 1 for before, after in zip(numbers, numbers[1:]))
    return len(numbers) >= FEW and len(numbers) >= MOSTLY * len(cells) and steps >= MOSTLY * (len(numbers) - 1)


# Which columns may have a field that no title tells of, as their cells show: for commands that are suggested.

# shorter titles stand in others by chance
LEAST_LETTERS = 4
# how many columns are compared with each other
MOST_COMPARED = 200


class LikelyColumns:
    """Looks at the columns of a sheet that have no field. `unknown` are the words for unknown parents."""

    def __init__(self, columns: Columns, unknown: Container[str]) -> None:
        self.columns, self.unknown = columns, unknown
        titles = columns.sheet.titles
        free = [at for at in range(len(titles)) if titles[at] and columns.is_free(at)]
        self.free = free[:MOST_COMPARED]

    def said(self, at: int) -> list[str]:
        return [cell for cell in self.columns.cells(at) if cell and cell not in self.unknown]

    def of_needed(self, missing: list[Field]) -> tuple[LikelyColumn, ...]:
        """A column for each field that is missing, or none."""
        found: dict[Field, int | None] = {Field.BIRTH: self.of_days()} if Field.BIRTH in missing else {}
        parents = [field for field in PARENTS if field in missing]
        left = [at for at in self.free if at not in found.values()]
        id = self.columns.found.get(Field.ID)
        ids: list[int] = left if id is None else [id]
        links = {at: self.of_parents(at, [one for one in left if one != at]) for at in ids}
        best = max(links, key=lambda at: len(links[at]), default=-1)
        if parents and len(links.get(best, ())) >= len(parents):
            found |= {Field.ID: best} | dict(zip(parents, self.by_sexes(best, links[best])))
        places = [(field, found.get(field)) for field in missing]
        return tuple(LikelyColumn(field, self.columns.title(at)) for field, at in places if at is not None)

    def of_days(self) -> int | None:
        """The column that has most days."""
        days = {at: sum(map(is_day, self.said(at))) for at in self.free}
        likely = [at for at in self.free if 2 * days[at] > len(self.said(at))]
        return max(likely, key=lambda at: days[at]) if likely else None

    def of_parents(self, id: int, columns: list[int]) -> list[int]:
        """The columns most of whose cells are ids of other rows, in their order; none where the ids aren't
        different."""
        ids = [nearly(cell) for cell in self.columns.cells(id)]
        known = {*ids} - {""}
        if not are_different(ids):
            return []
        return [at for at in columns if self.are_parents(at, ids, known)]

    def by_sexes(self, id: int, places: list[int]) -> list[int]:
        """Columns of parents, that of the sires first, where the sheet's sexes tell; else in their order."""
        if Field.SEX not in self.columns.found:
            return places
        ids, sexes = self.columns.cells(id), self.columns.cells(self.columns.found[Field.SEX])
        known = {nearly(one): KNOWN_SEXES.get(sex_word(sex), "") for one, sex in zip(ids, sexes)}
        counts = {at: collections.Counter(known.get(nearly(cell)) for cell in self.said(at)) for at in places}
        return sorted(places, key=lambda at: counts[at]["F"] - counts[at]["M"])

    def are_parents(self, at: int, ids: list[str], known: set[str]) -> bool:
        """Are most cells of a column ids, and hardly any that of its own row?"""
        cells = [
            (id, nearly(cell)) for id, cell in zip(ids, self.columns.cells(at)) if cell and cell not in self.unknown
        ]
        own = sum(id == cell for id, cell in cells)
        return 2 * sum(cell in known for _, cell in cells) > len(cells) and own <= (1 - MOSTLY) * len(cells)

    def of_lost(self, field: Field, before: str) -> str:
        """The title of the column that may have a field which the last sheet had under another one, or nothing: as its
        cells tell, or where they tell nothing, as it is called."""
        tells = {
            Field.SEX: lambda cell: sex_word(cell) in KNOWN_SEXES,
            Field.EXIT: lambda cell: has_word(cell, KNOWN_EXITS | KNOWN_STAYS) or is_day(cell),
            Field.SINCE: is_day,
        }.get(field)
        usual = [title for title in KNOWN_TITLES[field] if len(title) >= LEAST_LETTERS]
        for at in self.free:
            cells = self.said(at)
            if tells and 2 * sum(map(tells, cells)) > len(cells):
                return self.columns.title(at)
            if not tells and any(title in plain(self.columns.title(at)) for title in usual):
                return self.columns.title(at)
        if field is Field.OWNER and (named := [at for at in self.free if names_owners(self.columns.sheet, at)]):
            return self.columns.title(named[0])
        near = [] if tells else closest(before, [self.columns.title(at) for at in self.free], 1)
        return near[0] if near else ""


def is_day(text: str) -> bool:
    try:
        read_span(text, legible=False)
    except Unreadable as error:
        return error.fault is DayFault.TWO_DIGITS
    return True
