"""Columns beside that of the owners which tell of these too: their first names, and keepers where no owner stands."""
from __future__ import annotations

import collections
import functools
from collections.abc import Iterator, Mapping, Sequence
from typing import Container

from gudokeyi.domain.kinds import Field
from gudokeyi.ingest.findings.owners import OwnersBeside, OwnersOfOneName
from gudokeyi.ingest.owners_by_cells import names_owners
from gudokeyi.ingest.sheets import Sheet, SheetRow, cell_of
from gudokeyi.ingest.texts import listed, plain
from gudokeyi.ingest.titles import BETWEEN_WORDS, KNOWN_TITLES
from gudokeyi.ingest.unknown_parents import names_no_owner

# so many columns are looked at, and so many lines are told
MOST_COLUMNS, MOST_LINES = 20, 20

# First names.

FIRST_NAMES = [plain(word) for word in listed("first name, forename, given name, Vorname, prénom")]
KEEPERS = [plain(word) for word in listed("keeper, keeper's, Halter, Halters, Tierhalter, Tierhalters, détenteur")]
OWNERS = KEEPERS + [
    plain(word) for word in listed("owner, owner's, Besitzer, Besitzers, Eigentümer, Eigentümers, propriétaire")
]
# what stands between both, without blanks
LINKS = "", "of", "ofthe", "des", "du"
OF_OWNERS = {name + link + owner for name in FIRST_NAMES for owner in OWNERS for link in LINKS}
OF_OWNERS |= {owner + name for name in FIRST_NAMES for owner in OWNERS}
# titles of owners that are no persons
FARMS = {
    plain(word) for word in listed(
        "herd, flock, farm, holding, Betrieb, élevage, exploitation, herd name, flock name, farm name, name of farm, "
        "Betriebsname, Name des Betriebs, nom de l'élevage, nom élevage, nom de l'exploitation, nom exploitation"
    )
}  # fmt: skip
PERSONS = {*KNOWN_TITLES[Field.OWNER]} - FARMS
SURNAMES = {plain(word) for word in listed("surname, last name, family name, Nachname, Familienname, nom de famille")}
# those of others who have first names too
OTHERS = PERSONS | {
    plain(word) for word in listed(
        "name, nom, breeder, Züchter, Züchterin, éleveur, naisseur, buyer, Käufer, acheteur, member, Mitglied, membre"
    )
}  # fmt: skip


def first_names_column(sheet: Sheet, columns: Mapping[str, int]) -> int | None:
    """The column of the owners' first names: its title says so, or it stands beside that of the owners and is of nobody
    else."""
    at = columns.get(Field.OWNER)
    if at is None:
        return None
    titles = [plain(title) for title in sheet.titles]
    found = [one for one, title in enumerate(titles) if one not in columns.values() and is_first_name(title)]
    named = [one for one in found if titles[one] in OF_OWNERS and of_keeper(titles[one]) is of_keeper(titles[at])]
    beside = [one for one in (at + 1, at - 1) if one in found and titles[one] in FIRST_NAMES]
    likely = named if len(named) == 1 else [one for one in beside if not is_of_another(sheet, columns, one, at)]
    return likely[0] if likely and titles[at] not in FARMS else None


# a title that animals' names have too
NAMES = {"name", "nom"}


def persons_name(sheet: Sheet) -> int | None:
    """The only column `Name` of whoever has a first name in the next one, where another has the animals' names."""
    titles = [plain(title) for title in sheet.titles]
    found = [at for at, title in enumerate(titles[:-1]) if title in NAMES and titles[at + 1] in FIRST_NAMES]
    of_animals = {*titles} & {*KNOWN_TITLES[Field.NAME]} - NAMES
    return found[0] if len(found) == 1 and of_animals else None


def is_first_name(title: str) -> bool:
    return title in OF_OWNERS or title in FIRST_NAMES


def of_keeper(title: str) -> bool:
    return any(word in title for word in KEEPERS)


def is_of_another(sheet: Sheet, columns: Mapping[str, int], at: int, of_owners: int) -> bool:
    """May first names beside the owners' be of whom the column at their other side has? One of others has whole names
    where its cells have several words."""
    other = 2 * at - of_owners
    title = plain(sheet.titles[other]) if 0 <= other < len(sheet.titles) else ""
    if other > at or title not in OTHERS:
        return title in SURNAMES
    cells = {*sheet.column(other)} - {""}
    return other == columns.get(Field.NAME) or 2 * sum(" " in cell for cell in cells) <= len(cells)


def owners_named(
    rows: Sequence[SheetRow], sheet: Sheet, columns: Mapping[str, int], marks: Container[str]
) -> dict[int, str]:
    """The owners with their first names, in the order of the columns, by the places of rows; those that have them
    already stay. `marks` stand for the first name above."""
    of_first = first_names_column(sheet, columns)
    if of_first is None:
        return {}
    at, above, found = columns[Field.OWNER], "", dict[int, str]()
    joined = functools.cache(functools.partial(with_first_name, is_behind=of_first > at))
    for place, row in enumerate(rows):
        cell = cell_of(row, of_first)
        above = above if cell.casefold() in marks else cell
        if above:
            found[place] = joined(cell_of(row, at), above)
    return found


def with_first_name(owner: str, first: str, is_behind: bool) -> str:
    if is_none(owner) or is_none(first) or words(first) <= words(owner):
        return owner
    return f"{owner} {first}" if is_behind else f"{first} {owner}"


def is_none(cell: str) -> bool:
    return not cell or names_no_owner(cell)


def words(text: str) -> set[str]:
    return {plain(word) for word in BETWEEN_WORDS.split(text)} - {""}


# What is told.


def owners_beside(sheet: Sheet, columns: Mapping[str, int]) -> Iterator[OwnersBeside | OwnersOfOneName]:
    """Rows without an owner in which a keeper or a first name stands, and first names that aren't read."""
    at = columns.get(Field.OWNER)
    if at is None:
        return
    titles = [(one, plain(title)) for one, title in enumerate(sheet.titles) if one not in columns.values()]
    first = first_names_column(sheet, columns)
    persons = [one for one, title in titles if title in PERSONS or one == first or names_owners(sheet, one)]
    for one in persons[:MOST_COLUMNS]:
        yield from without_owner(sheet, at, one, one != first)
    may_be_read = first is None and plain(sheet.titles[at]) not in FARMS
    unread = [one for one, title in titles if may_be_read and title in FIRST_NAMES]
    # those of the animals, or of whoever stands with the animals' names in one column
    unread = [one for one in unread if one - 1 != columns.get(Field.NAME) or one + 1 == at]
    for one in unread[:MOST_COLUMNS]:
        yield from of_one_name(sheet, at, one)


def without_owner(sheet: Sheet, at: int, beside: int, may_be_read: bool) -> Iterator[OwnersBeside]:
    owners, names = sheet.column(at), sheet.column(beside)
    nobody, somebody = {*filter(is_none, {*owners})}, {name for name in {*names} if not is_none(name)}
    both = zip(sheet.rows, owners, names) if nobody and somebody else ()
    lacking = [(row.line, name) for row, owner, name in both if owner in nobody and name in somebody]
    if lacking:
        others = tuple(line for line, _ in lacking[1:MOST_LINES])
        yield OwnersBeside(sheet.titles[at], sheet.titles[beside], len(lacking), *lacking[0], others, may_be_read)


def of_one_name(sheet: Sheet, at: int, of_first: int) -> Iterator[OwnersOfOneName]:
    """The first owner who stands beside several first names."""
    names = collections.defaultdict[str, dict[str, int]](dict)
    for row, owner, first in zip(sheet.rows, sheet.column(at), sheet.column(of_first)):
        if not is_none(owner) and not is_none(first):
            names[owner].setdefault(first, row.line)
    several = [(owner, [*firsts.items()]) for owner, firsts in names.items() if len(firsts) > 1]
    if several:
        owner, [(one, line), (other, other_line), *_] = several[0]
        titles = sheet.titles[at], sheet.titles[of_first]
        yield OwnersOfOneName(*titles, len(several), owner, one, line, other, other_line)
