"""Columns of parents and of the sexes whose titles are letters alone, as `V`, `M` and `G`: they are read where their
cells prove it."""
from __future__ import annotations

import collections
from collections.abc import Collection, Mapping
from typing import TYPE_CHECKING, Container, NamedTuple

from gudokeyi.domain.kinds import Field
from gudokeyi.ingest.fields_unread import SOME, looks_like_sexes
from gudokeyi.ingest.findings.columns_by_cells import ParentsByCells, SexesByCells
from gudokeyi.ingest.findings.sheets import MOST_SHOWN
from gudokeyi.ingest.parent_titles import PARENTS
from gudokeyi.ingest.texts import nearly, plain
from gudokeyi.ingest.words import COUNTED_SEXES, KNOWN_SEXES, sex_word

if TYPE_CHECKING:
    from gudokeyi.ingest.columns import Columns

# the letters of Vater and Mutter, père and mère, sire and dam; and those of Geschlecht, sexe and sex
PAIRS = (("v", "m"), ("p", "m"), ("s", "d"))
OF_SEXES = {"g", "s"}
SEX_OF = {Field.SIRE: "M", Field.DAM: "F"}
# so many in ten of the words have to be known, and of the parents to have their sex
NEARLY_ALL = 9


class Links(NamedTuple):
    """Of a column how many cells may name parents, how many of them are ids of the list, and the sexes of these."""

    said: int
    found: int
    sexes: collections.Counter[str]


def read_by_cells(columns: Columns, named: Mapping[str, str], unknown: Container[str]) -> None:
    """Finds the columns of fields of which nobody says where they are, once that of the ids is found."""
    if Field.SEX not in columns.found and Field.SEX not in named:
        find_sexes(columns)
    is_wanted = all(name not in columns.found and name not in named for name in PARENTS)
    if is_wanted and Field.ID in columns.found and Field.SEX in columns.found:
        find_parents(columns, unknown)


def find_sexes(columns: Columns) -> None:
    free = [at for at, title in enumerate(columns.sheet.titles) if plain(title) in OF_SEXES and columns.is_free(at)]
    found = [at for at in free if are_sexes(columns.counts(at))]
    if len(found) == 1:
        columns.found[Field.SEX] = found[0]
        texts = tuple([*columns.counts(found[0])][:MOST_SHOWN])
        columns.notes.append(SexesByCells(columns.title(found[0]), texts))


def are_sexes(cells: collections.Counter[str]) -> bool:
    known = sum(cells[cell] for cell in cells if sex_of(cell))
    return cells.total() >= SOME and 10 * known >= NEARLY_ALL * cells.total() and looks_like_sexes("", cells)


def sex_of(text: str) -> str:
    return KNOWN_SEXES.get(sex_word(text), "") or COUNTED_SEXES.get(text, "")


def find_parents(columns: Columns, unknown: Container[str]) -> None:
    """The only pair of such columns, both of which have parents of their sex."""
    pairs = [[one_titled(columns, letter) for letter in letters] for letters in PAIRS]
    links = links_of(columns, {at for pair in pairs for at in pair if at is not None}, unknown)
    both = [dict(zip(PARENTS, pair)) for pair in pairs]
    proved = [
        pair for pair in both
        if all(at is not None and are_parents(links[at], SEX_OF[field]) for field, at in pair.items())
    ]  # fmt: skip
    for field, at in proved[0].items() if len(proved) == 1 else ():
        assert at is not None
        columns.found[field] = at
        columns.notes.append(ParentsByCells(field, columns.title(at), links[at].found, links[at].said))


def one_titled(columns: Columns, letter: str) -> int | None:
    """The only column with this title, where it has no field."""
    found = columns.by_title.get(letter, [])
    return found[0] if len(found) == 1 and columns.is_free(found[0]) else None


def links_of(columns: Columns, places: Collection[int], unknown: Container[str]) -> dict[int, Links]:
    ids, sexes = (columns.cells(columns.found[name]) for name in (Field.ID, Field.SEX))
    sex_by_id = {nearly(id): sex_of(sex) for id, sex in zip(ids, sexes) if id}
    return {at: links_to(sex_by_id, columns.cells(at), unknown) for at in places}


def links_to(sex_by_id: Mapping[str, str], cells: Collection[str], unknown: Container[str]) -> Links:
    said = [nearly(cell) for cell in cells if cell and cell not in unknown]
    found = [sex_by_id[cell] for cell in said if cell in sex_by_id]
    return Links(len(said), len(found), collections.Counter(filter(None, found)))


def are_parents(links: Links, sex: str) -> bool:
    """Are most of the cells ids, and nearly all of these animals of that sex?"""
    is_most = links.found >= SOME and 2 * links.found > links.said
    return is_most and 10 * links.sexes[sex] >= NEARLY_ALL * links.sexes.total() > 0
