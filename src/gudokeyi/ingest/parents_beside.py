"""What is told of parents by other columns than those that are read: whose ids or names these have, and of whom a row
has an id and a name that are two different animals of the list."""
from __future__ import annotations

import collections
from collections.abc import Collection, Mapping
from typing import TYPE_CHECKING, Container, NamedTuple

from gudokeyi.domain.findings import Report
from gudokeyi.domain.kinds import Field, Role
from gudokeyi.domain.messages import MOST_NAMED
from gudokeyi.ingest.animals import SheetAnimal
from gudokeyi.ingest.findings.columns import ParentsBeside, ParentsFromOther
from gudokeyi.ingest.findings.rows import ParentNamedOtherwise
from gudokeyi.ingest.names_for_ids import names_for_ids
from gudokeyi.ingest.parent_titles import PARENTS, columns_of_parent
from gudokeyi.ingest.sex_marks import columns_of_sex_marks

if TYPE_CHECKING:
    from gudokeyi.ingest.columns import Columns

# so many lines are told
MOST_LINES = 20


def tell_parents_from_others(columns: Columns, parents: list[Field]) -> None:
    """Parents whose ids stand in a column with another title than the usual ones."""
    for name in (one for one in parents if one in columns.found):
        at, usual = columns.found[name], columns_of_parent(columns.sheet, name)
        others = [one for one in usual if columns.is_free(one)]
        if others and at not in usual:
            columns.notes.append(ParentsFromOther(name, columns.title(at), columns.title(others[0])))


def tell_parents_beside(columns: Columns, unknown: Container[str]) -> None:
    """Parents whose names stand in a column of their own, where those of others have their ids, and aren't read."""
    sheet, found = columns.sheet, columns.found
    for name in (one for one in PARENTS if one in columns.found):
        read = {sheet.rows[place].line for place in names_for_ids(sheet.rows, sheet, found, name, unknown)}
        marks = [] if Field.SEX in found else columns_of_sex_marks(sheet, found.values())
        for at in (at for at in columns.of_parent(name) if at not in marks):
            both = zip(columns.sheet.rows, columns.cells(columns.found[name]), columns.cells(at))
            lacking = [(row.line, beside) for row, id, beside in both if id in unknown and beside not in unknown]
            lacking = [one for one in lacking if one[0] not in read] if lacking else []
            if lacking and 2 * len(lacking) <= len(columns.sheet.rows):
                title, beside = columns.title(columns.found[name]), columns.title(at)
                others = tuple(line for line, _ in lacking[1:MOST_LINES])
                columns.notes.append(ParentsBeside(title, beside, len(lacking), *lacking[0], others))


class NamedOtherwise(NamedTuple):
    """The id of a parent in a line, and a name beside it that others have: the ids of the first of them."""

    line: int
    parent: str
    text: str
    others: tuple[str, ...]


def tell_parents_named_otherwise(columns: Columns, animals: Mapping[str, SheetAnimal], report: Report) -> None:
    beside = [(role, at) for role in Role if role in columns.found for at in columns.of_parent(Field(role))]
    if not beside or Field.NAME not in columns.found:
        return
    names = {id: animal.name for id, animal in animals.items() if animal.name}
    for role, at in beside:
        found = named_otherwise(columns, columns.found[role], at, names)
        by_line = {animal.line: animal.id for animal in animals.values()} if found else {}
        for line, parent, text, others in found:
            if line in by_line:
                told = ParentNamedOtherwise(role, parent, names[parent], columns.title(at), text, others)
                report.add(line, by_line[line], told)


def named_otherwise(columns: Columns, of_ids: int, of_names: int, names: Mapping[str, str]) -> list[NamedOtherwise]:
    """Those of a column of ids and one of names; none where fewer names are those of the ids."""
    ids, texts = columns.cells(of_ids), columns.cells(of_names)
    both = [at for at, (id, text) in enumerate(zip(ids, texts)) if text and id in names]
    unlike = [at for at in both if texts[at] != names[ids[at]]]
    unlike = [at for at in unlike if texts[at].casefold() != names[ids[at]].casefold()]
    by_name = ids_by_name(names, {texts[at].casefold() for at in unlike})
    found = [at for at in unlike if texts[at].casefold() in by_name]
    if len(found) > len(both) - len(unlike):
        return []
    rows, others = columns.sheet.rows, {name: tuple(those[:MOST_NAMED]) for name, those in by_name.items()}
    return [NamedOtherwise(rows[at].line, ids[at], texts[at], others[texts[at].casefold()]) for at in found]


def ids_by_name(names: Mapping[str, str], wanted: Collection[str]) -> dict[str, list[str]]:
    """The ids of the animals that have one of these names, which are in small letters."""
    found = collections.defaultdict[str, list[str]](list)
    for id, name in zip(names, map(str.casefold, names.values())) if wanted else ():
        if name in wanted:
            found[name].append(id)
    return found
