"""Names of parents that are read where the column of these parents' ids, as `Sire IAR no.`, has nothing."""
from __future__ import annotations

from collections.abc import Mapping, Sequence
from typing import Container

from gudokeyi.domain.kinds import Field
from gudokeyi.ingest.parent_titles import PARENTS, columns_of_parent, names_parent
from gudokeyi.ingest.sheets import Sheet, SheetRow, cell_of


def names_column(sheet: Sheet, columns: Mapping[str, int], parent: Field) -> list[int]:
    """The column with the likeliest title for a parent, which isn't read, beside one that names that parent and has the
    ids."""
    at = columns.get(parent)
    if at is None or not names_parent(sheet.titles[at], parent):
        return []
    usual = columns_of_parent(sheet, parent)
    return [] if at in usual else [one for one in usual if one not in columns.values()][:1]


def names_columns(sheet: Sheet, columns: Mapping[str, int]) -> list[int]:
    return [at for parent in PARENTS for at in names_column(sheet, columns, parent)]


def names_read(sheet: Sheet, columns: Mapping[str, int], unknown: Container[str]) -> list[int]:
    """Those of which a name is read."""
    parents = [one for one in PARENTS if names_for_ids(sheet.rows, sheet, columns, one, unknown)]
    return [at for parent in parents for at in names_column(sheet, columns, parent)]


def names_for_ids(
    rows: Sequence[SheetRow], sheet: Sheet, columns: Mapping[str, int], parent: Field, unknown: Container[str]
) -> dict[int, str]:
    """The names of a parent, by the places of the rows that have no id of it. A name that others have beside an id is
    read where such an id has a row, in which the name is found."""
    for at in names_column(sheet, columns, parent) if Field.ID in columns else ():
        of_ids = columns[parent]
        said = [(place, cell_of(row, of_ids), cell_of(row, at)) for place, row in enumerate(rows)]
        both = [(id, name) for _, id, name in said if name and id and id not in unknown]
        found = {place: name for place, id, name in said if name not in unknown and id in unknown}
        ids = {cell_of(row, columns[Field.ID]) for row in rows} if found else set[str]()
        # other ids may stand there
        same = sum(id == name for id, name in both) + sum(name in ids for name in found.values())
        if 2 * same >= len(both) + len(found):
            return {}
        with_row = {name for id, name in both if id in ids}
        without = {name for _, name in both} - with_row
        return {place: name for place, name in found.items() if name not in without}
    return {}


def with_names_for_ids(sheet: Sheet, columns: Mapping[str, int], unknown: Container[str]) -> dict[int, dict[int, str]]:
    """The names of both, by the places of their columns."""
    parents = [parent for parent in PARENTS if parent in columns]
    found = {columns[parent]: names_for_ids(sheet.rows, sheet, columns, parent, unknown) for parent in parents}
    return {at: names for at, names in found.items() if names}
