"""The columns of a sheet, with all that is told of those which aren't read and have what belongs to animals."""
from __future__ import annotations

from collections.abc import Collection, Mapping
from dataclasses import replace
from typing import Container

from gudokeyi.domain.kinds import Field
from gudokeyi.ingest.columns import Columns, find_columns
from gudokeyi.ingest.columns_said_none import NoneSaid, with_said_none
from gudokeyi.ingest.entry_days import tell_entry_days
from gudokeyi.ingest.findings.columns import ColumnLost
from gudokeyi.ingest.genetic_dams import tell_carriers, with_genetic_dam, without_carriers
from gudokeyi.ingest.likely_exits import tell_likely_exits
from gudokeyi.ingest.marks_and_corrections import tell_marks
from gudokeyi.ingest.owners_in_turn import read_owners_in_turn
from gudokeyi.ingest.parents_by_genes import tell_parents_by_genes
from gudokeyi.ingest.second_owners import tell_second_owners
from gudokeyi.ingest.sheets import Sheet
from gudokeyi.ingest.texts import plain
from gudokeyi.ingest.titles import NEEDED


def columns_told(
    sheet: Sheet, given: Mapping[str, str], before: Mapping[str, str], none: NoneSaid, unknown: Container[str],
    ids: Collection[str], own: Container[str] = (),
) -> Columns:  # fmt: skip
    """`own` are the titles of the columns that the society keeps, as they are compared."""
    before = with_genetic_dam(sheet, given, before, lambda one: find_columns(one, given, before, unknown, ids))
    columns = with_said_none(sheet, given, before, none, unknown, ids)
    if kept := own_read(columns, given, before, own):
        masked = replace(sheet, titles=["" if plain(title) in own else title for title in sheet.titles])
        others = dict(find_columns(masked, given, before, unknown, ids).titles_found())
        without = {**before, **{name: others.get(name, "") for name in kept}}
        columns = with_said_none(sheet, given, without, none, unknown, ids)
        lost = [name for name in kept if name not in others and before.get(name)]
        columns.notes += [ColumnLost(Field(name), before[name], "") for name in lost]
    without_carriers(columns)
    tell_carriers(columns, unknown)
    tell_parents_by_genes(columns, unknown)
    read_owners_in_turn(columns)
    tell_second_owners(columns, unknown)
    tell_marks(columns, unknown)
    tell_likely_exits(columns, {**before, **given})
    tell_entry_days(columns, {**before, **given})
    return columns


def own_read(
    columns: Columns, given: Mapping[str, str], before: Mapping[str, str], own: Container[str]
) -> list[str]:
    """The fields that are read from columns which the society keeps, though nobody named these, nor were they read
    before."""
    found = [(name, title) for name, title in columns.titles_found() if name not in NEEDED and name not in given]
    return [name for name, title in found if plain(title) in own and plain(before.get(name, "")) != plain(title)]
