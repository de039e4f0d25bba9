"""Tables of animals that left which stand beside a list, with columns of their own, or on another worksheet: nothing of
them is read as what rows of the list say."""
from __future__ import annotations

from collections.abc import Iterator, Sequence
from dataclasses import dataclass, replace
from typing import Container

from gudokeyi.domain.kinds import Field
from gudokeyi.ingest.exits_below import is_title_of_exits
from gudokeyi.ingest.findings.exit_tables import ExitsBeside, WorksheetOfExits
from gudokeyi.ingest.relatives import names_other
from gudokeyi.ingest.sheets import Sheet, SheetRow
from gudokeyi.ingest.texts import nearly, nearly_all, plain
from gudokeyi.ingest.titles import KNOWN_TITLES
from gudokeyi.ingest.exit_words import says_exits
from gudokeyi.ingest.workbooks import RowsOfExits

# so many animals a table has that no empty column parts from the list
SEVERAL = 2
KNOWN_IDS = {*KNOWN_TITLES[Field.ID]}
KNOWN_PARENTS = {*KNOWN_TITLES[Field.SIRE], *KNOWN_TITLES[Field.DAM]}


@dataclass(frozen=True)
class Table:
    """The place of the first column of a table beside a list, and the ids there with their lines."""

    at: int
    ids: Sequence[tuple[int, str]]


def without_table_beside(sheet: Sheet) -> Sheet:
    """The sheet without the cells of a table of animals that left, which is told."""
    table = next(tables_beside(sheet), None)
    if table is None:
        return sheet
    at, (line, id) = table.at, table.ids[0]
    titles = [*sheet.titles[:at], *[""] * len(sheet.titles[at:])]
    rows = [SheetRow(row.line, row.cells[:at]) for row in sheet.rows if any(row.cells[:at])]
    found = ExitsBeside(tuple(filter(None, sheet.titles[at:])), len(table.ids), id, line)
    return replace(sheet, titles=titles, rows=rows, kept={}, unread=[*sheet.unread, found])


def tables_beside(sheet: Sheet) -> Iterator[Table]:
    of_ids = next((at for at, title in enumerate(sheet.titles) if plain(title) in KNOWN_IDS), None)
    if of_ids is None:
        return
    for at in range(of_ids + 2, len(sheet.titles)):
        title = sheet.titles[at]
        if (plain(title) in KNOWN_IDS or not title or says_exits(title)) and tells_of_exits(sheet, at):
            if table := table_at(sheet, at, of_ids):
                yield table


def tells_of_exits(sheet: Sheet, at: int) -> bool:
    """Does a title from a column on name exits, or one above these?"""
    named = any(map(is_title_of_exits, sheet.titles[at:])) and sheet.titles[at:] != [sheet.titles[at]]
    return named or any(map(says_exits, sheet.above[at:]))


def table_at(sheet: Sheet, at: int, of_ids: int) -> Table | None:
    """The table that begins with a column: its ids stand at the top, one below the other, in rows of other animals."""
    found = [(place, cell) for place, cell in enumerate(sheet.column(at)) if cell]
    # it may have a line of titles of its own below that of the list
    found = found[1:] if found and plain(found[0][1]) in KNOWN_IDS else found
    own, texts = nearly_all(sheet.column(of_ids)), {nearly(cell) for _, cell in found}
    if not are_at_the_top([place for place, _ in found]) or len(texts) < len(found) or 2 * len(texts) > len(own):
        return None
    if any(own[place] == nearly(cell) for place, cell in found):
        return None
    has_gap = not sheet.titles[at - 1] and not any(sheet.column(at - 1))
    are_known = texts <= {*own} and len(texts) >= (1 if has_gap else SEVERAL)
    if not are_known and not (has_gap and plain(sheet.titles[at]) in KNOWN_IDS):
        return None
    return Table(at, [(sheet.rows[place].line, cell) for place, cell in found])


def are_at_the_top(places: list[int]) -> bool:
    return bool(places) and places[0] <= 1 and places[-1] - places[0] == len(places) - 1


def worksheets_told(of_exits: RowsOfExits, living: Container[str]) -> Iterator[WorksheetOfExits]:
    """What is told of other worksheets whose titles tell of exits; `living` are the ids of animals that count as
    such."""
    for title, rows in of_exits.items():
        first = [plain(cell) for _, cells in rows[:1] for cell in cells]
        # those of young name the dams
        if names_other(title) or not KNOWN_PARENTS.isdisjoint(first) and KNOWN_IDS.isdisjoint(first):
            continue
        found = [(line, id) for line, cells in rows if (id := next((cell for cell in cells if cell in living), ""))]
        if found:
            yield WorksheetOfExits(title, len(found), found[0][1], found[0][0])
