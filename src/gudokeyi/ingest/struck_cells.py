"""What is told of texts that a workbook has struck through: of animals' rows, and of cells whose rows aren't so."""
from __future__ import annotations

from collections.abc import Collection

from gudokeyi.ingest.columns import letters_of
from gudokeyi.ingest.findings.columns import SheetFinding
from gudokeyi.ingest.findings.files import StruckCell, StruckCells, StruckThrough
from gudokeyi.ingest.sheets import Sheet

# so many lines of such rows are told, and so many cells
MOST_LINES, MOST_CELLS = 20, 3


def struck_told(sheet: Sheet, lines: Collection[int]) -> list[SheetFinding]:
    """What is told of the animals' rows, which have these lines, and of the titles."""
    told = list[SheetFinding]()
    if rows := [line for line in sheet.struck.rows if line in lines]:
        told.append(StruckThrough(len(rows), rows[0], tuple(rows[:MOST_LINES])))
    there = [one for one in sheet.struck.cells.items() if one[0][0] in lines or one[0][0] == sheet.line]
    if there:
        cells = [StruckCell(title_of(sheet, at), line, text) for (line, at), text in there[:MOST_CELLS]]
        told.append(StruckCells(len(there), tuple(cells)))
    return told


def title_of(sheet: Sheet, at: int) -> str:
    """That of a column, or the letters by which a spreadsheet calls it."""
    title = sheet.titles[at] if at < len(sheet.titles) else ""
    return title or letters_of(at)
