"""Two columns, as `m` and `w`, in one of which each animal has a mark for its sex: they aren't read, and it is told."""
from __future__ import annotations

from collections.abc import Collection

from gudokeyi.ingest.findings.sexes import SexMarksUnread
from gudokeyi.ingest.sheets import Sheet
from gudokeyi.ingest.words import COUNTED_SEXES, KNOWN_SEXES, KNOWN_YES, sex_word


def columns_of_sex_marks(sheet: Sheet, read: Collection[int]) -> list[int]:
    """That of males and that of females, which aren't read, where most rows have a mark in one of them."""
    titles = enumerate(sheet.titles)
    sexes = [(at, KNOWN_SEXES.get(sex_word(title), COUNTED_SEXES.get(title))) for at, title in titles if at not in read]
    males, females = ([at for at, its in sexes if its == sex] for sex in "MF")
    if len(males) != 1 or len(females) != 1:
        return []
    both = [*map(sheet.column, (*males, *females))]
    are_marks = all(is_mark(cell) for cells in both for cell in {*cells} - {""})
    count = sum(bool(one) != bool(other) for one, other in zip(*both))
    return [*males, *females] if are_marks and 2 * count > len(sheet.rows) else []


def is_mark(cell: str) -> bool:
    return len(cell) == 1 or cell.casefold() in KNOWN_YES


def marks_told(sheet: Sheet, read: Collection[int]) -> list[SexMarksUnread]:
    if not (places := columns_of_sex_marks(sheet, read)):
        return []
    cells = zip(sheet.rows, *map(sheet.column, places))
    lines = [row.line for row, *marks in cells if any(marks)]
    male, female = (sheet.titles[at] for at in places)
    return [SexMarksUnread(male, female, len(lines), lines[0])]
