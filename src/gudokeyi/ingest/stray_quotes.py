"""Quotation marks alone in cells of a text file, which people write for the cell above, or that begin a name in one row
and end one in a later: two of them read as a text with all that stands between them, be it the rest of a row or whole
rows."""
from __future__ import annotations

import csv
import io
import re
from typing import NamedTuple


class Doubled(NamedTuple):
    """A text in which marks are doubled as they have to be: the first row with some, and how many rows have them."""

    text: str
    first: int
    rows: int


def alone(separator: str) -> re.Pattern[str]:
    """A mark alone in its cell."""
    return re.compile(rf'(?<![^{separator}\r\n])"(?![^{separator}\r\n])')


def with_marks_doubled(text: str, separator: str, titles: int) -> Doubled | None:
    """The text where rows can be read so that each has as many cells as there are titles, and can't as they stand."""
    pattern = alone(separator)
    if '"' not in text or not pattern.search(text):
        return None
    lines = io.StringIO(text, newline="").readlines()
    reader = csv.reader(lines, delimiter=separator, strict=True)
    begins, row, first, rows = 0, 1, 0, 0
    try:
        for cells in reader:
            those, ends = lines[begins : reader.line_num], reader.line_num
            doubled = [pattern.sub('""""', line) for line in those]
            is_other = len(those) > 1 or len(cells) < titles
            if is_other and begins_with_end(cells, separator) and are_whole(doubled, separator, titles):
                lines[begins:ends] = doubled
                first, rows = first or row, rows + sum(map(bool, map(pattern.search, those)))
                row += len(those) - 1
            begins, row = ends, row + 1
    except csv.Error:
        # it can't be read as it stands, and is told so
        return None
    return Doubled("".join(lines), first, rows) if rows else None


def with_rows_parted(text: str, separator: str, titles: int) -> Doubled | None:
    """The text without a mark in one line and the next mark in a later one, between which whole rows stand, as
    `"Tasso` and `Ursa"`: each line has as many cells as there are titles."""
    lines = io.StringIO(text, newline="").readlines()
    reader = csv.reader(lines, delimiter=separator, strict=True)
    begins, row, first, rows = 0, 1, 0, 0
    try:
        for _ in reader:
            those = lines[begins : reader.line_num]
            if len(those) > 1 and are_rows_between(those, separator, titles):
                lines[begins : reader.line_num] = [line.replace('"', "") for line in those]
                first, rows = first or row, rows + len(those)
                row += len(those) - 1
            begins, row = reader.line_num, row + 1
    except csv.Error:
        return None
    return Doubled("".join(lines), first, rows) if rows else None


def are_rows_between(lines: list[str], separator: str, titles: int) -> bool:
    """Are lines whole rows, of which the first and the last have one mark each?"""
    marks = [line.count('"') for line in lines]
    return marks == [1, *[0] * (len(lines) - 2), 1] and all(line.count(separator) == titles - 1 for line in lines)


def begins_with_end(cells: list[str], separator: str) -> bool:
    """Does a cell begin with what ends one?"""
    return any(cell[:1] in (separator, "\r", "\n") for cell in cells if cell)


def are_whole(lines: list[str], separator: str, titles: int) -> bool:
    """Is each line a row by itself, with all its cells, or empty?"""
    try:
        parted = [next(csv.reader([line], delimiter=separator, strict=True)) for line in lines]
        return all(len(cells) in (0, titles) for cells in parted)
    except csv.Error:
        return False
