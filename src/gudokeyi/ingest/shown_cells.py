"""Cells of a workbook of which the spreadsheet shows another text than is read: numbers with a text behind them or as
percentages, and days without their year, as 5/4 becomes one. What is read suits a field of the book; a column of texts
keeps what is shown."""
from __future__ import annotations

import datetime
import re
from collections.abc import Mapping
from typing import Any

from gudokeyi.ingest.number_formats import MOST_LETTERS, shown_number
from gudokeyi.ingest.texts import clean

# the texts that are shown, by the rows and the places of cells
Shown = dict[tuple[int, int], str]
# the formats that a workbook makes itself are numbered from here on
FIRST_OWN = 164
# a text, a sign behind a backslash, a language, days, months, or one sign alone
TOKENS = re.compile(r'"[^"]*"|\\.|\[[^\]]*\]|[dD]+|[mM]+|.', re.DOTALL)
PLAIN = frozenset(" -/.,")
MONTHS = "January February March April May June July August September October November December".split()


def shown_cells(sheet: Any) -> Shown:
    """Few workbooks have a format that shows a text."""
    formats = formats_with_text(sheet.parent)
    found = Shown()
    for (row, column), cell in sheet._cells.items() if formats else ():
        if number_format := formats.get(cell._style.numFmtId):
            if text := shown_text(cell.value, number_format):
                found[row, column - 1] = text
    for merged in sheet.merged_cells.ranges if found else ():
        text = found.get((merged.min_row, merged.min_col - 1), "")
        for row in range(merged.min_row + 1, merged.max_row + 1) if text else ():
            found.setdefault((row, merged.min_col - 1), text)
    return found


def formats_with_text(book: Any) -> Mapping[int, str]:
    """The formats of a workbook's cells that show a text, or a day without its year, by their numbers."""
    from openpyxl.styles.numbers import BUILTIN_FORMATS

    own = dict(enumerate(book._number_formats, FIRST_OWN))
    used = {style.numFmtId for style in book._cell_styles}
    formats = {number: str(own.get(number) or BUILTIN_FORMATS.get(number) or "") for number in used}
    usual = ((number, one) for number, one in formats.items() if len(one) <= MOST_LETTERS)
    return {number: one for number, one in usual if shown_number(1, one) or shown_day(ANY_DAY, one)}


# a day of which no two parts are alike
ANY_DAY = datetime.date(2003, 4, 5)


def shown_text(value: object, number_format: str) -> str:
    """A cell as it is shown; empty where that is what is read."""
    if isinstance(value, datetime.date):
        return shown_day(value, number_format)
    if isinstance(value, int | float) and not isinstance(value, bool):
        return clean(shown_number(value, number_format))
    return ""


def shown_day(day: datetime.date, number_format: str) -> str:
    """A day by a format that has its day and month, and no year; empty by others."""
    parts, shown = [], set[str]()
    for token in TOKENS.findall(number_format):
        first = token[0].lower()
        if token == ";":
            break
        if first in "dm":
            parts.append(part_of(day, first, len(token)))
            shown.add(first)
        elif first == '"' and len(token) > 1:
            parts.append(token[1:-1])
        elif first == "\\" and len(token) > 1:
            parts.append(token[1])
        elif first in PLAIN:
            parts.append(token)
        elif first != "[":
            # a year, a time, or no day at all
            return ""
    return clean("".join(parts)) if shown == {"d", "m"} and all(parts) else ""


def part_of(day: datetime.date, letter: str, count: int) -> str:
    """The day or the month, by how many letters stand for it; empty where it would be a weekday or a letter."""
    number = day.day if letter == "d" else day.month
    if count < 3:
        return f"{number:0{count}}"
    name = MONTHS[number - 1] if letter == "m" and count < 5 else ""
    return name[:3] if count == 3 else name
