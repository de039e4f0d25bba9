"""What programs write where there is no day: zeros, and the first and the last day that they have. Such a cell is
empty, and told."""
from __future__ import annotations

import re
from collections.abc import Collection, Iterator, Mapping

from gudokeyi.domain.findings import Report
from gudokeyi.domain.kinds import Field
from gudokeyi.ingest.exits_beside import exit_columns
from gudokeyi.ingest.findings.days import NoDays
from gudokeyi.ingest.sheets import Sheet, SheetRow, cell_of, with_cell

TIME = r"(?:[ T]\d{1,2}:\d{2}(?::\d{2}(?:[.,]\d+)?)?)?"
# days of zeros, and a time without a day
ZEROS = (
    r"0{1,2}(?P<zero>[./-])(?:0{1,2}(?P=zero)(?:00|0000)|0?1(?P=zero)(?:00|1900))|0?1[/.-]0{1,2}[/.-](?:00|1900)|"
    r"0000-00-00|1900-0[01]-00"
)
NO_TIME = r"0{1,2}:00(?::00)?"
# the days before the first one, as spreadsheets count them, the first one of all, and the last one
ENDS = (
    r"3[01](?P<last>[./-])12(?P=last)(?:1899|9999)|12/3[01]/1899|12/31/9999|1899-12-3[01]|9999-12-31|"
    r"0?1(?P<first>[./-])0?1(?P=first)0001|0001-01-01"
)
# the first one of a book may be that of a birth, of which is told by itself
FIRST = r"0?1(?P<first>[./-])0?1(?P=first)1900|1900-01-01"
# what some of them have
MARKS = ("1900", "1899", "9999", "0001", "00/0", "00.0", "00-0", "0/01", "0/1/", "/00", ".00", "00:00")


def forms_of(*forms: str) -> list[re.Pattern[str]]:
    return [re.compile(f"(?:{form}){TIME}") for form in forms] + [re.compile(NO_TIME)]


OF_BIRTHS = forms_of(ZEROS, ENDS)
OF_OTHERS = [*OF_BIRTHS, *forms_of(FIRST)]


def no_days_among(texts: Collection[str], field: Field) -> set[str]:
    """Those of many texts of a column. Few sheets have any."""
    together = "\n".join(texts)
    if not any(mark in together for mark in MARKS):
        return set()
    forms = OF_BIRTHS if field is Field.BIRTH else OF_OTHERS
    return {text for text in texts if any(form.fullmatch(text) for form in forms)}


def columns_of_days(sheet: Sheet, columns: Mapping[str, int]) -> Iterator[tuple[Field, int]]:
    for field in (one for one in (Field.BIRTH, Field.SINCE, Field.EXIT) if one in columns):
        yield field, columns[field]
    for at in exit_columns(sheet, columns):
        yield Field.EXIT, at


def without_no_days(rows: list[SheetRow], sheet: Sheet, columns: Mapping[str, int], report: Report) -> list[SheetRow]:
    """The rows in which these cells are empty."""
    for field, at in columns_of_days(sheet, columns):
        if none := no_days_among({*sheet.column(at)}, field):
            rows = emptied(rows, sheet.titles[at], at, none, report)
    return rows


def emptied(rows: list[SheetRow], title: str, at: int, texts: set[str], report: Report) -> list[SheetRow]:
    found = [row for row in rows if cell_of(row, at) in texts]
    if not found:
        return rows
    report.add(0, "", NoDays(title, len(found), found[0].line, cell_of(found[0], at)))
    return [with_cell(row, at, "") if cell_of(row, at) in texts else row for row in rows]
