"""Days without signs between day, month and year, as `12052023` and `120523`: they are read where a whole column is
written so, and its days have one order alone that all can have."""
from __future__ import annotations

import datetime
import re
from collections.abc import Collection, Mapping, Sequence
from typing import Container

from gudokeyi.domain.findings import Report
from gudokeyi.ingest.days import is_span
from gudokeyi.ingest.findings.days import DayReading, DaysReadSo
from gudokeyi.ingest.no_days import columns_of_days
from gudokeyi.ingest.sheets import Sheet, SheetRow, cell_of, with_cell

# so many different cells show an order, and so many years back animals of a list may be born
LEAST, YEARS_BACK = 3, 60
# a spreadsheet drops a zero before such a number, and more of them have all digits
SHORT, LONG = re.compile(r"\d{5,6}", re.ASCII), re.compile(r"\d{7,8}", re.ASCII)
# the orders by the digits, of which one of four digits of the year first is read in any case
ORDERS = {6: ("%d%m%y", "%m%d%y", "%y%m%d"), 8: ("%d%m%Y", "%m%d%Y")}


def read_together(
    rows: list[SheetRow], sheet: Sheet, columns: Mapping[str, int], unknown: Container[str], report: Report
) -> list[SheetRow]:
    """The rows with such days as most programs write them; each column with some is told."""
    for _, at in columns_of_days(sheet, columns):
        texts = {text for row in rows if (text := cell_of(row, at)) and text not in unknown}
        if days := days_among(texts):
            first = next(row for row in rows if cell_of(row, at) in days)
            count = sum(cell_of(row, at) in days for row in rows)
            text = cell_of(first, at)
            told = DaysReadSo(sheet.titles[at], DayReading.TOGETHER, count, first.line, text, days[text])
            report.add(0, "", told)
            rows = [with_cell(row, at, days.get(cell_of(row, at), cell_of(row, at))) for row in rows]
    return rows


def days_among(texts: Collection[str]) -> dict[str, str]:
    """The days of texts that all are written so; none where they may have several orders, or a text has none."""
    for form, digits in ((SHORT, 6), (LONG, 8)):
        if len(texts) < LEAST or not all(map(form.fullmatch, texts)) or all(map(is_span, texts)):
            continue
        if 2 * sum(len(text) == digits for text in texts) < len(texts):
            continue
        found = [days for order in ORDERS[digits] if (days := in_order([*texts], order, digits))]
        return dict(zip(texts, found[0])) if len(found) == 1 else {}
    return {}


def in_order(texts: Sequence[str], order: str, digits: int) -> list[str]:
    """The days that all texts are in an order; none where one is no day, or lies behind today or too far back."""
    today = datetime.date.today()
    try:
        days = [day_of(text.zfill(digits), order, today) for text in texts]
    except ValueError:
        return []
    are_likely = all(day <= today and day.year >= today.year - YEARS_BACK for day in days)
    return [day.isoformat() for day in days] if are_likely else []


def day_of(text: str, order: str, today: datetime.date) -> datetime.date:
    """Of two digits of the year that of the last hundred years."""
    day = datetime.datetime.strptime(text, order).date()
    if "%y" not in order:
        return day
    year = today.year - (today.year - day.year) % 100
    return day.replace(year=year)
