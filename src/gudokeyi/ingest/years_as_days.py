"""Years that were written into cells whose format is a day: a spreadsheet shows 2018 there as 10.07.1905."""
from __future__ import annotations

import datetime
import re
from collections.abc import Collection

from gudokeyi.ingest.days import Unreadable, read_span
from gudokeyi.ingest.findings.days import YearsAsDays
from gudokeyi.ingest.sheets import SheetRow

# the day before the first one that a spreadsheet counts, and the first year that may be meant; other days near those
# tell of animals of that time
DAY_BEFORE, FIRST_YEAR, NEAR = datetime.date(1899, 12, 30), 1950, range(1890, 1920)
NEAR_YEAR = re.compile(r"189\d|19[01]\d")


def years_shown(days: Collection[datetime.date]) -> dict[datetime.date, int]:
    """The days that are years so, with these; none where others are near them."""
    near = {day for day in days if day.year in NEAR}
    years = {day: (day - DAY_BEFORE).days for day in near}
    last = datetime.date.today().year
    return years if all(FIRST_YEAR <= year <= last for year in years.values()) else {}


def years_as_days(title: str, texts: list[str], different: Collection[str], rows: list[SheetRow]) -> list[YearsAsDays]:
    """What is told of a column with these texts, each of which is among the different ones."""
    if not any("1905" in text for text in different):
        return []
    days = {text: day for text in different if NEAR_YEAR.search(text) and (day := day_of(text))}
    years = years_shown(days.values())
    places = [(row.line, text) for row, text in zip(rows, texts) if text in days and days[text] in years]
    if not places:
        return []
    line, text = places[0]
    return [YearsAsDays(title, len(places), line, text, years[days[text]])]


def day_of(text: str) -> datetime.date | None:
    """Nothing for a text that is no single day."""
    try:
        span = read_span(text, legible=False)
    except Unreadable:
        return None
    return span.first if span.is_day else None
