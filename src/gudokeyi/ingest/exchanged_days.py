"""Days of which a spreadsheet that was set to English read the day as the month: those that it could read so are days
now, and the others texts."""
from __future__ import annotations

import collections
import datetime
import re
from collections.abc import Collection

from gudokeyi.ingest.days import usual_day
from gudokeyi.ingest.findings.days import DaysExchanged
from gudokeyi.ingest.sheets import SheetRow

# how such texts are written, with the last month; so many different days and texts at least show it
AS_TEXT, MONTHS = re.compile(r"(\d{1,2})([/-])(\d{1,2})\2\d{2}(?:\d{2})?"), 12
FEW_DAYS, FEW_TEXTS = 3, 2


def exchanged(title: str, texts: list[str], different: Collection[str], rows: list[SheetRow]) -> list[DaysExchanged]:
    """What is told of a column with these texts, each of which is among the different ones."""
    kept = {text: (int(said[1]), int(said[3])) for text in different if (said := AS_TEXT.fullmatch(text))}
    later = {text for text, (first, second) in kept.items() if first > MONTHS >= second}
    if len(later) < max(FEW_TEXTS, len(kept)):
        return []
    days = {text: day for text in different if (day := usual_day(text))}
    if len(days) < FEW_DAYS or any(day.day > MONTHS for day in days.values()):
        return []
    places = [(row.line, text) for row, text in zip(rows, texts) if text in days and is_other(days[text])]
    if not places:
        return []
    counts, (line, first) = collections.Counter(texts), places[0]
    text_line, text = next((row.line, text) for row, text in zip(rows, texts) if text in later)
    values = sum(map(counts.__getitem__, days)), line, first, exchanged_day(days[first])
    return [DaysExchanged(title, *values, sum(map(counts.__getitem__, later)), text_line, text)]


def is_other(day: datetime.date) -> bool:
    """Is it another day where day and month are exchanged?"""
    return day.day != day.month


def exchanged_day(day: datetime.date) -> str:
    return day.replace(month=day.day, day=day.month).isoformat()
