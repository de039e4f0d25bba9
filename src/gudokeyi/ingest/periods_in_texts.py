"""Months and parts of years that a text has in place of a day, as `??.04.2019`, `Mai/Juni 2020` and `1er semestre
2019`."""
from __future__ import annotations

import datetime
import re
from collections.abc import Callable

from gudokeyi.ingest.days import (
    FIRST_YEAR, LAST_YEAR, LONGEST_SEASON, MONTHS, NAME, NOT_THAT_YEAR, Precision, Span, compared, month_of, year_of,
)  # fmt: skip

FOUR, SHORT = r"(?P<year>(?:19|20|21)\d{2})(?!\d)", r"'?(?P<year>\d{4}|\d{2})(?!\w|[./-]\d)"
# signs that stand for digits which nobody knows
NO_DIGITS = r"(?:[?xX_*]{1,2}|--?)"
UNKNOWN_DAY = (
    re.compile(rf"{NO_DIGITS}(?P<sign>[./-])(?P<month>\d{{1,2}})(?P=sign){SHORT}"),
    re.compile(rf"(?P<year>\d{{4}})-(?P<month>\d{{1,2}})-{NO_DIGITS}"),
    re.compile(rf"{NO_DIGITS}[ ./-]*(?P<name>{NAME})[ ./-]*{SHORT}", re.IGNORECASE),
)
# a word for a part of a month, before its name
PART = "mid|mi|mitte|early|late|anfang|ende|beginning|end|début|debut|fin"
TWO_MONTHS = re.compile(
    rf"(?<!\w)(?P<name>{NAME})(?:[ ./-]*(?P<own>(?:19|20|21)\d{{2}}))?\s*"
    rf"(?:[/–—&+-]|\b(?:or|and|to|oder|od\.?|und|u\.|bis|ou|et|au|à)(?=\s))\s*(?:(?:{PART})\s+)?"
    rf"(?P<last>{NAME})[ ./,-]*{SHORT}",
    re.IGNORECASE,
)
# the parts of a year by their numbers, and how these are written
COUNTS = {"first erste erster erstes premier première": 1, "second zweite zweiter zweites seconde deuxième": 2,
          "third dritte drittes troisième": 3, "fourth last vierte viertes letzte letztes dernier quatrième": 4}  # fmt: skip
COUNTED = {word: count for words, count in COUNTS.items() for word in words.split()}
PARTS = {"hälfte halbjahr hj half semestre h": 2, "quartal quarter trimestre q": 4}
PARTED = {word: parts for words, parts in PARTS.items() for word in words.split()}
NAMED_PARTS = "|".join(sorted(PARTED, key=len, reverse=True))
PART_OF_YEAR = (
    re.compile(
        rf"(?<![\w.])(?:(?P<count>[1-4])(?:\.|er|re|st|nd|rd|th|e|ème)?|(?P<word>{'|'.join(COUNTED)}))[ -]*"
        rf"(?P<part>{NAMED_PARTS})\b\.?[ ./-]*(?:(?:of|de|du|des Jahres|von)\s+)?{FOUR}",
        re.IGNORECASE,
    ),
    re.compile(rf"(?<!\w)(?P<part>[HQ])(?P<count>[1-4])[ ./-]*{FOUR}"),
)
# the months of a year
MOST = 12
# such a word that a hyphen joins with the name, as `mid-April`
PART_OF_MONTH = re.compile(rf"\b({PART})-(?={NAME}(?!\w))", re.IGNORECASE)
YearNear = Callable[[str], int]


def unknown_day(text: str, year_near: YearNear) -> Span | None:
    """The month of a day that nobody knows."""
    found = next(filter(None, (form.fullmatch(text) for form in UNKNOWN_DAY)), None)
    if found is None:
        return None
    parts = found.groupdict()
    month = MONTHS[compared(parts["name"])] if parts.get("name") else int(parts["month"])
    year = year_of_text(found["year"], year_near)
    return month_of(year, month)._replace(text=text) if 1 <= month <= MOST and FIRST_YEAR <= year <= LAST_YEAR else None


def year_of_text(digits: str, year_near: YearNear) -> int:
    return int(digits) if len(digits) == 4 else year_near(digits)


def is_alone(found: re.Match[str]) -> bool:
    """Has the text no digits besides, and no word before it by which another time is meant?"""
    before, behind = found.string[: found.start()], found.string[found.end() :]
    return not re.search(r"\d", before + behind) and not NOT_THAT_YEAR.search(before)


def two_months(text: str, year_near: YearNear) -> Span | None:
    """The days of two months, of which the first may be in the year before; of two with their years where they are one
    beside the other."""
    found = TWO_MONTHS.search(text)
    if found is None or not is_alone(found):
        return None
    first, last = (MONTHS[compared(found[name])] for name in ("name", "last"))
    year = year_of_text(found["year"], year_near)
    begins = int(found["own"]) if found["own"] else year - (first > last)
    if not FIRST_YEAR < year <= LAST_YEAR or not FIRST_YEAR <= begins <= year:
        return None
    begin, end = month_of(begins, first).first, month_of(year, last).last
    if found["own"] and not begin < end <= begin + LONGEST_SEASON:
        return None
    return days_of_year(begin, end, text) if begins == year else Span(begin, end, "", text, Precision.DAYS)


def part_of_year(text: str) -> Span | None:
    """The days of a half or a quarter of a year."""
    found = next(filter(None, (form.search(text) for form in PART_OF_YEAR)), None)
    if found is None or not is_alone(found):
        return None
    parts, word = PARTED[found["part"].casefold()], found.groupdict().get("word")
    count = COUNTED[word.casefold()] if word else int(found["count"])
    count = min(count, parts) if word else count
    if count > parts:
        return None
    year, months = int(found["year"]), MOST // parts
    begin, end = (month_of(year, month) for month in (months * (count - 1) + 1, months * count))
    return days_of_year(begin.first, end.last, text)


def days_of_year(first: datetime.date, last: datetime.date, text: str) -> Span:
    """Days within a year, of which it is one."""
    return year_of(first.year, text=text)._replace(first=first, last=last)
