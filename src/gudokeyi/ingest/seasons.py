"""Seasons, winters and weeks of a year that a text names in place of a day, as `Frühjahr 2018`, `Winter 2019/20` and
`KW 12/2010`."""
from __future__ import annotations

import datetime
import re

from gudokeyi.ingest.days import NOT_THAT_YEAR, Precision, Span, month_of, year_of

# the first and the last month of a season; a winter has these of its year, where it is named by one alone
SEASONS = {
    "frühjahr frühj frühling spring printemps": (3, 5),
    "sommer summer été ete": (6, 8),
    "herbst autumn fall automne": (9, 11),
    "winter hiver": (1, 2),
    "anfang anf beginning early début debut": (1, 4),
    "mitte middle mid mi": (5, 8),
    "ende end late fin": (9, 12),
}
SEASON_WORDS = {word: months for words, months in SEASONS.items() for word in words.split()}
SEASON = re.compile(
    rf"\b({'|'.join(SEASON_WORDS)})\b[ .-]*(?:of |de |d'|du )?((?:19|20|21)\d{{2}})(?!\d)", re.IGNORECASE
)
# the same with two digits of the year
SHORT_SEASON = re.compile(
    rf"\b(?P<season>{'|'.join(SEASON_WORDS)})\b[ .-]*(?:of |de |d'|du )?'?(?P<year>\d{{2}})(?![\w?*#~]|[./,-]\d)",
    re.IGNORECASE,
)
# a winter that has both of its years, as `Winter 2019/20`
WINTER = re.compile(
    r"\b(?:winter|hiver)\b[ .-]*(?:of |de |d'|du )?(?P<first>(?:19|20|21)?\d{2}) ?[/–-] ?(?P<last>(?:19|20|21)?\d{2})"
    r"(?!\d)",
    re.IGNORECASE,
)
# a week of a year, as `KW 12/2010` and `12. Woche 2010`
WEEK = re.compile(
    r"(?:\b(?:KW|Kalenderwoche|Woche|week|wk|semaine|sem)\.? ?(?P<week>\d{1,2})|"
    r"(?<!\d)(?P<counted>\d{1,2})(?:\.|th|e|ème)? ?(?:KW|Kalenderwoche|Woche|week|semaine))"
    r"[ .,/-]*(?:of |in |de )?(?P<year>(?:19|20)\d{2})(?!\d)",
    re.IGNORECASE,
)
# a year of four digits
YEAR = re.compile(r"(?<!\d)(?:19|20)\d{2}(?!\d)")


def not_that(before: str) -> bool:
    """Does the word before a season say that another time is meant?"""
    words = before.split()
    return bool(words) and NOT_THAT_YEAR.fullmatch(words[-1]) is not None


def season_of(text: str) -> Span | None:
    """The days of a season of a year, as of `Frühjahr 2018`."""
    found = SEASON.search(text)
    if found is None or len(YEAR.findall(text)) > 1 or not_that(text[: found.start()]):
        return None
    (first, last), year = SEASON_WORDS[found[1].casefold()], int(found[2])
    begin, end = month_of(year, first).first, month_of(year, last).last
    return year_of(year, text=text)._replace(first=begin, last=end)


def week_of(text: str) -> Span | None:
    """The days of a week of a year that are in the month of its middle."""
    found = WEEK.search(text)
    if found is None or len(YEAR.findall(text)) > 1 or not_that(text[: found.start()]):
        return None
    try:
        monday = datetime.date.fromisocalendar(int(found["year"]), int(found["week"] or found["counted"]), 1)
    except ValueError:
        return None
    days = [monday + datetime.timedelta(at) for at in range(7)]
    days = [day for day in days if day.month == days[3].month]
    return month_of(days[3].year, days[3].month)._replace(first=days[0], last=days[-1], text=text)


def last_month(span: Span) -> Span:
    """That of a season, on whose last day an exit is; of a winter with one year it is December."""
    if span.precision is Precision.DAYS:
        return month_of(span.last.year, span.last.month)
    if span.precision is Precision.YEAR and (span.first.month, span.last.month) == SEASONS["winter hiver"]:
        return month_of(span.last.year, 12)
    if span.precision is Precision.YEAR and span.text and (span.first.month, span.last.month) != (1, 12):
        return month_of(span.last.year, span.last.month)
    return span
