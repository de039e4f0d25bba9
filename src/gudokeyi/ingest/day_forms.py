"""Days as people write them besides: with two digits of the year, as a spreadsheet's number, within a text, and
seasons. What such a cell says is read, and told once for a column; nothing is inferred in its place."""
from __future__ import annotations

import collections
import datetime
import functools
import operator
import re
import statistics
from collections.abc import Iterable

from gudokeyi.ingest.days import (
    FIRST_DAY, FIRST_YEAR, LAST_YEAR, MONTHS, NAME, NOT_THAT_YEAR, ROMAN, DayFault, Precision, Span, Unreadable, compared,
    is_span, month_of, places_within, read_span, span_said, span_within,
)  # fmt: skip
from gudokeyi.ingest.findings.columns import SheetFinding
from gudokeyi.ingest.findings.days import DayReading, DaysReadSo
from gudokeyi.ingest.open_births import open_days
from gudokeyi.ingest.periods_in_texts import PART_OF_MONTH, part_of_year, two_months, unknown_day
from gudokeyi.ingest.seasons import SEASON, SHORT_SEASON, WINTER, YEAR, not_that, season_of, week_of
from gudokeyi.ingest.words import LETTER

# the days of a spreadsheet are counted from this one, and those that animals of a book may have have five digits
EPOCH, SERIAL = datetime.date(1899, 12, 30), re.compile(r"(\d{5})(?:[.,]\d+)?")
# a number below it may be a postal code, or that of a tag
FIRST_SERIAL = datetime.date(1960, 1, 1)
# a Roman number is a month behind a sign alone: `2 x 20` counts something
TWO = re.compile(
    rf"(?P<day>\d{{1,2}})(?P<sign>[ ./-]+)(?:(?P<month>\d{{1,2}})|(?P<name>{NAME})|"
    r"(?:(?<=[./-])|(?<=[./-] ))(?P<roman>I{1,3}|IV|VI{0,3}|IX|XI{0,2})(?= ?[./-]))[ ./-]+'?(?P<year>\d{2})"
    # a year of four digits may have a wrong sign among them, as `20l9`, `20?9` and `20 19`
    r"(?!\w|[?*.#~]+\d| \d\d\W*$)",
    re.IGNORECASE,
)
# a month with such a year, as spreadsheets show a day by it: `avr.-07` and `Apr 07`
MONTH = re.compile(rf"(?P<name>{NAME})[ ./-]+'?(?P<year>\d{{2}})", re.IGNORECASE)
# the same within a text; and a number of a month before it in an exit's cell, as `verk. 3/24`, which nothing follows
# but where the animal went, or why
BEHIND_MONTH = r"(?=\W*$|\s*[(,;]|\s+(?:an|nach|zu|bei|wegen|durch|to|due|by|à|au|chez|pour)\b)"
MONTH_WITHIN = re.compile(
    rf"(?<![\w./-])(?P<name>{NAME})[ ./-]*'?(?P<year>\d{{2}})(?![\w?*#~]|[./-]\d)", re.IGNORECASE
)
MONTH_OF_EXIT = re.compile(rf"(?<= )(?P<month>0?[1-9]|1[0-2])[./](?P<year>\d{{2}}){BEHIND_MONTH}", re.IGNORECASE)
# what stands before a number that is none of a month
COUNTED = re.compile(r"\b(?:Nr|No|Los|lot|num\w*|tag|id)\.? $|[#°] ?$", re.IGNORECASE)
# such a number of an earlier year is rather a price
LONG_AGO = 40
# a list marks days that were inferred for the book
MARKED = re.compile(r".*\((?:inferred|invented)\)")
# one of some days that follow one another, as `12/13.06.2019` and `12 or 13 June 2019`
ONE_OF = re.compile(
    r"(?<![\w./-])(?P<from>\d{1,2})(?:\.|er|st|nd|rd|th)?"
    r"(?: ?[/–—&+-] ?| (?:or|and|to|oder|od\.?|und|bis|auf|ou|et|au|à) )"
    r"(?:(?P<until>\d{1,2})\. ?(?P<point>\d{1,2})\. ?|(?P<day>\d{1,2})(?P<sign>[/-])(?P<month>\d{1,2})(?P=sign)|"
    rf"(?P<last>\d{{1,2}})(?:\.|er|st|nd|rd|th)?[ ./-]*(?:of |de |d')?(?P<name>{NAME})[ ./,-]*)"
    r"'?(?P<year>\d{4}|\d{2})(?![\w/-]|\.\d)",
    re.IGNORECASE,
)
# the same of days that have their months, as `31.05./01.06.2019`: what has both, and what stands between them
FROM_DIGIT_TO_DIGIT = re.compile(r"\d.*\d", re.DOTALL)
BETWEEN_DAYS = re.compile(
    r"\s*[/–—&+-]\s*|\s(?:or|and|to|oder|od\.?|und|bis|auf|ou|et|au|à)\s(?:(?:den|dem|the|le)\s)?", re.IGNORECASE
)
# what tells beside a day of another one: a day without its year, a day or a year with the name of its month
ANOTHER_DAY = re.compile(
    r"(?<![\w.,/-])(?:0?[1-9]|[12]\d|3[01])\. ?(?:0?[1-9]|1[0-2])\.(?!\d{3})|"
    r"(?<![\w.,/-])\d{1,2}(?P<slash>[/-])\d{1,2}(?P=slash)\d{2}(?!\w)|"
    rf"(?<!\w)\d{{1,2}}[ .]*{NAME}(?!\w)|(?<!\w){NAME}[ ./-]*'?\d{{2}}(?!\w)",
    re.IGNORECASE,
)
# a month before what seems a day, and is the year of that month, as in `Dez. 19/Jan. 20`
MONTH_BEFORE = re.compile(rf"(?<!\w){NAME}[ ./'-]*$", re.IGNORECASE)
# a number behind a day that stands for another day, month or year, as in `3.4.20 oder 21`
NUMBER_BEHIND = re.compile(rf"(?:{BETWEEN_DAYS.pattern})'?\d{{1,2}}\W*$", re.IGNORECASE)
# another year of four digits beside a day or a month, as in `3.4.2020 oder 2021`; and a number that may be one
OR = r"\b(?:or|oder|od\.?|ou)\s+(?:[^\W\d]+\.?\s+)?"
OTHER_YEAR = r"(?P<year>(?:19|20|21)\d\d)"
YEAR_BEHIND = re.compile(rf"(?:(?:{BETWEEN_DAYS.pattern})|{OR}){OTHER_YEAR}\W*$", re.IGNORECASE)
OR_NUMBER = re.compile(rf"{OR}'?\d{{1,2}}\W*$", re.IGNORECASE)
YEAR_BEFORE = re.compile(rf"\D*(?<![\w./-]){OTHER_YEAR}(?:\s*/\s*|\s{OR})", re.IGNORECASE)
# so many years it may be before or behind that of the day
YEARS_BESIDE = 3
YEAR_OF = operator.attrgetter("year")
# a longer text has more than these
MOST_LETTERS = 60
# a day without its month
SHORTENED = re.compile(r"\d{1,2}(?:\.|er|st|nd|rd|th)", re.IGNORECASE)
# how far the first may lie before the last: a number farther away may be another one
DAYS_BEFORE = [datetime.timedelta(days) for days in range(1, 8)]
# a day that isn't certain; `est né` is French
UNSURE = re.compile(
    r"[?~≈±]|\bc\.(?= ?\d)|\b(?:est(?! n[ée])|estd|estim\w*|approx\w*|about|around|circa|ca|ungefähr|ungef|etwa|"
    r"geschätzt|gesch|schätzungsweise|vermutlich|verm|wahrscheinlich|wahrsch|vielleicht|evtl|eventuell|vers|environ|"
    r"env|probabl\w*|prob|maybe|perhaps|possibly|peut-être|présumée?|unsicher|unsure|uncertain|incertaine?)\b",
    re.IGNORECASE,
)
# two days, or a week, of which the text has one
BETWEEN = re.compile(r"\b(?:zw|zwischen|between|entre|nuit|night|Nacht|week|Woche|semaine|w/c)\b", re.IGNORECASE)
# to whom an animal went is no end of a time
GONE_TO = re.compile(
    r"\b(?:sold|sale|transferred|given|went|gone|moved|rehomed|exported|passed)\b[^?]*?\bto(?= +[^\W\d])", re.IGNORECASE
)


# a sheet that is looked at again has the same
@functools.lru_cache(1)
def years_of(texts: tuple[str, ...]) -> list[int]:
    """The years that each different text has."""
    return [int(year) for text in {*texts} for year in YEAR.findall(text)]


class DayForms:
    """Reads such texts. `days` are texts of the sheet's own days, and `born` days of the book: they show the
    century."""

    def __init__(self, days: Iterable[str], born: Iterable[datetime.date], month_first: bool) -> None:
        self.days, self.born, self.month_first, self.today = days, born, month_first, datetime.date.today()

    @functools.cached_property
    def usual_year(self) -> int:
        """The middle of the years that the sheet and the book have."""
        years = [*years_of(tuple(self.days)), *map(YEAR_OF, self.born)]
        years = [year for year in years if year <= self.today.year]
        return int(statistics.median(years)) if years else self.today.year

    def read(self, text: str, is_exit: bool = False) -> tuple[Span, DayReading] | None:
        """The days of a text, and how it is read; nothing where it is read otherwise or not at all. A day that isn't
        sure is that of no exit: the word for that tells it."""
        if is_span(text) or MARKED.match(text):
            return None
        if PART_OF_MONTH.search(text):
            found = self.read(PART_OF_MONTH.sub(r"\1 ", text), is_exit)
            return (found[0]._replace(text=text if found[0].text else ""), found[1]) if found else None
        if winter := self.winter(text):
            return winter, DayReading.ONE_OF
        if months := two_months(text, self.year_near):
            return months, DayReading.ONE_OF if months.precision is Precision.DAYS else DayReading.WITHIN
        if either := self.of_either_year(text):
            if is_exit:
                raise Unreadable(DayFault.NO_DAY, text)
            return either, DayReading.ONE_OF
        if not is_exit and (two_days := self.two_days(text)):
            return two_days, DayReading.ONE_OF
        if not is_exit and (days := ONE_OF.search(text)):
            span = self.one_of(days)
            # what stands around it may say that it is none of them, or another one
            if span and not NOT_THAT_YEAR.search(text[: days.start()] + text[days.end() :]):
                several = len(YEAR.findall(text)) > 1
                return (span._replace(text=text), DayReading.ONE_OF) if not several else None
        found = self.read_one(text)
        if found and not is_exit and found[0].is_day and UNSURE.search(text):
            # it is inferred, as the day of a month is
            return found[0]._replace(text=text, precision=Precision.MONTH), DayReading.UNSURE
        return found

    def read_one(self, text: str) -> tuple[Span, DayReading] | None:
        if month := MONTH.fullmatch(text):
            span = month_of(self.year_near(month["year"]), MONTHS[compared(month["name"])])
            return span, DayReading.TWO_DIGITS
        if (serial := self.serial(text)) or (two := TWO.fullmatch(text)) is None:
            return (serial, DayReading.SERIAL) if serial else self.within(text)
        day = self.two_digits(two)
        return (day, DayReading.TWO_DIGITS) if day else None

    def serial(self, text: str) -> Span | None:
        found = SERIAL.fullmatch(text)
        day = EPOCH + datetime.timedelta(int(found[1])) if found else FIRST_DAY
        return Span(day, day) if FIRST_SERIAL <= day <= self.today else None

    def two_digits(self, found: re.Match[str]) -> Span | None:
        """A day of the century that is nearest to the other days; of a month that hasn't this day its days."""
        day, month = int(found["day"]), month_said(found)
        if self.month_first and found["sign"].strip() in ("/", "-") and found["month"]:
            day, month = month, day
        if not 1 <= month <= 12:
            return None
        year = self.year_near(found["year"])
        try:
            whole = datetime.date(year, month, day)
        except ValueError:
            return month_of(year, month, found[0])
        return Span(whole, whole)

    def year_near(self, digits: str) -> int:
        """That of the century that is nearest to the other days."""
        years = [year for year in (1900 + int(digits), 2000 + int(digits)) if year <= self.today.year]
        return min(years, key=lambda one: abs(one - self.usual_year))

    def two_days(self, text: str) -> Span | None:
        """Two days of which a text leaves open which it is, as `31.05./01.06.2019`; those that are far from one another
        are none."""
        core = FROM_DIGIT_TO_DIGIT.search(text) if len(text) <= MOST_LETTERS else None
        around = text[: core.start()] + text[core.end() :] if core else ""
        if core is None or NOT_THAT_YEAR.search(around) or YEAR.search(around):
            return None
        signs = BETWEEN_DAYS.finditer(core[0])
        pairs = (self.pair(core[0][: sign.start()], core[0][sign.end() :]) for sign in signs)
        first, last = next(filter(None, pairs), (FIRST_DAY, FIRST_DAY))
        if last - first > DAYS_BEFORE[-1] and not LETTER.search(around):
            raise Unreadable(DayFault.NO_DAY, text)
        return days_of(first, last, text) if first < last <= first + DAYS_BEFORE[-1] else None

    def of_either_year(self, text: str) -> Span | None:
        """The days of a day or a month of which a text leaves open in which of two years it is, as `3.4.2020 oder
        2021`."""
        behind = YEAR_BEHIND.search(text)
        found = behind or YEAR_BEFORE.match(text)
        one = self.span_beside(text, found, found is behind) if found else None
        if found is None or one is None or NOT_THAT_YEAR.search(text):
            return None
        year = int(found["year"])
        if abs(one.first.year - year) > YEARS_BESIDE:
            raise Unreadable(DayFault.NO_DAY, text)
        other = in_year(one, year)
        return days_of(min(one.first, other.first), max(one.last, other.last), text)

    def span_beside(self, text: str, year: re.Match[str], is_before: bool) -> Span | None:
        """The day or the month that stands beside such a year, before it or behind it; none where the year is its
        own."""
        said = text[: year.start()] if is_before else text[year.end() :]
        places = places_within(said) or [*TWO.finditer(said if " " in year[0] else "")]
        if len(places) != 1:
            return None
        [place] = places
        two = TWO.fullmatch(place[0])
        span = self.two_digits(two) if two else span_said(place, self.month_first)
        is_other = re.search(r"\d", said[place.end() :] if is_before else said[: place.start()]) is not None
        return None if span is None or is_other or span.precision is Precision.YEAR else span

    def whole_day(self, text: str) -> datetime.date | None:
        """The day of a text that is nothing but one."""
        try:
            two = TWO.fullmatch(text)
            span = self.two_digits(two) if two else read_span(text, self.month_first, legible=False)
        except Unreadable:
            return None
        return span.first if span and span.is_day else None

    def open_days(self, text: str) -> Span | None:
        """The days up to today that a text leaves open which tells between which a birth was."""
        found = open_days(text, self) if len(text) <= MOST_LETTERS else None
        return found.until(self.today) if found and found.first <= self.today else None

    def whole_span(self, text: str) -> Span | None:
        """What a text says that is nothing but a day, a month, a season or a year."""
        if day := self.whole_day(text):
            return Span(day, day)
        if month := MONTH.fullmatch(text):
            return month_of(self.year_near(month["year"]), MONTHS[compared(month["name"])])
        try:
            period = read_span(text, self.month_first) if is_span(text) else None
        except Unreadable:
            return None
        return season_of(text) if SEASON.fullmatch(text) else period

    def from_to(self, first: str, last: str) -> tuple[datetime.date, datetime.date] | None:
        """The first and the last day of two texts, of which the first may lack the year or the month of the last."""
        one, other = self.whole_span(first), self.whole_span(last)
        if one and other:
            return min(one.first, other.first), max(one.last, other.last)
        if other is None or not other.is_day:
            return None
        days = self.pair(first, last) or self.pair(f"{first.rstrip(' .')}.{other.first.month}.", last)
        return days if days and days[1] == other.first else None

    def pair(self, before: str, behind: str) -> tuple[datetime.date, datetime.date] | None:
        """Both days in their order; that before may have the year of the other one, or be in the year before."""
        other, said = self.whole_day(behind), before.rstrip(" .")
        if other is None:
            return None
        years = [f"{said}{sign}{year}" for year in (other.year, other.year - 1) for sign in "./ "]
        own = self.whole_day(said)
        days = [own] if own else [day for day in map(self.whole_day, years) if day]
        apart = {abs(day - other): day for day in days}
        return (min(apart[min(apart)], other), max(apart[min(apart)], other)) if apart else None

    def one_of(self, found: re.Match[str]) -> Span | None:
        """The days of which a text leaves open which it is."""
        if self.month_first and found["sign"]:
            return None
        month = MONTHS[compared(found["name"])] if found["name"] else int(found["point"] or found["month"])
        year = int(found["year"]) if len(found["year"]) == 4 else self.year_near(found["year"])
        if not FIRST_YEAR <= year <= LAST_YEAR:
            return None
        try:
            last = datetime.date(year, month, int(found["until"] or found["day"] or found["last"]))
        except ValueError:
            return None
        first = next((day for day in map(last.__sub__, DAYS_BEFORE) if day.day == int(found["from"])), None)
        if first is None and found[0] == found.string and SHORTENED.match(found[0]) and int(found["from"]) < last.day:
            # both are days, and far from one another
            raise Unreadable(DayFault.NO_DAY, found[0])
        return days_of(first, last) if first else None

    def within(self, text: str) -> tuple[Span, DayReading] | None:
        """The only day, week, month or season within a text; none where the text says that it isn't that one."""
        if season := week_of(text) or season_of(text):
            return season, DayReading.WITHIN
        if month := unknown_day(text, self.year_near):
            return month, DayReading.ONE_OF
        if part := part_of_year(text):
            return part, DayReading.WITHIN
        if short_season := self.short_season(text):
            return short_season, DayReading.TWO_DIGITS
        if NOT_THAT_YEAR.search(GONE_TO.sub(" ", text)):
            return None
        two = TWO.search(text)
        if two and not YEAR.search(text) and not re.search(r"[\w.,/-]", text[max(two.start() - 1, 0) : two.start()]):
            if tells_another_day(two):
                raise Unreadable(DayFault.NO_DAY, text)
            day = self.two_digits(two)
            return (day, DayReading.TWO_DIGITS) if day else None
        if within := self.month_within(text):
            return within._replace(text=text), DayReading.TWO_DIGITS
        span = span_within(text, self.month_first)
        if span is None or span.precision is Precision.YEAR:
            return None
        if OR_NUMBER.search(text):
            raise Unreadable(DayFault.NO_DAY, text)
        if span.is_day and BETWEEN.search(text):
            span = month_of(span.first.year, span.first.month)
        return (span if span.is_day else span._replace(text=text)), DayReading.WITHIN

    def winter(self, text: str) -> Span | None:
        """The days of a winter that is named by both of its years, which follow one another."""
        found = WINTER.search(text)
        if found is None or not is_only_number(found) or NOT_THAT_YEAR.search(text[: found.start()]):
            return None
        first = int(found["first"]) if len(found["first"]) == 4 else self.year_near(found["first"])
        if not f"{first + 1}".endswith(found["last"]):
            raise Unreadable(DayFault.NO_DAY, text)
        return days_of(month_of(first, 12).first, month_of(first + 1, 2).last, text)

    def short_season(self, text: str) -> Span | None:
        """The days of a season whose year has two digits, which are the only number of the text."""
        found = SHORT_SEASON.search(text)
        if found is None or not is_only_number(found) or not_that(text[: found.start()]):
            return None
        season = season_of(f"{found['season']} {self.year_near(found['year'])}")
        return season._replace(text=text) if season else None

    def month_within(self, text: str) -> Span | None:
        """The month of a text whose only number has two digits of the year, as of `Mitte März 20`."""
        found = MONTH_WITHIN.search(text)
        if found is None or not is_only_number(found):
            return None
        return month_of(self.year_near(found["year"]), MONTHS[compared(found["name"])])

    def month_of_exit(self, text: str) -> Span | None:
        """The same where the month is a number behind a word for an exit, as in `verk. 3/24`."""
        found = MONTH_OF_EXIT.search(text)
        before = text[: found.start()] if found else ""
        if found is None or not is_only_number(found) or COUNTED.search(before) or not_that(before):
            return None
        year = self.year_near(found["year"])
        return month_of(year, int(found["month"]))._replace(text=text) if self.today.year - year <= LONG_AGO else None


def month_said(found: re.Match[str]) -> int:
    """By a name, a Roman number or digits."""
    if found["name"]:
        return MONTHS[compared(found["name"])]
    return ROMAN[found["roman"].upper()] if found["roman"] else int(found["month"])


def days_of(first: datetime.date, last: datetime.date, text: str = "") -> Span:
    """A few days, of which it is one."""
    return Span(first, last, "", text, Precision.DAYS)


def in_year(span: Span, year: int) -> Span:
    """The same day or month of another year; the last of February where there isn't that day."""
    month = month_of(year, span.first.month)
    day = month.first.replace(day=min(span.first.day, month.last.day))
    return Span(day, day) if span.is_day else month


def tells_another_day(found: re.Match[str]) -> bool:
    """Does a text have another day beside one with two digits of the year, as `3.3.24 oder 5.3.24`?"""
    before, behind = found.string[: found.start()], found.string[found.end() :]
    if found["name"] and MONTH_BEFORE.search(before) or NUMBER_BEHIND.match(behind):
        return True
    return any(ANOTHER_DAY.search(beside) for beside in (before, behind.lstrip("/–—-")))


def is_only_number(found: re.Match[str]) -> bool:
    """Has a text no digits besides?"""
    return not re.search(r"\d", found.string[: found.start()] + found.string[found.end() :])


class Readings:
    """Which cells of which columns were read so."""

    def __init__(self) -> None:
        # a month, and a season or a year, are told beside days
        self.counts: collections.Counter[tuple[str, DayReading, Precision]] = collections.Counter()
        self.first: dict[tuple[str, DayReading, Precision], tuple[int, str, str, str]] = {}

    def add(self, title: str, reading: DayReading, line: int, text: str, span: Span) -> None:
        if reading is DayReading.WITHIN and not span.is_day:
            reading = DayReading.PERIOD_WITHIN
        of = title, reading, span.precision
        self.counts[of] += 1
        is_part = span.precision is Precision.YEAR and (span.first.month, span.last.month) != (1, 12)
        are_days = reading is DayReading.ONE_OF or is_part and reading is DayReading.PERIOD_WITHIN
        day = span.first.isoformat() if span.first == span.last or are_days else span.period().text
        self.first.setdefault(of, (line, text, day, str(span.last) if are_days else ""))

    def told(self) -> list[SheetFinding]:
        return [
            DaysReadSo(title, reading, count, *self.first[title, reading, precision])
            for (title, reading, precision), count in self.counts.items()
        ]
