"""Days as spreadsheets write them: whole days, and months or years alone. `day_forms.py` reads other forms, and
`day_cells.py` says which of them a cell has."""
from __future__ import annotations

import calendar
import datetime
import enum
import functools
import re
import unicodedata
from typing import NamedTuple

from gudokeyi.domain.messages import Worded
from gudokeyi.domain.provenance import Period

# The names of the months in English, German and French, and their usual abbreviations.

NAMES = (
    "january, jan, januar, jänner, jän, janvier, janv",
    "february, feb, februar, feber, février, févr, fév, fev",
    "march, mar, märz, mär, mrz, mars",
    "april, apr, avril, avr",
    "may, mai",
    "june, jun, juni, juin",
    "july, jul, juli, juillet, juil",
    "august, aug, août, aout",
    "september, sep, sept, septembre",
    "october, oct, oktober, okt, octobre",
    "november, nov, novembre",
    "december, dec, dezember, dez, décembre, déc",
)


def compared(name: str) -> str:
    apart = unicodedata.normalize("NFKD", name.casefold().rstrip("."))
    return "".join(one for one in apart if one.isalpha())


MONTHS = {compared(name): month for month, names in enumerate(NAMES, 1) for name in names.split(",")}
ROMAN = {numeral: month for month, numeral in enumerate("I II III IV V VI VII VIII IX X XI XII".split(), 1)}
# one of the names, the longest first, with a point behind it or without
NAME = r"(?:{})\.?".format(
    "|".join(sorted({re.escape(name.strip()) for names in NAMES for name in names.split(",")}, key=len, reverse=True))
)


# How days, months and years are written, and what each leaves open.

FIRST_YEAR, LAST_YEAR = 1900, 2199
FIRST_DAY, LAST_DAY = datetime.date(FIRST_YEAR, 1, 1), datetime.date(LAST_YEAR, 12, 31)
# the days of a season, of which a winter is in two years
LONGEST_SEASON = datetime.timedelta(100)

# a time of day behind a day is read and dropped
TIME = r"(?:(?: +|T)\d{1,2}:\d{2}(?::\d{2}(?:[.,]\d+)?)?(?: ?[AaPp][Mm])?(?: ?(?:Z|UTC|[+-]\d{2}:?\d{2}))?)?"
DAY = r"(?P<day>\d{1,2})"
YEAR = r"(?P<year>\d{4})"
NAMED = f"(?P<name>{NAME})"
FORMS = (
    r"(?P<year>\d{4})-(?P<month>\d{1,2})-(?P<day>\d{1,2})" + TIME,
    r"(?P<day>\d{1,2})\. ?(?P<month>\d{1,2})\. ?(?P<year>\d{4})" + TIME,
    r"(?P<day>\d{1,2})(?P<slash>[/-])(?P<month>\d{1,2})(?P=slash)(?P<year>\d{4})" + TIME,
    r"(?P<year>\d{4})/(?P<month>\d{1,2})/(?P<day>\d{1,2})" + TIME,
    r"(?P<year>\d{4})\. ?(?P<month>\d{1,2})\. ?(?P<day>\d{1,2})\.?" + TIME,
    # `3. April 2010`, `08 January 2005`, `03-Mar-2005`, `1er mars 2005`, `2nd of May 2004`
    DAY + r"(?:\.|er|st|nd|rd|th)?[ ./-]*(?:of |de |d')?" + NAMED + "[ ./,-]*" + YEAR + TIME,
    # `12,04,2019`, `12 04 2019`, `7. III. 2019` and `7-III-2019`
    r"(?P<day>\d{1,2}),(?P<month>\d{1,2}),(?P<year>\d{4})",
    r"(?P<day>\d{1,2})\.? (?P<month>\d{1,2})\.? (?P<year>\d{4})",
    r"(?P<day>\d{1,2})[ ./-]+(?P<roman>[IVX]+)[ ./-]*(?P<year>\d{4})",
    # `January 8, 2005`, `2005-Mar-03`
    NAMED + "[ ./-]*" + DAY + "(?:st|nd|rd|th)?(?:, ?| )" + YEAR + TIME,
    YEAR + "[ ./-]" + NAMED + "[ ./-]" + DAY,
    NAMED + "[ ./,-]*" + YEAR,
    r"(?P<year>\d{4})[-/](?P<month>\d{1,2})",
    r"(?P<month>\d{1,2})[./] ?(?P<year>\d{4})",
    r"(?P<year>\d{4})",
)
# `20010315`, also as a program writes a number; within a text such a number may be another one
DIGITS = re.compile(r"(?P<year>(?:19|20|21)\d{2})(?P<month>0\d|1[0-2])(?P<day>[0-2]\d|3[01])(?:\.0+)?", re.ASCII)
TWO_DIGITS = rf"\d{{1,2}}[ ./-]+(?:\d{{1,2}}|{NAME})[ ./-]+'?\d{{2}}"
# a year within a text
SOME_YEAR = re.compile(r"(?<!\d)(?:19|20|21)\d{2}(?!\d)")
# a year that isn't the one that is meant
NOT_THAT_YEAR = re.compile(
    r"\b(before|after|since|until|till|to|from|vor|nach|seit|bis|ab|spätestens|frühestens|avant|avt?|après|ap|depuis|"
    r"jusqu\w*|dès)\b|[<>≤≥]|"
    r"\b(adult\w*|erwachsen\w*|import\w*|bought|gekauft|achet\w*)(?!\w)",
    re.IGNORECASE,
)
# another event than a birth, before the only day of a text
OTHER_EVENT = re.compile(
    r"\D*\b(?:gek|gekauft|Kauf|Kaufdatum|angekauft|Ankauf|zugekauft|Zukauf|Zugang|erworben|eingetr|eingetragen|Eintrag|"
    r"Eintragung|reg|regd|registriert|registered|registration|enregistrée?|inscrite?|inscription|gekört|Körung|gechipt|"
    r"gechippt|chipped|geimpft|gedeckt|bought|purchased?|acquired|arrived|acquise?|achetée?|achat|entrée?|arrivée?|"
    r"immatriculée?|insc|acq|verk|verkauft|sold|vendue?|gest|"
    r"gestorben|verstorben|died|décédée?)\b[.:]*\s*(?:(?:am|im|on|in|le|en|ca)\b\.?\s*)*(?=\d)|\W*[†✝]\s*(?=\d)",
    re.IGNORECASE,
)
# a day or a year before which something was
BEFORE = re.compile(
    rf"(?:\b(?:before|prior to|vor|avant)\b(?: the| dem| le)?|<)\s*(?=\d|{NAME}(?!\w))", re.IGNORECASE
)
# how a text begins that says since when
SINCE = re.compile(r"(?:since|from|seit|ab|depuis|dès|à partir d[eu]):?(?: the| dem| le)? +(?=\S)", re.IGNORECASE)


@functools.cache
def forms() -> tuple[re.Pattern[str], ...]:
    """Compiled for the first text that isn't written as most programs write days: a call that has none doesn't wait."""
    return tuple(re.compile(form, re.IGNORECASE) for form in FORMS)


class DayFault(Worded):
    """Why a text is no day that can be taken."""

    NO_DAY = "no day"
    TWO_DIGITS = "two digits"
    NUMBER = "number"
    YEAR = "year"
    # the month stands first where the day should, or the other way about
    WRONG_ORDER = "wrong order"
    AFTER_TODAY = "after today"
    BEFORE_BIRTH = "before birth"
    # a number within a text that can't be its day
    WITHIN_BEFORE_BIRTH = "within before birth"
    WORD_ALONE = "word alone"
    WORD_WITH_NUMBERS = "word with numbers"
    # a birth's cell has the day of a purchase or of an entry
    OTHER_EVENT = "other event"

    def words(self) -> str:
        """With a place for the text."""
        return FAULT_WORDS[self]


FAULT_WORDS = {
    DayFault.NO_DAY: "'{text}' is no day: write it as 2001-03-01 or 01.03.2001, or 03.2001 or 2001 alone",
    DayFault.TWO_DIGITS: "'{text}' has two digits of the year: write all four",
    DayFault.NUMBER: "'{text}' is a number: give the column the format of a date, and save the sheet again",
    DayFault.YEAR: f"the year {{text}} isn't one of {FIRST_YEAR} to {LAST_YEAR}",
    DayFault.WRONG_ORDER: "'{text}' has the day and the month in the other order",
    DayFault.AFTER_TODAY: "{text} is after today",
    DayFault.BEFORE_BIRTH: "{text} is before its birth",
    DayFault.WITHIN_BEFORE_BIRTH: "the day in '{text}' would be before its birth",
    DayFault.WORD_ALONE: "'{text}' has no day",
    DayFault.WORD_WITH_NUMBERS: "'{text}' has no single day with a year of four digits",
    DayFault.OTHER_EVENT: "'{text}' tells of another event than a birth: write the day of birth alone",
}


class Unreadable(ValueError):
    """A text is no day. The text is the part that shows it."""

    def __init__(self, fault: DayFault, text: str) -> None:
        super().__init__(fault.words().format(text=text))
        self.fault, self.text = fault, text


class Precision(enum.Enum):
    """How much of a day is known."""

    DAY = enum.auto()
    # one of a few days that follow one another, perhaps of two months
    DAYS = enum.auto()
    MONTH = enum.auto()
    YEAR = enum.auto()
    NOTHING = enum.auto()


class Span(NamedTuple):
    """The days that a cell leaves open: one day, or those of a month or of a year. `wrong` is a day that there isn't,
    `text` one from which only the year could be read."""

    first: datetime.date
    last: datetime.date
    wrong: str = ""
    text: str = ""
    precision: Precision = Precision.DAY

    @property
    def is_day(self) -> bool:
        return self.precision is Precision.DAY

    @property
    def is_open(self) -> bool:
        """Says nobody so much as the year?"""
        return self.precision is Precision.NOTHING

    def has(self, day: datetime.date) -> bool:
        return self.first <= day <= self.last

    def meets(self, other: Span) -> bool:
        """Is any day in both?"""
        return self.first <= other.last and other.first <= self.last

    @property
    def is_of_years(self) -> bool:
        """Does it leave open the year, as `3.4.2020 oder 2021`?"""
        return self.last - self.first > LONGEST_SEASON

    def period(self) -> Period:
        """The month or the year; of a few days that of the first."""
        is_month = self.precision is Precision.MONTH or self.precision is Precision.DAYS and not self.is_of_years
        return Period(f"{self.first:%Y-%m}" if is_month else str(self.first.year), self.wrong)

    def before(self) -> Span:
        """The day, month or year before it."""
        last = self.first - datetime.timedelta(1)
        if self.is_day:
            return Span(last, last)
        return month_of(last.year, last.month) if self.precision is Precision.MONTH else year_of(last.year)

    def until(self, last: datetime.date) -> Span:
        """The days of it that aren't after the last one; it begins before that."""
        return self._replace(last=last) if last < self.last else self


ANY_DAY = Span(FIRST_DAY, LAST_DAY, precision=Precision.NOTHING)


def month_of(year: int, month: int, wrong: str = "") -> Span:
    last = calendar.monthrange(year, month)[1]
    return Span(datetime.date(year, month, 1), datetime.date(year, month, last), wrong, precision=Precision.MONTH)


def year_of(year: int, wrong: str = "", text: str = "") -> Span:
    return Span(datetime.date(year, 1, 1), datetime.date(year, 12, 31), wrong, text, Precision.YEAR)


def span_of_period(period: Period) -> Span:
    """The days of a month or a year that was read before."""
    year, _, month = period.text.partition("-")
    if month:
        return month_of(int(year), int(month), period.no_such_day)
    return year_of(int(year), period.no_such_day)


@functools.lru_cache(maxsize=50_000)
def read_span(text: str, month_first: bool = False, legible: bool = True) -> Span:
    """The day, month or year of a cell, or, where that is wanted, the only year that is legible in it; raises
    `Unreadable`."""
    if day := usual_day(text):
        return Span(day, day)
    for form in (DIGITS, *forms()):
        found = form.fullmatch(text)
        if found:
            return span_of(found.groupdict(), text, month_first)
    if re.fullmatch(TWO_DIGITS, text, re.IGNORECASE):
        raise Unreadable(DayFault.TWO_DIGITS, text)
    if re.fullmatch(r"\d{5}(\.\d+)?", text):
        raise Unreadable(DayFault.NUMBER, text)
    years = set(SOME_YEAR.findall(text))
    if legible and len(years) == 1 and not NOT_THAT_YEAR.search(text):
        return year_of(int(years.pop()), text=text)
    raise Unreadable(DayFault.NO_DAY, text)


def tells_other_event(text: str) -> bool:
    """Does it tell of a purchase, an entry or the like, as `gekauft 13.01.2019`?"""
    return OTHER_EVENT.match(text) is not None


def behind_since(text: str) -> str:
    """What stands behind a word for since when, as in `seit 2003`; else the text."""
    begun = SINCE.match(text)
    return text[begun.end() :] if begun else text


def usual_day(text: str) -> datetime.date | None:
    """The day of a text such as `2001-03-01`, in which most programs write days; else none."""
    if len(text) != 10 or text[4] != "-" or text[7] != "-":
        return None
    try:
        day = datetime.date.fromisoformat(text)
    except ValueError:
        return None
    return day if FIRST_DAY <= day <= LAST_DAY else None


@functools.lru_cache(maxsize=50_000)
def is_span(text: str) -> bool:
    """Is it written as a day, a month or a year?"""
    return usual_day(text) is not None or any(form.fullmatch(text) for form in (DIGITS, *forms()))


def span_within(text: str, month_first: bool = False) -> Span | None:
    """The only day, month or year within a text, if there is one."""
    said = {span_said(one, month_first) for one in places_within(text)}
    return said.pop() if len(said) == 1 else None


def places_within(text: str) -> list[re.Match[str]]:
    """Where days, months or years stand within a text."""
    found = list[re.Match[str]]()
    for form in forms()[:-1]:
        # a form may fit a part of what an earlier one fits
        found += [
            one for one in within(form, text, r"(?!\d|[./-]\d)") if not any(overlap(one, other) for other in found)
        ]
    # a year alone ends the text: other numbers may be prices
    return found or within(forms()[-1], text, r"(?=[).]*$)")


def within(form: re.Pattern[str], text: str, behind: str) -> list[re.Match[str]]:
    """Where the form fits. A number that could be no month of a year is none."""
    found = re.finditer(r"(?<![\w./-])" + form.pattern + behind, text, re.IGNORECASE)
    return [one for one in found if "day" in one.groupdict() or FIRST_YEAR <= int(one["year"]) <= LAST_YEAR]


def overlap(one: re.Match[str], other: re.Match[str]) -> bool:
    return one.start() < other.end() and other.start() < one.end()


def span_said(found: re.Match[str], month_first: bool) -> Span | None:
    """What is said there; nothing where the year of a day is none that can be."""
    try:
        return span_of(found.groupdict(), found.group(), month_first)
    except Unreadable as error:
        if error.fault is DayFault.WRONG_ORDER:
            raise
        return None


def span_of(parts: dict[str, str | None], text: str, month_first: bool) -> Span:
    named = parts.get("name")
    year, month, day = int(parts["year"] or 0), int(parts.get("month") or 0), int(parts.get("day") or 0)
    is_slashed = bool(parts.get("slash"))
    if named:
        month = MONTHS[compared(named)]
    elif parts.get("roman"):
        month = ROMAN.get(str(parts["roman"]).upper(), 0)
    elif is_slashed and month_first:
        month, day = day, month
    if not FIRST_YEAR <= year <= LAST_YEAR:
        raise Unreadable(DayFault.YEAR, str(year))
    # zeros stand for a month or a day that isn't known
    if not (parts.get("month") or month) or (month == 0 and day == 0):
        return year_of(year)
    if is_slashed and month > 12 and 1 <= day <= 12:
        raise Unreadable(DayFault.WRONG_ORDER, text)
    if not 1 <= month <= 12:
        return year_of(year, text)
    if not parts.get("day"):
        return month_of(year, month)
    try:
        whole = datetime.date(year, month, day)
    except ValueError:
        return month_of(year, month, text)
    return Span(whole, whole)
