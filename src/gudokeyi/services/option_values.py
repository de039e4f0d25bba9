"""What somebody writes behind an option or into a field, as a value: a `Mistake` says what is wrong with it.
`ingest` reads the cells of a sheet."""
from __future__ import annotations

import datetime
import re
from typing import TYPE_CHECKING

from gudokeyi.domain.mistakes import InvalidValue
from gudokeyi.domain.requests import NotSuch

if TYPE_CHECKING:
    from fractions import Fraction

    from gudokeyi.ingest.days import Span

# so many digits a number has at most
MOST_DIGITS = 9
FRACTION = re.compile(r"\s*[0-9.]{1,60}(/[0-9]{1,60})?\s*")


def is_number(text: str) -> bool:
    return text.isdecimal() and len(text) <= MOST_DIGITS


def three_letters(text: str) -> str:
    """The breed or the country of an animal's number."""
    if not re.fullmatch("[A-Z]{3}", text):
        raise InvalidValue(NotSuch.LETTERS.said(text=text))
    return text


def day(text: str) -> datetime.date:
    """A day written as 2001-03-01 or 01.03.2001."""
    found = re.fullmatch(r"(\d{1,2})\.(\d{1,2})\.(\d{4})", text)
    try:
        return datetime.date(*map(int, found.groups()[::-1])) if found else datetime.date.fromisoformat(text)
    except ValueError:
        raise InvalidValue(NotSuch.DAY.said(text=text)) from None


def day_or_period(text: str) -> Span:
    """A day, or a month or a year where no more is known; a day that there isn't is no month."""
    from gudokeyi.ingest.days import Unreadable, read_span

    try:
        found = read_span(text, legible=False)
    except Unreadable:
        raise InvalidValue(NotSuch.DAY_OR_PERIOD.said(text=text)) from None
    if found.wrong:
        raise InvalidValue(NotSuch.DAY_OR_PERIOD.said(text=text))
    return found


def day_until_today(text: str) -> datetime.date:
    found = day(text)
    if found > datetime.date.today():
        raise InvalidValue(NotSuch.AFTER_TODAY.said(day=found))
    return found


def days(text: str) -> int:
    """A number of days, 10,000 at most."""
    if not is_number(text) or int(text) > 10_000:
        raise InvalidValue(NotSuch.DAYS.said(text=text))
    return int(text)


def sex(text: str) -> str:
    """M or F, also by the words that a sheet may have."""
    from gudokeyi.ingest.words import KNOWN_SEXES, sex_word

    found = KNOWN_SEXES.get(sex_word(text))
    if not found:
        raise InvalidValue(NotSuch.SEX.said(text=text))
    return found


def birth_days(text: str) -> tuple[datetime.date, datetime.date]:
    """The first and the last day of `FROM..TO`: each a year, a month or a day, or nothing where there is no bound."""
    from gudokeyi.ingest.days import FIRST_DAY, LAST_DAY, Unreadable, read_span

    first, dots, last = re.sub(r"^(\d{4}) ?[-–] ?(\d{4})$", r"\1..\2", text).partition("..")
    try:
        begin = read_span(first).first if first else FIRST_DAY
        end = read_span(last or (first if not dots else "")).last if last or not dots else LAST_DAY
    except Unreadable:
        raise InvalidValue(NotSuch.SPAN.said(text=text)) from None
    return begin, end


def coefficient(text: str) -> Fraction:
    """A fraction from 0 to 1, as 1/16, 0.0625 or 6.25%."""
    # every call would wait for it, and hardly one needs it
    from fractions import Fraction

    number, percent, behind = text.replace(",", ".").partition("%")
    try:
        # with an exponent a short text is a number of very many digits
        found = Fraction(number + behind if FRACTION.fullmatch(number + behind) else "") / (100 if percent else 1)
    except (ValueError, ZeroDivisionError):
        found = Fraction(-1)
    if not 0 <= found <= 1:
        raise InvalidValue(NotSuch.COEFFICIENT.said(text=text))
    return found


def positive(text: str) -> int:
    """A whole number from 1 to 1,000,000."""
    if not is_number(text) or not 1 <= int(text) <= 1_000_000:
        raise InvalidValue(NotSuch.POSITIVE.said(text=text))
    return int(text)


def years(first: str, last: str) -> tuple[datetime.date, datetime.date] | None:
    """The days between two years, of which either may be empty; none where both are."""
    from gudokeyi.ingest.days import FIRST_DAY, LAST_DAY

    if not first and not last:
        return None
    begin, end = year(first) or FIRST_DAY.year, year(last) or LAST_DAY.year
    return datetime.date(begin, 1, 1), datetime.date(end, 12, 31)


def year(text: str) -> int:
    """0 for an empty text."""
    from gudokeyi.ingest.days import FIRST_DAY, LAST_DAY

    if not text:
        return 0
    if not (text.isascii() and is_number(text) and FIRST_DAY.year <= int(text) <= LAST_DAY.year):
        raise InvalidValue(NotSuch.YEAR.said(text=text, first=FIRST_DAY.year, last=LAST_DAY.year))
    return int(text)


def years_of(born: tuple[datetime.date, datetime.date] | None) -> tuple[str, str]:
    """The two years, empty where there is no bound."""
    from gudokeyi.ingest.days import FIRST_DAY, LAST_DAY

    first, last = born or (FIRST_DAY, LAST_DAY)
    return str(first.year) * (first > FIRST_DAY), str(last.year) * (last < LAST_DAY)
