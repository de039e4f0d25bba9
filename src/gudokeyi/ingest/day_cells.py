"""What the cells of days say, and whether days with slashes or hyphens have the day first or the month."""
from __future__ import annotations

import collections
import datetime
import functools
import re
from collections.abc import Collection, Iterable, Mapping
from dataclasses import replace
from typing import Container, NamedTuple

from gudokeyi.domain.collections import made
from gudokeyi.domain.kinds import Field
from gudokeyi.domain.provenance import GIVEN_EXIT, ExitBasis, ExitSource
from gudokeyi.ingest.day_forms import LONG_AGO, DayForms
from gudokeyi.ingest.days import (
    BEFORE, DayFault, Precision, Span, Unreadable, behind_since, is_span, read_span, span_within, tells_other_event,
    usual_day,
)  # fmt: skip
from gudokeyi.ingest.exits_in_doubt import is_planned, tells_death
from gudokeyi.ingest.findings.cells import DayLeftOut
from gudokeyi.ingest.findings.days import DayReading
from gudokeyi.ingest.findings.sheets import NoOrderShown, OneWrongOrder, Place, WrongOrder
from gudokeyi.ingest.seasons import last_month
from gudokeyi.ingest.texts import plain
from gudokeyi.ingest.exit_words import DEAD, besides_undone, exit_word, is_still_there, lives, state_exit, word_fault
from gudokeyi.ingest.words import KNOWN_SINCE_BIRTH
from gudokeyi.ingest.words_beside import words_beside

# Whether days with slashes or hyphens have the day first or the month, as a sheet's own days show.

# so many days in one order show that one in the other is a slip, and so many that each further one is
LEAST_RIGHT, MANY_RIGHT = 5, 20
# so many of a column show it where those of the others do too
SEVERAL = 2
SLASHED = re.compile(r"(?<!\d)(\d{1,2})([/-])(\d{1,2})\2\d{4}(?!\d)")


class Order:
    """The days of a sheet that are written with slashes or hyphens: those that show that the month stands first, those
    that show that the day does, each with the place where it stands, and how many show neither."""

    def __init__(self, cells: Iterable[Place]) -> None:
        self.months_first: list[Place] = []
        self.days_first: list[Place] = []
        # how many of each column show neither
        self.open = collections.Counter[str]()
        for cell in cells:
            for found in SLASHED.finditer(cell.text):
                first, second = int(found[1]), int(found[3])
                if first > 12 >= second:
                    self.days_first.append(replace(cell, text=found[0]))
                elif second > 12 >= first:
                    self.months_first.append(replace(cell, text=found[0]))
                else:
                    self.open[cell.field] += first != second

    @staticmethod
    def may_show(text: str) -> bool:
        """Can a text have such a day?"""
        return SLASHED.search(text) is not None

    def fault(self, month_first: bool) -> WrongOrder | OneWrongOrder | None:
        """Why the days can't be read in the order that is wished; nothing where so many are written in it that the
        others are slips, which are read by themselves."""
        wrong = self.days_first if month_first else self.months_first
        right = self.months_first if month_first else self.days_first
        slips, others = (collections.Counter(one.field for one in places) for places in (wrong, right))
        if all(others[field] >= max(LEAST_RIGHT, MANY_RIGHT * (count - 1)) for field, count in slips.items()):
            return None
        if len(wrong) == 1 and len(right) >= LEAST_RIGHT and self.shows_order(wrong[0].field, others):
            return None
        if len(wrong) == 1 < len(right):
            return OneWrongOrder(month_first, wrong[0], len(right), right[0])
        return WrongOrder(month_first, wrong[0], len(wrong), right[0] if right else None)

    def shows_order(self, field: str, right: Mapping[str, int]) -> bool:
        """Has a column several days in the order of the sheet, or none that may be in the other one?"""
        return right[field] >= SEVERAL or not self.open[field]

    def note(self, month_first: bool) -> NoOrderShown | None:
        """What is told where no day shows the order."""
        either = self.open.total()
        if not either or self.days_first or self.months_first or month_first:
            return None
        return NoOrderShown(either)


# What the cells of days say. The same texts stand in many cells, and each is read once.


class DayCell(NamedTuple):
    """A text in a column of days: the days that it leaves open, where it says any; and why it isn't taken, either since
    it can't be read, though it may say between which days a birth was, or since the day can't be."""

    span: Span | None = None
    says_something: bool = True
    fault: DayLeftOut | None = None
    is_unread: bool = False
    # how a text is read that has a day in no usual form
    reading: DayReading | None = None


SAYS_NOTHING = DayCell(says_something=False)


@functools.lru_cache(50_000)
def usual_cell(text: str, today: datetime.date) -> DayCell | None:
    """What a day says that is written in the usual way, and isn't after today."""
    day = usual_day(text)
    if day is None or day > today:
        return None
    return made(DayCell, (made(Span, (day, day, "", "", Precision.DAY)), True, None, False, None))


class ExitCell(NamedTuple):
    """A text in the column of exits: its day, whether it is nothing but a day, a month or a year, and whether one that
    isn't taken is after today."""

    day: DayCell
    is_span: bool
    is_later: bool
    # it tells of something else, as `on loan`: the animal hasn't left
    is_none: bool = False
    # what stands beside the day
    reason: str = ""

    @property
    def basis(self) -> ExitBasis:
        """Of an exit on a day that the text has."""
        span = self.day.span
        assert span is not None
        basis = GIVEN_EXIT if span.is_day else ExitBasis(ExitSource.PERIOD, span.period())
        return basis.with_reason(self.reason)


NO_EXIT = ExitCell(SAYS_NOTHING, False, False, True)


def is_other_state(text: str) -> bool:
    """Is a text of a column of states none of an exit, as `pet only`?"""
    return not (state_exit(text) or lives(text) or is_span(text))


class DayCells:
    """Reads the texts of days. An exit is a day, a text with a day, or a word, such as `sold`: then the animal has left
    on a day that isn't known."""

    def __init__(self, unknown: Container[str], month_first: bool, forms: DayForms | None = None) -> None:
        self.unknown, self.month_first, self.today = unknown, month_first, datetime.date.today()
        self.forms = forms or DayForms((), (), month_first)
        # are exits read from a column of states, of which many are no exits?
        self.of_states = False
        self.day = functools.cache(self.read_day)
        # nothing for an animal that lives
        self.exit = functools.cache(self.read_exit)

    def of_all(self, field: Field, texts: Collection[str], unknown: Container[str]) -> dict[str, DayCell]:
        """What many texts of a column say, of which some stand for what isn't known."""
        today = self.today
        return {
            text: (None if text in unknown else usual_cell(text, today)) or self.day(field, text) for text in texts
        }

    def read_exit(self, text: str) -> ExitCell | None:
        text, is_day = besides_undone(text), usual_day(text) is not None
        if not is_day and (is_still_there(text) or is_planned(text) and self.is_to_come(text)):
            return NO_EXIT
        if not is_day and lives(text):
            return None
        if self.of_states and text not in self.unknown and is_other_state(text):
            return NO_EXIT
        day = self.day(Field.EXIT, text)
        reason = words_beside(text) if day.span and not is_day else ""
        is_no_more = is_day or is_span(text) or (day.reading is not None and not (exit_word(text) or reason))
        is_reason = reason not in self.unknown or DEAD.search(reason)
        is_later = day.fault is not None and self.is_later(text)
        if is_later and day.fault and tells_death(text):
            # the animal has died on another day
            day, is_later = day._replace(fault=replace(day.fault, is_gone=True)), False
        return ExitCell(day, is_no_more, is_later, reason=reason if is_reason else "")

    def read_day(self, field: Field, text: str) -> DayCell:
        if (day := usual_day(text)) and text not in self.unknown:
            return self.possible(field, text, made(Span, (day, day, "", "", Precision.DAY)))
        is_exit, said = field is Field.EXIT, behind_since(text) if field is Field.SINCE else text
        has_left = is_exit and exit_word(text)
        if (said in self.unknown and not has_left) or (field is Field.SINCE and plain(said) in KNOWN_SINCE_BIRTH):
            return SAYS_NOTHING
        if field is Field.BIRTH and tells_other_event(text):
            return DayCell(fault=DayLeftOut(field, DayFault.OTHER_EVENT, text), is_unread=True)
        try:
            month = self.forms.month_of_exit(text) if has_left else None
            form = (month, DayReading.TWO_DIGITS) if month else self.forms.read(said, is_exit)
            if form and (not is_exit or form[1] is not DayReading.WITHIN or form[0].text):
                span, reading = form
                read = self.possible(field, text, last_month(span) if is_exit else span)
                return read._replace(reading=None if is_exit and reading is DayReading.WITHIN else reading)
            within = span_within(text, self.month_first) if is_exit and not is_span(text) else None
            span = within or read_span(said, self.month_first, legible=not is_exit)
            span = span.before() if is_exit and BEFORE.search(text) else span
        except Unreadable as error:
            # many days in the wrong order keep the whole sheet from being taken, and are told once
            if error.fault is DayFault.WRONG_ORDER:
                return self.in_other_order(field, text, said)
            told = (word_fault(text), text) if has_left else (error.fault, text if error.text == said else error.text)
            # a year that a book can't have is read, and told by itself
            is_unread = error.fault is not DayFault.YEAR
            open_days = self.forms.open_days(said) if field is Field.BIRTH and is_unread else None
            return DayCell(open_days, fault=DayLeftOut(field, *told, is_exit), is_unread=is_unread)
        is_mistyped = not is_exit and len(re.findall(r"\d", span.text)) > 4
        return self.possible(field, text, span)._replace(reading=DayReading.YEAR_ALONE if is_mistyped else None)

    def in_other_order(self, field: Field, text: str, said: str) -> DayCell:
        """A day with the month first among others that have the day first, or the other way about: of a birth it is
        inferred."""
        try:
            span = span_within(said, not self.month_first) or read_span(said, not self.month_first, legible=False)
        except Unreadable:
            return DayCell()
        if field is Field.BIRTH and span.is_day:
            span = span._replace(text=text, precision=Precision.MONTH)
        return self.possible(field, text, span)._replace(reading=DayReading.OTHER_ORDER)

    def possible(self, field: Field, text: str, span: Span) -> DayCell:
        """A text with these days, which aren't taken where they are after today."""
        # the day of a transfer is looked at where it is filed
        if field is Field.SINCE:
            return DayCell(span)
        if span.first > self.today:
            return DayCell(fault=DayLeftOut(field, DayFault.AFTER_TODAY, text))
        return made(DayCell, (span.until(self.today), True, None, False, None))

    def is_to_come(self, text: str) -> bool:
        """Has it no day up to today? A year of two digits from long ago is one to come."""
        span = self.day(Field.EXIT, text).span
        return span is None or self.today.year - span.first.year > LONG_AGO

    def is_later(self, text: str) -> bool:
        """Is it a day after today?"""
        try:
            span = span_within(text, self.month_first) or read_span(text, self.month_first, False)
        except Unreadable:
            return False
        return span.first > self.today
