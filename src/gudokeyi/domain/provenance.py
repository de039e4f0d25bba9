"""Where a birth day, an exit or a sex comes from that the sheet doesn't give, as data, and in words."""
from __future__ import annotations

import datetime
import enum
import re
from collections.abc import Mapping
from dataclasses import dataclass, replace

from gudokeyi.domain.messages import Worded
from gudokeyi.domain.wording import OptionalPart, Text, Told, Word

# how the words for an exit begin where its day isn't known: then the book has no exit
NO_DAY = Word.NO_DAY.value


@dataclass(frozen=True, slots=True)
class Month(Told):
    year: str
    month: str

    message = Text("{year}-{month}")


@dataclass(frozen=True, slots=True)
class Period(Told):
    """A month as `2002-02`, or a year as `2002`, and the day that a cell writes and that there isn't."""

    text: str
    no_such_day: str = ""

    message = Text("{maybe_month}{maybe_year}{maybe_no_such_day}")
    parts = {
        "maybe_month": OptionalPart("the month {month}"),
        "maybe_year": OptionalPart("the year {year}"),
        "maybe_no_such_day": OptionalPart(", since there is no day {no_such_day}"),
    }

    def values(self) -> Mapping[str, object]:
        year, has_month, month = self.text.partition("-")
        return {"month": Month(year, month), "year": ""} if has_month else {"month": None, "year": year}


class BirthSource(enum.Enum):
    GIVEN = "given"
    PERIOD = "period"
    OFFSPRING = "offspring"
    PARENTS = "parents"
    EARLIEST = "earliest"
    NEAREST = "nearest"
    INVENTED = "invented"


BIRTH_WORDS = {
    BirthSource.GIVEN: "",
    BirthSource.OFFSPRING: "from its offspring",
    BirthSource.PARENTS: "from its parents",
    BirthSource.EARLIEST: "the earliest that it can be, since no parent and no offspring has one",
    BirthSource.NEAREST: "the nearest to the book's that an exit leaves open",
    BirthSource.INVENTED: "invented",
}


@dataclass(frozen=True, slots=True)
class BirthBasis(Told):
    """What a birth day comes from; a message is empty where the sheet gives it."""

    source: BirthSource = BirthSource.GIVEN
    period: Period | None = None

    message = Text("{maybe_period}{maybe_reason}")
    page_message = Text("{source}{maybe_period_text}")
    parts = {
        "maybe_period": OptionalPart("from {period}"),
        "maybe_reason": OptionalPart("{reason}"),
        "maybe_period_text": OptionalPart(": {period_text}"),
    }

    def values(self) -> Mapping[str, object]:
        return {"reason": "" if self.period else BIRTH_WORDS.get(self.source, "")}

    @property
    def is_inferred(self) -> bool:
        return self.source is not BirthSource.GIVEN

    @property
    def is_invented(self) -> bool:
        return self.source is BirthSource.INVENTED

    def has_year(self) -> bool:
        """Is the birth year known, though the day may not be?"""
        return self.source in (BirthSource.GIVEN, BirthSource.PERIOD)

    def mark(self) -> str:
        return mark(self.is_inferred, self.is_invented)


GIVEN_BIRTH = BirthBasis()


class ExitSource(enum.Enum):
    # the sheet gives the day, or the animal hasn't left
    GIVEN = "given"
    PERIOD = "period"
    UNKNOWN_DAY = "unknown day"


@dataclass(frozen=True, slots=True)
class ExitBasis:
    """What an exit comes from; `text` is the cell of one whose day isn't known, or what a sheet says beside the day of
    why the animal left."""

    source: ExitSource = ExitSource.GIVEN
    period: Period | None = None
    text: str = ""

    @property
    def is_inferred(self) -> bool:
        return self.source is not ExitSource.GIVEN

    @property
    def day_is_unknown(self) -> bool:
        return self.source is ExitSource.UNKNOWN_DAY

    def words(self) -> str:
        if self.day_is_unknown:
            return f"{NO_DAY}: '{self.text}'" if self.text else NO_DAY
        parts = [self.period.words()] if self.period else []
        return ": ".join([*parts, f"'{self.text}'"] if self.text else parts)

    def mark(self) -> str:
        return mark(self.is_inferred)

    def with_reason(self, reason: str) -> ExitBasis:
        """The same with what a sheet says beside it; what isn't said yet stands in brackets behind the text."""
        if not reason or has_whole(self.text, reason):
            return self
        is_more = not self.text or (has_whole(reason, self.text) and not self.day_is_unknown)
        return replace(self, text=reason if is_more else f"{self.text} ({reason})")


GIVEN_EXIT = ExitBasis()


def has_whole(text: str, words: str) -> bool:
    """Do some words stand whole in a text?"""
    return text == words or re.search(rf"(?<!\w){re.escape(words)}(?!\w)", text) is not None


def reason_of(left: datetime.date | None, basis: ExitBasis) -> str:
    """What a sheet says beside the day of an exit."""
    return basis.text if left else ""


class SexSource(Worded):
    """What a sex comes from."""

    GIVEN = "given"
    SIRE = "sire"
    DAM = "dam"
    BOOK = "book"
    NOTHING = "nothing"
    INVENTED = "invented"

    @property
    def is_inferred(self) -> bool:
        return self is not SexSource.GIVEN

    def words(self) -> str:
        return SEX_WORDS[self]

    def mark(self) -> str:
        return mark(self.is_inferred, self is SexSource.INVENTED)


SEX_WORDS = {
    SexSource.GIVEN: "",
    SexSource.SIRE: "since it is a sire",
    SexSource.DAM: "since it is a dam",
    SexSource.BOOK: "as in the book",
    SexSource.NOTHING: "since nothing else is known",
    SexSource.INVENTED: "invented",
}


class OwnerDay(enum.Enum):
    """What the day comes from since which the owner has an animal."""

    GIVEN = "given"
    # no sheet said it, so that of the import stands for it
    INFERRED = "inferred"

    @property
    def is_inferred(self) -> bool:
        return self is OwnerDay.INFERRED

    def mark(self) -> str:
        return mark(self.is_inferred)


def mark(is_inferred: bool, is_invented: bool = False) -> str:
    """What stands behind a day or a sex that the sheet doesn't give."""
    return " (invented)" if is_invented else " (inferred)" if is_inferred else ""
