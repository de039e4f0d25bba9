"""Births of which a cell says between which days, months or years they were, as `zwischen 1995 und 2020`, or before or
after which: none of these is read, and the day that is inferred is one that the cell leaves open."""
from __future__ import annotations

import datetime
import re
from typing import Protocol

from gudokeyi.ingest.days import BEFORE, FIRST_DAY, LAST_DAY, NAME, Precision, Span

# what may stand around them and says nothing else
AROUND = (
    r"(?:(?:zwischen|zw|irgendwann|wohl|etwa|ungefähr|ca|circa|geb|geboren|entweder|von|vom|im|in|dem|den|der|Jahre?n?|"
    r"sometime|between|either|about|around|born|from|the|years?|entre|environ|soit|née?|de|du|le|en|ann[ée]es?|l'année)"
    r"\b\.?[ :]*|[()\[\]?~≈* ])*"
)
CORE = re.compile(rf"{AROUND}(?P<core>.*?)[ ?~.)\]]*", re.IGNORECASE)
# what stands between the two
BETWEEN = re.compile(
    r"\s*[/–—-]\s*|\s(?:oder|od\.?|und|u\.?|bis|or|and|to|till|until|ou|et|au|à|jusqu'(?:à|en|au))\s+"
    r"(?:(?:zum|den|dem|the|le)\s+)?",
    re.IGNORECASE,
)
SHORT_BEFORE = re.compile(rf"avt?\b\.?\s*(?=\d|{NAME}(?!\w))", re.IGNORECASE)
AFTER = re.compile(rf"(?:(?:after|nach|après|ap)\b\.?(?: the| dem| le)?|>)\s*(?=\d|{NAME}(?!\w))", re.IGNORECASE)
DAY = datetime.timedelta(1)


class Reader(Protocol):
    """Reads what is nothing but days, months, seasons or years."""

    def whole_span(self, text: str) -> Span | None:
        """One of them."""

    def from_to(self, first: str, last: str) -> tuple[datetime.date, datetime.date] | None:
        """The first and the last day of two, of which the first may lack what the last one has."""


def open_days(text: str, reader: Reader) -> Span | None:
    """The days that such a text leaves open."""
    found = CORE.fullmatch(text)
    core = found["core"] if found else text
    if before := BEFORE.match(core) or SHORT_BEFORE.match(core):
        last = reader.whole_span(core[before.end() :])
        return span(FIRST_DAY, last.first - DAY, text) if last else None
    if after := AFTER.match(core):
        first = reader.whole_span(core[after.end() :])
        return span(first.last + DAY, LAST_DAY, text) if first else None
    both = (reader.from_to(core[: sign.start()], core[sign.end() :]) for sign in BETWEEN.finditer(core))
    return next((span(*days, text) for days in both if days), None)


def span(first: datetime.date, last: datetime.date, text: str) -> Span | None:
    """Nothing where the first day isn't before the last."""
    return Span(first, last, "", text, Precision.NOTHING) if first < last else None
