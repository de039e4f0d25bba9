"""Values of the society's own columns, as somebody writes them and as they are kept."""
from __future__ import annotations

import re

from gudokeyi.domain.messages import MessageText, Mistake
from gudokeyi.domain.mistakes import InvalidValue
from gudokeyi.domain.own_columns import MOST_IN_VALUE, NO, YES, OwnColumn, OwnKind
from gudokeyi.domain.requests import OwnFault, unseen_in
from gudokeyi.ingest.days import Unreadable, read_span
from gudokeyi.ingest.texts import clean, listed
from gudokeyi.ingest.words import KNOWN_YES, NO as NO_WORDS

NUMBER = re.compile(r"[-+]?\d{1,15}([.,]\d{1,15})?")
KNOWN_NO = {word.casefold() for word in listed(NO_WORDS)}


def value_read(column: OwnColumn, text: str, month_first: bool = False) -> str:
    """A value as it is kept; a mistake where it can't be one of the column."""
    text = clean(text)
    fault = fault_of(column, text, month_first)
    if fault:
        raise InvalidValue(fault)
    return kept(column, text, month_first) if text else ""


def fault_of(column: OwnColumn, text: str, month_first: bool) -> MessageText | None:
    """Why a text can't be a value of a column."""
    said = {"title": column.title, "text": text}
    if len(text) > MOST_IN_VALUE:
        return OwnFault.LONG_VALUE.said(title=column.title, most=MOST_IN_VALUE, count=len(text))
    unseen = unseen_in(text)
    if unseen:
        return unseen
    if not text or kept(column, text, month_first):
        return None
    if column.kind is OwnKind.CHOICE:
        return OwnFault.NO_CHOICE.said(**said, choices=", ".join(f"'{one}'" for one in column.choices))
    faults = {OwnKind.NUMBER: OwnFault.NO_NUMBER, OwnKind.DAY: OwnFault.NO_DAY}
    return faults.get(column.kind, OwnFault.NO_YES_OR_NO).said(**said)


def kept(column: OwnColumn, text: str, month_first: bool) -> str:
    """What is kept of a text, empty where it can't be a value."""
    if column.kind is OwnKind.NUMBER:
        return text.replace(",", ".") if NUMBER.fullmatch(text) else ""
    if column.kind is OwnKind.DAY:
        return day_of(text, month_first)
    if column.kind is OwnKind.YES_OR_NO:
        word = text.casefold()
        return YES if word in KNOWN_YES else NO if word in KNOWN_NO else ""
    if column.kind is OwnKind.CHOICE:
        return next((one for one in column.choices if one.casefold() == text.casefold()), "")
    return text


def day_of(text: str, month_first: bool) -> str:
    try:
        span = read_span(text, month_first)
    except (Unreadable, Mistake):
        return ""
    return span.first.isoformat() if span.is_day else ""
