"""The commands of another program with their fields, each read as what it has to be; a fault names the field."""
from __future__ import annotations

import datetime
import functools
import json
from collections.abc import Callable, Mapping
from dataclasses import dataclass
from typing import TYPE_CHECKING

from gudokeyi.domain.kinds import ExitReason, Field
from gudokeyi.domain.messages import Mistake
from gudokeyi.domain.requests import refuse_text
from gudokeyi.ingest.command_lines import CommandLine
from gudokeyi.ingest.days import ANY_DAY, Span
from gudokeyi.ingest.texts import clean
from gudokeyi.services import option_values
from gudokeyi.services.filing import refuse_day

if TYPE_CHECKING:
    from gudokeyi.reconcile.corrections import Exit
    from gudokeyi.reconcile.findings.animals import OwnerSince

# so many letters a request has at most
MOST_IN_REQUEST = 100
UNKNOWN, NONE = "unknown", "none"
YES, NO = ("yes", "true", "1"), ("no", "false", "0")


class FieldFault(Exception):
    """A field that can't be so, with a sentence that says what to do."""

    def __init__(self, field: str, sentence: str) -> None:
        super().__init__(field, sentence)
        self.field, self.sentence = field, sentence


class ValueFault(Mistake):
    """What another program wrote can't be read: no page shows it."""


@dataclass(frozen=True, slots=True)
class Newborn:
    """One of a litter."""

    id: str
    sex: str
    name: str = ""


@dataclass(frozen=True, slots=True)
class Asked:
    """A command as it is asked for: what it is, its fields as they were read, and all of it as JSON, by which it is
    seen whether the same is asked again."""

    line: int
    request: str
    kind: str
    values: Mapping[str, object]
    text: str


def text_of(value: object) -> str:
    if isinstance(value, int) and not isinstance(value, bool):
        return str(value)
    if not isinstance(value, str):
        raise ValueFault("this has to be a text: put it between quotation marks")
    return clean(value)


def needed(value: object) -> str:
    text = text_of(value)
    if not text:
        raise ValueFault("this may not be empty: write it, or leave the field out")
    return text


def note(value: object) -> str:
    """Of several lines."""
    if not isinstance(value, str):
        raise ValueFault("this has to be a text: put it between quotation marks")
    return value


def bounded(field: Field, value: object) -> str:
    text = text_of(value)
    refuse_text(field, text)
    return text


def day(value: object) -> datetime.date:
    found = option_values.day(text_of(value))
    refuse_day(found)
    return found


def born(value: object) -> Span:
    text = text_of(value)
    return ANY_DAY if text == UNKNOWN else span(text)


def span(text: str) -> Span:
    """A day, month or year that has begun."""
    found = option_values.day_or_period(text)
    refuse_day(found.first)
    return found


def exit_said(value: object) -> Exit:
    # corrections alone have it
    from gudokeyi.reconcile.corrections import Exit

    text = text_of(value)
    if text == NONE:
        return Exit(False)
    return Exit(True, None if text == UNKNOWN else span(text))


def yes_or_no(value: object) -> bool:
    text = str(value).strip().lower()
    if text not in YES + NO:
        raise ValueFault(f"'{value}' is neither true nor false: write one of them")
    return text in YES


def reason(value: object) -> str:
    text = text_of(value)
    if text not in (*ExitReason, NONE):
        raise ValueFault(f"'{text}' is none of {', '.join((*ExitReason, NONE))}")
    return "" if text == NONE else text


def parent(value: object) -> str:
    """Empty for an unknown one."""
    text = "" if value is None else text_of(value)
    return "" if text == "0" else text


def owners(value: object) -> tuple[OwnerSince, ...]:
    """`[{"owner": NAME, "since": DAY}, ..]`, the first one without a day, or as a text `NAME; NAME=DAY`."""
    # corrections alone have owners
    from gudokeyi.reconcile.findings.animals import OwnerSince

    if isinstance(value, str):
        parts = (one.rpartition("=") for one in value.split(";") if one.strip())
        value = [{"owner": name or rest, **({"since": rest} if name else {})} for name, _, rest in parts]
    return tuple(OwnerSince(bounded(Field.OWNER, one.get("owner", "")), day(one["since"]) if "since" in one else None)
                 for one in objects(value, {"owner", "since"}))  # fmt: skip


def newborns(value: object) -> tuple[Newborn, ...]:
    """`[{"id": ID, "sex": SEX, "name": NAME}, ..]`, or as a text `ID=SEX; ID=SEX=NAME`."""
    if isinstance(value, str):
        parts = (one.split("=") for one in value.split(";") if one.strip())
        value = [dict(zip(("id", "sex", "name"), part)) for part in parts]
    some = tuple(
        Newborn(bounded(Field.ID, one.get("id", "")), option_values.sex(text_of(one.get("sex", ""))),
                bounded(Field.NAME, one.get("name", "")))
        for one in objects(value, {"id", "sex", "name"})
    )  # fmt: skip
    if not some or not all(one.id for one in some) or len({one.id for one in some}) < len(some):
        raise ValueFault("a litter has offspring, each with an id of its own: name them, or leave the line out")
    return some


def objects(value: object, names: set[str]) -> list[dict[str, object]]:
    if not isinstance(value, list) or not all(isinstance(one, dict) and one.keys() <= names for one in value):
        raise ValueFault(f"this has to be a list of objects with {', '.join(sorted(names))}")
    return value


READERS: dict[str, Callable[[object], object]] = {
    "id": functools.partial(bounded, Field.ID), "new_id": functools.partial(bounded, Field.ID),
    "name": functools.partial(bounded, Field.NAME), "owner": functools.partial(bounded, Field.OWNER),
    "to": functools.partial(bounded, Field.OWNER), "from": functools.partial(bounded, Field.OWNER),
    "sex": lambda value: option_values.sex(text_of(value)), "day": day, "born": born, "sire": parent, "dam": parent,
    "embryo": yes_or_no, "castrated": yes_or_no, "owners": owners, "offspring": newborns, "exit": exit_said,
    "reason": reason, "text": note, "breed": lambda value: option_values.three_letters(text_of(value)),
    "country": lambda value: option_values.three_letters(text_of(value)),
}  # fmt: skip
# of each kind what it needs and what it may have besides
KINDS: dict[str, tuple[tuple[str, ...], tuple[str, ...]]] = {
    "birth": (("id", "sex", "day"), ("name", "sire", "dam", "owner", "embryo", "breed", "country")),
    "litter": (("offspring", "day"), ("sire", "dam", "owner", "embryo", "breed", "country")),
    "parents": (("id",), ("sire", "dam")),
    "transfer": (("id", "day", "to"), ("from",)),
    "exit": (("id", "day"), ()),
    "correction": (
        ("id",), ("new_id", "name", "sex", "castrated", "born", "sire", "dam", "embryo", "owners", "exit", "reason"),
    ),
    "note": (("id", "text"), ("day",)),
}  # fmt: skip


def asked_in(one: CommandLine) -> Asked:
    """What a line asks for; raises `FieldFault`."""
    if one.fault:
        raise FieldFault("", one.fault)
    request = str(of_field("request", needed, one.values.get("request", "")))
    if len(request) > MOST_IN_REQUEST:
        raise FieldFault("request", f"a request has {MOST_IN_REQUEST} letters at most: write a shorter one")
    kind = one.values.get("kind")
    if not isinstance(kind, str) or kind.strip() not in KINDS:
        raise FieldFault("kind", f"a kind is one of {', '.join(KINDS)}: write one of them")
    needs, may = KINDS[kind := kind.strip()]
    lacks = next((name for name in needs if name not in one.values), None)
    if lacks:
        raise FieldFault(lacks, f"the kind {kind} needs the field {lacks}: write it")
    given = {name: value for name, value in one.values.items() if name not in ("request", "kind")}
    if kind in ("parents", "correction") and not given.keys() & {*may}:
        raise FieldFault(may[0], f"the kind {kind} needs what is to be otherwise: write one of {', '.join(may)}")
    values = {}
    for name, value in given.items():
        if name not in needs + may:
            raise FieldFault(name, f"the kind {kind} has no field {name}: it has {', '.join(needs + may)}")
        values[name] = of_field(name, READERS[name], value)
    text = json.dumps({"kind": kind, **given}, sort_keys=True, ensure_ascii=False)
    return Asked(one.line, request, kind, values, text)


def of_field(name: str, reader: Callable[[object], object], value: object) -> object:
    try:
        return reader(value)
    except Mistake as mistake:
        raise FieldFault(name, mistake.sentences[0]) from None
