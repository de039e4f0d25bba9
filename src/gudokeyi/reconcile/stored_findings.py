"""What an import tells as a book stores it: each entry by the code of its kind, with its data as texts, and back."""
from __future__ import annotations

import dataclasses
import datetime
import enum
import functools
import importlib
import pkgutil
import typing
from collections.abc import Callable, Iterator
from typing import Any

import gudokeyi.ingest
import gudokeyi.reconcile
import gudokeyi.ingest.findings
import gudokeyi.reconcile.findings
from gudokeyi.domain.changes import StoredFinding
from gudokeyi.domain.findings import KINDS, Entry, Finding

# the value of a name, from the texts of all names
Reader = Callable[[str, dict[str, str]], Any]
YES, NO = "yes", "no"


def told_of(entry: Entry) -> StoredFinding:
    fields = tuple(texts_of("", entry.finding))
    return StoredFinding(entry.finding.code, entry.part or "", entry.line, entry.id, fields)


def entry_of(told: StoredFinding) -> Entry:
    return Entry(told.line, told.id, value_of(kind_named(told.kind), "", dict(told.fields)))


def kind_named(name: str) -> type[Finding]:
    if name not in KINDS:
        import_kind(name)
    return KINDS[name]


def import_kind(name: str) -> None:
    """Imports modules of findings, up to the one that has a kind."""
    for module in modules_of_findings():
        importlib.import_module(module)
        if name in KINDS:
            return


def modules_of_findings() -> list[str]:
    return [
        f"{package.__name__}.{module.name}"
        for package in (gudokeyi.reconcile.findings, gudokeyi.ingest.findings)
        for module in pkgutil.iter_modules(package.__path__)
    ]


def within(name: str, part: str) -> str:
    return f"{name}.{part}" if name else part


def texts_of(name: str, value: object) -> Iterator[tuple[str, str]]:
    """The texts of a value by names, as `born.day` for a part of it; what is none has no text."""
    if isinstance(value, str):
        yield name, str(value)
    elif dataclasses.is_dataclass(value):
        kind: Any = type(value)
        for field, part in stored_parts(kind):
            one = getattr(value, field)
            # most parts are one of these
            if type(one) is str or type(one) is int:
                yield within(name, part), str(one)
            else:
                yield from texts_of(within(name, part), one)
    elif isinstance(value, tuple):
        for place, one in enumerate(value):
            yield from texts_of(within(name, str(place)), one)
    elif isinstance(value, bool):
        yield name, YES if value else NO
    elif value is not None:
        yield name, str(value.value if isinstance(value, enum.Enum) else value)


@functools.cache
def parts_of(kind: Any) -> list[str]:
    """The names of the fields of a dataclass, in order."""
    return [field.name for field in dataclasses.fields(kind)]


@functools.cache
def stored_parts(kind: Any) -> list[tuple[str, str]]:
    """The fields of a dataclass, in order, each with the name by which it is stored."""
    return [(part, stored_name(kind, part)) for part in parts_of(kind)]


def stored_name(kind: Any, part: str) -> str:
    return str(getattr(kind, "stored_fields", {}).get(part, part))


@functools.cache
def kinds_of(kind: Any) -> dict[str, Any]:
    """The types of the fields of a dataclass, by their names and in order."""
    kinds = typing.get_type_hints(kind)
    return {part: kinds[part] for part in parts_of(kind)}


@functools.cache
def later_parts(kind: Any) -> set[str]:
    """The last fields, texts that a finding may lack which an earlier version stored."""
    return {stored_name(kind, field.name) for field in dataclasses.fields(kind) if field.default == ""}


def value_of(kind: Any, name: str, texts: dict[str, str]) -> Any:
    """The value of a type from its texts."""
    return reader_of(kind)(name, texts)


@functools.cache
def reader_of(kind: Any) -> Reader:
    """Reads values of a type. What a type is made of is found once, and not for each value."""
    if dataclasses.is_dataclass(kind):
        kinds = kinds_of(kind)
        parts = [(part, reader_of(kinds[field])) for field, part in stored_parts(kind)]
        later = later_parts(kind)
        return lambda name, texts: kind(
            *[
                read(within(name, part), texts)
                for part, read in parts
                if part not in later or within(name, part) in texts
            ]
        )
    parameters = typing.get_args(kind)
    if not parameters:
        return lambda name, texts: one_value(kind, texts[name])
    read_one = reader_of(parameters[0])
    if typing.get_origin(kind) is tuple:
        return lambda name, texts: tuple(read_one(within(name, place), texts) for place in places(name, texts))
    # of a type, or none
    return lambda name, texts: read_one(name, texts) if has_texts(name, texts) else None


def has_texts(name: str, texts: dict[str, str]) -> bool:
    return any(f"{key}.".startswith(f"{name}.") for key in texts)


def places(name: str, texts: dict[str, str]) -> list[str]:
    """The places of a tuple that have texts, in order."""
    behind = [key.removeprefix(f"{name}.") for key in texts if key.startswith(f"{name}.")]
    return list(dict.fromkeys(key.partition(".")[0] for key in behind))


def one_value(kind: Any, text: str) -> Any:
    if kind is bool:
        return text == YES
    if kind is datetime.date:
        return datetime.date.fromisoformat(text)
    return kind(int(text)) if issubclass(kind, int) else kind(text)
