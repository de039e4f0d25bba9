"""The JSON schemas of what is encoded, made of the kinds of values: `schemas` has them as files, for other programs."""
from __future__ import annotations

import dataclasses
import datetime
import enum
import pathlib
import types
import typing
from collections.abc import Collection, Mapping
from fractions import Fraction

from gudokeyi.domain.findings import Finding
from gudokeyi.domain.refusals import MatingFault, Refusal

DRAFT = "https://json-schema.org/draft/2020-12/schema"
Schema = dict[str, typing.Any]
SIMPLE: dict[object, Schema] = {
    str: {"type": "string"}, pathlib.Path: {"type": "string"}, bool: {"type": "boolean"}, int: {"type": "integer"},
    float: {"type": "number"}, type(None): {"type": "null"}, object: {}, typing.Any: {},
    Fraction: {"type": "string", "pattern": "^-?[0-9]+(/[0-9]+)?$"},
    datetime.date: {"type": "string", "pattern": "^[0-9]{4}-[0-9]{2}-[0-9]{2}$"},
    datetime.datetime: {"type": "string", "pattern": "^[0-9]{4}-[0-9]{2}-[0-9]{2}T"},
}  # fmt: skip
# an object whose fields besides are those of its kind
OF_FINDING: Schema = {
    "type": "object", "properties": {"code": SIMPLE[str], "sentence": SIMPLE[str]}, "required": ["code", "sentence"],
}  # fmt: skip
OF_REFUSAL: Schema = {
    "type": "object",
    "properties": {"number": SIMPLE[int], "name": SIMPLE[str], "sentence": SIMPLE[str]},
    "required": ["number", "name", "sentence"], "additionalProperties": False,
}  # fmt: skip


def schema_of(kind: typing.Any) -> Schema:
    """That of what is encoded of a value of a kind."""
    if kind in SIMPLE:
        return SIMPLE[kind]
    origin, inner = typing.get_origin(kind), typing.get_args(kind)
    if origin in (typing.Union, types.UnionType):
        return {"anyOf": [schema_of(one) for one in inner]}
    if isinstance(origin, type) and issubclass(origin, Mapping):
        return {"type": "object", "additionalProperties": schema_of(inner[1])}
    if isinstance(origin, type) and issubclass(origin, Collection):
        return {"type": "array", "items": schema_of(inner[0])}
    assert isinstance(kind, type), kind
    if issubclass(kind, Refusal | MatingFault):
        return OF_REFUSAL
    if issubclass(kind, enum.Enum):
        return {"enum": [one.value for one in kind]}
    if issubclass(kind, Finding):
        return OF_FINDING
    return schema_of_fields(kind)


def schema_of_fields(kind: typing.Any) -> Schema:
    """That of a dataclass or a named tuple."""
    hints = typing.get_type_hints(kind)
    names = [one.name for one in dataclasses.fields(kind)] if dataclasses.is_dataclass(kind) else list(kind._fields)
    properties = {name: schema_of(hints[name]) for name in names}
    return {"type": "object", "properties": properties, "required": names, "additionalProperties": False}


def schema_named(name: str, kind: typing.Any) -> Schema:
    """The whole schema of an answer."""
    return {"$schema": DRAFT, "title": name, **schema_of(kind)}
