"""Values as JSON has them: one rule for all that services return, so that each answer is written alike."""
from __future__ import annotations

import dataclasses
import datetime
import enum
import json
import pathlib
from collections.abc import Iterable, Mapping
from fractions import Fraction

from gudokeyi.domain.findings import Finding
from gudokeyi.domain.refusals import MatingFault, Refusal

# what JSON has
Encoded = None | bool | int | float | str | list["Encoded"] | dict[str, "Encoded"]


def encoded(value: object) -> Encoded:
    """A dataclass or a named tuple is an object of its fields, a finding has its code and its sentence besides; a
    refusal has number, name and sentence; a fraction is a text as `1/16`, a day one as `2001-03-01`."""
    if isinstance(value, Refusal | MatingFault):
        return {"number": int(value), "name": value.name, "sentence": value.words()}
    if isinstance(value, enum.Enum):
        return value.value if isinstance(value.value, str | int) else value.name.lower()
    if value is None or isinstance(value, bool | int | float):
        return value
    if isinstance(value, str | Fraction | pathlib.PurePath):
        return str(value)
    if isinstance(value, datetime.date):
        return value.isoformat()
    if isinstance(value, Mapping):
        return {str(encoded(key)): encoded(one) for key, one in value.items()}
    if dataclasses.is_dataclass(value):
        of_finding = {"code": value.code, "sentence": value.words()} if isinstance(value, Finding) else {}
        fields = {field.name: encoded(getattr(value, field.name)) for field in dataclasses.fields(value)}
        return {**of_finding, **fields}
    if isinstance(value, tuple) and hasattr(value, "_asdict"):
        return {name: encoded(one) for name, one in value._asdict().items()}
    assert isinstance(value, Iterable), value
    some = [encoded(one) for one in value]
    return sorted(some, key=str) if isinstance(value, set | frozenset) else some


def json_text(value: object) -> str:
    """In one line."""
    return json.dumps(encoded(value), ensure_ascii=False)
