"""What is answered to the commands of another program, each by the request of its own that it came with."""
from __future__ import annotations

from collections.abc import Mapping
from dataclasses import dataclass, field
from typing import Any


@dataclass(frozen=True, slots=True)
class Accepted:
    """The register took it: by which change, the animal, and its coefficient of inbreeding after the whole batch."""

    request: str
    answer: str = field(default="accepted", init=False)
    change: int
    id: str
    registration_number: str
    coefficient: str
    percent: str


@dataclass(frozen=True, slots=True)
class Refused:
    """The register refused it: the refusal's number and name, and a sentence. Of a correction, of which nothing is
    kept then, there is no change."""

    request: str
    answer: str = field(default="refused", init=False)
    change: int | None
    id: str
    refusal: int
    name: str
    sentence: str


@dataclass(frozen=True, slots=True)
class Litter:
    """A litter: accepted where each of its births is."""

    request: str
    answer: str
    change: int
    offspring: tuple[Accepted | Refused, ...]


@dataclass(frozen=True, slots=True)
class Faulty:
    """Nothing of it was filed: the field that is at fault, empty for the line as a whole, and what to do."""

    request: str
    answer: str = field(default="faulty", init=False)
    line: int
    field: str
    sentence: str


Filed = Accepted | Refused | Litter
Answer = Filed | Faulty


def filed_answer(kept: Mapping[str, Any]) -> Filed:
    """One that was kept as JSON."""
    values = dict(kept)
    if "offspring" in values:
        offspring = tuple(filed_answer(one) for one in values.pop("offspring"))
        return Litter(**values, offspring=offspring)  # type: ignore[arg-type]
    return Accepted(**values) if values.pop("answer") == "accepted" else Refused(**values)
