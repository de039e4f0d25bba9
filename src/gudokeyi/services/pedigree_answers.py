"""What a program asks of a pedigree by itself by a word with `--json`: each answer is a value of its own, and
PEDIGREE_SCHEMAS names its kind."""
from __future__ import annotations

from collections.abc import Iterable, Mapping
from dataclasses import dataclass
from fractions import Fraction

from gudokeyi.genetics.measures import Measure
from gudokeyi.services.answers import Element, Inverse
from gudokeyi.services.audits import Audit, Entry, Kind, Told
from gudokeyi.services.library_values import Kinship
from gudokeyi.services.pedigree_tables import inverse_elements
from gudokeyi.services.pedigrees import UNIT, Pairs, Pedigree
from gudokeyi.store.coefficients import Coefficient


@dataclass(frozen=True, slots=True)
class Inbreeding:
    """An animal of a pedigree with its coefficient of inbreeding."""

    id: str
    coefficient: Coefficient


@dataclass(frozen=True, slots=True)
class Inbred:
    """All animals, in the order of the lines; then the parents without a line."""

    animals: tuple[Inbreeding, ...]


@dataclass(frozen=True, slots=True)
class PedigreePairs:
    """The pairs of animals: of the same ones each pair once, an animal with itself too."""

    pairs: tuple[Kinship, ...]


@dataclass(frozen=True, slots=True)
class Measures:
    """The measures of a reference population, each by its name."""

    measures: Mapping[str, Measure]


@dataclass(frozen=True, slots=True)
class Likely:
    """What would explain numbers that differ, and how many of them."""

    reason: str
    sentence: str
    count: int


@dataclass(frozen=True, slots=True)
class Audited:
    """How many numbers of another program were compared and are the same, and those that aren't: as single precision
    rounds, and otherwise. `absent` are ids that the pedigree lacks, `untold` its animals that the other file lacks."""

    what: Told
    compared: int
    same: int
    single_precision: tuple[Entry, ...]
    differing: tuple[Entry, ...]
    reasons: tuple[Likely, ...]
    absent: tuple[str, ...]
    untold: tuple[str, ...]


# the answers by the names of their schemas, which are those of the words
PEDIGREE_SCHEMAS: dict[str, object] = {
    "inbreeding": Inbred, "relationships": PedigreePairs, "measures": Measures, "audit": Audited,
}  # fmt: skip


def inbred(pedigree: Pedigree) -> Inbred:
    lines = pedigree.asked(["inbreeding"]).decode().splitlines()
    by_number = [Coefficient(*line.split(",")[1:]) for line in lines]
    numbers = pedigree.numbers.tolist()
    return Inbred(tuple(Inbreeding(id, by_number[number]) for id, number in zip(pedigree.ids, numbers)))


def related(pairs: Pairs, is_of_same: bool) -> PedigreePairs:
    found = (
        Kinship(id, other, Fraction(units, UNIT))
        for at, (id, entries) in enumerate(zip(pairs.ids, pairs.units))
        for other, units in list(zip(pairs.others, entries))[at if is_of_same else 0 :]
    )
    return PedigreePairs(tuple(found))


def measured(measures: Iterable[Measure]) -> Measures:
    return Measures({one.name.value: one for one in measures})


def audited(found: Audit) -> Audited:
    same, single, differing = (tuple(found.entries[kind]) for kind in (Kind.SAME, Kind.SINGLE_PRECISION, Kind.OTHER))
    reasons = tuple(Likely(one.name.lower(), one.value.format(value), count) for one, count, value in found.reasons)
    compared = sum(map(len, (same, single, differing)))
    return Audited(
        found.what, compared, len(same), single, differing, reasons, tuple(found.absent), tuple(found.untold)
    )


def inverse_of(pedigree: Pedigree) -> Inverse:
    ids = pedigree.ids
    found = sorted(inverse_elements(pedigree).items())
    elements = (Element(ids[row], ids[column], value) for (row, column), value in found if value)
    return Inverse(tuple(ids), tuple(elements))
