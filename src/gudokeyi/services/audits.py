"""Another program's numbers beside the exact ones: how many differ, by how much, and what explains them."""
from __future__ import annotations

import csv
import enum
import io
import pathlib
import re
from collections.abc import Callable, Iterator, Sequence
from dataclasses import dataclass, field
from fractions import Fraction

import numpy as np

from gudokeyi.domain.messages import Mistake
from gudokeyi.genetics.lineage import Lineage, Places
from gudokeyi.genetics.pedigree import UNKNOWN
from gudokeyi.ingest.encodings import decoded
from gudokeyi.ingest.files import read_all
from gudokeyi.services.pedigree_tables import inverse_elements
from gudokeyi.services.pedigrees import UNIT, Pedigree


class Told(enum.StrEnum):
    """What another program has told."""

    INBREEDING = "inbreeding"
    RELATIONSHIP = "relationship"
    KINSHIP = "kinship"
    INVERSE = "inverse"


class Kind(enum.Enum):
    """How a number stands beside the exact one."""

    # the same to the last place that is written, or as a double
    SAME = enum.auto()
    SINGLE_PRECISION = enum.auto()
    OTHER = enum.auto()


class Reason(enum.Enum):
    """What would make the differing numbers as they are."""

    HUNDREDTHS = "they are per cent: the exact ones times a hundred"
    HALVED = "they are kinships, or coefficients, where relationships are: half of the exact ones"
    DOUBLED = "they are relationships where kinships are: the exact ones twice"
    PLUS_ONE = "they are 1 + F, the diagonal of the relationship matrix"
    MIXED = "the same numbers stand at other ids: ids were mixed, sorted or renumbered"
    HALF_KNOWN = "an animal with one known parent was taken as one without parents"
    BEHIND = "parents were cut whose line is behind that of their offspring: the program wants parents first"
    BOTH_ROLES = "the dams were cut that are sires too: the program wants a sex of each animal"
    SELFED = "of selfed animals one parent was cut"
    GENERATIONS = "only so many generations of ancestors were gone back: {}"
    FOUNDERS = "unknown parents may have been given relationships or inbreeding, as groups, by generation or by year"


@dataclass(frozen=True)
class Entry:
    """A line of the other file: its ids, the number as it is written, and the exact one."""

    line: int
    ids: tuple[str, ...]
    written: str
    exact: Fraction

    @property
    def told(self) -> Fraction:
        return number_in(self.written)

    @property
    def apart(self) -> Fraction:
        return abs(self.told - self.exact)


@dataclass
class Audit:
    """What was compared. `absent` are ids of the other file that the pedigree lacks, `untold` the animals of the
    pedigree that the other file lacks."""

    what: Told
    entries: dict[Kind, list[Entry]]
    absent: list[str]
    untold: list[str] = field(default_factory=list)
    reasons: list[tuple[Reason, int, str]] = field(default_factory=list)

    @property
    def differs(self) -> bool:
        return bool(self.entries[Kind.OTHER])


NUMBER = re.compile(r"[-+]?\d+(?:/\d+)?|[-+]?\d*[.,]?\d+(?:e[-+]?\d+)?", re.IGNORECASE | re.ASCII)
# so the files of sparse matrices begin
MATRIX_MARKET = "%%MatrixMarket"
# what a double and a single one round away, in parts of a number
OF_DOUBLE, OF_SINGLE = Fraction(1, 2**45), Fraction(1, 2**19)
# so many of those that differ are looked at for generations, and so many generations back
LOOKED_AT, MOST_GENERATIONS = 5, 12


def number_in(text: str) -> Fraction:
    return Fraction(text.replace(",", "."))


def kind_of(entry: Entry) -> Kind:
    places = re.search(r"[.,](\d*)", entry.written)
    shift = re.search(r"e([-+]?\d+)", entry.written, re.IGNORECASE)
    power = int(shift[1] if shift else 0) - len(places[1] if places else "")
    last: Fraction = Fraction(1, 10 ** abs(power)) if power < 0 else Fraction(0)
    # programs have F as 1 + F less 1, and sum up numbers about 1
    largest = max(abs(entry.told), abs(entry.exact), Fraction(1))
    if entry.apart <= last / 2 or entry.apart <= largest * OF_DOUBLE:
        return Kind.SAME
    return Kind.SINGLE_PRECISION if entry.apart <= largest * OF_SINGLE else Kind.OTHER


def audit(pedigree: Pedigree, against: pathlib.Path, what: Told | None) -> Audit:
    """The numbers of a file beside those of a pedigree. Two columns are coefficients, three are of pairs."""
    rows = list(rows_of(against))
    columns = len(rows[0][1]) if rows else 0
    if columns not in (2, 3) or (what and (what is Told.INBREEDING) != (columns == 2)):
        raise Mistake(
            f"{against} has lines of {columns} cells: write `id,F` in each, or `id,id,value` for pairs or the inverse"
        )
    uneven = next(((line, len(cells)) for line, cells in rows if len(cells) != columns), None)
    if uneven:
        line, count = uneven
        raise Mistake(
            f"{against}, line {line} has {count} cells, and the first with a number {columns}: write as many in each"
        )
    found = what or (Told.INBREEDING if columns == 2 else Told.RELATIONSHIP)
    ids = dict.fromkeys(id for _, cells in rows for id in cells[:-1])
    absent = [id for id in ids if not pedigree.has(id)]
    of_pedigree = [(line, cells) for line, cells in rows if all(map(pedigree.has, cells[:-1]))]
    exact = exact_values(pedigree, found, [tuple(cells[:-1]) for _, cells in of_pedigree])
    made: dict[Kind, list[Entry]] = {kind: [] for kind in Kind}
    for (line, cells), value in zip(of_pedigree, exact):
        entry = Entry(line, tuple(cells[:-1]), cells[-1], value)
        made[kind_of(entry)].append(entry)
    untold = [id for id in pedigree.ids if id not in ids] if found is Told.INBREEDING else []
    result = Audit(found, made, absent, untold)
    if result.differs:
        result.reasons = [*reasons(pedigree, result)]
    return result


def rows_of(path: pathlib.Path) -> Iterator[tuple[int, list[str]]]:
    """The lines with a number, each with its cells: the last one is the number."""
    text, _ = decoded(path, read_all(path))
    if text.startswith(MATRIX_MARKET):
        raise Mistake(f"{path} is a matrix with numbers of rows, which are no ids: write `id,id,value` in each line")
    first = text.partition("\n")[0]
    separator = next((one for one in ";\t," if one in first), " ")
    reader = csv.reader(io.StringIO(text), delimiter=separator, skipinitialspace=True)
    for row in reader:
        cells = [cell.strip() for cell in row if separator != " " or cell]
        if cells and NUMBER.fullmatch(cells[-1]):
            yield reader.line_num, cells
        elif cells and reader.line_num > 1:
            raise Mistake(f"{path}, line {reader.line_num}: '{cells[-1]}' is no number")


def exact_values(pedigree: Pedigree, what: Told, ids: Sequence[tuple[str, ...]]) -> list[Fraction]:
    if what is Told.INBREEDING:
        return pedigree.inbreeding([id for id, in ids], exact=True)
    if what is Told.INVERSE:
        elements = inverse_elements(pedigree)
        places = [tuple(pedigree.places(pair).tolist()) for pair in ids]
        return [elements.get((max(pair), min(pair)), Fraction(0)) for pair in places]
    partners: dict[str, list[str]] = {}
    for one, other in ids:
        partners.setdefault(one, []).append(other)
    unit = 2 * UNIT if what is Told.KINSHIP else UNIT
    entries: dict[tuple[str, str], int] = {}
    for group in groups_of(partners):
        others = list(dict.fromkeys(other for one in group for other in partners[one]))
        pairs = pedigree.pairs(group, others)
        entries |= {(one, other): units for one, row in zip(group, pairs.units) for other, units in zip(others, row)}
    return [Fraction(entries[one, other], unit) for one, other in ids]


def groups_of(partners: dict[str, list[str]]) -> Iterator[list[str]]:
    """Animals that are asked for together: so many that their pairs are some hundred thousand."""
    ids = [*partners]
    at_once = max(1, 300_000 // max(map(len, partners.values()), default=1) // 10)
    for first in range(0, len(ids), at_once):
        yield ids[first : first + at_once]


# What would explain those that differ.


def reasons(pedigree: Pedigree, found: Audit) -> Iterator[tuple[Reason, int, str]]:
    """The reasons, each with how many of those that differ it explains, the one that explains most first."""
    entries = found.entries[Kind.OTHER]
    explained = [(reason, sum(map(fits, entries)), "") for reason, fits in simple(found).items()]
    if found.what is Told.INBREEDING:
        explained += [(reason, count_of(pedigree, lineage, entries), "") for reason, lineage in cut_lineages(pedigree)]
        explained += generations(pedigree, entries)
    likely = sorted((one for one in explained if 2 * one[1] >= len(entries)), key=lambda one: -one[1])
    if likely:
        yield from likely[:2]
    elif all(entry.told > entry.exact for entry in entries) and 2 * len(entries) >= may_differ(pedigree, found):
        yield Reason.FOUNDERS, len(entries), ""


def may_differ(pedigree: Pedigree, found: Audit) -> int:
    """How many numbers differ where all unknown parents are related: of animals those with a known parent."""
    all_of = [entry for entries in found.entries.values() for entry in entries]
    if found.what is not Told.INBREEDING:
        return len(all_of)
    places = pedigree.places([entry.ids[0] for entry in all_of])
    return int(((pedigree.lineage.sires[places] != UNKNOWN) | (pedigree.lineage.dams[places] != UNKNOWN)).sum())


def is_near(told: Fraction, wanted: Fraction) -> bool:
    return abs(told - wanted) <= max(abs(wanted), Fraction(1, 100)) / 2**14


def simple(found: Audit) -> dict[Reason, Callable[[Entry], bool]]:
    """Reasons that a number shows by itself, beside its exact one or those of others."""
    all_of = [entry for entries in found.entries.values() for entry in entries]
    exact = sorted(entry.exact for entry in all_of)
    told = sorted(entry.told for entry in all_of)
    are_mixed = all(is_near(one, other) for one, other in zip(told, exact))
    return {
        Reason.HUNDREDTHS: lambda entry: is_near(entry.told, entry.exact * 100),
        Reason.HALVED: lambda entry: found.what is Told.RELATIONSHIP and is_near(entry.told, entry.exact / 2),
        Reason.DOUBLED: lambda entry: found.what is Told.KINSHIP and is_near(entry.told, entry.exact * 2),
        Reason.PLUS_ONE: lambda entry: found.what is Told.INBREEDING and is_near(entry.told, entry.exact + 1),
        Reason.MIXED: lambda entry: are_mixed,
    }


def cut_lineages(pedigree: Pedigree) -> Iterator[tuple[Reason, Lineage]]:
    """The pedigree as programs cut it."""
    sires, dams = pedigree.lineage.sires, pedigree.lineage.dams
    are_both = (sires != UNKNOWN) & (dams != UNKNOWN)
    yield Reason.HALF_KNOWN, Lineage(np.where(are_both, sires, UNKNOWN), np.where(are_both, dams, UNKNOWN))
    places = np.arange(len(pedigree))
    yield Reason.BEHIND, Lineage(np.where(sires < places, sires, UNKNOWN), np.where(dams < places, dams, UNKNOWN))
    are_sires = np.zeros(len(pedigree) + 1, bool)
    are_sires[sires] = True
    yield Reason.BOTH_ROLES, Lineage(sires, np.where(are_sires[dams], UNKNOWN, dams))
    yield Reason.SELFED, Lineage(sires, np.where(sires == dams, UNKNOWN, dams))


def count_of(pedigree: Pedigree, lineage: Lineage, entries: Sequence[Entry]) -> int:
    """How many of the numbers are the coefficients of another lineage of the same animals."""
    if (lineage.sires == pedigree.lineage.sires).all() and (lineage.dams == pedigree.lineage.dams).all():
        return 0
    exact = pedigree.with_parents(lineage).inbreeding([entry.ids[0] for entry in entries], exact=True)
    return sum(is_near(entry.told, value) for entry, value in zip(entries, exact))


def generations(pedigree: Pedigree, entries: Sequence[Entry]) -> Iterator[tuple[Reason, int, str]]:
    """So many generations back the first of those that differ have the numbers that are told."""
    some = entries[:: max(1, len(entries) // LOOKED_AT)]
    for most in range(1, MOST_GENERATIONS + 1):
        values = [within(pedigree, pedigree.places([entry.ids[0]]), most) for entry in some]
        count = sum(is_near(entry.told, value) for entry, value in zip(some, values))
        if count == len(some):
            yield Reason.GENERATIONS, len(entries), str(most)
            return


def within(pedigree: Pedigree, animal: Places, most: int) -> Fraction:
    """The coefficient of an animal by its ancestors of so many generations."""
    lineage = pedigree.lineage
    has_parents = np.zeros(len(pedigree), bool)
    new = animal
    for _ in range(most):
        has_parents[new] = True
        parents = np.concatenate([lineage.sires[new], lineage.dams[new]])
        new = np.unique(parents[parents != UNKNOWN])
    cut = Lineage(np.where(has_parents, lineage.sires, UNKNOWN), np.where(has_parents, lineage.dams, UNKNOWN))
    kept = pedigree.with_parents(cut).keep([pedigree.ids[animal[0]]])
    return kept.inbreeding([pedigree.ids[animal[0]]], exact=True)[0]
