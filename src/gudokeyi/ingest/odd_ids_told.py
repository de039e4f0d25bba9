"""What is told of ids that are written unlike nearly all others of a sheet: many of one kind are told together."""
from __future__ import annotations

import collections
from collections.abc import Collection, Iterable, Mapping
from typing import Container, NamedTuple

from gudokeyi.domain.findings import Report
from gudokeyi.ingest.animals import DAM_OF, SIRE_OF, SheetAnimal
from gudokeyi.ingest.findings.cells import IdOfOtherAlphabet, IdUnlikeOthers, IdWithFewerDigits
from gudokeyi.ingest.findings.odd_ids import (
    IdsOfOtherAlphabet, IdsUnlikeOthers, IdsWithFewerDigits, IdsWithMore, first_of,
)  # fmt: skip
from gudokeyi.ingest.odd_ids import FORMS, LEAST, Oddity, has_fewer, in_one_way, odd_ids
from gudokeyi.ingest.texts import nearly

# so many ids that are odd in one way are told together
MANY = 3
# how ids are odd that are told one by one, and together
ODD_ID = {Oddity.FEWER_DIGITS: IdWithFewerDigits, Oddity.OTHER_ALPHABET: IdOfOtherAlphabet}
ODD_IDS = {
    Oddity.FEWER_DIGITS: IdsWithFewerDigits, Oddity.OTHER_ALPHABET: IdsOfOtherAlphabet, Oddity.UNLIKE: IdsUnlikeOthers,
}  # fmt: skip


def tell_odd_ids(animals: Mapping[str, SheetAnimal], known: Container[str], report: Report) -> None:
    """Those that the book hasn't, at which somebody looked, and of rows of which nothing else is told."""
    for those in in_one_way(odd_ids([*animals], known)):
        id, usual, oddity = those[0]
        if len(those) >= MANY:
            ids = [one.id for one in those]
            report.add(0, "", ODD_IDS[oddity](len(ids), animals[id].line, first_of(ids), usual))
            continue
        for id, usual, _ in those:
            found = IdUnlikeOthers(id, usual) if oddity is Oddity.UNLIKE else ODD_ID[oddity](usual)
            report.add(animals[id].line, id, found)


# Ids that parents' cells have otherwise: with a sign less, or with more zeros.


class Otherwise(NamedTuple):
    """Ids of rows, the first of which parents' cells have as it is written there, and a usual id."""

    ids: list[str]
    written: str
    usual: str


def tell_ids_otherwise(animals: Mapping[str, SheetAnimal], known: Collection[str], report: Report) -> set[str]:
    """Answers the ids of those that are told; the book hasn't these."""
    parents = {*map(SIRE_OF, animals.values()), *map(DAM_OF, animals.values())} - animals.keys() - {""}
    if len(animals) < LEAST or len(parents) < MANY:
        return set()
    exact = {id: id.translate(FORMS) for id in animals}
    usual, _ = collections.Counter(exact.values()).most_common(1)[0]
    example = next(id for id, form in exact.items() if form == usual)
    told = set[str]()
    if (more := with_more(animals, exact, usual, parents)) and not {*more}.intersection(known):
        report.add(0, "", IdsWithMore(len(more), animals[more[0]].line, first_of(more), example, without_sign(more[0], usual)))
        told |= {*more}
    if (fewer := with_fewer_zeros(exact, usual, parents)) and not {*fewer}.intersection(known):
        report.add(0, "", IdsWithFewerDigits(len(fewer), animals[fewer[0]].line, first_of(fewer), example))
        told |= {*fewer}
    return told


def without_sign(id: str, usual: str) -> str:
    """The id without the only sign or letter that it has more than the usual form; empty where it has none."""
    form = id.translate(FORMS)
    places = (at for at in range(len(form)) if form[at] != "0" and form[:at] + form[at + 1 :] == usual)
    at = next(places, None) if len(form) == len(usual) + 1 else None
    return "" if at is None else id[:at] + id[at + 1 :]


def with_more(
    animals: Mapping[str, SheetAnimal], exact: Mapping[str, str], usual: str, parents: Collection[str]
) -> list[str]:
    """Ids with a sign more that others haven't, and without which some parents' cells have them; these stand first."""
    meant = {id: without for id in exact if exact[id] != usual and (without := without_sign(id, usual))}
    named = {without: id for id, without in meant.items() if without in parents}
    is_rare = 2 * len(meant) < sum(form == usual for form in exact.values())
    if len(named) < MANY or not is_rare or any(without in animals for without in meant.values()):
        return []
    if any(is_born_first(animals[named[parent]], one) for one, parent in links(animals, named)):
        return []
    return sorted(meant, key=lambda id: meant[id] not in parents)


def links(animals: Mapping[str, SheetAnimal], named: Container[str]) -> Iterable[tuple[SheetAnimal, str]]:
    """The animals that name one of some parents, each with that."""
    return [(one, parent) for one in animals.values() for parent in (one.sire, one.dam) if parent in named]


def is_born_first(parent: SheetAnimal, offspring: SheetAnimal) -> bool:
    """Is an animal born before the one that may be its parent?"""
    return offspring.birth.last <= parent.birth.first


def with_fewer_zeros(exact: Mapping[str, str], usual: str, parents: Collection[str]) -> list[str]:
    """Ids with fewer digits than nearly all others, of which some parents' cells have the zeros."""
    full = {nearly(parent): parent for parent in parents if parent.translate(FORMS) == usual}
    fewer = [id for id, form in exact.items() if form.count("0") < usual.count("0") and has_fewer(form, usual)]
    named = [id for id in fewer if nearly(id) in full]
    is_rare = 2 * len(fewer) < sum(form == usual for form in exact.values())
    return fewer if len(named) >= MANY and is_rare else []
