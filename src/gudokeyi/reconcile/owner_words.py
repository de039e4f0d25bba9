"""Owners whose names have the same words in another order, an initial in place of a first name, no `sen.` or `jun.`, or
a `?` where a letter is lost."""
from __future__ import annotations

import collections
import re
from collections.abc import Iterable, Iterator

from gudokeyi.ingest.texts import plain
from gudokeyi.reconcile.findings.animals import OwnersAlike, OwnersOtherwise, Spelling
from gudokeyi.reconcile.findings.owners import MOST_OTHERS, OwnerOfGeneration, OwnerWithInitial
from gudokeyi.reconcile.next_book import NextBook
from gudokeyi.reconcile.owners import A_NAME, FAMILY, OF_MEN, OF_WOMEN, TITLE, last_name, name_alone, owners_of_rows

# what stands between the words of a name, and a sign in place of a letter
BETWEEN, LOST = re.compile(r"[\s,;.]+"), re.compile(r"(?<=[^\W\d_])\?(?=[^\W\d_]|$|\s)")

# what tells a father and a child of one name apart
GENERATIONS = {"sen", "sr", "snr", "senior", "jun", "jr", "jnr", "junior"}


def tell_owners_of_like_words(
    next_book: NextBook, owners_before: set[str], rows: collections.Counter[str] | None = None
) -> None:
    """Owners of whom one at least is new: others were told when they came. `rows` are the owners' of the sheet where
    they are counted already."""
    rows = owners_of_rows(next_book) if rows is None else rows
    new = rows.keys() - owners_before
    if not new:
        return
    owners = sorted({*rows, *owners_before})
    for found in [*in_other_order(owners), *with_lost_letters(owners)]:
        if not new.isdisjoint(found):
            kind = OwnersAlike if any(map(LOST.search, found)) else OwnersOtherwise
            next_book.report.add(0, "", kind(tuple(Spelling(one, rows[one]) for one in found)))
    for owner, others in with_initials(owners).items():
        if not new.isdisjoint((owner, *others)):
            next_book.report.add(0, "", OwnerWithInitial(owner, tuple(others[:MOST_OTHERS])))
    for owner, others in of_generations(owners).items():
        if not new.isdisjoint((owner, *others)):
            next_book.report.add(0, "", OwnerOfGeneration(owner, tuple(others[:MOST_OTHERS])))


def words_of_name(owner: str) -> list[str]:
    """Its words without titles."""
    return [word for word in BETWEEN.split(TITLE.sub(" ", owner)) if plain(word)]


def may_be_one(one: str, other: str) -> bool:
    """Is none of them a man and the other a woman?"""
    return not any(man.search(one) and woman.search(other) for man, woman in ((OF_MEN, OF_WOMEN), (OF_WOMEN, OF_MEN)))


def in_other_order(owners: Iterable[str]) -> Iterator[list[str]]:
    """Names with the same words, which aren't alike else."""
    found = collections.defaultdict[tuple[str, ...], list[str]](list)
    for owner in owners:
        found[tuple(sorted(map(last_name, words_of_name(owner))))].append(owner)
    for words, those in found.items():
        alike = [one for one in those if may_be_one(those[0], one)]
        if len(words) > 1 and len({*map(name_alone, alike)}) > 1:
            yield alike


def with_lost_letters(owners: list[str]) -> Iterator[list[str]]:
    """A name with such a sign, and those that have a letter there."""
    lost = [owner for owner in owners if LOST.search(owner)]
    for owner in lost:
        form = re.compile("".join("[^\\W\\d_]" if one == "?" else re.escape(one) for one in owner), re.IGNORECASE)
        others = [one for one in owners if len(one) == len(owner) and form.fullmatch(one)]
        if others:
            yield sorted([owner, *others])


def of_generations(owners: Iterable[str]) -> dict[str, list[str]]:
    """By names of several words those that have `sen.`, `jun.` or the like more."""
    alone, with_more = (collections.defaultdict[tuple[str, ...], list[str]](list) for _ in range(2))
    for owner in owners:
        words = [*map(last_name, words_of_name(owner))]
        name = [word for word in words if word not in GENERATIONS]
        (alone if name == words else with_more)[tuple(sorted(name))].append(owner)
    both = [(owner, key) for key in with_more if len(key) > 1 for owner in alone[key]]
    found = {owner: [one for one in with_more[key] if may_be_one(owner, one)] for owner, key in both}
    return {owner: others for owner, others in found.items() if others}


def with_initials(owners: Iterable[str]) -> dict[str, list[str]]:
    """By names with a last name and an initial those that have a first name that begins so."""
    first_names = collections.defaultdict[tuple[str, str], list[str]](list)
    initials = dict[str, tuple[str, str]]()
    for owner in owners:
        words = words_of_name(owner)
        if len(words) != 2 or FAMILY.search(owner) or not all(map(A_NAME.fullmatch, words)):
            continue
        short = [word for word in words if len(plain(word)) == 1]
        if len(short) == 1:
            [last] = [word for word in words if word not in short]
            initials[owner] = last_name(last), plain(short[0])
        for first, last in (words, words[::-1]) if not short else ():
            first_names[last_name(last), plain(first)[0]].append(owner)
    found = {owner: [one for one in first_names[key] if may_be_one(owner, one)] for owner, key in initials.items()}
    return {owner: others for owner, others in found.items() if others}
