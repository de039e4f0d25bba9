"""Ids that are written unlike nearly all others of a sheet: two ids in one cell, an id with a remark, letters of
another alphabet, a signature below the list, or a number that a spreadsheet took its zeros from."""
from __future__ import annotations

import collections
import enum
import functools
import itertools
import re
from collections.abc import Sequence
from typing import Container, NamedTuple

from gudokeyi.ingest.spellings import latin
from gudokeyi.ingest.texts import BETWEEN, nearly_all

# of fewer ids the forms say little
LEAST = 20
# a form is usual that one of so many ids has, and at least a few; all others together are odd ones where they are few
ONE_OF, AT_LEAST, FEW = 50, 3, 10
FORMS = str.maketrans(
    {chr(one): "0" for one in range(ord("0"), ord("9") + 1)}
    | {letter: "a" for one in range(ord("a"), ord("z") + 1) for letter in (chr(one), chr(one).upper())}
)
RUNS = re.compile(r"(a)a+|(0)0+")
DIGITS = re.compile(r"\d+")


class Oddity(enum.Enum):
    """How an id is written unlike the others."""

    UNLIKE = enum.auto()
    FEWER_DIGITS = enum.auto()
    OTHER_ALPHABET = enum.auto()


class OddId(NamedTuple):
    """An id, a usual one, and how the odd one is written."""

    id: str
    usual: str
    oddity: Oddity


def odd_ids(ids: list[str], known: Container[str]) -> list[OddId]:
    """The odd ones, but for those that are `known`, or that only blanks, zeros or capitals part from another."""
    return [one for one in unlike_others(tuple(ids)) if one.id not in known]


# a sheet that is looked at again has the same
@functools.lru_cache(1)
def unlike_others(ids: tuple[str, ...]) -> list[OddId]:
    """The odd ones among many."""
    if len(ids) < LEAST:
        return []
    # all at once where no id has what stands between them
    together = BETWEEN.join(ids).translate(FORMS).split(BETWEEN)
    exact = together if len(together) == len(ids) else [one.translate(FORMS) for one in ids]
    counts = collections.Counter(exact)
    whole = {form: RUNS.sub(r"\1\2", form) for form in counts}
    wholes = collections.Counter[str]()
    for form, count in counts.items():
        wholes[whole[form]] += count
    usual = {form for form, count in wholes.items() if count >= max(AT_LEAST, len(ids) / ONE_OF)}
    shorter = shorter_forms(ids, exact, counts, whole)
    odd = [at for at, form in enumerate(exact) if whole[form] not in usual or form in shorter]
    if not odd or len(odd) > max(FEW, len(ids) // 100):
        return []
    alike = collections.Counter(nearly_all(ids))
    most, _ = counts.most_common(1)[0]
    example = ids[exact.index(most)]
    alone = [at for at, one in zip(odd, nearly_all([ids[at] for at in odd])) if alike[one] == 1]
    forms = [exact[at] for at in alone]
    return [
        OddId(ids[at], shorter.get(form, example), oddity(ids[at], form in shorter, usual))
        for at, form in zip(alone, forms)
    ]  # fmt: skip


def in_one_way(odd: Sequence[OddId]) -> list[list[OddId]]:
    """The odd ones by what is odd of them; those that are unlike the others also by how they are written."""
    found = collections.defaultdict[tuple[Oddity, str], list[OddId]](list)
    for one in odd:
        form = RUNS.sub(r"\1\2", one.id.translate(FORMS)) if one.oddity is Oddity.UNLIKE else ""
        found[one.oddity, form].append(one)
    return [*found.values()]


def oddity(id: str, is_shorter: bool, usual: Container[str]) -> Oddity:
    if is_shorter:
        return Oddity.FEWER_DIGITS
    is_foreign = RUNS.sub(r"\1\2", latin(id).translate(FORMS)) in usual
    return Oddity.OTHER_ALPHABET if is_foreign else Oddity.UNLIKE


def shorter_forms(
    ids: Sequence[str], exact: list[str], counts: collections.Counter[str], whole: dict[str, str]
) -> dict[str, str]:
    """The rare forms with fewer digits than a form that nearly all ids of their kind have, of which many begin with
    zeros; each with an id that has the usual form."""
    found: dict[str, str] = {}
    by_whole = collections.defaultdict[str, list[str]](list)
    for form in counts:
        by_whole[whole[form]].append(form)
    for forms in by_whole.values():
        usual = max(forms, key=counts.__getitem__)
        others = [form for form in forms if form != usual]
        if not others or sum(map(counts.__getitem__, others)) * LEAST > counts[usual]:
            continue
        its = [id for id, form in zip(ids, exact) if form == usual]
        padded = next((id for id in its if begins_with_zeros(id)), "")
        if padded and 10 * sum(map(begins_with_zeros, its)) >= len(its):
            found |= dict.fromkeys((form for form in others if has_fewer(form, usual)), padded)
    return found


def begins_with_zeros(id: str) -> bool:
    """Does one of its numbers begin with a zero?"""
    return any(len(number) > 1 and number[0] == "0" for number in DIGITS.findall(id))


def has_fewer(form: str, usual: str) -> bool:
    """Has one of its numbers fewer digits than the usual one, and none more?"""
    both = itertools.zip_longest(DIGITS.findall(form), DIGITS.findall(usual), fillvalue="")
    return form != usual and all(len(one) <= len(other) for one, other in both)
