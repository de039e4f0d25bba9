"""Which columns have a parent, as their titles say: by a word for a sire or a dam, as `Sire Tag`, or by one for a sex,
as `Ram Tag`, where it is a parent's."""
from __future__ import annotations

import enum
import functools
from typing import NamedTuple

from gudokeyi.domain.kinds import Field
from gudokeyi.ingest.sheets import Sheet
from gudokeyi.ingest.texts import listed, plain
from gudokeyi.ingest.titles import BETWEEN_WORDS, KNOWN_PAIRS, KNOWN_TITLES
from gudokeyi.ingest.words import KNOWN_NO, KNOWN_YES

PARENTS = Field.SIRE, Field.DAM
# so many columns are looked at
MOST_ALIKE = 20

# Titles with a word for a parent.

WORDS = {
    Field.SIRE: {plain(word) for word in listed("sire, sires, father, fathers, Vater, Vaters, Vatertier, père")},
    Field.DAM: {plain(word) for word in listed("dam, dams, mother, mothers, Mutter, Muttertier, mère")},
}
# how likely the titles of columns are that have one
USUAL = {
    parent: {title: likely for likely, title in enumerate(KNOWN_TITLES[parent]) if title not in KNOWN_PAIRS[parent]}
    for parent in PARENTS
}


def names_parent(title: str, parent: Field) -> bool:
    """Does a title name this parent among other words, and no other one, as `N° de travail du père`? Words for sexes
    are none beside one for a parent."""
    words = [plain(word) for word in BETWEEN_WORDS.split(title)]
    for known in (WORDS, KNOWN_PAIRS):
        named = [word for word in words if any(word in those for those in known.values())]
        if named:
            return len(named) == 1 < len(words) and named[0] in known[parent]
    return False


# Titles with a word for a sex.


class Tells(enum.IntEnum):
    """What such a title says of a parent, the likelier to be an id first."""

    ID, SEX, NAME = range(3)


class OfSex(NamedTuple):
    parent: Field
    tells: Tells


# endings of such a word, and what stands between it and another one, without blanks and signs
ENDINGS = "", "s", "es", "n"
LINKS = "", "du", "de", "dela", "del", "des", "der", "d", "of", "ofthe", "vom"
IDS = {*KNOWN_TITLES[Field.ID], "hb"}
KNOWN_NAMES = {"name", "rufname", "nom", "registeredname"}


@functools.lru_cache(100_000)
def of_sex(title: str) -> OfSex | None:
    """What a title says that has such a word alone, or beside one for an id or a name."""
    compared = plain(title)
    for parent, known in KNOWN_PAIRS.items():
        if compared in known:
            return OfSex(parent, Tells.SEX)
        for word in known:
            if word in compared and (tells := beside_word(compared, word)) is not None:
                return OfSex(parent, tells)
    return None


def beside_word(title: str, word: str) -> Tells | None:
    """What a title says with a word at its begin or end, as `ramsname` and `nodubouc`."""
    ended = [word + ending for ending in ENDINGS]
    others = [title.removeprefix(one) for one in ended if title.startswith(one)]
    others += [title.removesuffix(link + one) for one in ended for link in LINKS if title.endswith(link + one)]
    if any(other in KNOWN_NAMES for other in others):
        return Tells.NAME
    return Tells.ID if any(other in IDS for other in others) else None


def columns_of_sex(sheet: Sheet, parent: Field) -> list[tuple[Tells, int]]:
    """The columns with such a title, those that may have ids first; one of marks, as where each sex has a column, is no
    parent's."""
    titles = [(at, of_sex(title)) for at, title in enumerate(sheet.titles) if title]
    found = [(said.tells, at) for at, said in titles if said is not None and said.parent == parent]
    return [one for one in sorted(found)[:MOST_ALIKE] if one[0] is not Tells.SEX or not has_marks(sheet.column(one[1]))]


def has_marks(cells: list[str]) -> bool:
    """Has a column nothing but `x` and the like? A number may be an id."""
    texts = {cell.casefold() for cell in {*cells} if cell}
    return bool(texts) and texts <= KNOWN_YES | KNOWN_NO and not any(map(str.isdecimal, texts))


# Both.


def with_parents_word(sheet: Sheet, parent: Field) -> list[int]:
    """The columns with a usual title that has a word for this parent, the likeliest first."""
    usual = USUAL[parent]
    titles = ((plain(title), at) for at, title in enumerate(sheet.titles) if title)
    return [at for _, at in sorted((usual[title], at) for title, at in titles if title in usual)[:MOST_ALIKE]]


def columns_of_parent(sheet: Sheet, parent: Field) -> list[int]:
    """Those of both kinds, the likeliest first. A word for a sex may be that of the sheet's animals themselves: where
    others have a word for this parent, it is a parent's if the other one has such a word too."""
    usual, of_one_sex = with_parents_word(sheet, parent), columns_of_sex(sheet, parent)
    if not of_one_sex:
        return usual
    [other] = [one for one in PARENTS if one != parent]
    if columns_of_sex(sheet, other) or not usual and with_parents_word(sheet, other):
        return usual + [at for _, at in of_one_sex]
    return usual or [at for tells, at in of_one_sex if tells is Tells.SEX]


def columns_of_pair(sheet: Sheet) -> list[int]:
    """The columns such as `Ram`, `Ram Tag`, `Ewe` and `Ewe Tag`, where none has a word for a parent."""
    if any(with_parents_word(sheet, parent) for parent in PARENTS):
        return []
    pair = [columns_of_sex(sheet, parent) for parent in PARENTS]
    return [at for columns in pair for _, at in columns] if all(pair) else []
