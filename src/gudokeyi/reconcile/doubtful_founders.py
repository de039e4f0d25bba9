"""Parents of a pedigree without a line that may be no founders: words that may mean unknown parents, ids of which a
part lacks, and very many of them."""
from __future__ import annotations

import collections
import functools
import itertools
import re
from collections.abc import Callable, Collection, Iterable, Mapping, Sequence
from dataclasses import dataclass

from gudokeyi.domain.findings import Obstacle
from gudokeyi.domain.messages import some_of
from gudokeyi.ingest.animals import SheetAnimal, links_outside
from gudokeyi.ingest.spellings import NUMBER
from gudokeyi.ingest.unknown_parents import UnknownParents
from gudokeyi.reconcile.findings.founders import ManyWithoutLine, ParentsCut, ParentsInPart, WordsAsParents

# one in so many parents may have no line
TENTH = 10
# so many parents tell that ids are written in part
FEW = 3


@dataclass(frozen=True)
class Counts:
    """How many animals a pedigree has, how many of them have a parent, and how many parents there are."""

    animals: int
    with_parents: int
    parents: int

    @classmethod
    def of(cls, animals: Collection[SheetAnimal]) -> Counts:
        with_parents = [parents for animal in animals if (parents := animal.parent_ids())]
        return cls(len(animals), len(with_parents), len({parent for its in with_parents for parent in its}))


def founders_in_doubt(
    animals: Iterable[SheetAnimal], counted: Counts, ids: Collection[str], unknown: UnknownParents
) -> list[Obstacle]:
    """What is asked before parents that aren't among some ids are taken as founders, of the animals that have such ones
    at least. Words that are said to be known are animals."""
    progeny: dict[str, dict[str, SheetAnimal]] = {}
    for offspring, _, parent in links_outside([*animals], ids):
        progeny.setdefault(parent, {})[offspring.id] = offspring
    known = {parent for parent in progeny if parent.casefold() in unknown.known}
    counts = {parent: len(its) for parent, its in progeny.items() if parent not in known}
    words = UnknownWords(counted, ids, unknown).among(counts)
    others = known.union(words)
    lacking = [parent for parent in progeny if parent not in others]
    parents = counted.parents - len(others)
    found: list[Obstacle] = []
    if words:
        found.append(WordsAsParents(tuple(words), some_of([place(one, progeny[one]) for one in words])))
    if TENTH * len(lacking) > parents > len(lacking):
        first = some_of([place(one, progeny[one]) for one in lacking])
        found.append(ManyWithoutLine(len(lacking), parents, first))
    in_part = ids_in_part(lacking, ids, progeny) if len(lacking) == parents else []
    return found + (in_part or ids_cut(lacking, ids, progeny))


def place(parent: str, progeny: Mapping[str, SheetAnimal]) -> str:
    """A parent with its first offspring, and how many it has besides."""
    first, *more = progeny.values()
    return f"{parent} (of {first.id} in line {first.line}{f' and {len(more)} more' if more else ''})"


def place_with(id: str, parent: str, progeny: Mapping[str, SheetAnimal]) -> str:
    """The same with the id that may be meant."""
    return f"{place(parent, progeny)[:-1]}; is {id} meant?)"


# Words that may mean unknown parents.

# so many offspring a word has, and one that may as well be an id; and one that stands for very many unknown parents
SEVERAL, MANY, VERY_MANY = 2, 5, 10
# without a digit but zeros, with a sign before it, or with one digit alone
WORD = re.compile(r"[^1-9]*|[-+].*|9{2,}|(\d)\1{4,}", re.DOTALL)
# what stands around a word with a number, as in `UNK1` and `N.N.1`
AROUND = re.compile(r"^[\d\W_]+|[\d\W_]+$")


class UnknownWords:
    """Tells words for unknown parents from the ids of animals."""

    def __init__(self, counted: Counts, ids: Collection[str], unknown: UnknownParents) -> None:
        self.counted, self.ids, self.unknown = counted, ids, unknown

    def among(self, counts: Mapping[str, int]) -> list[str]:
        """Those of parents without a line, each with how many offspring it has."""
        odd = {one for one, count in counts.items() if count >= MANY and self.is_odd_number(one)}
        # many of them are animals
        odd = odd if len(odd) <= FEW else set()
        return [one for one, count in counts.items() if one in odd or self.is_word(one, count)]

    def is_word(self, text: str, count: int) -> bool:
        if count < SEVERAL:
            return False
        return WORD.fullmatch(text) is not None or self.is_numbered(text) or self.has_very_many(count)

    def is_numbered(self, text: str) -> bool:
        """Is it a word for an unknown parent with a number, and no id begins with this word?"""
        word = AROUND.sub("", text)
        return bool(word) and word in self.unknown and word.casefold() not in self.words_of_ids

    def is_odd_number(self, text: str) -> bool:
        """Is it a number of more or fewer digits than the ids that are numbers, or far from these?"""
        if not NUMBER.fullmatch(text):
            return False
        if not text.isdecimal() or len(text) not in self.lengths:
            return True
        # founders may have the numbers before those with a line
        least, greatest = min(self.numbers), max(self.numbers)
        return not 2 * least - greatest <= int(text) <= greatest

    def has_very_many(self, count: int) -> bool:
        """Have more than a tenth of all animals with a parent it as theirs, though founders have lines?"""
        of_all = self.counted.with_parents
        return count >= VERY_MANY and TENTH * count > of_all and of_all < self.counted.animals

    @functools.cached_property
    def texts_of_numbers(self) -> list[str]:
        return [id for id in self.ids if id.isdecimal() and id.isascii()]

    @functools.cached_property
    def numbers(self) -> list[int]:
        return [*map(int, self.texts_of_numbers)]

    @functools.cached_property
    def lengths(self) -> set[int]:
        return {*map(len, self.texts_of_numbers)}

    @functools.cached_property
    def words_of_ids(self) -> set[str]:
        return {AROUND.sub("", id).casefold() for id in self.ids}


# Ids of which a part lacks, as a country in front: an animal has a line by the whole of it.

# so many letters a beginning or an end has that many ids have, and so many digits where it has nothing else
LONGEST, LEAST_DIGITS = 12, 3
# of more ids than these a part tells how they begin and end
MOST_LOOKED_AT = 50_000


def ids_in_part(
    lacking: Sequence[str], ids: Collection[str], progeny: Mapping[str, Mapping[str, SheetAnimal]]
) -> list[Obstacle]:
    """Where no parent has a line: most of them have the digits of an id, as where a country is left out."""
    whole = {digits_of(id): id for id in ids}
    meant = {parent: whole[digits] for parent in lacking if (digits := digits_of(parent)) and digits in whole}
    if len(meant) < FEW or 2 * len(meant) <= len(lacking):
        return []
    first = some_of([place_with(id, parent, progeny[parent]) for parent, id in meant.items()])
    return [ParentsInPart(len(lacking), len(meant), first)]


def digits_of(id: str) -> str:
    return "".join(filter(str.isdigit, id)).lstrip("0")


def ids_cut(
    lacking: Sequence[str], ids: Collection[str], progeny: Mapping[str, Mapping[str, SheetAnimal]]
) -> list[Obstacle]:
    """Those that are an id once they begin or end as many ids do."""
    if not lacking:
        return []
    beginnings = common(ids, lambda id, length: id[:length])
    ends = common(ids, lambda id, length: id[-length:])
    meant: dict[str, str] = {}
    for parent in lacking:
        whole = next((one + parent for one in beginnings if one + parent in ids), "")
        whole = whole or next((parent + one for one in ends if parent + one in ids), "")
        if whole:
            meant[parent] = whole
    if not meant:
        return []
    return [ParentsCut(len(meant), some_of([place_with(id, one, progeny[one]) for one, id in meant.items()]))]


def common(ids: Collection[str], part: Callable[[str, int], str]) -> list[str]:
    """How more than a tenth of some ids begin, or end; of very many some are looked at."""
    some = [*itertools.islice(ids, 0, None, 1 + len(ids) // MOST_LOOKED_AT)]
    found: list[str] = []
    for length in range(1, LONGEST + 1):
        counts = collections.Counter(part(id, length) for id in some if len(id) > length)
        found += [text for text, count in counts.items() if is_common(text, count, len(some))]
    return found


def is_common(text: str, count: int, ids: int) -> bool:
    """Digits alone are a part of their own only where nearly all ids have them."""
    if text.isdigit():
        return len(text) >= LEAST_DIGITS and TENTH * (ids - count) < ids
    return TENTH * count > ids
