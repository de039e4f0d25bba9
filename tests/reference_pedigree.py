"""What the program must print of a pedigree of numbers alone: the tabular method in fractions, animal by animal."""
from __future__ import annotations

import dataclasses
import functools
import random
from collections.abc import Iterable, Sequence
from fractions import Fraction

from reference import percentage

UNIT = 2**120
# places of the sire and the dam, counted from 0
Parents = tuple[int | None, int | None]
# a row and a column of a matrix
At = tuple[int, int]


def told(number: Fraction, in_units: bool) -> str:
    """A number as a fraction in lowest terms, or in units."""
    return str(int(number * UNIT) if in_units else number)


@dataclasses.dataclass(frozen=True)
class Pedigree:
    """The known parents of each animal, in the order of the records."""

    parents: tuple[Parents, ...]

    def text(self) -> str:
        """The file of it: the n-th record is the animal n."""
        records = (",".join(str((it if it is not None else -1) + 1) for it in pair) for pair in self.parents)
        return "".join(f"{line}\n" for line in ["sire,dam", *records])

    @functools.cached_property
    def relationships(self) -> list[list[Fraction]]:
        """A, the numerator relationship matrix."""
        rows: list[list[Fraction]] = []
        for place, pair in enumerate(self.parents):
            known = [it for it in pair if it is not None]
            row = [sum((rows[it][other] for it in known), Fraction(0)) / 2 for other in range(place)]
            sire, dam = pair
            row.append(1 + (rows[sire][dam] / 2 if sire is not None and dam is not None else Fraction(0)))
            for other in range(place):
                rows[other].append(row[other])
            rows.append(row)
        return rows

    def coefficients(self) -> list[Fraction]:
        return [row[place] - 1 for place, row in enumerate(self.relationships)]

    def inbreeding(self, in_units: bool = False) -> str:
        return "".join(
            f"{number},{told(value, in_units)}{'' if in_units else f',{percentage(value)}'}\n"
            for number, value in enumerate(self.coefficients(), 1)
        )

    def relationships_of(self, numbers: Sequence[int], others: Sequence[int] = (), in_units: bool = False) -> str:
        pairs = [
            (number, other)
            for place, number in enumerate(numbers)
            for other in (others or numbers[place:])
        ]  # fmt: skip
        entry = self.relationships
        return "".join(f"{x},{y},{told(entry[x - 1][y - 1], in_units)}\n" for x, y in pairs)

    def elements_of(self, place: int) -> Iterable[tuple[At, Fraction]]:
        """What an animal adds to the inverse: its row, of 1 and half of it off for each known parent, times itself."""
        pair = self.parents[place]
        known = [it for it in pair if it is not None]
        row = {place: Fraction(1)}
        for it in known:
            row[it] = row.get(it, Fraction(0)) - Fraction(1, 2)
        variance = 1 - sum((self.relationships[it][it] for it in known), Fraction(0)) / 4
        parents = list(dict.fromkeys(known))
        own = [(place, place), *((place, it) for it in parents), *((it, it) for it in parents)]
        between = [(max(parents), min(parents))] if len(parents) == 2 else []
        for first, second in own + between:
            yield (first, second), row[first] * row[second] / variance

    def inverse(self) -> str:
        return "".join(
            f"{place + 1},{first + 1},{second + 1},{value}\n"
            for place in range(len(self.parents))
            for (first, second), value in self.elements_of(place)
        )

    def is_inverse(self, text: str) -> bool:
        """Whether the elements of a text, added up and mirrored, times A are the unit matrix."""
        size = range(len(self.parents))
        inverse: dict[int, dict[int, Fraction]] = {place: {} for place in size}
        for line in text.splitlines():
            _, row, column, value = line.split(",")
            for first, second in {(int(row) - 1, int(column) - 1), (int(column) - 1, int(row) - 1)}:
                inverse[first][second] = inverse[first].get(second, Fraction(0)) + Fraction(value)
        entry = self.relationships
        return all(
            sum((value * entry[it][column] for it, value in inverse[row].items()), Fraction(0)) == (row == column)
            for row in size
            for column in size
        )


def mrode() -> Pedigree:
    """Mrode's example 2.1."""
    return Pedigree(((None, None), (None, None), (0, 1), (0, None), (3, 2), (4, 1)))


def drawn(seed: int) -> Pedigree:
    """Some thirty animals, in which each may be sire and dam, also of one animal, and parents may be unknown."""
    draw = random.Random(seed)
    parents: list[Parents] = []
    for place in range(draw.randint(1, 30)):
        def parent() -> int | None:
            return draw.randrange(max(0, place - 9), place) if place and draw.random() < 0.8 else None

        sire = parent()
        parents.append((sire, sire if draw.random() < 0.25 else parent()))
    return Pedigree(tuple(parents))
