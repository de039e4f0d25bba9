"""What the program answers, as values: records, certificates, seals, matings, relationships and elements of the
inverse."""
from __future__ import annotations

import datetime
from collections.abc import Iterable, Iterator, Mapping
from typing import NamedTuple

from gudokeyi.domain.collections import made
from gudokeyi.domain.commands import RegisterRecord
from gudokeyi.domain.seals import Seal

UNKNOWN, NOT_LEFT = "0", "-"


def records_of(lines: Iterable[str], givers: Mapping[str, int]) -> dict[str, RegisterRecord]:
    """The records that lines have, by the animals' numbers; `givers` are the herds that gave them last."""
    day = datetime.date.fromisoformat
    found: dict[str, RegisterRecord] = {}
    # the older ones come first: each number is one text for all that have it, which takes far less memory
    numbers = {UNKNOWN: ""}
    for line in lines:
        number, birth, sire, dam, herd, since, left, embryo = line.split(",")
        numbers[number] = number
        born = day(birth)
        values = (
            number,
            born,
            numbers.get(sire, sire),
            numbers.get(dam, dam),
            embryo == "1",
            int(herd),
            # most have their owner from their birth on
            born if since == birth else day(since),
            None if left == NOT_LEFT else day(left),
            givers.get(number, 0),
        )
        found[number] = made(RegisterRecord, values)
    return found


# the word that each certificate begins with
ANIMAL = "animal "


def certificate_texts(text: str) -> dict[str, str]:
    """Certificates that follow one another, by the animals' numbers: of each what stands behind its first word."""
    # no other line has this word
    texts = text.split(ANIMAL)[1:]
    return {one.partition("\n")[0]: one for one in texts}


def certificate_facts(text: str) -> dict[str, str]:
    """The words of a certificate with what stands behind each; an ancestor's is its letters, from the animal on."""
    return {word: fact for word, _, fact in (line.partition(" ") for line in (ANIMAL + text).splitlines())}


class MatingAnswer(NamedTuple):
    """What the program says of a sire for a dam: the coefficient of their offspring, as it writes the fraction, or with
    `is_refused` none."""

    sire: str
    fraction: str
    is_refused: bool


def mating_answers(lines: Iterable[str]) -> Iterator[MatingAnswer]:
    for line in lines:
        sire, told, _ = line.split(",")
        is_refused = told == "refused"
        yield MatingAnswer(sire, "" if is_refused else told, is_refused)


def relationships_told(lines: Iterable[str]) -> Iterator[tuple[str, str, str]]:
    """Two animals by their numbers, and the entry of the numerator relationship matrix, as the program writes it."""
    for line in lines:
        one, other, relationship = line.split(",")
        yield one, other, relationship


def inverse_elements(lines: Iterable[str]) -> Iterator[tuple[str, str, str, str]]:
    """An animal, and what it adds to an element of the inverse, by the numbers of its row and its column."""
    for line in lines:
        animal, row, column, value = line.split(",")
        yield animal, row, column, value


def seal_told(lines: Iterable[str]) -> Seal:
    """The seal of a book."""
    digits, steps, animals = next(iter(lines)).split(",")
    return Seal(digits, int(steps), int(animals))


def seal_of_certificate(lines: Iterable[str]) -> Seal:
    """The seal under which a certificate is, as its first line names it."""
    _, digits, steps, animals, *_ = next(iter(lines)).split(",")
    return Seal(digits, int(steps), int(animals))
