"""Certificates: what the program writes of animals, and of the ancestors that stand on their certificates. What the
society says beside it is added where the page is made: who bred an animal is found in `animals.py`."""
from __future__ import annotations

import datetime
import functools
from collections.abc import Iterator, Sequence
from dataclasses import replace
from typing import TYPE_CHECKING

from gudokeyi.background import Background
from gudokeyi.domain.messages import CALLED
from gudokeyi.domain.mistakes import BookNotWhole
from gudokeyi.engine.answers import NOT_LEFT, UNKNOWN, certificate_facts, certificate_texts
from gudokeyi.services.book_program import BookProgram
from gudokeyi.store.book import Book
from gudokeyi.store.coefficients import Coefficient
from gudokeyi.store.messages import NotWhole

if TYPE_CHECKING:
    from gudokeyi.services.library_values import Animal

# so many parents away an ancestor on a certificate of the program may be, and on one that is printed
GENERATIONS, MOST_GENERATIONS = 3, 5
# of so many animals and more all that the book has is read at once
MANY = 100

CertificateFacts = dict[str, str]


class Certified:
    """The program's certificates of some animals and of their ancestors, over the book's own journal."""

    def __init__(self, book: Book, begun: Sequence[Background[str]]) -> None:
        self.book, self.begun = book, begun

    @functools.cached_property
    def texts(self) -> dict[str, str]:
        return {number: text for one in self.begun for number, text in certificate_texts(one.value()).items()}

    def facts(self, number: str) -> CertificateFacts:
        """The lines of an animal's certificate, by their words; a mistake where the book has other ancestors than the
        program."""
        if number not in self.texts:
            fault = NotWhole.ANCESTOR.said(number=number)
            told = NotWhole.FAULT.said(path=self.book.path, fault=fault)
            raise BookNotWhole(told, NotWhole.NOT_PRINTED.said(called=CALLED))
        return certificate_facts(self.texts[number])

    def ancestors(self, number: str, generations: int) -> dict[str, str]:
        """The numbers of an animal's known ancestors, by their letters: those that lie further back than its own
        certificate goes stand on the certificates of the nearer ones."""
        found = ancestors_in(self.facts(number))
        for nearer in range(1, generations - GENERATIONS + 1):
            for letters in [one for one in found if len(one) == nearer]:
                further = ancestors_in(self.facts(found[letters]))
                found |= {letters + more: one for more, one in further.items() if len(more) == GENERATIONS}
        return found


def coefficient_in(facts: CertificateFacts) -> Coefficient:
    """That of a certificate."""
    fraction, percent = facts["inbreeding"].split(" ")
    return Coefficient(fraction, percent)


def begin_certificates(
    book: Book, program: BookProgram, numbers: Sequence[str], generations: int = GENERATIONS
) -> Certified:
    """The program begins to write the certificates of some animals, and of their ancestors so many parents away."""
    if len(numbers) > MANY:
        book.read_all()
    wanted = dict.fromkeys(one for number in numbers for one in with_ancestors(book, number, generations))
    return Certified(book, program.begin_certificates([*wanted], book))


def with_ancestors(book: Book, number: str, generations: int) -> Iterator[str]:
    """An animal and its ancestors so many parents away, as the book has them."""
    yield number
    record = book.records[number]
    for parent in (record.sire, record.dam):
        if parent and generations:
            yield from with_ancestors(book, parent, generations - 1)


def certified_animal(book: Book, animal: Animal, certified: Certified) -> Animal:
    """An animal of the book with what the program certifies of it."""
    facts, day, ids = certified.facts(animal.registration_number), datetime.date.fromisoformat, book.ids
    sire, dam = (ids[facts[letter]] if facts[letter] != UNKNOWN else "" for letter in "SD")
    return replace(
        animal, born=day(facts["born"]), sire=sire, dam=dam, owner=book.owner_of(int(facts["herd"])),
        owner_since=day(facts["since"]), left=None if facts["left"] == NOT_LEFT else day(facts["left"]),
        coefficient=coefficient_in(facts),
    )  # fmt: skip


def ancestors_in(facts: CertificateFacts) -> dict[str, str]:
    """The numbers of the known ancestors on a certificate, by their letters."""
    return {word: fact for word, fact in facts.items() if set(word) <= {"S", "D"} and fact != UNKNOWN}
