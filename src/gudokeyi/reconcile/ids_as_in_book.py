"""A sheet most of whose ids are those of the book but for blanks, signs, case or leading zeros: its rows are these
animals, whose ids stay as the book has them."""
from __future__ import annotations

import collections
import re
from collections.abc import Callable, Iterable, Mapping, Sequence, Set

from gudokeyi.domain.findings import Report
from gudokeyi.domain.kinds import Role
from gudokeyi.ingest.animals import SheetAnimal
from gudokeyi.ingest.texts import nearly
from gudokeyi.reconcile.findings.same_animals import IdsAsInBook
from gudokeyi.store.book import Book

# what may stand between the parts of an id
SIGNS = re.compile(r"[\s./_\\-]+")
# so many rows at least are called so, and so great a part of them has the birth day that the book has
LEAST, MOSTLY = 3, 0.75


def without_signs(id: str) -> str:
    return nearly(SIGNS.sub("", id))


# what ids have but for zeros before each of their numbers, or but for signs and for zeros before a whole number
FORMS: tuple[Callable[[str], str], ...] = (nearly, without_signs)


def call_as_in_book(animals: dict[str, SheetAnimal], book: Book, report: Report) -> None:
    """Rows are called by the book's ids where most ids of the sheet are none of these; parents' cells then too."""
    known = book.society_records
    new = [id for id in animals if id not in known] if known else []
    if len(new) < LEAST or 2 * len(new) <= len(animals):
        return
    if any(are_alike(new, form) or are_alike(known, form, {*map(form, new)}) for form in FORMS):
        return
    of_book = [only_ones(known, form) for form in FORMS]
    meant = {id: found for id in new if (found := meant_by(id, of_book))}
    called = {id: other for id, other in meant.items() if other not in animals and may_be_one(book, animals[id], other)}
    twice = {other for other, count in collections.Counter(called.values()).items() if count > 1}
    called = {id: other for id, other in called.items() if other not in twice}
    same_days = sum(has_birth_day(book, animals[id], other) for id, other in called.items())
    if len(called) < LEAST or 2 * len(called) <= len(new) or same_days < MOSTLY * len(called):
        return
    first = next(iter(called))
    report.add(0, "", IdsAsInBook(len(called), animals[first].line, first, called[first]))
    rename(animals, called)
    call_parents(animals, known.keys(), of_book)


def are_alike(ids: Iterable[str], form: Callable[[str], str], some: Set[str] | None = None) -> bool:
    """Have two ids one form, or one of some forms, so that neither can be told from the other?"""
    counts = collections.Counter(map(form, ids))
    return any(counts[text] > 1 for text in (counts if some is None else some))


def only_ones(ids: Iterable[str], form: Callable[[str], str]) -> dict[str, str]:
    """By what ids have in a form the only one that has it."""
    found: dict[str, str] = {}
    for id in ids:
        text = form(id)
        found[text] = "" if text in found else id
    return {text: id for text, id in found.items() if id and text}


def meant_by(id: str, of_book: Sequence[Mapping[str, str]]) -> str:
    """The id of the book that is meant, by the first form that finds one."""
    return next((found for form, ones in zip(FORMS, of_book) if (found := ones.get(form(id), ""))), "")


def has_birth_day(book: Book, row: SheetAnimal, id: str) -> bool:
    return row.birth.first == book.records[book.society_records[id].registration_number].born


def may_be_one(book: Book, row: SheetAnimal, id: str) -> bool:
    """Signs alone may tell two ids apart, as 1/23 and 12/3: then the birth day or the name is the book's."""
    is_called_so = bool(row.name) and row.name.casefold() == book.society_records[id].name.casefold()
    return nearly(row.id) == nearly(id) or is_called_so or has_birth_day(book, row, id)


def rename(animals: dict[str, SheetAnimal], called: Mapping[str, str]) -> None:
    """The rows stay in their order. No id stands for two: each of the book is meant once."""
    rows = [*animals.values()]
    animals.clear()
    for row in rows:
        row.id = called.get(row.id, row.id)
        animals[row.id] = row


def call_parents(
    animals: Mapping[str, SheetAnimal], known: Set[str], of_book: Sequence[Mapping[str, str]]
) -> None:
    parents = [(row, role, parent) for row in animals.values() for role in Role if (parent := row.parent(role))]
    for row, role, parent in parents:
        if parent not in animals and parent not in known and (meant := meant_by(parent, of_book)):
            row.set_parent(role, meant)
