"""The ids and numbers of animals: ids that are nearly alike, those that are used again for other animals, and new
numbers."""
from __future__ import annotations

import collections
import functools
import itertools
import operator
from collections.abc import Callable, Mapping, Set

from gudokeyi.domain.animals import SocietyRecord
from gudokeyi.domain.commands import RegisterRecord
from gudokeyi.domain.findings import Report
from gudokeyi.domain.kinds import CELL_FIELDS, Field
from gudokeyi.domain.settings import Setting
from gudokeyi.domain.spelling import are_other_names
from gudokeyi.ingest.animals import (
    ID_OF, SEX_OF, WEEKS_LATER, YEARS_LATER, SheetAnimal, by_age, lines_that_name, links_outside,
)  # fmt: skip
from gudokeyi.ingest.findings.same_ids import IdUsedAgain
from gudokeyi.ingest.marked_ids import without_sign
from gudokeyi.ingest.texts import nearly, nearly_all
from gudokeyi.reconcile.findings.animals import FormerId
from gudokeyi.reconcile.findings.obstacles import LettersUnsaid
from gudokeyi.reconcile.findings.parents import FoundByDigits, FoundByNearId, FoundWithin
from gudokeyi.reconcile.findings.by_hand import IdsAlike
from gudokeyi.reconcile.findings.rows import BornAfterOffspring
from gudokeyi.reconcile.last_found import Kept, LastFound
from gudokeyi.reconcile.near_tags import ids_by_digits
from gudokeyi.reconcile.next_book import NextBook
from gudokeyi.reconcile.parents import can_be
from gudokeyi.store.book import Book
from gudokeyi.store.former_ids import ids_now
from gudokeyi.store.settings import letters_for, letters_said, settings_of

# Ids that differ in case, blanks or leading zeros alone: of a parent's cell, and of two rows.


@functools.lru_cache(1)
def nearly_of_sheet(ids: tuple[str, ...]) -> list[str]:
    """What ids have but for these. A sheet that is looked at again has the same."""
    return nearly_all(ids)


class NearIds:
    """The animals that have a row, had one, or were filed by hand, by what their ids have but for case, blanks and
    zeros. `animals` are those of the sheet and of the book, and `lacking` the rows that name a parent without one."""

    def __init__(
        self, lacking: dict[str, SheetAnimal], animals: dict[str, SheetAnimal], with_id: Set[str], last: LastFound
    ) -> None:
        self.lacking, self.animals, self.with_id, self.last = lacking, animals, with_id, last
        self.ids = tuple(filter(with_id.__contains__, animals))
        self.nearly = nearly_of_sheet(self.ids)

    @functools.cached_property
    def near(self) -> dict[str, list[str]]:
        """The ids by what they have but for these."""
        return self.last.of(Kept.NEAR_IDS, (self.ids,), self.found_near)

    def found_near(self) -> dict[str, list[str]]:
        near: collections.defaultdict[str, list[str]] = collections.defaultdict(list)
        for id, one in zip(self.ids, self.nearly):
            near[one].append(id)
        return near

    def find_parents(self, report: Report) -> None:
        """A parent that is no id, but differs so from just one, has the digits of just one, or has a sign before one by
        which animals leave, is that animal where it can be it."""
        links = links_outside(self.lacking.values(), self.with_id)
        by_digits = ids_by_digits({text for _, _, text in links if nearly(text) not in self.near}, self.ids)
        for offspring, role, text in links:
            near = self.near.get(nearly(text), [])
            id = by_digits.get(text, "") if not near else near[0] if len(near) == 1 else ""
            kind: type[FoundWithin | FoundByDigits | FoundByNearId] = FoundByNearId if near else FoundByDigits
            if not id and (behind := without_sign(text)) in self.with_id:
                id, kind = behind, FoundWithin
            if id and id != offspring.id and can_be(self.animals[id], role, offspring):
                offspring.set_parent(role, id)
                report.add(offspring.line, offspring.id, kind(role, text, id))

    def tell_alike(self, report: Report) -> None:
        """Rows whose ids differ only so. Most sheets have none."""
        if len({*self.nearly}) == len(self.nearly):
            return
        alike = [sorted(ids, key=self.line_and_id) for ids in self.near.values() if len(ids) > 1]
        for first_id, *others in sorted(alike, key=lambda ids: self.line_and_id(ids[0])):
            for id in others:
                animal, first = self.animals[id], self.animals[first_id]
                if animal.line or first.line:
                    report.add(animal.line, id, IdsAlike(first.id, first.line))

    def line_and_id(self, id: str) -> tuple[int, str]:
        return self.animals[id].line, id


# Ids that animals had before theirs were corrected.


def call_as_now(animals: dict[str, SheetAnimal], book: Book, report: Report) -> None:
    """Rows with ids that animals of the book had before theirs were corrected are these animals, unless the sheet has a
    row with the id of now too; so are parents with such ids that no row has."""
    renamed = {former: id for former, id in book.new_tags.items() if former not in book.society_records}
    now = (ids_now(book) if book.society_records else {}) | renamed
    now = {former: id for former, id in now.items() if former not in animals or id not in animals}
    for former, id in now.items():
        if former in animals:
            animal = animals.pop(former)
            animal.id = id
            animals[id] = animal
            report.add(animal.line, id, FormerId(former))
    for offspring in animals.values() if now else ():
        for role, parent in offspring.parents():
            if parent in now:
                offspring.set_parent(role, now[parent])


# Ids that are used again for other animals, born years apart, or weeks apart with another name: the row is left out,
# and the animal of the book stays.


def leave_out_used_tags(
    animals: dict[str, SheetAnimal], book: Book, report: Report, another: type[IdUsedAgain] = IdUsedAgain,
    after: type[BornAfterOffspring] = BornAfterOffspring, some: Mapping[str, SheetAnimal] | None = None,
) -> set[str]:  # fmt: skip
    """Leaves out rows of animals that can't be those of the book which have their ids; answers these ids. It is told as
    `another`, or as `after` of one that would be younger than its offspring. `some` are the rows that may say something
    else than the book, where others are known not to."""
    found = set()
    both = with_other_days(animals if some is None else some, book)
    apart = [
        (animal, in_book) for animal, in_book in both
        if are_years_apart(animal, in_book, book) or is_of_another_name(animal, in_book, book)
    ]  # fmt: skip
    progeny = earliest_offspring(book, {in_book.registration_number for _, in_book in apart}) if apart else {}
    for animal, in_book in apart:
        id, number = animal.id, in_book.registration_number
        born, offspring = book.records[number].born, progeny.get(number)
        if is_another(animal, in_book):
            lines = lines_that_name(animals, animal)
            report.add(animal.line, id, another(born, in_book.name, animal.birth.first, animal.name, lines))
        elif offspring and offspring.born <= animal.birth.first:
            first = book.by_number()[offspring.registration_number].id
            report.add(animal.line, id, after(born, animal.birth.first, first, offspring.born))
        else:
            continue
        del animals[id]
        found.add(id)
    return found


def with_other_days(animals: Mapping[str, SheetAnimal], book: Book) -> list[tuple[SheetAnimal, SocietyRecord]]:
    """Those that the book has with another birth day, each with what it knows of it."""
    known, records = book.society_records, book.records
    return [
        (animal, in_book) for id, animal in animals.items()
        if (in_book := known.get(id)) and animal.birth.first != records[in_book.registration_number].born
    ] if known else []  # fmt: skip


def earliest_offspring(book: Book, parents: Set[str]) -> dict[str, RegisterRecord]:
    """The first offspring of each of these parents, by their numbers."""
    found: dict[str, RegisterRecord] = {}
    progeny = [record for record in book.records.values() if record.sire in parents or record.dam in parents]
    for parent, record in ((parent, one) for one in progeny for parent in (one.sire, one.dam) if parent in parents):
        if parent not in found or record.born < found[parent].born:
            found[parent] = record
    return found


def are_years_apart(animal: SheetAnimal, in_book: SocietyRecord, book: Book) -> bool:
    """Was it born years before or after the animal of the book? A day that was inferred tells nothing."""
    years = abs((animal.birth.first - book.records[in_book.registration_number].born).days) >= YEARS_LATER
    if not years or not animal.has_day() or in_book.birth.is_inferred:
        return False
    return not is_corrected(animal, in_book, book, Field.BIRTH)


def is_of_another_name(animal: SheetAnimal, in_book: SocietyRecord, book: Book) -> bool:
    """Has it another name than the animal of the book, and another birth day, weeks before or after? Nobody corrects
    both at once as often as a tag is used again."""
    days = abs((animal.birth.first - book.records[in_book.registration_number].born).days)
    if days < WEEKS_LATER or not animal.has_day() or in_book.birth.is_inferred or in_book.birth.period:
        return False
    if not (animal.name and in_book.name and are_other_names(animal.name, in_book.name)):
        return False
    return not any(is_corrected(animal, in_book, book, field) for field in (Field.NAME, Field.BIRTH))


def is_corrected(animal: SheetAnimal, in_book: SocietyRecord, book: Book, field: Field) -> bool:
    """Was it corrected by hand, and says the cell what it said before?"""
    cells = book.cells.get((animal.id,))
    before = cells[1 + CELL_FIELDS.index(field)] if cells else None
    return field in in_book.by_hand and before is not None and before == animal.cells.get(field)


def is_another(animal: SheetAnimal, in_book: SocietyRecord) -> bool:
    """Has it another name or another sex than the animal of the book?"""
    has_other_name = animal.name and in_book.name and animal.name.casefold() != in_book.name.casefold()
    has_other_sex = animal.sex and not in_book.sex.is_inferred and animal.sex != in_book.registration_number[6]
    return bool(has_other_name or has_other_sex)


# The numbers of animals: those of the book stay, and new ones go on from them.


SEX_OF_NUMBER: Callable[[str], str] = operator.itemgetter(slice(6, 7))


def numbers_before(ids: list[str], numbers: Mapping[str, str]) -> tuple[list[str], list[str]]:
    """The numbers that animals have or had in the book, empty for new ones, and the sexes that these say."""
    found = [numbers.get(id, "") for id in ids]
    return found, [*map(SEX_OF_NUMBER, found)]


def numbers_begin(next_book: NextBook, breed: str, country: str) -> str:
    """With what numbers begin in a book that had no animal, where nobody said it. A state that was undone may have
    given them other letters than new ones have."""
    book, first = next_book.book, next(iter(next_book.animals.values()), None)
    settings = settings_of(book)
    begin, is_set = first.registration_number[:6] if first else "", settings[Setting.BREED] + settings[Setting.COUNTRY]
    is_said = bool(breed and country) or begin == is_set or not all(letters_said(book, breed, country))
    return "" if book.records or next_book.is_pedigree or is_said else begin


def letters_unsaid(next_book: NextBook, breed: str, country: str) -> LettersUnsaid | None:
    """That nobody said with what new numbers begin, if there are any."""
    book = next_book.book
    has_breed, has_country = map(bool, letters_said(book, breed, country))
    if has_breed and has_country or all(id in book.society_records for id in next_book.animals):
        return None
    return LettersUnsaid(has_breed, has_country)


def give_numbers(next_book: NextBook, breed: str, country: str) -> None:
    """An animal that is or was in the book keeps its twelve digits; new ones go on from the greatest that there ever
    was, by birth day and id, so that no number is given to another animal. Breed and country stay as they are, or
    become those that are given; new ones have those that are set else, or those of the book."""
    book, animals = next_book.book, next_book.animals
    former = book.former_numbers() | {id: in_book.registration_number for id, in_book in book.dropped.items()}
    ids, of_book, new = [*animals], next_book.in_book.numbers, list[SheetAnimal]()
    by = ids, of_book, former
    numbers, sexes = next_book.last_found.of(Kept.NUMBERS, by, lambda: numbers_before(ids, former | of_book))
    for animal, number in zip(animals.values(), numbers):
        animal.registration_number = number
    are_others = map(operator.ne, map(SEX_OF, animals.values()), sexes)
    those = animals.values() if breed or country else itertools.compress(animals.values(), are_others)
    for animal in those:
        if number := animal.registration_number:
            now = (breed or number[:3]) + (country or number[3:6]) + animal.sex + number[7:]
            if now != number:
                animal.registration_number = now
                next_book.renumbered.add(animal.id)
        else:
            new.append(animal)
    begin = letters_for(book, breed, country)
    for digits, animal in enumerate(by_age(sorted(new, key=ID_OF)), book.greatest_digits() + 1):
        animal.registration_number = f"{begin}{animal.sex}{digits:012}"
