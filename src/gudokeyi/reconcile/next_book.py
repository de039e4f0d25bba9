"""The book that is to be: what the sheet says of its animals, what their cells mean, what the book has besides, and
what is known of each animal afterwards."""
from __future__ import annotations

import collections
import datetime
import functools
import itertools
import operator
from collections.abc import Callable, Collection, Iterable, Iterator, Mapping, Sequence, Set
from typing import NamedTuple, TypeVar

from gudokeyi.domain.animals import NO_FIELDS, SocietyRecord
from gudokeyi.domain.collections import made
from gudokeyi.domain.commands import Command, RegisterRecord, birth, day_text, lines_of, parents
from gudokeyi.domain.findings import Finding, Report
from gudokeyi.domain.kinds import Field, Role, Standing
from gudokeyi.ingest.animals import (
    BORN_OF, DAM_OF, EMBRYO_OF, ID_OF, LEFT_OF, LINE_OF, NUMBER_OF, SIRE_OF, SheetAnimal,
)  # fmt: skip
from gudokeyi.ingest.day_cells import DayCell, DayCells
from gudokeyi.ingest.texts import clean, nearly
from gudokeyi.ingest.words import KNOWN_CASTRATED, KNOWN_CASTRATED_SHORT, KNOWN_SEXES, KNOWN_YES, sex_word
from gudokeyi.reconcile.animals_of_book import AnimalsOfBook
from gudokeyi.reconcile.last_found import Kept, LastFound, NothingKept
from gudokeyi.reconcile.rows_of_book import RowsOfBook
from gudokeyi.store.book import Book
from gudokeyi.store.state import Rows, Table

# What cells mean, however they are written: a day in another form, a parent by its id or by its name, an unknown one.

PARENTS, DAYS = {Field.SIRE: Role.SIRE, Field.DAM: Role.DAM}, (Field.BIRTH, Field.SINCE)


class Meanings:
    """Compares cells of animals with those of the last sheet, as words are understood now."""

    def __init__(self, animals: Mapping[str, SheetAnimal], book: Book, days: DayCells) -> None:
        self.animals, self.book, self.days = animals, book, days

    def are_alike(self, id: str, field: Field, before: object, now: str) -> bool:
        """Do the last cell of an animal and the one of now say the same? No cell is an empty one."""
        text = str(before or "")
        if field is Field.OWNER:
            text = self.book.respelt(text)
        return text == now or self.of(id, field, text) == self.of(id, field, now)

    def of(self, id: str, field: Field, text: str) -> object:
        if field in PARENTS:
            return self.parent(id, text, PARENTS[field])
        if field in DAYS:
            return days_of(self.days.day(field, text), text)
        if field is Field.EXIT:
            exit = self.days.exit(text)
            return days_of(exit.day, text) if exit else ""
        if field is Field.SEX:
            word = sex_word(text)
            is_castrated = word in KNOWN_CASTRATED or word in KNOWN_CASTRATED_SHORT
            return (KNOWN_SEXES[word], is_castrated) if word in KNOWN_SEXES else clean(text)
        return text.casefold() in KNOWN_YES if field is Field.EMBRYO else clean(text)

    def parent(self, offspring: str, text: str, role: Role) -> str:
        """The animal that a text means, by its id, or where it is the only one by its name, also the only one of its
        sex, or by an id that is nearly this."""
        if text in self.days.unknown or text in self.animals or text in self.book.society_records:
            return "" if text in self.days.unknown else text
        near, named = self.near.get(nearly(text), set()), self.named.get(text.casefold(), set()) - {offspring}
        if len(named) > 1 and all(map(self.sex, named)):
            named = {id for id in named if self.sex(id) == role.sex}
        for ids in near - {offspring}, named:
            if len(ids) == 1:
                return min(ids)
        return text

    def sex(self, id: str) -> str:
        """That of an animal, where a row or the book says it."""
        if id in self.animals and self.animals[id].sex:
            return self.animals[id].sex
        in_book = self.book.society_records.get(id)
        return in_book.registration_number[6] if in_book and not in_book.sex.is_inferred else ""

    @functools.cached_property
    def near(self) -> Mapping[str, set[str]]:
        near = collections.defaultdict[str, set[str]](set)
        for id in self.animals.keys() | self.book.society_records.keys():
            near[nearly(id)].add(id)
        return near

    @functools.cached_property
    def named(self) -> Mapping[str, set[str]]:
        """The animals by their names of now and of before, in small letters."""
        named = collections.defaultdict[str, set[str]](set)
        now = [(one.name, id) for id, one in self.animals.items()]
        before = [(one.name, id) for id, one in self.book.society_records.items()]
        for name, id in now + before:
            named[name.casefold()].add(id)
        return named


def days_of(cell: DayCell, text: str) -> object:
    """The days that a cell leaves open; its text where it can't be read, and nothing where it says nothing."""
    if cell.span:
        return cell.span.first, cell.span.last
    return text if cell.says_something else ""


# The book that is to be: what the sheet says of its animals, and what the book has besides.


class NextBook:
    """The animals that are to stand in the book, by id, beside the book as it is."""

    def __init__(
        self, book: Book, animals: dict[str, SheetAnimal], given: set[str], report: Report, days: DayCells,
        is_pedigree: bool = False, in_book: AnimalsOfBook | None = None, last_found: LastFound | None = None,
    ) -> None:  # fmt: skip
        """`days` is how days are read, and which words are unknown parents; `in_book` are the animals of the book,
        where they were looked at before; `last_found` is what a look before found."""
        self.last_found = last_found or NothingKept()
        self.in_book = in_book or AnimalsOfBook(book)
        self.book, self.animals, self.given, self.report = book, animals, given, report
        self.meanings, self.is_pedigree = Meanings(animals, book, days), is_pedigree
        self.names = book.by_number()
        # what the book's own rows say, of a sheet that has some, and the rows that may say something else: else all
        self.rows_of_book: RowsOfBook | None = None
        self.otherwise = animals
        # whether a parent is a sire or a dam, by most of its offspring
        self.roles: dict[str, Role] = {}
        # the ids of rows that are left out, since the book has them for other animals, which stay
        self.used_again: set[str] = set()
        # rows of tables beside the animals'
        self.others: list[tuple[Table, Rows]] = []
        # the values of the society's own columns that an animal gets, each with its column's place and the one before
        self.own_values: dict[str, list[tuple[int, str, str]]] = {}
        # why it isn't taken but by --anyway
        self.obstacles: list[Finding] = []
        # the sire and the dam as the sheet writes them, by an animal's id; empty where it has no such column
        self.texts: dict[str, tuple[str, str]] = {}
        # the parents of animals without a row that the book hasn't, and that are tried again
        self.tried: set[tuple[str, Role]] = set()
        # the fields that were filed by hand and that the sheet says otherwise now than before
        self.overridden: dict[str, frozenset[Field]] = {}
        # the ids of rows that name another owner than the one by hand, who stays
        self.kept_owners: set[str] = set()
        # the ids of animals whose exits are those of the book, or were left out there
        self.exits_of_book: set[str] = set()
        # the titles of the last sheet's columns of exits that this one lacks, and those whose exits stay therefore
        self.lost_exits, self.kept_exits = tuple[str, ...](), list[SheetAnimal]()
        # the ids of animals that have another number than before
        self.renumbered: set[str] = set()
        # the sheet has new rows alone: the others of the book stay what they are in it
        self.appends = False

    def compare(self, rows_of_book: RowsOfBook, same: Set[str] = frozenset()) -> None:
        """From here on what changes something is looked for in rows that may say something else than the book; the
        `same` are known to say what it has."""
        rows = {id: row for id, row in self.otherwise.items() if id not in same} if same else self.otherwise
        self.rows_of_book, self.otherwise = rows_of_book, rows_of_book.others(rows)

    def rows_otherwise(self) -> list[SheetAnimal]:
        """These rows, without those that are left out."""
        if self.otherwise is self.animals:
            return [*self.animals.values()]
        return [row for id, row in self.otherwise.items() if self.animals.get(id) is row]

    def animals_otherwise(self) -> list[SheetAnimal]:
        """The animals of these rows, and those without a row, once all are there."""
        rows = self.rows_otherwise()
        return rows if self.otherwise is self.animals else rows + self.without_row

    @functools.cached_property
    def without_row(self) -> list[SheetAnimal]:
        """The animals without a row, once all are there."""
        return [*itertools.filterfalse(LINE_OF, self.animals.values())]

    @functools.cached_property
    def new(self) -> list[SheetAnimal]:
        """The animals that the book hasn't, once all are there."""
        ids, known = [*self.animals], self.in_book.numbers
        new = self.last_found.of(Kept.NEW, (ids, known), lambda: [*itertools.filterfalse(known.__contains__, ids)])
        return [*map(self.animals.__getitem__, new)]

    @property
    def new_rows(self) -> int:
        """How many of these have a row."""
        return sum(map(bool, map(LINE_OF, self.new)))

    @property
    def rows(self) -> int:
        """How many animals have one, once all are there."""
        return len(self.animals) - len(self.without_row)

    def record(self, id: str) -> RegisterRecord | None:
        in_book = self.book.society_records.get(id)
        return self.book.records[in_book.registration_number] if in_book else None

    def id_of(self, number: str) -> str:
        return self.names[number].id if number else ""

    def has_in_book(self, id: str, parent: str) -> bool:
        """Has an animal this parent in the book?"""
        record = self.record(id)
        return record is not None and parent in (self.id_of(record.sire), self.id_of(record.dam))

    # -- what commands name

    def number_of(self, id: str) -> str:
        """That of an animal, once all have theirs, or of an unknown parent."""
        return self.animals[id].registration_number if id else UNKNOWN

    def birth_of(self, animal: SheetAnimal, owner_code: int) -> Command:
        """The birth of an animal with the parents of today, in a herd."""
        sire, dam = self.number_of(animal.sire), self.number_of(animal.dam)
        return birth(animal.registration_number, animal.born, sire, dam, owner_code, animal.embryo)

    def parents_of(self, animal: SheetAnimal) -> Command:
        return parents(animal.registration_number, self.number_of(animal.sire), self.number_of(animal.dam))

    @functools.cached_property
    def numbers(self) -> dict[str, str]:
        """The numbers of all animals by their ids, once they have them, and that of an unknown parent."""
        numbers = dict(zip(self.animals, map(NUMBER_OF, self.animals.values())))
        numbers[""] = UNKNOWN
        return numbers

    @functools.cached_property
    def lasting(self) -> Lasting:
        """What stays as it is of all animals, once they have their numbers: neither these nor birth days change."""
        return lasting(self.animals.values())

    @functools.cached_property
    def places(self) -> list[int]:
        """The places of the animals, the oldest first; those of a day by their numbers."""
        _, numbers, days, _ = self.lasting
        return self.last_found.of(Kept.BY_BIRTH, (numbers, days), lambda: places_by_birth(numbers, days))

    def at(self, places: Iterable[int]) -> list[SheetAnimal]:
        return [*in_places(self.animals.values(), places)]

    def told_of_all(self) -> ToldOfAnimals:
        """What the program is told of all animals, as they are now."""
        return ToldOfAnimals(*self.lasting, *changing(self.animals.values()))


def places_by_birth(numbers: Sequence[str], days: Sequence[datetime.date]) -> list[int]:
    ordinals = [*map(datetime.date.toordinal, days)]
    return sorted(sorted(range(len(numbers)), key=numbers.__getitem__), key=ordinals.__getitem__)


# What the program is told of animals.

# how a command names an unknown parent
UNKNOWN = "0"
EMBRYO_TEXTS = {False: "", True: "1"}
NOTHING = itertools.repeat("")
Value = TypeVar("Value")
# the values of a command
Values = tuple[str, ...]
Lasting = tuple[list[str], list[str], list[datetime.date], list[bool]]


class ToldOfAnimals(NamedTuple):
    """What the program is told of animals, in columns. Parents are ids, and empty where they are unknown."""

    ids: list[str]
    numbers: list[str]
    days: list[datetime.date]
    are_embryos: list[bool]
    left: list[datetime.date | None]
    sires: list[str]
    dams: list[str]

    @classmethod
    def of(cls, animals: Collection[SheetAnimal]) -> ToldOfAnimals:
        return cls(*lasting(animals), *changing(animals))

    def births(self, number_of: Callable[[str], str], owner_codes: Iterable[int]) -> Iterator[Values]:
        """The births with the parents of today, by the numbers of ids, each in a herd."""
        return self.births_with(map(number_of, self.sires), map(number_of, self.dams), map(str, owner_codes))

    def births_alone(self) -> Iterator[Values]:
        """The births without parents, in the first herd."""
        unknown = itertools.repeat(UNKNOWN)
        return self.births_with(unknown, unknown, itertools.repeat("1"))

    def births_with(self, sires: Iterable[str], dams: Iterable[str], owner_codes: Iterable[str]) -> Iterator[Values]:
        days, embryos = map(day_text, self.days), map(EMBRYO_TEXTS.__getitem__, self.are_embryos)
        return zip(itertools.repeat("birth"), self.numbers, days, sires, dams, NOTHING, owner_codes, embryos)

    def exits(self) -> Iterator[Values]:
        """The exits of those that have left."""
        return exits_of(self.numbers, self.left)

    def exits_in(self, places: Sequence[int]) -> Iterator[Values]:
        """The same in another order."""
        return exits_of([*in_places(self.numbers, places)], [*in_places(self.left, places)])

    def with_parents(self, places: Sequence[int]) -> list[int]:
        """Those of some places at which animals have a parent."""
        have_some = map(operator.add, in_places(self.sires, places), in_places(self.dams, places))
        return [*itertools.compress(places, have_some)]

    def links(self, places: Sequence[int], number_of: Callable[[str], str]) -> Iterator[Values]:
        """The parents of animals at some places, by the numbers of ids."""
        numbers, sires, dams = (in_places(values, places) for values in (self.numbers, self.sires, self.dams))
        parents = map(number_of, sires), map(number_of, dams)
        return zip(itertools.repeat("parents"), numbers, NOTHING, *parents, NOTHING, NOTHING, NOTHING)

    @property
    def without_parents(self) -> tuple[object, ...]:
        """What is told of animals but for their parents."""
        return self[: self._fields.index("sires")]

    def lines_without_parents(self) -> bytes:
        """The births without parents, and the exits."""
        return lines_of(self.births_alone()) + lines_of(self.exits())

    def count_exits(self) -> int:
        return len(self.left) - self.left.count(None)


def lasting(animals: Collection[SheetAnimal]) -> Lasting:
    """The ids, numbers and birth days of animals, and which are embryos: once they have numbers these stay."""
    return [*map(ID_OF, animals)], [*map(NUMBER_OF, animals)], [*map(BORN_OF, animals)], [*map(EMBRYO_OF, animals)]


def changing(animals: Collection[SheetAnimal]) -> tuple[list[datetime.date | None], list[str], list[str]]:
    """The days when animals left, and their parents, of which some may be left out yet."""
    return [*map(LEFT_OF, animals)], [*map(SIRE_OF, animals)], [*map(DAM_OF, animals)]


def exits_of(numbers: Sequence[str], left: Sequence[datetime.date | None]) -> Iterator[Values]:
    days = map(day_text, filter(None, left))
    return zip(
        itertools.repeat("exit"), itertools.compress(numbers, left), days, NOTHING, NOTHING, NOTHING, NOTHING, NOTHING
    )


def in_places(values: Iterable[Value], places: Iterable[int]) -> Iterator[Value]:
    """Values in another order."""
    return map([*values].__getitem__, places)


def commands_of(values: Iterable[Values]) -> list[Command]:
    return [made(Command, one) for one in values]


# What is known of each animal after an import.

# of an animal whose parents are written as they are
NOTHING_WRITTEN = ("", "")


def known_after(next_book: NextBook) -> dict[str, SocietyRecord]:
    """What is known of the animals of the next book, and of those that are dropped."""
    return kept_animals(next_book) | dropped_animals(next_book)


def dropped_animals(next_book: NextBook) -> dict[str, SocietyRecord]:
    before = next_book.book.dropped | dict(next_book.book.society_records)
    dropped = [in_book for id, in_book in before.items() if id not in next_book.animals]
    return {in_book.id: in_book._replace(standing=Standing.DROPPED) for in_book in dropped}


def kept_animals(next_book: NextBook) -> dict[str, SocietyRecord]:
    kept, written, society_records = {}, written_parents(next_book), next_book.book.society_records
    for id, animal in next_book.animals.items():
        before = society_records.get(id)
        by_hand = before.by_hand - next_book.overridden.get(id, NO_FIELDS) if before else NO_FIELDS
        sire, dam = written.get(id, NOTHING_WRITTEN)
        values = (
            animal.registration_number,
            id,
            animal.name,
            Standing.ROW if animal.line else standing_of(next_book, animal, before),
            animal.birth_basis,
            animal.exit_basis,
            animal.sex_source,
            animal.castrated,
            sire,
            dam,
            by_hand,
            animal.owner_day,
            before.exit_reason if before and (animal.left or animal.exit_basis.day_is_unknown) else "",
        )
        kept[id] = made(SocietyRecord, values)
    return kept


def standing_of(next_book: NextBook, animal: SheetAnimal, before: SocietyRecord | None) -> Standing:
    """That of an animal without a row."""
    # a row that is left out, since it is another animal's, makes no other of the one that the book has
    if before and (next_book.appends or animal.id in next_book.used_again or before.standing is Standing.FILED):
        return before.standing
    return Standing.GONE if before and before.standing.had_row() else Standing.PARENT


def written_parents(next_book: NextBook) -> dict[str, tuple[str, str]]:
    """For each animal the texts of its sire and its dam where these were left out, or are written by their names; those
    of the book where the sheet doesn't give the parent."""
    book, animals = next_book.book, next_book.animals
    found: dict[tuple[str, Role], str] = {}
    before = [(in_book, role) for in_book in book.society_records.values() for role in Role if in_book.written(role)]
    for in_book, role in before:
        animal, record = animals.get(in_book.id), book.records[in_book.registration_number]
        if animal and not (animal.line and role in next_book.given):
            if animal.parent(role) == next_book.id_of(record.parent(role)):
                found[in_book.id, role] = in_book.written(role)
    for id, (sire, dam) in next_book.texts.items():
        animal = animals.get(id)
        if animal and (animal.sire != sire or animal.dam != dam):
            both = (Role.SIRE, sire), (Role.DAM, dam)
            found |= {(id, role): text for role, text in both if is_otherwise(next_book, animal, role, text)}
    return {id: (found.get((id, Role.SIRE), ""), found.get((id, Role.DAM), "")) for id, _ in found}


def is_otherwise(next_book: NextBook, animal: SheetAnimal, role: Role, text: str) -> bool:
    """Is the parent another one than the text of the sheet? A pedigree's parents may be swapped."""
    is_swapped = next_book.is_pedigree and text in (animal.sire, animal.dam)
    return bool(text) and animal.parent(role) != text and not is_swapped
