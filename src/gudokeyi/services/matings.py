"""Advice on the matings of a dam, tables of all pairs of some dams and sires, and who may be mated."""
from __future__ import annotations

import itertools
import json
import sqlite3
from collections.abc import Iterator, Sequence
from dataclasses import dataclass
from typing import NamedTuple

from gudokeyi.background import Background
from gudokeyi.domain.animals import SocietyRecord
from gudokeyi.domain.collections import made
from gudokeyi.domain.kinds import Role
from gudokeyi.domain.messages import Count, MessageText, Some, number_and_some, some_of, why
from gudokeyi.domain.mistakes import MatingImpossible
from gudokeyi.domain.provenance import BirthSource
from gudokeyi.domain.refusals import MatingFault
from gudokeyi.domain.requests import Mating
from gudokeyi.services.book_program import BookProgram
from gudokeyi.services.lists import BIRTH_OF, LIST_COLUMNS, USUAL, birth_of
from gudokeyi.services.relationships import Pairs
from gudokeyi.services.tables import Begun, Cell, Kind, Table
from gudokeyi.store.book import Book
from gudokeyi.store.coefficients import Coefficient, decimals_of_units, units_of
from gudokeyi.store.conditions import among
from gudokeyi.store.mates import MatesRead, Why, birth_day
from gudokeyi.store.queries import selected

# Who may be mated: those that are named, or all that there are, with who was passed over.

SEXES = {Role.SIRE: "male", Role.DAM: "female"}
OF_CANDIDATE = ("number", "id", "name", *BIRTH_OF)
WITH_YEAR = (BirthSource.GIVEN.value, BirthSource.PERIOD.value)
OTHERS = {Role.SIRE: "female", Role.DAM: "male"}


class Candidate(NamedTuple):
    """An animal that may be mated; `birth` is its birth day as lists show it, and `has_year` says whether at least its
    birth year is known."""

    registration_number: str
    id: str
    name: str
    born: str
    birth: str
    has_year: bool


@dataclass(frozen=True)
class Candidates:
    """Those that may be a parent, and who was passed over: the ids of castrated ones and of those without a row, and
    how many left."""

    role: Role
    animals: list[Candidate]
    castrated: Sequence[str] = ()
    without_row: Sequence[str] = ()
    left: int = 0

    @property
    def numbers(self) -> list[str]:
        return [one.registration_number for one in self.animals]

    def told(self) -> list[str]:
        """Who was passed over though it may have been meant; how many left is told where they can be asked for."""
        sex, sentences = SEXES[self.role], []
        for what, ids, hint in (
            (f"{sex}s without a row in the sheet", self.without_row, "name one, if it lives"),
            (f"castrated {sex}s", self.castrated, "name one, if its semen is stored"),
        ):
            if ids:
                sentences.append(f"{what}: {number_and_some(ids)} aren't listed: {hint}")
        return sentences

    def needed(self, hint: MessageText) -> Candidates:
        """These; a mistake where there is none."""
        if self.animals:
            return self
        passed = [Mating.LEFT.said(count=self.left)] * bool(self.left)
        passed += [Mating.CASTRATED.said(castrated=Count(len(self.castrated), "castrated one"))] * bool(self.castrated)
        passed += [Mating.WITHOUT_ROW.said(count=len(self.without_row))] * bool(self.without_row)
        among = Mating.AMONG.said(passed=Some(passed)) if passed else ""
        raise MatingImpossible(Mating.NO_CANDIDATE.said(sex=SEXES[self.role], role=self.role, among=among, hint=hint))


def candidates_of(book: Book, role: Role, named: Sequence[SocietyRecord] | None) -> Candidates:
    """Those that are named, each of which has to have the sex; where none is, all that there are."""
    wrong = [animal.id for animal in named or () if animal.registration_number[6] != role.sex]
    if wrong:
        raise MatingImpossible(Mating.WRONG_SEX.said(animals=Some(wrong), role=role, sex=OTHERS[role]))
    found = all_candidates(book, role) if named is None else named_candidates(book, role, named)
    return found.needed(Mating.NAME_IN_FILE.said(role=role))


def named_candidates(book: Book, role: Role, named: Sequence[SocietyRecord]) -> Candidates:
    """In the order in which they are named, whatever they are."""
    numbers = list(dict.fromkeys(animal.registration_number for animal in named))
    rows = selected(book, OF_CANDIDATE, among(numbers))
    by_number = {
        number: Candidate(number, id, name, born, birth_of(born, *basis), basis[0] in WITH_YEAR)
        for number, id, name, born, *basis in rows
    }
    return Candidates(role, [by_number[number] for number in numbers])


def all_candidates(book: Book, role: Role, also_left: bool = False) -> Candidates:
    """The living ones that have a row and aren't castrated, in age order; or those that left too."""
    read = MatesRead(book, role, also_left)
    rows = zip(read.numbers, read.ids, read.names, read.births)
    animals = [candidate(*row) for row in rows]
    animals.sort(key=lambda one: (one.born, one.registration_number))
    return passed_over(read, role, animals)


def passed_over(read: MatesRead, role: Role, animals: list[Candidate]) -> Candidates:
    """These animals, and who was passed over."""
    castrated, without_row = read.passed_over(Why.CASTRATED), read.passed_over(Why.WITHOUT_ROW)
    return Candidates(role, animals, castrated, sorted(without_row), read.why.count(Why.LEFT))


def candidate(number: str, id: str, name: str, birth: str) -> Candidate:
    """That of an animal as it is read. The sheet gives most birth days."""
    if birth[:1] != "[":
        return made(Candidate, (number, id, name, birth, birth, True))
    born, *basis = json.loads(birth)
    return Candidate(number, id, name, born, birth_of(born, *basis), basis[0] in WITH_YEAR)


def birth_shown(birth: str) -> str:
    """A birth that is read, as lists show it."""
    return birth_of(*json.loads(birth)) if birth[:1] == "[" else birth


# Tables of the coefficients that offspring of all pairs of some dams and sires would have.

COLUMNS = (
    ("dam", Kind.TEXT), ("sire", Kind.TEXT), ("coefficient", Kind.PLAIN), ("decimal", Kind.DECIMAL),
    ("percent", Kind.DECIMAL),
)  # fmt: skip


def mates_table(dams: Candidates, sires: Candidates, pairs: Pairs) -> Table:
    """For each dam its sires, the least related first."""
    found = least_first(dams, sires, pairs)
    rows = [(dam, sire, one.fraction, one.decimal(), one.percent) for dam, sire, one in found]
    return Table.of_rows(COLUMNS, rows)


def least_first(dams: Candidates, sires: Candidates, pairs: Pairs) -> Iterator[tuple[str, str, Coefficient]]:
    """By ids, dam by dam."""
    for dam in dams.animals:
        of_dam = [(sire.id, pairs.of(dam, sire)) for sire in sires.animals]
        for _, sire, one in sorted((one.units, sire, one) for sire, one in of_dam if one):
            yield dam.id, sire, one


def mates_matrix(dams: Candidates, sires: Candidates, pairs: Pairs) -> Table:
    """A row for each dam and a column for each sire, with percentages; nothing where a mating is refused."""
    rows: list[Sequence[Cell]] = []
    for dam in dams.animals:
        values = [pairs.of(dam, sire) for sire in sires.animals]
        rows.append((dam.id, *(one.percent if one else "" for one in values)))
    return Table.of_rows([("percent", Kind.TEXT), *((sire.id, Kind.DECIMAL) for sire in sires.animals)], rows)


def told_of_refused(book: Book, pairs: Pairs) -> list[str]:
    """Which pairs aren't in the table, and why."""
    fault = MatingFault.PATH_TOO_LONG
    ids = [f"{book.ids[dam]} with {book.ids[sire]}" for dam, sire in pairs.refused]
    return [f"refused: {fault.words()} (fault {fault}): {some_of(ids)}"] if ids else []


# Advice on the matings of a dam.

REFUSED = "refused"
TITLES = [(LIST_COLUMNS[column].title, LIST_COLUMNS[column].kind) for column in USUAL]


class Answers(NamedTuple):
    """What the program says of a mating with each of the sires, in their order: the coefficient that offspring would
    have as a fraction, and its percentage; or `refused`, and the number of the fault."""

    fractions: list[str]
    percents: list[str]
    some_refused: bool


class Advice(NamedTuple):
    """The coefficient that offspring of each sire would have, the least first, why others have none, and who was passed
    over."""

    table: Table
    refused: list[MessageText]
    sires: Candidates
    # the same by the sires' ids
    faults: tuple[tuple[str, MatingFault], ...] = ()


class SiresView(NamedTuple):
    """What is shown of sires whatever the dam is: in columns, as their rows begin in a file, and their places in the
    order of their ids."""

    cells: list[list[str]]
    begun: Begun
    by_id: list[int]


def advise_on_named(book: Book, program: BookProgram, dam: SocietyRecord, named: Sequence[SocietyRecord]) -> Advice:
    """Advice on sires that are named, each of them once."""
    sires = named_candidates(book, Role.SIRE, named)
    return advice_of(dam, sires, by_mating(book, program, dam, sires))


def advise_on_all(
    book: Book, program: BookProgram, dam: SocietyRecord, read: MatesRead, begun: Sequence[
        Background[str]
    ], also_left: bool
) -> Advice:
    """Advice on all sires that were read. What is told of them is read and made while the program computes."""
    if book.beside is not None:
        # two who read a database at once are in each other's way
        book.beside.wait()
    sires = passed_over(read, Role.SIRE, [])
    if not read.numbers:
        sires.needed((Mating.NAME_ONE if also_left else Mating.NAME_ONE_OR_LEFT).said())
    shown = shown_of(read.ids, read.names, read.numbers, [*map(birth_shown, read.births)])
    try:
        answers = answers_of(begun)
    except sqlite3.Error:
        # the journal couldn't be read beside
        answers = answers_of(program.begin_matings(dam.registration_number, read.numbers, book))
    return told_of(dam, sires, answers, shown, read)


def advice_of(dam: SocietyRecord, sires: Candidates, answers: Answers) -> Advice:
    """What is told of the program's answers on sires, in their order."""
    animals = sires.animals
    columns = [one.id for one in animals], [one.name for one in animals], sires.numbers, [one.birth for one in animals]
    return told_of(dam, sires, answers, shown_of(*columns))


def told_of(
    dam: SocietyRecord, sires: Candidates, answers: Answers, shown: SiresView, read: MatesRead | None = None
) -> Advice:
    """What is told of the program's answers on sires that are shown. Those that it refuses are told in age order where
    they were read in none."""
    if not answers.some_refused:
        return Advice(advice_table(shown, answers), [], sires)
    ids, _, numbers, _ = shown.cells
    places = [*range(len(ids))]
    if read is not None:
        places.sort(key=[*zip(map(birth_day, read.births), numbers)].__getitem__)
    refused = [(ids[at], MatingFault(int(answers.percents[at]))) for at in places if answers.fractions[at] == REFUSED]
    of_dam = [fault for _, fault in refused if fault.is_of_dam()]
    if of_dam:
        raise MatingImpossible(Mating.NOT_A_DAM.said(dam=dam.id, **why(of_dam[0])))
    told = [Mating.REFUSED.said(sire=id, **why(fault)) for id, fault in refused]
    mated = [fraction != REFUSED for fraction in answers.fractions]
    columns = [*shown.cells, answers.fractions, answers.percents]
    *cells, fractions, percents = ([*itertools.compress(column, mated)] for column in columns)
    return Advice(advice_table(shown_of(*cells), Answers(fractions, percents, False)), told, sires, tuple(refused))


def by_mating(book: Book, program: BookProgram, dam: SocietyRecord, sires: Candidates) -> Answers:
    """What the program says of a mating with each of the sires, in their order."""
    return answers_of(program.begin_matings(dam.registration_number, sires.numbers, book))


def answers_of(begun: Sequence[Background[str]]) -> Answers:
    """What the program says of them, in their order."""
    # of three cells each, of which the first is the sire
    text = "".join(one.value() for one in begun)
    cells = text.replace("\n", ",").split(",")
    return Answers(cells[1::3], cells[2::3], REFUSED in text)


def shown_of(ids: list[str], names: list[str], numbers: list[str], births: list[str]) -> SiresView:
    cells = [ids, names, numbers, births]
    # no two have the same id
    return SiresView(cells, Begun.of(TITLES[: len(cells)], cells), sorted(range(len(ids)), key=ids.__getitem__))


def advice_table(shown: SiresView, answers: Answers) -> Table:
    """The sires, each with the coefficient that its offspring would have, the least first."""
    units = units_of(answers.fractions)
    cells = [*shown.cells, answers.fractions, decimals_of_units(units), answers.percents]
    # of the same coefficient they stay in the order of their ids
    return Table(TITLES, cells, sorted(shown.by_id, key=units.__getitem__), shown.begun)
