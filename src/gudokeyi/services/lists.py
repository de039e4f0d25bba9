"""Lists of animals by the society's own ids, the columns that they may have, and what these are made of."""
from __future__ import annotations

import enum
from collections.abc import Callable, Iterable, Sequence
from functools import cached_property
from typing import TYPE_CHECKING, Any, NamedTuple

from gudokeyi.domain.animals import LETTERS
from gudokeyi.domain.decimals import decimal, decimal_of_text
from gudokeyi.domain.own_columns import OwnColumn, OwnKind
from gudokeyi.domain.provenance import BirthSource
from gudokeyi.services.selection import Choice, condition_of
from gudokeyi.services.tables import Cell, Kind, Table
from gudokeyi.store.animal_rows import SEX_SOURCES, birth_basis, exit_of
from gudokeyi.store.book import Book
from gudokeyi.store.conditions import Condition
from gudokeyi.store.own_data import columns_now, values_at
from gudokeyi.store.queries import FRACTION, OFFSPRING, PERCENT, PLACE, selected

if TYPE_CHECKING:
    from fractions import Fraction
    from gudokeyi.genetics.generations import Generations
    from gudokeyi.services.breed_pedigree import Breed

# What columns of animals are made of beside the animals' own rows; each part is computed where a column first needs it.


class PedigreeFacts:
    """Facts of a book's whole pedigree. What is computed is asked for by an animal's place in age order, from 1 on."""

    def __init__(self, book: Book) -> None:
        self.book = book

    @cached_property
    def breed(self) -> Breed:
        from gudokeyi.services.breed_pedigree import breed_of

        return breed_of(self.book)

    @cached_property
    def generations(self) -> Generations:
        from gudokeyi.genetics.generations import generations_of

        return generations_of(self.breed.pedigree)

    @cached_property
    def mean_kinships(self) -> list[Fraction]:
        """Each animal's with the living ones; where none lives, with all."""
        from gudokeyi.genetics.kinship import Kinship
        from gudokeyi.services.breed_pedigree import living

        population = living(self.breed) or range(len(self.breed.pedigree))
        return Kinship.of(self.breed.pedigree).mean_of_each(population)

    @cached_property
    def variances(self) -> list[int]:
        from gudokeyi.genetics.kinship import sampling_variances

        return sampling_variances(self.breed.pedigree)

    def id_of(self, number: str | None) -> str:
        """That of a parent, empty for an unknown one."""
        return self.book.ids[number] if number else ""

    def equivalent_generations(self, place: int) -> Fraction:
        return self.generations.equivalent(place - 1)

    def fully_traced(self, place: int) -> int:
        return self.generations.full[place - 1]

    def mean_kinship(self, place: int) -> Fraction:
        return self.mean_kinships[place - 1]

    def sampling_variance(self, place: int) -> Fraction:
        from fractions import Fraction

        from gudokeyi.genetics.kinship import VARIANCE_BITS

        return Fraction(self.variances[place - 1], 1 << VARIANCE_BITS)


# Columns of a table of animals: each is made of columns of the book, for all animals at once.


class ColumnRecipe(NamedTuple):
    """How a column is made: of which columns of the book, and by which function of the facts and their values."""

    title: str
    kind: Kind
    of: tuple[str, ...]
    cells: Callable[..., Iterable[Cell]]


def as_it_is(title: str, of: str, kind: Kind = Kind.PLAIN) -> ColumnRecipe:
    return ColumnRecipe(title, kind, (of,), unchanged)


def unchanged(facts: PedigreeFacts, values: Iterable[Cell]) -> Iterable[Cell]:
    return values


def each(title: str, kind: Kind, of: tuple[str, ...], cell: Callable[..., Cell]) -> ColumnRecipe:
    """A column whose cells are made one by one, each of the animal's own values."""
    return ColumnRecipe(title, kind, of, lambda facts, *columns: map(cell, *columns))


def made_table(book: Book, columns: Sequence[ColumnRecipe], condition: Condition) -> Table:
    """A row with these columns for each animal for which a condition holds, in age order."""
    wanted = list(dict.fromkeys(name for column in columns for name in column.of))
    found: dict[str, Sequence[Any]] = dict(zip(wanted, zip(*selected(book, wanted, condition))))
    facts = PedigreeFacts(book)
    cells = [column.cells(facts, *(found.get(name, ()) for name in column.of)) for column in columns]
    return Table([(column.title, column.kind) for column in columns], [list(one) for one in cells])


# The columns that a list of animals may have.


class Column(enum.StrEnum):
    ID = "id"
    NAME = "name"
    NUMBER = "number"
    SEX = "sex"
    BIRTH = "birth"
    SIRE = "sire"
    DAM = "dam"
    OWNER = "owner"
    EXIT = "exit"
    COEFFICIENT = "coefficient"
    DECIMAL = "decimal"
    PERCENT = "percent"
    OFFSPRING = "offspring"
    EQUIVALENT_GENERATIONS = "equivalent_generations"
    FULLY_TRACED = "full_generations"
    MEAN_KINSHIP = "mean_kinship"
    SAMPLING_VARIANCE = "sampling_variance"


# what a list has where nothing else is asked for
USUAL = (
    Column.ID, Column.NAME, Column.NUMBER, Column.BIRTH, Column.COEFFICIENT, Column.DECIMAL, Column.PERCENT,
)  # fmt: skip
# what is shown of animals that were looked for
FOUND = (Column.ID, Column.NAME, Column.NUMBER, Column.SEX, Column.BIRTH, Column.OWNER, Column.EXIT)
BIRTH_OF = ("born", "birth_source", "birth_period", "birth_no_such_day")
EXIT_OF = ("departed", "exit_source", "exit_period", "exit_no_such_day", "exit_text")
# what the source of a birth day is that the sheet gives
GIVEN = BirthSource.GIVEN.value

def birth_of(born: str | None, source: str, period: str | None, no_such_day: str | None) -> str:
    """The birth day with its mark. Most have none."""
    if source == GIVEN:
        return born or ""
    return f"{born or ''}{birth_basis(source, period, no_such_day).mark()}"


def sex_of(number: str, source: str) -> str:
    return number[6] + SEX_SOURCES[source].mark()


# a word for a sex that an import knows
CASTRATED = "male castrated"


def sex_with_castration(number: str, source: str, is_castrated: int) -> str:
    return f"{CASTRATED}{SEX_SOURCES[source].mark()}" if is_castrated else sex_of(number, source)


SEX_WITH_CASTRATION = each("sex", Kind.PLAIN, ("number", "sex_source", "castrated"), sex_with_castration)


def parent(title: str) -> ColumnRecipe:
    """The ids of the animals' sires, or of their dams."""
    return ColumnRecipe(title, Kind.TEXT, (title,), lambda facts, numbers: map(facts.id_of, numbers))


def computed(title: str, number: Callable[[PedigreeFacts, int], Fraction]) -> ColumnRecipe:
    """Decimals of what is computed of the whole pedigree."""
    return ColumnRecipe(
        title, Kind.DECIMAL, (PLACE,), lambda facts, places: (decimal(number(facts, at)) for at in places)
    )


LIST_COLUMNS = {
    Column.ID: as_it_is(Column.ID, "id", Kind.TEXT),
    Column.NAME: as_it_is(Column.NAME, "name", Kind.TEXT),
    Column.NUMBER: as_it_is(Column.NUMBER, "number"),
    Column.SEX: each(Column.SEX, Kind.PLAIN, ("number", "sex_source"), sex_of),
    Column.BIRTH: each(Column.BIRTH, Kind.PLAIN, BIRTH_OF, birth_of),
    Column.SIRE: parent(Column.SIRE),
    Column.DAM: parent(Column.DAM),
    Column.OWNER: ColumnRecipe(
        Column.OWNER, Kind.TEXT, ("herd",), lambda facts, owner_codes: map(facts.book.owner_of, owner_codes)
    ),
    Column.EXIT: each(Column.EXIT, Kind.TEXT, EXIT_OF, exit_of),
    Column.COEFFICIENT: as_it_is(Column.COEFFICIENT, FRACTION),
    Column.DECIMAL: each(Column.DECIMAL, Kind.DECIMAL, (FRACTION,), decimal_of_text),
    Column.PERCENT: as_it_is(Column.PERCENT, PERCENT, Kind.DECIMAL),
    Column.OFFSPRING: as_it_is(Column.OFFSPRING, OFFSPRING),
    Column.EQUIVALENT_GENERATIONS: computed(Column.EQUIVALENT_GENERATIONS, PedigreeFacts.equivalent_generations),
    Column.FULLY_TRACED: ColumnRecipe(
        Column.FULLY_TRACED, Kind.PLAIN, (PLACE,), lambda facts, places: map(facts.fully_traced, places)
    ),
    Column.MEAN_KINSHIP: computed(Column.MEAN_KINSHIP, PedigreeFacts.mean_kinship),
    Column.SAMPLING_VARIANCE: computed(Column.SAMPLING_VARIANCE, PedigreeFacts.sampling_variance),
}


def own_recipes(book: Book) -> list[ColumnRecipe]:
    """The society's own columns, as they are kept."""
    return [own_recipe(one) for one in columns_now(book.connection) if one.is_kept]


def own_recipe(column: OwnColumn) -> ColumnRecipe:
    def cells(facts: PedigreeFacts, numbers: Sequence[str]) -> Iterable[Cell]:
        values = values_at(facts.book.connection, column.place)
        return (values.get(number[LETTERS:], "") for number in numbers)

    kind = Kind.DECIMAL if column.kind is OwnKind.NUMBER else Kind.TEXT
    return ColumnRecipe(column.title, kind, ("number",), cells)


def animals_table(book: Book, condition: Condition, columns: Sequence[Column] = USUAL) -> Table:
    """The animals for which a condition holds, in age order, with these columns."""
    return made_table(book, [LIST_COLUMNS[column] for column in columns], condition)


# Lists of animals, by the society's own ids.


def animals_listed(book: Book, choice: Choice = Choice(), columns: Sequence[Column] = USUAL) -> Table:
    """The animals of a choice with these columns, in age order."""
    return animals_table(book, condition_of(book, choice), columns)
