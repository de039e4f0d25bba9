"""The whole pedigree as a file, by the society's ids and in age order, and the inverse of the numerator relationship
matrix."""
from __future__ import annotations

import functools
import pathlib
import re
from collections.abc import Iterable, Sequence

from gudokeyi.domain.animals import SocietyRecord
from gudokeyi.domain.messages import Mistake
from gudokeyi.domain.pedigree_order import ancestors
from gudokeyi.domain.provenance import BirthSource, ExitSource, SexSource
from gudokeyi.engine.answers import inverse_elements
from gudokeyi.services.book_program import BookProgram
from gudokeyi.services.lists import (
    CASTRATED, LIST_COLUMNS, Column, as_it_is, each, made_table, own_recipes, parent,
)  # fmt: skip
from gudokeyi.services.output_files import write_outs
from gudokeyi.services.tables import Kind, Table
from gudokeyi.store.animal_rows import AnimalRow, birth_basis, exit_basis
from gudokeyi.store.book import Book
from gudokeyi.store.conditions import ANY, Condition, among
from gudokeyi.store.legacy.files import STANDINGS
from gudokeyi.store.queries import EMBRYO, known_parents

# The whole pedigree as a file, by the society's ids and in age order.

# words by what a row of the table has
STANDING_WORDS = {standing.value: words for standing, words in STANDINGS.items()}
SEX_WORDS = {source.value: source.words() for source in SexSource}
# what a day or a sex comes from that somebody gave
GIVEN = (BirthSource.GIVEN.value, ExitSource.GIVEN.value, SexSource.GIVEN.value)


def sex_said(number: str, is_castrated: int) -> str:
    return CASTRATED if is_castrated else number[6]


def inferred_sex(number: str, source: str) -> str:
    """That of an animal of which nobody gave it: by this an import that takes the sheet infers it again."""
    return "" if source in GIVEN else number[6]


def said_of_day(day: str | None, source: str, *said: str | None) -> str:
    """What a sheet says of a day: the day that was given, else a month, a year or a word; nothing where nothing was."""
    return (day or "") if source in GIVEN else next(filter(None, said), "")


def inferred_day(day: str | None, source: str) -> str:
    return "" if source in GIVEN else day or ""


@functools.lru_cache(maxsize=4096)
def birth_words(source: str, period: str | None, no_such_day: str | None) -> str:
    return birth_basis(source, period, no_such_day).words()


@functools.lru_cache(maxsize=4096)
def exit_words(source: str, period: str | None, no_such_day: str | None, text: str | None) -> str:
    return exit_basis(source, period, no_such_day, text).words()


COLUMNS = (
    as_it_is("id", "id", Kind.TEXT),
    as_it_is("name", "name", Kind.TEXT),
    each("sex", Kind.PLAIN, ("number", "castrated"), sex_said),
    each("birth", Kind.PLAIN, ("born", "birth_source", "birth_period"), said_of_day),
    parent("sire"),
    parent("dam"),
    LIST_COLUMNS[Column.OWNER],
    each("exit", Kind.TEXT, ("departed", "exit_source", "exit_period", "exit_text"), said_of_day),
    as_it_is("embryo", EMBRYO),
    as_it_is("herdbook_number", "number"),
    LIST_COLUMNS[Column.COEFFICIENT],
    LIST_COLUMNS[Column.DECIMAL],
    each("row_in_sheet", Kind.PLAIN, ("standing",), STANDING_WORDS.__getitem__),
    each("inferred_birth", Kind.PLAIN, ("born", "birth_source"), inferred_day),
    each("birth_from", Kind.PLAIN, ("birth_source", "birth_period", "birth_no_such_day"), birth_words),
    each("inferred_exit", Kind.PLAIN, ("departed", "exit_source"), inferred_day),
    each("exit_from", Kind.TEXT, ("exit_source", "exit_period", "exit_no_such_day", "exit_text"), exit_words),
    each("inferred_sex", Kind.PLAIN, ("number", "sex_source"), inferred_sex),
    each("sex_from", Kind.PLAIN, ("sex_source",), SEX_WORDS.__getitem__),
)
# what stands for an unknown parent: R reads it as none
UNKNOWN = "NA"


def condition_of(book: Book, kept: Iterable[SocietyRecord] | None) -> Condition:
    """What holds for all animals, or for those that are to be kept and their ancestors."""
    if kept is None:
        return ANY
    numbers = {animal.registration_number for animal in kept}
    wanted = sorted(ancestors(numbers, known_parents(book).__getitem__) | numbers)
    return among(wanted)


def rows_kept(book: Book, kept: Iterable[SocietyRecord] | None) -> list[AnimalRow]:
    """The animals themselves, in age order."""
    return book.rows(condition_of(book, kept), in_age_order=True)


def export_table(book: Book, kept: Iterable[SocietyRecord] | None) -> Table:
    """A sheet that can be taken again, with the inferred days and sexes, what each comes from, and the society's own
    columns behind it."""
    return made_table(book, [*COLUMNS, *own_recipes(book)], condition_of(book, kept))


def triples(book: Book, kept: Iterable[SocietyRecord] | None) -> list[tuple[str, str, str]]:
    """The id of each animal, its sire's and its dam's, empty for an unknown one."""
    found = made_table(book, [LIST_COLUMNS[Column.ID], parent("sire"), parent("dam")], condition_of(book, kept))
    return [(str(id), str(sire), str(dam)) for id, sire, dam in found.rows]


def triples_text(rows: Sequence[tuple[str, str, str]]) -> str:
    """Lines of `id sire dam` below these titles, as `read.table` of R reads them."""
    names = {id: quoted(id) for id, _, _ in rows} | {"": UNKNOWN}
    lines = [f"{names[id]} {names[sire]} {names[dam]}" for id, sire, dam in rows]
    return "\n".join(["id sire dam", *lines]) + "\n"


def quoted(id: str) -> str:
    """An id that has blanks or signs stands between quotation marks, and its own have a backslash before them."""
    if id == UNKNOWN:
        raise Mistake(f"'{id}' stands for an unknown parent in R, and for an animal here: leave out --triples")
    if re.fullmatch(r"[\w./:+-]+", id):
        return id
    if id.endswith("\\"):
        raise Mistake(f"'{id}' ends with a backslash, which R can't read within quotation marks: leave out --triples")
    escaped = id.replace('"', '\\"')
    return f'"{escaped}"'


# The inverse of the numerator relationship matrix, summed up, as a MatrixMarket file.

# Elements are summed up as whole numbers of this unit, so that rounding comes last.
BITS = 96


def summed(book: Book, program: BookProgram) -> tuple[list[str], dict[int, int]]:
    """The numbers of the rows, in age order, and the elements of the lower triangle: by `row << 16 | column`, counted
    from 0, in units of 2^-96."""
    order: list[str] = []
    rank: dict[str, int] = {}
    elements: dict[int, int] = {}
    for animal, row, column, value in inverse_elements(program.ask(["inverse"], book)):
        if animal not in rank:
            rank[animal] = len(order)
            order.append(animal)
        at = rank[row] << 16 | rank[column]
        elements[at] = elements.get(at, 0) + scaled(value)
    return order, elements


# an animal's elements follow one another, and several of them are the same
@functools.lru_cache(maxsize=64)
def scaled(value: str) -> int:
    numerator, _, denominator = value.partition("/")
    below = int(denominator or 1)
    return ((int(numerator) << BITS + 1) + below) // (2 * below)


def write_inverse(book: Book, program: BookProgram, path: pathlib.Path, force: bool) -> tuple[int, int, pathlib.Path]:
    """Writes the matrix and, beside it, the ids of its rows, one a line. Answers how many rows and elements there
    are."""
    order, elements = summed(book, program)
    ids_of = book.ids
    unit = 1 << BITS
    lines = [
        "%%MatrixMarket matrix coordinate real symmetric\n",
        "% the inverse of the numerator relationship matrix, its lower triangle\n",
        f"{len(order)} {len(order)} {len(elements)}\n",
    ]
    lines += [f"{(at >> 16) + 1} {(at & 0xFFFF) + 1} {elements[at] / unit!r}\n" for at in sorted(elements)]
    ids = path.with_name(path.name + ".ids")
    rows = "".join(ids_of[number] + "\n" for number in order)
    write_outs(book, {path: "".join(lines).encode(), ids: rows.encode()}, force)
    return len(order), len(elements), ids
