"""Animals that somebody looks for by words and by what they are, sorted, and a page of them at a time."""
from __future__ import annotations

from dataclasses import dataclass
from typing import NamedTuple

from gudokeyi.services.lists import LIST_COLUMNS, SEX_WITH_CASTRATION, Column, made_table, own_recipes
from gudokeyi.services.own_columns import condition_of_value
from gudokeyi.services.search import condition_of_words
from gudokeyi.services.selection import Choice, condition_of
from gudokeyi.services.tables import Table
from gudokeyi.store.animal_rows import AnimalRow
from gudokeyi.store.book import Book
from gudokeyi.store.conditions import Condition
from gudokeyi.store.sorted_animals import Order as Order, first_by_id, some_in_order

ON_A_PAGE = 50
# what a file of the animals has
IN_FILE = (
    Column.ID, Column.NAME, Column.NUMBER, Column.SEX, Column.BIRTH, Column.SIRE, Column.DAM, Column.OWNER, Column.EXIT,
    Column.COEFFICIENT, Column.DECIMAL, Column.PERCENT,
)  # fmt: skip


@dataclass(frozen=True)
class Asked:
    """What somebody looks for, and how it is shown. Pages count from 1."""

    words: tuple[str, ...] = ()
    choice: Choice = Choice()
    order: Order = Order.BIRTH
    is_downwards: bool = False
    page: int = 1
    # the place of one of the society's own columns, 0 for none, and what has to stand in it
    own: int = 0
    own_value: str = ""


class Found(NamedTuple):
    """The rows of a page, and how many there are on all."""

    rows: list[AnimalRow]
    total: int
    page: int
    pages: int


def found_by(book: Book, asked: Asked) -> Found:
    """A page of the animals; the last one where there are fewer pages."""
    order, condition = asked.order, condition_of_asked(book, asked)
    some = some_in_order(book, condition, order, asked.is_downwards, ON_A_PAGE, (asked.page - 1) * ON_A_PAGE)
    pages = max(1, -(-some.total // ON_A_PAGE))
    return Found(some.rows, some.total, some.behind // ON_A_PAGE + 1, pages)


def first_found(book: Book, asked: Asked, most: int) -> list[AnimalRow]:
    """The first by their ids, for somebody who is still typing."""
    return first_by_id(book, condition_of_asked(book, asked), most)


def condition_of_asked(book: Book, asked: Asked) -> Condition:
    found = condition_of(book, asked.choice) & condition_of_words(book, asked.words)
    return found & condition_of_value(book, asked.own, asked.own_value) if asked.own else found


def file_of(book: Book, asked: Asked) -> Table:
    """All of the animals, in age order, as the word `list` writes them, but with castrated males as such, and with the
    society's own columns."""
    columns = [SEX_WITH_CASTRATION if one is Column.SEX else LIST_COLUMNS[one] for one in IN_FILE]
    columns += own_recipes(book)
    return made_table(book, columns, condition_of_asked(book, asked))
