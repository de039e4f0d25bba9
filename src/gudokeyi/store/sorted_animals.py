"""Animals for which a condition holds, in an order, a page of them at a time."""
from __future__ import annotations

import enum
import json
from collections.abc import Iterable
from typing import NamedTuple

from gudokeyi.store.animal_rows import COLUMNS, AnimalRow
from gudokeyi.store.book import Book
from gudokeyi.store.conditions import ANY, IN_BOOK, Condition
from gudokeyi.store.state import ALL_ROWS, NOW


class Order(enum.StrEnum):
    """What the rows are sorted by; the page names it so."""

    BIRTH = "birth"
    ID = "id"
    NAME = "name"
    SEX = "sex"
    COEFFICIENT = "coefficient"


SORTED_BY = {
    Order.BIRTH: "born {direction}, number {direction}",
    Order.ID: "folded_id {direction}, id {direction}",
    # those without a name come last
    Order.NAME: "folded_name = '', folded_name {direction}, folded_id {direction}",
    Order.SEX: "substr(number, 7, 1) {direction}, folded_id",
    Order.COEFFICIENT: "CAST(percent AS REAL) {direction}, folded_id",
}
# the columns of which each order asks
COLUMNS_OF = {
    Order.BIRTH: "born, number", Order.ID: "folded_id, id", Order.NAME: "folded_name, folded_id",
    Order.SEX: "number, folded_id", Order.COEFFICIENT: "percent, folded_id",
}  # fmt: skip


class Some(NamedTuple):
    """Some of the animals, how many there are on all, and behind how many these stand."""

    rows: list[AnimalRow]
    total: int
    behind: int


def some_in_order(book: Book, condition: Condition, order: Order, is_downwards: bool, most: int, behind: int) -> Some:
    """So many of the animals in an order, behind so many others; the last ones where there are no more than these."""
    by = SORTED_BY[order].format(direction="DESC" if is_downwards else "ASC")
    joined = " CROSS JOIN coefficient USING (number)" * (order is Order.COEFFICIENT)
    where = f"{NOW} AND {IN_BOOK} AND {condition.text}"
    if condition == ANY:
        total = count_of(book, condition)
        behind = max(0, min(behind, (total - 1) // most * most))
        # in order they are first alone, since whole rows take long to be sorted
        asked = f"SELECT animal FROM animal{joined} WHERE {where} ORDER BY {by} LIMIT ? OFFSET ?"
        return Some(rows_at(book, book.connection.execute(asked, [most, behind])), total, behind)
    # which these are is seen once, for their number and their order
    asked = f"""
        WITH found AS MATERIALIZED (SELECT animal, {COLUMNS_OF[order]} FROM {ALL_ROWS}{joined} WHERE {where}),
        counted AS MATERIALIZED (SELECT count(*) AS total FROM found)
        SELECT animal, total FROM found CROSS JOIN counted ORDER BY {by}
        LIMIT ? OFFSET max(0, min(?, ((SELECT total FROM counted) - 1) / ? * ?))
    """
    found = book.connection.execute(asked, [*condition.values, most, behind, most, most]).fetchall()
    total = found[0][1] if found else 0
    return Some(rows_at(book, found), total, max(0, min(behind, (total - 1) // most * most)))


def count_of(book: Book, condition: Condition) -> int:
    where = f"{NOW} AND {IN_BOOK} AND {condition.text}"
    asked = f"SELECT count(*) FROM {ALL_ROWS} WHERE {where}"
    return int(book.connection.execute(asked, condition.values).fetchone()[0])


def first_by_id(book: Book, condition: Condition, most: int) -> list[AnimalRow]:
    """The first of the animals by their ids, without how many there are: no more are looked at."""
    where = f"{NOW} AND {IN_BOOK} AND {condition.text}"
    asked = f"SELECT animal FROM animal WHERE {where} ORDER BY folded_id, id LIMIT ?"
    return rows_at(book, book.connection.execute(asked, [*condition.values, most]))


def rows_at(book: Book, found: Iterable[tuple[int, ...]]) -> list[AnimalRow]:
    """The rows at places of the table, each the first of what was found."""
    places = [place for place, *_ in found]
    those = f"SELECT animal, {COLUMNS} FROM animal WHERE animal IN (SELECT value FROM json_each(?))"
    rows = {place: AnimalRow(*row) for place, *row in book.connection.execute(those, (json.dumps(places),))}
    return [rows[place] for place in places]
