"""Writes many rows at once, in a fraction of the time that they take one by one."""
from __future__ import annotations

import contextlib
import itertools
import operator
import sqlite3
from collections.abc import Iterable, Iterator, Sequence

# so many rows are written by one statement
TOGETHER = 50
# so many rows are worth it that a table's indexes are made anew behind them, and that columns are looked at
MANY = 5_000
# how a value stands in a statement that is given for each row, and texts, which have so many letters at most
GIVEN, QUOTE, LONGEST = "?", "'", 20


def insert_many(
    connection: sqlite3.Connection, into: str, rows: Iterable[Sequence[object]], first: Sequence[int] = ()
) -> None:
    """Inserts rows into a table, or into some columns of one, as `into` names them. What all rows begin with may be
    given as `first`: it stands in the statement then, and not in each of the rows. So does what a column has in each of
    many rows."""
    whole = list(rows)
    marks = marks_of(whole)
    given = [at for at, mark in enumerate(marks) if mark == GIVEN]
    left = iter(whole if len(given) == len(marks) else map(operator.itemgetter(*given), whole))
    row = f"({', '.join([*map(str, first), *marks])})"
    # one text for most statements, by which SQLite's is found at once
    together = statement_of(into, row, TOGETHER)
    while some := list(itertools.islice(left, TOGETHER)):
        values = list(itertools.chain.from_iterable(some))
        connection.execute(together if len(some) == TOGETHER else statement_of(into, row, len(some)), values)


def statement_of(into: str, row: str, rows: int) -> str:
    return f"INSERT INTO {into} VALUES {', '.join([row] * rows)}"


def marks_of(rows: Sequence[Sequence[object]]) -> list[str]:
    """For each column how it stands in a statement: as the value that all rows have, or as one that is given for each.
    Python takes longer to give SQLite nothing than anything else."""
    if not rows:
        return []
    width = len(rows[0])
    alike = alike_columns(rows) if len(rows) >= MANY else []
    marks = [literal(rows[0][at]) if at in alike else GIVEN for at in range(width)]
    # of two columns and more a row is made
    return marks if marks.count(GIVEN) > 1 else [GIVEN] * width


def alike_columns(rows: Sequence[Sequence[object]]) -> list[int]:
    """The columns that have the same value in all rows, by their places. All of them are looked at in one go."""
    first, *others = rows[0], rows[len(rows) // 2], rows[-1]
    likely = [at for at in range(len(first)) if all(one[at] == first[at] for one in others)]
    if len(likely) < 2:
        return []
    found = set(map(operator.itemgetter(*likely), rows))
    return [at for place, at in enumerate(likely) if len({values[place] for values in found}) == 1]


def literal(value: object) -> str:
    """A value as a statement has it; a long text is given."""
    if value is None:
        return "NULL"
    if type(value) is int:
        return str(value)
    is_plain = isinstance(value, str) and value.isascii() and value.isprintable() and len(value) <= LONGEST
    return f"'{str(value).replace(QUOTE, 2 * QUOTE)}'" if is_plain else GIVEN


@contextlib.contextmanager
def indexes_behind(connection: sqlite3.Connection, table: str, rows: int) -> Iterator[None]:
    """Takes a table's indexes away while so many rows are written, where that is worth it, and makes them anew. What
    they forbid is told then."""
    made = "SELECT name, sql FROM sqlite_schema WHERE type = 'index' AND tbl_name = ? AND sql IS NOT NULL"
    indexes = connection.execute(made, (table,)).fetchall() if rows >= MANY else []
    for name, _ in indexes:
        connection.execute(f"DROP INDEX {name}")
    yield
    for _, statement in indexes:
        connection.execute(statement)
