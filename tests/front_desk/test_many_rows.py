"""Many rows are written as they are, whatever their columns have alike."""
from __future__ import annotations

import contextlib
import random
import sqlite3

import pytest

from gudokeyi.store.bulk_insert import MANY, TOGETHER, indexes_behind, insert_many, marks_of

# what a column may have in all rows
VALUES: tuple[object, ...] = (None, 0, -7, 1 << 40, "", "given", "it's", "?", "Löwe", "a\nb", "long" * 30, 2.5)


def written(rows: list[tuple[object, ...]], first: tuple[int, ...] = ()) -> list[tuple[object, ...]]:
    connection = sqlite3.connect(":memory:")
    names = ", ".join(f"c{at}" for at in range(len(first) + len(rows[0])))
    connection.execute(f"CREATE TABLE one ({names})")
    insert_many(connection, "one", iter(rows), first)
    return connection.execute("SELECT * FROM one ORDER BY rowid").fetchall()


@pytest.mark.parametrize("count", [1, TOGETHER - 1, TOGETHER + 1, MANY, MANY + 1])
def test_rows_are_written_as_they_are(count: int) -> None:
    rows = [(at, *VALUES, str(at)) for at in range(count)]
    assert written(rows) == rows
    assert written(rows, (3, 4)) == [(3, 4, *row) for row in rows]


def test_one_row_that_has_another_value_keeps_it() -> None:
    for at in range(len(VALUES)):
        rows: list[tuple[object, ...]] = [VALUES] * MANY
        odd = random.Random(at).randrange(MANY)
        rows[odd] = (*VALUES[:at], "other", *VALUES[at + 1 :])
        assert written(rows) == rows


def test_rows_of_which_one_column_or_none_differs_are_written() -> None:
    same: list[tuple[object, ...]] = [("a", None)] * MANY
    assert written(same) == same
    single: list[tuple[object, ...]] = [(None,)] * MANY
    assert written(single) == single
    one_differs: list[tuple[object, ...]] = [(f"DE {at}", None, "given") for at in range(MANY)]
    assert written(one_differs) == one_differs


def test_what_all_of_many_rows_have_stands_in_the_statement() -> None:
    rows = [(at, None, "given", 0, "a\nb", str(at)) for at in range(MANY)]
    assert marks_of(rows) == ["?", "NULL", "'given'", "0", "?", "?"]
    assert marks_of(rows[1:]) == ["?"] * 6


@pytest.mark.parametrize("rows", (MANY - 1, MANY))
def test_indexes_stand_behind_many_rows_and_forbid_what_they_did(rows: int) -> None:
    schema = "SELECT name, sql FROM sqlite_schema ORDER BY name"
    with contextlib.closing(sqlite3.connect(":memory:", isolation_level=None)) as connection:
        connection.execute("CREATE TABLE kept (id TEXT NOT NULL, day INTEGER) STRICT")
        connection.execute("CREATE UNIQUE INDEX kept_ids ON kept (id)")
        connection.execute("CREATE INDEX kept_days ON kept (day)")
        before = connection.execute(schema).fetchall()
        with indexes_behind(connection, "kept", rows):
            assert len(connection.execute(schema).fetchall()) == (1 if rows == MANY else 3)
            insert_many(connection, "kept", [("A", 1), ("B", 2)])
        assert connection.execute(schema).fetchall() == before
        with pytest.raises(sqlite3.IntegrityError):
            with indexes_behind(connection, "kept", rows):
                insert_many(connection, "kept", [("A", 3)])
