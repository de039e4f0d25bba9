"""Changes that are taken back one by one: what they touched of the state, how that was before, and which later changes
stand on them."""
from __future__ import annotations

import json
import sqlite3
from collections.abc import Collection
from typing import NamedTuple

from gudokeyi.domain.kinds import ChangeKind
from gudokeyi.store.history import changes_behind
from gudokeyi.store.state import NOTES, NOW, OWN_VALUES, TABLES, Rows, Table, Values, keyed

# those that can't be: they bring back a state as a whole, or what they took away is gone for good
NOT_ALONE = (ChangeKind.UNDO, ChangeKind.RESTORE, ChangeKind.FOLDER, ChangeKind.ERASURE)
KINDS = tuple(kind for kind in ChangeKind if kind not in NOT_ALONE)
# the option by which the history keeps which changes one took back
CHANGE = "--change"
SOME = "(SELECT value FROM json_each(:changes))"


def taken_back(connection: sqlite3.Connection) -> dict[int, set[int]]:
    """The changes that were taken back one by one, by the change that did so and holds, the newest first."""
    asked = "SELECT change, word FROM change JOIN given_option USING (change) WHERE kind = ? AND option = ?"
    rows = connection.execute(asked, (ChangeKind.TAKEN_BACK.value, CHANGE)).fetchall()
    by: dict[int, set[int]] = {}
    for change, word in sorted(rows, reverse=True):
        by.setdefault(change, set()).add(int(word))
    behind = changes_behind(connection) if by else set()
    found, gone = dict[int, set[int]](), set[int]()
    for change, numbers in by.items():
        if change in behind - gone:
            found[change] = numbers
            gone |= numbers
    return found


def holding(connection: sqlite3.Connection) -> set[int]:
    """The changes that made the state of now, without those that were taken back."""
    return changes_behind(connection).difference(*taken_back(connection).values())


def later_ones(connection: sqlite3.Connection, changes: Collection[int]) -> set[int]:
    """The changes that hold and stand on some, also by others: they touched the same later, or name an animal that
    came by them. What took back later changes alone left nothing behind."""
    gone = {one for one, numbers in taken_back(connection).items() if min(numbers) > min(changes)}
    may_be = {number for number in holding(connection) - gone if kind_of(connection, number) in KINDS}
    found, new = set(changes), set(changes)
    while new:
        new = (touched_later(connection, new) | naming(connection, new)) & may_be - found
        found |= new
    return found - set(changes)


def kind_of(connection: sqlite3.Connection, number: int) -> ChangeKind:
    return ChangeKind(connection.execute("SELECT kind FROM change WHERE change = ?", (number,)).fetchone()[0])


def keys_of(table: Table) -> list[str]:
    return [name.strip() for name in table.columns.split(",")][: table.keys]


def touches(table: Table) -> str:
    """The keys of the rows that some changes touched, each with the first that did."""
    keys = ", ".join(keys_of(table))
    each = (f"SELECT {keys}, {at} AS at FROM {table.name} WHERE {at} IN {SOME}" for at in ("since", "until"))
    return f"SELECT {keys}, min(at) AS at FROM ({' UNION ALL '.join(each)}) GROUP BY {keys}"


def touched_later(connection: sqlite3.Connection, changes: Collection[int]) -> set[int]:
    found = set[int]()
    for table in TABLES:
        for at in "since", "until":
            asked = f"""
                SELECT DISTINCT later.{at} FROM ({touches(table)}) AS own
                JOIN {table.name} AS later USING ({', '.join(keys_of(table))}) WHERE later.{at} > own.at
            """
            found |= {number for (number,) in connection.execute(asked, {"changes": json.dumps([*changes])})}
    return found


def naming(connection: sqlite3.Connection, changes: Collection[int]) -> set[int]:
    """Those by which an animal got a parent that came by some changes, or by which something is kept of one that came
    so."""
    came = f"""
        SELECT number FROM animal AS own WHERE since IN {SOME}
        AND NOT EXISTS (SELECT 1 FROM animal AS before WHERE before.id = own.id AND before.since < own.since)
    """
    asked = [f"SELECT since FROM animal WHERE {role} IN ({came}) AND {NOW}" for role in ("sire", "dam")]
    digits = f"SELECT substr(number, 8) FROM ({came})"
    asked += [f"SELECT since FROM {table.name} WHERE digits IN ({digits}) AND {NOW}" for table in (NOTES, OWN_VALUES)]
    found = connection.execute(" UNION ".join(asked), {"changes": json.dumps([*changes])})
    return {number for (number,) in found}


class Touched(NamedTuple):
    """The rows of a table that some changes touched: those of now, and those before the first that did. `at` is this
    change by the key."""

    rows: Rows
    at: dict[Values, int]


def touched_rows(connection: sqlite3.Connection, table: Table, changes: Collection[int]) -> Touched:
    keys, values = keys_of(table), {"changes": json.dumps([*changes])}
    own = [tuple(row) for row in connection.execute(touches(table), values)]
    columns = ", ".join(f"one.{name.strip()}" for name in table.columns.split(","))
    among = f"FROM ({touches(table)}) AS own JOIN {table.name} AS one USING ({', '.join(keys)})"
    now = keyed(table, connection.execute(f"SELECT {columns} {among} WHERE one.until IS NULL", values))
    before = keyed(table, connection.execute(f"SELECT {columns} {among} WHERE one.until = own.at", values))
    return Touched(Rows(now, before), {row[:-1]: row[-1] for row in own})


def changes_of_animals(connection: sqlite3.Connection, numbers: Collection[str]) -> set[int]:
    """The last change of each of some animals."""
    asked = f"SELECT since FROM animal WHERE {NOW} AND number IN (SELECT value FROM json_each(?))"
    return {number for (number,) in connection.execute(asked, (json.dumps([*numbers]),))}
