"""The state of a book after a change: its animals, the last cells of each, what it remembers of its sheets, and how
owners are written."""
from __future__ import annotations

import itertools
import json
import operator
import sqlite3
import threading
from collections.abc import Collection, Iterable, Mapping, Sequence
from dataclasses import dataclass, field
from typing import Any, NamedTuple

from gudokeyi.domain.animals import SocietyRecord
from gudokeyi.domain.commands import RegisterRecord
from gudokeyi.domain.kinds import CELL_FIELDS, Remembered
from gudokeyi.store.animal_rows import COLUMNS, AnimalRow, row_of
from gudokeyi.store.bulk_insert import indexes_behind, insert_many

# The state of a book after a change: its animals, the last cells of each, and what it remembers of its sheets.

NOW = "until IS NULL"
# all animals in the order in which their rows lie there: by an index each would be looked for, which takes far longer
ALL_ROWS = "animal NOT INDEXED"
# the state after a change
THEN = "since <= :change AND (until IS NULL OR until > :change)"
CELL_COLUMNS = "id, " + ", ".join(f"cell_{field.value}" for field in CELL_FIELDS)

ONE_READS = threading.Lock()

# a row of a table without the changes between which it holds; its first values are its key
Values = tuple[object, ...]


class Table(NamedTuple):
    """A table of the state: its columns but for the two of changes, and how many of the first ones are its key."""

    name: str
    columns: str
    keys: int


ANIMALS = Table("animal", COLUMNS, 1)
CELLS = Table("cell", CELL_COLUMNS, 1)
REMEMBERED = Table("remembered", "what, word, place, meaning", 2)
FORMER_IDS = Table("former_id", "id, digits", 2)
NOTES = Table("note", "digits, note, day, author, text, folded", 2)
OWN_COLUMNS = Table("own_column", "place, title, kind, choices, certified", 1)
OWN_VALUES = Table("own_value", "digits, place, value, folded, cell", 2)
MEMBERS = Table("member", "herd, member_number, address, mail, telephone", 1)
TABLES = (ANIMALS, CELLS, REMEMBERED, FORMER_IDS, NOTES, OWN_COLUMNS, OWN_VALUES, MEMBERS)


class Meaning(NamedTuple):
    """What a book remembers: of a kind a word, and what it stands for."""

    what: Remembered
    word: str
    meaning: str = ""


def rows_now(connection: sqlite3.Connection, table: Table) -> dict[Values, Values]:
    """The rows of the last state, by their keys."""
    return keyed(table, connection.execute(f"SELECT {table.columns} FROM {table.name} WHERE {NOW}"))


def rows_then(connection: sqlite3.Connection, table: Table, change: int) -> dict[Values, Values]:
    """The rows of the state after a change."""
    found = connection.execute(f"SELECT {table.columns} FROM {table.name} WHERE {THEN}", {"change": change})
    return keyed(table, found)


def keyed(table: Table, rows: Iterable[Values]) -> dict[Values, Values]:
    return {row[: table.keys]: row for row in rows}


def write_rows(
    connection: sqlite3.Connection,
    table: Table,
    change: int,
    before: dict[Values, Values],
    after: dict[Values, Values],
    again: bool = False,
) -> None:
    """Makes of rows that held before a change those that hold after it. What stays as it is isn't touched. With `again`
    the change may have written some of the rows before: it has each once."""
    ended = [(change, *key) for key, row in before.items() if after.get(key) != row]
    begun = [row for key, row in after.items() if before.get(key) != row] if before else [*after.values()]
    # in the order of its keys a table is written quickest
    begun.sort(key=operator.itemgetter(*range(table.keys)))
    names = [name.strip() for name in table.columns.split(",")]
    where = " AND ".join(f"{name} = ?" for name in names[: table.keys])
    if again:
        connection.executemany(f"DELETE FROM {table.name} WHERE since = ? AND {where} AND {NOW}", ended)
    with indexes_behind(connection, table.name, len(begun)):
        # by the key of all its rows a table finds them without its indexes too
        connection.executemany(f"UPDATE {table.name} SET until = ? WHERE {where} AND {NOW}", ended)
        insert_many(connection, f"{table.name} (since, {table.columns})", begun, [change])


def bring_back(connection: sqlite3.Connection, change: int, earlier: int) -> None:
    """Makes the state after an earlier change, or the empty one before the first, that of a change."""
    for table in TABLES:
        write_rows(connection, table, change, rows_now(connection, table), rows_then(connection, table, earlier))


def kept_records(connection: sqlite3.Connection) -> str:
    """What the book keeps of the register's animals now, as the program writes records: in age order."""
    line = (
        "number || ',' || born || ',' || ifnull(sire, '0') || ',' || ifnull(dam, '0') || ',' || herd || ',' || "
        "owned_since || ',' || ifnull(departed, '-') || ',' || iif(embryo, '1', '') AS line"
    )
    among = f"FROM {ALL_ROWS} WHERE {NOW} AND born IS NOT NULL ORDER BY born, number"
    return text_of_lines(connection, f"SELECT {line} {among}")


def text_of_lines(connection: sqlite3.Connection, lines: str) -> str:
    """The lines of a question as one text, which the database puts together in their order."""
    found = connection.execute(f"SELECT group_concat(line, char(10)) FROM ({lines})").fetchone()[0]
    return f"{found}\n" if found else ""


def read_givers(connection: sqlite3.Connection) -> dict[str, int]:
    """The herd that gave each animal last, of those that were given on."""
    return dict(connection.execute(f"SELECT number, giver FROM {ALL_ROWS} WHERE {NOW} AND giver IS NOT NULL"))


def read_remembered(connection: sqlite3.Connection, change: int | None = None) -> list[Meaning]:
    """What is remembered now, or was after a change."""
    when = NOW if change is None else THEN
    asked = f"SELECT what, word, meaning FROM remembered WHERE {when} ORDER BY what, place"
    found = connection.execute(asked, {"change": change})
    return [Meaning(Remembered(what), word, meaning) for what, word, meaning in found]


def remembered_rows(meanings: Iterable[Meaning]) -> dict[Values, Values]:
    """The rows of what is remembered, each kind in its order; of a word that is given twice the last meaning holds."""
    places = {kind: itertools.count() for kind in Remembered}
    rows = ((one.what.value, one.word, next(places[one.what]), one.meaning) for one in meanings)
    return keyed(REMEMBERED, rows)


def fetched(connection: sqlite3.Connection, asked: str, values: Sequence[object] = ()) -> list[tuple[Any, ...]]:
    """All rows of an answer. Pages read one at a time: at each row SQLite lets another thread go on, and where many
    read at once all of them wait there for each other, and take three times as long together."""
    with ONE_READS:
        return connection.execute(asked, values).fetchall()


def columns_of(
    connection: sqlite3.Connection, columns: Iterable[str], where: str = "true", values: Sequence[object] = ()
) -> list[list[Any]]:
    """Columns of all animals of the last state for which a condition holds, in one order. The database puts each
    together as one text, which takes half the time of rows."""
    asked = ", ".join(f"json_group_array({one})" for one in columns)
    found = connection.execute(f"SELECT {asked} FROM {ALL_ROWS} WHERE {NOW} AND {where}", values).fetchone()
    return [json.loads(text) for text in found]


def select_rows(connection: sqlite3.Connection, where: str, *values: object) -> list[AnimalRow]:
    """The animals of the last state for which a condition holds."""
    return [*map(AnimalRow._make, fetched(connection, f"SELECT {COLUMNS} FROM animal WHERE {NOW} AND {where}", values))]


def rows_with_id(connection: sqlite3.Connection, id: str) -> list[AnimalRow]:
    """The row of the last state with an id, also of an animal that was dropped; none where there is none."""
    return select_rows(connection, "id = ?", id)


def cells_of(connection: sqlite3.Connection, id: str) -> list[Values]:
    """The last cells of an animal, by its id; none where no sheet had a row for it."""
    return connection.execute(f"SELECT {CELLS.columns} FROM {CELLS.name} WHERE id = ? AND {NOW}", (id,)).fetchall()


# How owners are written. The table has the name by which each came; what is remembered says how it is written now, one
# owner after the other, and of each name once.


def owners_came(connection: sqlite3.Connection) -> dict[str, int]:
    """The owners' herds, by the names by which they came."""
    return {name: owner_code for name, owner_code in fetched(connection, "SELECT name, herd FROM owner ORDER BY herd")}


def add_owner(connection: sqlite3.Connection, name: str, owner_code: int) -> None:
    connection.execute("INSERT INTO owner (name, herd) VALUES (?, ?)", (name, owner_code))


def as_written(came: Mapping[str, int], remembered: Iterable[Meaning]) -> dict[str, int]:
    """The owners' herds, by their names as they are written by what is remembered."""
    owners = {**came}
    for one in remembered:
        if one.what is not Remembered.OWNER or one.word not in owners:
            continue
        owner_code = owners.pop(one.word)
        if one.meaning in owners:
            # what another one is called was lost in an earlier version
            other = owners.pop(one.meaning)
            owners[free_name(one.meaning, other, {*owners, one.meaning})] = other
        owners[one.meaning] = owner_code
    return owners


def names_now(connection: sqlite3.Connection) -> dict[int, str]:
    """The owners' names as they are written now, by their herds."""
    owners = as_written(owners_came(connection), read_remembered(connection))
    return {owner_code: name for name, owner_code in owners.items()}


def names_after(connection: sqlite3.Connection, change: int) -> dict[int, str]:
    """The owners' names as they were written after a change, by their herds."""
    owners = as_written(owners_came(connection), read_remembered(connection, change))
    return {owner_code: name for name, owner_code in owners.items()}


def free_name(name: str, owner_code: int, taken: Collection[str]) -> str:
    """The name, or where it is taken one that tells the herd."""
    while name in taken:
        name = f"{name} (herd {owner_code})"
    return name


def renamings(came: Mapping[str, int], now: Mapping[int, str]) -> list[tuple[str, str]]:
    """What is to be remembered: for owners by the names by which they came, with their herds, and those by which they
    are written now, the name before and after of each renaming. None is named as another one is at that moment: where
    owners have one another's names, one of them has another one for so long, by which none came."""
    owner_codes, names = {owner_code: name for name, owner_code in came.items()}, dict(came)
    wanted = {
        owner_code: now[owner_code] for owner_code, name in owner_codes.items() if now.get(owner_code, name) != name
    }
    found: list[tuple[str, str]] = []
    while wanted:
        owner_code = next((one for one, name in wanted.items() if name not in names), None)
        if owner_code is None:
            owner_code = next(iter(wanted))
            name = free_name(owner_codes[owner_code], owner_code, {*came, *names})
        else:
            name = wanted.pop(owner_code)
        found.append((owner_codes[owner_code], name))
        del names[owner_codes[owner_code]]
        names[name], owner_codes[owner_code] = owner_code, name
    return found


class Rows(NamedTuple):
    """Rows of the state before and after a change. Those that aren't named stay."""

    before: dict[Values, Values]
    after: dict[Values, Values]


@dataclass(frozen=True)
class State:
    """What a change makes of the state; what it doesn't give stays as it is."""

    animals: Rows
    cells: Rows | None = None
    remembered: list[Meaning] | None = None
    new_owners: dict[str, int] = field(default_factory=dict)
    # no animal is born and no parent changed
    keeps_coefficients: bool = False
    # the number of the only animal that is born, or whose parents change, where nothing else does: the coefficients of
    # animals that don't descend from it stay
    born: str = ""
    corrected: str = ""
    # the numbers of animals without offspring that are born at once, where nothing else changes
    born_together: tuple[str, ...] = ()
    # what animals were called, where that changes
    former_ids: Rows | None = None
    # rows of other tables
    others: tuple[tuple[Table, Rows], ...] = ()
    # all coefficients after it as the program writes them, where somebody asked before
    coefficients: list[str] | None = None


def animal_rows(animals: dict[str, SocietyRecord], records: dict[str, RegisterRecord]) -> dict[Values, Values]:
    """The rows of animals, by their ids; one that was dropped has no record."""
    return {(id,): row_of(one, records.get(one.registration_number)) for id, one in animals.items()}
