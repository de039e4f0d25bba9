"""What the history of a book has of animals: their rows before and after a change, the names that stood for numbers and
owners then, and what was told of them."""
from __future__ import annotations

import json
import sqlite3
from collections.abc import Collection, Iterator

from gudokeyi.domain.changes import Change, StoredFinding
from gudokeyi.store.animal_rows import COLUMNS, AnimalRow
from gudokeyi.store.state import names_after


def renamed_by(connection: sqlite3.Connection, number: int) -> tuple[dict[int, str], dict[int, str]]:
    """The names of the owners that are written otherwise since a change, by their herds: before it, and after."""
    former, then = names_after(connection, number - 1), names_after(connection, number)
    owner_codes = [owner_code for owner_code in then if former.get(owner_code, then[owner_code]) != then[owner_code]]
    return {owner_code: former[owner_code] for owner_code in owner_codes}, {
        owner_code: then[owner_code] for owner_code in owner_codes
    }


def rows_of_owner_codes(connection: sqlite3.Connection, owner_codes: list[int], number: int) -> Iterator[AnimalRow]:
    """The animals of some herds that a change left as they were."""
    asked = f"SELECT {COLUMNS} FROM animal WHERE herd = ? AND since < ? AND (until IS NULL OR until > ?)"
    for owner_code in owner_codes:
        yield from map(AnimalRow._make, connection.execute(asked, (owner_code, number, number)))


def names_around(connection: sqlite3.Connection, number: int) -> dict[str, str]:
    """The ids that numbers stand for, before a change and after it."""
    rows = connection.execute(
        "SELECT number, id FROM animal WHERE since <= ? AND (until IS NULL OR until >= ?) ORDER BY since",
        (number, number),
    )
    return dict(rows)


def rows_by_change(connection: sqlite3.Connection, id: str, column: str) -> dict[int, AnimalRow]:
    """The rows of an animal, whatever it was called, by the change with which they began or ended."""
    last = "SELECT substr(number, 8) FROM animal WHERE id = ? ORDER BY until IS NULL DESC, since DESC LIMIT 1"
    its = f"SELECT {column}, {COLUMNS} FROM animal WHERE substr(number, 8) IN ({last}) AND {column} IS NOT NULL"
    rows = connection.execute(its, (id,))
    return {number: AnimalRow(*row) for number, *row in rows}


def told_of_animal(connection: sqlite3.Connection, id: str, former: Collection[str]) -> dict[int, list[StoredFinding]]:
    """What changes told of an animal, also by its former ids, as long as it had them."""
    asked = """
        SELECT change, kind, part, line, id, fields FROM told WHERE id = :id OR id IN (SELECT value FROM json_each(:former))
        AND EXISTS (
            SELECT 1 FROM animal WHERE animal.id = told.id AND change BETWEEN since AND until
            AND substr(number, 8) IN (SELECT substr(number, 8) FROM animal WHERE id = :id AND until IS NULL)
        ) ORDER BY change, place
    """
    found: dict[int, list[StoredFinding]] = {}
    rows = connection.execute(asked, {"id": id, "former": json.dumps([*former])})
    for number, kind, part, line, called, fields in rows:
        found.setdefault(number, []).append(StoredFinding(kind, part, line, called, tuple(json.loads(fields).items())))
    return found


def names_of_parents(connection: sqlite3.Connection, rows: list[AnimalRow]) -> dict[str, str]:
    """The ids of the parents that some rows name."""
    numbers = sorted({number for row in rows for number in (row.sire, row.dam) if number})
    found = ids_of(connection, numbers, "AND until IS NULL")
    # the others aren't in the book any more, and no index has them
    gone = [number for number in numbers if number not in found]
    return found | ids_of(connection, gone, "ORDER BY since") if gone else found


def ids_of(connection: sqlite3.Connection, numbers: list[str], which: str) -> dict[str, str]:
    marks = ", ".join("?" * len(numbers))
    return dict(connection.execute(f"SELECT number, id FROM animal WHERE number IN ({marks}) {which}", numbers))


def ids_changed(connection: sqlite3.Connection, number: int, most: int) -> tuple[int, list[str]]:
    """How many animals have a row that began or ended with a change, and the ids of the first."""
    changed = "FROM (SELECT id FROM animal WHERE since = :change UNION SELECT id FROM animal WHERE until = :change)"
    asked = {"change": number, "most": most}
    count = connection.execute(f"SELECT count(*) {changed}", asked).fetchone()[0]
    return count, [id for (id,) in connection.execute(f"SELECT id {changed} ORDER BY id LIMIT :most", asked)]


def rows_around(connection: sqlite3.Connection, ids: list[str], column: str, number: int) -> dict[str, AnimalRow]:
    """The rows of some animals that began or ended with a change, as `column` says: `since` or `until`."""
    chosen = f"SELECT {COLUMNS} FROM animal WHERE id IN (SELECT value FROM json_each(?)) AND {column} = ?"
    return {row.id: row for row in map(AnimalRow._make, connection.execute(chosen, (json.dumps(ids), number)))}


def told_by_kind(connection: sqlite3.Connection, number: int, most: int) -> tuple[dict[str, int], list[StoredFinding]]:
    """How much of each kind a change told, and of each kind the first."""
    counts = "SELECT kind, count(*) FROM told WHERE change = ? GROUP BY kind"
    kinds: dict[str, int] = dict(connection.execute(counts, (number,)))
    wanted = "SELECT kind, part, line, id, fields FROM told WHERE change = ? AND kind = ? ORDER BY place LIMIT ?"
    rows = [row for kind in kinds for row in connection.execute(wanted, (number, kind, most))]
    return kinds, [
        StoredFinding(kind, part, line, id, tuple(json.loads(fields).items())) for kind, part, line, id, fields in rows
    ]


def id_of_command(connection: sqlite3.Connection, change: Change) -> str:
    """The animal of the last command of a change; empty where it was never in the book."""
    asked = """
        SELECT id FROM command JOIN animal ON number = command.animal WHERE edition = ? AND place = ?
        ORDER BY since DESC LIMIT 1
    """
    found = connection.execute(asked, (change.edition, change.length)).fetchone()
    return str(found[0]) if found else ""
