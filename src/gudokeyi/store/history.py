"""The history of a book: its changes, as they are kept and read."""
from __future__ import annotations

import datetime
import json
import os
import pwd
import sqlite3
import time
from collections.abc import Iterable

from gudokeyi.domain.changes import Change, ChangeDetails, Option, Source, StoredFinding
from gudokeyi.domain.kinds import ChangeKind
from gudokeyi.domain.people import WORKER
from gudokeyi.store.bulk_insert import insert_many
from gudokeyi.store.journal import Journal
from gudokeyi.store.state import TABLES

COLUMNS = "change, kind, time, login, edition, length, file, path, digest, undone_to"
# the kinds of changes that are one command, which may be refused
FILED_BY_HAND = (
    ChangeKind.BIRTH, ChangeKind.PARENTS, ChangeKind.TRANSFER, ChangeKind.EXIT, ChangeKind.CORRECTION, ChangeKind.NOTE,
    ChangeKind.OWN_VALUES,
)  # fmt: skip
# those of them by which nothing of another animal changes
ONE_BY_ONE = tuple(
    kind.value
    for kind in (
        ChangeKind.BIRTH, ChangeKind.LITTER, ChangeKind.TRANSFER, ChangeKind.EXIT, ChangeKind.NOTE,
        ChangeKind.OWN_VALUES, ChangeKind.OWN_COLUMNS,
        ChangeKind.MEMBER,
    )
)  # fmt: skip
# those that make a state as a whole
WHOLE_STATES = (ChangeKind.TAKE, ChangeKind.PEDIGREE, ChangeKind.UNDO, ChangeKind.RESTORE, ChangeKind.BATCH)
EPOCH = datetime.datetime(1970, 1, 1, tzinfo=datetime.timezone.utc)


text_of = json.JSONEncoder(ensure_ascii=False).encode


def login() -> str:
    """Who works here, by the name that the desk has, else the system."""
    if WORKER.get():
        return WORKER.get()
    try:
        return pwd.getpwuid(os.getuid()).pw_name
    except KeyError:
        return f"user {os.getuid()}"


def now() -> int:
    """The time, in microseconds since 1970 began."""
    return time.time_ns() // 1000


def next_number(connection: sqlite3.Connection) -> int:
    return int(connection.execute("SELECT ifnull(max(change), 0) + 1 FROM change").fetchone()[0])


def write_change(
    connection: sqlite3.Connection, number: int, moment: int, journal: Journal, made: ChangeDetails
) -> None:
    """Writes a change with all that is kept of it beside the state."""
    source = made.source
    of_file = (source.name, source.path, source.digest) if source else (None, None, None)
    row = (
        number,
        made.kind.value,
        moment,
        made.login or login(),
        *journal,
        *of_file,
        made.undone_to,
        made.form or None,
    )
    connection.execute(f"INSERT INTO change ({COLUMNS}, form) VALUES (?, ?, ?, ?, ?, ?, ?, ?, ?, ?, ?)", row)
    options = [(number, place, one.option, one.word) for place, one in enumerate(made.options)]
    connection.executemany("INSERT INTO given_option VALUES (?, ?, ?, ?)", options)
    write_told(connection, number, made)


def write_told(connection: sqlite3.Connection, number: int, made: ChangeDetails) -> None:
    """Writes what a change counted and told."""
    connection.executemany("INSERT INTO counted VALUES (?, ?, ?)", [(number, *one) for one in made.counts])
    told = (
        (number, place, one.kind, one.part, one.line, one.id, text_of(dict(one.fields)))
        for place, one in enumerate(made.told)
    )
    insert_many(connection, "told", told)


def go_on(connection: sqlite3.Connection, number: int, journal: Journal) -> None:
    """The journal after a change that isn't ended yet goes on."""
    connection.execute("UPDATE change SET edition = ?, length = ? WHERE change = ?", (*journal, number))


def change_of(connection: sqlite3.Connection, row: tuple[object, ...]) -> Change:
    number, kind, moment, who, edition, length, file, path, digest, undone_to = row
    assert isinstance(number, int) and isinstance(moment, int)
    assert isinstance(edition, int) and isinstance(length, int)
    options = connection.execute("SELECT option, word FROM given_option WHERE change = ? ORDER BY place", (number,))
    counts = connection.execute("SELECT what, count FROM counted WHERE change = ?", (number,))
    return Change(
        number,
        ChangeKind(kind),
        EPOCH + datetime.timedelta(microseconds=moment),
        str(who),
        edition,
        length,
        Source(str(file), str(path), str(digest)) if file is not None else None,
        tuple(Option(*option) for option in options),
        dict(counts),
        undone_to if isinstance(undone_to, int) else None,
    )


def last_change(connection: sqlite3.Connection) -> Change | None:
    row = connection.execute(f"SELECT {COLUMNS} FROM change ORDER BY change DESC LIMIT 1").fetchone()
    return change_of(connection, row) if row else None


def change_numbered(connection: sqlite3.Connection, number: int) -> Change | None:
    row = connection.execute(f"SELECT {COLUMNS} FROM change WHERE change = ?", (number,)).fetchone()
    return change_of(connection, row) if row else None


def changes_behind(connection: sqlite3.Connection) -> set[int]:
    """The changes that made the last state, without those that were undone."""
    undone_to = dict(connection.execute("SELECT change, undone_to FROM change ORDER BY change"))
    found, at = set[int](), max(undone_to, default=0)
    while at:
        found.add(at)
        to = undone_to[at]
        at = at - 1 if to is None else to
    return found


def change_by_form(connection: sqlite3.Connection, form: str) -> Change | None:
    """The change that a form made; none where it made none yet."""
    row = connection.execute(f"SELECT {COLUMNS} FROM change WHERE form = ?", (form,)).fetchone()
    return change_of(connection, row) if row else None


def last_changes(connection: sqlite3.Connection, most: int, behind: int = 0) -> list[Change]:
    """So many of the last changes, the newest first, but for so many that are newer."""
    asked = f"SELECT {COLUMNS} FROM change ORDER BY change DESC LIMIT ? OFFSET ?"
    return [change_of(connection, row) for row in connection.execute(asked, (most, behind)).fetchall()]


def changed_one_by_one(connection: sqlite3.Connection, then: Change) -> bool:
    """Is this a change of the book, since which only animals one by one were born, given away or left? No parents of
    another and no coefficient changed then."""
    others = f"SELECT 1 FROM change WHERE change > ? AND kind NOT IN ({', '.join(map(repr, ONE_BY_ONE))}) LIMIT 1"
    is_there = is_change(connection, then.number, then.moment)
    return is_there and connection.execute(others, (then.number,)).fetchone() is None


def is_change(connection: sqlite3.Connection, number: int, moment: int) -> bool:
    """Is there a change with this number, made at this moment?"""
    asked = "SELECT 1 FROM change WHERE (change, time) = (?, ?)"
    return connection.execute(asked, (number, moment // 1000)).fetchone() is not None


def last_that_changed(connection: sqlite3.Connection) -> int:
    """The last change that changed the book, 0 for none: a command that was refused stands in the journal alone, and of
    a whole state everything may be as it was."""
    refused = f"kind IN ({listed(FILED_BY_HAND)}) AND change IN (SELECT change FROM counted WHERE what = 'refused')"
    touched = (f"EXISTS (SELECT 1 FROM {table.name} WHERE one.change IN (since, until))" for table in TABLES)
    same = f"kind IN ({listed(WHOLE_STATES)}) AND NOT ({' OR '.join(touched)})"
    # the newest first, so that the tables aren't searched for all of them
    changed = f"SELECT change FROM change AS one WHERE NOT ({refused}) AND NOT ({same}) ORDER BY change DESC LIMIT 1"
    found = connection.execute(changed).fetchone()
    return int(found[0]) if found else 0


def listed(kinds: Iterable[ChangeKind]) -> str:
    return ", ".join(f"'{kind.value}'" for kind in kinds)


def taken_back_by(connection: sqlite3.Connection, number: int) -> int:
    """The change that brought back a state before a change; 0 where the book of now has it, as where that was
    undone."""
    asked = "SELECT change, undone_to FROM change WHERE change > ? AND undone_to IS NOT NULL ORDER BY change DESC"
    last = None
    for change, undone_to in connection.execute(asked, (number,)):
        if last is None or change <= last:
            if undone_to < number:
                return int(change)
            last = undone_to
    return 0


def all_changes(connection: sqlite3.Connection) -> list[Change]:
    rows = connection.execute(f"SELECT {COLUMNS} FROM change ORDER BY change").fetchall()
    return [change_of(connection, row) for row in rows]


def files_taken(connection: sqlite3.Connection) -> tuple[set[str], set[str]]:
    """The places and the digests of all files that changes came from."""
    taken = connection.execute("SELECT path, digest FROM change WHERE digest IS NOT NULL").fetchall()
    return {place for place, _ in taken}, {digest for _, digest in taken}


def told_by(connection: sqlite3.Connection, number: int) -> list[StoredFinding]:
    """What a change told, in its order."""
    rows = connection.execute(
        "SELECT kind, part, line, id, fields FROM told WHERE change = ? ORDER BY place", (number,)
    )
    return [
        StoredFinding(kind, part, line, id, tuple(json.loads(fields).items())) for kind, part, line, id, fields in rows
    ]
