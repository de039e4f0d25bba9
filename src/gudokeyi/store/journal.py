"""The journal of commands, which is what the book is: each command with the reply that the program gave to it."""
from __future__ import annotations

import contextlib
import json
import pathlib
import sqlite3
from collections.abc import Collection, Iterable, Iterator
from typing import NamedTuple

from gudokeyi.background import Pieces
from gudokeyi.domain.commands import HEADER, Command
from gudokeyi.domain.kinds import CommandKind
from gudokeyi.domain.refusals import Refusal
from gudokeyi.store.bulk_insert import insert_many
from gudokeyi.store.database import connect

# The journal of commands, which is what the book is: each command with the reply that the program gave to it.

# how a command names no parent, or an unknown one
UNKNOWN: dict[str, None] = {"": None, "0": None}
# a command as the command file has it; `printf` writes nothing of nothing
TEXT = """
    CASE kind WHEN 'birth' THEN printf(
        'birth,%s,%s,%s,%s,,%s,%s', animal, day, ifnull(sire, '0'), ifnull(dam, '0'), taker, iif(embryo, '1', '')
    ) ELSE printf(
        '%s,%s,%s,%s,%s,%s,%s,', kind, animal, day, iif(kind = 'parents', ifnull(sire, '0'), ''),
        iif(kind = 'parents', ifnull(dam, '0'), ''), giver, taker
    ) END
"""
WITHIN = "FROM command WHERE edition = ? AND place BETWEEN ? AND ? ORDER BY place"
# so many commands are read at once
IN_A_PIECE = 4_000


class Step(NamedTuple):
    """A command with the program's reply: the number of the refusal, or 0 where it is accepted."""

    command: Command
    refusal: int = 0


class Edition(NamedTuple):
    """A journal's edition: it keeps so many commands of its predecessor, and goes on from there. The first has
    none."""

    number: int
    predecessor: int | None
    keeps: int


class Journal(NamedTuple):
    """The journal after a change: an edition up to a length."""

    edition: int
    length: int


NO_JOURNAL = Journal(0, 0)


class Part(NamedTuple):
    """The part of a journal that is written in one edition, by the first and last places."""

    edition: int
    first: int
    last: int


def edition_of(connection: sqlite3.Connection, number: int) -> Edition:
    return Edition(*connection.execute("SELECT * FROM edition WHERE edition = ?", (number,)).fetchone())


def parts_of(connection: sqlite3.Connection, journal: Journal) -> list[Part]:
    """The parts of a journal, from its beginning on."""
    parts: list[Part] = []
    number, length = journal
    while length:
        edition = edition_of(connection, number)
        if length > edition.keeps:
            parts.append(Part(number, edition.keeps + 1, length))
        number, length = edition.predecessor or 0, min(length, edition.keeps)
    return parts[::-1]


def command_file(connection: sqlite3.Connection, journal: Journal) -> bytes:
    """The journal as a command file."""
    return b"".join(pieces_of(connection, journal))


def pieces_of(connection: sqlite3.Connection, journal: Journal) -> Iterator[bytes]:
    """The same piece by piece."""
    yield HEADER
    yield from (piece_of(connection, part) for part in in_pieces(parts_of(connection, journal)))


def journal_lines(connection: sqlite3.Connection, journal: Journal) -> bytes:
    """The commands alone, each a line."""
    return b"".join(piece_of(connection, part) for part in in_pieces(parts_of(connection, journal)))


def piece_of(connection: sqlite3.Connection, part: Part) -> bytes:
    """The lines of a part. The database puts them together, in the order that it has within."""
    together = f"SELECT group_concat(line, char(10)) FROM (SELECT {TEXT} AS line {WITHIN})"
    found = connection.execute(together, part).fetchone()[0]
    # a part of a damaged book may have none
    return f"{found}\n".encode() if found else b""


def in_pieces(parts: Iterable[Part]) -> list[Part]:
    """Parts of which each has no more commands than a piece."""
    return [
        Part(edition, at, min(at + IN_A_PIECE - 1, last))
        for edition, first, last in parts
        for at in range(first, last + 1, IN_A_PIECE)
    ]


def refusals_of(connection: sqlite3.Connection, journal: Journal) -> dict[int, Refusal]:
    """The stored replies that refuse: for each its place, from 0 on, and the refusal."""
    found: dict[int, Refusal] = {}
    for part in parts_of(connection, journal):
        refused = "SELECT place - 1, refusal FROM command WHERE edition = ? AND place BETWEEN ? AND ? AND refusal > 0"
        found |= {place: Refusal(refusal) for place, refusal in connection.execute(refused, part)}
    return found


def givers_of(connection: sqlite3.Connection, journal: Journal) -> dict[str, int]:
    """The herd that gave each animal last, of those that were given on."""
    found: dict[str, int] = {}
    for part in parts_of(connection, journal):
        # SQLite answers the giver of the row that has the greatest place
        given = """
            SELECT animal, giver, max(place) FROM command
            WHERE edition = ? AND place BETWEEN ? AND ? AND kind = 'transfer' AND refusal = 0 GROUP BY animal
        """
        found |= {animal: giver for animal, giver, _ in connection.execute(given, part)}
    return found


def commands_of(connection: sqlite3.Connection, journal: Journal, numbers: Iterable[str]) -> list[Command]:
    """The accepted commands of some animals, in their order."""
    found: list[Command] = []
    some = json.dumps([*numbers])
    for part in parts_of(connection, journal):
        its = "edition = ? AND place BETWEEN ? AND ? AND animal IN (SELECT value FROM json_each(?)) AND refusal = 0"
        asked = f"SELECT {TEXT} FROM command WHERE {its} ORDER BY place"
        found += [Command(*line.split(",")) for (line,) in connection.execute(asked, (*part, some))]
    return found


def commands_between(
    connection: sqlite3.Connection, journal: Journal, kind: CommandKind, first: str, last: str
) -> Iterator[Command]:
    """The accepted commands of a kind and of some days, in the journal's order."""
    for part in parts_of(connection, journal):
        its = "edition = ? AND place BETWEEN ? AND ? AND kind = ? AND day BETWEEN ? AND ? AND refusal = 0"
        asked = f"SELECT {TEXT} FROM command WHERE {its} ORDER BY place"
        found = connection.execute(asked, (*part, kind.value, first, last))
        yield from (Command(*line.split(",")) for (line,) in found)


def registered_numbers(connection: sqlite3.Connection, journal: Journal) -> set[str]:
    """The numbers of the animals that a journal has: each has an accepted birth."""
    found = set[str]()
    for part in parts_of(connection, journal):
        born = (
            "SELECT animal FROM command WHERE edition = ? AND place BETWEEN ? AND ? AND kind = 'birth' AND refusal = 0"
        )
        found |= {animal for (animal,) in connection.execute(born, part)}
    return found


def lines_with_refusals(connection: sqlite3.Connection, part: Part) -> Iterator[tuple[str, int]]:
    """The commands of a part as lines of a command file, each with its reply."""
    return connection.execute(f"SELECT {TEXT}, refusal {WITHIN}", part)


def steps_of(text: bytes, refusals: dict[int, Refusal]) -> Iterator[Step]:
    """The commands of a command file with their replies."""
    lines = text.decode().splitlines()[1:]
    return (Step(Command(*line.split(",")), refusals.get(place, 0)) for place, line in enumerate(lines))


def accepted_commands(steps: Iterable[Step]) -> Iterator[Command]:
    return (step.command for step in steps if not step.refusal)


def alike(before: list[Step], after: list[Step]) -> int:
    """With how many steps that are the same two journals begin."""
    pairs = enumerate(zip(before, after))
    return next((at for at, (one, other) in pairs if one != other), min(len(before), len(after)))


def begin_edition(connection: sqlite3.Connection, predecessor: Journal) -> Journal:
    """A new edition that keeps a journal, with nothing behind it yet."""
    number = connection.execute("SELECT ifnull(max(edition), 0) + 1 FROM edition").fetchone()[0]
    kept = (number, predecessor.edition or None, predecessor.length)
    connection.execute("INSERT INTO edition VALUES (?, ?, ?)", kept)
    return Journal(number, predecessor.length)


def append(connection: sqlite3.Connection, journal: Journal, steps: Collection[Step]) -> Journal:
    """Writes steps behind a journal that nothing stands behind."""
    rows = ((place, *row_of(command), refusal) for place, (command, refusal) in enumerate(steps, journal.length + 1))
    insert_many(connection, "command", rows, [journal.edition])
    return Journal(journal.edition, journal.length + len(steps))


def row_of(command: Command) -> tuple[str, str, str | None, str | None, str | None, int | None, int | None, int]:
    kind, animal, day, sire, dam, from_owner, to_owner, embryo = command
    return (
        kind, animal, day or None, UNKNOWN.get(sire, sire), UNKNOWN.get(dam, dam), int(
            from_owner
        ) if from_owner else None,
        int(to_owner) if to_owner else None, int(embryo == "1"),
    )  # fmt: skip


# so many read a journal at once
READERS = 2


def command_file_in_background(connection: sqlite3.Connection, journal: Journal) -> Pieces:
    """A journal as a command file, by connections of their own to the same file. What is committed of a journal stays
    as it is, whatever is changed meanwhile; so the other connections read the same."""
    path = pathlib.Path(connection.execute("PRAGMA database_list").fetchone()[2])
    parts = in_pieces(parts_of(connection, journal))

    def read(places: Iterator[int]) -> Iterator[tuple[int, bytes]]:
        with contextlib.closing(connect(path, "rw")) as other:
            other.execute("PRAGMA query_only = ON")
            for at in places:
                yield at, piece_of(other, parts[at])

    return Pieces(HEADER, len(parts), [read] * READERS)


class Filed(NamedTuple):
    """The commands of a change. They go on from the journal, or from as many of its commands as a new edition keeps.
    `text` is the command file after them, where it was made before."""

    steps: list[Step]
    keeps: int | None = None
    text: bytes = b""
